"""Random material for request W5: ends of age 1 or more after a start, starts while such an end is
owed, what is near to them, and logs that do not keep to the order."""

import material
import reference
from material import Journey
from reference import MAX_TOKENS, State


def lasting_net(rng):
    """A net with a transition that has ages above 0."""
    while True:
        net = rng.choice([material.any_net, material.any_net, material.edged_net])(rng)
        if net.depth > 1:
            return net


def lasting(rng, net):
    """A transition that has ages above 0, where there is one; the last of them more often."""
    found = [t for t, row in enumerate(net.transitions) if row.lfd > 0] or [0]
    return rng.choice([found[-1], rng.choice(found), rng.choice(found)])


def about(rng, row):
    """An age: 0, 1, the lfd, some between, or at times just outside the interval."""
    inside = [0, 1, 1, row.lfd, row.lfd, max(row.sfd, 1), rng.randint(row.sfd, row.lfd)]
    return rng.choice(inside * 2 + [row.lfd + 1, max(row.sfd - 1, 0), row.lfd + 64])


def small_counts(rng, net):
    return material.some_counts(rng, net, lambda: rng.choice([1, 1, 2, 256]))


def an_end(rng, net):
    """A state and an end: its firing may be missing, and its place may be full."""
    t = lasting(rng, net)
    row = net.transitions[t]
    age = about(rng, row)
    counts = small_counts(rng, net)
    if age <= row.lfd:
        counts[t, age] = rng.choice([0, 0, 1, 1, 2, 256, MAX_TOKENS])
    marking = rng.choice([material.filled(rng, row.outputs), tuple(rng.randint(0, 3) for _ in net.marking)])
    return State(marking, material.with_counts(net, counts)), (65 + t, age)


def an_end_back(rng, net):
    """A state and an end to be taken back: a place may have too few tokens, and its count may be full."""
    t = lasting(rng, net)
    row = net.transitions[t]
    age = about(rng, row)
    counts = small_counts(rng, net)
    if age <= row.lfd:
        counts[t, age] = rng.choice([0, 0, 1, 256, MAX_TOKENS - 1, MAX_TOKENS, MAX_TOKENS])
    marking = rng.choice([material.emptied(rng, row.outputs), row.outputs])
    return State(marking, material.with_counts(net, counts)), (65 + t, age)


def owing(rng, net, t):
    """Counts of which one is at its lfd or a tick before it, of transition t or of another; few are above 0 besides."""
    counts = small_counts(rng, net) if rng.random() < 0.3 else {}
    due = rng.choice([t, lasting(rng, net), lasting(rng, net), len(net.transitions) - 1])
    lfd = net.transitions[due].lfd
    counts[due, rng.choice([lfd, lfd, lfd, max(lfd - 1, 0)])] = rng.choice([1, 1, 2, 256, MAX_TOKENS])
    return counts


def a_start(rng, net):
    """A state and a start while an end is owed, or soon will be: a place may be short, and its count may be full."""
    t = material.some_transition(rng, net)
    inputs = net.transitions[t].inputs
    counts = owing(rng, net, t)
    counts.setdefault((t, 0), rng.choice([0, 0, 0, 1, MAX_TOKENS, MAX_TOKENS]))
    marking = rng.choice([material.emptied(rng, inputs), tuple(2 * weight for weight in inputs), inputs])
    return State(marking, material.with_counts(net, counts)), (1 + t, 0)


def a_start_back(rng, net):
    """The same with a start to be taken back: it may have no firing, and a place may be full."""
    t = material.some_transition(rng, net)
    inputs = net.transitions[t].inputs
    counts = owing(rng, net, t)
    counts.setdefault((t, 0), rng.choice([0, 1, 1, 1, 256]))
    marking = rng.choice([material.filled(rng, inputs), (0,) * len(inputs), (0,) * len(inputs)])
    return State(marking, material.with_counts(net, counts)), (1 + t, 0)


def late_log(rng):
    """A net, a state and events: a start, and behind it an end of age 1 or more that is not owed, whose firing
    may be missing and whose place may be full; at times other events stand between."""
    while True:
        net = material.any_net(rng)
        lasting_on = [t for t, row in enumerate(net.transitions) if row.lfd > max(row.sfd, 1)]
        if lasting_on:
            break
    t, u = rng.choice(lasting_on), material.some_transition(rng, net)
    row, inputs = net.transitions[t], net.transitions[u].inputs
    age = rng.randint(max(row.sfd, 1), row.lfd - 1)
    marking = rng.choice([(0,) * len(inputs), (0,) * len(inputs), material.filled(rng, row.outputs)])
    marking = tuple(max(tokens, 2 * weight) for tokens, weight in zip(marking, inputs))
    counts = material.with_counts(net, {(t, age): rng.choice([0, 1, 1, 2, 256])})
    between = rng.choice([[], [], [(65 + u, 0)], [(1 + u, 0)], [(0, 0)]])
    return net, State(marking, counts), [(1 + u, 0), *between, (65 + t, age)]


def forefront(rng, net):
    """Events that stand in front of others and need not be permitted: many of them set or clear the fact, or nearly do."""
    transitions = len(net.transitions)
    telling = [(0, 0), (1, 0), (transitions, 0), (min(64, transitions + 1), 0), (64, 0)]
    near = [(0, 1), (0, 255), (1, 1), (64, 255), (65, 0), (66, 1), (128, 0), (129, 0), (255, 0)]
    length = rng.choice([0, 1, 1, 2, 3, 6])
    return [rng.choice(rng.choice([telling, near, near, material.candidate_pairs(rng, net)])) for _ in range(length)]


def led_to(rng, net, started):
    """A fact that is given, and events in front behind which the fact is the wanted one."""
    while True:
        given, pairs = rng.randrange(2), forefront(rng, net)
        if reference.facts(pairs, given)[-1] == started:
            return given, pairs


def free_number(net, state, event):
    """The number that the event meets where W5 is not asked, so that starts and ends may come in any order."""
    order = [number for number in reference.ORDER[event.kind] if number not in (28, 29)]
    return reference.first_of(order, reference.event_tests(net, state, event, 0))


def free_walk(rng, net, state, length):
    """Up to so many events in any order, and the state after them."""
    pairs = []
    while len(pairs) < length:
        pair = material.one_of(rng, *material.permitted(net, state, lambda event: free_number(net, state, event)))
        if pair is None:
            break
        state = reference.changed(net, state, reference.read_event(net, *pair))
        pairs.append(pair)
    return pairs, state


def free_journey(rng):
    """A journey in any order, of which as a rule the first events keep to W5's."""
    started = material.any_fact(rng)
    while True:
        net = lasting_net(rng)
        begin = rng.choice([reference.initial_state(net), material.small_state(rng, net), material.busy_state(rng, net)])
        kept, midway = material.accepted_walk(rng, net, begin, rng.choice([0, 3, 10, 30]), started)
        free, end = free_walk(rng, net, midway, rng.choice([2, 4, 8]))
        if free or rng.random() < 0.1:
            return Journey(net, begin, started, kept + free, end)

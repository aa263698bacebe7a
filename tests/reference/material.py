"""Random nets, states, events and logs: lawful, at the limits, and damaged.

Nets and states are made as the reference's own kinds and stored by the
functions at the top; damage is done to the stored bytes.
"""

from typing import NamedTuple

import reference
from reference import MAX_TOKENS, Event, Net, Refused, State, Transition

EDGE_FIRSTS = (0, 1, 64, 65, 128, 129, 255)
EDGE_SECONDS = (0, 1, 255)


# ---- stored forms


def encode_net(net):
    body = b"".join(tokens.to_bytes(2, "big") for tokens in net.marking)
    for row in net.transitions:
        body += bytes([row.sfd, row.lfd, *row.inputs, *row.outputs])
    sizes = bytes([len(net.marking), len(net.transitions)])
    return with_head(sizes + body)


def encode_log(pairs):
    return with_head(bytes(byte for pair in pairs for byte in pair))


def with_head(body):
    """The body behind a version byte and the length of the whole."""
    return bytes([1]) + (5 + len(body)).to_bytes(4, "big") + body


def with_length(data):
    """The bytes with their length field set to their own length."""
    return data[:1] + len(data).to_bytes(4, "big") + data[5:]


# ---- nets


def weights(rng, places, most, limit=2):
    """A row of weights with one to `limit` places above 0."""
    row = [0] * places
    for p in rng.sample(range(places), rng.randint(1, min(limit, places))):
        row[p] = rng.randint(1, most)
    return tuple(row)


def interval(rng, longest):
    lfd = rng.randint(0, longest)
    return rng.choice([0, lfd, rng.randint(0, lfd)]), lfd


def sizes(rng):
    return rng.randint(1, 5), rng.randint(1, 5)


def mixed_net(rng):
    places, transitions = sizes(rng)
    most = rng.choice([1, 1, 2, 3])
    rows = [
        Transition(*interval(rng, 3), weights(rng, places, most), weights(rng, places, most))
        for _ in range(transitions)
    ]
    return Net(tuple(rng.randint(0, 4) for _ in range(places)), tuple(rows))


def moving_net(rng):
    """Each transition moves a token on, so runs need not end."""
    places, transitions = sizes(rng)
    rows = []
    for _ in range(transitions):
        unit = [tuple(int(p == chosen) for p in range(places)) for chosen in rng.choices(range(places), k=2)]
        rows.append(Transition(*interval(rng, 4), *unit))
    return Net(tuple(rng.randint(0, 2) for _ in range(places)), tuple(rows))


def ring_net(rng):
    """Tokens go round, and at least one transition takes time."""
    length = rng.randint(1, 4)
    rows = []
    for t in range(length):
        here = tuple(int(p == t) for p in range(length))
        there = tuple(int(p == (t + 1) % length) for p in range(length))
        sfd, lfd = interval(rng, 3)
        rows.append(Transition(*((1, max(1, lfd)) if t == 0 else (sfd, lfd)), here, there))
    return Net(tuple([rng.randint(1, 3)] + [rng.randint(0, 1) for _ in range(length - 1)]), tuple(rows))


def growing_net(rng):
    """Outputs outweigh inputs, and the marking begins near its limit."""
    places, transitions = rng.randint(1, 3), rng.randint(1, 3)
    rows = [
        Transition(*interval(rng, 2), weights(rng, places, 2), weights(rng, places, 255))
        for _ in range(transitions)
    ]
    marking = [rng.choice([65_535, 65_534, 65_300, rng.randint(64_000, 65_535), 2]) for _ in range(places)]
    return Net(tuple(marking), tuple(rows))


def heavy_net(rng):
    """Weights of 255 and about it, markings at multiples of them and about these."""
    places, transitions = sizes(rng)

    def row():
        return tuple(rng.choice([0, 0, 1, 254, 255]) for _ in range(places))

    rows = []
    for _ in range(transitions):
        inputs, outputs = (values if any(values) else (255,) * places for values in (row(), row()))
        rows.append(Transition(*interval(rng, 2), inputs, outputs))
    marking = [max(0, min(MAX_TOKENS, 255 * rng.choice([0, 1, 2, 257]) + rng.randint(-1, 1))) for _ in range(places)]
    return Net(tuple(marking), tuple(rows))


def instant_net(rng):
    net = mixed_net(rng)
    return net._replace(transitions=tuple(row._replace(sfd=0, lfd=0) for row in net.transitions))


def fixed_net(rng):
    net = moving_net(rng)
    return net._replace(transitions=tuple(row._replace(sfd=row.lfd) for row in net.transitions))


def slow_net(rng):
    """Durations up to 63, so that D is up to 64."""
    places, transitions = rng.randint(1, 3), rng.randint(1, 2)
    rows = []
    for _ in range(transitions):
        lfd = rng.choice([63, 63, 62, rng.randint(10, 63)])
        sfd = rng.choice([0, lfd, lfd - 1, rng.randint(0, lfd)])
        rows.append(Transition(sfd, lfd, weights(rng, places, 1), weights(rng, places, 1)))
    return Net(tuple(rng.randint(0, 2) for _ in range(places)), tuple(rows))


def sparse_net(rng, places, transitions, longest):
    rows = [
        Transition(*interval(rng, longest), weights(rng, places, 3, 3), weights(rng, places, 3, 3))
        for _ in range(transitions)
    ]
    return Net(tuple(rng.randint(0, 2) for _ in range(places)), tuple(rows))


def wide_net(rng):
    return sparse_net(rng, rng.choice([64, 64, 63]), rng.randint(1, 2), 2)


def tall_net(rng):
    return sparse_net(rng, rng.randint(1, 2), rng.choice([64, 64, 63]), rng.choice([0, 1]))


def full_net(rng):
    """The longest net: 64 places, 64 transitions, D = 64."""
    net = sparse_net(rng, 64, 64, 63)
    rows = list(net.transitions)
    for t in rng.sample(range(64), 4):
        rows[t] = rows[t]._replace(sfd=rng.choice([0, 62, 63]), lfd=63)
    rows[0] = rows[0]._replace(sfd=63, lfd=63, inputs=(255,) * 64, outputs=(255,) * 64)
    return Net(net.marking, tuple(rows))


NET_KINDS = (
    (mixed_net, 30),
    (moving_net, 20),
    (ring_net, 20),
    (growing_net, 8),
    (heavy_net, 8),
    (instant_net, 4),
    (fixed_net, 5),
    (slow_net, 4),
    (wide_net, 1.5),
    (tall_net, 1.5),
)


def any_net(rng):
    kinds, shares = zip(*NET_KINDS)
    return rng.choices(kinds, shares)[0](rng)


# ---- states


def edge_value(rng):
    return rng.choice([0, 1, 2, 255, 256, 65_280, 65_534, 65_535, rng.randint(0, 255), rng.randint(0, MAX_TOKENS)])


def some_transition(rng, net):
    """Any transition, the last one more often."""
    last = len(net.transitions) - 1
    return rng.choice([last, rng.randint(0, last), rng.randint(0, last)])


def with_counts(net, counts):
    """Rows of counts, from (transition, age) to count."""
    return tuple(
        tuple(counts.get((t, age), 0) for age in range(net.depth)) for t in range(len(net.transitions))
    )


def some_counts(rng, net, value, spare_lfd=False):
    """Counts of up to four pairs of a transition and a lawful age."""
    counts = {}
    for _ in range(rng.randint(0, 4)):
        t = rng.randrange(len(net.transitions))
        ages = net.transitions[t].lfd + (0 if spare_lfd else 1)
        if ages > 0:
            counts[t, rng.choice([0, ages - 1, rng.randrange(ages)])] = value()
    return counts


def without_owed_ends(net, counts):
    """The counts with none at a transition's lfd, but for one of 0."""
    rows = zip(net.transitions, counts)
    return tuple(ages[: t.lfd] + (0,) + ages[t.lfd + 1 :] if t.lfd > 0 else ages for t, ages in rows)


def small_state(rng, net):
    marking = tuple(rng.randint(0, 4) for _ in net.marking)
    return State(marking, with_counts(net, some_counts(rng, net, lambda: rng.randint(1, 3))))


def wild_state(rng, net):
    marking = tuple(edge_value(rng) for _ in net.marking)
    return State(marking, with_counts(net, some_counts(rng, net, lambda: edge_value(rng))))


def quiet_state(rng, net):
    """Nothing is enabled and nothing due: at rest, or free to tick."""
    marking = [rng.choice([0, 1, 3, edge_value(rng)]) for _ in net.marking]
    for row in net.transitions:
        if all(weight <= tokens for weight, tokens in zip(row.inputs, marking)):
            p = rng.choice([p for p, weight in enumerate(row.inputs) if weight > 0])
            marking[p] = rng.choice([0, row.inputs[p] - 1])
    counts = {}
    if rng.random() < 0.75:
        counts = some_counts(rng, net, lambda: rng.choice([1, 2, edge_value(rng)]), spare_lfd=True)
    return State(tuple(marking), with_counts(net, counts))


def due_state(rng, net):
    """Nothing is enabled, and some transition has a count at its lfd."""
    t = rng.randrange(len(net.transitions))
    counts = some_counts(rng, net, lambda: rng.choice([1, 2, edge_value(rng)]))
    counts[t, net.transitions[t].lfd] = rng.choice([1, 2, 65_535])
    return State(quiet_state(rng, net).marking, with_counts(net, counts))


def just_ticked_state(rng, net):
    """As a tick leaves it: as a rule every age 0 is empty and nothing is enabled."""
    state = quiet_state(rng, net)
    counts = some_counts(rng, net, lambda: rng.choice([1, 2, edge_value(rng)]))
    if rng.random() < 0.85:
        counts = {(t, age): count for (t, age), count in counts.items() if age > 0}
    if rng.random() < 0.1:
        state = small_state(rng, net)
    return State(state.marking, with_counts(net, counts))


def beyond(rng, weights):
    """A place that has a weight, or several, and at each by how much its weight passes a limit:
    mostly not at all or by one."""
    places = [p for p, weight in enumerate(weights) if weight > 0]
    chosen = {rng.choice([places[-1], rng.choice(places)]) for _ in range(rng.choice([1, 1, 1, 2, 3]))}
    return {p: min(weights[p], rng.choice([0, 0, 0, 1, 1, 1, 2, 255])) for p in chosen}


def filled(rng, weights):
    """A marking that the weights fill to the limit at a place or several, or that they pass there."""
    marking = [min(edge_value(rng), MAX_TOKENS - weight) for weight in weights]
    for p, by in beyond(rng, weights).items():
        marking[p] = MAX_TOKENS - weights[p] + by
    return tuple(marking)


def emptied(rng, weights):
    """A marking from which the weights take all at a place or several, or more than there is."""
    marking = [max(edge_value(rng), weight) for weight in weights]
    for p, by in beyond(rng, weights).items():
        marking[p] = weights[p] - by
    return tuple(marking)


def start_at_limit(rng, net):
    """A state with the count at age 0 near its limit, and the start that meets it."""
    t = rng.randrange(len(net.transitions))
    inputs = net.transitions[t].inputs
    marking = emptied(rng, inputs) if rng.random() < 0.5 else tuple(3 * weight for weight in inputs)
    counts = some_counts(rng, net, lambda: edge_value(rng))
    counts[t, 0] = rng.choice([65_535, 65_535, 65_535, 65_534])
    return State(marking, without_owed_ends(net, with_counts(net, counts))), (1 + t, 0)


def end_at_limit(rng, net):
    """A state where an end fills a place to its limit or passes it, and that end."""
    t = rng.randrange(len(net.transitions))
    row = net.transitions[t]
    age = rng.randint(row.sfd, row.lfd)
    counts = some_counts(rng, net, lambda: edge_value(rng))
    counts[t, age] = rng.choice([0, 0, 1, 1, 2, 2, 65_535])
    return State(filled(rng, row.outputs), with_counts(net, counts)), (65 + t, age)


def start_back_at_limit(rng, net):
    """A state where taking a start back fills a place to its limit or passes it."""
    t = some_transition(rng, net)
    counts = some_counts(rng, net, lambda: edge_value(rng))
    counts[t, 0] = rng.choice([0, 0, 1, 1, 2, 256, 65_280, 65_534, 65_535])
    rows = with_counts(net, counts)
    if rng.random() < 0.7:
        rows = without_owed_ends(net, rows)
    return State(filled(rng, net.transitions[t].inputs), rows), (1 + t, 0)


def end_back_at_limit(rng, net):
    """A state where taking an end back meets an empty place or a full count."""
    t = some_transition(rng, net)
    row = net.transitions[t]
    age = rng.choice([row.lfd, rng.randint(row.sfd, row.lfd)])
    counts = some_counts(rng, net, lambda: edge_value(rng))
    counts[t, age] = rng.choice([0, 1, 255, 65_534, 65_535, 65_535, 65_535])
    return State(emptied(rng, row.outputs), with_counts(net, counts)), (65 + t, age)


def end_back_outside(rng, net):
    """The same at an age just outside the interval, or far; below it the count may be full."""
    state, (first, _) = end_back_at_limit(rng, net)
    t = first - 65
    row = net.transitions[t]
    age = rng.choice([max(row.sfd - 1, 0), max(row.sfd - 1, 0), row.lfd + 1, net.depth, row.lfd + 64, row.lfd + 128, 255])
    if age < row.sfd and rng.random() < 0.6:
        full = reference.with_count(state.counts, t, age, MAX_TOKENS - state.counts[t][age])
        state = state._replace(counts=full)
    return state, (first, age)


def lone_firing(rng, net):
    """Firings of one transition and one age, and nothing enabled or just that transition."""
    t = some_transition(rng, net)
    row = net.transitions[t]
    counts = with_counts(net, {(t, rng.choice([0, row.lfd, rng.randint(0, row.lfd)])): rng.choice([1, 2, 256, 65_535])})
    return State(rng.choice([quiet_state(rng, net).marking, row.inputs]), counts)


def tick_back(rng, net):
    """A state of any kind, from which a tick is to be taken back."""
    make = rng.choice([just_ticked_state, lone_firing, lone_firing, quiet_state, small_state, wild_state])
    return make(rng, net), (0, 0)


# what makes a state from which the step back may be refused by the number
BARRED = {
    15: end_back_outside,
    18: tick_back,
    20: tick_back,
    21: tick_back,
    24: start_back_at_limit,
    25: start_back_at_limit,
    26: end_back_at_limit,
    27: end_back_at_limit,
}


def edged_net(rng):
    """A net, more often than otherwise one of many ages, places or transitions."""
    return rng.choice([any_net, any_net, any_net, slow_net, wide_net, tall_net])(rng)


def barred_step(rng, number, make):
    """A net, a state that the function makes, an event that is refused by the number when it is taken back
    from there, and whether a start had happened before it."""
    while True:
        net, started = edged_net(rng), any_fact(rng)
        state, pair = make(rng, net)
        event = reference.read_event(net, *pair)
        holds = reference.back_tests(net, state, event, started)
        if reference.first_of(reference.BACK_ORDER[event.kind], holds) == number:
            return net, state, pair, started


def short_row(rng, places):
    """Input weights, and a marking that lacks tokens for them. The lowest place that
    lacks any may be any of them; those below it may have just their weight, and
    those above it may lack more or fewer."""
    lowest = rng.choice([0, rng.randrange(places), places - 1])
    share = rng.choice([0.4, 0.7, 1])
    inputs, marking = [], []
    for p in range(places):
        weight = rng.choice([1, 2, 3, 254, 255, 255, 255, rng.randint(1, 255)])
        if p != lowest and rng.random() > share:
            weight = 0
        if p == lowest or (p > lowest and weight > 0 and rng.random() < 0.7):
            tokens = rng.choice([0, 0, weight - 1, rng.randrange(weight)])
        else:
            tokens = rng.choice([weight, weight, weight + 1, max(weight, edge_value(rng))])
        inputs.append(weight)
        marking.append(tokens)
    return tuple(inputs), tuple(marking)


def short_start(rng):
    """A net, a state, and a transition that lacks tokens there; its count at age 0 may be full."""
    places = rng.choice([2, 3, 5, 8, 9, 17, 63, 64, 64, 64, 64, 64])
    inputs, marking = short_row(rng, places)
    rows = [
        Transition(*interval(rng, 2), weights(rng, places, 3), weights(rng, places, 3))
        for _ in range(rng.choice([0, 0, 1, 2]))
    ]
    t = rng.randint(0, len(rows))
    rows.insert(t, Transition(*interval(rng, 2), inputs, weights(rng, places, 3)))
    net = Net(marking, tuple(rows))
    counts = some_counts(rng, net, lambda: rng.choice([1, 2, edge_value(rng)]))
    if rng.random() < 0.3:
        counts[t, 0] = MAX_TOKENS
    return net, State(marking, with_counts(net, counts)), t


def busy_state(rng, net):
    """Several ends and several starts may be owed, each more than once."""
    transitions = range(len(net.transitions))
    counts = some_counts(rng, net, lambda: rng.randint(1, 3))
    for t in rng.sample(transitions, rng.randint(0, min(3, len(transitions)))):
        counts[t, net.transitions[t].lfd] = rng.choice([1, 1, 2, 3])
    marking = tuple(rng.choice([0, 1, 2, 6]) for _ in net.marking)
    return State(marking, with_counts(net, counts))


def crowded_state(rng, net):
    """A start fills a count to its limit, or would pass it, as a rule after other events."""
    t = rng.choice([t for t, row in enumerate(net.transitions) if row.lfd > 0] or [0])
    counts = some_counts(rng, net, lambda: rng.choice([1, 1, 2, 3]), spare_lfd=rng.random() < 0.7)
    starts = rng.choice([0, 0, 1, 1, 2])
    counts[t, 0] = MAX_TOKENS - starts
    times = starts + rng.choice([0, 1, 1, 1, 2])
    marking = [times * weight + rng.choice([0, 0, 0, 1, 4]) for weight in net.transitions[t].inputs]
    return State(tuple(marking), with_counts(net, counts))


def brimming_state(rng, net):
    """An owed end fills a place to its limit, or would pass it, as a rule after other ends."""
    t = rng.randrange(len(net.transitions))
    row = net.transitions[t]
    counts = some_counts(rng, net, lambda: rng.choice([1, 1, 2, 3]))
    times = counts[t, row.lfd] = rng.choice([1, 2, 3])
    marking = [rng.choice([0, 1, 5]) for _ in net.marking]
    p = rng.choice([p for p, weight in enumerate(row.outputs) if weight > 0])
    marking[p] = MAX_TOKENS - times * row.outputs[p] + rng.choice([0, 0, 1, 1, 1, row.outputs[p]])
    return State(tuple(marking), with_counts(net, counts))


def reached_state(rng, net, steps):
    return accepted_walk(rng, net, reference.initial_state(net), steps)[1]


def any_state(rng, net):
    kind = rng.randrange(8)
    if kind == 0:
        return reference.initial_state(net)
    if kind <= 3:
        return reached_state(rng, net, rng.randint(1, 30))
    return (small_state, small_state, wild_state, quiet_state)[kind - 4](rng, net)


# ---- events and logs


def any_fact(rng):
    """Whether a start has happened: mostly none."""
    return int(rng.random() < 0.4)


def number_of(net, state, pair, started):
    """The number that the event is told in this state."""
    try:
        event = reference.read_event(net, *pair)
    except Refused as refused:
        return refused.number
    return reference.number_met(net, state, event, started)


def permitted(net, state, number):
    """The events of which the function tells no number, by kind."""
    transitions = range(len(net.transitions))
    starts = [Event(reference.START, t) for t in transitions]
    ends = [
        Event(reference.END, t, age)
        for t in transitions
        for age in range(net.transitions[t].sfd, net.transitions[t].lfd + 1)
        if state.counts[t][age] > 0
    ]
    kinds = ([Event(reference.TICK)], starts, ends)
    return [[reference.bytes_of(event) for event in events if number(event) == 0] for events in kinds]


def one_of(rng, ticks, starts, ends):
    """One of these events, or None."""
    if ticks and (not ends or rng.random() < 0.6):
        return ticks[0]
    kinds = [events for events in (starts, ends) if events]
    return rng.choice(rng.choice(kinds)) if kinds else None


def permitted_pair(rng, net, state, started):
    """A permitted event, or None."""
    return one_of(rng, *permitted(net, state, lambda event: reference.number_met(net, state, event, started)))


def candidate_pairs(rng, net):
    """Events of every kind, malformed ones and those at the edges of the ranges too."""
    transitions = len(net.transitions)
    chosen = range(transitions) if transitions <= 5 else rng.sample(range(transitions), 5)
    pairs = [(0, 0)]
    for t in chosen:
        row = net.transitions[t]
        ages = {0, row.sfd, row.lfd, row.lfd + 1, max(0, row.sfd - 1), rng.randint(0, row.lfd), 255}
        pairs += [(1 + t, 0)] + [(65 + t, age) for age in sorted(ages)]
    pairs += [(first, second) for first in EDGE_FIRSTS for second in EDGE_SECONDS]
    pairs += [(min(64, transitions + 1), 0), (min(128, 65 + transitions), 0)]
    pairs.append((rng.randrange(256), rng.randrange(256)))
    return pairs


def refused_pair(rng, net, state, started):
    """A refused event, each number that this state can tell as likely as another."""
    by_number = {}
    for pair in candidate_pairs(rng, net):
        by_number.setdefault(number_of(net, state, pair, started), []).append(pair)
    number = rng.choice(sorted(number for number in by_number if number))
    return rng.choice(by_number[number])


def stumbling_walk(rng, net, state, pairs, started):
    """An accepted walk with a refused event put in somewhere, each number that
    can be told at a few places of it as likely as another."""
    places = {0, len(pairs), *(rng.randint(0, len(pairs)) for _ in range(4))}
    by_number = {}
    for place, fact in enumerate(reference.facts(pairs, started)):
        if place in places:
            for pair in candidate_pairs(rng, net):
                by_number.setdefault(number_of(net, state, pair, fact), []).append((place, pair))
        if place < len(pairs):
            state = reference.forward(net, state, reference.read_event(net, *pairs[place]), fact)
    number = rng.choice(sorted(number for number in by_number if number))
    place, pair = rng.choice(by_number[number])
    return pairs[:place] + [pair] + pairs[place : place + rng.choice([0, 1, len(pairs)])]


def short_log(rng):
    """A net, a state to begin at, and events: starts that are permitted, then one
    that lacks tokens, as a rule because of these, and at times more behind it."""
    net, state, t = short_start(rng)
    u = rng.choice([t, t, rng.randrange(len(net.transitions))])
    n = rng.randint(0, 4)
    held = zip(state.marking, net.transitions[u].inputs)
    marking = tuple(min(MAX_TOKENS, tokens + n * weight) for tokens, weight in held)
    counts = reference.with_count(state.counts, u, 0, -min(n, state.counts[u][0]))
    if rng.random() < 0.8:
        counts = without_owed_ends(net, counts)
    behind = rng.choice([[], [], [(1 + t, 0)], [(65 + t, 0), (1 + t, 0)], [(0, 0)]])
    return net, State(marking, counts), [(1 + u, 0)] * n + [(1 + t, 0)] + behind


def any_pair(rng, net, state, started):
    pair = permitted_pair(rng, net, state, started) if rng.random() < 0.3 else None
    return pair or refused_pair(rng, net, state, started)


def accepted_walk(rng, net, state, length, started=0):
    """Up to so many permitted events one after another, and the state after them."""
    pairs = []
    while len(pairs) < length:
        pair = permitted_pair(rng, net, state, started)
        if pair is None:
            break
        state = reference.forward(net, state, reference.read_event(net, *pair), started)
        started = reference.fact_after(started, pair)
        pairs.append(pair)
    return pairs, state


class Journey(NamedTuple):
    net: Net
    begin: State
    started: int
    pairs: list
    end: State


def journey(rng):
    """A net, a state to begin at, whether a start had happened there, accepted events, and the state
    after them. A net whose runs end far too early is mostly put back for another."""
    longest = rng.choice([3, 12, 40, 40, 110, 110, 110, 400])
    length = rng.choice([longest, rng.randint(0, longest)])
    for _ in range(4):
        net = any_net(rng)
        begin = reference.initial_state(net) if rng.random() < 0.7 else any_state(rng, net)
        started = any_fact(rng)
        pairs, end = accepted_walk(rng, net, begin, length, started)
        if len(pairs) > length // 2:
            break
    return Journey(net, begin, started, pairs, end)


# ---- pages


def page_course(net, state, most):
    """The events that the page runner does from here, at most so many, and why it stops."""
    log = bytearray(reference.LOG_HEAD + 2 * most)
    _, _, stop, events, _ = reference.page(encode_net(net), bytearray(reference.state_image(net, state)), log, most)
    return events, stop


def page_start(rng, kinds):
    """A net, a state of one of these kinds where a page may begin, and the number of
    events from there to a stop; where there is none, some number. Pages of no event,
    and those that do not stop, are mostly put back for another."""
    for _ in range(4):
        net = any_net(rng)
        state = rng.choice(kinds)(rng, net)
        most = rng.choice([12, 40, 40, 40, 90, 90, 300])
        events, stop = page_course(net, state, most)
        if (events > 0 and stop != reference.BUDGET_SPENT) or rng.random() < 0.3:
            break
    return net, state, events if stop != reference.BUDGET_SPENT else rng.randint(1, most)


def page_bounds(rng, events):
    """A length of the buffer and a budget: ample for so many events and a stop behind
    them, or one or both of them about what these need."""
    exact = reference.LOG_HEAD + 2 * events
    sizes = [exact, exact, exact, exact + 1, exact + 1, exact - 1, exact - 2, rng.choice([5, 6, 7, rng.randint(5, exact)])]
    budgets = [events, events, events - 1, events - 1, 0, rng.randint(0, events)]
    size = exact + rng.choice([2, 2, 3, 9, rng.randint(2, 60)])
    budget = rng.choice([events + 1, events + 1, events + 100, 65_536, 2**31, 2**32 - 1])
    tight = rng.choice(["", "", "", "", "size", "size", "size", "budget", "budget", "both"])
    if tight in ("size", "both"):
        size = max(reference.LOG_HEAD, rng.choice(sizes))
    if tight in ("budget", "both"):
        budget = max(0, rng.choice(budgets))
    return size, budget


# ---- damage


def room(rng, image):
    """The image at the front of a buffer, mostly with nothing behind it."""
    behind = rng.choice([0, 0, 0, 0, 0, 0, 1, 2, rng.randint(1, 20), rng.randint(1, 120)])
    return image + rng.randbytes(behind)


def flipped(rng, data, below=None):
    """One byte changed, somewhere or among the first ones."""
    if not data:
        return data
    at = rng.randrange(min(len(data), below or len(data)))
    value = rng.choice([0, 1, 255, data[at] ^ 1 << rng.randrange(8), (data[at] + 1) % 256, (data[at] - 1) % 256])
    if value == data[at]:
        value ^= 1
    return data[:at] + bytes([value]) + data[at + 1 :]


def cut_or_grown(rng, data):
    """Some bytes fewer or more, the length field right or not."""
    change = rng.choice([-1, -1, -2, 1, 1, 2, -rng.randint(1, 20), rng.randint(1, 20)])
    data = data[:change] if change < 0 else data + rng.randbytes(change)
    if len(data) >= 5 and rng.random() < 0.6:
        data = with_length(data)
    return data


def very_short(rng, data, head):
    """Fewer bytes than the head has, or just as many."""
    data = data[: rng.choice([0, 0, 1, 4, 5, head - 1, head])]
    return with_length(data) if len(data) >= 5 and rng.random() < 0.5 else data


def replaced(data, changes):
    data = bytearray(data)
    for at, value in changes.items():
        data[at] = value
    return bytes(data)


def net_with_sizes(rng, data):
    """P or T outside 1..64 or not what the length is made for."""
    at = rng.choice([5, 6])
    value = rng.choice([0, 0, 65, 65, 255, 64, data[at] + 1, max(0, data[at] - 1)])
    return replaced(data, {at: value})


def missized_net(rng):
    """P or T of 0 or 65, all else as it should be."""
    places, transitions = rng.choice([(65, 1), (1, 65), (0, 2), (2, 0), (0, 0)])
    rows = [Transition(0, 1, (1,) * places, (1,) * places)] * transitions
    return encode_net(Net((0,) * places, tuple(rows)))


def net_with_bad_rows(rng, data):
    """One to three transitions with a bad interval or with no weights."""
    places, transitions = data[5], data[6]
    changes = {}
    for _ in range(rng.choice([1, 1, 2, 3])):
        row = 7 + 2 * places + rng.randrange(transitions) * (2 + 2 * places)
        fault = rng.choice([0, 1, 2, 3, 3, 4])
        if fault == 0:
            changes[row], changes[row + 1] = rng.choice([(1, 0), (63, 62), (255, 3), (64, 63)])
        elif fault == 1:
            changes[row], changes[row + 1] = rng.choice([(0, 64), (64, 64), (3, 255), (0, 255)])
        if fault in (2, 4):
            changes.update({row + 2 + p: 0 for p in range(places)})
        if fault in (3, 4):
            changes.update({row + 2 + places + p: 0 for p in range(places)})
    return replaced(data, changes)


def damaged_net(rng, data):
    kind = rng.randrange(9)
    if kind <= 1:
        return flipped(rng, data)
    if kind == 2:
        return flipped(rng, data, below=7)
    if kind == 3:
        return cut_or_grown(rng, data)
    if kind == 4:
        return very_short(rng, data, 7)
    if kind == 5:
        return missized_net(rng) if rng.random() < 0.3 else net_with_sizes(rng, data)
    return net_with_bad_rows(rng, data)


def count_above_lfd(rng, net, data):
    """A lawful image with counts above the own lfd of one to three transitions, where D allows it."""
    depth = net.depth
    shorter = [t for t, row in enumerate(net.transitions) if row.lfd + 1 < depth]
    if not shorter:
        return flipped(rng, data, below=8)
    changes = {}
    for t in rng.sample(shorter, min(len(shorter), rng.choice([1, 2, 3]))):
        age = rng.choice([net.transitions[t].lfd + 1, depth - 1])
        at = 8 + 2 * len(net.marking) + 2 * (t * depth + age)
        changes[at + rng.randrange(2)] = rng.choice([1, 255])
    return replaced(data, changes)


def damaged_state(rng, net, data):
    """Damage to a buffer that begins with a lawful image."""
    image = data[: reference.state_length(net)]
    kind = rng.randrange(9)
    if kind <= 1:
        return flipped(rng, data)
    if kind == 2:
        return flipped(rng, data, below=8)
    if kind == 3:
        return image[:-1]
    if kind == 4:
        return cut_or_grown(rng, image)
    if kind == 5:
        return very_short(rng, image, 8)
    return count_above_lfd(rng, net, data)


def damaged_log(rng, data):
    kind = rng.randrange(7)
    if kind == 0:
        return flipped(rng, data)
    if kind == 1:
        return flipped(rng, data, below=5)
    if kind == 6:
        return bytes([rng.choice([0, 2, 255])]) + data[1:]
    if kind == 2:
        return cut_or_grown(rng, data)
    if kind == 3:
        return very_short(rng, data, 5)
    if kind == 4:
        return with_length(data[:-1] if len(data) > 5 else data + b"\0")
    return with_length(data + rng.randbytes(1))

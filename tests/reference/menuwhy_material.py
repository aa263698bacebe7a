"""Random logs and last states for `menuwhy`: lawful ones, and those of boxes that break a rule."""

import generate
import material
import opening_material
import reference
from reference import MAX_TOKENS, Refused, State

REFUSALS = 11, 12, 13, 15, 16, 17, 18, 19, 20, 28, 29
NO_EVENTS = (0, 1), (0, 255), (1, 1), (64, 9), (129, 0), (255, 255), (200, 3)


# ---- logs: each makes a net, events, and the state that a box may have at its end


def walk_from(rng, net, begin, started=0):
    return material.accepted_walk(rng, net, begin, rng.choice([0, 1, 2, 5, 12, 12, 30, 30, 30, 90]), started)


def lawful(rng):
    """A log that keeps the rules; one that ends far too early is mostly put back for another."""
    for _ in range(3):
        kinds = [material.any_net, material.any_net, opening_material.lasting_net, material.ring_net]
        net = rng.choice(kinds if rng.random() < 0.98 else [material.full_net])(rng)
        pairs, end = walk_from(rng, net, reference.initial_state(net))
        if len(pairs) > 3:
            break
    return net, pairs, end


def bounded(number):
    return max(0, min(MAX_TOKENS, number))


def careless(net, pairs):
    """The state of a box that does every event that is one, whatever the rules say."""
    state = reference.initial_state(net)
    for pair in pairs:
        try:
            event = reference.read_event(net, *pair)
        except Refused:
            continue
        if event.age < net.depth:
            marking, counts = reference.changed(net, state, event)
            state = State(tuple(map(bounded, marking)), tuple(tuple(map(bounded, row)) for row in counts))
    return state


def refusals(rng, net, pairs, number):
    """Where in lawful events an event would be refused by the number, and the event."""
    state, found = reference.initial_state(net), []
    for place, fact in enumerate(reference.facts(pairs, 0)):
        told = ((pair, material.number_of(net, state, pair, fact)) for pair in material.candidate_pairs(rng, net))
        found += [(place, pair) for pair, met in told if met == number]
        if place < len(pairs):
            state = reference.forward(net, state, reference.read_event(net, *pairs[place]), fact)
    return found


def stumbling(rng):
    """Lawful events with one put in that is refused, each number as likely as another."""
    number = rng.choice(REFUSALS)
    make = {17: material.growing_net, 28: opening_material.lasting_net, 29: opening_material.lasting_net}.get(number, material.any_net)
    while True:
        net = make(rng)
        pairs, _ = material.accepted_walk(rng, net, reference.initial_state(net), rng.choice([3, 12, 25, 40]))
        found = refusals(rng, net, pairs, number) if len(pairs) > 2 or rng.random() < 0.2 else []
        if found:
            place, pair = rng.choice([found[0], found[-1], *rng.choices(found[len(found) // 3 :], k=4)])
            pairs = pairs[:place] + [pair] + pairs[place : place + rng.choice([0, 1, 1_000, 1_000])]
            return net, pairs, careless(net, pairs)


def slipping(rng):
    """A log by a box that once leaves an event out, does it twice or too late, or logs another."""
    net, pairs, _ = lawful(rng)
    if pairs:
        at = rng.randrange(len(pairs))
        event = pairs.pop(at)
        put_in = rng.choice([[], [], [event] * 2, [rng.choice(material.candidate_pairs(rng, net))]])
        pairs[at:at] = put_in
        if not put_in and rng.random() < 0.6:
            pairs.insert(min(len(pairs), at + rng.choice([1, 1, 2, 5])), event)
    return net, pairs, careless(net, pairs)


def free_ordered(rng):
    """A log that does not keep to the order within a step."""
    net = opening_material.lasting_net(rng)
    kept, midway = material.accepted_walk(rng, net, reference.initial_state(net), rng.choice([0, 3, 10, 30]))
    free, end = opening_material.free_walk(rng, net, midway, rng.choice([2, 4, 8]))
    return net, kept + free, end


def lacking(rng):
    """Starts of which one lacks tokens, as a rule at a high place."""
    net, begin, pairs = material.short_log(rng)
    net = net._replace(marking=begin.marking)
    return net, pairs, careless(net, pairs)


def barred(rng):
    """A log whose walk stops at an event, each number as likely as another; the run is mostly refused early."""
    number = rng.choice([11, 12, *generate.BARRED])
    if number in (11, 12):
        net, started = material.any_net(rng), 0
        beyond = len(net.transitions) + 1
        state = reference.initial_state(net)
        pair = rng.choice(NO_EVENTS if number == 11 or beyond > 64 else [(beyond, 0), (64 + beyond, 0), (64, 0), (128, 1)])
    else:
        net, state, pair, started = material.barred_step(rng, number, generate.BARRED[number])
    given = 1
    while given:
        given, before = opening_material.led_to(rng, net, started)
    behind, end = walk_from(rng, net, state, reference.fact_after(started, pair))
    return net, before + [pair] + behind, end


def begun_elsewhere(rng):
    """A log that leads lawfully to its last state, but from another state than the initial one."""
    net, pairs, end = lawful(rng)
    kind = rng.randrange(4)
    if kind == 0:
        cut = rng.randint(0, min(6, len(pairs)))
        return net, pairs[cut:], end
    begin = reference.initial_state(net)
    if kind == 1:
        begin = material.any_state(rng, net)
    else:
        counts = material.some_counts(rng, net, lambda: rng.choice([1, 1, 2]), spare_lfd=True)
        begin = begin._replace(counts=material.with_counts(net, counts))
    return net, *walk_from(rng, net, begin)


def long_log(rng):
    """A long log, or one of about the greatest length."""
    events = rng.choice([23_999, 24_000, 24_000, 24_001, 32_765])
    net = generate.ever_running(rng)
    pairs, end = material.accepted_walk(rng, net, reference.initial_state(net), rng.choice([50, 2_000, 5_000]))
    return net, (pairs + rng.choice([[], [(0, 0)] * events, [(1, 0)] * events]))[:events], end


LOGS = (
    (lawful, 24),
    (stumbling, 34),
    (slipping, 16),
    (free_ordered, 6),
    (lacking, 6),
    (barred, 22),
    (begun_elsewhere, 14),
    (long_log, 0.5),
)


# ---- the last state


def with_other_mark(rng, state):
    p = rng.randrange(len(state.marking))
    tokens = rng.choice([bounded(state.marking[p] + rng.choice([-1, 1, 1, 256])), material.edge_value(rng)])
    return state._replace(marking=state.marking[:p] + (tokens,) + state.marking[p + 1 :])


def with_other_count(rng, net, state):
    """The state with one count changed, seldom one above its transition's lfd."""
    t = material.some_transition(rng, net)
    age = rng.randint(0, net.transitions[t].lfd if rng.random() < 0.9 else net.depth - 1)
    count = state.counts[t][age]
    other = rng.choice([0, 1, 2, MAX_TOKENS, bounded(count + 1), bounded(count - 1)])
    return state._replace(counts=reference.with_count(state.counts, t, age, other - count))


def last_image(rng, net, end):
    """The bytes of a last state: mostly the given one, or one that differs from it a little."""
    kind = rng.randrange(20)
    if kind <= 1:
        end = with_other_mark(rng, end)
    elif kind <= 5:
        end = with_other_count(rng, net, end)
    elif kind == 6:
        end = material.any_state(rng, net)
    elif kind == 7:
        end = material.reached_state(rng, net, rng.randint(1, 40))
    elif kind == 8:
        end = rng.choice([material.just_ticked_state, material.due_state, material.wild_state])(rng, net)
    image = material.room(rng, reference.state_image(net, end))
    if kind == 9:
        return material.damaged_state(rng, net, image)
    if kind == 10 and rng.random() < 0.5:
        return material.count_above_lfd(rng, net, image)
    if kind == 11 and rng.random() < 0.1:
        return image + bytes(65_535 - len(image))
    return image

#!/usr/bin/env python3
"""A seeded stream of requests for `menuask`: lawful, nearly lawful, damaged, at every limit.

usage: generate.py SEED COUNT [--bad-end]    writes COUNT requests, and with --bad-end last one whose fact is a bad number
       generate.py --menurun SEED N DIR      writes N inputs of `menurun` as files of that folder
"""

import argparse
import itertools
import os
import random
import sys

import balance_requests
import material
import opening_material
import reference
import wire
from reference import Net, Transition

MANY = 2**32 - 1


def far_beyond(rng, lawful):
    """A number whose low bits are lawful, or the greatest."""
    return rng.choice([MANY, MANY, lawful + 65_536, lawful + 2**31])


# ---- scenarios: each makes one or a few requests, as (name, arguments)


def stored(net):
    return material.encode_net(net)


def buffer_of(rng, net, state):
    return material.room(rng, reference.state_image(net, state))


def net_requests(rng):
    data = stored(material.any_net(rng))
    if rng.random() < 0.8:
        data = material.damaged_net(rng, data)
    yield "check_net", [data]


def initial_requests(rng):
    net = material.any_net(rng)
    length = reference.state_length(net)
    size = rng.choice([length, length, length - 1, length - 1, length + 1, length + rng.randint(1, 60), 0, 7, 8])
    yield "initial", [stored(net), rng.randbytes(size)]


def state_requests(rng):
    net = material.any_net(rng)
    buffer = buffer_of(rng, net, material.any_state(rng, net))
    if rng.random() < 0.8:
        buffer = material.damaged_state(rng, net, buffer)
    yield "check_state", [stored(net), buffer]


def event_requests(rng):
    """Any event in any state."""
    net = material.any_net(rng)
    state = material.any_state(rng, net)
    started = material.any_fact(rng)
    yield "event", [stored(net), buffer_of(rng, net, state), *material.any_pair(rng, net, state, started), started]


def limit_requests(rng):
    """Events, forward and back, where a count or a marking meets its limit, as a rule with no start made."""
    net = material.any_net(rng)
    started = int(rng.random() < 0.15)
    name, make = rng.choice(
        [
            *[("event", material.start_at_limit)] * 4,
            *[("event", material.end_at_limit)] * 4,
            ("back", material.start_back_at_limit),
            *[("back", material.end_back_at_limit)] * 2,
        ]
    )
    state, pair = make(rng, net)
    data, buffer = stored(net), buffer_of(rng, net, state)
    pairs = [pair] * rng.randint(1, 3)
    if rng.random() < 0.55:
        yield name, [data, buffer, *pair, started]
    elif name == "event":
        yield "run", [data, buffer, material.encode_log(pairs), started]
    else:
        yield "walk", [data, buffer, material.encode_log(pairs), len(pairs), started]


def short_requests(rng):
    """A start that lacks tokens, alone or behind accepted starts."""
    if rng.random() < 0.5:
        net, state, t = material.short_start(rng)
        yield "event", [stored(net), buffer_of(rng, net, state), 1 + t, 0, material.any_fact(rng)]
    else:
        net, begin, pairs = material.short_log(rng)
        yield "run", [stored(net), buffer_of(rng, net, begin), material.encode_log(pairs), material.any_fact(rng)]


def tick_requests(rng):
    """Ticks done in a quiet state, and taken back from a state that a tick may have left."""
    net = material.any_net(rng)
    if rng.random() < 0.5:
        make = rng.choice([material.quiet_state] * 3 + [material.due_state] * 2)
        yield "event", [stored(net), buffer_of(rng, net, make(rng, net)), 0, 0, material.any_fact(rng)]
    else:
        yield "back", [stored(net), buffer_of(rng, net, material.just_ticked_state(rng, net)), 0, 0, material.any_fact(rng)]


def back_requests(rng):
    """The last event of a run taken back, or another one."""
    net, given = material.any_net(rng), material.any_fact(rng)
    pairs, state = material.accepted_walk(rng, net, material.any_state(rng, net), rng.randint(1, 15), given)
    if pairs and rng.random() < 0.6:
        pair, started = pairs[-1], reference.facts(pairs[:-1], given)[-1]
    else:
        pair, started = rng.choice(material.candidate_pairs(rng, net)), material.any_fact(rng)
    yield "back", [stored(net), buffer_of(rng, net, state), *pair, started]


# what makes a state from which the step back may be refused by the number, W5's with W4's
BARRED = {**material.BARRED, 28: opening_material.an_end_back, 29: opening_material.a_start_back}


def walk_over(rng, net, state, pair, started, reaches):
    """A walk back from events behind the one that leads to this state. In front of it are others, behind which
    a start has happened or not as is said. It may end behind that event, at it, or in front."""
    given, before = opening_material.led_to(rng, net, started)
    behind, end = material.accepted_walk(rng, net, state, rng.choice([0, 1, 2, 5, 20]), reference.fact_after(started, pair))
    pairs = before + [pair] + behind
    n = rng.randint(len(behind) + reaches, len(pairs))
    return "walk", [stored(net), buffer_of(rng, net, end), material.encode_log(pairs), n, given]


def barred_requests(rng):
    """An event that cannot be taken back, each number of W4 and W5 as likely as another but for 27, which is
    seldom met elsewhere: alone, or in a walk that stops there behind accepted events."""
    number = rng.choice([*sorted(BARRED), 27])
    net, state, pair, started = material.barred_step(rng, number, BARRED[number])
    if rng.random() < 0.5:
        yield "back", [stored(net), buffer_of(rng, net, state), *pair, started]
    else:
        yield walk_over(rng, net, state, pair, started, reaches=1)


# ---- the order within a step (W5)


def opening_requests(rng):
    """A single end or start, forward or back: of age 1 or more, or while such an end is owed, or nearly."""
    net = opening_material.lasting_net(rng)
    name, make = rng.choice(
        [
            ("event", opening_material.an_end),
            ("event", opening_material.a_start),
            ("back", opening_material.an_end_back),
            ("back", opening_material.a_start_back),
        ]
    )
    state, pair = make(rng, net)
    yield name, [stored(net), buffer_of(rng, net, state), *pair, rng.randrange(2)]


def front_requests(rng):
    """A walk whose fact comes from the events in front of it, or from the caller."""
    net = opening_material.lasting_net(rng)
    state, pair = rng.choice([opening_material.an_end_back, opening_material.a_start_back])(rng, net)
    yield walk_over(rng, net, state, pair, rng.randrange(2), reaches=0)


def free_order_requests(rng):
    """A run, or a walk, along a log that does not keep to the order."""
    net, begin, started, pairs, end = opening_material.free_journey(rng)
    if rng.random() < 0.6:
        yield "run", [stored(net), buffer_of(rng, net, begin), material.encode_log(pairs), started]
    else:
        yield "walk", [stored(net), buffer_of(rng, net, end), material.encode_log(pairs), len(pairs), started]


def late_requests(rng):
    """A run with an end of age 1 or more behind a start."""
    net, begin, pairs = opening_material.late_log(rng)
    yield "run", [stored(net), buffer_of(rng, net, begin), material.encode_log(pairs), material.any_fact(rng)]


def opened_run_requests(rng):
    """A run whose first event is an end or a start of W5's limits."""
    net = opening_material.lasting_net(rng)
    state, pair = rng.choice([opening_material.an_end, opening_material.a_start])(rng, net)
    pairs = [pair] + rng.choice([[], [pair], [(0, 0)], opening_material.forefront(rng, net)])
    yield "run", [stored(net), buffer_of(rng, net, state), material.encode_log(pairs), rng.randrange(2)]


def portion_requests(rng):
    """A run in two portions: the second is given the fact that the first tells."""
    net, begin, started, pairs, _ = rng.choice([material.journey, opening_material.free_journey])(rng)
    data, buffer, cut = stored(net), bytearray(buffer_of(rng, net, begin)), rng.randint(0, len(pairs))
    first = [data, bytes(buffer), material.encode_log(pairs[:cut]), started]
    told = reference.run(data, buffer, *first[2:])
    yield "run", first
    yield "run", [data, bytes(buffer), material.encode_log(pairs[cut:]), told[-1]]


def degree_requests(rng):
    net = material.any_net(rng)
    state = material.any_state(rng, net)
    transitions = len(net.transitions)
    t = rng.randrange(transitions)
    if rng.random() < 0.35:
        t = rng.choice([transitions - 1, transitions, transitions, 63, 64, 255, 256, far_beyond(rng, t)])
    yield "degree", [stored(net), buffer_of(rng, net, state), t]


def owed_requests(rng):
    net = material.any_net(rng)
    make = rng.choice([material.any_state, material.small_state, material.quiet_state, material.just_ticked_state])
    yield "owed", [stored(net), buffer_of(rng, net, make(rng, net))]


def tall_requests(rng):
    """Nets of 64 transitions, of which a high one is enabled, due or running."""
    net = material.tall_net(rng)
    last = len(net.transitions) - 1
    t = rng.choice([31, 32, last - 1, last, last, last, rng.randint(32, last)])
    row = net.transitions[t]._replace(sfd=rng.randint(0, 2), lfd=2)
    net = net._replace(transitions=net.transitions[:t] + (row,) + net.transitions[t + 1 :])
    age = rng.randint(0, 2)
    counts = material.with_counts(net, {(t, age): rng.choice([1, 2, 65_535])})
    name = rng.choice(["owed", "owed", "event", "event", "back"])
    pair = rng.choice([(0, 0), (0, 0), (1 + t, 0), (65 + t, age)])
    quiet = material.quiet_state(rng, net).marking
    marking = quiet if pair == (0, 0) else rng.choice([row.inputs, quiet])
    buffer = buffer_of(rng, net, reference.State(marking, counts))
    yield name, [stored(net), buffer] if name == "owed" else [stored(net), buffer, *pair, material.any_fact(rng)]


def run_requests(rng):
    """A run that gets far: all of it accepted, or one event refused and more events behind it."""
    net, begin, started, pairs, _ = material.journey(rng)
    if rng.random() < 0.55:
        pairs = material.stumbling_walk(rng, net, begin, pairs, started)
    yield "run", [stored(net), buffer_of(rng, net, begin), material.encode_log(pairs), started]


def scattered_requests(rng):
    """A run along permitted events of which a few are others, so that it may go on elsewhere."""
    net, begin, started, pairs, _ = material.journey(rng)
    pairs = [pair if rng.random() < 0.97 else rng.choice(material.candidate_pairs(rng, net)) for pair in pairs]
    yield "run", [stored(net), buffer_of(rng, net, begin), material.encode_log(pairs), started]


def rest_requests(rng):
    """A run to where nothing is permitted any more, and a tick behind it."""
    net = material.mixed_net(rng)
    begin, started = reference.initial_state(net), material.any_fact(rng)
    pairs, _ = material.accepted_walk(rng, net, begin, 60, started)
    yield "run", [stored(net), buffer_of(rng, net, begin), material.encode_log(pairs + [(0, 0)]), started]


def walk_requests(rng):
    """A walk back from the end of an accepted run."""
    net, _, started, pairs, end = material.journey(rng)
    count = len(pairs)
    n = rng.choice([count, count, count, rng.randint(0, count), rng.randint(0, count), count + 1])
    if rng.random() < 0.1:
        n = far_beyond(rng, n)
    yield "walk", [stored(net), buffer_of(rng, net, end), material.encode_log(pairs), n, started]


def every_walk_requests(rng):
    """Walks of all lengths back from the end of one short run."""
    net, started = material.any_net(rng), material.any_fact(rng)
    pairs, end = material.accepted_walk(rng, net, material.any_state(rng, net), rng.randint(1, 8), started)
    for n in range(len(pairs) + 2):
        yield "walk", [stored(net), buffer_of(rng, net, end), material.encode_log(pairs), n, started]


def hindered_walk_requests(rng):
    """A walk back that may be refused midway: another event in the log, another state or another fact."""
    net, _, started, pairs, end = material.journey(rng)
    if rng.random() < 0.3:
        started = 1 - started
    if rng.random() < 0.3:
        pairs = [rng.choice(material.candidate_pairs(rng, net)) for _ in range(3)] + pairs
    if pairs and rng.random() < 0.7:
        pairs[rng.randrange(len(pairs))] = rng.choice(material.candidate_pairs(rng, net))
    image = reference.state_image(net, end)
    if rng.random() < 0.4:
        at = rng.randrange(8, len(image))
        image = material.replaced(image, {at: rng.choice([0, 1, 255])})
    yield "walk", [stored(net), material.room(rng, image), material.encode_log(pairs), len(pairs), started]


def step_requests(rng):
    """Every step of a log, and two beyond the last."""
    net = material.any_net(rng)
    pairs, _ = material.accepted_walk(rng, net, material.any_state(rng, net), rng.choice([0, 1, 3, 8, 20]))
    for _ in range(rng.choice([0, 0, 1, 4])):
        pair = rng.choice([(0, 0), (0, 0), (0, 1), (1, 0), (255, 0), (rng.randrange(256), rng.randrange(256))])
        pairs.insert(rng.randint(0, len(pairs)), pair)
    ticks = pairs.count((0, 0))
    for k in range(ticks + 3):
        yield "step", [material.encode_log(pairs), k]
    if rng.random() < 0.2:
        yield "step", [material.encode_log(pairs), rng.choice([256, far_beyond(rng, ticks)])]


def damaged_step_requests(rng):
    pairs = [rng.choice([(0, 0), (1, 0), (65, 1)]) for _ in range(rng.randint(0, 6))]
    yield "step", [material.damaged_log(rng, material.encode_log(pairs)), rng.choice([0, 1, 2, 7])]


DAMAGEABLE = (
    initial_requests,
    event_requests,
    back_requests,
    degree_requests,
    owed_requests,
    run_requests,
    walk_requests,
)


def damaged(rng, name, arguments, share):
    """The request with each of its slices damaged with that chance, and at least one."""
    arguments = list(arguments)
    parameters = wire.BY_NAME[name][1]
    slices = [at for at, parameter in enumerate(parameters) if parameter in wire.CAPACITY]
    chosen = {rng.choice(slices)} | {at for at in slices if rng.random() < share}
    net = reference.read_net(arguments[0])
    for at in sorted(chosen):
        if parameters[at] == "net":
            arguments[at] = material.damaged_net(rng, arguments[at])
        elif parameters[at] == "log":
            arguments[at] = material.damaged_log(rng, arguments[at])
        elif name == "initial":
            arguments[at] = arguments[at][:-1]
        else:
            arguments[at] = material.damaged_state(rng, net, arguments[at])
    return name, arguments


def twofold_requests(rng):
    """Two faults at once of a run or a walk, so that the order of the numbers decides."""
    net, _, _, pairs, end = material.journey(rng)
    pairs, started = pairs[:20], rng.randrange(2)
    data, buffer, log, n = stored(net), buffer_of(rng, net, end), material.encode_log(pairs), 0
    good = data, buffer, log
    faults = rng.sample(["net", "state", "log", "n", "event"], 2)
    if "event" in faults:
        pairs = [material.refused_pair(rng, net, end, started)] + pairs
        log, n = material.encode_log(pairs), len(pairs)
    if "n" in faults:
        n = len(pairs) + 1
    while "net" in faults and reference.check_net(data)[0] == 0:
        data = material.damaged_net(rng, good[0])
    while "state" in faults and reference.check_state(good[0], buffer)[0] == 0:
        buffer = material.damaged_state(rng, net, good[1])
    while "log" in faults and reference.step(log, 0)[0] == 0:
        log = material.damaged_log(rng, good[2])
    if "n" in faults or rng.random() < 0.4:
        yield "walk", [data, buffer, log, n, started]
    else:
        yield "run", [data, buffer, log, started]


def damaged_requests(rng):
    """One slice of a good request is damaged, at times several."""
    for name, arguments in rng.choice(DAMAGEABLE)(rng):
        yield damaged(rng, name, arguments, rng.choice([0, 0, 0.5, 1]))


def flipped_requests(rng):
    """One byte of one slice of a good request is another."""
    for name, arguments in rng.choice(DAMAGEABLE)(rng):
        at = rng.choice([at for at, p in enumerate(wire.BY_NAME[name][1]) if p in wire.CAPACITY])
        arguments = list(arguments)
        arguments[at] = material.flipped(rng, arguments[at])
        yield name, arguments


# every call but the page and the balance
SCENARIOS = (
    (net_requests, 9.5),
    (initial_requests, 4),
    (state_requests, 6),
    (event_requests, 10),
    (limit_requests, 25),
    (short_requests, 6),
    (tick_requests, 9),
    (back_requests, 6),
    (barred_requests, 29),
    (opening_requests, 14),
    (front_requests, 6),
    (free_order_requests, 5),
    (late_requests, 3),
    (opened_run_requests, 6),
    (portion_requests, 1),
    (degree_requests, 3.5),
    (owed_requests, 6),
    (tall_requests, 5),
    (run_requests, 13),
    (scattered_requests, 3),
    (rest_requests, 1),
    (walk_requests, 7),
    (every_walk_requests, 1),
    (hindered_walk_requests, 6),
    (step_requests, 1.5),
    (damaged_step_requests, 1.5),
    (twofold_requests, 4),
    (damaged_requests, 8),
    (flipped_requests, 9),
)


# ---- pages


def page_of(rng, *kinds):
    """A page from a state of one of these kinds, its buffer and its budget about what it needs."""
    net, state, events = material.page_start(rng, kinds)
    size, budget = material.page_bounds(rng, events)
    return stored(net), buffer_of(rng, net, state), rng.randbytes(size), budget


def any_page(rng):
    return page_of(rng, material.busy_state, material.busy_state, material.any_state, material.quiet_state, material.due_state)


def crowded_page(rng):
    """A start meets the limit of its count, or comes near."""
    return page_of(rng, material.crowded_state)


def brimming_page(rng):
    """An end meets the limit of a place, or comes near."""
    return page_of(rng, material.brimming_state)


def tall_page(rng):
    """Of 64 transitions a high one is chosen."""
    net = material.tall_net(rng)
    last = len(net.transitions) - 1
    t = rng.choice([last, last, rng.randint(32, last)])
    idle = tuple(row._replace(inputs=(255,) * len(net.marking)) for row in net.transitions[:t])
    net = net._replace(transitions=idle + net.transitions[t:])
    counts = material.with_counts(net, {(t, rng.randint(0, net.transitions[t].lfd)): rng.choice([1, 2, 65_535])})
    state = reference.State(tuple(rng.choice([1, 3, 9]) for _ in net.marking), counts)
    return stored(net), buffer_of(rng, net, state), rng.randbytes(rng.randint(5, 40)), rng.randint(0, 20)


def full_page(rng):
    """A page on the longest net."""
    net = material.full_net(rng)
    image = reference.state_image(net, rng.choice([material.busy_state, material.wild_state])(rng, net))
    return stored(net), image, rng.randbytes(rng.randint(5, 300)), rng.randint(0, 200)


def flipped_page(rng):
    """One byte of a good page's net or state is another."""
    arguments = list(any_page(rng))
    at = rng.randrange(2)
    arguments[at] = material.flipped(rng, arguments[at])
    return arguments


def refused_page(rng, wanted):
    """A page that is refused by the number; at times there is another fault behind."""
    number = None
    while number != wanted:
        net = material.any_net(rng)
        state = rng.choice([material.busy_state, material.quiet_state])(rng, net)
        data, buffer = stored(net), buffer_of(rng, net, state)
        log, budget = rng.randbytes(rng.choice([5, 6, 7, rng.randint(5, 40)])), rng.choice([0, 1, 9, MANY])
        if wanted <= 6:
            data = material.damaged_net(rng, data)
        if wanted in (8, 9) or (wanted <= 6 and rng.random() < 0.25):
            buffer = material.damaged_state(rng, net, buffer)
        if wanted == 10 or rng.random() < 0.25:
            log = rng.randbytes(rng.choice([0, 1, 2, 3, 4, 4, 4]))
        number = reference.page(data, bytearray(buffer), bytearray(log), 0)[0]
    return data, buffer, log, budget


PAGE_SCENARIOS = (
    (any_page, 29),
    (crowded_page, 17),
    (brimming_page, 14),
    (tall_page, 6),
    (full_page, 0.3),
    (flipped_page, 3),
)
PAGE_REFUSALS = (1, 2, 3, 4, 5, 6, 8, 9, 10)


def longest_page(rng):
    """A page of 24,000 events, or nearly."""
    net = ever_running(rng)
    size = rng.choice([48_004, 48_005, 48_006, 48_007, 65_536])
    return stored(net), reference.state_image(net, reference.initial_state(net)), rng.randbytes(size), rng.choice([24_000, 24_001, MANY])


# ---- the longest requests, by turns


def full_requests(rng, turn):
    """One request on the longest net, each call in its turn."""
    net = material.full_net(rng)
    data = stored(net)
    begin, started = reference.initial_state(net), material.any_fact(rng)
    pairs, state = material.accepted_walk(rng, net, begin, rng.randint(20, 60), started)
    image = reference.state_image(net, state)
    log = material.encode_log(pairs)
    return (
        ("run", [data, reference.state_image(net, begin), log, started]),
        ("check_net", [data]),
        ("owed", [data, image]),
        ("walk", [data, image, log, len(pairs), started]),
        ("initial", [data, rng.randbytes(len(image))]),
        ("back", [data, image, *(pairs or [(0, 0)])[-1], started]),
        ("event", [data, image, *material.any_pair(rng, net, state, started), started]),
        ("check_state", [data, image]),
        ("degree", [data, image, rng.choice([0, 62, 63, 64])]),
        ("event", [data, reference.state_image(net, material.wild_state(rng, net)), 128, 63, started]),
        ("initial", [data, rng.randbytes(len(image) - 1)]),
        ("check_state", [data, material.damaged_state(rng, net, image)]),
    )[turn % 12]


def ever_running(rng):
    """A net whose tokens go round for ever."""
    ring = Transition(1, rng.randint(1, 3), (1, 0), (0, 1)), Transition(0, rng.randint(0, 2), (0, 1), (1, 0))
    return Net((rng.randint(1, 3), 0), ring)


def longest_requests(rng, turn):
    """One request with the longest log or the largest slices, each in its turn."""
    most = reference.MAX_EVENTS
    net = ever_running(rng)
    data = stored(net)
    begin, started = reference.initial_state(net), material.any_fact(rng)
    first = reference.state_image(net, begin)
    turn %= 9
    if turn == 6:
        return "check_net", [material.with_length(data + bytes(16_384 - len(data)))]
    if turn == 7:
        return "check_state", [data, first + rng.randbytes(16_384 - len(first))]
    if turn == 8:
        return "step", [material.with_length(bytes([1]) + bytes(65_535)), 1]
    pairs, state = material.accepted_walk(rng, net, begin, most + {1: 1, 3: -1}.get(turn, 0), started)
    if turn == 3:
        pairs.append(material.refused_pair(rng, net, state, reference.facts(pairs, started)[-1]))
    if turn == 4:
        pairs[rng.randrange(most)] = (0, 1)
    log = material.encode_log(pairs)
    last = reference.state_image(net, state)
    return (
        ("run", [data, first, log, started]),
        ("run", [data, first, log, started]),
        ("walk", [data, last, log, most, started]),
        ("run", [data, first, log, started]),
        ("walk", [data, last, log, most, started]),
        ("step", [log, rng.randint(0, pairs.count((0, 0)))]),
    )[turn]


LONGEST_EVERY = 1_000
FULL_EVERY = 250
PAGE_OR_BALANCE_EVERY = 4
LONGEST_PAGE_EVERY = 1_500


def other_requests(seed):
    """Requests of every call but the page and the balance, without end."""
    rng = random.Random(seed)
    kinds, shares = zip(*SCENARIOS)
    made = longest = full = 0
    while True:
        if made >= longest * LONGEST_EVERY + LONGEST_EVERY // 2:
            batch = [longest_requests(rng, longest)]
            longest += 1
        elif made >= full * FULL_EVERY + FULL_EVERY // 2:
            batch = [full_requests(rng, full)]
            full += 1
        else:
            batch = rng.choices(kinds, shares)[0](rng)
        for request in batch:
            yield request
            made += 1


def pages(seed):
    """Requests for pages, without end: every third is refused, by each number in its turn,
    and now and then comes the longest."""
    rng = random.Random(f"pages {seed}")
    kinds, shares = zip(*PAGE_SCENARIOS)
    refusals = itertools.cycle(PAGE_REFUSALS)
    for made in itertools.count(1):
        if made % LONGEST_PAGE_EVERY == 0:
            arguments = longest_page(rng)
        elif made % 3 == 0:
            arguments = refused_page(rng, next(refusals))
        else:
            arguments = rng.choices(kinds, shares)[0](rng)
        yield "page", list(arguments)


def requests(seed, count):
    """So many requests, as (name, arguments). Every fourth is a page or a balance, of five three and two."""
    others, paged, balances = other_requests(seed), pages(seed), balance_requests.balances(seed)
    fourth = itertools.cycle([paged, balances, paged, balances, paged])
    for made in range(1, count + 1):
        yield next(others if made % PAGE_OR_BALANCE_EVERY else next(fourth))


# ---- bad requests


def without_fact(net):
    """A request of each call that takes a fact, but for the fact, which comes last."""
    return ("event", net, b"", 0, 0), ("back", net, b"", 0, 0), ("run", net, b"", b""), ("walk", net, b"", b"", 0)


def bad_facts(rng, net):
    """Requests with another number where whether a start has happened is told."""
    others = [255, 256, 257, 65_536, 2**24 + 1, 2**31 + 1, MANY]
    return [wire.encode(*request, fact) for request in without_fact(net) for fact in (2, rng.choice(others))]


def cut_facts(rng, net):
    """Requests that end within that number or before it."""
    return [wire.encode(*request, 0)[:-short] for request in without_fact(net) for short in (4, rng.randint(1, 3))]


def bad_requests(rng):
    """One bad request of each kind; a stream ends with it."""
    name, arguments = next(requests(rng.randrange(MANY), 1))
    good = wire.encode(name, *arguments)
    net = stored(material.ring_net(rng))
    number = wire.four_bytes
    return [
        b"\x00" + good[1:],
        b"\x0d" + good[1:],
        b"\xff",
        good[:1],
        good[: rng.randrange(1, len(good))],
        good[:-1],
        b"\x01" + number(len(net) + 1) + net,
        b"\x01" + number(16_385) + bytes(16_385),
        b"\x01" + number(MANY),
        wire.encode("initial", net, bytes(16_385)),
        wire.encode("step", bytes(65_537), 0),
        wire.encode("event", net, b"", 256, 0, 0),
        wire.encode("event", net, b"", 0, 256, 0),
        wire.encode("back", net, b"", MANY, 0, 0),
        wire.encode("back", net, b"", 0, 65_536, 0),
        *bad_facts(rng, net),
        *cut_facts(rng, net),
        wire.encode("degree", net, b"", 0)[:-2],
        wire.encode("page", net, bytes(16_385), b"", 0),
        wire.encode("page", net, b"", bytes(65_537), 0),
        wire.encode("page", net, b"", bytes(7), 9)[:-5],
        wire.encode("page", net, b"", bytes(7), 9)[:-1],
        wire.encode("balance", bytes(16_385), b"", b""),
        wire.encode("balance", net, bytes(16_385), b""),
        wire.encode("balance", net, b"", bytes(65_537)),
        wire.encode("balance", net, b"", bytes(7))[:-1],
        wire.encode("balance", net, b"", bytes(7))[:-9],
    ]


# ---- inputs of menurun


def menurun_input(rng):
    """A net and a log behind it; some damaged, too short or too long, some with a start that lacks tokens,
    some whose last events do not keep to W5's order."""
    if rng.random() < 0.12:
        net, begin, pairs = material.short_log(rng)
        return stored(net._replace(marking=begin.marking)) + material.encode_log(pairs)
    net = material.full_net(rng) if rng.random() < 0.02 else material.any_net(rng)
    begin = reference.initial_state(net)
    pairs, end = material.accepted_walk(rng, net, begin, rng.choice([3, 12, 40, 110]))
    if rng.random() < 0.4:
        pairs = material.stumbling_walk(rng, net, begin, pairs, 0)
    elif rng.random() < 0.2:
        pairs += opening_material.free_walk(rng, net, end, rng.choice([3, 8]))[0]
    data, log = stored(net), material.encode_log(pairs)
    kind = rng.randrange(20)
    if kind == 0:
        return rng.choice([data, data[: rng.randrange(len(data))], data[: rng.randrange(8)], data[:-1]])
    if kind == 1:
        length = rng.choice([0, 4, 5, 6, 7, len(data) - 1, len(data) + 1, 8_455, 8_456, 65_536, MANY])
        return data[:1] + wire.four_bytes(length) + data[5:] + log
    if kind == 2:
        return data + log + rng.randbytes(rng.choice([1, 2, 30]))
    if kind == 3:
        return material.damaged_net(rng, data) + log
    if kind == 4:
        return data + material.damaged_log(rng, log)
    if kind == 5:
        return material.flipped(rng, data + log)
    if kind == 6:
        return rng.choice([data, material.damaged_net(rng, data)]) + menurun_long_log(rng)
    if kind == 7 and rng.random() < 0.2:
        net = ever_running(rng)
        pairs, _ = material.accepted_walk(rng, net, reference.initial_state(net), reference.MAX_EVENTS)
        return stored(net) + material.encode_log(pairs)
    return data + log


def menurun_long_log(rng):
    """A log of the greatest length, or longer."""
    events = rng.choice([23_999, 24_000, 24_000, 24_001, 24_001, 60_000])
    log = material.encode_log([rng.choice([(0, 0), (1, 0), (65, 0)])] * events)
    return log + bytes(rng.choice([0, 0, 0, 1]))


def write_menurun_inputs(seed, count, folder):
    rng = random.Random(seed)
    os.makedirs(folder, exist_ok=True)
    for number in range(count):
        with open(os.path.join(folder, f"{number:04}.in"), "wb") as file:
            file.write(menurun_input(rng))


# ---- inputs of menupage


def menupage_words(rng):
    """Arguments: mostly a small budget, some that are none of the program's."""
    budget = rng.choice([0, 1, 2, 3, 7, 20, 20, 60, 60, 200, 200, rng.randint(0, 400), 1_500])
    word = rng.choice([str(budget)] * 8 + [f"{budget:010}"])
    words = ["--log", word] if rng.random() < 0.4 else [word]
    kind = rng.randrange(40)
    if kind == 3:
        return words[::-1]
    if kind == 0:
        return words[:-1]
    if kind == 1:
        return words[:-1] + [rng.choice(["24000", "24001", "65536", "4294967295"])]
    if kind == 2:
        return words[:-1] + [rng.choice(["4294967296", "4294967297", "", "-" + word, word + "x", "0" * 11])]
    return words


def menupage_net(rng):
    """A net; some damaged, too short or too long."""
    net = material.full_net(rng) if rng.random() < 0.02 else material.any_net(rng)
    if rng.random() < 0.12:
        net = net._replace(marking=tuple(material.edge_value(rng) for _ in net.marking))
    data = stored(net)
    kind = rng.randrange(24)
    if kind == 0:
        return rng.choice([data[: rng.randrange(len(data))], data[: rng.randrange(8)], data[:-1], b""])
    if kind == 1:
        return data + rng.choice([b"\0", rng.randbytes(rng.randint(1, 30)), menurun_long_log(rng)])
    if kind == 2:
        length = rng.choice([0, 4, 5, 6, 7, len(data) - 1, len(data) + 1, 8_455, 8_456, 65_536, MANY])
        return data[:1] + wire.four_bytes(length) + data[5:]
    if kind == 3:
        return material.with_length(data + bytes(rng.choice([8_455, 8_456, 9_000]) - len(data))) if len(data) < 8_455 else data
    if kind in (4, 5):
        return material.damaged_net(rng, data)
    return data


def menupage_inputs(seed, count):
    """So many inputs, as (arguments, standard input)."""
    rng = random.Random(seed)
    return [(menupage_words(rng), menupage_net(rng)) for _ in range(count)]


# ---- the program


def main():
    parser = argparse.ArgumentParser(description="Makes requests of menuask or inputs of menurun.")
    parser.add_argument("--menurun", nargs=3, metavar=("SEED", "N", "DIR"))
    parser.add_argument("--bad-end", action="store_true")
    parser.add_argument("seed", type=int, nargs="?")
    parser.add_argument("count", type=int, nargs="?")
    options = parser.parse_args()
    if options.menurun:
        seed, count, folder = options.menurun
        write_menurun_inputs(int(seed), int(count), folder)
        return
    if options.seed is None or options.count is None:
        parser.error("SEED and COUNT are needed")
    for name, arguments in requests(options.seed, options.count):
        sys.stdout.buffer.write(wire.encode(name, *arguments))
    if options.bad_end:
        rng = random.Random(options.seed)
        sys.stdout.buffer.write(rng.choice(bad_facts(rng, stored(material.ring_net(rng)))))


if __name__ == "__main__":
    main()

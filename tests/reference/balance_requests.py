"""Requests for the balance (W6), each as its arguments: net, state and weights."""

import itertools
import random

import balance_material
import material
import reference
from balance_material import words

FULL_EVERY = 70
LONGEST_EVERY = 160
EARLIER_EVERY = 6
EARLIER = (1, 8, 2, 9, 3, 8, 4, 9, 5, 8, 6, 9)


def asked(rng, net, state, data):
    return [material.encode_net(net), material.room(rng, reference.state_image(net, state)), data]


# ---- scenarios: each makes one or a few requests


def balanced_requests(rng):
    net, weights = balance_material.a_trade(rng)
    yield asked(rng, net, balance_material.a_state(rng, net), words(weights))


def wandering_requests(rng):
    """States of one net between which events and steps back lead, so that their totals are the same."""
    net, weights = balance_material.a_trade(rng)
    state = rng.choice([material.any_state, material.busy_state, balance_material.aged_state])(rng, net)
    for steps in (0, rng.choice([1, 1, 2, 5]), rng.choice([5, 20, 60])):
        state = balance_material.wander(rng, net, state, steps)
        yield asked(rng, net, state, words(weights))


def great_requests(rng):
    """As much as a net can hold, or nearly."""
    net, weights = rng.choice([balance_material.heavy_trade, balance_material.great_trade, balance_material.great_trade])(rng)
    most = balance_material.MAX_WEIGHT // max(weights)
    weights = tuple(most * weight for weight in weights)
    yield asked(rng, net, balance_material.laden_state(rng, net), words(weights))


LEAKS = (
    (balance_material.a_leak, 5),
    (balance_material.high_leak, 2),
    (balance_material.hidden_leak, 4),
    (balance_material.plain_weights, 1),
)


def leaking_requests(rng):
    kinds, chances = zip(*LEAKS)
    net, weights = rng.choices(kinds, chances)[0](rng)
    yield asked(rng, net, balance_material.a_state(rng, net), words(weights))


def mended_requests(rng):
    """A net that leaks, and the same before it did, in one state."""
    net, weights = balance_material.heavy_trade(rng)
    leaking = balance_material.with_leaks(rng, net, weights, balance_material.some_transitions(rng, net))
    state = balance_material.a_state(rng, net)
    yield asked(rng, leaking, state, words(weights))
    yield asked(rng, net, state, words(weights))


def missized_requests(rng):
    """Weights of another length; at times a transition leaks too."""
    net, weights = rng.choice([balance_material.a_trade, balance_material.a_leak])(rng)
    yield asked(rng, net, balance_material.a_state(rng, net), balance_material.missized(rng, words(weights)))


def flipped_requests(rng):
    """One byte of a slice is another."""
    net, weights = balance_material.a_trade(rng)
    arguments = asked(rng, net, balance_material.a_state(rng, net), words(weights))
    at = rng.randrange(3)
    arguments[at] = material.flipped(rng, arguments[at])
    yield arguments


SCENARIOS = (
    (balanced_requests, 34),
    (wandering_requests, 9),
    (great_requests, 13),
    (leaking_requests, 25),
    (mended_requests, 5),
    (missized_requests, 31),
    (flipped_requests, 6),
)


def refused_request(rng, wanted):
    """A request that is refused by a number of the net or the state; as a rule there is a fault behind it."""
    number = None
    while number != wanted:
        net, weights = rng.choice([balance_material.a_trade, balance_material.a_leak, balance_material.a_leak])(rng)
        data, buffer, weights = asked(rng, net, balance_material.a_state(rng, net), words(weights))
        if rng.random() < 0.4:
            weights = balance_material.missized(rng, weights)
        if wanted <= 6:
            data = material.damaged_net(rng, data)
        if wanted in (8, 9) or rng.random() < 0.25:
            buffer = material.damaged_state(rng, net, buffer)
        number = reference.balance(data, buffer, weights)[0]
    return [data, buffer, weights]


def full_request(rng, turn):
    """The longest net: its state laden, its greatest total, a leak of its last transition, a byte of the weights missing."""
    net, weights = balance_material.full_trade(rng)
    state = balance_material.laden_state(rng, net)
    turn %= 4
    if turn == 1:
        row = net.transitions[0]._replace(sfd=0, lfd=63, inputs=(255,) * 64, outputs=(255,) * 64)
        net, weights = net._replace(transitions=(row,) * 64), (65_535,) * 64
        state = reference.State((65_535,) * 64, ((65_535,) * 64,) * 64)
    if turn == 2:
        net = balance_material.with_leaks(rng, net, weights, [63])
    image = reference.state_image(net, state)
    return [material.encode_net(net), image, words(weights)[: -1 if turn == 3 else None]]


def longest_request(rng, turn):
    """The most bytes that a slice of a request has, one after the other."""
    arguments = next(balanced_requests(rng))
    at = (2, 1, 0)[turn % 3]
    most = 65_536 if at == 2 else 16_384
    arguments[at] += rng.randbytes(most - len(arguments[at]))
    if at == 0:
        arguments[at] = material.with_length(arguments[at])
    return arguments


def balances(seed):
    """Requests for balances, without end: every sixth is refused by the net's numbers and the state's by turns,
    and now and then comes one on the longest net or with the longest slice."""
    rng = random.Random(f"balances {seed}")
    kinds, chances = zip(*SCENARIOS)
    refusals = itertools.cycle(EARLIER)
    scenes = itertools.chain.from_iterable(rng.choices(kinds, chances)[0](rng) for _ in itertools.count())
    for made in itertools.count(1):
        if made % LONGEST_EVERY == LONGEST_EVERY // 2:
            arguments = longest_request(rng, made // LONGEST_EVERY)
        elif made % FULL_EVERY == FULL_EVERY // 2:
            arguments = full_request(rng, made // FULL_EVERY)
        elif made % EARLIER_EVERY == 0:
            arguments = refused_request(rng, next(refusals))
        else:
            arguments = next(scenes)
        yield "balance", list(arguments)

"""The balance (W6) by a second method, for crosscheck.py.

On tiny nets every token that a state holds is listed by its place, those that running firings have taken in too, and
each is weighed by itself. The reference must tell that total in every state, or the lowest transition whose tokens weigh
otherwise behind its end than before its start. Every event that leads from one state to another must leave the total as
it is, but for the end of a transition that leaks, which must change it by the leak. As a step back leads the same way
back, this goes for it too.

On nets of any size the total is worked out place by place, not firing by firing. A balance must tell it again after some
events and steps back, in whatever order; and of a net that leaks the end of the transition told must change it.
"""

import itertools

import balance_material
import material
import reference
from balance_material import words

WEIGHTS = range(4)
LEAKY_STATES = 150


# ---- tiny nets, whose states are given as dictionaries


def listed(arcs):
    """A place for each token that goes along the arcs."""
    return [p for p, tokens in enumerate(arcs) for _ in range(tokens)]


def held(net, state):
    """A place for each token that a state holds; a firing holds what it has taken in."""
    tokens = []
    for (owner, number), times in state.items():
        tokens += ([number] if owner == "place" else listed(net.transitions[owner].inputs)) * times
    return tokens


def weight_of(tokens, weights):
    total = 0
    for p in tokens:
        total += weights[p]
    return total


def gain(row, weights):
    """By how much what a transition puts out is heavier than what it takes in."""
    return weight_of(listed(row.outputs), weights) - weight_of(listed(row.inputs), weights)


def first_leak(net, weights):
    """The lowest transition that leaks, or None."""
    return next((t for t, row in enumerate(net.transitions) if gain(row, weights)), None)


def chosen_weights(rng, net):
    """Weights of each kind that there is: no leak, with and without a weight, and each transition the first that leaks."""
    kinds = {}
    for weights in itertools.product(WEIGHTS, repeat=len(net.marking)):
        kinds.setdefault((first_leak(net, weights), any(weights)), []).append(weights)
    return [rng.choice(kinds[kind]) for kind in sorted(kinds, key=str)]


def check_lengths(rng, net, data, here, weights):
    """Weights of every other length up to a place too many."""
    whole = words(weights) + rng.randbytes(2)
    for size in range(len(whole) + 1):
        if size != len(whole) - 2:
            told = reference.balance(data, here, whole[:size])
            assert told == (31, 0, 0), (net, weights, size, told)


def check_tiny(rng, net, states, before):
    """Compares the balances of every state, and what each event, given by (state behind it, event, fact) and the state
    before it, makes of the total; how many events keep one of weights that are not all 0, and how many ends change one."""
    data = material.encode_net(net)
    kept = changed = 0
    for weights in chosen_weights(rng, net):
        leak = first_leak(net, weights)
        totals = {here: weight_of(held(net, state), weights) for state, here in states}
        asked = list(totals) if leak is None else rng.sample(list(totals), min(len(totals), LEAKY_STATES))
        for here in asked:
            told = reference.balance(data, here, words(weights))
            assert told == ((0, 0, totals[here]) if leak is None else (30, leak, 0)), (net, here, weights, told)
        for (there, (first, _), _), here in before.items():
            expected = gain(net.transitions[first - 65], weights) if first >= 65 else 0
            assert totals[there] - totals[here] == expected, (net, here, there, first, weights)
            assert leak is not None or expected == 0, (net, weights)
            kept += leak is None and any(weights)
            changed += expected != 0
        check_lengths(rng, net, data, rng.choice(asked), weights)
    return kept, changed


# ---- nets of any size


def total_by_places(net, state, weights):
    """For each place its weight times the tokens that are there or in firings that took them from there."""
    firings = [sum(ages) for ages in state.counts]
    total = 0
    for p, weight in enumerate(weights):
        taken = sum(row.inputs[p] * times for row, times in zip(net.transitions, firings))
        total += weight * (state.marking[p] + taken)
    return total


def after_end(net, t):
    """A state with one firing of the transition, and the state behind its end."""
    age = net.transitions[t].sfd
    empty = (0,) * len(net.marking)
    before = reference.State(empty, material.with_counts(net, {(t, age): 1}))
    return before, reference.forward(net, before, reference.Event(reference.END, t, age), reference.NO_START_MADE)


def check_any(rng, data, buffer, weights):
    """Compares a balance on a net of any size; the number told."""
    case = data, buffer, weights
    told = reference.balance(data, buffer, weights)
    number, index = reference.check_state(data, buffer)
    if number:
        assert told == (number, index, 0), (case, told)
        return number
    net = reference.read_net(data)
    state = reference.read_state(net, buffer)
    if len(weights) != 2 * len(net.marking):
        assert told == (31, 0, 0), (case, told)
        return 31
    read = [256 * weights[2 * p] + weights[2 * p + 1] for p in range(len(net.marking))]
    for t, row in enumerate(net.transitions):
        if sum(weight * (put - taken) for weight, taken, put in zip(read, row.inputs, row.outputs)):
            assert told == (30, t, 0), (case, told)
            before, after = after_end(net, t)
            assert total_by_places(net, before, read) != total_by_places(net, after, read), case
            return 30
    assert told == (0, 0, total_by_places(net, state, read)), (case, told)
    elsewhere = balance_material.wander(rng, net, state, rng.choice([1, 4, 12]))
    again = reference.balance(data, reference.state_image(net, elsewhere), weights)
    assert again == told, (case, elsewhere, told, again)
    return 0

"""Random material for request W6: weights, nets that balance under them or leak, states, and ways to and fro between states."""

import material
import reference
from reference import MAX_TOKENS, Net, State, Transition

MAX_WEIGHT = 65_535
MAX_ARC = 255


# ---- weights and nets that balance


def shares(rng, places):
    """What the places weigh against each other: all alike, a few small numbers, or any up to 255; some 0."""
    kind = rng.choice([(1,), (0, 1, 1), (0, 1, 2, 3), (1, 2, 2, 6), range(MAX_ARC + 1)])
    found = [rng.choice(kind) for _ in range(places)]
    found[rng.randrange(places)] = max(found) or 1
    return tuple(found)


def scaled(rng, found):
    """These weights times a number, at times the greatest that is possible."""
    most = MAX_WEIGHT // max(found)
    scale = rng.choice([1, 1, most, most, min(256, most), rng.randint(1, most)])
    return tuple(scale * share for share in found)


def as_heavy(rng, weights, tokens):
    """Other tokens of the same weight, or these themselves where none are found."""
    for _ in range(6):
        left, found = reference.weighed(weights, tokens), [0] * len(weights)
        for p in rng.sample(range(len(weights)), len(weights)):
            if weights[p] == 0:
                found[p] = rng.choice([0, 0, 1, 3])
                continue
            most = min(MAX_ARC, left // weights[p])
            found[p] = rng.choice([0, most, most, rng.randint(0, most)])
            left -= found[p] * weights[p]
        if left == 0 and any(found):
            return tuple(found)
    return tokens


def trading_net(rng, places, transitions, longest, most=3, limit=3):
    """A net whose transitions give other tokens of the weight that they take, and the weights."""
    found = shares(rng, places)
    rows = []
    for _ in range(transitions):
        inputs = material.weights(rng, places, most, limit)
        tokens = inputs, as_heavy(rng, found, inputs)
        rows.append(Transition(*material.interval(rng, longest), *(tokens if rng.random() < 0.5 else tokens[::-1])))
    return Net(tuple(rng.randint(0, 6) for _ in range(places)), tuple(rows)), scaled(rng, found)


def small_trade(rng):
    return trading_net(rng, *material.sizes(rng), 3, rng.choice([1, 3, 3, MAX_ARC]))


def wide_trade(rng):
    return trading_net(rng, rng.choice([64, 64, 63, 33]), rng.randint(1, 2), 2, rng.choice([3, MAX_ARC]), 40)


def tall_trade(rng):
    return trading_net(rng, rng.randint(1, 3), rng.choice([64, 64, 63, 33]), rng.choice([0, 1]))


def slow_trade(rng):
    """Durations up to 63."""
    net, weights = trading_net(rng, rng.randint(1, 3), rng.randint(1, 3), 63)
    return net._replace(transitions=(net.transitions[0]._replace(lfd=63), *net.transitions[1:])), weights


def great_trade(rng):
    """Many places and ages and the greatest weights, so that a laden state's total passes the numbers of 53 bits."""
    places = rng.randint(56, 64)
    least = rng.choice([MAX_WEIGHT, MAX_WEIGHT - 9])
    weights = tuple(rng.randint(least, MAX_WEIGHT) for _ in range(places))
    rows = []
    for _ in range(rng.randint(8, 11)):
        inputs = tuple(rng.randint(240, MAX_ARC) for _ in range(places))
        outputs = inputs if len(set(weights)) > 1 else tuple(rng.sample(inputs, places))
        rows.append(Transition(rng.choice([0, 63]), 63, inputs, outputs))
    return Net((0,) * places, tuple(rows)), weights


def full_trade(rng):
    """The longest net: 64 places, 64 transitions, D = 64."""
    net, weights = trading_net(rng, 64, 64, 63, rng.choice([3, MAX_ARC]), rng.choice([3, 64]))
    last = net.transitions[-1]._replace(lfd=63)
    return net._replace(transitions=net.transitions[:-1] + (last,)), weights


def moved_together(net):
    """For each place a number that it has in common with the places between which tokens move."""
    group = list(range(len(net.marking)))
    for row in net.transitions:
        joined = {group[p] for p in range(len(group)) if row.inputs[p] or row.outputs[p]}
        group = [min(joined) if number in joined else number for number in group]
    return group


def moving_trade(rng):
    """A net whose transitions move one token each, so that runs need not end; places between which none moves may
    weigh another weight."""
    net = rng.choice([material.moving_net, material.ring_net, material.ring_net, material.fixed_net])(rng)
    group = moved_together(net)
    found = scaled(rng, shares(rng, len(group)))
    return net, tuple(found[number] for number in group)


TRADES = ((small_trade, 30), (moving_trade, 26), (wide_trade, 6), (tall_trade, 9), (slow_trade, 10))


def a_trade(rng):
    """A net that balances under the weights that come with it."""
    kinds, chances = zip(*TRADES)
    return rng.choices(kinds, chances)[0](rng)


def heavy_trade(rng):
    """The same where some place weighs something."""
    while True:
        net, weights = a_trade(rng)
        if any(weights):
            return net, weights


# ---- leaks


def tilted(rng, row, weights, by=1):
    """The transition with so many tokens more on one side, or fewer, of a place that has a weight; at times of the least."""
    heavy = [p for p, weight in enumerate(weights) if weight]
    while True:
        p = rng.choice([rng.choice(heavy), min(heavy, key=lambda p: weights[p])])
        side = rng.choice(["inputs", "outputs"])
        tokens = list(getattr(row, side))
        tokens[p] += rng.choice([by, -by])
        if 0 <= tokens[p] <= MAX_ARC and any(tokens):
            return row._replace(**{side: tuple(tokens)})


def with_leaks(rng, net, weights, leaking, by=1):
    """The net of which these transitions leak."""
    rows = list(net.transitions)
    for t in leaking:
        rows[t] = tilted(rng, rows[t], weights, by)
    return net._replace(transitions=tuple(rows))


def some_transitions(rng, net):
    """The first, the last, one between, or several."""
    last = len(net.transitions) - 1
    several = rng.sample(range(last + 1), min(last + 1, rng.choice([2, 2, 3])))
    return rng.choice([[0], [last], [last], [rng.randint(0, last)], several, several])


def a_leak(rng, make=heavy_trade):
    """A net that does not balance under the weights that come with it, by one token of some place."""
    net, weights = make(rng)
    return with_leaks(rng, net, weights, some_transitions(rng, net)), weights


def high_leak(rng):
    """The same with many transitions."""
    return a_leak(rng, tall_trade)


def hidden_leak(rng):
    """A leak that is a multiple of 256 or of 65,536, so that low bytes do not show it."""
    places, transitions = rng.randint(1, 4), rng.randint(1, 4)
    weight, by = rng.choice([(256, 1), (128, 2), (64, 4), (32_768, 2), (32_768, 2), (16_384, 4), (1_024, 64), (512, 128)])
    net, found = trading_net(rng, places, transitions, 2)
    common = tuple(weight if share else 0 for share in found)
    rows = tuple(row._replace(outputs=as_heavy(rng, common, row.inputs)) for row in net.transitions)
    return with_leaks(rng, net._replace(transitions=rows), common, [rng.randrange(transitions)], by), common


def plain_weights(rng):
    """A net that is not made to balance, under any weights."""
    net = material.any_net(rng)
    kind = rng.choice([(0, 1), (0, 1, 2, 3), (1, 256), (0, 1, 255, 256, 65_535)])
    return net, tuple(rng.choice(kind) for _ in net.marking)


# ---- weights as bytes


def words(weights):
    return b"".join(weight.to_bytes(2, "big") for weight in weights)


def missized(rng, data):
    """Weights of another length: bytes left out, or the same, zeros or others behind."""
    whole = len(data)
    places = whole // 2
    sizes = [whole - 1, whole - 1, whole + 1, whole + 1, whole - 2, whole + 2, 0, 1, places, 2 * whole, rng.randint(0, 2 * whole)]
    size = rng.choice([size for size in sizes if size != whole])
    return (data + rng.choice([data, bytes(whole), rng.randbytes(whole)]) + bytes(2))[:size]


# ---- states


def all_counts(net, value):
    """A count at every lawful age."""
    return {(t, age): value() for t, row in enumerate(net.transitions) for age in range(row.lfd + 1)}


def aged_state(rng, net):
    """Firings of age 0 alone, at the lfd alone, or between, of one transition or several; tokens as a rule."""
    age = rng.choice([lambda lfd: 0, lambda lfd: lfd, lambda lfd: rng.randint(1, lfd - 1) if lfd > 1 else lfd])
    counts = {}
    for _ in range(rng.choice([1, 1, 2, 3])):
        t = material.some_transition(rng, net)
        counts[t, age(net.transitions[t].lfd)] = rng.choice([1, 2, 255, 256, material.edge_value(rng)])
    marking = rng.choice([(0,) * len(net.marking), tuple(material.edge_value(rng) for _ in net.marking)])
    return State(marking, material.with_counts(net, counts))


def laden_state(rng, net):
    """Tokens at every place and firings at every age, or nearly: full, or any number."""
    any_number = lambda: rng.randint(0, MAX_TOKENS)
    value = rng.choice([lambda: MAX_TOKENS, lambda: material.edge_value(rng), any_number, any_number, any_number])
    marking = tuple(value() for _ in net.marking)
    return State(marking, material.with_counts(net, all_counts(net, value)))


def a_state(rng, net):
    kinds = aged_state, aged_state, laden_state, material.any_state, material.any_state, material.wild_state, material.due_state
    return rng.choice(kinds)(rng, net)


# ---- events and steps back in whatever order


def step_back(rng, net, state):
    """The state before some event that can be taken back, for either fact, or None."""
    found = []
    for pair in material.candidate_pairs(rng, net):
        try:
            found.append(reference.backward(net, state, reference.read_event(net, *pair), rng.randrange(2)))
        except reference.Refused:
            pass
    return rng.choice(found) if found else None


def wander(rng, net, state, steps):
    """The state after so many accepted events and steps back, or as many as there are."""
    for _ in range(steps):
        started = rng.randrange(2)
        pair = material.permitted_pair(rng, net, state, started)
        before = step_back(rng, net, state) if pair is None or rng.random() < 0.35 else None
        if before:
            state = before
        elif pair:
            state = reference.forward(net, state, reference.read_event(net, *pair), started)
    return state

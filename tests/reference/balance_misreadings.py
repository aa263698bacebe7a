"""Wrong readings of request W6, and what stands in the reference for each.

That a firing is weighed by what its transition puts out is not among them: where a total is told, every
transition puts out the weight it takes in."""

import struct

import reference

right_weights, right_leaks, right_total = reference.read_weights, reference.leaks, reference.total_of


# ---- the total


def totalling(read):
    """The total by another reading, a function of the net, the state and the weights."""
    return {"total_of": read}


def total_changed(change):
    """The total, and then changed."""
    return totalling(lambda net, state, weights: change(right_total(net, state, weights)))


def firings_as(counted):
    """The firings counted otherwise: of a transition's row and its counts, by age, a function tells how many."""

    def read(net, state, weights):
        rows = zip(net.transitions, state.counts)
        running = sum(counted(row, ages) * reference.weighed(weights, row.inputs) for row, ages in rows)
        return reference.weighed(weights, state.marking) + running

    return totalling(read)


def firing_weighing(weight):
    """A firing weighed otherwise: by a function of its transition's row and the weights."""

    def read(net, state, weights):
        running = sum(sum(ages) * weight(row, weights) for row, ages in zip(net.transitions, state.counts))
        return reference.weighed(weights, state.marking) + running

    return totalling(read)


def tokens_as(counted):
    """The tokens taken from elsewhere: a function of the net and the state."""
    return totalling(lambda net, state, weights: right_total(net, state._replace(marking=counted(net, state)), weights))


def of_places(chosen):
    """The total of some places' weights alone."""
    return totalling(lambda net, state, weights: right_total(net, state, only(weights, chosen)))


def of_transitions(chosen):
    """The total with the firings of some transitions alone."""

    def read(net, state, weights):
        rows = range(len(net.transitions))[chosen]
        counts = tuple(ages if t in rows else (0,) * len(ages) for t, ages in enumerate(state.counts))
        return right_total(net, state._replace(counts=counts), weights)

    return totalling(read)


def only(weights, chosen):
    """The weights of some places, and 0 for the others."""
    places = range(len(weights))[chosen]
    return tuple(weight if p in places else 0 for p, weight in enumerate(weights))


# ---- the weights


def weights_from(word):
    """The weights read otherwise: a function of their bytes and the place."""

    def read(net, data):
        right_weights(net, data)
        return tuple(word(data, p) for p in range(len(net.marking)))

    return {"read_weights": read}


def fitted(net, data):
    """The weights cut to their length, or with zeros behind."""
    size = 2 * len(net.marking)
    return right_weights(net, (data + bytes(size))[:size])


def lengths_where(accepted):
    """Weights of other lengths taken too, where that holds of the length and 2P."""

    def read(net, data):
        return fitted(net, data) if accepted(len(data), 2 * len(net.marking)) else right_weights(net, data)

    return {"read_weights": read}


def signed(weight):
    return weight - 65_536 if weight >= 32_768 else weight


def rounded(weight):
    """As a floating-point number of 32 bits."""
    return struct.unpack("f", struct.pack("f", weight))[0]


# ---- 30


def leaking_where(test):
    """A leak is where that holds of what is put out, what is taken in, the row and the weights."""

    def read(row, weights):
        return test(reference.weighed(weights, row.outputs), reference.weighed(weights, row.inputs), row, weights)

    return {"leaks": read}


def tellings(index):
    """30 with another index: a function of the transitions that leak, or None where it is not told."""

    def read(net, weights):
        found = [t for t, row in enumerate(net.transitions) if reference.leaks(row, weights)]
        told = index(found, net) if found else None
        if told is not None:
            raise reference.Refused(30, told)

    return {"check_balance": read}


# ---- the order, and what a refusal tells


def calling(read):
    """The call by another reading: a function of net, state and weights as bytes."""
    return {"balance": reference.call(fields=3)(read)}


def answered(net, state, weights):
    """The answer where the weights are read."""
    reference.check_balance(net, weights)
    return 0, 0, reference.total_of(net, state, weights)


def asked_of(chosen):
    """30 of those transitions alone of which that holds in the state."""

    def read(data, buffer, weights):
        net = reference.read_net(data)
        state = reference.read_state(net, buffer)
        weights = reference.read_weights(net, weights)
        for t, row in enumerate(net.transitions):
            if chosen(net, state, t) and reference.leaks(row, weights):
                raise reference.Refused(30, t)
        return 0, 0, reference.total_of(net, state, weights)

    return calling(read)


def leak_before_length(data, buffer, weights):
    net = reference.read_net(data)
    state = reference.read_state(net, buffer)
    reference.check_balance(net, fitted(net, weights))
    return answered(net, state, reference.read_weights(net, weights))


def length_before_state(data, buffer, weights):
    net = reference.read_net(data)
    read = reference.read_weights(net, weights)
    return answered(net, reference.read_state(net, buffer), read)


def leak_before_state(data, buffer, weights):
    net = reference.read_net(data)
    if len(weights) == 2 * len(net.marking):
        reference.check_balance(net, reference.read_weights(net, weights))
    state = reference.read_state(net, buffer)
    return answered(net, state, reference.read_weights(net, weights))


def both_before_9(data, buffer, weights):
    net = reference.read_net(data)
    try:
        state = reference.read_state(net, buffer)
    except reference.Refused as refused:
        if refused.number == 9:
            reference.check_balance(net, reference.read_weights(net, weights))
        raise
    return answered(net, state, reference.read_weights(net, weights))


def length_before_rows(data, buffer, weights):
    """31 as soon as P is known: before 4, 5 and 6."""
    try:
        net = reference.read_net(data)
    except reference.Refused as refused:
        if refused.number in (4, 5, 6) and len(weights) != 2 * data[5]:
            raise reference.Refused(31) from None
        raise
    state = reference.read_state(net, buffer)
    return answered(net, state, reference.read_weights(net, weights))


def state_not_asked(data, buffer, weights):
    """A state that is refused counts for an empty one."""
    net = reference.read_net(data)
    try:
        state = reference.read_state(net, buffer)
    except reference.Refused:
        state = reference.initial_state(net)._replace(marking=(0,) * len(net.marking))
    return answered(net, state, reference.read_weights(net, weights))


def telling_total(number):
    """The total told with that refusal too; weights of another length are cut or have zeros behind."""
    right = reference.balance

    def read(data, buffer, weights):
        told = right(data, buffer, weights)
        if told[0] != number:
            return told
        net = reference.read_net(data)
        return *told[:2], reference.total_of(net, reference.read_state(net, buffer), fitted(net, weights))

    return {"balance": read}


OF_BALANCES = {
    "firings left out": firings_as(lambda row, ages: 0),
    "firings of age 0 alone": firings_as(lambda row, ages: ages[0]),
    "firings at the lfd alone": firings_as(lambda row, ages: ages[row.lfd]),
    "firings from age 1 on": firings_as(lambda row, ages: sum(ages[1:])),
    "firings below the lfd": firings_as(lambda row, ages: sum(ages[: row.lfd])),
    "firings that may end": firings_as(lambda row, ages: sum(ages[row.sfd :])),
    "firings but for the last column": firings_as(lambda row, ages: sum(ages[:-1])),
    "each count is one firing": firings_as(lambda row, ages: sum(count > 0 for count in ages)),
    "one firing of a transition": firings_as(lambda row, ages: int(any(ages))),
    "firings by their low byte": firings_as(lambda row, ages: sum(count % 256 for count in ages)),
    "firings times their age": firings_as(lambda row, ages: sum(age * count for age, count in enumerate(ages))),
    "a firing weighs one of each input place": firing_weighing(lambda row, weights: sum(w for w, n in zip(weights, row.inputs) if n)),
    "a firing weighs its input tokens": firing_weighing(lambda row, weights: sum(row.inputs)),
    "a firing weighs both sides": firing_weighing(lambda row, weights: reference.weighed(2 * weights, row.inputs + row.outputs)),
    "firings of all but the first transition": of_transitions(slice(1, None)),
    "firings of all but the last transition": of_transitions(slice(-1)),
    "firings of 32 transitions": of_transitions(slice(32)),
    "the net's initial marking": tokens_as(lambda net, state: net.marking),
    "tokens left out": tokens_as(lambda net, state: (0,) * len(state.marking)),
    "tokens by their low byte": tokens_as(lambda net, state: tuple(tokens % 256 for tokens in state.marking)),
    "tokens without their weights": totalling(
        lambda net, state, weights: right_total(net, state, weights) - reference.weighed(weights, state.marking) + sum(state.marking)
    ),
    "the first place left out": of_places(slice(1, None)),
    "the last place left out": of_places(slice(-1)),
    "8 places": of_places(slice(8)),
    "the total modulo 65,536": total_changed(lambda total: total % 2**16),
    "the total modulo 2 to the 32": total_changed(lambda total: total % 2**32),
    "the total at most 2 to the 32 less one": total_changed(lambda total: min(total, 2**32 - 1)),
    "the total in 53 bits and an exponent": total_changed(lambda total: int(float(total))),
    "weights low byte first": weights_from(lambda data, p: data[2 * p] + 256 * data[2 * p + 1]),
    "a weight at every byte": weights_from(lambda data, p: reference.number_at(data, p, 2)),
    "weights of a byte, the low one": weights_from(lambda data, p: data[2 * p + 1]),
    "weights of a byte, the high one": weights_from(lambda data, p: data[2 * p]),
    "weights with a sign": weights_from(lambda data, p: signed(reference.number_at(data, 2 * p, 2))),
    "the weights the other way round": weights_from(lambda data, p: reference.number_at(data, len(data) - 2 - 2 * p, 2)),
    "the first weight for all places": weights_from(lambda data, p: reference.number_at(data, 0, 2)),
    "longer weights are taken": lengths_where(lambda size, wanted: size > wanted),
    "shorter weights are taken": lengths_where(lambda size, wanted: size < wanted),
    "a byte too many is taken": lengths_where(lambda size, wanted: size == wanted + 1),
    "a byte too few is taken": lengths_where(lambda size, wanted: size == wanted - 1),
    "the length by its low byte": lengths_where(lambda size, wanted: size % 256 == wanted % 256),
    "128 bytes are taken": lengths_where(lambda size, wanted: size == 128),
    "no weights are taken": lengths_where(lambda size, wanted: size == 0),
    "30 not asked": tellings(lambda found, net: None),
    "30 of more put out alone": leaking_where(lambda out, taken, row, weights: out > taken),
    "30 of less put out alone": leaking_where(lambda out, taken, row, weights: out < taken),
    "30 by more than one": leaking_where(lambda out, taken, row, weights: abs(out - taken) > 1),
    "30 by the low byte": leaking_where(lambda out, taken, row, weights: (out - taken) % 256 != 0),
    "30 by the low two bytes": leaking_where(lambda out, taken, row, weights: (out - taken) % 65_536 != 0),
    "30 by the low three bytes": leaking_where(lambda out, taken, row, weights: (out - taken) % 2**24 != 0),
    "30 in 24 bits and an exponent": leaking_where(lambda out, taken, row, weights: rounded(out) != rounded(taken)),
    "30 by the number of tokens": leaking_where(lambda out, taken, row, weights: sum(row.outputs) != sum(row.inputs)),
    "30 by each place": leaking_where(
        lambda out, taken, row, weights: any(w and i != o for w, i, o in zip(weights, row.inputs, row.outputs))
    ),
    "30 by the first place left out": leaking_where(lambda out, taken, row, weights: right_leaks(row, only(weights, slice(1, None)))),
    "30 by the last place left out": leaking_where(lambda out, taken, row, weights: right_leaks(row, only(weights, slice(-1)))),
    "30 by 8 places": leaking_where(lambda out, taken, row, weights: right_leaks(row, only(weights, slice(8)))),
    "30 of the first transition alone": tellings(lambda found, net: 0 if found[0] == 0 else None),
    "30 of all but the first transition": tellings(lambda found, net: next((t for t in found if t > 0), None)),
    "30 of all but the last transition": tellings(lambda found, net: found[0] if found[0] < len(net.transitions) - 1 else None),
    "30 of 32 transitions": tellings(lambda found, net: found[0] if found[0] < 32 else None),
    "30 of running transitions alone": asked_of(lambda net, state, t: any(state.counts[t])),
    "30 of enabled transitions alone": asked_of(reference.is_enabled),
    "30 with the highest": tellings(lambda found, net: found[-1]),
    "30 with 0": tellings(lambda found, net: 0),
    "30 counted from 1": tellings(lambda found, net: found[0] + 1),
    "30 with how many leak": tellings(lambda found, net: len(found)),
    "30 before 31": calling(leak_before_length),
    "31 before 8 and 9": calling(length_before_state),
    "30 before 8 and 9": calling(leak_before_state),
    "30 and 31 before 9": calling(both_before_9),
    "31 before 4, 5 and 6": calling(length_before_rows),
    "8 and 9 not asked": calling(state_not_asked),
    "30 tells the total": telling_total(30),
    "31 tells the total": telling_total(31),
}

"""What a request for the balance shows of W6: the limits that it comes near."""

import reference


def sides(row, weights):
    """What a transition puts out and what it takes in."""
    return reference.weighed(weights, row.outputs), reference.weighed(weights, row.inputs)


def told_kinds(net, state, weights, total, behind):
    """What a total shows."""
    running = [(t, age) for t, ages in enumerate(state.counts) for age, count in enumerate(ages) if count]
    last = {t: net.transitions[t].lfd for t, _ in running}
    rows = net.transitions
    return {
        "0, no firing": not running,
        "0, a firing of age 0": any(age == 0 < last[t] for t, age in running),
        "0, a firing between": any(0 < age < last[t] for t, age in running),
        "0, a firing at its lfd": any(age == last[t] > 0 for t, age in running),
        "0, a firing of age 63": any(age == 63 for _, age in running),
        "0, a firing that may not end yet": any(age < rows[t].sfd for t, age in running),
        "0, firings of several transitions": len(last) > 1,
        "0, the last transition runs": len(rows) > 1 and len(rows) - 1 in last,
        "0, a count is full": any(reference.MAX_TOKENS in ages for ages in state.counts),
        "0, a place is full": reference.MAX_TOKENS in state.marking,
        "0, a place weighs nothing": 0 in weights,
        "0, no place weighs anything": not any(weights),
        "0, a place weighs 65,535": 65_535 in weights,
        "0, weights of several kinds": len(set(weights)) > 1,
        "0, tokens become others in kind and number": any(sum(row.inputs) != sum(row.outputs) for row in rows),
        "0, 64 places": len(weights) == 64,
        "0, 64 transitions": len(rows) == 64,
        "0, not the initial marking": state.marking != net.marking,
        "0, bytes behind the state": behind,
        "0, the total is 0": total == 0,
        "0, the total passes 2 to the 16": total >= 2**16,
        "0, the total passes 2 to the 32": total >= 2**32,
        "0, the total passes 2 to the 53": total >= 2**53,
    }


def leak_kinds(net, state, weights):
    """What a leak shows: the first, and the others."""
    found = [t for t, row in enumerate(net.transitions) if reference.leaks(row, weights)]
    out, taken = sides(net.transitions[found[0]], weights)
    last = len(net.transitions) - 1
    return {
        "30 of the first of several transitions": found[0] == 0 < last,
        "30 of one between": 0 < found[0] < last,
        "30 of the last of several transitions": found[0] == last > 0,
        "30 of transition 63": found[0] == 63,
        "30, others leak too": len(found) > 1,
        "30 by one": abs(out - taken) == 1,
        "30, more is put out": out > taken,
        "30, less is put out": out < taken,
        "30, a multiple of 256": (out - taken) % 256 == 0,
        "30, a multiple of 65,536": (out - taken) % 65_536 == 0,
        "30, nothing is put out": out == 0,
        "30, nothing is taken in": taken == 0,
        "30, as many tokens on both sides": sum(net.transitions[found[0]].inputs) == sum(net.transitions[found[0]].outputs),
        "30, it does not run and is not enabled": not any(state.counts[found[0]]) and not reference.is_enabled(net, state, found[0]),
        "30, the total would not be 0": reference.total_of(net, state, weights) > 0,
    }


def length_kinds(net, data):
    """What weights of another length show."""
    whole = 2 * len(net.marking)
    padded = reference.read_weights(net, (bytes(data) + bytes(whole))[:whole])
    return {
        "31, no byte": len(data) == 0,
        "31, one byte": len(data) == 1,
        "31, P bytes": len(data) == whole // 2,
        "31, a byte too few": len(data) == whole - 1,
        "31, two bytes too few": len(data) == whole - 2,
        "31, a byte too many": len(data) == whole + 1,
        "31, two bytes too many": len(data) == whole + 2,
        "31, the most bytes of a request": len(data) == 65_536,
        "31, and a leak": any(reference.leaks(row, padded) for row in net.transitions),
    }


def earlier_kinds(number, data, buffer, weights):
    """What the numbers in front of W6's show: 31 or 30 would hold too."""
    places = data[5] if len(data) > 5 else 0
    name = "1 to 3" if number <= 3 else "4 to 6" if number <= 6 else str(number)
    found = {f"{name}, and weights not 2P bytes": len(weights) != 2 * places}
    if number in (8, 9) and len(weights) == 2 * places:
        net = reference.read_net(data)
        found[f"{name}, and a leak"] = any(reference.leaks(row, reference.read_weights(net, weights)) for row in net.transitions)
    return found


def shown_by(arguments, line):
    """The kinds that hold of the request."""
    data, buffer, weights = arguments
    number, _, total = map(int, line.split()[1:])
    if 1 <= number <= 9:
        return earlier_kinds(number, data, buffer, weights)
    net = reference.read_net(data)
    state = reference.read_state(net, buffer)
    if number == 31:
        return length_kinds(net, weights)
    read = reference.read_weights(net, weights)
    if number == 30:
        return leak_kinds(net, state, read)
    return told_kinds(net, state, read, total, len(buffer) > reference.state_length(net))

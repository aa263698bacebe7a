"""Writes the text form of a net that the engine has accepted: one blank between words, and no comment."""

from nettext.lines import can_carry
from nettext.messages import NAMES, quoted


def names_of(kind, count, given):
    """What the text calls the things of a kind, and a warning for each name that it does not have from the file of names."""
    called, holders, told = {}, {}, []
    for number in range(count):
        name = given.get(number)
        if name is not None and can_carry(name) and name not in holders:
            called[number] = name
            holders[name] = number
    for number in range(count):
        if number not in called:
            called[number] = free_name("%s_%d" % (kind, number), holders)
            holders[called[number]] = number
            if number in given:
                told.append(replaced(kind, number, given[number], called[number], holders))
    return [called[number] for number in range(count)], told


def free_name(wanted, taken):
    """The wanted name, or where it is taken the first free one of wanted_2, wanted_3 and so on."""
    name, more = wanted, 1
    while name in taken:
        more += 1
        name = "%s_%d" % (wanted, more)
    return name


def replaced(kind, number, name, instead, holders):
    """Why a thing has another name than the file of names says."""
    key = "shared" if name in holders else "not_carried"
    parts = {"thing": "%s %d" % (kind, number), "other": "%s %d" % (kind, holders.get(name, 0))}
    return NAMES[key].format(name=quoted(instead), word=quoted(name), **parts)


def arcs(weights, names):
    return ", ".join(names[place] if weight == 1 else "%d %s" % (weight, names[place]) for place, weight in weights)


def written(net, names):
    """The text of a net, and what is to be said of the names in it."""
    places, told = names_of("place", net.places, names.given["place"])
    transitions, more = names_of("transition", net.transitions, names.given["transition"])
    rows = ["place %s %d" % row if row[1] else "place %s" % row[0] for row in zip(places, net.initial)]
    for t, name in enumerate(transitions):
        ends = arcs(net.takes[t], places), arcs(net.gives[t], places)
        rows.append("transition %s %d..%d: %s -> %s" % (name, net.sfd[t], net.lfd[t], *ends))
    return "".join(row + "\n" for row in rows), told + more

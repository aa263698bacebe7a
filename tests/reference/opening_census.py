"""What a request shows of W5: the limits that its events come near, and where their facts come from."""

from typing import NamedTuple, Optional

import reference
from reference import END, START, TICK, Event, Net, State

CALLS = "event", "back", "run", "walk"


class Tried(NamedTuple):
    """An event that is done or taken back, or refused, and what goes with it."""

    net: Net
    state: State
    event: Event
    fact: int
    number: int
    is_back: bool
    between: tuple = ()  # the events since the one that tells the fact
    teller: Optional[tuple] = None  # the start or tick that tells it, None where it is the given one
    in_front: bool = False  # whether that one is not to be walked


def tried(net, state, pair, fact, is_back, **told):
    """The event with its number, and the state behind it; None where it is malformed."""
    try:
        event = reference.read_event(net, *pair)
        number, after = 0, (reference.backward if is_back else reference.forward)(net, state, event, fact)
    except reference.Refused as refused:
        if refused.number in (11, 12):
            return None, None
        number, after = refused.number, state
    return Tried(net, state, event, fact, number, is_back, **told), after


def source(pairs, at):
    """The nearest start or tick in front of that event, and its place; None and -1 where there is none."""
    for place in range(at - 1, -1, -1):
        if pairs[place][0] <= 64 and pairs[place][1] == 0:
            return pairs[place], place
    return None, -1


def events_of(name, arguments):
    """The events of a request that reaches them, in the order in which they are tried."""
    net = reference.read_net(arguments[0])
    state = reference.read_state(net, arguments[1])
    started, is_back = arguments[-1], name in ("back", "walk")
    if name in ("event", "back"):
        one, _ = tried(net, state, tuple(arguments[2:4]), started, is_back)
        return [one] if one else []
    pairs = reference.read_log(arguments[2])
    first = len(pairs) - arguments[3] if is_back else 0
    places = range(len(pairs) - 1, first - 1, -1) if is_back else range(len(pairs))
    facts, found = reference.facts(pairs, started), []
    for at in places:
        teller, place = source(pairs, at)
        told = {"between": tuple(pairs[place + 1 : at]), "teller": teller, "in_front": place < first}
        one, state = tried(net, state, pairs[at], facts[at], is_back, **told)
        if one is None:
            break
        found.append(one)
        if one.number:
            break
    return found


def end_kinds(one):
    age, row = one.event.age, one.net.transitions[one.event.transition]
    holds = (reference.back_tests if one.is_back else reference.event_tests)(one.net, one.state, one.event, one.fact)
    told, old = one.number == 28, age >= 1 and one.number == 0
    malformed = any(first > 128 or first <= 64 and second for first, second in one.between)
    ends = any(65 <= first <= 128 for first, _ in one.between)
    return {
        "28 at age 1": told and age == 1,
        "28 above age 1": told and age > 1,
        "28 at the lfd": told and age == row.lfd,
        "28 below the lfd": told and age < row.lfd,
        "28, and 16 holds": told and holds.get(16, False),
        "28, and 17 holds": told and holds.get(17, False),
        "28, and 26 holds": told and holds.get(26, False),
        "28, and 27 holds": told and holds.get(27, False),
        "28 by the given fact": told and one.teller is None,
        "28 by a start of the log": told and one.teller is not None,
        "28 by a start in front of the walked part": told and one.teller is not None and one.in_front,
        "28 by a start not below T": told and one.teller is not None and one.teller[0] > len(one.net.transitions),
        "28, an end stands between": told and ends,
        "28, a malformed pair stands between": told and malformed,
        "15 of age 1 or more after a start": one.number == 15 and age >= 1 and one.fact == 1,
        "age 0 after a start, accepted": one.number == 0 and age == 0 and one.fact == 1,
        "age 0 after a start, refused": one.number not in (0, 15) and age == 0 and one.fact == 1,
        "an old end, accepted by the given fact": old and one.teller is None,
        "an old end, accepted behind a tick": old and one.teller is not None,
        "an old end, a tick in front of the walked part": old and one.teller is not None and one.in_front,
        "an old end, accepted, a malformed pair stands between": old and malformed,
    }


def start_kinds(one):
    net, state, t = one.net, one.state, one.event.transition
    owing = [u for u, row in enumerate(net.transitions) if row.lfd >= 1 and reference.is_due(net, state, u)]
    told = one.number == 29
    return {
        "29, no start made": told and one.fact == 0,
        "29 after a start": told and one.fact == 1,
        "29, its own end alone is owed": told and owing == [t],
        "29, the last transition's end alone": told and owing == [len(net.transitions) - 1] and len(net.transitions) > 1,
        "29 by an end of age 1": told and any(net.transitions[u].lfd == 1 for u in owing),
        "29, and 14 holds": told and not one.is_back and state.counts[t][0] == reference.MAX_TOKENS,
        "13, an old end is owed": one.number == 13 and bool(owing),
        "14, an end of age 0 is owed": one.number == 14 and reference.end_owed(net, state),
        "24, an old end is owed": one.number == 24 and bool(owing),
        "25, an old end is owed": one.number == 25 and bool(owing),
        "a start, an end of age 0 is owed, accepted": one.number == 0 and reference.end_owed(net, state),
        "a start, old firings not yet owed, accepted": one.number == 0 and any(any(ages[1:]) for ages in state.counts),
    }


def tick_kinds(one):
    return {"a tick after a start, accepted": one.number == 0 and one.fact == 1}


KINDS = {END: end_kinds, START: start_kinds, TICK: tick_kinds}


def run_kinds(line, given):
    """What a run tells."""
    number, told = int(line.split()[1]), int(line.split()[7])
    return {
        "1 to 10, the given fact being 1": 1 <= number <= 10 and given == 1,
        "accepted, tells 0, was given 1": number == 0 and told == 0 and given == 1,
        "accepted, tells 1, was given 0": number == 0 and told == 1 and given == 0,
        "refused, tells 0": number > 10 and told == 0,
        "refused, tells 1": number > 10 and told == 1,
        "a refused start, tells 0": number in (12, 13, 14, 29) and told == 0,
        "a refused tick, tells 1": number in (18, 19, 20) and told == 1,
    }


def shown_by(name, arguments, line):
    """The kinds that hold of the request, or of one of its events."""
    number = int(line.split()[1])
    found = run_kinds(line, arguments[-1]) if name == "run" else {}
    if number == 0 or number > 10 and number != 22:
        for one in events_of(name, arguments):
            for kind, holds in KINDS[one.event.kind](one).items():
                found[kind] = found.get(kind, False) or holds
    return found

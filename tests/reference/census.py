#!/usr/bin/env python3
"""What the cases of document01.py and a seeded stream of requests show: the reference's answers counted.

By number and call; those of 13 by what place and shortage tell apart; pages by stop and by the
limits that they come near; those that take a fact by what they show of W5; balances by the limits
that they come near; and the requests that each wrong reading changes.

usage: census.py SEED COUNT
"""

import collections
import itertools
import sys

import ask
import balance_census
import balance_misreadings
import document01
import generate
import material
import misreadings
import opening_census
import reference
import wire
from reference import END, START, TICK


def refused_start(name, arguments):
    """Of a request that is told 13: the net, the state where it begins, the one at the refused start, its transition."""
    net = reference.read_net(arguments[0])
    begin = reference.read_state(net, arguments[1])
    if name == "event":
        return net, begin, begin, arguments[2] - 1
    buffer = bytearray(arguments[1])
    index = reference.run(arguments[0], buffer, *arguments[2:])[1]
    first, _ = reference.read_log(arguments[2])[index]
    return net, begin, reference.read_state(net, buffer), first - 1


def short_kinds(net, begin, state, t):
    """The wrong readings that place and shortage of this start would show."""
    weights = net.transitions[t].inputs
    lacking = [(p, weight - tokens) for p, (weight, tokens) in enumerate(zip(weights, state.marking)) if tokens < weight]
    lowest, shortage = lacking[0]
    shortages = {lack for _, lack in lacking}
    return {
        "in all": True,
        "the place is not place 0": lowest > 0,
        "the place is place 63": lowest == 63,
        "a lower place has just its weight": any(0 < w == state.marking[p] for p, w in enumerate(weights[:lowest])),
        "a lower place is empty, its weight 0": any(0 == w == state.marking[p] for p, w in enumerate(weights[:lowest])),
        "several places lack": len(lacking) > 1,
        "several places lack, not all alike": len(shortages) > 1,
        "a higher place lacks more": shortage < max(shortages),
        "a higher place lacks less": shortage > min(shortages),
        "the shortage is 1": shortage == 1,
        "the shortage is 255": shortage == 255,
        "the shortage is between": 1 < shortage < 255,
        "the count at age 0 is full": state.counts[t][0] == reference.MAX_TOKENS,
        "accepted events have changed the state": state != begin,
        "the first state would tell another": reference.short_place(net, begin, t) != lacking[0],
    }


def page_kinds(arguments):
    """The limits that a page comes near, and the choices that it meets."""
    data, image, room, budget = arguments
    buffer, log = bytearray(image), bytearray(room)
    _, _, stop, events, _ = reference.page(data, buffer, log, budget)
    net = reference.read_net(data)
    state = begin = reference.read_state(net, image)
    needed, end = material.page_course(net, begin, 400)
    spare = len(room) - reference.LOG_HEAD - 2 * needed
    ends = end != reference.BUDGET_SPENT
    length = reference.LOG_HEAD + 2 * events
    kinds = {
        "the budget is what is needed": ends and budget == needed and spare >= 0,
        "the budget is one less": ends and budget == needed - 1 and spare >= 0,
        "the budget is one more": ends and budget == needed + 1 and spare >= 0,
        "the buffer is what is needed": ends and spare == 0 and budget >= needed,
        "the buffer is one byte less": ends and spare == -1 and budget >= needed,
        "the buffer is two bytes less": ends and spare == -2 and budget >= needed,
        "the buffer is one byte more": ends and spare == 1 and budget >= needed,
        "the buffer has 5 or 6 bytes": len(room) in (5, 6),
        "the budget is 0": budget == 0,
        "nothing is done": events == 0,
        "40 events or more": events >= 40,
        "bytes behind the log": len(room) > length,
        "bytes behind the state": len(image) > reference.state_length(net),
    }
    seen = collections.Counter()
    pairs = reference.read_log(bytes(log[:length]))
    for pair, fact in zip(pairs, reference.facts(pairs, 0)):
        event = reference.read_event(net, *pair)
        seen.update(choice_kinds(net, state, event))
        state = reference.forward(net, state, event, fact)
        seen["a start fills its count"] += event.kind == START and state.counts[event.transition][0] == reference.MAX_TOKENS
        seen["an end fills a place"] += event.kind == END and max(state.marking) == reference.MAX_TOKENS
    if stop == reference.PLACE_FULL:
        event = reference.chosen(net, state)
        passed = reference.more(state.marking, net.transitions[event.transition].outputs)
        seen["an end would pass a limit by one"] += max(passed) == reference.MAX_TOKENS + 1
    return {**kinds, **{kind: number > 0 for kind, number in seen.items()}}


def choice_kinds(net, state, event):
    """What else might have come in place of the event."""
    owed = sum(reference.is_due(net, state, t) for t in range(len(net.transitions)))
    enabled = sum(reference.is_enabled(net, state, t) for t in range(len(net.transitions)))
    return {
        "an end of several owed": owed > 1,
        "an end, a start being owed": owed > 0 and enabled > 0,
        "an end later than the sfd": event.kind == END and event.age > net.transitions[event.transition].sfd,
        "a start of several enabled": owed == 0 and enabled > 1,
        "a start, some firing running": event.kind == START and reference.is_running(state),
        "a tick, some firing may end": event.kind == TICK and any(
            any(state.counts[t][row.sfd : row.lfd]) for t, row in enumerate(net.transitions)
        ),
        "an event of transition 63": event.transition == 63,
    }


def readings(name, number):
    """The wrong readings to try on a request of that call which tells the number."""
    if name == "page" and number == 0:
        yield from misreadings.OF_PAGES.items()
    if name in ("back", "walk") and (number == 0 or number > 12):
        yield from misreadings.OF_STEPS_BACK.items()
    if name in opening_census.CALLS:
        yield from misreadings.OF_OPENINGS.items()
    if name == "balance":
        yield from balance_misreadings.OF_BALANCES.items()


class Census:
    """Counts of what the requests show."""

    def __init__(self):
        self.told, self.short, self.stops, self.page = (collections.Counter() for _ in range(4))
        self.opening, self.balance, self.wrong = (collections.Counter() for _ in range(3))
        self.size = 0

    def add(self, name, arguments):
        line = ask.answer(name, arguments)
        number = int(line.split()[1])
        self.told[number, name] += 1
        self.size += len(wire.encode(name, *arguments))
        if number == 13:
            kinds = short_kinds(*refused_start(name, arguments))
            self.short.update({(kind, name): int(holds) for kind, holds in kinds.items()})
        if name == "page" and number == 0:
            self.stops[int(line.split()[3])] += 1
            self.page.update({(kind, name): int(holds) for kind, holds in page_kinds(arguments).items()})
        if name in opening_census.CALLS:
            kinds = opening_census.shown_by(name, arguments, line)
            self.opening.update({(kind, name): int(holds) for kind, holds in kinds.items()})
        if name == "balance":
            kinds = balance_census.shown_by(arguments, line)
            self.balance.update({(kind, name): int(holds) for kind, holds in kinds.items()})
        for reading, changes in readings(name, number):
            self.wrong[reading, name] += misreadings.shows(changes, name, arguments, line)


def print_table(title, rows, counts, names):
    print(f"\n{title:56}" + "".join(f"{name:>8}" for name in names))
    for row in rows:
        print(f"{str(row):56}" + "".join(f"{counts[row, name] or '.':>8}" for name in names))


def kinds_of(counts):
    """The kinds that were looked for, in the order in which they came first."""
    return list(dict.fromkeys(kind for kind, _ in counts))


def print_numbers(told, size):
    names = [name for _, name, _ in wire.TABLE]
    print("number  " + "".join(f"{name:>12}" for name in names) + "       total")
    for number in range(32):
        row = [told[number, name] for name in names]
        print(f"{number:6}  " + "".join(f"{value or '.':>12}" for value in row) + f"{sum(row):12}")
    print(f"{told.total()} requests, {size} bytes")


def census(seed, count):
    """Counts and prints what the cases and so many requests show; the wrong readings that change no line are told last."""
    found = Census()
    for name, arguments in itertools.chain(document01.requests(document01.CASES), generate.requests(seed, count)):
        found.add(name, arguments)
    print_numbers(found.told, found.size)
    print_table("of 13", kinds_of(found.short), found.short, ["event", "run"])
    print_table("stop", reference.STOPS, {(stop, "page"): found.stops[stop] for stop in reference.STOPS}, ["page"])
    print_table("of a page", kinds_of(found.page), found.page, ["page"])
    print_table("of W5", sorted(kinds_of(found.opening)), found.opening, opening_census.CALLS)
    print_table("of W6", kinds_of(found.balance), found.balance, ["balance"])
    tables = (
        (misreadings.OF_PAGES, ["page"]),
        (misreadings.OF_STEPS_BACK, ["back", "walk"]),
        (misreadings.OF_OPENINGS, opening_census.CALLS),
        (balance_misreadings.OF_BALANCES, ["balance"]),
    )
    for readings_of, names in tables:
        print_table("a wrong reading changes", readings_of, found.wrong, names)
    unseen = [reading for of, names in tables for reading in of if not any(found.wrong[reading, name] for name in names)]
    print("\n" + (f"no line changes by: {', '.join(unseen)}" if unseen else "each wrong reading changes a line"))


if __name__ == "__main__":
    census(*map(int, sys.argv[1:3]))

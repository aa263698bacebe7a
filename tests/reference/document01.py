#!/usr/bin/env python3
"""The cases that document 01 itself gives, on the children's row net, and cases of
requests W1, W2 and W4, whose answers are worked out by hand. All begin with no start
made. Those of request W5 are in opening_cases.py, and those of W6 in balance_cases.py;
they are written and checked with these.

usage: document01.py          writes them as requests, in the document's order,
                              those without a K first, those of the requests last,
                              without the longest
       document01.py --check  tells whether the reference answers as they say
"""

import sys

import ask
import balance_cases
import menupage
import menurun
import opening_cases
import reference
import wire
from casenets import (
    BEFORE_LAST, END_63, FINAL, FOUR, INITIAL, K1, LOG, LOOP, LOOPED, NET, NOT_STARTED, SLOW, START_0, START_1, START_63, TALL, TICK, WIDE,
    at, end_0, end_1, four, four_net, log, loop, slow, state, tall, wide,
)

# title, call, arguments, fields of the answer, buffer afterwards (None: not shown; of a page state and log)
REMAINING = [
    ("start 0 taken back, place 0 at 65,535", "back", [NET, state([65535, 0, 0], {(0, 0): 1}), *START_0, NOT_STARTED],
     (25, 0), state([65535, 0, 0], {(0, 0): 1})),
    ("step 0 of the log", "step", [LOG, 0], (0, 0, 5, 2), None),
    ("step 1 of the log", "step", [LOG, 1], (0, 0, 9, 6), None),
    ("step 2 of the log", "step", [LOG, 2], (23, 0, 0, 0), None),
    ("length 0 as a net", "check_net", [b""], (1, 0), None),
    ("length 6 as a net", "check_net", [bytes.fromhex("010000000603")], (1, 0), None),
    ("a log of 5 bytes", "run", [NET, INITIAL, log(), NOT_STARTED], (0, 0, 0, 0, 0, 0, 0), INITIAL),
    ("the net", "check_net", [NET], (0, 0), None),
    ("the initial state", "initial", [NET, bytes(30)], (0, 0), INITIAL),
]

PROVED = [
    ("K1", "run", [NET, INITIAL, LOG, NOT_STARTED], (0, 5, 5, 1, 0, 0, 1), FINAL),
    ("K1, what is owed", "owed", [NET, FINAL], (0, 0, 0, 0, 0, 0, 64, 64, 4), None),
    ("K2", "run", [NET, INITIAL, log(TICK), NOT_STARTED], (18, 0, 0, 0, 0, 0, 0), INITIAL),
    ("K3", "run", [NET, INITIAL, log(START_0, TICK, TICK, TICK), NOT_STARTED],
     (0, 4, 4, 3, 0, 0, 0), state([0, 0, 0], {(0, 3): 1})),
    ("K4", "run", [NET, INITIAL, log(START_0, TICK, TICK, TICK, TICK), NOT_STARTED],
     (19, 4, 4, 3, 0, 0, 0), state([0, 0, 0], {(0, 3): 1})),
    ("K5", "run", [NET, INITIAL, log(START_0, end_0(0)), NOT_STARTED],
     (15, 1, 1, 0, 0, 0, 1), state([0, 0, 0], {(0, 0): 1})),
    ("K6", "run", [NET, INITIAL, log(START_0, TICK, end_0(2)), NOT_STARTED],
     (16, 2, 2, 1, 0, 0, 0), state([0, 0, 0], {(0, 1): 1})),
    ("K7", "run", [NET, INITIAL, log(START_0, TICK, end_0(1), TICK), NOT_STARTED],
     (18, 3, 3, 1, 0, 0, 0), state([0, 1, 0])),
    ("K8", "run", [NET, INITIAL, log(*K1, TICK), NOT_STARTED], (20, 5, 5, 1, 0, 0, 1), FINAL),
    ("K9", "back", [NET, FINAL, *end_1(0), NOT_STARTED], (0, 0), BEFORE_LAST),
    ("K9, as a walk", "walk", [NET, FINAL, LOG, 1, NOT_STARTED], (0, 4, 1, 0), BEFORE_LAST),
    ("K10", "back", [NET, INITIAL, *TICK, NOT_STARTED], (18, 0), INITIAL),
    ("K11", "event", [NET, state([0, 65534, 0], {(0, 1): 1}), *end_0(1), NOT_STARTED],
     (0, 0, 0, 0), state([0, 65535, 0])),
    ("K12", "event", [NET, state([0, 65535, 0], {(0, 1): 1}), *end_0(1), NOT_STARTED],
     (17, 0, 0, 0), state([0, 65535, 0], {(0, 1): 1})),
]

TOO_EARLY = log(START_0, TICK, START_1)
THRICE = log(START_0, START_0, START_0)
THRICE_AND_MORE = log(START_0, START_0, START_0, end_0(0), START_0)

# of document 01's net start 0 takes from place 0, and start 1 from place 1
SHORT = [
    ("start 1 in the initial state", "event", [NET, INITIAL, *START_1, NOT_STARTED], (13, 0, 1, 1), INITIAL),
    ("the row is filled before the load has ended", "run", [NET, INITIAL, TOO_EARLY, NOT_STARTED],
     (13, 2, 2, 1, 1, 1, 0), state([0, 0, 0], {(0, 1): 1})),
    ("start 0 twice", "run", [NET, INITIAL, log(START_0, START_0), NOT_STARTED],
     (13, 1, 1, 0, 0, 1, 1), state([0, 0, 0], {(0, 0): 1})),
    ("no place is short", "event", [FOUR, four(2, 0, 7, 255), *START_0, NOT_STARTED], (0, 0, 0, 0), four(0, 0, 0, 0, count=1)),
    ("a token is lacking", "event", [FOUR, four(1, 0, 7, 255), *START_0, NOT_STARTED], (13, 0, 0, 1), four(1, 0, 7, 255)),
    ("the lowest of three, neither the least nor the largest shortage", "event", [FOUR, four(0, 9, 6, 250), *START_0, NOT_STARTED],
     (13, 0, 0, 2), four(0, 9, 6, 250)),
    ("the lowest of two, a place below has its weight", "event", [FOUR, four(2, 0, 0, 0), *START_0, NOT_STARTED],
     (13, 0, 2, 7), four(2, 0, 0, 0)),
    ("no token for the greatest weight", "event", [FOUR, four(2, 0, 7, 0), *START_0, NOT_STARTED], (13, 0, 3, 255), four(2, 0, 7, 0)),
    ("one too few for the greatest weight", "event", [FOUR, four(65535, 0, 65535, 254), *START_0, NOT_STARTED],
     (13, 0, 3, 1), four(65535, 0, 65535, 254)),
    ("13 before 14", "event", [FOUR, four(2, 0, 6, 255, count=65535), *START_0, NOT_STARTED],
     (13, 0, 2, 1), four(2, 0, 6, 255, count=65535)),
    ("14 tells no place", "event", [FOUR, four(2, 0, 7, 255, count=65535), *START_0, NOT_STARTED],
     (14, 0, 0, 0), four(2, 0, 7, 255, count=65535)),
    ("the third start, place 0", "run", [FOUR, four(5, 0, 20, 600), THRICE, NOT_STARTED],
     (13, 2, 2, 0, 0, 1, 1), four(1, 0, 6, 90, count=2)),
    ("the third start, place 2", "run", [FOUR, four(6, 0, 20, 600), THRICE, NOT_STARTED],
     (13, 2, 2, 0, 2, 1, 1), four(2, 0, 6, 90, count=2)),
    ("the third start, place 3, and events behind it", "run", [FOUR, four(9, 0, 21, 600), THRICE_AND_MORE, NOT_STARTED],
     (13, 2, 2, 0, 3, 165, 1), four(5, 0, 7, 90, count=2)),
    ("a start taken back that was never done", "back", [FOUR, four(1, 0, 6, 90), *START_0, NOT_STARTED], (24, 0), four(1, 0, 6, 90)),
    ("the last of 64 places", "event", [WIDE, wide([1] * 63 + [0]), *START_0, NOT_STARTED], (13, 0, 63, 1), wide([1] * 63 + [0])),
    ("the ninth of 64 places", "event", [WIDE, wide([1] * 8 + [0] * 56), *START_0, NOT_STARTED],
     (13, 0, 8, 1), wide([1] * 8 + [0] * 56)),
    ("the first of 64 places", "run", [WIDE, wide([0] * 64), log(START_0), NOT_STARTED], (13, 0, 0, 0, 0, 1, 0), wide([0] * 64)),
]


def back(title, net, before, pair, number, after=None):
    """An event taken back; a refused one leaves the state as it was."""
    return title, "back", [net, before, *pair, NOT_STARTED], (number, 0), before if after is None else after


def stopped(title, before, pairs, told, after):
    """A walk over all these events; told are number, index, events done and ticks."""
    return title, "walk", [NET, before, log(*pairs), len(pairs), NOT_STARTED], told, after


CROWDED = {(0, 0): 65535}
FULL_AGE_1 = {(0, 1): 65535}

# W4: in the row net start 0 takes from place 0 and end 0, at ages 1 to 3, gives to place 1
BARRED = [
    back("a tick, a firing of age 1", NET, state([0, 0, 0], {(0, 1): 1}), TICK, 0, state([0, 0, 0], {(0, 0): 1})),
    back("a tick, an end is owed", NET, state([0, 0, 0], {(0, 3): 1}), TICK, 0, state([0, 0, 0], {(0, 2): 1})),
    back("a tick, a firing of age 0", NET, state([0, 0, 0], {(0, 0): 1}), TICK, 21),
    back("a tick, firings of ages 0 and 1", NET, state([0, 0, 0], {(0, 0): 1, (0, 1): 1}), TICK, 21),
    back("a tick, a firing of age 0 of the last transition", NET, state([0, 0, 0], {(0, 1): 1, (1, 0): 1}), TICK, 21),
    back("a tick, a firing of age 0 and an enabled transition: 21 before 18", NET, state([1, 0, 0], {(0, 0): 1}), TICK, 21),
    back("a tick, an enabled transition", NET, state([1, 0, 0], {(0, 1): 1}), TICK, 18),
    back("a tick, an enabled transition and an owed end", NET, state([0, 1, 0], {(0, 3): 1}), TICK, 18),
    back("a tick, an enabled transition and nothing running: 18 before 20", NET, state([0, 1, 0]), TICK, 18),
    back("a tick, nothing running", NET, FINAL, TICK, 20),
    back("a start, place 0 at 65,534", NET, state([65534, 0, 0], {(0, 0): 1}), START_0, 0, state([65535, 0, 0])),
    back("a start, no firing", NET, INITIAL, START_0, 24),
    back("a start, a firing of age 1", NET, state([0, 0, 0], {(0, 1): 1}), START_0, 24),
    back("a start, a firing of another transition", NET, state([0, 0, 0], {(1, 0): 1}), START_0, 24),
    back("a start, no firing and place 0 at 65,535: 24 before 25", NET, state([65535, 0, 0]), START_0, 24),
    back("a start, the last of its places would have held 65,536", FOUR, four(0, 0, 0, 65281, count=1), START_0, 25),
    back("a start, that place would have held 65,535, and one of weight 0 is full", FOUR, four(0, 65535, 0, 65280, count=1), START_0,
         0, four(2, 65535, 7, 65535)),
    back("an end, 65,534 firings of its age", NET, state([0, 1, 0], {(0, 1): 65534}), end_0(1), 0, state([0, 0, 0], FULL_AGE_1)),
    back("an end, 65,535 firings of another age", NET, state([0, 1, 0], FULL_AGE_1), end_0(2), 0, state([0, 0, 0], {**FULL_AGE_1, (0, 2): 1})),
    back("an end below its interval", NET, state([0, 1, 0]), end_0(0), 15),
    back("an end above its interval", NET, state([0, 1, 0]), end_0(4), 15),
    back("an end of another transition, above its own lfd alone", NET, FINAL, end_1(1), 15),
    back("an end far above, and no token: 15 before 26", NET, INITIAL, end_0(255), 15),
    back("an end below, and a full count: 15 before 27", NET, state([0, 1, 0], CROWDED), end_0(0), 15),
    back("an end, no token", NET, INITIAL, end_0(1), 26),
    back("an end, no token and a full count: 26 before 27", NET, state([1, 0, 0], FULL_AGE_1), end_0(1), 26),
    back("an end, a full count", NET, state([0, 1, 0], FULL_AGE_1), end_0(1), 27),
    back("a tick, 256 firings of age 0", NET, state([0, 0, 0], {(0, 0): 256}), TICK, 21),
    back("a tick, 256 firings run", NET, state([0, 0, 0], {(0, 1): 256}), TICK, 0, state([0, 0, 0], {(0, 0): 256})),
    back("a tick, the last of 64 transitions has age 0", TALL, tall(0, {(63, 0): 1}), TICK, 21),
    back("a tick, the last of 64 transitions is enabled", TALL, tall(254, {(0, 1): 1}), TICK, 18),
    back("a tick, the last of 64 transitions runs", TALL, tall(0, {(63, 1): 1}), TICK, 0, tall(0, {(63, 0): 1})),
    back("a tick, a firing of age 63", SLOW, slow(0, {63: 1}), TICK, 0, slow(0, {62: 1})),
    back("a tick, firings of ages 0 and 63", SLOW, slow(0, {0: 1, 63: 1}), TICK, 21),
    back("a start, 256 firings of age 0", NET, state([0, 0, 0], {(0, 0): 256}), START_0, 0, state([1, 0, 0], {(0, 0): 255})),
    back("a start, a full place whose weight is 255", FOUR, four(0, 0, 0, 65535, count=1), START_0, 25),
    back("a start, of 64 places the last is full", WIDE, wide(at(63, 65535, 0), 1), START_0, 25),
    back("a start, of 64 places the ninth is full", WIDE, wide(at(8, 65535, 0), 1), START_0, 25),
    back("a start, of 64 places the last becomes full", WIDE, wide(at(63, 65534, 0), 1), START_0, 0, wide(at(63, 65535, 1))),
    back("a start of the last of 64 transitions, others have age 0", TALL, tall(0, {(62, 0): 1, (63, 1): 1}), START_63, 24),
    back("a start of the last of 64 transitions", TALL, tall(0, {(63, 0): 1}), START_63, 0, tall(1)),
    back("an end, of 64 places the last is empty", WIDE, wide(at(63, 0, 1)), end_0(0), 26),
    back("an end, of 64 places the ninth is empty", WIDE, wide(at(8, 0, 1)), end_0(0), 26),
    back("an end, 64 empty places", WIDE, wide([0] * 64), end_0(0), 26),
    back("an end, 64 places with a token", WIDE, wide([1] * 64), end_0(0), 0, wide([0] * 64, 1)),
    back("an end, one token too few of 255", TALL, tall(254), end_0(1), 26),
    back("an end, no token of 255", TALL, tall(0), end_0(1), 26),
    back("an end, 255 tokens", TALL, tall(255), end_0(1), 0, tall(0, {(0, 1): 1})),
    back("an end of the last of 64 transitions, a full count", TALL, tall(1, {(63, 1): 65535}), END_63, 27),
    back("an end of the last of 64 transitions, full counts of others", TALL, tall(1, {(62, 1): 65535, (63, 0): 65535}), END_63,
         0, tall(0, {(62, 1): 65535, (63, 0): 65535, (63, 1): 1})),
    back("an end, 255 firings of its age", NET, state([0, 1, 0], {(0, 1): 255}), end_0(1), 0, state([0, 0, 0], {(0, 1): 256})),
    back("an end at age 63, a full count", SLOW, slow(1, {63: 65535}), end_0(63), 27),
    back("an end at age 63", SLOW, slow(1, {63: 65534}), end_0(63), 0, slow(0, {63: 65535})),
    back("an end at age 62 of 63", SLOW, slow(1), end_0(62), 15),
    back("an end at age 64 of 63", SLOW, slow(1), end_0(64), 15),
    back("an end at age 127, which is 63 and 64", SLOW, slow(1), end_0(127), 15),
    back("11 before all", NET, state([0, 0, 0], {(0, 0): 1}), (0, 1), 11),
    back("12 before 24", NET, INITIAL, (3, 0), 12),
    back("12 before 15", NET, INITIAL, (67, 255), 12),
    stopped("a walk, 26 at once", INITIAL, K1, (26, 4, 0, 0), INITIAL),
    stopped("a walk, 20 at once", FINAL, [TICK], (20, 0, 0, 0), FINAL),
    stopped("a walk, 21 behind a tick", state([0, 0, 0], {(0, 1): 1}), [TICK, TICK], (21, 0, 1, 1), state([0, 0, 0], {(0, 0): 1})),
    stopped("a walk, 18 behind a start and a tick", state([0, 0, 0], {(0, 1): 1}), [START_0, TICK, START_0, TICK], (18, 1, 2, 1), INITIAL),
    stopped("a walk, 24 behind a tick", state([0, 0, 0], {(0, 1): 1}), [START_1, TICK], (24, 0, 1, 1), state([0, 0, 0], {(0, 0): 1})),
    stopped("a walk, 25 behind a start", state([65534, 0, 0], {(0, 0): 2}), [START_0, START_0],
            (25, 0, 1, 0), state([65535, 0, 0], {(0, 0): 1})),
    stopped("a walk, 15 behind a start", BEFORE_LAST, [end_0(0), START_1], (15, 0, 1, 0), state([0, 1, 0])),
    stopped("a walk, 27 behind an end", state([0, 2, 0], {(0, 1): 65534}), [end_0(1), end_0(1)], (27, 0, 1, 0), state([0, 1, 0], FULL_AGE_1)),
]


ROW_PAGE = [START_0, TICK, TICK, TICK, end_0(3), START_1, end_1(0)]
DUE = {(0, 3): 1}


def room(size):
    """A buffer for a log. What it holds is nothing to the runner."""
    return b"\xaa" * size


def paged(size, *pairs):
    """That buffer with the log of these events at its front."""
    return log(*pairs) + room(size - 5 - 2 * len(pairs))


def page(title, before, size, budget, told, after, *pairs, net=NET):
    """A page that is written: stop, events and ticks, and the state after these events."""
    return title, "page", [net, before, room(size), budget], (0, 0, *told), (after, paged(size, *pairs))


def refused_page(title, number, index, before, size, budget, net=NET):
    """A page that is refused. Nothing is written."""
    return title, "page", [net, before, room(size), budget], (number, index, 0, 0, 0), (before, room(size))


# in the row net start 0 takes from place 0 and end 0 gives to place 1, from which start 1 takes; end 1 gives to place 2
WRITTEN = [
    page("the row", INITIAL, 40, 100, (1, 7, 3), FINAL, *ROW_PAGE),
    ("the row, in a buffer of zeros", "page", [NET, INITIAL, bytes(25), 100], (0, 0, 1, 7, 3), (FINAL, log(*ROW_PAGE) + bytes(6))),
    ("the row, in a buffer that holds another log", "page", [NET, INITIAL, LOG, 100],
     (0, 0, 3, 5, 3), (state([0, 1, 0]), log(*ROW_PAGE[:5]))),
    ("the row, bytes behind the state", "page", [NET, INITIAL + b"\5\6\7", room(30), 100],
     (0, 0, 1, 7, 3), (FINAL + b"\5\6\7", paged(30, *ROW_PAGE))),
    page("the greatest budget", INITIAL, 40, 4294967295, (1, 7, 3), FINAL, *ROW_PAGE),
    page("a budget of one more than is needed", INITIAL, 40, 8, (1, 7, 3), FINAL, *ROW_PAGE),
    page("a budget of what is needed: rest is told first", INITIAL, 40, 7, (1, 7, 3), FINAL, *ROW_PAGE),
    page("a budget of one less", INITIAL, 40, 6, (2, 6, 3), BEFORE_LAST, *ROW_PAGE[:6]),
    page("a budget of 4", INITIAL, 40, 4, (2, 4, 3), state([0, 0, 0], DUE), *ROW_PAGE[:4]),
    page("a budget of 1", INITIAL, 40, 1, (2, 1, 0), state([0, 0, 0], {(0, 0): 1}), START_0),
    page("a budget of 0", INITIAL, 40, 0, (2, 0, 0), INITIAL),
    page("a buffer of two bytes more than is needed", INITIAL, 21, 100, (1, 7, 3), FINAL, *ROW_PAGE),
    page("a buffer of one byte more", INITIAL, 20, 100, (1, 7, 3), FINAL, *ROW_PAGE),
    page("a buffer of what is needed", INITIAL, 19, 100, (1, 7, 3), FINAL, *ROW_PAGE),
    page("a buffer of one byte less", INITIAL, 18, 100, (3, 6, 3), BEFORE_LAST, *ROW_PAGE[:6]),
    page("a buffer of two bytes less", INITIAL, 17, 100, (3, 6, 3), BEFORE_LAST, *ROW_PAGE[:6]),
    page("a buffer of 7 bytes", INITIAL, 7, 100, (3, 1, 0), state([0, 0, 0], {(0, 0): 1}), START_0),
    page("a buffer of 6 bytes", INITIAL, 6, 100, (3, 0, 0), INITIAL),
    page("a buffer of 5 bytes", INITIAL, 5, 100, (3, 0, 0), INITIAL),
    page("a start meets 14", state([1, 0, 0], CROWDED), 40, 100, (4, 0, 0), state([1, 0, 0], CROWDED)),
    page("the second start meets 14", state([2, 0, 0], {(0, 0): 65534}), 40, 100,
         (4, 1, 0), state([1, 0, 0], CROWDED), START_0),
    page("the count at age 0 is just full", state([1, 0, 0], {(0, 0): 65534}), 40, 2,
         (2, 2, 1), state([0, 0, 0], {(0, 1): 65535}), START_0, TICK),
    page("a full count at age 1 is no matter", state([1, 0, 0], {(0, 1): 65535}), 40, 1,
         (2, 1, 0), state([0, 0, 0], {(0, 0): 1, (0, 1): 65535}), START_0),
    page("the lowest start meets 14, another would not", state([1, 1, 0], CROWDED), 40, 100, (4, 0, 0), state([1, 1, 0], CROWDED)),
    page("a full count that is owed ends first", state([0, 1, 0], {(1, 0): 65535}), 9, 100,
         (3, 2, 0), state([0, 1, 2], {(1, 0): 65533}), end_1(0), end_1(0)),
    page("an end meets 17", state([0, 0, 65535], {(1, 0): 1}), 40, 100, (5, 0, 0), state([0, 0, 65535], {(1, 0): 1})),
    page("an end meets 17, a start would make room", state([0, 65535, 0], DUE), 40, 100, (5, 0, 0), state([0, 65535, 0], DUE)),
    page("the place is just full", state([0, 65534, 0], DUE), 40, 2,
         (2, 2, 0), state([0, 65534, 0], {(1, 0): 1}), end_0(3), START_1),
    page("the second end meets 17", state([0, 65534, 0], {(0, 3): 2}), 40, 100,
         (5, 1, 0), state([0, 65535, 0], DUE), end_0(3)),
    page("the lowest end meets 17, another would not", state([0, 65535, 0], {**DUE, (1, 0): 1}), 40, 100,
         (5, 0, 0), state([0, 65535, 0], {**DUE, (1, 0): 1})),
    page("a higher end meets 17", state([0, 65534, 65535], {**DUE, (1, 0): 1}), 40, 100,
         (5, 1, 0), state([0, 65535, 65535], {(1, 0): 1}), end_0(3)),
    page("a start would meet 14, but an end is owed, which meets 17", state([1, 65535, 0], {**DUE, **CROWDED}), 40, 100,
         (5, 0, 0), state([1, 65535, 0], {**DUE, **CROWDED})),
    page("at rest", FINAL, 40, 100, (1, 0, 0), FINAL),
    page("at rest, budget 0", FINAL, 40, 0, (1, 0, 0), FINAL),
    page("at rest, no room", FINAL, 6, 100, (1, 0, 0), FINAL),
    page("at rest, budget 0, no room", FINAL, 5, 0, (1, 0, 0), FINAL),
    page("budget 0, no room", INITIAL, 5, 0, (2, 0, 0), INITIAL),
    page("budget and room for one event", INITIAL, 7, 1, (2, 1, 0), state([0, 0, 0], {(0, 0): 1}), START_0),
    page("budget 0, and 14", state([1, 0, 0], CROWDED), 40, 0, (2, 0, 0), state([1, 0, 0], CROWDED)),
    page("budget 0, and 17", state([0, 65535, 0], DUE), 40, 0, (2, 0, 0), state([0, 65535, 0], DUE)),
    page("no room, and 14", state([1, 0, 0], CROWDED), 6, 100, (3, 0, 0), state([1, 0, 0], CROWDED)),
    page("no room, and 17", state([0, 65535, 0], DUE), 6, 100, (3, 0, 0), state([0, 65535, 0], DUE)),
    page("budget 0, no room, and 14", state([1, 0, 0], CROWDED), 5, 0, (2, 0, 0), state([1, 0, 0], CROWDED)),
    page("the lowest of two owed ends", state([0, 0, 0], {(0, 3): 2, (1, 0): 1}), 40, 100, (1, 7, 0), state([0, 0, 3]),
         end_0(3), end_0(3), end_1(0), START_1, end_1(0), START_1, end_1(0)),
    page("an owed end before a start", state([1, 0, 0], DUE), 40, 4,
         (2, 4, 0), state([0, 0, 1], {(0, 0): 1}), end_0(3), START_0, START_1, end_1(0)),
    page("the lowest of two starts", state([1, 1, 0]), 40, 2, (2, 2, 0), state([0, 0, 0], {(0, 0): 1, (1, 0): 1}), START_0, START_1),
    page("one start twice", state([2, 1, 0]), 40, 2, (2, 2, 0), state([0, 1, 0], {(0, 0): 2}), START_0, START_0),
    page("a start before a tick", state([1, 0, 0], {(0, 1): 1}), 40, 2,
         (2, 2, 1), state([0, 0, 0], {(0, 1): 1, (0, 2): 1}), START_0, TICK),
    page("a firing that may end waits for its lfd", state([0, 0, 0], {(0, 1): 1}), 40, 3,
         (2, 3, 2), state([0, 1, 0]), TICK, TICK, end_0(3)),
    page("the older of two firings ends", state([0, 0, 0], {(0, 2): 1, (0, 3): 1}), 40, 1,
         (2, 1, 0), state([0, 1, 0], {(0, 2): 1}), end_0(3)),
    page("no tick ever, budget 5", loop(1), 40, 5, (2, 5, 0), loop(0, 1), *LOOPED, *LOOPED, START_0, net=LOOP),
    page("no tick ever, room for 4", loop(1), 14, 100, (3, 4, 0), loop(1), *LOOPED, *LOOPED, net=LOOP),
    page("no tick ever, a full place", loop(65535), 40, 2, (2, 2, 0), loop(65535), *LOOPED, net=LOOP),
    page("24,000 events, and room for two more", loop(1), 48010, 4294967295, (3, 24000, 0), loop(1), *LOOPED * 12000, net=LOOP),
    page("the last of 64 transitions", tall(1), 13, 9,
         (3, 4, 1), tall(0, {(63, 0): 1}), START_63, TICK, END_63, START_63, net=TALL),
    page("the last of 64 transitions has an owed end", tall(0, {(63, 1): 1}), 9, 9,
         (3, 2, 0), tall(0, {(63, 0): 1}), END_63, START_63, net=TALL),
    page("the lowest of 64 starts", tall(256), 9, 9, (3, 2, 0), tall(0, {(0, 0): 1, (63, 0): 1}), START_0, START_63, net=TALL),
    page("the lower of the last two owed ends", tall(0, {(62, 1): 1, (63, 1): 1}), 9, 9,
         (3, 2, 0), tall(256), (127, 1), END_63, net=TALL),
]

UNWRITTEN = [
    refused_page("no net", 1, 0, INITIAL, 40, 100, net=b""),
    refused_page("the net's length is not the slice's", 1, 0, INITIAL, 40, 100, net=NET[:-1]),
    refused_page("65 places", 2, 0, INITIAL, 40, 100, net=NET[:5] + b"\x41" + NET[6:]),
    refused_page("another number of places", 3, 0, INITIAL, 40, 100, net=NET[:5] + b"\2" + NET[6:]),
    refused_page("lfd 64 of transition 1", 4, 1, INITIAL, 40, 100, net=NET[:22] + b"\x40" + NET[23:]),
    refused_page("no input weight of transition 1", 5, 1, INITIAL, 40, 100, net=NET[:24] + b"\0" + NET[25:]),
    refused_page("no output weight of transition 1", 6, 1, INITIAL, 40, 100, net=NET[:28] + b"\0"),
    refused_page("the net before state and buffer", 6, 1, b"", 4, 100, net=NET[:28] + b"\0"),
    refused_page("the state is a byte short", 8, 0, INITIAL[:-1], 40, 100),
    refused_page("no state", 8, 0, b"", 40, 100),
    refused_page("transition 1 has a count above its lfd", 9, 1, state([1, 0, 0], {(1, 1): 1}), 40, 100),
    refused_page("8 before 10", 8, 0, INITIAL[:-1], 4, 100),
    refused_page("9 before 10", 9, 1, state([1, 0, 0], {(1, 1): 1}), 4, 100),
    refused_page("a buffer of 4 bytes", 10, 0, INITIAL, 4, 100),
    refused_page("no buffer", 10, 0, INITIAL, 0, 100),
    refused_page("a buffer of 4 bytes, at rest, budget 0", 10, 0, FINAL, 4, 0),
]

CASES = REMAINING + PROVED + SHORT + BARRED + WRITTEN + UNWRITTEN + opening_cases.CASES + balance_cases.CASES

# these are checked and compared, but not stored
LONGEST = [
    page("24,000 events, and room for no more", loop(1), 48005, 24001, (3, 24000, 0), loop(1), *LOOPED * 12000, net=LOOP),
    page("a byte too few for 24,000 events", loop(1), 48004, 24000, (3, 23999, 0), loop(0, 1), *(LOOPED * 12000)[:-1], net=LOOP),
    page("a budget of 24,000", loop(1), 48005, 24000, (2, 24000, 0), loop(1), *LOOPED * 12000, net=LOOP),
    page("24,000 events in the longest buffer", loop(1), 65536, 65536, (3, 24000, 0), loop(1), *LOOPED * 12000, net=LOOP),
    *opening_cases.LONGEST,
]

# the row net with a second token in place 0
TWO_ROWS = NET[:8] + b"\2" + NET[9:]
TWO_LOADED = [START_0, START_0, TICK]

# title, input of menurun, its whole output
PRINTED = [
    ("K1", NET + LOG, "result 0 5 5 1 4 0 0\nmarks 0 0 1\n"),
    ("K2", NET + log(TICK), "result 18 0 0 0 1 0 0\nmarks 1 0 0\n"),
    ("a net that is refused", b"", "result 1 0 0 0 0 0 0\n"),
    ("no input weight", NET[:24] + b"\0" + NET[25:] + LOG, "result 5 1 0 0 0 0 0\n"),
    ("a log that is refused", NET + LOG[:-1], "result 10 0 0 0 0 0 0\n"),
    ("the row is filled before the load has ended", NET + TOO_EARLY, "result 13 2 2 1 3 1 1\nmarks 0 0 0\nrun 0 1 1\n"),
    ("a start at once", four_net(2, 0, 0, 0) + THRICE, "result 13 0 0 0 4 2 7\nmarks 2 0 0 0\n"),
    ("the third start", four_net(9, 0, 21, 600) + THRICE_AND_MORE, "result 13 2 2 0 2 3 165\nmarks 5 0 7 90\nrun 0 0 2\n"),
    ("two rows: the second load ends after the first is filled", TWO_ROWS + log(*TWO_LOADED, end_0(1), START_1, end_0(1)),
     "result 28 5 5 1 2 0 0\nmarks 0 0 0\nrun 0 1 1\nrun 1 0 1\n"),
    ("two rows: both loads end first", TWO_ROWS + log(*TWO_LOADED, end_0(1), end_0(1), START_1),
     "result 0 6 6 1 1 0 0\nmarks 0 1 0\nrun 1 0 1\n"),
    ("two rows: the first is filled while the second load owes its end", TWO_ROWS + log(*TWO_LOADED, TICK, TICK, end_0(3), START_1),
     "result 29 6 6 3 1 0 0\nmarks 0 1 0\nrun 0 3 1\n"),
]

ROW_LINES = b"stop 1\nresult 0 7 7 3 4 0 0\nmarks 0 0 1\n"
BUDGET_4 = b"stop 2\nresult 0 4 4 3 2 0 0\nmarks 0 0 0\nrun 0 3 1\n"
NO_NET = b"stop 0\nresult 1 0 0 0 0 0 0\n"
NO_INPUT = b"stop 0\nresult 5 1 0 0 0 0 0\n"
LONG_NET = NET[:1] + (8455).to_bytes(4, "big") + NET[5:] + bytes(8455 - len(NET))
TOO_LONG_NET = NET[:1] + (8456).to_bytes(4, "big") + NET[5:] + bytes(8456 - len(NET))

# title, arguments of menupage, its input, standard output, standard error
PAGES = [
    ("the row", [], NET, ROW_LINES, b""),
    ("the row and its log", ["--log"], NET, log(*ROW_PAGE), ROW_LINES),
    ("budget 7", ["7"], NET, ROW_LINES, b""),
    ("budget 4", ["4"], NET, BUDGET_4, b""),
    ("budget 4, and the log", ["--log", "4"], NET, log(*ROW_PAGE[:4]), BUDGET_4),
    ("the log, and budget 4", ["4", "--log"], NET, log(*ROW_PAGE[:4]), BUDGET_4),
    ("budget 4 in ten digits", ["0000000004"], NET, BUDGET_4, b""),
    ("budget 0", ["0"], NET, b"stop 2\nresult 0 0 0 0 1 0 0\nmarks 1 0 0\n", b""),
    ("budget 0, and the log", ["--log", "0"], NET, log(), b"stop 2\nresult 0 0 0 0 1 0 0\nmarks 1 0 0\n"),
    ("the greatest budget", ["4294967295"], NET, ROW_LINES, b""),
    ("a net at rest", [], four_net(2, 0, 7, 254), b"stop 1\nresult 0 0 0 0 4 0 0\nmarks 2 0 7 254\n", b""),
    ("a net that never ticks", [], LOOP, b"stop 2\nresult 0 24000 24000 0 1 0 0\nmarks 1\n", b""),
    ("a net that never ticks, a greater budget", ["24001"], LOOP, b"stop 3\nresult 0 24000 24000 0 1 0 0\nmarks 1\n", b""),
    ("a full place", [], LOOP[:7] + b"\xff\xff\0\0\1\2", b"stop 5\nresult 0 1 1 0 1 0 0\nmarks 65534\nrun 0 0 1\n", b""),
    ("no input", [], b"", NO_NET, b""),
    ("no input, and the log", ["--log"], b"", b"", NO_NET),
    ("4 bytes", [], NET[:4], NO_NET, b""),
    ("a byte too few", [], NET[:-1], NO_NET, b""),
    ("a byte too many", [], NET + b"\0", NO_NET, b""),
    ("a log behind the net", [], NET + LOG, NO_NET, b""),
    ("a net longer than any", [], TOO_LONG_NET, NO_NET, b""),
    ("a net as long as the longest", [], LONG_NET, b"stop 0\nresult 3 0 0 0 0 0 0\n", b""),
    ("no input weight", ["5"], NET[:24] + b"\0" + NET[25:], NO_INPUT, b""),
    ("no input weight, and the log", ["--log", "5"], NET[:24] + b"\0" + NET[25:], b"", NO_INPUT),
]

# arguments that menupage refuses by its usage line
MISUSED = [
    [""], ["x"], ["4294967296"], ["9999999999"], ["00000000004"], ["-1"], ["+1"], [" 1"], ["1 "], ["1.0"], ["0x1"], ["1_0"], ["\u0661"],
    ["--"], ["--log="], ["--Log"], ["-log"], ["log"], ["--log", ""], ["--log", "x"], ["--log", "4294967296"], ["--log", "--log"],
    ["", "--log"], ["4", "4"], ["4", "4", "--log"], ["--log", "4", "4"], ["--log", "4", "--log"], ["--log", "4", ""], ["", "4"],
    ["--log" + 11 * " "], ["--log" + 12 * " "], 16 * ["4"], [16 * "4"], [17 * "4"], ["4", 17 * "4"],
]


def requests(cases):
    return [(name, arguments) for _, name, arguments, _, _ in cases]


def inputs():
    return [data for _, data, _ in PRINTED]


def pages():
    """Arguments and inputs of menupage."""
    return [(arguments, data) for _, arguments, data, _, _ in PAGES] + [(arguments, NET) for arguments in MISUSED]


def line_of(name, fields, after):
    buffers = () if after is None else after if isinstance(after, tuple) else (after,)
    return " ".join([name, *map(str, fields), *(buffer.hex() or "-" for buffer in buffers)])


def check():
    """The number of cases, and the titles of those that the reference answers otherwise."""
    wrong = []
    for title, name, arguments, fields, after in CASES + LONGEST:
        if ask.answer(name, arguments) != line_of(name, fields, after):
            wrong.append(f"{name}: {title}")
    for title, k, part in (("part of step 0", 0, "0100"), ("part of step 1", 1, "410102004200")):
        _, _, start, length = reference.step(LOG, k)
        if LOG[start : start + length] != bytes.fromhex(part):
            wrong.append(title)
    if log(*K1) != LOG:
        wrong.append("the log")
    for title, data, printed in PRINTED:
        if menurun.output(data) != printed:
            wrong.append(f"menurun: {title}")
    for title, arguments, data, out, err in PAGES:
        if menupage.printed(arguments, data) != (out, err):
            wrong.append(f"menupage: {title}")
    for arguments in MISUSED:
        if menupage.printed(arguments, NET) != (b"", menupage.USAGE.encode()):
            wrong.append(f"menupage: {arguments}")
    return len(CASES + LONGEST) + len(PRINTED) + len(PAGES) + len(MISUSED) + 3, wrong


if __name__ == "__main__":
    if sys.argv[1:] == ["--check"]:
        count, wrong = check()
        print(f"{count - len(wrong)} of {count} as document 01, W1, W2, W4, W5 and W6 say")
        for title in wrong:
            print(f"differs: {title}")
        sys.exit(1 if wrong else 0)
    for name, arguments in requests(CASES):
        sys.stdout.buffer.write(wire.encode(name, *arguments))

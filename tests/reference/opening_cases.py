"""Cases of request W5, worked out by hand: a step opens with the ends of age 1 or more, here called old.

After a start an old end is told 28. While an old end is owed a start is told 29, whether a start has
happened or not. A case is given whether one has, STARTED or NOT_STARTED.
"""

from casenets import (
    END_63, FINAL, INITIAL, K1, LOG, NET, NOT_STARTED, SLOW, START_0, START_1, START_2, START_63, STARTED, TALL, TICK, TRIO,
    end_0, end_1, end_2, log, slow, state, tall, trio,
)

FULL = 65535
BOTH = NOT_STARTED, STARTED


def done(title, net, before, pair, started, number, after=None, short=(0, 0)):
    """A single event; a refused one leaves the state as it was."""
    return title, "event", [net, before, *pair, started], (number, 0, *short), before if after is None else after


def back(title, net, before, pair, started, number, after=None):
    """An event taken back; a refused one leaves the state as it was."""
    return title, "back", [net, before, *pair, started], (number, 0), before if after is None else after


def run(title, net, before, pairs, started, told, after=None, short=(0, 0)):
    """A run; told are number, events done, ticks and the fact for the state that is left. The state is as it was
    where no other is given."""
    number, events, ticks, fact = told
    fields = number, events, events, ticks, *short, fact
    return title, "run", [net, before, log(*pairs), started], fields, before if after is None else after


def walk(title, before, pairs, n, started, told, after=None, net=TRIO):
    """A walk over the last n of these events; told are number, index, events done and ticks."""
    return title, "walk", [net, before, log(*pairs), n, started], told, before if after is None else after


def refused_run(title, number, index, net, before, data):
    """A run that is refused before any event, though a start had happened: no fact is told."""
    return title, "run", [net, before, data, STARTED], (number, index, 0, 0, 0, 0, 0), before


# in the trio a token goes from place 0 to place 1 by transition 0 in 0 to 2 ticks, by transition 1 in 0 or 1, and
# back by transition 2 in none
ENDS = [
    done("age 1, no start made", TRIO, trio([0, 0], {(0, 1): 1}), end_0(1), NOT_STARTED, 0, trio([0, 1])),
    done("age 1 after a start", TRIO, trio([0, 0], {(0, 1): 1}), end_0(1), STARTED, 28),
    done("age 0, no start made", TRIO, trio([0, 0], {(0, 0): 1}), end_0(0), NOT_STARTED, 0, trio([0, 1])),
    done("age 0 after a start", TRIO, trio([0, 0], {(0, 0): 1}), end_0(0), STARTED, 0, trio([0, 1])),
    done("ages 0 and 1: the one of age 0 after a start", TRIO, trio([0, 0], {(0, 0): 1, (0, 1): 1}), end_0(0), STARTED, 0, trio([0, 1], {(0, 1): 1})),
    done("ages 0 and 1: the one of age 1 after a start", TRIO, trio([0, 0], {(0, 0): 1, (0, 1): 1}), end_0(1), STARTED, 28),
    done("an owed end of age 0 after a start", TRIO, trio([0, 0], {(2, 0): 1}), end_2(0), STARTED, 0, trio([1, 0])),
    done("an owed end of age 1 after a start", TRIO, trio([0, 0], {(1, 1): 1}), end_1(1), STARTED, 28),
    done("an owed end of age 2 after a start", TRIO, trio([0, 0], {(0, 2): 1}), end_0(2), STARTED, 28),
    done("an owed end of age 2, no start made", TRIO, trio([0, 0], {(0, 2): 1}), end_0(2), NOT_STARTED, 0, trio([0, 1])),
    done("256 firings of age 1 after a start", TRIO, trio([0, 0], {(0, 1): 256}), end_0(1), STARTED, 28),
    done("above the lfd, below D, after a start: 15 before 28", TRIO, trio([0, 0], {(1, 1): 1}), end_1(2), STARTED, 15),
    done("above D after a start: 15 before 28", TRIO, trio([0, 0], {(0, 1): 1}), end_0(3), STARTED, 15),
    done("below the sfd after a start: 15 before 28", SLOW, slow(0, {62: 1}), end_0(62), STARTED, 15),
    done("age 1 of 63 after a start: 15 before 28", SLOW, slow(0, {1: 1}), end_0(1), STARTED, 15),
    done("far above the lfd of 0 after a start", NET, state([0, 0, 0], {(1, 0): 1}), end_1(255), STARTED, 15),
    done("age 63 after a start", SLOW, slow(0, {63: 1}), end_0(63), STARTED, 28),
    done("age 63, no start made", SLOW, slow(0, {63: 1}), end_0(63), NOT_STARTED, 0, slow(1)),
    done("no firing of age 1 after a start: 28 before 16", TRIO, trio([0, 0], {(0, 0): 1}), end_0(1), STARTED, 28),
    done("no firing of age 1, no start made", TRIO, trio([0, 0], {(0, 0): 1}), end_0(1), NOT_STARTED, 16),
    done("no firing of age 0 after a start", TRIO, trio([0, 0], {(0, 1): 1}), end_0(0), STARTED, 16),
    done("a full place, age 1 after a start: 28 before 17", TRIO, trio([0, FULL], {(0, 1): 1}), end_0(1), STARTED, 28),
    done("a full place, age 1, no start made", TRIO, trio([0, FULL], {(0, 1): 1}), end_0(1), NOT_STARTED, 17),
    done("a full place, age 0 after a start", TRIO, trio([0, FULL], {(0, 0): 1}), end_0(0), STARTED, 17),
    done("no firing and a full place, age 1 after a start", TRIO, trio([0, FULL]), end_0(1), STARTED, 28),
    done("the last of 64 transitions after a start", TALL, tall(0, {(63, 1): 1}), END_63, STARTED, 28),
    done("12 before 28", TRIO, trio([0, 0], {(0, 1): 1}), (68, 1), STARTED, 12),
    done("11 before 28", TRIO, trio([0, 0], {(0, 1): 1}), (129, 1), STARTED, 11),
]

STARTS = [
    done("nothing owed, no start made", TRIO, trio([1, 0]), START_0, NOT_STARTED, 0, trio([0, 0], {(0, 0): 1})),
    done("nothing owed, after a start", TRIO, trio([1, 0]), START_0, STARTED, 0, trio([0, 0], {(0, 0): 1})),
    *(done(f"an end of age 1 is owed, started {fact}", TRIO, trio([1, 0], {(1, 1): 1}), START_0, fact, 29) for fact in BOTH),
    *(done(f"an end of age 0 is owed, started {fact}", TRIO, trio([1, 0], {(2, 0): 1}), START_0, fact,
           0, trio([0, 0], {(0, 0): 1, (2, 0): 1})) for fact in BOTH),
    done("an end of age 2 is owed", TRIO, trio([1, 0], {(0, 2): 1}), START_1, NOT_STARTED, 29),
    done("its own end of age 1 is owed", TRIO, trio([1, 0], {(1, 1): 1}), START_1, NOT_STARTED, 29),
    done("its own end of age 2 is owed", TRIO, trio([1, 0], {(0, 2): 1}), START_0, STARTED, 29),
    done("its own end of age 0 is owed", TRIO, trio([0, 1], {(2, 0): 1}), START_2, NOT_STARTED, 0, trio([0, 0], {(2, 0): 2})),
    done("ends of ages 0 and 1 are owed", TRIO, trio([1, 0], {(1, 1): 1, (2, 0): 1}), START_0, NOT_STARTED, 29),
    done("a firing of age 1 may end, and need not", TRIO, trio([1, 0], {(0, 1): 1}), START_0, NOT_STARTED, 0, trio([0, 0], {(0, 0): 1, (0, 1): 1})),
    done("a firing of age 0 whose lfd is 1", TRIO, trio([1, 0], {(1, 0): 1}), START_0, NOT_STARTED, 0, trio([0, 0], {(0, 0): 1, (1, 0): 1})),
    done("256 ends of age 1 are owed", TRIO, trio([1, 0], {(1, 1): 256}), START_0, NOT_STARTED, 29),
    done("not enabled, an end of age 1 is owed: 13 before 29", TRIO, trio([0, 5], {(1, 1): 1}), START_0, NOT_STARTED, 13, short=(0, 1)),
    done("not enabled after a start, an end of age 1 is owed", TRIO, trio([5, 0], {(1, 1): 1}), START_2, STARTED, 13, short=(1, 1)),
    done("a full count, an end of age 1 is owed: 29 before 14", TRIO, trio([1, 0], {(0, 0): FULL, (1, 1): 1}), START_0, NOT_STARTED, 29),
    done("a full count, its own end is owed: 29 before 14", TRIO, trio([1, 0], {(1, 0): FULL, (1, 1): 1}), START_1, STARTED, 29),
    done("a full count of age 0, which is owed", TRIO, trio([0, 1], {(2, 0): FULL}), START_2, NOT_STARTED, 14),
    done("the last of 64 transitions has an owed end", TALL, tall(255, {(63, 1): 1}), START_0, NOT_STARTED, 29),
    done("the first of 64 transitions has an owed end", TALL, tall(1, {(0, 1): 1}), START_63, NOT_STARTED, 29),
    done("the last of 64 transitions has its own owed end", TALL, tall(1, {(63, 1): 1}), START_63, STARTED, 29),
    done("64 firings of age 0", TALL, tall(1, {(t, 0): 1 for t in range(64)}), START_63,
         NOT_STARTED, 0, tall(0, {**{(t, 0): 1 for t in range(63)}, (63, 0): 2})),
    done("an end of age 63 is owed", SLOW, slow(1, {63: 1}), START_0, NOT_STARTED, 29),
    done("a firing of age 62 of 63", SLOW, slow(1, {62: 1}), START_0, NOT_STARTED, 0, slow(0, {0: 1, 62: 1})),
    done("12 before 29", TRIO, trio([1, 0], {(1, 1): 1}), (4, 0), NOT_STARTED, 12),
    done("11 before 29", TRIO, trio([1, 0], {(1, 1): 1}), (1, 1), NOT_STARTED, 11),
]

# a tick asks nothing of the fact
TICKS = [
    done("a tick after a start", NET, state([0, 0, 0], {(0, 1): 1}), TICK, STARTED, 0, state([0, 0, 0], {(0, 2): 1})),
    done("a start is owed, after a start", NET, INITIAL, TICK, STARTED, 18),
    done("an end is owed, after a start", NET, state([0, 0, 0], {(0, 3): 1}), TICK, STARTED, 19),
    done("nothing runs, after a start", NET, FINAL, TICK, STARTED, 20),
    back("a tick taken back, after a start", NET, state([0, 0, 0], {(0, 1): 1}), TICK, STARTED, 0, state([0, 0, 0], {(0, 0): 1})),
    back("a tick taken back, an end of age 3 is owed", NET, state([0, 0, 0], {(0, 3): 1}), TICK, STARTED, 0, state([0, 0, 0], {(0, 2): 1})),
    back("a tick not taken back, after a start: age 0", NET, state([0, 0, 0], {(0, 0): 1}), TICK, STARTED, 21),
    back("a tick not taken back, after a start: enabled", NET, INITIAL, TICK, STARTED, 18),
    back("a tick not taken back, after a start: nothing runs", NET, FINAL, TICK, STARTED, 20),
]

# the state before a start has the counts of age 1 or more that the one behind it has
BACK = [
    back("age 1, no start made", TRIO, trio([0, 1]), end_0(1), NOT_STARTED, 0, trio([0, 0], {(0, 1): 1})),
    back("age 1 after a start", TRIO, trio([0, 1]), end_0(1), STARTED, 28),
    back("age 0 after a start", TRIO, trio([0, 1]), end_0(0), STARTED, 0, trio([0, 0], {(0, 0): 1})),
    back("age 2, its lfd, after a start", TRIO, trio([0, 1]), end_0(2), STARTED, 28),
    back("an end of age 0 that was owed, after a start", TRIO, trio([1, 0]), end_2(0), STARTED, 0, trio([0, 0], {(2, 0): 1})),
    back("above the lfd, below D, after a start: 15 before 28", TRIO, trio([0, 1]), end_1(2), STARTED, 15),
    back("below the sfd after a start: 15 before 28", SLOW, slow(1), end_0(62), STARTED, 15),
    back("above D after a start, no token and 15 before 28", TRIO, trio([0, 0]), end_0(3), STARTED, 15),
    back("age 63 after a start", SLOW, slow(1), end_0(63), STARTED, 28),
    back("no token, age 1 after a start: 28 before 26", TRIO, trio([0, 0]), end_0(1), STARTED, 28),
    back("no token, age 1, no start made", TRIO, trio([0, 0]), end_0(1), NOT_STARTED, 26),
    back("no token, age 0 after a start", TRIO, trio([0, 0]), end_0(0), STARTED, 26),
    back("a full count of age 1 after a start: 28 before 27", TRIO, trio([0, 1], {(0, 1): FULL}), end_0(1), STARTED, 28),
    back("a full count of age 1, no start made", TRIO, trio([0, 1], {(0, 1): FULL}), end_0(1), NOT_STARTED, 27),
    back("a full count of age 0 after a start", TRIO, trio([0, 1], {(0, 0): FULL}), end_0(0), STARTED, 27),
    back("no token and a full count, age 1 after a start", TRIO, trio([0, 0], {(0, 1): FULL}), end_0(1), STARTED, 28),
    back("the last of 64 transitions after a start", TALL, tall(1), END_63, STARTED, 28),
    back("an end back, 12 before 28", TRIO, trio([0, 1]), (68, 1), STARTED, 12),
    *(back(f"a start, an end of age 1 is owed, started {fact}", TRIO, trio([0, 0], {(0, 0): 1, (1, 1): 1}), START_0, fact, 29) for fact in BOTH),
    *(back(f"a start, an end of age 0 is owed, started {fact}", TRIO, trio([0, 0], {(0, 0): 1, (2, 0): 1}), START_0, fact,
           0, trio([1, 0], {(2, 0): 1})) for fact in BOTH),
    back("a start, its own end of age 1 is owed", TRIO, trio([0, 0], {(1, 0): 1, (1, 1): 1}), START_1, NOT_STARTED, 29),
    back("a start, its own end of age 0 is owed", TRIO, trio([0, 0], {(2, 0): 1}), START_2, NOT_STARTED, 0, trio([0, 1])),
    back("a start, an end of age 2 is owed", TRIO, trio([0, 0], {(1, 0): 1, (0, 2): 1}), START_1, STARTED, 29),
    back("a start, a firing of age 1 may end, and need not", TRIO, trio([0, 0], {(0, 0): 1, (0, 1): 1}), START_0, NOT_STARTED,
         0, trio([1, 0], {(0, 1): 1})),
    back("a start, 256 ends of age 1 are owed", TRIO, trio([0, 0], {(0, 0): 1, (1, 1): 256}), START_0, NOT_STARTED, 29),
    back("a start, no firing of age 0, an end of age 1 is owed: 24 before 29", TRIO, trio([0, 0], {(1, 1): 1}), START_1, NOT_STARTED, 24),
    back("a start, a full place, an end of age 1 is owed: 25 before 29", TRIO, trio([FULL, 0], {(0, 0): 1, (1, 1): 1}), START_0, NOT_STARTED, 25),
    back("a start, no firing, a full place, an end of age 1 is owed", TRIO, trio([FULL, 0], {(1, 1): 1}), START_0, STARTED, 24),
    back("a start, the last of 64 transitions has an owed end", TALL, tall(0, {(0, 0): 1, (63, 1): 1}), START_0, NOT_STARTED, 29),
    back("a start of the last of 64 transitions, the first has an owed end", TALL, tall(0, {(0, 1): 1, (63, 0): 1}), START_63, NOT_STARTED, 29),
    back("a start of the last of 64 transitions, no end is owed", TALL, tall(0, {(0, 0): 1, (63, 0): 1}), START_63, STARTED, 0, tall(1, {(0, 0): 1})),
    back("a start, an end of age 63 is owed", SLOW, slow(0, {0: 1, 63: 1}), START_0, NOT_STARTED, 29),
    back("a start, a firing of age 62 of 63", SLOW, slow(0, {0: 1, 62: 1}), START_0, NOT_STARTED, 0, slow(1, {62: 1})),
    back("a start back, 12 before 29", TRIO, trio([0, 0], {(0, 0): 1, (1, 1): 1}), (4, 0), NOT_STARTED, 12),
]

OLD_AND_A_TOKEN = trio([1, 0], {(0, 1): 1})
BEGUN = trio([0, 0], {(0, 0): 1, (0, 1): 1})

RUNS = [
    run("no events, no start made", TRIO, trio([1, 0]), [], NOT_STARTED, (0, 0, 0, 0)),
    run("no events, after a start", TRIO, trio([1, 0]), [], STARTED, (0, 0, 0, 1)),
    run("the row after a start: its first event is a start", NET, INITIAL, K1, STARTED, (0, 5, 1, 1), FINAL),
    run("an old end at once, no start made", TRIO, OLD_AND_A_TOKEN, [end_0(1)], NOT_STARTED, (0, 1, 0, 0), trio([1, 1])),
    run("an old end at once, after a start", TRIO, OLD_AND_A_TOKEN, [end_0(1)], STARTED, (28, 0, 0, 1)),
    run("an old end, then a start", TRIO, OLD_AND_A_TOKEN, [end_0(1), START_0], NOT_STARTED, (0, 2, 0, 1), trio([0, 1], {(0, 0): 1})),
    run("a start, then an old end", TRIO, OLD_AND_A_TOKEN, [START_0, end_0(1)], NOT_STARTED, (28, 1, 0, 1), BEGUN),
    run("an end of age 0 leaves it, 1", TRIO, OLD_AND_A_TOKEN, [START_0, end_0(0), end_0(1)], NOT_STARTED, (28, 2, 0, 1), trio([0, 1], {(0, 1): 1})),
    run("an end of age 0 leaves it, 0", TRIO, BEGUN, [end_0(0), end_0(1)], NOT_STARTED, (0, 2, 0, 0), trio([0, 2])),
    run("an end of age 1 leaves it, 0", TRIO, trio([0, 0], {(0, 1): 2}), [end_0(1), end_0(1)], NOT_STARTED, (0, 2, 0, 0), trio([0, 2])),
    run("a tick clears what a start has set", NET, INITIAL, [START_0, TICK, end_0(1)], NOT_STARTED, (0, 3, 1, 0), state([0, 1, 0])),
    run("a tick clears what was given", NET, state([0, 0, 0], {(0, 0): 1}), [TICK, end_0(1)], STARTED, (0, 2, 1, 0), state([0, 1, 0])),
    run("a start behind the tick sets it again", TRIO, trio([2, 0]), [START_0, START_0, TICK, end_0(1), START_2, end_0(1)], NOT_STARTED,
        (28, 5, 1, 1), trio([0, 0], {(0, 1): 1, (2, 0): 1})),
    run("the second of two owed ends is left out", TRIO, trio([2, 0]), [START_1, START_1, TICK, end_1(1), START_2], NOT_STARTED,
        (29, 4, 1, 0), trio([0, 1], {(1, 1): 1})),
    run("both owed ends come first", TRIO, trio([2, 0]), [START_1, START_1, TICK, end_1(1), end_1(1), START_2], NOT_STARTED,
        (0, 6, 1, 1), trio([0, 1], {(2, 0): 1})),
    run("starts and ends of age 0 by turns", TRIO, trio([1, 0]), [START_0, end_0(0), START_2, end_2(0), START_1, end_1(0)], STARTED,
        (0, 6, 0, 1), trio([0, 1])),
    run("a start while an end of age 0 is owed", TRIO, trio([1, 1]), [START_2, START_0], NOT_STARTED, (0, 2, 0, 1), trio([0, 0], {(0, 0): 1, (2, 0): 1})),
    run("29, no start made", TRIO, trio([1, 0], {(1, 1): 1}), [START_0], NOT_STARTED, (29, 0, 0, 0)),
    run("29 after a start", TRIO, trio([1, 0], {(1, 1): 1}), [START_0], STARTED, (29, 0, 0, 1)),
    run("13 before 29", TRIO, trio([0, 0], {(1, 1): 1}), [START_0], STARTED, (13, 0, 0, 1), short=(0, 1)),
    run("29 before 14", TRIO, trio([1, 0], {(0, 0): FULL, (1, 1): 1}), [START_0], NOT_STARTED, (29, 0, 0, 0)),
    run("28 before 17", TRIO, trio([1, FULL], {(0, 1): 1}), [START_0, end_0(1)], NOT_STARTED, (28, 1, 0, 1), trio([0, FULL], {(0, 0): 1, (0, 1): 1})),
    run("a full place, age 0 behind a start", TRIO, trio([1, FULL]), [START_0, end_0(0)], NOT_STARTED, (17, 1, 0, 1), trio([0, FULL], {(0, 0): 1})),
    run("a full place, an old end, no start made", TRIO, trio([0, FULL], {(0, 1): 1}), [end_0(1)], NOT_STARTED, (17, 0, 0, 0)),
    run("a start that is refused sets nothing: 13", TRIO, trio([1, 0]), [START_2], NOT_STARTED, (13, 0, 0, 0), short=(1, 1)),
    run("a start that is refused sets nothing: 14", TRIO, trio([1, 0], {(0, 0): FULL}), [START_0], NOT_STARTED, (14, 0, 0, 0)),
    run("a start that is refused sets nothing: 12", TRIO, trio([1, 0]), [(4, 0)], NOT_STARTED, (12, 0, 0, 0)),
    run("a tick that is refused clears nothing", NET, INITIAL, [TICK], STARTED, (18, 0, 0, 1)),
    run("a tick that is refused behind a start", NET, INITIAL, [START_0, TICK, TICK, TICK, end_0(3), START_1, TICK], NOT_STARTED,
        (19, 6, 3, 1), state([0, 0, 0], {(1, 0): 1})),
    run("11 behind a start", TRIO, trio([1, 0]), [START_0, (0, 1)], NOT_STARTED, (11, 1, 0, 1), trio([0, 0], {(0, 0): 1})),
    run("11 at once", TRIO, trio([1, 0]), [(1, 1)], NOT_STARTED, (11, 0, 0, 0)),
    run("11 at once, after a start", TRIO, trio([1, 0]), [(0, 255)], STARTED, (11, 0, 0, 1)),
    run("an end that is refused by 15 behind a start", TRIO, trio([1, 0]), [START_0, end_0(3)], NOT_STARTED, (15, 1, 0, 1), trio([0, 0], {(0, 0): 1})),
    run("an end that is refused by 16 behind a tick", NET, INITIAL, [START_0, TICK, end_0(2)], STARTED, (16, 2, 1, 0), state([0, 0, 0], {(0, 1): 1})),
    run("the last of 64 transitions owes an end", TALL, tall(255, {(63, 1): 1}), [START_0], NOT_STARTED, (29, 0, 0, 0)),
    run("the last of 64 transitions ends first", TALL, tall(254, {(63, 1): 1}), [END_63, START_0], NOT_STARTED, (0, 2, 0, 1), tall(0, {(0, 0): 1})),
    run("the last of 64 transitions sets it", TALL, tall(1), [START_63], NOT_STARTED, (0, 1, 0, 1), tall(0, {(63, 0): 1})),
    run("an end of the first of 64 transitions does not", TALL, tall(0, {(0, 0): 1}), [end_0(0)], NOT_STARTED, (0, 1, 0, 0), tall(255)),
    run("the first portion of a log", TRIO, OLD_AND_A_TOKEN, [START_0], NOT_STARTED, (0, 1, 0, 1), BEGUN),
    run("the second portion, given what the first told", TRIO, BEGUN, [end_0(0), end_0(1)], STARTED, (28, 1, 0, 1), trio([0, 1], {(0, 1): 1})),
    refused_run("1 after a start", 1, 0, NET[:-1], INITIAL, LOG),
    refused_run("2 after a start", 2, 0, NET[:5] + b"\0" + NET[6:], INITIAL, LOG),
    refused_run("3 after a start", 3, 0, NET[:5] + b"\2" + NET[6:], INITIAL, LOG),
    refused_run("4 after a start", 4, 1, NET[:22] + b"\x40" + NET[23:], INITIAL, LOG),
    refused_run("5 after a start", 5, 1, NET[:24] + b"\0" + NET[25:], INITIAL, LOG),
    refused_run("6 after a start", 6, 1, NET[:28] + b"\0", INITIAL, LOG),
    refused_run("8 after a start", 8, 0, NET, INITIAL[:-1], LOG),
    refused_run("9 after a start", 9, 1, NET, state([1, 0, 0], {(1, 1): 1}), LOG),
    refused_run("10 after a start", 10, 0, NET, INITIAL, LOG[:-1]),
]

AN_END = trio([0, 1])
TAKEN_BACK = trio([0, 0], {(0, 1): 1})

# a walk's fact is that of the state before the log's first event, walked or not
WALKS = [
    walk("no event in front, no start made", AN_END, [end_0(1)], 1, NOT_STARTED, (0, 0, 1, 0), TAKEN_BACK),
    walk("no event in front, after a start", AN_END, [end_0(1)], 1, STARTED, (28, 0, 0, 0)),
    walk("a start in front", AN_END, [START_0, end_0(1)], 1, NOT_STARTED, (28, 1, 0, 0)),
    walk("a start in front, which is to be walked too", AN_END, [START_0, end_0(1)], 2, NOT_STARTED, (28, 1, 0, 0)),
    walk("a tick in front clears what was given", AN_END, [TICK, end_0(1)], 1, STARTED, (0, 1, 1, 0), TAKEN_BACK),
    walk("a start and a tick in front", AN_END, [START_0, TICK, end_0(1)], 1, STARTED, (0, 2, 1, 0), TAKEN_BACK),
    walk("a tick and a start in front", AN_END, [TICK, START_0, end_0(1)], 1, NOT_STARTED, (28, 2, 0, 0)),
    walk("a start, and an end between", AN_END, [START_0, end_0(0), end_0(1)], 1, NOT_STARTED, (28, 2, 0, 0)),
    walk("an end in front sets nothing", AN_END, [end_0(0), end_0(1)], 1, NOT_STARTED, (0, 1, 1, 0), TAKEN_BACK),
    walk("an end in front clears nothing", AN_END, [end_0(0), end_0(1)], 1, STARTED, (28, 1, 0, 0)),
    walk("an old end in front sets nothing", AN_END, [end_0(1), end_0(1)], 1, NOT_STARTED, (0, 1, 1, 0), TAKEN_BACK),
    walk("1, 1 in front sets nothing", AN_END, [(1, 1), end_0(1)], 1, NOT_STARTED, (0, 1, 1, 0), TAKEN_BACK),
    walk("64, 255 in front sets nothing", AN_END, [(64, 255), end_0(1)], 1, NOT_STARTED, (0, 1, 1, 0), TAKEN_BACK),
    walk("1, 1 in front clears nothing", AN_END, [(1, 1), end_0(1)], 1, STARTED, (28, 1, 0, 0)),
    walk("0, 1 in front clears nothing", AN_END, [(0, 1), end_0(1)], 1, STARTED, (28, 1, 0, 0)),
    walk("a start, and 0, 255 between", AN_END, [START_0, (0, 255), end_0(1)], 1, NOT_STARTED, (28, 2, 0, 0)),
    walk("a tick, and 1, 1 between", AN_END, [TICK, (1, 1), end_0(1)], 1, STARTED, (0, 2, 1, 0), TAKEN_BACK),
    walk("129, 0 in front sets nothing", AN_END, [(129, 0), end_0(1)], 1, NOT_STARTED, (0, 1, 1, 0), TAKEN_BACK),
    walk("255, 255 in front clears nothing", AN_END, [(255, 255), end_0(1)], 1, STARTED, (28, 1, 0, 0)),
    walk("a start in front, of a transition not below T", AN_END, [(4, 0), end_0(1)], 1, NOT_STARTED, (28, 1, 0, 0)),
    walk("a start in front, of transition 63", AN_END, [(64, 0), end_0(1)], 1, NOT_STARTED, (28, 1, 0, 0)),
    walk("65, 0 in front is an end", AN_END, [(65, 0), end_0(1)], 1, NOT_STARTED, (0, 1, 1, 0), TAKEN_BACK),
    walk("128, 0 in front is an end, of a transition not below T", AN_END, [(128, 0), end_0(1)], 1, NOT_STARTED, (0, 1, 1, 0), TAKEN_BACK),
    walk("a start far in front", AN_END, [START_0, *[end_0(0)] * 40, end_0(1)], 1, NOT_STARTED, (28, 41, 0, 0)),
    walk("a start behind it sets nothing for it", trio([0, 1], {(0, 0): 1}), [end_0(1), START_0], 2, NOT_STARTED, (0, 0, 2, 0), OLD_AND_A_TOKEN),
    walk("a start behind it, and what was given", trio([0, 1], {(0, 0): 1}), [end_0(1), START_0], 2, STARTED, (28, 0, 1, 0), trio([1, 1])),
    walk("a tick behind it clears nothing for it", trio([0, 0], {(1, 1): 1}), [end_2(0), end_0(1), START_1, TICK], 3, STARTED,
         (28, 1, 2, 1), trio([1, 0])),
    walk("two old ends after a start: the last is told", trio([0, 2]), [end_0(1), end_0(1)], 2, STARTED, (28, 1, 0, 0)),
    walk("two old ends, no start made", trio([0, 2]), [end_0(1), end_0(1)], 2, NOT_STARTED, (0, 0, 2, 0), trio([0, 0], {(0, 1): 2})),
    walk("the end of age 0 is taken back, the old one is not", trio([0, 2]), [START_0, end_0(1), end_0(0)], 2, NOT_STARTED,
         (28, 1, 1, 0), trio([0, 1], {(0, 0): 1})),
    walk("a whole step, after a start", trio([0, 1]), [START_0, TICK, end_0(1)], 3, STARTED, (0, 0, 3, 1), trio([1, 0])),
    walk("29 at once", trio([0, 0], {(0, 0): 1, (1, 1): 1}), [START_0], 1, NOT_STARTED, (29, 0, 0, 0)),
    walk("29 at once, after a start", trio([0, 0], {(0, 0): 1, (1, 1): 1}), [START_0], 1, STARTED, (29, 0, 0, 0)),
    walk("29, the last of 64 transitions owes an end", tall(0, {(0, 0): 1, (63, 1): 1}), [START_0], 1, NOT_STARTED,
         (29, 0, 0, 0), net=TALL),
    walk("29 behind an end of age 0", trio([1, 0], {(0, 0): 1, (1, 1): 1}), [START_0, end_2(0)], 2, NOT_STARTED,
         (29, 0, 1, 0), trio([0, 0], {(0, 0): 1, (1, 1): 1, (2, 0): 1})),
    walk("24 before 29", trio([0, 0], {(1, 1): 1}), [START_1], 1, NOT_STARTED, (24, 0, 0, 0)),
    walk("25 before 29", trio([FULL, 0], {(0, 0): 1, (1, 1): 1}), [START_0], 1, NOT_STARTED, (25, 0, 0, 0)),
    walk("a full place, an end of age 0 is owed", trio([FULL, 0], {(0, 0): 1, (2, 0): 1}), [START_0], 1, STARTED,
         (25, 0, 0, 0)),
    walk("28 before 26", trio([0, 0]), [START_0, end_0(1)], 1, NOT_STARTED, (28, 1, 0, 0)),
    walk("28 before 27", trio([0, 1], {(0, 1): FULL}), [START_0, end_0(1)], 1, NOT_STARTED, (28, 1, 0, 0)),
    walk("a full count of age 0 behind a start", trio([0, 1], {(0, 0): FULL}), [START_0, end_0(0)], 1, NOT_STARTED, (27, 1, 0, 0)),
    walk("15 before 28", AN_END, [START_0, end_0(3)], 1, NOT_STARTED, (15, 1, 0, 0)),
    walk("22 before all, after a start", AN_END, [end_0(1)], 2, STARTED, (22, 0, 0, 0)),
    walk("no event walked", AN_END, [START_0, end_0(1)], 0, STARTED, (0, 2, 0, 0)),
    walk("what the run of a start and an old end stops behind", BEGUN, [START_0], 1, NOT_STARTED, (0, 0, 1, 0), OLD_AND_A_TOKEN),
]

CASES = ENDS + STARTS + TICKS + BACK + RUNS + WALKS

FAR = [end_0(0)] * 23_998

# these are checked and compared, but not stored
LONGEST = [
    walk("a start in front of 23,998 ends", AN_END, [START_0, *FAR, end_0(1)], 1, NOT_STARTED, (28, 23_999, 0, 0)),
    walk("a tick in front of 23,998 ends", AN_END, [TICK, *FAR, end_0(1)], 1, STARTED, (0, 23_999, 1, 0), TAKEN_BACK),
    walk("23,999 ends in front, after a start", AN_END, [end_0(0), *FAR, end_0(1)], 1, STARTED, (28, 23_999, 0, 0)),
    walk("23,999 ends in front, no start made", AN_END, [end_0(0), *FAR, end_0(1)], 1, NOT_STARTED, (0, 23_999, 1, 0), TAKEN_BACK),
]

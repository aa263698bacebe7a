"""Cases of request W6, worked out by hand: weights of the places, whether every transition puts out the weight it takes
in, and the total of the weighted marking and of what the running firings have taken in."""

from casenets import (
    BEFORE_LAST, FINAL, FOUR, INITIAL, LONGEST, LOOP, NET, SLOW, SWAP, TALL, TRIO, WIDE,
    at, column, column_state, four, longest, loop, slow, state, swap, tall, trio, wide, words,
)

FULL = 65535


def told(title, net, before, weights, total):
    """Every transition balances."""
    return title, "balance", [net, before, words(weights)], (0, 0, total), None


def leak(title, net, before, weights, t):
    """Transition t is the first that does not. No total is told."""
    return title, "balance", [net, before, words(weights)], (30, t, 0), None


def refused(title, number, index, net, before, data):
    """Refused by another number; the weights are given as bytes."""
    return title, "balance", [net, before, data], (number, index, 0), None


EVERY_AGE = {(0, 0): 1, (0, 1): 10, (0, 2): 100, (0, 3): 1000, (1, 0): 10000}
TWO_ROWS = NET[:8] + b"\2" + NET[9:]

# the row net's tokens go from place 0 to 1 to 2, so the three weights must be alike
ROW = [
    told("a token", NET, INITIAL, [1, 1, 1], 1),
    told("no weight", NET, INITIAL, [0, 0, 0], 0),
    told("the greatest weight", NET, INITIAL, [FULL] * 3, FULL),
    told("K1, the initial state", NET, INITIAL, [7] * 3, 7),
    told("K1, behind start 0", NET, state([0, 0, 0], {(0, 0): 1}), [7] * 3, 7),
    told("K1, behind the tick", NET, state([0, 0, 0], {(0, 1): 1}), [7] * 3, 7),
    told("K1, behind end 0", NET, state([0, 1, 0]), [7] * 3, 7),
    told("K1, behind start 1", NET, BEFORE_LAST, [7] * 3, 7),
    told("K1, behind end 1", NET, FINAL, [7] * 3, 7),
    told("a firing at its lfd", NET, state([0, 0, 0], {(0, 3): 1}), [7] * 3, 7),
    told("a firing between", NET, state([0, 0, 0], {(0, 2): 1}), [7] * 3, 7),
    told("no token, no firing", NET, state([0, 0, 0]), [7] * 3, 0),
    told("a token at each place", NET, state([1, 1, 1]), [7] * 3, 21),
    told("a firing at every age", NET, state([1, 2, 3], EVERY_AGE), [1] * 3, 11117),
    told("a firing at every age, weights of 3", NET, state([1, 2, 3], EVERY_AGE), [3] * 3, 33351),
    told("65,535 firings are as many", NET, state([0, 0, 0], {(0, 1): FULL}), [2] * 3, 131070),
    told("256 firings", NET, state([0, 0, 0], {(0, 1): 256}), [1] * 3, 256),
    told("256 tokens", NET, state([0, 256, 0]), [1] * 3, 256),
    told("weights of 256, high byte first", NET, state([1, 0, 1]), [256] * 3, 512),
    told("weights of 255", NET, state([1, 0, 1]), [255] * 3, 510),
    told("weights of 32,768", NET, state([1, 1, 1]), [32768] * 3, 98304),
    told("all places full", NET, state([FULL] * 3), [1] * 3, 196605),
    told("all counts full", NET, state([0, 0, 0], {key: FULL for key in EVERY_AGE}), [1] * 3, 327675),
    told("bytes behind the state", NET, INITIAL + b"\1\2\3\4", [7] * 3, 7),
    told("a state of two tokens, the net begins with one", NET, state([2, 0, 0]), [7] * 3, 14),
    told("a state of one token, the net begins with two", TWO_ROWS, INITIAL, [7] * 3, 7),
    told("an empty state, the net begins with two", TWO_ROWS, state([0, 0, 0]), [7] * 3, 0),
    leak("the first transition gives more", NET, INITIAL, [1, 2, 2], 0),
    leak("the first transition gives less", NET, INITIAL, [2, 1, 1], 0),
    leak("the last transition gives more", NET, INITIAL, [1, 1, 2], 1),
    leak("the last transition gives less", NET, INITIAL, [2, 2, 1], 1),
    leak("both give more", NET, INITIAL, [1, 2, 3], 0),
    leak("both give less", NET, INITIAL, [3, 2, 1], 0),
    leak("one more, one less: the same weight in the end", NET, INITIAL, [1, 2, 1], 0),
    leak("a token comes from nothing", NET, INITIAL, [0, 1, 1], 0),
    leak("a token vanishes", NET, INITIAL, [1, 1, 0], 1),
    leak("by all there is", NET, INITIAL, [0, FULL, FULL], 0),
    leak("high bytes alone differ", NET, INITIAL, [1, 257, 257], 0),
    leak("low bytes alone differ", NET, INITIAL, [256, 256, 257], 1),
    leak("nothing runs and nothing is enabled", NET, FINAL, [1, 1, 2], 1),
    leak("no token and no firing", NET, state([0, 0, 0]), [1, 2, 2], 0),
    leak("firings of every age", NET, state([1, 2, 3], EVERY_AGE), [1, 1, 2], 1),
    leak("bytes behind the state", NET, INITIAL + b"\1\2\3\4", [1, 1, 2], 1),
]

# transition 0 takes 2, 0, 7 and 255 tokens and gives one to place 1: 264 of weight 1; 255 times 257 is 65,535
TAKEN = [
    told("what it takes weighs 264", FOUR, four(3, 1, 4, 1, count=2), [1, 264, 1, 1], 800),
    told("what it takes weighs 7, two places nothing", FOUR, four(FULL, 1, 1, FULL, count=3), [0, 7, 1, 0], 29),
    told("no place has a weight", FOUR, four(9, 9, 9, 9, count=9), [0, 0, 0, 0], 0),
    told("what it takes weighs 65,535", FOUR, four(1, 1, 1, 1, count=1), [0, FULL, 0, 257], 131327),
    told("what it takes weighs 65,535 in three places", FOUR, four(0, 0, 0, 0, count=2), [110, FULL, 5, 256], 131070),
    leak("one too little for 264", FOUR, four(3, 1, 4, 1, count=2), [1, 263, 1, 1], 0),
    leak("one too much for 264", FOUR, four(3, 1, 4, 1, count=2), [1, 265, 1, 1], 0),
    leak("256 too little", FOUR, four(3, 1, 4, 1), [1, 8, 1, 1], 0),
    leak("one too little for 65,535", FOUR, four(1, 1, 1, 1), [0, 65534, 0, 257], 0),
    leak("2 to the 20 too little", FOUR, four(1, 1, 1, 1), [5, 1, 1, 4112], 0),
    leak("2 to the 24 too little", FOUR, four(1, 1, 1, 1), [10, 1, 9396, FULL], 0),
    leak("65,536 too little", FOUR, four(1, 1, 1, 1), [1, 1, 0, 257], 0),
    leak("the place that it gives to weighs nothing", FOUR, four(1, 1, 1, 1), [1, 0, 1, 1], 0),
    leak("the places that it takes from weigh nothing", FOUR, four(1, 1, 1, 1), [0, 1, 0, 0], 0),
    leak("weights alike", FOUR, four(1, 1, 1, 1), [1, 1, 1, 1], 0),
    told("a swap, weights of 2 and 3", SWAP, swap([1, 2], {(0, 0): 1, (0, 2): 10, (1, 1): 100}), [2, 3], 1274),
    told("a swap, the greatest weights", SWAP, swap([3, 4], {(0, 1): 1, (1, 0): 1}), [43690, FULL], 786420),
    told("a swap, before a start", SWAP, swap([3, 0]), [2, 3], 6),
    told("a swap, behind the start", SWAP, swap([0, 0], {(0, 0): 1}), [2, 3], 6),
    told("a swap, behind the end", SWAP, swap([0, 2]), [2, 3], 6),
    leak("a swap, weights the wrong way round", SWAP, swap([1, 2]), [3, 2], 0),
    leak("a swap, weights alike", SWAP, swap([1, 2]), [1, 1], 0),
    leak("a swap, one too much for 9", SWAP, swap([1, 2]), [3, 5], 0),
    told("to and fro", TRIO, trio([1, 2], {(0, 1): 3, (1, 1): 4, (2, 0): 5}), [9, 9], 135),
    leak("to and fro, the first", TRIO, trio([1, 2]), [9, 8], 0),
]

# a token of place 0 is given back by every transition that does not move it to place 1
MANY = [
    told("64 transitions, all give back", column(), column_state([1, 1], {(0, 0): 1, (31, 1): 1, (63, 1): 1}), [5, 9], 29),
    leak("64 transitions, the first", column(0), column_state([1, 0]), [5, 9], 0),
    leak("64 transitions, the last", column(63), column_state([1, 0]), [5, 9], 63),
    leak("64 transitions, the last gives less", column(63), column_state([1, 0]), [9, 5], 63),
    leak("64 transitions, one in the middle", column(32), column_state([1, 0]), [5, 9], 32),
    leak("64 transitions, the last but one and the last", column(62, 63), column_state([1, 0]), [5, 9], 62),
    leak("64 transitions, the first and the last", column(0, 63), column_state([1, 0]), [5, 9], 0),
    leak("64 transitions, three", column(8, 9, 40), column_state([1, 0]), [5, 9], 8),
    leak("64 transitions, two behind the middle", column(33, 34), column_state([1, 0]), [5, 9], 33),
    leak("64 transitions, the last, and another runs", column(63), column_state([1, 0], {(0, 1): 1}), [5, 9], 63),
    leak("64 transitions, the last runs, and a lower one leaks", column(7), column_state([1, 0], {(63, 1): 1}), [5, 9], 7),
    leak("64 transitions, all", column(*range(64)), column_state([1, 0]), [5, 9], 0),
    told("64 transitions, all, weights alike", column(*range(64)), column_state([1, 2], {(63, 0): 3}), [5, 5], 30),
    told("the last of 64 transitions runs", TALL, tall(1, {(63, 1): 2}), [3], 9),
    told("a firing of 255 tokens", TALL, tall(1, {(0, 1): 1}), [3], 768),
    told("64 firings of age 1", TALL, tall(0, {(t, 1): 1 for t in range(64)}), [1], 16066),
    told("a firing of age 63", SLOW, slow(0, {63: 1}), [FULL], FULL),
    told("firings of ages 0, 1, 62 and 63", SLOW, slow(1, {0: 10, 1: 100, 62: 1000, 63: 10000}), [2], 22222),
    told("64 places, one token each", WIDE, wide([1] * 64), range(1, 65), 2080),
    told("64 places, the last alone", WIDE, wide(at(63, 3, 0)), range(1, 65), 192),
    told("64 places, the first alone", WIDE, wide(at(0, 3, 0)), range(1, 65), 3),
    told("64 places, a firing", WIDE, wide([0] * 64, 2), range(1, 65), 4160),
    told("64 places, the last has the only weight", WIDE, wide([1] * 64, 5), at(63, 9, 0), 54),
    told("64 places, all full", WIDE, wide([FULL] * 64, FULL), [FULL] * 64, 549739036800),
]

# 65,537 times 65,535 is one less than 4,294,967,296
GREAT = [
    told("65,535", LOOP, loop(FULL), [1], 65535),
    told("65,536", LOOP, loop(FULL, 1), [1], 65536),
    told("65,536 by 256 and 256", LOOP, loop(256), [256], 65536),
    told("131,070", LOOP, loop(FULL, FULL), [1], 131070),
    told("a full place of the greatest weight", LOOP, loop(FULL), [FULL], 4294836225),
    told("4,294,967,295", LOOP, loop(FULL, 2), [FULL], 4294967295),
    told("4,294,967,296", TRIO, trio([FULL, FULL], {(0, 1): 2}), [32768, 32768], 4294967296),
    told("4,295,032,830", LOOP, loop(FULL, 3), [FULL], 4295032830),
    told("all there can be of one place", LOOP, loop(FULL, FULL), [FULL], 8589672450),
    told("all of 64 firings' ages", SLOW, slow(FULL, {age: FULL for age in range(64)}), [FULL], 279164354625),
    told("the longest net, one token each", LONGEST, longest(1, 0), [1] * 64, 64),
    told("the longest net, one firing each", LONGEST, longest(0, 1), [1] * 64, 66846720),
    told("the longest net, the last place of weight 1", LONGEST, longest(FULL, FULL), [FULL] * 63 + [1], 282610183062888510),
    leak("the longest net, its very last arc is one less", LONGEST[:-1] + b"\xfe", longest(0, 0), [FULL] * 63 + [1], 63),
    told("the greatest total", LONGEST, longest(FULL, FULL), [FULL] * 64, 287095989447950400),
]

GOOD, LEAKING = words([7, 7, 7]), words([1, 2, 3])
SHORT = [0, 1, 2, 3, 4, 5, 7, 8, 9, 12, 128, 262]

# weights that are not 2P bytes, then a leak
LENGTHS = [
    *(refused(f"{size} bytes for 3 places", 31, 0, NET, INITIAL, (GOOD * 44)[:size]) for size in SHORT),
    *(refused(f"{size} bytes for 3 places, a leak: 31 before 30", 31, 0, NET, INITIAL, (LEAKING * 44)[:size]) for size in SHORT),
    *(refused(f"{size} bytes for a place", 31, 0, LOOP, loop(1), b"\0\1\0\1"[:size]) for size in (0, 1, 3, 4)),
    told("2 bytes for a place", LOOP, loop(1), [1], 1),
    *(refused(f"{size} bytes for 64 places", 31, 0, WIDE, wide([1] * 64), words([1] * 70)[:size]) for size in (64, 126, 127, 129, 130)),
    refused("a leak, and 5 bytes behind the state", 31, 0, NET, INITIAL + bytes(5), LEAKING[:5]),
    refused("the last transition leaks, 129 bytes for 2 places", 31, 0, column(63), column_state([1, 0]), words([5, 9] * 33)[:129]),
    refused("no tokens, no weights", 31, 0, NET, state([0, 0, 0]), b""),
]

ABOVE_LFD = state([1, 0, 0], {(1, 1): 1})
# what comes before the weights: title, number, index, net, state
EARLIER = [
    ("no net", 1, 0, b"", INITIAL),
    ("the net's length is not the slice's", 1, 0, NET[:-1], INITIAL),
    ("65 places", 2, 0, NET[:5] + b"\x41" + NET[6:], INITIAL),
    ("another number of places", 3, 0, NET[:5] + b"\2" + NET[6:], INITIAL),
    ("lfd 64 of transition 1", 4, 1, NET[:22] + b"\x40" + NET[23:], INITIAL),
    ("no input weight of transition 1", 5, 1, NET[:24] + b"\0" + NET[25:], INITIAL),
    ("no output weight of transition 1", 6, 1, NET[:28] + b"\0", INITIAL),
    ("no state", 8, 0, NET, b""),
    ("the state is a byte short", 8, 0, NET, INITIAL[:-1]),
    ("a count above the lfd of transition 1", 9, 1, NET, ABOVE_LFD),
    ("net and state", 6, 1, NET[:28] + b"\0", b""),
]
BEFORE = [
    *(refused(title, number, index, net, before, GOOD) for title, number, index, net, before in EARLIER),
    *(refused(f"{title}, and 5 bytes of weights", number, index, net, before, GOOD[:5]) for title, number, index, net, before in EARLIER),
    *(refused(f"{title}, and a leak", number, index, net, before, LEAKING) for title, number, index, net, before in EARLIER),
    *(refused(f"{title}, and no weights", number, index, net, before, b"") for title, number, index, net, before in EARLIER),
    refused("the first transition leaks, the second has a count above its lfd", 9, 1, NET, ABOVE_LFD, words([1, 2, 2])),
]

CASES = ROW + TAKEN + MANY + GREAT + LENGTHS + BEFORE

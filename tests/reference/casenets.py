"""The nets of the cases that are worked out by hand, with their states, events and logs."""

TICK, START_0, START_1, START_2, START_63 = (0, 0), (1, 0), (2, 0), (3, 0), (64, 0)
END_63 = 128, 1

# whether a start has happened in this step (W5)
NOT_STARTED, STARTED = 0, 1


def end_0(age):
    return 65, age


def end_1(age):
    return 66, age


def end_2(age):
    return 67, age


def log(*pairs):
    return bytes([1]) + (5 + 2 * len(pairs)).to_bytes(4, "big") + bytes(b for pair in pairs for b in pair)


def words(values):
    return b"".join(value.to_bytes(2, "big") for value in values)


def values_of(marking, counts, transitions, depth):
    """The numbers of a state: the marking, then the counts, which are given by (transition, age)."""
    rows = [(counts or {}).get((t, age), 0) for t in range(transitions) for age in range(depth)]
    return words([*marking, *rows])


# document 01's row net: transition 0, of 1 to 3 ticks, moves a token from place 0 to place 1, and
# transition 1, of no duration, from there to place 2
NET = bytes.fromhex(
    "01 00 00 00 1D 03 02 00 01 00 00 00 00 01 03 01 00 00 00 01 00 00 00 00 01 00 00 00 01"
)
INITIAL = bytes.fromhex("01 00 00 00 1E 03 02 04 00 01") + bytes(20)
LOG = bytes.fromhex("01 00 00 00 0F 01 00 00 00 41 01 02 00 42 00")
K1 = [START_0, TICK, end_0(1), START_1, end_1(0)]


def state(marking, counts=None):
    return INITIAL[:8] + values_of(marking, counts, 2, 4)


FINAL = state([0, 0, 1])
BEFORE_LAST = state([0, 0, 0], {(1, 0): 1})


def four_net(*marking):
    """Four places; transition 0, of no duration, takes 2, 0, 7 and 255 tokens and gives one to place 1."""
    return bytes.fromhex("01 00 00 00 19 04 01") + words(marking) + bytes.fromhex("00 00 02 00 07 FF 00 01 00 00")


FOUR = four_net(0, 0, 0, 0)


def four(*marking, count=0):
    return bytes.fromhex("01 00 00 00 12 04 01 01") + words([*marking, count])


# 64 places; transition 0 takes a token from each
WIDE = bytes.fromhex("01 00 00 01 09 40 01") + bytes(128) + b"\0\0" + b"\1" * 64 + b"\1" * 64


def wide(tokens, count=0):
    return bytes.fromhex("01 00 00 00 8A 40 01 01") + words([*tokens, count])


def at(place, tokens, elsewhere):
    """The tokens of 64 places."""
    return [tokens if p == place else elsewhere for p in range(64)]


# a place; 64 transitions of one tick, of which the last takes and gives one token and the others 255
TALL = bytes.fromhex("01 00 00 01 09 01 40 00 01") + bytes.fromhex("00 01 FF FF") * 63 + bytes.fromhex("01 01 01 01")


def tall(tokens, counts=None):
    return bytes.fromhex("01 00 00 01 0A 01 40 02") + values_of([tokens], counts, 64, 2)


# a place, and a transition of 63 ticks that takes its token and gives it back
SLOW = bytes.fromhex("01 00 00 00 0D 01 01 00 01 3F 3F 01 01")


def slow(tokens, counts=None):
    """The net's state with those tokens and those counts, by age."""
    values = [tokens] + [0] * 64
    for age, count in (counts or {}).items():
        values[1 + age] = count
    return bytes.fromhex("01 00 00 00 8A 01 01 40") + words(values)


# a place and a transition of no duration that takes its token and gives it back
LOOP = bytes.fromhex("01 00 00 00 0D 01 01 00 01 00 00 01 01")
LOOPED = [START_0, end_0(0)]


def loop(tokens, count=0):
    return bytes.fromhex("01 00 00 00 0C 01 01 01") + words([tokens, count])


# two places; transitions 0, of up to 2 ticks, and 1, of up to one, move a token from place 0 to place 1, and
# transition 2, of no duration, moves one back
TRIO = bytes.fromhex("01 00 00 00 1D 02 03 00 00 00 00 00 02 01 00 00 01 00 01 01 00 00 01 00 00 00 01 01 00")


def trio(marking, counts=None):
    return bytes.fromhex("01 00 00 00 1E 02 03 03") + values_of(marking, counts, 3, 3)


# two places; transition 0, of up to 2 ticks, takes 3 tokens from place 0 and gives 2 to place 1, and transition 1, of up
# to one tick, takes 4 from there and gives 6 back
SWAP = bytes.fromhex("01 00 00 00 17 02 02 00 00 00 00 00 02 03 00 00 02 00 01 00 04 06 00")


def swap(marking, counts=None):
    return bytes.fromhex("01 00 00 00 18 02 02 03") + values_of(marking, counts, 2, 3)


def column(*moving):
    """Two places, and 64 transitions of up to one tick: each takes a token from place 0 and gives it back, but for
    the moving ones, which give it to place 1."""
    rows = (bytes.fromhex("00 01 01 00 00 01" if t in moving else "00 01 01 00 01 00") for t in range(64))
    return bytes.fromhex("01 00 00 01 8B 02 40 00 00 00 00") + b"".join(rows)


def column_state(marking, counts=None):
    return bytes.fromhex("01 00 00 01 0C 02 40 02") + values_of(marking, counts, 64, 2)


# the longest net: 64 places, and 64 transitions of 63 ticks that take 255 tokens from each place and give as many
LONGEST = bytes.fromhex("01 00 00 21 07 40 40") + bytes(128) + (b"\x3f\x3f" + b"\xff" * 128) * 64


def longest(tokens, count):
    """Its state with so many tokens at each place, and so many firings of each transition at each age."""
    return bytes.fromhex("01 00 00 20 88 40 40 40") + words([tokens] * 64 + [count] * 4096)

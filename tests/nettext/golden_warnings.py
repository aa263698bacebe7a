"""Texts with warnings, each with every message that it must get, worked out by hand, in the form of golden.py."""


def no_time(words):
    return "warning: the round %s takes no time and uses nothing up: while it has its tokens no tick can pass" % words


def may_take_no_time(words, name, lfd):
    return (
        "warning: the round %s can take no time and uses nothing up: while it has its tokens a step may go on for ever; it need not, since "
        "'%s' lasts 0..%d" % (words, name, lfd)
    )


def short(name, needs, place, tokens):
    return (
        "warning: '%s' can never start: it takes %d from '%s', which has %d at the beginning, and no other transition that can start adds "
        "to it" % (name, needs, place, tokens)
    )


def together(name, needs, places, tokens):
    return (
        "warning: '%s' can never start: %s have %d together at the beginning, no other transition that can start adds to them, and it takes %d"
        % (name, places, tokens, needs)
    )


# ---- rounds

TWO = b"place a 1\nplace b\ntransition to_b %s: a -> b\ntransition to_a %s: b -> a\n"
BACK = b"transition back 0: b -> a\n"
CHAIN = b"place a 1\nplace b\nplace c\ntransition split 0: a -> 2 b\ntransition one 0: b -> c\ntransition join 0: 2 c -> a\n"

ROUNDS = [
    (TWO % (b"0", b"0"), ["3:12: " + no_time("'to_b', 'to_a'")]),
    (TWO % (b"0", b"0..3"), ["3:12: " + may_take_no_time("'to_b', 'to_a'", "to_a", 3)]),
    (TWO % (b"0..1", b"0..3"), ["3:12: " + may_take_no_time("'to_b', 'to_a'", "to_b", 1)]),
    (TWO % (b"0", b"1..3"), []),
    (b"place a 1\ntransition t 0: a -> a", ["2:12: " + no_time("'t'")]),
    (b"place a 1\ntransition t 0: a -> 2 a", ["2:12: " + no_time("'t'")]),
    (b"place a 2\nplace b\ntransition t 0: 2 a -> a\ntransition u 0..5: a -> b", []),
    (CHAIN, ["4:12: " + no_time("'split', 2 'one', 'join'")]),
    (CHAIN.replace(b"2 c", b"3 c").replace(b"a 1", b"a 2"), []),
    (CHAIN.replace(b"2 c", b"c"), ["4:12: " + no_time("'split', 'one', 'join'")]),
    # each round uses up a slot
    (b"place a 1\nplace b\nplace slot 9\ntransition t 0: a, slot -> b\ntransition u 0: b -> a", []),
    # without a token no transition of the round ever starts
    (b"place a\nplace b\ntransition t 0: a -> b\ntransition u 0: b -> a", [
        "3:17: " + short("t", 1, "a", 0),
        "4:17: " + short("u", 1, "b", 0),
    ]),
    # of two rounds through one transition one is told: that which lets no tick pass, where one does
    (TWO % (b"0", b"0") + BACK, ["3:12: " + no_time("'to_b', 'to_a'")]),
    (TWO % (b"0", b"0..2") + BACK, ["3:12: " + no_time("'to_b', 'back'")]),
    # one of each kind
    (b"place a 1\nplace c 1\ntransition u 0..2: c -> c\ntransition t 0: a -> a", [
        "3:12: " + may_take_no_time("'u'", "u", 2),
        "4:12: " + no_time("'t'"),
    ]),
]

# ---- transitions that can never start

SLOTS = b"place slot 3\nplace row\ntransition build 1..2: slot -> row\ntransition show 1: row -> slot\n"
PAGE = (
    b"place request 1\nplace titles\nplace ranked\nplace row\nplace page\n"
    b"transition load 1..3: request -> 5 titles\ntransition rank 1: titles -> ranked\n"
    b"transition build 1: 2 ranked -> row\ntransition show 0: 3 row -> page\n"
)
ONE_TOKEN = b"place a 1\nplace b\nplace c\nplace d\ntransition t 1: a -> b\ntransition u 1: a -> c\ntransition v 1: b -> a\n"

NEVER = [
    (SLOTS, []),
    (SLOTS + b"transition big 1: 3 slot -> row", []),
    (SLOTS + b"transition big 1: 4 slot -> row", ["5:21: " + together("big", 4, "'slot' and 'row'", 3)]),
    (PAGE.replace(b"5 titles", b"6 titles"), []),
    (PAGE, [
        "9:22: warning: 'show' can never start: counting 'request' as 5, 'titles' as 1, 'ranked' as 1 and 'row' as 2 for each token, there "
        "are 5 at the beginning, no other transition that can start adds to them, and it takes 6",
    ]),
    # what only a transition that never starts gives
    (b"place a 1\nplace b\nplace c\nplace d\ntransition t 1: 2 a -> b\ntransition u 1: b, a -> c\ntransition v 1: c -> a, d", [
        "5:19: " + short("t", 2, "a", 1),
        "6:17: " + short("u", 1, "b", 0),
        "7:17: " + short("v", 1, "c", 0),
    ]),
    # two that would feed themselves and each other
    (b"place a 1\nplace b\ntransition t 1: b -> 2 b\ntransition u 1: b -> 2 b\ntransition v 1: a -> a", [
        "3:17: " + short("t", 1, "b", 0),
        "4:17: " + short("u", 1, "b", 0),
    ]),
    # the same, where only what never starts could begin it
    (SLOTS + b"place e\ntransition t 1: 4 slot -> e\ntransition u 1: e -> 2 e\ntransition v 1: e -> 2 e", [
        "6:19: " + together("t", 4, "'slot' and 'row'", 3),
        "7:17: " + short("u", 1, "e", 0),
        "8:17: " + short("v", 1, "e", 0),
    ]),
    # a place that is given more than is taken from it, by one that can start
    (b"place a 1\nplace b\ntransition t 1: a -> a, b\ntransition u 1: 255 b -> a", []),
    # one token, which cannot be in b and in c
    (ONE_TOKEN + b"transition w 1: b, c -> d", ["8:17: " + together("w", 2, "'a', 'b' and 'c'", 1)]),
    # u never starts, but counting in parts of a firing does not show it: t fires once and not one and a half times
    (b"place a 3\nplace b\nplace c\ntransition t 1: 2 a -> 2 b\ntransition u 1: 3 b -> c", []),
]

WARNINGS = ROUNDS + NEVER

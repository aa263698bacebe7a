"""Texts with mistakes, each with every message that it must get, worked out by hand.

A message is written as `line:column: words`; the words of a warning begin with `warning: `. A text without messages is a net.
"""

FRONT = b"place a 1\nplace b\n"


def third(line):
    """A text whose third line is this one, behind the places a and b."""
    return FRONT + line + b"\n"


def arcs(words):
    """A text whose third line is a transition with these arcs, which begin in column 17."""
    return third(b"transition t 1: " + words)


def many(kind, count):
    """So many lines of a kind, called x0 and so on; the transitions move a token from a to b."""
    behind = b" 1: a -> b" if kind == b"transition" else b""
    return b"".join(b"%s x%d%s\n" % (kind, number, behind) for number in range(count))


def begins(word):
    return "a line begins with 'place' or 'transition', and not with '%s'" % word


def unused(name):
    return "warning: no transition takes from the place '%s' or gives to it" % name


MOVE = b"transition t 1: a -> b\n"
LONG = b"n" * 40
UMLAUTS = "ü".encode() * 20

BYTES = [
    (b"", ["1:1: the net has no place", "1:1: the net has no transition"]),
    (b"# nothing\n\n \t\n", ["4:1: the net has no place", "4:1: the net has no transition"]),
    (b"place a", ["1:8: the net has no transition"]),
    (b"place a\n# all", ["2:6: the net has no transition"]),
    (MOVE, ["1:17: no place is called 'a'", "1:22: no place is called 'b'", "2:1: the net has no place"]),
    (FRONT + b"\x01\x00", ["3:2: a zero byte, so this is no text; where it is a net, bin/net show writes it as text"]),
    ("ü".encode() + b"\0\n\0", ["1:2: a zero byte, so this is no text; where it is a net, bin/net show writes it as text"]),
    (b"place \xe4 1\nplace b\ntransition t 1: \xe4 -> b", ["1:7: byte 0xE4 is not UTF-8", "3:17: byte 0xE4 is not UTF-8"]),
    (FRONT + MOVE + "# ü".encode() + b"\xfc \xfc", ["4:4: byte 0xFC is not UTF-8"]),
    (FRONT + b"transition t\x0c1: a -> b\n", ["3:13: the control character U+000C; only blanks and tabs may stand between words"]),
    (FRONT + MOVE + b"# a\x7f", ["4:4: the control character U+007F; only blanks and tabs may stand between words"]),
    (b"place a 1\rplace b\n" + MOVE, [
        "1:10: a carriage return within the line; a line ends with LF or with CR LF",
        "1:11: the line's end is expected here, and not 'place'",
        "2:22: no place is called 'b'",
    ]),
    ((FRONT + MOVE).replace(b"\n", b"\r\n"), []),
    (b"\xef\xbb\xbf" + FRONT + MOVE, []),
    (FRONT.replace(b" ", b"\t") + b"\ttransition\tt\t1\t:\ta\t->\tb\t#\tx", []),
    (FRONT + b"transition t 1:a->b", []),
    (FRONT + b"transition t 1: a -> b# x", []),
    (b"transition t 1: a -> b\nplace b\nplace a 1", []),
]

FIRST_WORDS = [
    (third(b"plcae c") + MOVE, ["3:1: " + begins("plcae") + "; did you mean 'place'?"]),
    (third(b"  Transition t 1: a -> b"), ["3:3: " + begins("Transition") + "; did you mean 'transition'?"]),
    (third(b"arc a b") + MOVE, ["3:1: " + begins("arc")]),
    (third(b"-> place") + MOVE, ["3:1: " + begins("->")]),
    (b"plcae a 1\nplace b\n" + MOVE, ["1:1: " + begins("plcae") + "; did you mean 'place'?"]),
    (b"places a\nplaces b\n" + MOVE, [
        "1:1: " + begins("places") + "; did you mean 'place'?",
        "2:1: " + begins("places") + "; did you mean 'place'?",
    ]),
]

PLACES = [
    (third(b"place c 65535 # most") + MOVE, ["3:7: " + unused("c")]),
    (third(b"place c 00009") + MOVE, ["3:7: " + unused("c")]),
    (third(b"place") + MOVE, ["3:6: a name is expected behind 'place'"]),
    (third(b"place # c") + MOVE, ["3:6: a name is expected behind 'place'"]),
    (third(b"place , c") + MOVE, ["3:7: a name is expected here, and not ','"]),
    (third(b"place 7") + MOVE, ["3:7: '7' is a number, and cannot be a name"]),
    (third(b"place 1..3") + MOVE, ["3:7: '1..3' is a duration, and cannot be a name"]),
    (third(b"place " + LONG) + MOVE, ["3:7: " + unused("n" * 40)]),
    (third(b"place " + LONG + b"n") + MOVE, ["3:7: a name has at most 40 bytes, and '%s' has 41" % ("n" * 41)]),
    (third(b"place " + UMLAUTS) + MOVE, ["3:7: " + unused("ü" * 20)]),
    (third(b"place " + UMLAUTS + b"n") + MOVE, ["3:7: a name has at most 40 bytes, and '%s' has 41" % ("ü" * 20 + "n")]),
    (third("place x\ufffd".encode()) + MOVE, ["3:7: 'x\ufffd' has the character U+FFFD in it, which stands for a letter that was lost"]),
    (third(b"place a") + MOVE, ["3:7: a place is called 'a' in line 1 already"]),
    (third(b"place b 65536") + MOVE, ["3:7: a place is called 'b' in line 2 already", "3:9: a place has 0 to 65535 tokens, and not '65536'"]),
    (third(b"place c x") + MOVE, ["3:9: a place has 0 to 65535 tokens, and not 'x'"]),
    (third(b"place c -1") + MOVE, ["3:9: a place has 0 to 65535 tokens, and not '-1'"]),
    (third(b"place c 1" + b"0" * 70) + MOVE, ["3:9: a place has 0 to 65535 tokens, and not '1%s..'" % ("0" * 57)]),
    (third("place c ٣".encode()) + MOVE, ["3:9: a place has 0 to 65535 tokens, and not '٣'"]),
    (third(b"place c 1 2") + MOVE, ["3:11: the line's end is expected here, and not '2'"]),
    (third(b"place c 1, d") + MOVE, ["3:10: the line's end is expected here, and not ','"]),
    (third(b"place c: 1") + MOVE, ["3:8: a number of tokens, or the line's end, is expected here, and not ':'"]),
    (third(b"place transition") + MOVE, ["3:7: " + unused("transition")]),
    (FRONT + many(b"place", 62) + MOVE, ["%d:7: " % (n + 3) + unused("x%d" % n) for n in range(62)]),
    (FRONT + many(b"place", 64) + MOVE, ["65:7: a net has at most 64 places, and this is one more"]),
]

NAMES_OF_TRANSITIONS = [
    (third(b"transition") + MOVE, [
        "3:11: a name is expected behind 'transition'",
        "3:11: a duration and ':', like 1..3:, is expected behind 'transition'",
    ]),
    (third(b"transition: a -> b"), [
        "3:11: a name is expected here, and not ':'",
        "3:11: a duration, like 2 or 1..3, is expected here, and not ':'",
    ]),
    (third(b"transition 1..3: a -> x"), ["3:12: a name is expected here, and not '1..3'", "3:23: no place is called 'x'"]),
    (third(b"transition 2: a -> b"), ["3:12: a name is expected here, and not '2'"]),
    (third(b"transition 2 1..3: a -> b"), ["3:12: '2' is a number, and cannot be a name"]),
    (third(b"transition 1..2 1..3: a -> b"), ["3:12: '1..2' is a duration, and cannot be a name"]),
    (third(b"transition a 1: a -> b"), []),
    (FRONT + MOVE + b"transition t 2: b -> c", ["4:12: a transition is called 't' in line 3 already", "4:22: no place is called 'c'"]),
    (FRONT + many(b"transition", 64), []),
    (FRONT + many(b"transition", 66), ["67:12: a net has at most 64 transitions, and this is one more"]),
]

DURATIONS = [
    (third(b"transition t 0..63: a -> b"), []),
    (third(b"transition t 63: a -> b"), []),
    (third(b"transition t 3..03: a -> b"), []),
    (third(b"transition t: a -> b"), ["3:13: a duration, like 2 or 1..3, is expected here, and not ':'"]),
    (third(b"transition t"), ["3:13: a duration and ':', like 1..3:, is expected behind 't'"]),
    (third(b"transition t a -> b"), ["3:14: a duration and ':', like 1..3:, is expected here, and not 'a'"]),
    (third(b"transition t t 1: a -> b"), ["3:14: a duration, like 2 or 1..3, is expected here, and not 't'"]),
    (third(b"transition t x: a -> b"), ["3:14: 'x' is no duration; one is written like 2 or 1..3"]),
    (third(b"transition t 1.3: a -> b"), ["3:14: '1.3' is no duration; one is written like 2 or 1..3; did you mean '1..3'?"]),
    (third(b"transition t 1-3: a -> b"), ["3:14: '1-3' is no duration; one is written like 2 or 1..3; did you mean '1..3'?"]),
    (third(b"transition t 1..: a -> b"), ["3:14: '1..' is no duration; one is written like 2 or 1..3"]),
    (third(b"transition t 1..x: a -> b"), ["3:14: '1..x' is no duration; one is written like 2 or 1..3"]),
    (third(b"transition t 1 3: a -> b"), ["3:16: ':' is expected here, and not '3'; did you mean '1..3'?"]),
    (third(b"transition t 1 .. 3: a -> b"), ["3:16: ':' is expected here, and not '..'; did you mean '1..3'?"]),
    (third(b"transition t 64: a -> b"), ["3:14: a duration has 0 to 63 ticks, and not '64'"]),
    (third(b"transition t 1..64: a -> b"), ["3:17: a duration has 0 to 63 ticks, and not '64'"]),
    (third(b"transition t 70..80: a -> b"), [
        "3:14: a duration has 0 to 63 ticks, and not '70'",
        "3:18: a duration has 0 to 63 ticks, and not '80'",
    ]),
    (third(b"transition t 70..1: a -> b"), ["3:14: a duration has 0 to 63 ticks, and not '70'"]),
    (third(b"transition t 10..9: a -> b"), ["3:18: the longest duration, 9, is below the shortest, 10"]),
    (third(b"transition t 1..3"), ["3:18: ':' is expected behind '1..3'"]),
    (third(b"transition t 1..3 a -> b"), ["3:19: ':' is expected here, and not 'a'"]),
    (third(b"transition t 1 3 a -> b"), ["3:16: ':' is expected here, and not '3'; did you mean '1..3'?"]),
    (third(b"transition t 1, 3: a -> b"), ["3:15: ':' is expected here, and not ','"]),
]

ARCS = [
    (arcs(b"255 a -> 1 b"), [
        "3:21: warning: 't' can never start: it takes 255 from 'a', which has 1 at the beginning, and nothing gives to it",
    ]),
    (arcs(b""), ["3:16: the transition takes no token from any place; one is expected in front of '->'"]),
    (arcs(b"-> b"), ["3:17: the transition takes no token from any place; one is expected in front of '->'"]),
    (arcs(b"a ->"), ["3:21: the transition gives no token to any place; one is expected behind '->'"]),
    (arcs(b"->"), [
        "3:17: the transition takes no token from any place; one is expected in front of '->'",
        "3:19: the transition gives no token to any place; one is expected behind '->'",
    ]),
    (arcs(b"a"), ["3:18: '->' is expected behind 'a'"]),
    (arcs(b"a, b"), ["3:21: '->' is expected behind 'b'"]),
    (arcs(b"a > b"), ["3:19: ',' or '->' is expected here, and not '>'", "3:22: '->' is expected behind 'b'"]),
    (arcs(b"a b -> b"), ["3:19: ',' or '->' is expected here, and not 'b'"]),
    (arcs(b"a 2 -> b"), ["3:19: ',' or '->' is expected here, and not '2'; did you mean '2 a'?"]),
    (arcs(b"a: b -> b"), ["3:18: ',' or '->' is expected here, and not ':'"]),
    (arcs(b"a -> b a"), ["3:24: ',' or the line's end is expected here, and not 'a'"]),
    (arcs(b"a -> b -> a"), ["3:24: ',' or the line's end is expected here, and not '->'"]),
    (arcs(b"a,, b -> b"), ["3:19: a place is expected here, and not ','"]),
    (arcs(b", a -> b"), ["3:17: a place is expected here, and not ','"]),
    (arcs(b"a, -> b"), ["3:20: a place is expected here, and not '->'"]),
    (arcs(b"a -> b,"), ["3:24: a place is expected behind ','"]),
    (arcs(b"2 -> b"), ["3:19: a place is expected here, and not '->'"]),
    (arcs(b"a -> 2"), ["3:23: a place is expected behind '2'"]),
    (arcs(b"2 3 -> b"), ["3:19: a place is expected here, and not '3'"]),
    (arcs(b"0 a -> b"), ["3:17: a weight is 1 to 255, and not '0'"]),
    (arcs(b"a -> 256 b"), ["3:22: a weight is 1 to 255, and not '256'"]),
    (arcs(b"-1 a -> b"), ["3:17: a weight is 1 to 255, and not '-1'"]),
    (arcs(b"1.5 a -> b"), ["3:17: a weight is 1 to 255, and not '1.5'"]),
    (arcs(b"a, b, 2 a -> b"), ["3:25: the place 'a' is on this side twice, first in column 17; one weight in front of it says how many"]),
    (arcs(b"a -> b, b"), ["3:25: the place 'b' is on this side twice, first in column 22; one weight in front of it says how many"]),
    (arcs(b"a, b -> b") + b"transition u 1: b -> a, b", [
        "3:20: warning: 't' can never start: it takes 1 from 'b', which has 0 at the beginning, and no other transition that can start adds "
        "to it",
        "4:17: warning: 'u' can never start: it takes 1 from 'b', which has 0 at the beginning, and no other transition that can start adds "
        "to it",
    ]),
    (arcs(b"a -> c"), ["3:22: no place is called 'c'"]),
    (arcs(b"3 x, a -> 2 y, b"), ["3:19: no place is called 'x'", "3:29: no place is called 'y'"]),
    (arcs(b"t -> b"), ["3:17: no place is called 't'; the transition of line 3 is"]),
    (arcs(b"2a -> b"), ["3:17: no place is called '2a'; did you mean '2 a'?"]),
    (arcs(b"2*a -> b"), ["3:17: no place is called '2*a'; did you mean '2 a'?"]),
    ("place ü_ü 1\nplace b\ntransition t 1: ü_ü, x -> b".encode(), ["3:22: no place is called 'x'"]),
    ("place a 1\nplace b\ntransition t 1: a\u00a0x -> b".encode(), ["3:17: no place is called 'a\\u00a0x'"]),
    (b"place own_file 1\nplace loaded\n\ntransition load 1..3: own_file -> loadd", [
        "4:35: no place is called 'loadd'; did you mean 'loaded'?",
    ]),
    (b"place a- 1\nplace ->\nplace >b\ntransition t 1: a- ->>b", ["2:7: a name is expected here, and not '->'"]),
]

SEVERAL = [
    (b"plcae a 70000\nplace 5\nplace b\nplace b 1 2\ntransition t 3..1: a, a, 256 b -> loadd, 2b\n"
     b"transition 1..3: -> b\ntransition x 1 3: a b ->\ntransition y 1-3 a, 2\n", [
        "1:1: " + begins("plcae") + "; did you mean 'place'?",
        "1:9: a place has 0 to 65535 tokens, and not '70000'",
        "2:7: '5' is a number, and cannot be a name",
        "4:7: a place is called 'b' in line 3 already",
        "4:11: the line's end is expected here, and not '2'",
        "5:17: the longest duration, 1, is below the shortest, 3",
        "5:23: the place 'a' is on this side twice, first in column 20; one weight in front of it says how many",
        "5:26: a weight is 1 to 255, and not '256'",
        "5:35: no place is called 'loadd'",
        "5:42: no place is called '2b'; did you mean '2 b'?",
        "6:12: a name is expected here, and not '1..3'",
        "6:18: the transition takes no token from any place; one is expected in front of '->'",
        "7:16: ':' is expected here, and not '3'; did you mean '1..3'?",
        "7:21: ',' or '->' is expected here, and not 'b'",
        "7:25: the transition gives no token to any place; one is expected behind '->'",
        "8:14: '1-3' is no duration; one is written like 2 or 1..3; did you mean '1..3'?",
        "8:18: ':' is expected here, and not 'a'",
        "8:22: a place is expected behind '2'",
        "8:22: '->' is expected behind '2'",
    ]),
]

MISTAKES = BYTES + FIRST_WORDS + PLACES + NAMES_OF_TRANSITIONS + DURATIONS + ARCS + SEVERAL

"""Every mistake and every warning in words. docs/NETS.md lists them all, and tests/nets holds its list to these tables."""

from typing import NamedTuple

LONGEST_SHOWN = 60

# {word} is what stands in the text, between quotes
MISTAKES = {
    "zero": "a zero byte, so this is no text; where it is a net, bin/net show writes it as text",
    "utf8": "byte {code} is not UTF-8",
    "return": "a carriage return within the line; a line ends with LF or with CR LF",
    "control": "the control character {code}; only blanks and tabs may stand between words",
    "no_place": "the net has no place",
    "no_transition": "the net has no transition",
    "first_word": "a line begins with 'place' or 'transition', and not with {word}",
    "expected": "{what} is expected here, and not {word}",
    "lacks": "{what} is expected behind {word}",
    "name_number": "{word} is a number, and cannot be a name",
    "name_duration": "{word} is a duration, and cannot be a name",
    "name_long": "a name has at most 40 bytes, and {word} has {count}",
    "name_lost": "{word} has the character U+FFFD in it, which stands for a letter that was lost",
    "name_twice": "a {kind} is called {word} in line {line} already",
    "too_many": "a net has at most {most} {kind}s, and this is one more",
    "tokens": "a place has 0 to 65535 tokens, and not {word}",
    "ticks": "a duration has 0 to 63 ticks, and not {word}",
    "weight": "a weight is 1 to 255, and not {word}",
    "duration": "{word} is no duration; one is written like 2 or 1..3",
    "order": "the longest duration, {lfd}, is below the shortest, {sfd}",
    "takes_nothing": "the transition takes no token from any place; one is expected in front of '->'",
    "gives_nothing": "the transition gives no token to any place; one is expected behind '->'",
    "place_twice": "the place {word} is on this side twice, first in column {column}; one weight in front of it says how many",
    "unknown": "no place is called {word}",
}
HINT = "; did you mean {word}?"
IS_TRANSITION = "; the transition of line {line} is"

WARNINGS = {
    "unused": "no transition takes from the place {place} or gives to it",
    "nothing_gives": "{name} can never start: it takes {needs} from {place}, which has {tokens} at the beginning, and nothing gives to it",
    "nothing_adds": "{name} can never start: it takes {needs} from {place}, which has {tokens} at the beginning, and no other transition "
    "that can start adds to it",
    "together": "{name} can never start: {places} have {tokens} together at the beginning, no other transition that can start adds to them, "
    "and it takes {needs}",
    "counted": "{name} can never start: counting {places} for each token, there are {tokens} at the beginning, no other transition that can "
    "start adds to them, and it takes {needs}",
    "no_time": "the round {round} takes no time and uses nothing up: while it has its tokens no tick can pass",
    "may_take_no_time": "the round {round} can take no time and uses nothing up: while it has its tokens a step may go on for ever; it need "
    "not, since {name} lasts 0..{lfd}",
}

# of a file of names; {thing} and {other} are like 'place 5'
NAMES = {
    "bad_line": "a line is place or transition, a number from 0 to 63 and a name of 1 to 40 bytes, one blank between them and none behind",
    "not_carried": "{thing} is called {name} here: the text cannot carry its name {word}",
    "shared": "{thing} is called {name} here: {other} has the name {word} already",
}


class Message(NamedTuple):
    """What is said of a place in a file; lines and columns are counted from 1."""

    line: int
    column: int
    key: str
    words: str

    def shown(self, file):
        kind = "warning: " if self.key in WARNINGS else ""
        return "%s:%d:%d: %s%s" % (file, self.line, self.column, kind, self.words)


def mistake(line, column, key, behind="", /, **parts):
    return Message(line, column, key, MISTAKES[key].format(**parts) + behind)


def warning(line, column, key, /, **parts):
    return Message(line, column, key, WARNINGS[key].format(**parts))


def visible(character):
    """A character as it is shown: a byte that is not UTF-8, and what no one would see, by its code."""
    if character.isprintable():
        return character
    code = ord(character)
    return "\\x%02x" % (code & 0xFF) if code < 0x80 or 0xDC80 <= code <= 0xDCFF else "\\u%04x" % code


def quoted(word):
    shown = word if len(word) <= LONGEST_SHOWN else word[: LONGEST_SHOWN - 2] + ".."
    return "'" + "".join(visible(character) for character in shown) + "'"


def listed(parts):
    """'a', 'a and b', 'a, b and c'."""
    return " and ".join(filter(None, [", ".join(parts[:-1]), parts[-1]]))

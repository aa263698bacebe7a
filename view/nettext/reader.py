"""Reads the text form of a net: the net, or every mistake in the text with its line and column."""

import difflib
import re

from nettext.lines import cut
from nettext.messages import IS_TRANSITION, mistake, quoted
from nettext.rows import hint, place, transition
from nettext.textnet import MOST, TextNet

ROWS = {"place": place, "transition": transition}
JOINED_WEIGHT = re.compile(r"([0-9]+)\*?(.+)")


def nearest(word, words):
    """The one of the words that comes nearest to this one, or None."""
    return next(iter(difflib.get_close_matches(word, words, 1)), None)


class Reader:
    """What the lines declare, in their order. Of things with the same name the first is kept."""

    def __init__(self):
        self.kept = {kind: [] for kind in ROWS}
        self.lines = {kind: {} for kind in ROWS}  # of each name, the line in which it stands first
        self.transitions = []  # also those that are not kept
        self.other_words = False

    def read(self, line):
        """One line. What begins with nearly a known word is read as that, so that the word alone is told."""
        if not line.words:
            return
        word = line.take()
        kind = word.text
        if kind not in ROWS:
            kind = nearest(word.text.lower(), ROWS)
            line.tell(word.column, "first_word", hint(kind) if kind else "", word=quoted(word.text))
            self.other_words = True
        if kind:
            self.keep(line, kind, ROWS[kind](line))

    def keep(self, line, kind, thing):
        if kind == "transition":
            self.transitions.append(thing)
        if thing.name in self.lines[kind]:
            line.tell(thing.column, "name_twice", kind=kind, word=quoted(thing.name), line=self.lines[kind][thing.name])
            return
        self.kept[kind].append(thing)
        if thing.name is not None:
            self.lines[kind][thing.name] = line.number
        if len(self.kept[kind]) == MOST[kind] + 1:
            line.tell(thing.column, "too_many", kind=kind, most=MOST[kind])

    def unknown_places(self):
        """A mistake for each arc whose place no line declares."""
        for row in self.transitions:
            for arc in row.takes + row.gives:
                if arc.place not in self.lines["place"]:
                    yield mistake(row.line, arc.column, "unknown", self.meant(arc.place), word=quoted(arc.place))

    def meant(self, name):
        """What may be meant by a name that no place has."""
        joined = JOINED_WEIGHT.fullmatch(name)
        if joined and joined[2] in self.lines["place"]:
            return hint(joined[1] + " " + joined[2])
        if name in self.lines["transition"]:
            return IS_TRANSITION.format(line=self.lines["transition"][name])
        near = nearest(name, self.lines["place"])
        return hint(near) if near else ""

    def lacking(self, last):
        """A mistake for each kind of which there is none, at the end of the text; no word where a line may be meant for one."""
        for kind in ROWS:
            if not self.kept[kind] and not self.other_words:
                yield mistake(last.number, len(last.text) + 1, "no_" + kind)


def zero_byte(lines):
    """The mistake for a file that is no text, told at its first zero byte; None where there is none."""
    line = next((line for line in lines if "\0" in line.text), None)
    return line and mistake(line.number, line.text.index("\0") + 1, "zero")


def read(data):
    """The net that a text is, or None, and the mistakes in the order of their lines and columns."""
    lines, reader = cut(data), Reader()
    zero = zero_byte(lines)
    if zero:
        return None, [zero]
    for line in lines:
        reader.read(line)
    mistakes = [found for line in lines for found in line.mistakes]
    mistakes += [*reader.unknown_places(), *reader.lacking(lines[-1])]
    if mistakes:
        return None, sorted(mistakes, key=lambda found: (found.line, found.column))
    return TextNet(reader.kept["place"], reader.kept["transition"]), []

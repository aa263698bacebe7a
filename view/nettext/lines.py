"""A text cut into lines, and a line into words. Columns count characters, from 1; a tab is one character."""

import re
from typing import NamedTuple

from nettext.messages import mistake, quoted

BYTE_ORDER_MARK = b"\xef\xbb\xbf"
ARROW, COMMA, COLON, COMMENT = "->", ",", ":", "#"
SIGNS = ARROW, COMMA, COLON
LOST = "\ufffd"
MOST_NAME_BYTES = 40

WORD = re.compile(r"->|[,:]|(?:(?!->)[^ \t,:])+")
NUMBER = re.compile(r"[0-9]+")
DURATION = re.compile(r"([0-9]+)\.\.([0-9]+)")
CONTROL = re.compile(r"[\x00-\x08\x0a-\x1f\x7f]")
NOT_UTF8 = re.compile(r"[\udc80-\udcff]")  # what the decoder makes of such a byte


class Word(NamedTuple):
    text: str
    column: int

    @property
    def is_sign(self):
        return self.text in SIGNS

    @property
    def is_number(self):
        return bool(NUMBER.fullmatch(self.text))

    @property
    def end(self):
        return self.column + len(self.text)


class Line:
    """The words of one line, which are taken from the left, and the mistakes that are found in it."""

    def __init__(self, number, data):
        self.number, self.at, self.mistakes = number, 0, []
        self.text = data.decode("utf-8", "surrogateescape")
        self.look_at_bytes()
        read = CONTROL.sub(" ", self.text.partition(COMMENT)[0])
        self.words = [Word(found[0], found.start() + 1) for found in WORD.finditer(read)]

    def look_at_bytes(self):
        """Of each line the first byte that is not UTF-8 and the first control character are told, in comments too."""
        bad = NOT_UTF8.search(self.text)
        if bad:
            self.tell(bad.start() + 1, "utf8", code="0x%02X" % (ord(bad[0]) & 0xFF))
        bad = CONTROL.search(self.text)
        if bad:
            self.tell(bad.start() + 1, "return" if bad[0] == "\r" else "control", code="U+%04X" % ord(bad[0]))

    def tell(self, column, key, behind="", /, **parts):
        self.mistakes.append(mistake(self.number, column, key, behind, **parts))

    def expected(self, what, behind=""):
        """Tells what should stand in place of the next word, or behind the last one."""
        word = self.peek()
        key, shown = ("expected", word) if word else ("lacks", self.words[-1])
        self.tell(self.where(), key, behind, what=what, word=quoted(shown.text))

    def peek(self, further=0):
        """A word that is not yet taken, or None where the line has no such word."""
        at = self.at + further
        return self.words[at] if at < len(self.words) else None

    def take(self):
        self.at += 1
        return self.words[self.at - 1]

    def rest(self):
        """The words that are not yet taken, as they stand in the text."""
        return [word.text for word in self.words[self.at :]]

    def where(self):
        """The column of the next word, or the one behind the last."""
        word = self.peek()
        return word.column if word else self.words[-1].end

    def comes(self, *texts):
        """Whether the next word is one of these."""
        word = self.peek()
        return word is not None and word.text in texts

    def skip_to(self, *texts):
        """Passes over the words up to one of these, or to the line's end."""
        while self.peek() and not self.comes(*texts):
            self.take()


def cut(data):
    """The lines of a text. Files from Windows are read too: a mark in front of the first line, CR LF at the end of each."""
    if data.startswith(BYTE_ORDER_MARK):
        data = data[len(BYTE_ORDER_MARK) :]
    rows = data.split(b"\n")
    return [Line(number, row[:-1] if row.endswith(b"\r") else row) for number, row in enumerate(rows, 1)]


def name_fault(name):
    """Why the text cannot carry a name that is one word of it, as the key of a mistake and its parts; None where it can."""
    count = len(name.encode("utf-8", "surrogateescape"))
    if NUMBER.fullmatch(name):
        return "name_number", {}
    if DURATION.fullmatch(name):
        return "name_duration", {}
    if count > MOST_NAME_BYTES:
        return "name_long", {"count": count}
    return ("name_lost", {}) if LOST in name else None


def can_carry(name):
    """Whether the text can carry a name of the file of names."""
    found = WORD.fullmatch(name)
    return bool(found) and name not in SIGNS and COMMENT not in name and not CONTROL.search(name) and not name_fault(name)

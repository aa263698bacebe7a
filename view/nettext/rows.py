"""Reads one line of the text: a place, or a transition with its arcs. A mistake does not end the reading of the line."""

import re

from nettext.lines import ARROW, COLON, COMMA, DURATION, name_fault
from nettext.messages import HINT, quoted
from nettext.textnet import Arc, Place, Transition

LIMITS = {"tokens": (0, 65_535), "ticks": (0, 63), "weight": (1, 255)}
MOST_DIGITS = 5
MEANT_DURATION = re.compile(r"([0-9]+)[ .-]+([0-9]+)")
MEANT_WEIGHT = re.compile(r"[-+]?[0-9]*\.?[0-9]+")


def hint(word):
    return HINT.format(word=quoted(word))


def number(line, word, key):
    """The number that a word is, or None and a mistake."""
    least, most = LIMITS[key]
    digits = word.text.lstrip("0") or "0"
    if word.is_number and len(digits) <= MOST_DIGITS and least <= int(digits) <= most:
        return int(digits)
    line.tell(word.column, key, word=quoted(word.text))
    return None


def a_name(line):
    """The next word, as a name, or None. A name with a mistake is taken too: arcs that name it are not to be told as well."""
    word = line.peek()
    if word is None or word.is_sign:
        line.expected("a name")
        return None
    line.take()
    fault = name_fault(word.text)
    if fault:
        key, parts = fault
        line.tell(word.column, key, word=quoted(word.text), **parts)
    return word


def named(line, name):
    """The name, and where it stands; the line's first word stands for a name that lacks."""
    return (name.text, name.column) if name else (None, line.words[0].column)


# ---- a place


def place(line):
    text, column = named(line, a_name(line))
    tokens, what = 0, "a number of tokens, or the line's end,"
    word = line.peek()
    if word and not word.is_sign:
        tokens, what = number(line, line.take(), "tokens"), "the line's end"
    if line.peek() and text is not None:
        line.expected(what)
    return Place(text, tokens, line.number, column)


# ---- a transition


def transition(line):
    text, column = named(line, transition_name(line))
    ticks = duration(line)
    takes, gives = both_sides(line) if colon(line, ticks) else ([], [])
    sfd, lfd = ticks or (None, None)
    return Transition(text, sfd, lfd, takes, gives, line.number, column)


def transition_name(line):
    """A duration just in front of ':' is no name: the name lacks."""
    word, behind = line.peek(), line.peek(1)
    if word and behind and behind.text == COLON and (word.is_number or DURATION.fullmatch(word.text)):
        line.expected("a name")
        return None
    return a_name(line)


def duration(line):
    """sfd and lfd, each None where it is no such number; None alone where no word stands for them."""
    word, behind = line.peek(), line.peek(1)
    if not (word and not word.is_sign and (word.text[0] in "0123456789" or behind and behind.text == COLON)):
        line.expected("a duration, like 2 or 1..3," if COLON in line.rest() else "a duration and ':', like 1..3:,")
        return None
    line.take()
    found = DURATION.fullmatch(word.text)
    if found:
        parts = [word._replace(text=found[n], column=word.column + found.start(n)) for n in (1, 2)]
    elif word.is_number:
        parts = [word]
    else:
        line.tell(word.column, "duration", meant_duration(word.text), word=quoted(word.text))
        return None, None
    values = [number(line, part, "ticks") for part in parts]
    sfd, lfd = values[0], values[-1]
    if None not in values and lfd < sfd:
        line.tell(parts[-1].column, "order", sfd=sfd, lfd=lfd)
    return sfd, lfd


def meant_duration(text):
    found = MEANT_DURATION.fullmatch(text)
    return hint(found[1] + ".." + found[2]) if found else ""


def colon(line, ticks):
    """Passes over ':'; whether words are left behind it or in its place. Where the duration lacks, ':' has been told with it."""
    if not line.comes(COLON) and ticks:
        words = [line.words[line.at - 1].text, *line.rest()]
        end = words.index(COLON) if COLON in words else 2
        line.expected("':'", meant_duration(" ".join(words[:end])) if line.peek() else "")
    if COLON in line.rest():
        line.skip_to(COLON)
        line.take()
        return True
    return line.peek() is not None


def both_sides(line):
    """The arcs in front of '->' and behind it."""
    takes = side(line, "takes_nothing", "',' or '->'", ARROW)
    gives = None
    if line.comes(ARROW):
        line.take()
        gives = side(line, "gives_nothing", "',' or the line's end", None)
    elif takes is not None:
        line.expected("'->'")
    return takes or [], gives or []


def side(line, nothing, what, stop):
    """The arcs up to the stop, or to the line's end; None and a mistake where not one word stands there."""
    if line.comes(stop) or not line.peek():
        line.tell(line.where(), nothing)
        return None
    arcs = []
    while True:
        arc = an_arc(line)
        if arc:
            keep(line, arcs, arc)
        if line.peek() and not line.comes(COMMA, stop):
            word = line.peek()
            line.expected(what, hint(word.text + " " + arc.place) if arc and word.is_number else "")
            line.skip_to(COMMA, stop)
        if not line.comes(COMMA):
            return arcs
        line.take()


def an_arc(line):
    """A place with the weight in front of it, or None and a mistake."""
    word, behind = line.peek(), line.peek(1)
    weight = 1
    if word and (word.is_number or behind and not behind.is_sign and MEANT_WEIGHT.fullmatch(word.text)):
        weight = number(line, line.take(), "weight")
        word = line.peek()
    if word is None or word.is_sign or word.is_number:
        line.expected("a place")
        if word and word.is_number:
            line.take()
        return None
    line.take()
    return Arc(word.text, weight, word.column)


def keep(line, arcs, arc):
    """Puts an arc to the others of its side, where its place is not among them."""
    first = next((other for other in arcs if other.place == arc.place), None)
    if first:
        line.tell(arc.column, "place_twice", word=quoted(arc.place), column=first.column)
    else:
        arcs.append(arc)

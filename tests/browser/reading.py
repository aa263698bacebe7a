"""The page's own words taken apart: sentences to facts. A sentence that is not understood is a finding, not a guess."""

import os
import re

HERE = os.path.dirname(os.path.abspath(__file__))

MOMENT = re.compile(r"Tick (?P<tick>[\d,]+), after (?:no event|(?P<done>[\d,]+) of (?P<all>[\d,]+) events?)(?: — (?P<tail>.*))?")
TOKENS = re.compile(r"([\d,]+)(?: \(was ([\d,]+)\))?")
TICKS = r"([\d,]+) ticks?"
EVENTS = (
    ("tick", re.compile(r"time passes: one tick")),
    ("start", re.compile(r"“(.*)” starts")),
    ("end", re.compile(r"“(.*)” ends (?:at once|after %s)" % TICKS)),
    ("nothing", re.compile(r"bytes .*no event")),
)
MARKED = re.compile(r"(?P<words>.*?)(?: (?P<refused>✕ refused)| (?P<after>\(not checked\)))?")
LEFT_OUT = re.compile(r"([\d,]+) (earlier|later) events? of this tick")
HAD_TO_START = re.compile(r"“(.*)” had to start\b.*")
HAD_TO_END = re.compile(r"“(.*)”(?: \(([\d,]+) of them\))? had to end\b.*: it (?:takes no time|had run for %s, its longest time)" % TICKS)
RUNS = re.compile(r"(?:([\d,]+) × )?“(.*)” for %s \(takes .*\)" % TICKS)
MORE = re.compile(r"and ([\d,]+) more")


class NotUnderstood(Exception):
    """A sentence of the page that has none of the forms it ought to have."""


def script():
    with open(os.path.join(HERE, "reading.js"), encoding="utf-8") as file:
        return file.read()


def number(text):
    return int(text.replace(",", ""))


def matched(form, text):
    found = form.fullmatch(text)
    if not found:
        raise NotUnderstood("not understood: " + text)
    return found


def moment(text):
    """(tick, events done, all events or None, what is said behind it or None)"""
    found = matched(MOMENT, text)
    done = number(found["done"]) if found["done"] else 0
    return number(found["tick"]), done, number(found["all"]) if found["all"] else None, found["tail"]


def event(text):
    """(kind, name or None, age or None) of an event in words."""
    for kind, form in EVENTS:
        found = form.fullmatch(text)
        if found:
            age = None if kind != "end" else number(found[2]) if found[2] else 0
            return kind, found[1] if kind in ("start", "end") else None, age
    raise NotUnderstood("not an event: " + text)


def step_line(parts):
    """(event number, event, 'refused', 'after' or '') of a line in the list of a step's events."""
    *words, last = parts
    found = matched(MARKED, " ".join(words))
    sort = "refused" if found["refused"] else "after" if found["after"] else ""
    return number(last.removeprefix("event ")), event(found["words"]), sort


def left_out(parts):
    """(how many, 'earlier' or 'later') of a remark on events that are not listed."""
    found = matched(LEFT_OUT, " ".join(parts))
    return number(found[1]), found[2]


def tokens(text):
    """(tokens, those before or None)"""
    found = matched(TOKENS, text)
    return number(found[1]), number(found[2]) if found[2] else None


def owed(lines):
    """Names of what had to start; (name, ticks, how many) of what had to end; {(name, ticks): count} of what runs; and how many kinds
    more run than are shown."""
    starts, ends, runs, more = [], [], {}, 0
    for line in lines:
        begin, finish, rest = HAD_TO_START.fullmatch(line), HAD_TO_END.fullmatch(line), MORE.fullmatch(line)
        if finish:
            ends.append((finish[1], number(finish[3] or "0"), number(finish[2] or "1")))
        elif begin:
            starts.append(begin[1])
        elif rest:
            more = number(rest[1])
        else:
            run = matched(RUNS, line)
            runs[run[2], number(run[3])] = number(run[1] or "1")
    return starts, ends, runs, more

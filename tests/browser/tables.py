"""The tables, which say what the pictures say: the events in words, the net, the firings in sight."""

import re
import shutil
from collections import Counter

import reading
from firings import END, START
from moments import event_in_words
from reading import NotUnderstood

MOST_ROWS = 300  # of the table of firings
MOST_EVENTS = 1_000
LEAST_STEPS, LEAST_EVENTS = 3, 20  # of these at least are told in words
NOT_A_FIRING = re.compile(r"had to (start|end), at the moment looked at|✕ refused at tick .*|not checked")


def check_events(findings, rows, truth):
    """The last steps before the end or the fault, and the fault, without a gap; but no more than can be printed."""
    columns, numbers = truth.columns, [reading.number(row[0]) for row in rows]
    findings.check(len(rows) <= MOST_EVENTS, "the events in words, which are printed, have %d rows" % len(rows))
    first = numbers[0] if numbers else 0
    findings.same("the events in words", numbers, [*range(first, first + len(rows))])
    latest = max(columns.begins[max(0, truth.ticks - LEAST_STEPS)], truth.done - LEAST_EVENTS)
    findings.check(first <= latest, "the events in words begin with event %d, behind event %d" % (first, latest))
    wanted = min(truth.done + 1, len(truth.pairs))
    findings.check(first + len(rows) >= wanted, "the events in words end behind event %d" % (first + len(rows) - 1))
    for number, tick, words, checked in rows:
        number = reading.number(number)
        mark = "kept" if number < truth.done else "✕ refused (%d)" % truth.number if number == truth.done else "not checked"
        right = columns.column[number], mark
        findings.same("the tick and the mark of event %d in words" % number, (reading.number(tick), checked), right)
        try:
            kind, name, age = event_in_words(truth, number)
            said = reading.event(words)
            known = name is not None or kind not in (START, END)  # a net does not name what it does not have
            findings.same("event %d in words" % number, said, (kind, name if known else said[1], age))
        except NotUnderstood as error:
            findings.check(False, str(error))


def check_net(findings, rows, truth):
    """A row for each activity: what it takes, its times, what it gives."""
    def side(weights):
        named = [(truth.names.place(place), weight) for place, weight in enumerate(weights) if weight]
        *others, last = ["%d × “%s”" % (weight, name) if weight > 1 else "“%s”" % name for name, weight in named]
        return ", ".join(others) + " and " + last if others else last

    findings.same("the rows of the net's table", len(rows), len(truth.net.transitions))
    for number, (row, (name, said, takes, ticks, gives)) in enumerate(zip(truth.net.transitions, rows)):
        right = truth.names.activity(number), str(number), "%d..%d" % (row.sfd, row.lfd)
        findings.same("activity %d in the net's table" % number, (name, said, ticks), right)
        for cell, weights in ((takes, row.inputs), (gives, row.outputs)):
            findings.same("the arcs of activity %d" % number, cell, side(weights))


def check_titles(findings, titles, truth):
    """The names in the net's picture, which Graphviz lays out."""
    rows = enumerate(truth.net.transitions)
    right = [["n-p%d" % p, "%s (place %d)" % (truth.names.place(p), p)] for p in range(len(truth.net.marking))]
    right += [["n-t%d" % t, "%s (transition %d), %d to %d ticks" % (truth.names.activity(t), t, row.sfd, row.lfd)] for t, row in rows]
    findings.same("the names in the net's picture", sorted(titles), sorted(right) if shutil.which("dot") else [])


def check_firings(findings, where, rows, truth, frame):
    """The firings of the timeline: each row is one, and each one in sight has its row."""
    near = [firing for firing, begin, end in truth.spans if begin < frame.behind and end > frame.first - 64]
    said = Counter(tuple(row[:-1]) for row in rows if not NOT_A_FIRING.fullmatch(row[-1]))
    findings.same(where + ", rows of the table that are none of the log's", [*said - Counter(row_of(firing, truth) for firing in near)], [])
    if len(rows) < MOST_ROWS:
        until = {firing: truth.ticks if firing.end is None else firing.until for firing in near}
        seen = [firing for firing in near if firing.since < frame.behind and until[firing] >= frame.first]
        findings.same(where + ", firings in sight that the table lacks", [*Counter(row_of(firing, truth) for firing in seen) - said], [])


def row_of(firing, truth):
    """A firing as the table has it."""
    row = truth.net.transitions[firing.transition]
    began = "%d (%s)" % (firing.since, "before the log" if firing.start is None else "event %d" % firing.start)
    ended = "still running" if firing.end is None else "%d (event %d)" % (firing.until, firing.end)
    took = "" if firing.end is None else str(firing.until - firing.since)
    return "“%s”" % truth.names.activity(firing.transition), began, ended, took, "%d..%d" % (row.sfd, row.lfd)

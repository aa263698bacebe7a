"""The tables of the page that need no script: the last steps in words, the tokens at the end, the net."""

from forms import TICK, kind
from markup import details, esc, row_of, table
from words import events, listed

STEPS_BEFORE, EVENTS_BEHIND = 8, 12
CHECKED = {"kept": "kept", "fault": "\u2715 refused (%d)", "after": "not checked"}


def steps(record, words):
    """The last steps up to the end or the fault, event by event, and a little of what follows."""
    first, tick, rows, sorts = max(0, record.verdict.ticks - STEPS_BEFORE), 0, [], []
    stop = min(len(record.events), record.verdict.done + 1 + EVENTS_BEHIND) if record.verdict.number else len(record.events)
    for number, event in enumerate(record.events[:stop]):
        if tick >= first:
            sort = "kept" if number < record.verdict.done else "fault" if number == record.verdict.done else "after"
            told = CHECKED[sort] % record.verdict.number if sort == "fault" else CHECKED[sort]
            rows.append((str(number), str(tick), esc(words.event(event)), told))
            sorts.append(sort)
        tick += kind(event) == TICK
    more = len(record.events) - stop
    note = "<p>%s after these are in the log and were not checked.</p>" % events(more) if more else ""
    body = table("", ("Event", "Tick", "What the box wrote", "Checked"), rows, sorts) + note
    return details("words", "The events in words, from tick %d (table)" % first, body, opened=True)


def marking(record, names):
    """Rows of a table: the tokens where the run ended."""
    rows = [(esc(names.place(place)), str(count)) for place, count in enumerate(record.end.marking) if count]
    return "".join(row_of(cells) for cells in rows or [("no tokens anywhere", "")])


def net(record, words):
    """What each activity takes and gives, and how long it takes."""
    of = record.net
    rows = [(esc(words.names.activity(t)), str(t), arcs(of.takes[t], words), "%d..%d" % (of.sfd[t], of.lfd[t]), arcs(of.gives[t], words))
            for t in range(of.transitions)]
    return details("net-table", "The net as a table", table("", ("Activity", "No.", "Takes", "Ticks", "Gives"), rows))


def arcs(side, words):
    return esc(listed(("%d \u00d7 " % weight if weight > 1 else "") + words.place(place) for place, weight in side))

"""What the box's last state says: whether it is the state that the log leads to, and what the box believed behind a broken rule."""

from typing import NamedTuple

from engine import Broken, buffer
from forms import TICK, kind
from markup import esc, section, table
from words import all_events, ticks

# Why no lawful state leads on, by the number of a walk (docs/ASK.md). 'There' is the state just behind the event.
BACK = {
    11: "these bytes are no event",
    12: "the net has no such activity",
    15: "the activity takes another time",
    18: "something could start there, so no tick may have passed",
    20: "nothing runs there, and a tick leaves something running",
    21: "something has just started there, and a tick leaves nothing that has",
    24: "the activity has not just started there",
    25: "a place would have held more than 65,535 tokens before it",
    26: "a place holds fewer tokens there than this end gives",
    27: "as many of it as can be counted have run for that long there",
    28: "something had started before it at its tick, and what was running ends first",
    29: "something had to end there before anything started",
}


class Last(NamedTuple):
    """The box's last state, and the log walked back from it: to its front, or to the refused event."""

    refused: int  # 8 or 9 where it is no state of this net, else 0
    state: bytes = b""
    far: int = 0  # the events to be taken back
    number: int = 0
    index: int = 0
    back: bytes = b""  # the state that the walk comes to
    through: bool = False  # whether the refused event was taken back as well


def walk(record, state):
    """Asks the engine to take the log back from the box's last state: of a refused log to just behind the refused event, and over it if it can be."""
    refused = int(record.engine.ask("check_state", record.net.bytes, state)[0])
    if refused:
        return Last(refused)
    if not record.verdict.number:
        return taken_back(record, state, len(record.events))
    behind = taken_back(record, state, len(record.events) - record.verdict.index - 1)
    before = behind if behind.number else taken_back(record, state, behind.far + 1)
    return behind if before.number else before._replace(far=behind.far, through=True)


def taken_back(record, state, far):
    told, size = record.engine.ask("walk", record.net.bytes, state, record.log, far, record.started), record.net.state_bytes
    return Last(0, state[:size], far, int(told[0]), int(told[1]), buffer(told[4])[:size])


def section_of(last, record, words):
    """The section of the page, in HTML."""
    if last.refused:
        return section("last", "The box\u2019s last state", "<p>The file is no state of this net (number %d).</p>" % last.refused)
    here = record.verdict.state[: record.net.state_bytes]
    if record.verdict.number:
        said, shown = behind_the_fault(last, here, record, words)
    else:
        said, shown = behind_the_log(last, here, record, words)
    return section("last", "What the box believed", "".join("<p>%s</p>" % esc(sentence) for sentence in said) + shown)


def behind_the_fault(last, here, record, words):
    """A refused log: sentences, and a table of what differs at the fault."""
    fits = "fits %s that the box wrote after the refused one" % all_events(last.far) if last.far else "fits the log, whose last event is the refused one"
    if last.state == here:
        more = "It also %s." % fits if last.far and not last.number else "So the box may not have done this event, or saved its state before."
        return ["The box\u2019s last state is the very state that the log had left just before the refused event.", more], ""
    if last.number:
        return [stopped(last, record, words)], ""
    after = record.verdict.ticks + (kind(record.refused) == TICK and not last.through)
    rows = differences(record, words, (here, record.verdict.ticks), (last.back, after))
    if not rows:
        return ["The box\u2019s last state %s, and takes up just where the log had left it." % fits], ""
    if last.through:
        return ["The box\u2019s last state %s, and the refused one too, but only if the box stood as on the right just before that one." % fits], \
            compared(rows, "The log had left", "The box believed")
    return ["The box\u2019s last state %s, but only if the box stood as on the right when it had done that one." % fits], \
        compared(rows, "The log had left, before it", "The box believed, behind it")


def behind_the_log(last, here, record, words):
    """An accepted log: whether it leads to the last state; if not, what differs there, and where a walk back comes to."""
    if last.state == here:
        return ["The box\u2019s last state is the very state that the log leads to."], ""
    moment = record.verdict.ticks
    shown = compared(differences(record, words, (here, moment), (last.state, moment)), "The log leads to", "The box had")
    said = "Every event of the log keeps the rules, but the box\u2019s last state is not the one that it leads to."
    if last.number:
        return [said, stopped(last, record, words)], shown
    return [said, "Taken back from the last state, the whole log begins in another state than the one it was checked from: "
                  "the log may lack events at its beginning."], shown


def stopped(last, record, words):
    """The walk stopped at an event. By 28 the start in front of it may be at fault as well."""
    if last.number not in BACK:
        raise Broken("%d is no number by which a walk stops" % last.number)
    tick = sum(kind(event) == TICK for event in record.events[: last.index])
    start = ", at the start in front of it" if last.number == 28 else ""
    return "Taken back from the box\u2019s last state, the log stops at event %d (%s, at tick %d): %s. " \
        "So a fault is at that event%s, or behind it, or in the last state itself." % (
            last.index, words.event(record.events[last.index]), tick, BACK[last.number], start)


def differences(record, words, left, right):
    """Rows of what differs between two states, each with its tick. Firings are told apart by the tick that they started at."""
    rows = []
    for place, (one, other) in enumerate(zip(record.net.marking(left[0]), record.net.marking(right[0]))):
        if one != other:
            rows.append(("tokens in " + words.place(place), one, other))
    one, other = began(record.net, *left), began(record.net, *right)
    for transition, tick in sorted(one.keys() | other.keys()):
        if one.get((transition, tick), 0) != other.get((transition, tick), 0):
            since = "running since tick %d" % tick if tick >= 0 else "running since %s before the log" % ticks(-tick)
            rows.append(("%s, %s" % (words.activity(transition), since), one.get((transition, tick), 0), other.get((transition, tick), 0)))
    return rows


def began(net, state, tick):
    """{(transition, tick of the start): count} of the firings that run."""
    return {(transition, tick - age): count for (transition, age), count in net.counts(state).items()}


def compared(rows, left, right):
    return table("Where the two differ", ("What", left, right), [(esc(what), str(one), str(other)) for what, one, other in rows])

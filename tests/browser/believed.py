"""What the page says of the box's last state, held to the engine: the log's own end, and a walk back asked for here."""

import re

import reading
import reference
from truth import read_state, running

TOKENS_IN = re.compile(r"tokens in “(.*)”")
SINCE = re.compile(r"“(.*)”, running since (?:tick ([\d,]+)|([\d,]+) ticks? before the log)")


def check(findings, said, rows, truth):
    """`said` is the section's text, or None where there is none; `rows` are those of its table."""
    if not findings.same("whether there is a section on the last state", said is not None, bool(truth.case.last)) or not truth.case.last:
        return
    last = read_state(truth.case.last)
    number = truth.engine.ask("check_state", truth.net_image, last)[0]
    if number:
        findings.check("number %d" % number in said and not rows, "a last state that is refused by %d: %s" % (number, said))
        return
    if reference.read_state(truth.net, last) == reference.read_state(truth.net, truth.state):  # more bytes may stand behind a state
        word = "just before the refused event" if truth.number else "the very state that the log leads to"
        findings.check(word in said and not rows, "a last state that fits is called: " + said)
    elif truth.number:
        check_behind_fault(findings, said, rows, truth, last)
    else:
        findings.check("is not the one" in said, "a last state that differs is called: " + said)
        findings.same("where the last state differs", told(rows), differences(truth, (truth.state, truth.ticks), (last, truth.ticks)))
        check_walk(findings, said, truth, last, len(truth.pairs))


def check_behind_fault(findings, said, rows, truth, last):
    """The log is taken back to just behind the refused event, and the two states there are compared."""
    told_back = check_walk(findings, said, truth, last, len(truth.pairs) - truth.index - 1)
    if told_back is None:
        findings.check(not rows, "a table of a state that no walk comes to")
        return
    behind = truth.ticks + (truth.pairs[truth.index] == (0, 0))
    findings.same("what the box believed", told(rows), differences(truth, (truth.state, truth.ticks), (told_back, behind)))


def check_walk(findings, said, truth, last, far):
    """The state that the walk comes to; or None where it stops, and then the page must name the event."""
    number, index, *_, state = truth.engine.ask("walk", truth.net_image, last, truth.log_image, far, int(truth.case.started))
    stops = re.search(r"stops at event (\d+)", said)
    findings.same("the event that the walk back stops at", stops and int(stops[1]), index if number else None)
    return None if number else state


def told(rows):
    """{what: (left, right)} of the table, what being a place's name or (an activity's name, tick of its start)."""
    found = {}
    for what, left, right in rows:
        place, firing = TOKENS_IN.fullmatch(what), SINCE.fullmatch(what)
        key = place[1] if place else (firing[1], reading.number(firing[2]) if firing[2] else -reading.number(firing[3])) if firing else what
        found[key] = reading.number(left), reading.number(right)
    return found


def differences(truth, left, right):
    """The same from two states, each with its tick."""
    one, other = (held(truth, *side) for side in (left, right))
    return {key: (one.get(key, 0), other.get(key, 0)) for key in one.keys() | other.keys() if one.get(key, 0) != other.get(key, 0)}


def held(truth, image, tick):
    state = reference.read_state(truth.net, image)
    found = {truth.names.place(place): count for place, count in enumerate(state.marking)}
    found.update({(truth.names.activity(t), tick - age): count for (t, age), count in running(state).items()})
    return found

"""What a visitor does on a page: chooses bars, follows links, uses keys, buttons and the mouse. Each function takes an examination."""

import causelines
import reading
from geometry import Frame
from whys import Whys

SAMPLE = 8  # bars that are chosen, and moments from which buttons are pressed
STRIP_SLACK = 4  # pixels; the frame on the strip is never narrower than its border


def check_choices(its):
    """Some bars are chosen, and the page tells why they ran when they did. What is chosen already would be let go."""
    free = its.visit.browser.value("Array.from(document.querySelectorAll('.firing:not([aria-pressed=true])'), bar => +bar.dataset.f)")
    for number in its.random.sample(free, min(SAMPLE, len(free))) if its.truth.origins else []:
        said = its.visit.choose(number)
        if said:  # where bars cover each other to the pixel, this one may not be drawn any more
            Whys(its.findings, its.truth).check_panel(said, number)
            causelines.check(its.findings, Frame(its.visit.picture()), its.visit.cause_lines(), its.truth, number)


def check_links(its):
    """A link to an activity chooses it, and a link to an event leads to the moment behind it."""
    name = its.visit.follow_link("why")
    if name:
        its.findings.same("the heading behind a link", its.visit.why()["head"], "Why %s ran when it did" % name)
    linked = its.visit.browser.value("(e => e && e.closest('li').lastChild.textContent)(document.querySelector('#step .link'))")
    if linked:
        its.visit.follow_link("step")
        right = reading.number(linked.removeprefix("event ")) + 1
        its.findings.same("the moment that a link to %s leads to" % linked, its.visit.done(), right)


def check_slider_keys(its):
    """Each key leads to its moment, from wherever the slider is."""
    words = its.visit.words()
    position, most = words["value"], words["most"]
    for key, step in [("Home", -most), ("ArrowRight", 1), ("ArrowRight", 1), ("ArrowLeft", -1), ("End", most), ("ArrowLeft", -1)]:
        its.visit.focus("cursor")
        its.visit.keys(key)
        position = min(max(position + step, 0), most)
        read = its.visit.both()
        if its.findings.same("the slider behind the key " + key, read[0]["value"], position) and not its.case.long:
            its.compare("by the key " + key, read, position, max(position - 1, 0))
    tick = 0
    for key, step in [("Home", 0), ("PageUp", 1), ("PageUp", 1), ("PageDown", -1)]:
        its.visit.focus("cursor")
        its.visit.keys(key)
        tick = min(max(tick + step, 0), its.truth.ticks)
        its.findings.same("the tick behind the key " + key, reading.moment(its.visit.words()["moment"])[0], tick)


def check_buttons(its):
    """One event on or back, one tick on or back, and the way to the fault."""
    truth, most = its.truth, its.visit.words()["most"]
    for position in its.random.sample(range(most + 1), min(3 if its.case.long else SAMPLE, most + 1)):
        done = its.done_at(position)
        tick, on, back = truth.moment(done).tick, its.done_at(min(position + 1, most)), its.done_at(max(position - 1, 0))
        for name, part, right in (("event-on", 1, on), ("event-back", 1, back),
                                  ("tick-on", 0, min(tick + 1, truth.ticks)), ("tick-back", 0, max(tick - 1, 0))):
            came_to = reading.moment(its.visit.press_from(position, name))[part]
            its.findings.same("the %s that %s leads to from %d" % (("tick", "event")[part], name, done), came_to, right)
    its.findings.same("whether there is a way to the fault", its.visit.can_press("tofault"), bool(truth.number))
    if truth.number:
        its.findings.same("the moment of 'Go to the fault'", reading.moment(its.visit.press_from(0, "tofault"))[1], truth.done)


def check_clicks(its):
    """A click on a column leads to its tick; behind the fault to the fault's."""
    frame = Frame(its.visit.picture())
    for column in its.random.sample(range(frame.first, frame.behind), min(3, frame.behind - frame.first)):
        its.visit.click_column(frame, column)
        tick = reading.moment(its.visit.words()["moment"])[0]
        its.findings.same("the tick that a click in column %d leads to" % column, tick, min(column, its.truth.ticks))
        frame = Frame(its.visit.picture())


def check_strip(its):
    """Where the picture is a part of the log, a strip over it shows which, and moves it by keys."""
    done, count, frame = its.visit.done(), its.truth.columns.count, Frame(its.visit.picture())
    has_strip = its.visit.browser.value("document.querySelectorAll('#overview svg').length") > 0
    if not its.findings.same("whether there is a strip", has_strip, frame.behind - frame.first < count) or not has_strip:
        return
    for key in ("Home", "End"):
        its.visit.focus("overview")
        its.visit.keys(key)
        frame, strip = Frame(its.visit.picture()), its.visit.strip()
        edge, right = (frame.first, 0) if key == "Home" else (frame.behind, count)
        its.findings.same("the edge of the picture behind the key %s on the strip" % key, edge, right)
        its.see("strip, " + key, done, moment_in_sight=False)
        left, wide = strip["svg"][0], strip["svg"][1] - strip["svg"][0]
        middle, right = sum(strip["frame"][:2]) / 2 - left, (frame.first + frame.behind) / 2 / count * wide
        its.findings.check(abs(middle - right) <= STRIP_SLACK, "the middle of the strip's frame is at %.1f, not %.1f" % (middle, right))
        if its.truth.number:
            at, right = strip["fault"][0] - left, (its.truth.ticks + 1) / count * wide
            its.findings.check(abs(at - right) <= STRIP_SLACK, "the strip's fault is at %.1f, not %.1f" % (at, right))

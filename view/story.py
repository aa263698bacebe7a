"""How it came to this: what was waited for, what had to happen, the fault, and what the box wrote next. The same choice opens the picture."""

from typing import NamedTuple, Optional

from forms import TICK, kind, transition_of
from headline import ends_before_starts, groups, longest, nearest_start
from markup import esc, section
from words import counted, ticks, tokens

MOST_SHOWN, SHOWN_OF_MANY, TOLD_BEHIND = 8, 6, 3


class Opening(NamedTuple):
    """What the page opens with: the activity chosen, what it waited for (the latest first), and what had to happen, in HTML."""

    chosen: Optional[dict] = None
    chain: tuple = ()
    said: str = ""


def opening(record, words):
    """By the number, and for an accepted log by what is owed at its end, where ends come before starts."""
    number, moment = record.verdict.number, record.end
    if record.causes is None or number in (11, 12, 14):
        return Opening()
    if number in (0, 18, 29) and ends_before_starts(record):
        return had_to_end(record, words, ends_before_starts(record)[0])
    if number == 18 or number == 0 and moment.starts:
        return had_to_start(record, words, moment.starts[0])
    if number == 19 or number == 0 and moment.ends:
        return had_to_end(record, words, moment.ends[0])
    if number == 13:
        return lacking(record, words)
    if number in (15, 16, 17, 28):
        return ended_wrongly(record, words)
    return last_ended(record)


def had_to_start(record, words, transition):
    """How often is told where no other owed start takes from a place in common with it: else another may take its tokens."""
    alone, times = [transition] in groups(record), record.degrees[transition]
    often = "" if not alone else " " + counted(times, "time") if times > 1 else ""
    said = "%s <b>had to start</b>%s%s: %s" % (esc(words.activity(transition)), often, "" if alone else ", or another to take its tokens",
                                            esc(words.held(transition, record.end.marking)))
    return Opening({"start": transition}, record.causes.chain(record.causes.wanted(transition)), said)


def had_to_end(record, words, transition):
    """The oldest firing of it that is at its longest time."""
    causes = record.causes
    firing = causes.running[transition, record.net.lfd[transition]][0]
    said = "%s <b>had to end</b>: it %s" % (esc(words.activity(transition)), longest(record, transition))
    return Opening({"firing": firing}, causes.chain_to(firing), said)


def lacking(record, words):
    """A missing token has no cause. What helps is who gives there and has not ended, or else who took there last."""
    causes, place = record.causes, record.verdict.place
    said = "%s <b>lacked %s</b>: " % (esc(words.place(place)), tokens(record.verdict.shortage))
    for firing in causes.now_running():
        if place in places(record.net.gives[causes.firings[firing].transition]):
            said += "%s gives there, but had not ended" % esc(words.activity(causes.firings[firing].transition))
            return Opening({"firing": firing}, causes.chain_to(firing), said)
    for firing in reversed(range(len(causes.firings))):
        taker = causes.firings[firing]
        if place in places(record.net.takes[taker.transition]):
            said += "%s took there last, %s" % (esc(words.activity(taker.transition)), "before the log" if taker.since < 0 else "at " + at_tick(taker.since))
            return Opening({"firing": firing}, [firing], said)
    return Opening(None, (), said + "nothing that runs gives there, and nothing has taken from there")


def places(arcs):
    return [place for place, _ in arcs]


def ended_wrongly(record, words):
    """The firing that the box may have meant: one that runs, of the nearest age, or else the last one of this activity."""
    causes, (transition, age) = record.causes, (transition_of(record.refused), record.refused[1])
    same = [number for number, firing in enumerate(causes.firings) if firing.transition == transition]
    running = [number for number in same if causes.firings[number].runs()]
    said = ""
    if record.verdict.number == 28 and nearest_start(record) is not None:
        starter = transition_of(record.events[nearest_start(record)])
        said = "%s <b>had started</b>: from then on only what started at this tick may end" % esc(words.activity(starter))
    if not same:
        return Opening(None, causes.chain(causes.wanted(transition)), said)
    meant = min(running, key=lambda number: abs(causes.tick - causes.firings[number].since - age)) if running else same[-1]
    return Opening({"firing": meant}, causes.chain_to(meant), said)


def last_ended(record):
    """Nothing special: the firing that ended last."""
    causes = record.causes
    ended = [number for number, firing in enumerate(causes.firings) if not firing.runs()]
    if not ended:
        return Opening()
    last = max(ended, key=lambda number: causes.firings[number].end)
    return Opening({"firing": last}, causes.chain_to(last))


def section_of(record, words, begun):
    """The section of the page, in HTML."""
    items = past(record, words, begun.chain)
    if begun.said:
        items.append(("owed", at_tick(record.verdict.ticks), begun.said))
    if record.verdict.number:
        items += fault(record, words) + behind(record, words)
    title = "How it came to this" if record.verdict.number or begun.said else "What led to the activity that ended last"
    if not items:
        return ""
    width = max(len(when) for _, when, _ in items) * 0.56 + 0.4
    rows = "".join('<li class="%s"><span class="when">%s</span><span>%s</span></li>' % item for item in items)
    return section("story", title, '<ol class="story" style="--when:%.1fem">%s</ol>' % (width, rows))


def past(record, words, chain):
    """The chain of what was waited for, the earliest first; of a long one the latest."""
    shown = chain if len(chain) <= MOST_SHOWN else chain[:SHOWN_OF_MANY]
    items = []
    if len(chain) > len(shown):
        items.append(("past", "", "%s came before that" % counted(len(chain) - len(shown), "activity", "activities")))
    for number in reversed(shown):
        firing = record.causes.firings[number]
        items.append(("past", span(firing), esc("%s, %s" % (words.activity(firing.transition), ran(record, words, firing)))))
    return items


def at_tick(tick):
    return "tick %d" % tick


def span(firing):
    """When a firing ran; before the log ticks have no number."""
    since = "before tick 0" if firing.since < 0 else at_tick(firing.since)
    if firing.runs():
        return since + "\u2013"
    return since if firing.since == firing.until else "%s\u2013%d" % (since, firing.until)


def ran(record, words, firing):
    if firing.runs():
        return "running, %s so far (%s)" % (ticks(record.verdict.ticks - firing.since), words.lasting(firing.transition))
    if record.net.lfd[firing.transition] == 0:
        return "at once"
    return "took %s (%s)" % (ticks(firing.until - firing.since), words.lasting(firing.transition))


def fault(record, words):
    """What a box cannot have written by its net, or what cannot be counted any more, is no rule of the net that is broken."""
    number, deed = record.verdict.number, words.deed(record.refused)
    what = "Refused" if number in (11, 12, 14, 17) else "Broken rule"
    instead = {13: "the box %s all the same", 18: "instead the box %s", 19: "instead the box %s", 29: "the box %s first"}.get(number, "the box %s")
    return [("fault", at_tick(record.verdict.ticks), "<b>%s:</b> %s" % (what, esc(instead % deed)))]


def behind(record, words):
    """The next starts and ends that the box wrote, which nobody checked."""
    items, tick = [], record.verdict.ticks + (kind(record.refused) == TICK)
    for event in record.events[record.verdict.index + 1 :]:
        if kind(event) == TICK:
            tick += 1
        elif len(items) < TOLD_BEHIND:
            items.append(("after", at_tick(tick), "then the box %s <i>(not checked)</i>" % esc(words.deed(event))))
    return items

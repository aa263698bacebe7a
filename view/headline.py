"""The headline of a page: what happened, in one sentence, and why, in another."""

from typing import NamedTuple

from engine import Broken
from forms import MOST_TOKENS, START, TICK, kind, transition_of
from words import after, counted, events, listed, ticks, tokens

BAD, GOOD, OPEN = "bad", "good", "open"

# The net, a state or the log is refused by its form.
FORMS = {
    1: "The net file is not a net: its version or its length does not fit",
    2: "The net file is not a net: it must have 1 to 64 places and 1 to 64 activities",
    3: "The net file has the wrong length for its places and activities",
    4: "The net is unlawful: the longest time of {activity} is below its shortest, or above 63 ticks",
    5: "The net is unlawful: {activity} takes nothing",
    6: "The net is unlawful: {activity} gives nothing",
    8: "The first state does not belong to this net",
    9: "The first state is unlawful: {activity} has run longer than its longest time",
    10: "The log file is not a log: its version or length does not fit, it is too long, or half an event is missing",
}


class Headline(NamedTuple):
    sort: str
    title: str
    why: str


def of_form(refused, words):
    """The headline where no event had its turn."""
    return Headline(BAD, FORMS[refused.number].format(activity=words.activity(refused.index)), "No event was checked.")


def headline(record, words):
    """The headline for a log whose events were checked."""
    number = record.verdict.number
    if number == 0:
        return kept(record, words)
    if number not in REFUSED:
        raise Broken("%d is no number by which a run refuses an event" % number)
    title, why = REFUSED[number](record, words)
    return Headline(BAD, "At tick %d %s" % (record.verdict.ticks, title), why)


def no_event(record, words):
    return "the log has bytes that are no event", "The bytes are %02x %02x. The log may be damaged, or of another version." % record.refused


def no_such_activity(record, words):
    return "the log names an activity that this net does not have", "It names activity %d; the net has %s, counted from 0. Is it the net of this box?" % (
        transition_of(record.refused), counted(record.net.transitions, "activity", "activities"))


def not_enabled(record, words):
    """13: the engine tells the lowest place that is short, and by how many tokens; what the others held stands beside it."""
    transition, place, short = transition_of(record.refused), record.verdict.place, record.verdict.shortage
    name, held = words.activity(transition), record.end.marking[place]
    lack = "%s was empty" % words.place(place) if not held else "%s held only %s" % (words.place(place), tokens(held))
    return "the box started %s although %s" % (name, lack), "%s needs %s; %s. %s lacked %s." % (
        name, words.needs(transition), words.held(transition, record.end.marking), words.place(place), tokens(short))


def too_many(record, words):
    name = words.activity(transition_of(record.refused))
    return "the box started %s once more, which is too often" % name, "As many as can be counted (%s) run that started at this tick." % format(MOST_TOKENS, ",")


def not_its_time(record, words):
    """15. No activity ever runs beyond its longest time, so the age is what the log says, and not what happened."""
    transition, age = transition_of(record.refused), record.refused[1]
    return "the log has %s end %s, but it %s" % (words.activity(transition), after(age), words.lasting(transition)), running(record, words)


def none_so_old(record, words):
    transition, age = transition_of(record.refused), record.refused[1]
    return "the log has %s end after %s, but none had run for that long" % (words.activity(transition), ticks(age)), running(record, words)


def running(record, words):
    """For how long the refused event's activity was running."""
    transition = transition_of(record.refused)
    ages = sorted(age for one, age in record.counts() if one == transition)
    return "%s was running, for %s." % (words.activity(transition), listed(map(ticks, ages))) if ages else "It was not running at all."


def overfull(record, words):
    transition = transition_of(record.refused)
    full = [place for place, weight in record.net.gives[transition] if record.end.marking[place] + weight > MOST_TOKENS]
    return "the end of %s would overfill %s" % (words.activity(transition), listed(map(words.place, full))), \
        "A place holds at most %s." % tokens(MOST_TOKENS)


def start_owed(record, words):
    starts = record.end.starts
    return "the box let time pass although " + owed(record, words), \
        "%s: enough for %s. An activity that can start must start before the next tick." % (
            words.held(starts[0], record.end.marking), words.activity(starts[0]))


def owed(record, words):
    """All that is owed where the run ended: ends come before starts."""
    ends = ["%s had to end" % words.activities(record.end.ends)] if record.end.ends else []
    starts = ["%s had to start" % words.activities_by_group(groups(record))] if record.end.starts else []
    return " and ".join(ends + starts)


def groups(record):
    """The owed starts, those together that take from a place in common: of these a start of one may settle another."""
    found = []
    for transition in record.end.starts:
        places = {place for place, _ in record.net.takes[transition]}
        near = [group for group in found if group[1] & places]
        found = [group for group in found if group not in near]
        found.append((sorted([transition, *(one for group in near for one in group[0])]), places.union(*(group[1] for group in near))))
    return [transitions for transitions, _ in found]


def end_owed(record, words):
    first = record.end.ends[0]
    return "the box let time pass although " + owed(record, words), \
        "%s %s. It must end before the next tick." % (words.activity(first), longest(record, first))


def longest(record, transition):
    """Why an activity must end."""
    lfd = record.net.lfd[transition]
    return "had run for %s, its longest time" % ticks(lfd) if lfd else "takes no time"


def at_rest(record, words):
    return "the box let time pass although the page was at rest", \
        "Nothing was running and nothing could start: there was nothing to wait for. The log should have ended here."


def end_behind_start(record, words):
    """28: the nearest start in front of it is named."""
    name, number = words.activity(transition_of(record.refused)), nearest_start(record)
    here = "" if number is None else "; here %s had started, at event %d" % (words.activity(transition_of(record.events[number])), number)
    return "the log has %s end %s, but a start came before it at this tick" % (name, after(record.refused[1])), \
        "What was running ends first, then activities start%s. After the first start only what started at this tick may end." % here


def start_before_end(record, words):
    """29: the ends that are owed, of firings of at least one tick."""
    transition, due = transition_of(record.refused), ends_before_starts(record)
    first = "an earlier one" if due == [transition] else words.activities(due)
    return "the box started %s although %s had to end first" % (words.activity(transition), first), \
        "%s %s. What must end at a tick ends before anything starts." % (words.activity(due[0]), longest(record, due[0]))


def ends_before_starts(record):
    """The activities that must end before the next start: those at their longest time, where that is not 0."""
    return [transition for transition in record.end.ends if record.net.lfd[transition]]


def nearest_start(record):
    """The start that stands last in front of the refused event, in its step; None where the log began behind it."""
    for number in reversed(range(record.verdict.done)):
        if kind(record.events[number]) in (START, TICK):
            return number if kind(record.events[number]) == START else None
    return None


REFUSED = {
    11: no_event, 12: no_such_activity, 13: not_enabled, 14: too_many, 15: not_its_time, 16: none_so_old, 17: overfull,
    18: start_owed, 19: end_owed, 20: at_rest, 28: end_behind_start, 29: start_before_end,
}


def kept(record, words):
    """The headline of an accepted log, by what its last state may do next."""
    through = "%s in %s." % (events(len(record.events)), ticks(record.verdict.ticks))
    if record.end.standing in (1, 2):
        return Headline(OPEN, "The log keeps all rules, but it stops where " + owed(record, words), through + " The log may have been cut off.")
    if record.end.standing == 3:
        running = sorted({transition for transition, _ in record.counts()})
        return Headline(GOOD, "The log keeps all rules; %s %s still running when it stops" % (
            words.activities(running), "is" if len(running) == 1 else "are"), through)
    return Headline(GOOD, "The log keeps all rules, and the page came to rest", through + " Nothing is running and nothing is owed.")

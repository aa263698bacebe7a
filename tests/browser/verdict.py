"""The headline, the sentence under it and the line of facts, held to what the engine told."""

import re

from firings import END, START
from phrases import counted

MOST_TOKENS = 65_535
LACKED = re.compile(r".*lacked ([\d,]+) tokens?\b.*")


def named(text, names, numbers):
    """Which of the numbered things a sentence names, in quotation marks."""
    return [number for number in numbers if "“%s”" % names(number) in text]


def check(findings, said, truth):
    """`said` are the words as reading.js has them."""
    facts = dict(pair for pair in said["facts"] if len(pair) == 2)
    number = truth.number
    sort = "bad" if number else {1: "open", 2: "open", 3: "good", 4: "good"}[truth.moment(truth.done).standing]
    findings.same("the verdict", said["sort"].split(), ["verdict", sort])
    findings.same("the title of the window", said["tab"], said["title"])
    if not truth.checked:
        findings.same("the refusal", facts.get("Refusal"), "number %d" % number)
        findings.check("No event was checked" in said["why"], "the page does not say that no event was checked")
        if number in (4, 5, 6, 9):
            is_named = "“%s”" % truth.names.activity(truth.index) in said["title"]
            findings.check(is_named, "the headline does not name activity %d" % truth.index)
        return
    findings.same("the number of events", facts.get("Events", "").replace(",", ""), str(len(truth.pairs)))
    findings.same("the refusal", facts.get("Refusal"), "number %d at event %d" % (number, truth.index) if number else None)
    findings.same("how much was checked", facts.get("Checked", "").replace(",", "").split()[0], str(truth.done) if number else "all")
    if number:
        begins = said["title"].startswith("At tick %d " % truth.ticks)
        findings.check(begins, "the headline does not begin with tick %d: %s" % (truth.ticks, said["title"]))
        check_refusal(findings, said, truth)
    else:
        check_kept(findings, said, truth)


def check_names(findings, said, truth, wanted):
    """The headline names these activities and no other."""
    title, numbers = said["title"], range(len(truth.net.transitions))
    findings.same("the activities that the headline names", named(title, truth.names.activity, numbers), sorted(wanted))


def check_refusal(findings, said, truth):
    """What the headline must name for each number: what was owed by `owed`, what was short by `run`, or the event's own activity."""
    number, now = truth.number, truth.moment(truth.done)
    kind, transition, age = truth.columns.events[truth.done]
    lfd = [row.lfd for row in truth.net.transitions]
    owed = {18: now.starts, 19: now.ends, 29: [t for t in now.ends if lfd[t]]}.get(number, [])
    own = [transition] if kind in (START, END) and number != 12 else []
    check_names(findings, said, truth, {*owed, *own})
    if number == 13:
        check_short(findings, said, truth)
    elif number == 15:
        soon = age < truth.net.transitions[transition].sfd
        findings.check("too soon" in said["title"] if soon else "too late" in said["title"], "too soon or too late: " + said["title"])
    elif number == 17:
        gives = truth.net.transitions[transition].outputs
        full = [place for place, weight in enumerate(gives) if weight and now.marking[place] + weight > MOST_TOKENS]
        findings.same("the places that would overfill", named(said["title"], truth.names.place, range(len(gives))), full)
    elif number in (11, 12, 20):
        word = {11: "%02x %02x" % truth.pairs[truth.done], 12: "activity %s" % transition, 20: "rest"}[number]
        findings.check(word in said["title"] + " " + said["why"], "neither the headline nor the line under it has %r" % word)
    if number in (15, 16, 28):
        word = "at once" if age == 0 and number == 15 else counted(age, "tick")
        findings.check(word in said["title"], "the headline does not have %r: %s" % (word, said["title"]))


def check_short(findings, said, truth):
    """13: the very place that the run told, and by how many tokens it was short."""
    places, held = range(len(truth.net.marking)), truth.moment(truth.done).marking[truth.place]
    findings.same("the place that was short", named(said["title"], truth.names.place, places), [truth.place])
    lacked = LACKED.fullmatch(said["why"])
    findings.same("how many tokens were lacking", lacked and int(lacked[1].replace(",", "")), truth.shortage)
    word = "was empty" if held == 0 else "held only " + counted(held, "token")
    findings.check(word in said["title"], "the headline does not have %r: %s" % (word, said["title"]))


def check_kept(findings, said, truth):
    """An accepted log: what is owed at its end, or what still runs there."""
    now = truth.moment(truth.done)
    wanted = {1: now.starts, 2: now.ends, 3: [t for t, _ in now.running], 4: []}[now.standing]
    check_names(findings, said, truth, set(wanted))
    word = {1: "had to start", 2: "had to end", 3: "still running", 4: "came to rest"}[now.standing]
    fits = word in said["title"] and "keeps all rules" in said["title"]
    findings.check(fits, "the headline does not have %r: %s" % (word, said["title"]))
    through = "%s in %s" % (counted(len(truth.pairs), "event"), counted(truth.ticks, "tick"))
    findings.check(through in said["why"], "the line under the headline does not have %r: %s" % (through, said["why"]))

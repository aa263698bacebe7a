"""Why something ran when it did: the story at the top and the panel on what is chosen, held to tokens followed here (origins.py)."""

import re

from firings import END, START, TICK
from phrases import counted

LINK = re.compile(r"“(.*)”, (?:at once|took ([\d,]+) ticks? \(takes .*\)|running, ([\d,]+) ticks? so far \(takes .*\))")
SPAN = re.compile(r"(before tick 0|tick \d+)(?:–(\d*))?")
MORE_LINKS = re.compile(r"([\d,]+) activit(?:y|ies) came before that")
MOST_LINKS, FEW_LINKS = 8, 6  # a longer chain is shown by its latest links
NEXT_TOLD = 3


def shown_links(chain):
    return chain if len(chain) <= MOST_LINKS else chain[:FEW_LINKS]


class Whys:
    def __init__(self, findings, truth):
        self.findings, self.truth, self.origins = findings, truth, truth.origins

    # ---- the story

    def check_story(self, story):
        """`story` has the lines at the top: a class, mostly a tick, and words."""
        sorted_by = {sort: [line[1:] for line in story if line[0] == sort] for sort in ("past", "owed", "fault", "after")}
        self.findings.same("kinds of lines in the story", sorted({line[0] for line in story} - {*sorted_by}), [])
        self.check_chain_told(sorted_by["past"])
        self.check_owed_told(sorted_by["owed"])
        self.check_fault_told(sorted_by["fault"], sorted_by["after"])

    def told(self, firing):
        """(name, since, until) of a firing as the story tells it: ticks before the log have no number."""
        since = "before tick 0" if firing.since < 0 else "tick %d" % firing.since
        return self.truth.names.activity(firing.transition), since, "" if firing.until is None else str(firing.until)

    def check_chain_told(self, lines):
        """Each link is a firing, and waited for the one told before it."""
        more = MORE_LINKS.fullmatch(lines[0][-1]) if lines else None
        links = []
        for line in lines[1:] if more else lines:
            span, link = SPAN.fullmatch(line[0]), LINK.fullmatch(line[-1])
            if not self.findings.check(span and link, "a line of the story is not understood: %s" % line):
                return
            until = span[1].removeprefix("tick ") if span[2] is None else span[2]
            links.append((link[1], span[1], until))
        chain = self.expected_chain()
        if chain is None:
            self.findings.same("the story of a log whose firings are not followed", links, [])
            return
        shown = shown_links(chain)
        self.findings.same("what was waited for", links, [self.told(self.truth.firings[number]) for number in reversed(shown)])
        self.findings.same("how many came before that", int(more[1]) if more else 0, len(chain) - len(shown))

    def expected_chain(self):
        """The firings behind what the fault, or the end of the log, is about, the latest first."""
        truth, origins = self.truth, self.origins
        if origins is None:
            return None
        now, number, numbers = truth.moment(truth.done), truth.number, range(len(truth.firings))
        kind, transition, age = truth.columns.events[truth.done] if number else (None, None, None)
        lfd = [row.lfd for row in truth.net.transitions]
        if number == 18 or number == 0 and now.starts:
            return origins.chain(origins.wanted(truth.done, now.starts[0]))
        due = {0: now.ends, 19: now.ends, 29: [t for t in now.ends if lfd[t]]}.get(number, [])
        still = [f for f in numbers if truth.firings[f].end is None]
        if due:
            at_longest = due[0], truth.ticks - lfd[due[0]]
            firing = next(f for f in still if (truth.firings[f].transition, truth.firings[f].since) == at_longest)
        elif number == 13:
            return self.chain_of_missing(still)
        elif number in (15, 16, 28) and [f for f in numbers if truth.firings[f].transition == transition]:
            same = [f for f in numbers if truth.firings[f].transition == transition]
            meant = [f for f in same if f in still]
            firing = min(meant, key=lambda f: abs(truth.ticks - truth.firings[f].since - age), default=same[-1])
        elif number in (15, 16, 28):
            return origins.chain(origins.wanted(truth.done, transition))
        else:
            ended = [f for f in numbers if f not in still]
            firing = max(ended, key=lambda f: truth.firings[f].end, default=None)
        return [] if firing is None else [firing] + origins.chain(origins.took.get(firing, []))

    def chain_of_missing(self, still):
        """13: who gives to the short place and has not ended, or else who took there last."""
        rows, place = self.truth.net.transitions, self.truth.place
        for firing in still:
            if rows[self.truth.firings[firing].transition].outputs[place]:
                return [firing] + self.origins.chain(self.origins.took.get(firing, []))
        takers = [f for f, firing in enumerate(self.truth.firings) if rows[firing.transition].inputs[place]]
        return takers[-1:]

    def check_owed_told(self, lines):
        """What had to happen, with the engine's degree for an owed start and its shortage for 13."""
        truth = self.truth
        now, number, name = truth.moment(truth.done), truth.number, truth.names.activity
        text = lines[0][-1] if lines else ""
        if truth.origins is None:
            return
        if number == 18 or number == 0 and now.starts:
            degree = truth.engine.ask("degree", truth.net_image, truth.state, now.starts[0])[2]
            right = "“%s” had to start%s:" % (name(now.starts[0]), "" if degree == 1 else " " + counted(degree, "time"))
        elif number in (0, 19, 29) and now.ends:
            due = [t for t in now.ends if number != 29 or truth.net.transitions[t].lfd]
            right = "“%s” had to end:" % name(due[0])
        elif number == 13:
            right = "“%s” lacked %s:" % (truth.names.place(truth.place), counted(truth.shortage, "token"))
        else:
            return
        self.findings.check(text.startswith(right), "the story does not tell %r: %r" % (right, text))
        self.findings.same("the tick of what had to happen", lines[0][0] if lines else None, "tick %d" % truth.ticks)

    def deed(self, number):
        kind, transition, age = self.truth.columns.events[number]
        if kind == TICK:
            return "let one tick pass"
        if kind == START:
            return "started “%s”" % self.truth.names.activity(transition)
        if kind == END:
            return "ended “%s” %s" % (self.truth.names.activity(transition), "after " + counted(age, "tick") if age else "at once")
        return "no event"

    def check_fault_told(self, faults, after):
        """The broken rule, and the next three things that the box wrote, each at its tick."""
        truth = self.truth
        self.findings.same("whether the story tells a broken rule", len(faults), int(bool(truth.number)))
        for tick, *words in faults:
            self.findings.same("the tick of the broken rule", tick, "tick %d" % truth.ticks)
            self.findings.check(self.deed(truth.done) in " ".join(words), "the broken rule is told as %r" % words)
        rest = [n for n in range(truth.done + 1, len(truth.pairs)) if truth.columns.events[n][0] != TICK] if truth.number else []
        self.findings.same("how much is told of what came after", len(after), min(NEXT_TOLD, len(rest)))
        for (tick, *words), number in zip(after, rest):
            self.findings.same("the tick of event %d in the story" % number, tick, "tick %d" % truth.columns.column[number])
            fits = self.deed(number) in " ".join(words) and "not checked" in " ".join(words)
            self.findings.check(fits, "event %d is told as %r" % (number, words))

    # ---- the panel on what is chosen

    def check_opening(self, said):
        """A page that opens on an owed start tells what it would take, and what it waited for."""
        truth = self.truth
        now = truth.moment(truth.done)
        if truth.number not in (0, 18) or not now.starts or self.origins is None:
            return
        name, wanted = truth.names.activity(now.starts[0]), self.origins.wanted(truth.done, now.starts[0])
        self.findings.same("why, as opened, the heading", said["head"], "Why “%s” had to start" % name)
        right = sorted(self.token_lines(wanted, self.made_by))
        self.findings.same("what “%s” would take" % name, sorted(said.get("It would take", [])), right)
        self.check_chain("why, as opened", said, self.origins.chain(wanted), truth.ticks)

    def check_panel(self, said, number):
        """What a firing took, what it gave and what it waited for."""
        truth, firing = self.truth, self.truth.firings[number]
        where = "why, of “%s” from tick %d" % (truth.names.activity(firing.transition), firing.since)
        self.findings.same(where + ", the heading", said["head"], "Why “%s” ran when it did" % truth.names.activity(firing.transition))
        took = self.origins.took.get(number)
        right = sorted(self.token_lines(took, self.made_by)) if took is not None else ["its tokens before the log began"]
        self.findings.same(where + ", what it took", sorted(said.get("It took", [])), right)
        gave = self.origins.gave(number) if firing.end is not None else []
        self.findings.same(where + ", what it gave", sorted(said.get("It gave", [])), sorted(self.token_lines(gave, self.taken_by)))
        self.check_chain(where, said, self.origins.chain(took or []), firing.since)

    def check_chain(self, where, said, chain, arrived):
        """The table of what was waited for, and the sentence under it."""
        shown = [self.truth.firings[link] for link in shown_links(chain)]
        lines = said.get("What it waited for, latest first", [])
        rows = [line for line in lines if isinstance(line, list)]
        self.findings.same(where + ", what it waited for", rows, [self.chain_row(link) for link in shown])
        if shown and lines:
            spare = sum(link.until - link.since - self.truth.net.transitions[link.transition].sfd for link in shown)
            words = "began at tick %d and brought it to tick %d. " % (shown[-1].since, arrived)
            words += "They ran %s longer" % counted(spare, "tick") if spare else "None ran longer"
            self.findings.check(words in lines[-1], "%s: not told is %r: %s" % (where, words, lines[-1]))

    def token_lines(self, tokens, tail):
        """Lines of tokens, those of one place and one other end together."""
        groups = {}
        for place, other, count in tokens:
            groups[place, other] = groups.get((place, other), 0) + count
        name = self.truth.names.place
        return ["%s in “%s”%s" % (counted(count, "token"), name(place), tail(other)) for (place, other), count in groups.items()]

    def made_by(self, maker):
        if maker is None:
            return ", there from the beginning"
        firing = self.truth.firings[maker]
        return ", made by “%s” at tick %d" % (self.truth.names.activity(firing.transition), firing.until)

    def taken_by(self, taker):
        if taker is None:
            return ", not taken yet"
        firing = self.truth.firings[taker]
        return ", taken by “%s” at tick %d" % (self.truth.names.activity(firing.transition), firing.since)

    def chain_row(self, firing):
        row = self.truth.net.transitions[firing.transition]
        between = " to " if firing.since < 0 else "–"  # a dash behind a tick below 0 would be read as another
        ticks = str(firing.since) if firing.since == firing.until else "%d%s%d" % (firing.since, between, firing.until)
        name = "“%s”" % self.truth.names.activity(firing.transition)
        return [name, ticks, str(firing.until - firing.since), "%d..%d" % (row.sfd, row.lfd)]

"""Everything that is checked of one page, in the order in which a visitor would meet it."""

import random

import believed
import looks
import moments
import reading
import tables
import verdict
import visitor
from picture import Picture
from truth import Truth
from visit import Visit
from whys import Whys

NARROW_SAMPLE = 8  # moments on the narrow page
PROMISED_OPENING = 2.0  # seconds
SLOWEST_OPENING = 5.0  # a busy machine is no fault of the page
SLOWEST_MOVE = 1_000  # milliseconds


class Examination:
    """One page of one case. `notes` are what is printed beside the findings."""

    def __init__(self, findings, case, path, browser, engine, enough=lambda: False):
        """`enough` says whether what was found is enough: then the rest is left out."""
        self.findings, self.case, self.path, self.enough = findings, case, path, enough
        self.truth, self.visit = Truth(engine, case), Visit(browser, path)
        self.random, self.notes = random.Random(case.name), []
        self.headline = None

    def run(self):
        for part in (self.check_file, self.open_wide, self.check_told):
            part()
        has_picture = self.visit.has("data")
        self.findings.same("whether there is a picture", has_picture, self.truth.checked)
        if has_picture and self.findings.check(self.visit.is_ready(), "the page does not say that it is drawn") and self.truth.checked:
            parts = OF_A_PICTURE
        else:
            parts = [Examination.check_dark]
        for part in parts:
            if self.enough():
                return
            part(self)

    def check_file(self):
        with open(self.path, encoding="utf-8") as file:
            looks.check_file(self.findings, file.read())

    def open_wide(self):
        took = self.visit.open()
        if self.case.long:
            for _ in range(2):
                took = took if took < PROMISED_OPENING else min(took, self.visit.open())
            self.notes.append("opened in %.2f s" % took)
            self.findings.check(took < SLOWEST_OPENING, "opening took %.1f s" % took)
        looks.check_sight(self.findings, self.visit, 1280, dark=False)

    def check_told(self):
        """What the page tells of the whole log."""
        self.headline = said = self.visit.headline()
        verdict.check(self.findings, said, self.truth)
        if self.truth.checked:
            believed.check(self.findings, said["last"], said["lastRows"], self.truth)
            tables.check_events(self.findings, said["events"], self.truth)
            tables.check_net(self.findings, said["net"], self.truth)
            tables.check_titles(self.findings, said["netTitles"], self.truth)
            if not self.case.long:
                self.findings.none("the engine and the reference", self.truth.disagreements())
                Whys(self.findings, self.truth).check_story(said["story"])

    def check_dark(self):
        for width in (1280, 390):
            self.visit.open(width, dark=True)
            looks.check_sight(self.findings, self.visit, width, dark=True)

    # ---- the words and the picture of a moment

    def compare(self, where, read, done, before):
        words, seen = read
        last = self.truth.done
        if self.findings.check(done <= last, "%s: the page goes on behind event %d, which is refused" % (where, last)):
            moments.compare(self.findings, words, self.truth, done, before)
            Picture(self.findings, where, seen, self.truth, done).check()

    def see(self, where, done, moment_in_sight=True):
        """The picture, and the table that says the same."""
        picture = Picture(self.findings, where, self.visit.picture(), self.truth, min(done, self.truth.done), moment_in_sight)
        picture.check()
        tables.check_firings(self.findings, where, self.visit.firings(), self.truth, picture.frame)

    def look(self, position, where="moved"):
        """Moves the slider there and compares. On most pages a position is a number of events."""
        before = self.done_at(position - 1) if position else 0
        read = self.visit.move(position)
        done = reading.moment(read[0]["moment"])[1]
        if not self.case.long:
            self.findings.same("the moment at position %d of the slider" % position, done, position)
        columns = self.truth.columns
        one_step = done > before and done <= columns.begins[min(columns.of_moment(before) + 1, columns.count - 1)]
        what = "position %d of the slider is behind %d events, the one before it behind %d" % (position, done, before)
        self.findings.check(position == 0 or done == before + 1 or one_step, what)
        self.compare("%s to %d" % (where, done), read, done, before)

    def done_at(self, position):
        return position if not self.case.long else reading.moment(self.visit.move(position)[0]["moment"])[1]

    def check_moments(self):
        """The last moment, as the page opens; then all moments of a small page, and a sample of a long one."""
        if not self.case.long:
            moments.compare_some(self.findings, self.visit.words(), self.truth)
        self.visit.press("empties")
        read, last = self.visit.both(), self.truth.done
        most = read[0]["most"]
        self.see("as opened", last)
        if not self.case.long:
            Whys(self.findings, self.truth).check_opening(self.visit.why())
        self.findings.same("the slider as the page opens", read[0]["value"], most)
        if not self.case.long:
            self.findings.same("the moments of the slider", most, last)
        self.findings.same("whether the page says that moments are missing", self.visit.is_seen("sparse"), most < last)
        self.compare("as opened", read, last, self.done_at(most - 1) if most else 0)
        positions = range(most + 1)
        if self.case.sample and self.case.sample < most:
            positions = sorted({0, 1, most, *self.random.sample(positions, self.case.sample)})
        for position in positions:
            self.look(position)
        if self.case.long:
            self.time_moves()

    def time_moves(self):
        took = self.visit.browser.value(
            "(() => { const began = performance.now(); for (let i = 0; i < 10; i++) document.getElementById('event-back').click();"
            " return (performance.now() - began) / 10; })()")
        self.notes.append("a move in %.0f ms" % took)
        self.findings.check(took < SLOWEST_MOVE, "a move takes %.0f ms" % took)

    # ---- the picture made closer and wider, and on a narrow page

    def check_wide_zoom(self):
        self.check_zoom("1280")

    def check_zoom(self, where):
        """The picture stays true while it is made closer and wider and goes to and fro."""
        done = self.visit.done()
        for name in ("closer", "closer", "wider", "wider", "wider", "whole"):
            self.visit.press(name)
            self.see("%s, %s" % (where, name), done)
            looks.audit(self.findings, "%s, %s" % (where, name), self.visit, "labels")
        for name in ("earlier", "later"):
            self.visit.press(name)
            self.see("%s, %s" % (where, name), done, moment_in_sight=False)
        looks.check_unfolded(self.findings, where, self.visit)

    def check_narrow(self):
        self.visit.open(390)
        looks.check_sight(self.findings, self.visit, 390, dark=False)
        self.see("390, as opened", self.truth.done)
        self.visit.press("empties")
        most = self.visit.words()["most"]
        for position in sorted(self.random.sample(range(most + 1), min(NARROW_SAMPLE, most + 1))):
            self.look(position, "390, moved")
        self.check_zoom("390")

    def check_addresses(self):
        """An address with #event=14 opens that moment, and so does a link to it on the open page."""
        last = self.truth.done
        for done, way in ((last // 2, self.open_at), (0, self.visit.go_to), (last, self.visit.go_to)):
            way("#event=%d" % done)
            found = self.visit.done()
            fits = found == done or self.case.long and found <= done  # not every event of a very long log has its moment
            self.findings.check(fits, "the address with #event=%d opens behind %d events" % (done, found))

    def open_at(self, fragment):
        self.visit.open(at=fragment)


# in the order of the visit: the wide page, the narrow one, the dark ones, an address, and again without scripts
OF_A_PICTURE = (
    Examination.check_moments, visitor.check_choices, visitor.check_links, visitor.check_slider_keys, visitor.check_buttons,
    visitor.check_clicks, Examination.check_wide_zoom, visitor.check_strip, Examination.check_narrow, Examination.check_dark,
    Examination.check_addresses, looks.check_keys, looks.check_paper, looks.check_without_scripts,
)

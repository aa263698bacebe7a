"""The timeline held to the log: bars, marks and lines against places worked out from the log alone (firings.py)."""

import bars
import fault
from firings import END, START
from geometry import SLACK, Frame

MANY_LANES = 14  # a net of more activities shows only some
MARKS_FROM = 14  # in narrower columns marks of what is owed would cover each other; there they are shown at the last moment alone
MARK_BY_FAULT = 20  # so far left of the fault's line a mark may stand, so that neither line nor cross covers it
BORDERS_FROM = 60


class Picture:
    """What is seen at the moment behind `done` events. It may be out of sight, where the visitor went elsewhere."""

    def __init__(self, findings, where, seen, truth, done, moment_in_sight=True):
        self.findings, self.where, self.seen, self.truth, self.done = findings, where, seen, truth, done
        self.moment_in_sight = moment_in_sight
        self.columns, self.now = truth.columns, truth.moment(done)
        self.frame = Frame(seen)
        self.scale, self.lanes = self.frame.scale, self.frame.lanes

    def same(self, what, said, right):
        return self.findings.same("%s, %s" % (self.where, what), said, right)

    def holds(self, holds, what):
        return self.findings.check(holds, "%s: %s" % (self.where, what))

    def check(self):
        self.check_frame()
        self.check_lanes()
        bars.check(self)
        self.check_owed()
        fault.check(self)
        if self.moment_in_sight:
            self.check_moment()
        self.check_borders()

    def check_frame(self):
        self.findings.none(self.where, self.scale.apart())
        inside = all(self.frame.first <= tick < self.frame.behind for tick, _ in self.scale.labels)
        self.holds(inside and self.frame.behind <= self.columns.count, "the ticks in sight are not those of %r" % self.seen["label"])

    def check_lanes(self):
        """A net of few activities has a lane for each; a large one at least for what concerns the moment."""
        count = len(self.truth.net.transitions)
        wanted = {t for t, _ in self.now.running} | {*self.now.starts, *self.now.ends} if count > MANY_LANES else {*range(count)}
        self.same("lanes that are missing", sorted(wanted - {*self.lanes}), [])
        order = sorted(self.lanes, key=lambda t: self.lanes[t])
        self.same("the order of the lanes", order, sorted(order))
        for transition, (shown, name) in self.frame.names.items():
            right = self.truth.names.activity(transition)
            self.same("the name of lane %d" % transition, name, right)
            fits = shown == right or shown.endswith("…") and right.startswith(shown[:-1])
            self.holds(fits, "lane %d is called %r" % (transition, shown))

    # ---- the moment

    def check_moment(self):
        """The line of the moment is between the event before it and the one behind it, and its column is marked."""
        line, here = self.seen["cursor"], self.seen["here"]
        if self.holds(line and here, "the moment has no line, or no column"):
            left, right = map(self.scale.x, self.columns.room(self.done))
            where = "the moment's line is at %.1f, not between %.1f and %.1f" % (line[0], left, right)
            self.holds(left - SLACK <= line[0] <= right + SLACK, where)
            self.same("the column that is marked", round(self.scale.place(here[0]), 1), float(self.now.tick))

    def check_owed(self):
        """A mark in the lane of each activity that had to start or end, at the moment."""
        name, said = self.truth.names.activity, set()
        for label, left, right, top, bottom in self.seen["owed"]:
            lane = self.frame.lane((top + bottom) / 2, (top + bottom) / 2)  # in a lane of thin bars a mark is higher than its row
            told = [kind for kind in (START, END) if lane is not None and label == "“%s” had to %s here" % (name(lane), kind)]
            self.holds(told, "the mark %r stands in lane %s" % (label, lane))
            said |= {(lane, kind) for kind in told or [None]}
            place, (begin, end) = (left + right) / 2, self.room_of_mark()
            fits = begin - SLACK <= place <= end + SLACK
            self.holds(fits, "the mark %r stands in column %.2f" % (label, self.scale.place(place)))
        if self.moment_in_sight and (self.done == self.truth.done or self.scale.wide >= MARKS_FROM):
            right = {(t, START) for t in self.now.starts} | {(t, END) for t in self.now.ends}
            self.same("what is marked as owed", sorted(said, key=str), sorted((one for one in right if one[0] in self.lanes), key=str))

    def room_of_mark(self):
        """Where a mark of what is owed may stand: in the column of the moment, and just before the fault at its line."""
        if self.truth.number and self.done == self.truth.done:
            return self.scale.x(self.truth.fault) - MARK_BY_FAULT, self.scale.x(self.truth.fault)
        return self.scale.x(self.now.tick), self.scale.x(self.now.tick + 1)

    def check_borders(self):
        """In wide columns a line parts the ends of older firings from the starts, just before the first start."""
        wanted = []
        for column in range(self.frame.first, self.frame.behind):
            first, events = self.truth.border(column), [self.columns.events[number] for number in self.columns.step(column)]
            if first is not None and any(kind == END and age for kind, _, age in events):
                wanted.append(self.columns.room(first))
        if abs(self.scale.wide - BORDERS_FROM) < 2 * SLACK:
            return  # a hair decides whether there are any
        wanted = wanted if self.scale.wide > BORDERS_FROM else []
        said = sorted(map(self.scale.place, self.seen["borders"]))
        if self.same("how many borders within steps there are", len(said), len(wanted)):
            for place, (left, right) in zip(said, wanted):
                self.holds(left <= place <= right, "a border within a step is at %.2f, not between %.2f and %.2f" % (place, left, right))

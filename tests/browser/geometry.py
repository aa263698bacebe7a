"""Where things stand on the screen, in columns of the timeline by the labels of the ticks, and in its lanes by their names."""

import re

import reading

SLACK = 0.75  # pixels
LABEL_ROOM = 24  # half a label, and a little
SMALLEST = 6  # a bar or a ghost of no time still is a few pixels wide
WINDOW = re.compile(r"Timeline, ticks ([\d,]+) to ([\d,]+),.*")
LANE = re.compile(r"(.*) \(transition (\d+)\), takes .*", re.S)


class Scale:
    """From columns to pixels, by the labels of the ticks alone; where there is one label only, by the lines beside it.

    A label stands in the middle of its column, but one at the edge of the picture is pushed inwards as far as it needs."""

    def __init__(self, seen):
        axis = [(text.replace(",", ""), (left + right) / 2) for text, left, right, *_ in seen["axis"]]
        self.labels = [(int(text), x) for text, x in axis if text.isdigit()]
        left, right = seen["svg"][:2]
        self.inner = [(tick, x) for tick, x in self.labels if left + LABEL_ROOM < x < right - LABEL_ROOM]
        (first, x), (last, end) = (self.inner or self.labels)[0], (self.inner or self.labels)[-1]
        self.wide = (end - x) / (last - first) if last > first else 2 * min(abs(line - x) for line in seen["columnLines"])
        self.zero = x - (first + 0.5) * self.wide

    def x(self, place):
        return self.zero + place * self.wide

    def place(self, x):
        return (x - self.zero) / self.wide

    def apart(self):
        """Labels that do not stand in the middle of their column."""
        return ["tick %d is labelled at %.1f, its column's centre is at %.1f" % (tick, x, self.x(tick + 0.5))
                for tick, x in self.labels
                if abs(x - self.x(tick + 0.5)) > (SLACK if (tick, x) in self.inner else LABEL_ROOM)]


class Frame:
    """The part of the timeline that is in sight: its columns, its lanes."""

    def __init__(self, seen):
        self.scale = Scale(seen)
        self.first, last = (reading.number(tick) for tick in WINDOW.fullmatch(seen["label"]).groups())
        self.behind = last + 1
        self.left, self.right = self.scale.x(self.first), self.scale.x(self.behind)
        lines = sorted(top for _, _, top, _ in seen["laneLines"])
        self.lanes, self.names = {}, {}  # a transition to (top, bottom), and to (its name as shown, its name in full)
        for text, title, _, _, top, bottom in seen["lanes"]:
            name, number = LANE.fullmatch(title).groups()
            middle = (top + bottom) / 2
            below = [y for y in lines if y > middle]
            self.lanes[int(number)] = max(y for y in lines if y <= middle), min(below, default=seen["svg"][3])
            self.names[int(number)] = text, name

    def lane(self, top, bottom):
        """The transition in whose lane something stands, or None."""
        return next((t for t, (begin, end) in self.lanes.items() if begin - SLACK <= top and bottom <= end + SLACK), None)

    def spans(self, box, begin, end):
        """Whether a box goes from place to place; outside the frame it only has to reach the frame's edge."""
        left, right = self.scale.x(begin), self.scale.x(end)
        begins = abs(box[0] - left) <= SLACK if left >= self.left - SLACK else box[0] <= self.left + SLACK
        ends = abs(box[1] - right) <= SLACK if right <= self.right + SLACK else box[1] >= self.right - SLACK
        tiny = box[1] - box[0] <= SMALLEST and right <= box[1] + SLACK
        return begins and (ends or tiny)

    def has(self, begin, end):
        """Whether something from place to place is in sight, by more than a hair."""
        return self.scale.wide * (min(end, self.behind) - max(begin, self.first)) > SLACK

"""What the picture has to show, worked out from a log's bytes alone.

A column is a step: column k has the events behind the k-th tick. An event i of n in its column stands at (i + 1)/(n + 1) of the column's
width, a tick on its right edge. Places are given in columns: 3.5 is the middle of column 3."""

from collections import defaultdict, deque
from typing import NamedTuple, Optional

TICK, START, END, NOTHING = "tick", "start", "end", "nothing"


def read_event(pair):
    """(kind, transition, age) of the two bytes of an event, as they stand."""
    first, second = pair
    if pair == (0, 0):
        return TICK, None, None
    if 1 <= first <= 64 and second == 0:
        return START, first - 1, 0
    if 65 <= first <= 128:
        return END, first - 65, second
    return NOTHING, None, None


class Firing(NamedTuple):
    """One run of a transition: its events, None where it began before the log or has not ended, and the columns of these."""

    transition: int
    start: Optional[int]
    end: Optional[int]
    since: int
    until: Optional[int]


class Columns:
    def __init__(self, pairs):
        self.events = [read_event(pair) for pair in pairs]
        self.column, self.begins = [], [0]
        for number, event in enumerate(self.events):
            self.column.append(len(self.begins) - 1)
            if event[0] == TICK:
                self.begins.append(number + 1)
        self.count = len(self.begins)

    def of_moment(self, done):
        """The column that one is in behind so many events."""
        return self.column[done] if done < len(self.events) else self.count - 1

    def step(self, column):
        """The numbers of a column's events, without the tick that closes it."""
        last = column + 1 == self.count
        return range(self.begins[column], len(self.events) if last else self.begins[column + 1] - 1)

    def place(self, number):
        """Where an event stands."""
        column = self.column[number]
        if self.events[number][0] == TICK:
            return column + 1.0
        step = self.step(column)
        return column + (number - step.start + 1) / (len(step) + 1)

    def room(self, done):
        """Between which places the moment behind so many events is."""
        column = self.of_moment(done)
        left = self.place(done - 1) if done > self.begins[column] else float(column)
        return left, self.place(done) if done < len(self.events) else column + 1.0

    def firings(self, done, running):
        """The firings of the accepted events. `running` are those of the first state, {(transition, age): count}."""
        found, open_ones = [], defaultdict(deque)  # (transition, column of the start) to numbers of firings, the oldest first

        def begin(transition, start, since):
            open_ones[transition, since].append(len(found))
            found.append(Firing(transition, start, None, since, None))

        for (transition, age), count in sorted(running.items()):
            for _ in range(count):
                begin(transition, None, -age)
        for number, (kind, transition, age) in enumerate(self.events[:done]):
            column = self.column[number]
            if kind == START:
                begin(transition, number, column)
            elif kind == END:
                ended = open_ones[transition, column - age].popleft()
                found[ended] = found[ended]._replace(end=number, until=column)
        return found

    def span(self, firing, stop):
        """The places of a firing's start and end. It may have begun before the log, and may still run where the checking stops."""
        begin = self.place(firing.start) if firing.start is not None else float("-inf")
        return begin, self.place(firing.end) if firing.end is not None else float(stop)

    def unchecked(self, done, firings, transitions):
        """What is written behind the refused event, by the box's own words: (transition, place of the start, place of the end).

        An end with age j ends the oldest that began j columns before. The start is the fault's place for a firing that ran there, and None
        for an end that fits no start; the end is None for what does not end. Transitions that the net does not have are left out."""
        found, open_ones = [], defaultdict(deque)  # to numbers in `found`, or None for a firing that was checked
        for firing in firings:
            if firing.end is None:
                open_ones[firing.transition, firing.since].append(None)
        for number in range(done + 1, len(self.events)):
            kind, transition, age = self.events[number]
            if kind not in (START, END) or transition >= transitions:
                continue
            column, place = self.column[number], self.place(number)
            if kind == START:
                open_ones[transition, column].append(len(found))
                found.append((transition, place, None))
            elif not open_ones[transition, column - age]:
                found.append((transition, None, place))
            else:
                begun = open_ones[transition, column - age].popleft()
                if begun is None:
                    found.append((transition, self.place(done), place))
                else:
                    found[begun] = (transition, found[begun][1], place)
        return found

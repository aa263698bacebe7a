"""A box that keeps the rules: picks events at random among the lawful ones, for logs that are long or good.

It follows document 01 with request W5, but what it writes is only material: whether a log is lawful is for the engine to say."""

import random

from nets import TICK, end, start


class Player:
    def __init__(self, net, seed, keen=0.25):
        """keen: how likely a firing ends before its longest time, each time that it might."""
        self.net, self.keen = net, keen
        self.random = random.Random(seed)
        self.marking = dict(net.marking)
        self.running = []  # (transition, age)
        self.events = []
        self.ticks = 0
        self.started = False

    def lfd(self, firing):
        return self.net.transitions[firing[0]][2]

    def enabled(self):
        return [number for number, row in enumerate(self.net.transitions) if all(self.marking[p] >= w for p, w in row[3].items())]

    def due(self):
        return [firing for firing in self.running if firing[1] == self.lfd(firing)]

    def may_end(self):
        """Firings that could end before their longest time: after a start only those of age 0 (W5)."""
        rows = self.net.transitions
        return [(t, age) for t, age in self.running if rows[t][1] <= age < rows[t][2] and not (age and self.started)]

    def owes(self):
        return bool(self.enabled() or self.due())

    def begin(self, transition):
        for place, weight in self.net.transitions[transition][3].items():
            self.marking[place] -= weight
        self.running.append((transition, 0))
        self.events.append(start(transition))
        self.started = True

    def finish(self, transition, age):
        self.running.remove((transition, age))
        for place, weight in self.net.transitions[transition][4].items():
            self.marking[place] += weight
        self.events.append(end(transition, age))

    def tick(self):
        self.running = [(transition, age + 1) for transition, age in self.running]
        self.events.append(TICK)
        self.ticks += 1
        self.started = False

    def turn(self):
        """One event. What is due ends before anything starts; what may end does so before the first start, or not at this tick."""
        due, may, on = self.due(), self.may_end(), self.enabled()
        if due:
            self.finish(*self.random.choice(due))
        elif may and self.random.random() < self.keen:
            self.finish(*self.random.choice(may))
        elif on:
            self.begin(self.random.choice(on))
        else:
            self.tick()

    def play(self, until):
        """Goes on until the condition holds where nothing is owed."""
        while self.owes() or not until(self):
            self.turn()
        return self

    def state(self):
        return self.net.state(self.marking, self.running)


def broken(net, events, tick, over_starts=False):
    """The log with an end at a longest time moved to the other side of the tick that follows it: the first from that tick on that has no
    start behind it in its step, so that it is the tick which breaks a rule, or else one that has."""
    ticks = 0
    for number, (first, age) in enumerate(events):
        ticks += (first, age) == TICK
        if ticks >= tick and first >= 65 and age == net.transitions[first - 65][2] > 1:
            later = events.index(TICK, number)
            if any(1 <= event[0] <= 64 for event in events[number:later]) == over_starts:
                return events[:number] + events[number + 1 : later + 1] + [(first, age)] + events[later + 1 :]
    raise ValueError("no such end behind tick %d" % tick)

"""What is so: the engine's own answers about a case, asked moment by moment, and on small cases the reference's beside them."""

from typing import NamedTuple

import reference
import wire
from cases import read
from firings import START, Columns
from nets import log
from origins import Origins

MOST_FOLLOWED = 1_000  # where more firings run at first, the page says that it follows none


class Moment(NamedTuple):
    """What there is behind so many events."""

    done: int
    tick: int
    marking: tuple
    running: dict  # {(transition, age): count}
    starts: list  # the transitions whose start is owed
    ends: list
    standing: int


class Names:
    """What places and activities are called: by the file of names, underscores being blanks, or else by number."""

    def __init__(self, path):
        self.given = {}
        for line in read(path).decode().splitlines() if path else []:
            kind, number, name = line.split(" ", 2) if line else ("", 0, "")
            self.given.setdefault((kind, int(number)), name.replace("_", " "))

    def place(self, number):
        return self.given.get(("place", number), "place %d" % number)

    def activity(self, number):
        return self.given.get(("transition", number), "activity %d" % number)


def read_state(path):
    """A state stands at the front of its file: what is behind the longest that menuask takes is not read."""
    return read(path)[: wire.CAPACITY["state"]]


def bits(word):
    return [bit for bit in range(64) if word >> bit & 1]


def running(state):
    return {(t, age): count for t, row in enumerate(state.counts) for age, count in enumerate(row) if count}


class Truth:
    """`number`, `index` and the others are what one run of the whole log tells. Where it is refused by 1 to 10, that is all there is."""

    def __init__(self, engine, case):
        self.engine, self.case = engine, case
        self.net_image, self.log_image, self.names = read(case.net), read(case.log), Names(case.names)
        self.number, self.index = engine.ask("check_net", self.net_image)
        if self.number:
            return
        self.net = reference.read_net(self.net_image)
        room = bytes(reference.state_length(self.net))
        self.first = read_state(case.first) if case.first else engine.ask("initial", self.net_image, room)[2]
        self.number, self.index, self.done, self.ticks, self.place, self.shortage, _, self.state = self.run(self.log_image)
        if self.number in range(1, 11):
            return
        self.pairs = reference.read_log(self.log_image)
        self.columns = Columns(self.pairs)
        self.known = {}
        self.begun = running(reference.read_state(self.net, self.first))
        self.firings = self.columns.firings(self.done, self.begun)
        self.origins = Origins(self) if not case.long and self.follows() else None
        self.fault = self.columns.place(self.done) if self.number else None
        stop = self.columns.count if self.fault is None else self.fault
        followed = self.firings if self.follows() else []
        self.spans = [(firing, *self.columns.span(firing, stop)) for firing in followed]
        self.unchecked = self.columns.unchecked(self.done, followed, len(self.net.transitions)) if self.number else []

    def border(self, column):
        """The first start of a step, or None: from there on only firings of age 0 may end. A log may begin behind it."""
        if column == 0 and self.case.started:
            return 0
        return next((number for number in self.columns.step(column) if self.columns.events[number][0] == START), None)

    def follows(self):
        """Whether the page follows single firings."""
        return sum(self.begun.values()) <= MOST_FOLLOWED

    @property
    def checked(self):
        """Whether events had their turn: there is a picture then."""
        return self.number not in range(1, 11)

    def run(self, log_image):
        return self.engine.ask("run", self.net_image, self.first, log_image, int(self.case.started))

    def moment(self, done):
        """The log's first events, run in one call from the first state, and what the state that they lead to owes."""
        if done not in self.known:
            number, _, _, tick, *_, image = self.run(log(self.pairs[:done]))
            if number:
                raise RuntimeError("%s: the first %d events are refused, the whole log is not" % (self.case.name, done))
            state = reference.read_state(self.net, image)
            owed = self.engine.ask("owed", self.net_image, image)
            self.known[done] = Moment(done, tick, state.marking, running(state), bits(owed[2]), bits(owed[3]), owed[8])
        return self.known[done]

    def disagreements(self):
        """Where the reference, doing the events one by one, comes to another state or refusal than the engine's runs."""
        state, started, tick = bytearray(self.first), int(self.case.started), 0
        for done in range(self.done + 1):
            now, owed = reference.read_state(self.net, state), reference.owed(self.net_image, state)
            its = Moment(done, tick, now.marking, running(now), bits(owed[2]), bits(owed[3]), owed[8])
            if its != self.moment(done):
                yield "behind %d events the reference has %s, the engine %s" % (done, its, self.moment(done))
            if done < len(self.pairs):
                told = reference.event(self.net_image, state, *self.pairs[done], started)
                if told[0] != (self.number if done == self.done else 0) or told[0] and told[2:] != (self.place, self.shortage):
                    yield "event %d: the reference tells %s" % (done, told)
                started, tick = reference.fact_after(started, self.pairs[done]), tick + (self.pairs[done] == (0, 0))

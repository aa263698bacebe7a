"""A log as the engine checked it: the verdict of the whole run, and the states on the way there.

The whole log is run in one call. Its accepted events are then fed once more, portion by portion, for the states in between. `Broken` is
raised where the two do not come to the same: then no page is to be believed."""

from functools import cache
from typing import NamedTuple

from causes import Causes
from engine import Broken, buffer
from forms import LOG_HEAD, TICK, Net, events_of, kind, log_of

# Each event is a portion of its own, unless so many bytes would have to be sent for it that a reader would wait: then the events
# far from the end of what was checked are fed by steps, up to the tick that closes them.
MOST_SENT = 100_000_000
NEAR_THE_END = 2_000

# Where more firings than this run in the first state, none is followed one by one.
MOST_FIRINGS_AT_FIRST = 1_000


class Refused(Exception):
    """The net, the first state or the log is refused by its form, 1 to 10, and no event has had its turn."""

    def __init__(self, number, index):
        super().__init__(number, index)
        self.number, self.index = number, index


class Verdict(NamedTuple):
    """What a run tells (docs/ASK.md)."""

    number: int
    index: int
    done: int
    ticks: int
    place: int
    shortage: int
    started: int
    state: bytes


class Moment(NamedTuple):
    """What the engine tells of a state on the way, behind so many events."""

    done: int
    marking: tuple
    starts: tuple  # the transitions whose start is owed
    ends: tuple
    standing: int


@cache
def bits(word):
    """The bits that are set in one of the two words of `owed`."""
    return tuple(bit for bit in range(64) if int(word) >> bit & 1)


def verdict_of(fields):
    return Verdict(*map(int, fields[:7]), buffer(fields[7]))


class Record:
    """`moments` are those asked about, the first being in front of the log and the last where the run ended."""

    def __init__(self, engine, net, log, first=None, started=0):
        number, index = map(int, engine.ask("check_net", net))
        if number:
            raise Refused(number, index)
        self.engine, self.net = engine, Net(net)
        self.first = buffer(engine.ask("initial", net, bytes(self.net.state_bytes))[2]) if first is None else first
        self.started = started
        self.verdict = verdict_of(engine.ask("run", net, self.first, log, started))
        if 1 <= self.verdict.number <= 10:
            raise Refused(self.verdict.number, self.verdict.index)
        self.log, self.events = log, events_of(log)
        self.causes = self.followed_from(self.first)
        self.moments = []
        self.follow()
        self.compare_step()
        self.degrees = {t: int(engine.ask("degree", net, self.verdict.state, t)[2]) for t in self.moments[-1].starts}

    def followed_from(self, state):
        few = sum(self.net.counts(state).values()) <= MOST_FIRINGS_AT_FIRST
        return Causes(self.net, state) if few else None

    def follow(self):
        """Feeds the accepted events, and at the end the refused one, and holds what comes of it to the whole run."""
        net, done = self.net.bytes, self.verdict.done
        state, started, ticks = self.first, self.started, 0
        cuts = cuts_of(self.events[:done], len(net) + self.net.state_bytes)
        for begin, end in zip(cuts, cuts[1:]):
            # both requests are sent before the first answer is read
            self.engine.send("owed", net, state)
            self.engine.send("run", net, state, log_of(self.events[begin:end]), started)
            self.note(begin, state, self.engine.answer("owed"))
            told = verdict_of(self.engine.answer("run"))
            if told.number or told.done != end - begin:
                raise Broken("events %d to %d: fed by themselves they are refused, in the whole log they are not" % (begin, end - 1))
            state, started, ticks = told.state, told.started, ticks + told.ticks
            self.compare_followed(begin, end, state)
        self.note(done, state, self.engine.ask("owed", net, state))
        if (state, started, ticks) != (self.verdict.state, self.verdict.started, self.verdict.ticks):
            raise Broken("the events one by one and the run as a whole do not come to the same")
        if self.verdict.number:
            self.compare_refused(state, started)

    def note(self, done, state, owed):
        """A moment, with the answer of `owed`: the two words and the standing."""
        self.moments.append(Moment(done, self.net.marking(state), bits(owed[2]), bits(owed[3]), int(owed[8])))

    def compare_followed(self, begin, end, state):
        """The tokens and firings that are followed one by one must be those of the engine's state."""
        if self.causes is None:
            return
        for number in range(begin, end):
            self.causes.do(number, self.events[number])
        if self.causes.state != state[: self.net.state_bytes]:
            raise Broken("event %d: the tokens and firings that are followed are not those of the engine's state" % (end - 1))

    def compare_refused(self, state, started):
        """The refused event by itself must be refused as it is in the whole log."""
        told = verdict_of(self.engine.ask("run", self.net.bytes, state, log_of([self.refused]), started))
        if told != self.verdict._replace(index=0, done=0, ticks=0):
            raise Broken("event %d by itself is not refused as it is in the whole log" % self.verdict.index)

    def compare_step(self):
        """The step that the run ended in, by the engine and by the ticks counted here."""
        begin = max((number + 1 for number, event in enumerate(self.events[: self.verdict.done]) if kind(event) == TICK), default=0)
        if int(self.engine.ask("step", self.log, self.verdict.ticks)[2]) != LOG_HEAD + 2 * begin:
            raise Broken("the columns of the page are not the steps of the log")

    @property
    def refused(self):
        """The refused event, or None where all are accepted."""
        return self.events[self.verdict.index] if self.verdict.number else None

    @property
    def end(self):
        """The moment where the run ended."""
        return self.moments[-1]

    def counts(self):
        """The firings that run where the run ended, {(transition, age): count}."""
        return self.net.counts(self.verdict.state)


def cuts_of(events, sent):
    """After how many events the engine is asked, from 0 to all of them, where an event by itself sends so many bytes."""
    near = max(0, len(events) - NEAR_THE_END) if len(events) * sent > MOST_SENT else 0
    steps = [number + 1 for number, event in enumerate(events[:near]) if kind(event) == TICK]
    return sorted({0, *steps, *range(max(near, 1), len(events) + 1)})

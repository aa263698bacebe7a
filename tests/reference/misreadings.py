"""Wrong readings of requests W2, W4 and W5, and what stands in the reference for each."""

import contextlib

import ask
import material
import reference
import wire
from reference import END, START, TICK, Event

FULL = reference.MAX_TOKENS


@contextlib.contextmanager
def misread(changes):
    """The reference with some of it changed."""
    kept = {name: getattr(reference, name) for name in changes}
    try:
        for name, value in changes.items():
            setattr(reference, name, value)
        yield
    finally:
        for name, value in kept.items():
            setattr(reference, name, value)


def shows(changes, name, arguments, line):
    """Whether the request is answered otherwise, or not at all, where the reference is changed so."""
    with misread(changes):
        try:
            return ask.answer(name, arguments) != line
        except IndexError:
            return True


def asking(kind, *numbers):
    """The numbers of that kind of event told in another order, or fewer of them."""
    return {"ORDER": {**reference.ORDER, kind: numbers}}


# ---- the page runner (W2)


def choosing(order=(END, START, TICK), highest=(), age="lfd", spared=()):
    """A choice of the next event by another reading: kinds in that order, the highest of some, ends
    at that age, and events passed over that meet the spared numbers. With nothing given it is the right one."""

    def choose(net, state):
        ages = [getattr(row, age) for row in net.transitions]
        found = {
            END: [Event(END, t, ages[t]) for t in range(len(ages)) if state.counts[t][ages[t]] > 0],
            START: [Event(START, t) for t in range(len(ages)) if reference.is_enabled(net, state, t)],
            TICK: [Event(TICK)] if reference.is_running(state) else [],
        }
        for kind in order:
            events = [event for event in found[kind] if reference.number_met(net, state, event, 0) not in spared]
            if events:
                return events[-1 if kind in highest else 0]
        return None

    return choose


def writing(short=0, empty=True, behind=None):
    """A log written by another reading: its length so many events short, nothing where
    there is no event, the bytes behind it changed."""

    def write(pairs, buffer):
        if pairs or empty:
            image = bytearray(material.encode_log(pairs))
            image[1:5] = wire.four_bytes(max(5, len(image) - 2 * short))
            image += b"" if behind is None else bytes([behind]) * (len(buffer) - len(image))
            buffer[: len(image)] = image

    return write


def filling(need):
    """A log is full where it has fewer bytes of room than so many, or all the events it may have."""
    return lambda events, room: room - reference.LOG_HEAD - 2 * events < need or events == reference.MAX_EVENTS


def telling(*stops):
    """The stops told in another order."""
    return {"STOPS": stops}


OF_PAGES = {
    "the highest owed end": {"chosen": choosing(highest=(END,))},
    "the highest enabled start": {"chosen": choosing(highest=(START,))},
    "a start before an owed end": {"chosen": choosing((START, END, TICK))},
    "a tick while a start is owed": {"chosen": choosing((END, TICK, START)), **asking(TICK)},
    "an end at the sfd": {"chosen": choosing(age="sfd"), **asking(TICK)},
    "another start where one meets 14": {"chosen": choosing(spared=(14,))},
    "another event where an end meets 17": {"chosen": choosing(spared=(17,))},
    "it begins with a start made": {"NO_START_MADE": 1},
    "the budget before rest": telling(2, 1, 3, 4, 5),
    "a full log before rest": telling(3, 1, 2, 4, 5),
    "a full log before the budget": telling(1, 3, 2, 4, 5),
    "14 before the budget": telling(1, 4, 2, 3, 5),
    "17 before the budget": telling(1, 5, 2, 3, 4),
    "14 before a full log": telling(1, 2, 4, 3, 5),
    "17 before a full log": telling(1, 2, 5, 3, 4),
    "full a byte too early": {"is_full": filling(3)},
    "full a byte too late": {"is_full": filling(1)},
    "the log's length one event short": {"write_log": writing(short=1)},
    "no head without an event": {"write_log": writing(empty=False)},
    "zeros behind the log": {"write_log": writing(behind=0)},
    "the state is not written": {"write_state": lambda net, state, buffer: None},
}


# ---- the step back (W4)


def wrapping(write):
    """Writes each number of a state modulo 65,536, as where no limit is asked."""

    def wrapped(row):
        return tuple(value % 65_536 for value in row)

    return lambda net, state, buffer: write(net, reference.State(wrapped(state.marking), tuple(map(wrapped, state.counts))), buffer)


def barring(kind, *numbers):
    """The numbers of that kind of step back told in another order, or fewer of them."""
    return {"BACK_ORDER": {**reference.BACK_ORDER, kind: numbers}, "write_state": wrapping(reference.write_state)}


def tests_with(right, number, test):
    """The tests of events or of steps back, one number's by another reading."""

    def read(net, state, event, started):
        holds = right(net, state, event, started)
        if number in holds:
            t = event.transition
            holds[number] = test(net, state, t, net.transitions[t], event.age, started)
        return holds

    return read


def testing(number, test):
    """One number's test of a step back by another reading, given the net, the state, the transition, its row and the age."""
    read = tests_with(reference.back_tests, number, lambda *given: test(*given[:5]))
    return {"back_tests": read, "write_state": wrapping(reference.write_state)}


OF_STEPS_BACK = {
    "a tick: 18 before 21": barring(TICK, 18, 21, 20),
    "a tick: 20 before 18": barring(TICK, 21, 20, 18),
    "a tick: age 0 not asked": barring(TICK, 18, 20),
    "a tick: the marking not asked": barring(TICK, 21, 20),
    "a tick: taken back to where nothing ran": barring(TICK, 21, 18),
    "a tick: age 0 of 32 transitions": testing(21, lambda net, state, t, row, age: any(ages[0] for ages in state.counts[:32])),
    "a tick: age 0 by its low byte": testing(21, lambda net, state, t, row, age: any(ages[0] % 256 for ages in state.counts)),
    "a tick: 32 transitions may be enabled": testing(
        18, lambda net, state, t, row, age: any(reference.is_enabled(net, state, u) for u in range(len(net.transitions))[:32])
    ),
    "a tick: the last age does not run": testing(20, lambda net, state, t, row, age: not any(any(ages[:-1]) for ages in state.counts)),
    "a start: 25 before 24": barring(START, 25, 24, 29),
    "a start: no firing not asked": barring(START, 25, 29),
    "a start: firings of any transition": testing(24, lambda net, state, t, row, age: not any(ages[0] for ages in state.counts)),
    "a start: firings of any age": testing(24, lambda net, state, t, row, age: not any(state.counts[t])),
    "a start: firings by their low byte": testing(24, lambda net, state, t, row, age: state.counts[t][0] % 256 == 0),
    "a start: a place full a token early": testing(25, lambda net, state, t, row, age: max(reference.more(state.marking, row.inputs)) >= FULL),
    "a start: a place may pass by one": testing(25, lambda net, state, t, row, age: max(reference.more(state.marking, row.inputs)) > FULL + 1),
    "a start: 25 of the outputs": testing(25, lambda net, state, t, row, age: max(reference.more(state.marking, row.outputs)) > FULL),
    "a start: 25 of 8 places": testing(25, lambda net, state, t, row, age: max(reference.more(state.marking[:8], row.inputs)) > FULL),
    "a start: 25 of 63 places": testing(25, lambda net, state, t, row, age: max(reference.more(state.marking[:63], row.inputs)) > FULL),
    "a start: a full place not asked": barring(START, 24, 29),
    "an end: 26 before 15": barring(END, 26, 15, 28, 27),
    "an end: 27 before 15": barring(END, 27, 15, 28, 26),
    "an end: 27 before 26": barring(END, 15, 28, 27, 26),
    "an end: the sfd not asked": testing(15, lambda net, state, t, row, age: age > row.lfd),
    "an end: D asked for the lfd": testing(15, lambda net, state, t, row, age: not row.sfd <= age < net.depth),
    "an end: the age modulo 64": testing(15, lambda net, state, t, row, age: not row.sfd <= age % 64 <= row.lfd),
    "an end: too few tokens not asked": barring(END, 15, 28, 27),
    "an end: a token more is asked": testing(26, lambda net, state, t, row, age: min(reference.less(state.marking, row.outputs)) <= 0),
    "an end: a place may lack one": testing(26, lambda net, state, t, row, age: min(reference.less(state.marking, row.outputs)) < -1),
    "an end: 26 of the inputs": testing(26, lambda net, state, t, row, age: min(reference.less(state.marking, row.inputs)) < 0),
    "an end: 26 of 8 places": testing(26, lambda net, state, t, row, age: min(reference.less(state.marking[:8], row.outputs)) < 0),
    "an end: 26 of 63 places": testing(26, lambda net, state, t, row, age: min(reference.less(state.marking[:63], row.outputs)) < 0),
    "an end: 26 where one place is short": testing(
        26, lambda net, state, t, row, age: sum(rest < 0 for rest in reference.less(state.marking, row.outputs)) == 1
    ),
    "an end: full at 65,534": testing(27, lambda net, state, t, row, age: age < net.depth and state.counts[t][age] >= FULL - 1),
    "an end: full by the low byte": testing(27, lambda net, state, t, row, age: age < net.depth and state.counts[t][age] % 256 == 255),
    "an end: full at any age": testing(27, lambda net, state, t, row, age: FULL in state.counts[t]),
    "an end: full by any transition": testing(
        27, lambda net, state, t, row, age: age < net.depth and any(ages[age] == FULL for ages in state.counts)
    ),
    "an end: a full count not asked": barring(END, 15, 28, 26),
}


# ---- the order within a step (W5)


def is_start(first, second):
    return 1 <= first <= 64 and second == 0


def is_tick(first, second):
    return first == 0 and second == 0


def is_end(first, second):
    return 65 <= first <= 128


def is_nothing(first, second):
    return first >= 129


def never(first, second):
    return False


def either(one, other):
    return lambda first, second: one(first, second) or other(first, second)


def by_pairs(sets=is_start, clears=is_tick):
    """The fact set and cleared by other pairs of bytes."""
    return {"fact_after": lambda started, pair: 1 if sets(*pair) else 0 if clears(*pair) else started}


def given_as(fact):
    """The calls take that fact whatever they are given."""

    def taking(right):
        return lambda *arguments: right(*arguments[:-1], fact)

    return {name: taking(getattr(reference, name)) for name in ("event", "back", "run", "walk")}


def run_telling(fact):
    """A run that tells another fact: a function of its answer, the log's events and the fact that it was given."""
    right = reference.run

    def run(net, buffer, log, started):
        told = right(net, buffer, log, started)
        pairs = None if 1 <= told[0] <= 10 else reference.read_log(log)
        return *told[:-1], fact(told, pairs, started)

    return {"run": run}


def unless_barred(fact):
    """The same where the call is not refused by 1 to 10."""
    return run_telling(lambda told, pairs, started: told[-1] if pairs is None else fact(told, pairs, started))


def walk_reading(changes):
    """A walk that reads the facts otherwise: a function of the net's bytes, n and the fact that was given."""
    right = reference.walk

    def walk(net, buffer, log, n, started):
        with misread(changes(net, n, started)):
            return right(net, buffer, log, n, started)

    return {"walk": walk}


def facts_by(read):
    """All facts of a log by another reading, a function of its events and the fact that was given."""
    return {"facts": read}


right_facts = reference.facts


def facts_of_walked(net, n, started):
    """Those in front of the last n events are not looked at."""

    def read(pairs, started):
        in_front = len(pairs) - n
        return [started] * in_front + right_facts(pairs[in_front:], started)

    return facts_by(read)


def facts_below_t(net, n, started):
    """A start of a transition that the net does not have sets nothing."""
    transitions = net[6] if len(net) > 6 else 64
    return by_pairs(sets=lambda first, second: is_start(first, second) and first <= transitions)


def facts_in_all(net, n, started):
    """The fact behind the whole log for every event."""
    return facts_by(lambda pairs, started: [right_facts(pairs, started)[-1]] * (len(pairs) + 1))


def read_as(number, test):
    """One number's test by another reading, forward and back, given the net, the state, the transition, its row, the age
    and the fact."""
    return {name: tests_with(getattr(reference, name), number, test) for name in ("event_tests", "back_tests")}


def owed_where(holds):
    """An end is said to be owed where that holds of a transition's row, its counts and D."""
    rows = lambda net, state: zip(net.transitions, state.counts)
    return {"old_end_owed": lambda net, state: any(holds(row, ages, net.depth) for row, ages in rows(net, state))}


def owed_of(chosen):
    """The ends owed of some transitions alone: of those, of all and of the event's own one a function gives them."""

    def test(net, state, t, row, age, started):
        transitions = range(len(net.transitions))
        return any(net.transitions[u].lfd >= 1 and reference.is_due(net, state, u) for u in chosen(transitions, t))

    return read_as(29, test)


OF_OPENINGS = {
    "a tick clears nothing": by_pairs(clears=never),
    "a start sets nothing": by_pairs(sets=never),
    "an end sets it": by_pairs(sets=either(is_start, is_end)),
    "an end clears it": by_pairs(clears=either(is_tick, is_end)),
    "an end of age 0 clears it": by_pairs(clears=lambda first, second: is_tick(first, second) or is_end(first, second) and second == 0),
    "65, 0 sets it": by_pairs(sets=lambda first, second: 1 <= first <= 65 and second == 0),
    "64, 0 sets nothing": by_pairs(sets=lambda first, second: 1 <= first <= 63 and second == 0),
    "1..64 and any second byte sets it": by_pairs(sets=lambda first, second: 1 <= first <= 64),
    "0 and any second byte clears it": by_pairs(clears=lambda first, second: first == 0),
    "1..64 and another second byte clears it": by_pairs(clears=lambda first, second: first <= 64),
    "129..255 sets it": by_pairs(sets=either(is_start, is_nothing)),
    "129..255 clears it": by_pairs(clears=either(is_tick, is_nothing)),
    "the given fact is taken for 0": given_as(0),
    "the given fact is taken for 1": given_as(1),
    "the given fact for every event": facts_by(lambda pairs, started: [started] * (len(pairs) + 1)),
    "a walk: the events in front not looked at": walk_reading(facts_of_walked),
    "a walk: a start not below T sets nothing": walk_reading(facts_below_t),
    "a walk: the fact behind the whole log": walk_reading(facts_in_all),
    "a run tells the fact that it was given": unless_barred(lambda told, pairs, started: started),
    "a run tells the one behind the refused event": unless_barred(
        lambda told, pairs, started: reference.facts(pairs, started)[min(told[2] + 1, len(pairs))]
    ),
    "a run tells the one behind the whole log": unless_barred(lambda told, pairs, started: reference.facts(pairs, started)[-1]),
    "a refused run tells 0": unless_barred(lambda told, pairs, started: 0 if told[0] else told[-1]),
    "a run tells 1 behind any start": unless_barred(
        lambda told, pairs, started: int(started or any(is_start(*pair) for pair in pairs[: told[2]]))
    ),
    "1 to 10 tell the fact that was given": run_telling(lambda told, pairs, started: started if pairs is None else told[-1]),
    "28 of age 0 too": {"is_late": lambda age, started: started == 1},
    "28 from age 2 on": {"is_late": lambda age, started: age >= 2 and started == 1},
    "28 whatever the fact": {"is_late": lambda age, started: age >= 1},
    "28 where no start was made": {"is_late": lambda age, started: age >= 1 and started == 0},
    "28 where a firing has age 0": read_as(
        28, lambda net, state, t, row, age, started: age >= 1 and any(ages[0] for ages in state.counts)
    ),
    "28 of owed ends alone": read_as(28, lambda net, state, t, row, age, started: started == 1 and 1 <= age == row.lfd),
    "28 not of owed ends": read_as(28, lambda net, state, t, row, age, started: started == 1 and 1 <= age != row.lfd),
    "29 of ends at lfd 0 too": {"old_end_owed": reference.end_owed},
    "29 from lfd 2 on": owed_where(lambda row, ages, depth: row.lfd >= 2 and ages[row.lfd] > 0),
    "29 of any firing of age 1 or more": owed_where(lambda row, ages, depth: any(ages[1:])),
    "29 of firings that may end": owed_where(lambda row, ages, depth: any(ages[max(row.sfd, 1) :])),
    "29 by the low byte": owed_where(lambda row, ages, depth: row.lfd >= 1 and ages[row.lfd] % 256 > 0),
    "29 of the last age": owed_where(lambda row, ages, depth: depth > 1 and ages[depth - 1] > 0),
    "29 of its own ends alone": owed_of(lambda transitions, t: [t]),
    "29 of other ends alone": owed_of(lambda transitions, t: [u for u in transitions if u != t]),
    "29 of 32 transitions": owed_of(lambda transitions, t: transitions[:32]),
    "29 of 63 transitions": owed_of(lambda transitions, t: transitions[:63]),
    "29 of all but the last transition": owed_of(lambda transitions, t: transitions[:-1]),
    "29 after a start alone": read_as(29, lambda net, state, t, row, age, started: started == 1 and reference.old_end_owed(net, state)),
    "29 where no start was made": read_as(29, lambda net, state, t, row, age, started: started == 0 and reference.old_end_owed(net, state)),
    "28 left out": asking(END, 15, 16, 17),
    "28 before 15": asking(END, 28, 15, 16, 17),
    "28 behind 16": asking(END, 15, 16, 28, 17),
    "28 behind 17": asking(END, 15, 16, 17, 28),
    "29 left out": asking(START, 13, 14),
    "29 before 13": asking(START, 29, 13, 14),
    "29 behind 14": asking(START, 13, 14, 29),
    "back: 28 left out": barring(END, 15, 26, 27),
    "back: 28 before 15": barring(END, 28, 15, 26, 27),
    "back: 28 behind 26": barring(END, 15, 26, 28, 27),
    "back: 28 behind 27": barring(END, 15, 26, 27, 28),
    "back: 29 left out": barring(START, 24, 25),
    "back: 29 before 24": barring(START, 29, 24, 25),
    "back: 29 before 25": barring(START, 24, 29, 25),
}

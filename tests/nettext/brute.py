"""The warnings against brute force: every state that lawful logs of a tiny net lead to, by the reference, and every small round."""

import itertools

import forms
import material
import reference
from faults import hold
from nettext.flow import Flow, can_start, counted, rounds, why_never
from reference import END, START, TICK, Event, Net, State, Transition

MOST_STATES = 150
MOST_AHEAD = 40
MOST_TIMES = 3


# ---- tiny nets


def weights(rng, places, most):
    row = [rng.choice([0, 0, rng.randint(0, most)]) for _ in range(places)]
    if not any(row):
        row[rng.randrange(places)] = rng.randint(1, most)
    return tuple(row)


def tiny_net(rng):
    """A few places and tokens, many durations of 0, and now and then a transition that undoes another."""
    places, transitions, most = rng.randint(1, 4), rng.randint(1, 4), rng.choice([1, 1, 2, 3])
    rows = []
    for _ in range(transitions):
        sfd = rng.choice([0, 0, 0, 1])
        takes, gives = weights(rng, places, most), weights(rng, places, most)
        if rows and rng.random() < 0.25:
            takes, gives = rows[-1].outputs, rows[-1].inputs
        rows.append(Transition(sfd, sfd + rng.choice([0, 0, 1]), takes, gives))
    return Net(tuple(rng.choice([0, 0, 1, 2]) for _ in range(places)), tuple(rows))


# ---- states that lawful logs lead to


def events_of(net):
    rows = list(enumerate(net.transitions))
    ends = [Event(END, t, age) for t, row in rows for age in range(row.sfd, row.lfd + 1)]
    return [*(Event(START, t) for t, _ in rows), *ends, Event(TICK)]


class Search:
    """The states from the initial one on, up to a number of them. A state stands with the fact whether a start has happened."""

    def __init__(self, net):
        self.net, self.events = net, events_of(net)
        self.started = set()
        self.ahead = {}  # of each state that was looked at, what the events but a tick lead to
        queue = [(reference.initial_state(net), 0)]
        seen = set(queue)
        for at in queue:
            if len(self.ahead) == MOST_STATES:
                break
            after, ticked = self.look(*at)
            self.ahead[at] = after
            for new in after + ticked:
                if new not in seen:
                    seen.add(new)
                    queue.append(new)
        self.whole = len(self.ahead) == len(seen)

    def look(self, state, fact):
        """What is reached by an event that is not a tick, and by one."""
        after, ticked = [], []
        for event in self.events:
            if reference.number_met(self.net, state, event, fact) == 0:
                fact_then = reference.fact_after(fact, reference.bytes_of(event))
                new = reference.changed(self.net, state, event), fact_then
                (ticked if event.kind == TICK else after).append(new)
                if event.kind == START:
                    self.started.add(event.transition)
        return after, ticked

    def endless(self):
        """Whether some state comes within its step to one that has no less anywhere, and so may go on for ever."""
        return any(self.comes_back(at) for at in self.ahead)

    def comes_back(self, at):
        seen, queue = set(), list(self.ahead[at])
        while queue and len(seen) < MOST_AHEAD:
            new = queue.pop()
            if no_less(new[0], at[0]):
                return True
            if new not in seen:
                seen.add(new)
                queue += self.ahead.get(new, [])
        return False


def flat(state):
    return [*state.marking, *(count for row in state.counts for count in row)]


def no_less(state, than):
    return all(a >= b for a, b in zip(flat(state), flat(than)))


# ---- transitions that never start


def plainly_never(net):
    """A second reading of the simple rule: a place that no transition which may start gives more than it takes keeps at most its tokens."""
    may = set()
    for _ in net.transitions:
        fed = {p for t in may for p in range(len(net.marking)) if net.transitions[t].outputs[p] > net.transitions[t].inputs[p]}
        for t, row in enumerate(net.transitions):
            if all(p in fed or row.inputs[p] <= net.marking[p] for p in range(len(net.marking))):
                may.add(t)
    return set(range(len(net.transitions))) - may


def check_never(net, flow, found, search):
    never = set(range(len(net.transitions))) - found
    hold(not never & search.started, "a lawful log starts what was said never to start:", never & search.started, net)
    hold(plainly_never(net) <= never, "nothing was said of", plainly_never(net) - never, net)
    for t in never:
        numbers = why_never(flow, t, found)
        row = net.transitions[t]
        hold(numbers and all(number > 0 for number in numbers.values()), "no reason why", t, net)
        for other in found - {t}:
            hold(sum(n * flow.adds[other][p] for p, n in numbers.items()) <= 0, "a transition adds", other, numbers, net)
        needs, has = (sum(n * of[p] for p, n in numbers.items()) for of in (row.inputs, net.marking))
        hold(needs > has, "there is enough for", t, numbers, net)
        for place in numbers if len(numbers) > 1 else []:
            hold(not counted(flow, t, found, [p for p in numbers if p != place]), "more places than needed for", t, numbers, net)
    return len(never), len(set(range(len(net.transitions))) - search.started) if search.whole else None


# ---- rounds


def leaves_no_less(flow, times):
    return all(sum(often * flow.adds[t][p] for t, often in times.items()) >= 0 for p in range(len(flow.initial)))


def small_rounds(flow, among):
    """Every round in which each of these transitions fires up to three times."""
    for often in itertools.product(range(MOST_TIMES + 1), repeat=len(among)):
        times = {t: n for t, n in zip(among, often) if n}
        if times and leaves_no_less(flow, times):
            yield times


def go_round(net, times):
    """Fires a round by the reference, one firing after the other, where there are tokens for all; whether no tick could pass in it."""
    enough = tuple(sum(n * net.transitions[t].inputs[p] for t, n in times.items()) for p in range(len(net.marking)))
    first = state = State(enough, reference.initial_state(net).counts)
    fact, blocked = 0, True
    for t in (t for t, n in times.items() for _ in range(n)):
        for event in (Event(START, t), Event(END, t, 0)):
            blocked = blocked and reference.number_met(net, state, Event(TICK), fact) in (18, 19)
            hold(reference.number_met(net, state, event, fact) == 0, "the round cannot go on", times, event, net)
            state, fact = reference.changed(net, state, event), 1
    hold(no_less(state, first), "the round uses something up", times, net)
    return blocked


def check_rounds(net, stored, flow, found, search):
    told = list(rounds(stored, flow, found))
    for times in told:
        rows = {t: net.transitions[t] for t in times}
        hold(set(times) <= found and all(row.sfd == 0 for row in rows.values()), "no round of no duration", times, net)
        hold(go_round(net, times) or any(row.lfd for row in rows.values()), "a tick may pass in the round", times, net)
        for small in small_rounds(flow, list(times)):
            hold(set(small) == set(times), "more transitions than the round needs", times, small, net)
    quick = [t for t in sorted(found) if net.transitions[t].sfd == 0]
    at_once = [t for t in quick if net.transitions[t].lfd == 0]
    lowest = {min(times) for times in told}
    for small in small_rounds(flow, quick):
        hold(lowest & set(small), "a round without a word", small, net)
    forced = [times for times in told if not any(net.transitions[t].lfd for t in times)]
    hold(forced or not any(small_rounds(flow, at_once)), "a round that lets no tick pass is not told as one", net)
    endless = search.endless()
    hold(told or not endless, "a step may go on for ever, and nothing is said", net)
    return bool(told), endless


def check_net(rng, counts):
    """One tiny net, all of it."""
    net = tiny_net(rng)
    stored = forms.Net(material.encode_net(net))
    flow, search = Flow(stored), Search(net)
    found = can_start(flow)
    never, truly = check_never(net, flow, found, search)
    told, endless = check_rounds(net, stored, flow, found, search)
    counts["tiny nets"] += 1
    counts["states"] += len(search.ahead)
    counts["never"] += never
    if truly is not None:
        counts["nets searched to the end"] += 1
        counts["never there"] += truly
        counts["told there"] += never
    counts["with a round"] += told
    counts["really endless"] += endless

"""Which firing made which token, and which firing took it.

The rule is that of the timed process of document 004, Section 4.1, as request W10 has it: tokens and firings are numbered as they are made,
initial tokens by place, then each event's by place; where several would do, the lowest numbers are taken. That is the oldest first. It is
worked out here, from accepted events alone, and judges nothing. The state that it comes to is held to the engine's at every moment asked."""

from collections import deque

from forms import START, STATE_HEAD, TICK, kind, transition_of

NEVER = -1  # an event that there is not: before the log, or not yet


class Firing:
    """One run of a transition. `start` and `end` are events, `since` and `until` ticks."""

    def __init__(self, transition, start, since):
        self.transition, self.start, self.since = transition, start, since
        self.end = self.until = NEVER

    def runs(self):
        return self.end == NEVER

    def listed(self):
        return [self.transition, self.start, self.end, self.since, self.until]


class Tokens:
    """Tokens of one place with one maker: made by an event, as the end of a firing, and taken by an event."""

    def __init__(self, place, made, maker, count):
        self.place, self.made, self.maker, self.count = place, made, maker, count
        self.taken = NEVER

    def listed(self):
        return [self.place, self.made, self.maker, self.taken, self.count]


class Causes:
    def __init__(self, net, first):
        """Begins with a state: its tokens and firings have no maker."""
        self.net, self.tick = net, 0
        self.state = bytearray(first[: net.state_bytes])
        self.firings, self.tokens = [], []
        self.there = [deque() for _ in range(net.places)]  # the tokens in each place, the oldest first
        self.running = {}  # (transition, age) to its firings, the oldest first
        self.took = {}  # a start's event to the tokens that it took
        for place, count in enumerate(net.marking(first)):
            self.put(place, count, NEVER, NEVER)
        for (transition, age), count in sorted(net.counts(first).items(), key=lambda item: -item[0][1]):
            for _ in range(count):
                self.begin(transition, age, NEVER)

    def do(self, number, event):
        """One accepted event, by its number in the log."""
        what = kind(event)
        if what == TICK:
            self.pass_tick()
        elif what == START:
            self.begin_by(number, transition_of(event))
        else:
            self.finish(number, transition_of(event), event[1])

    def pass_tick(self):
        """Every firing is one older. Rows of the state's clock end with a count of 0 here, so that the whole clock moves as one block."""
        clock = STATE_HEAD + 2 * self.net.places
        self.state[clock + 2 :] = self.state[clock:-2]
        self.state[clock : clock + 2] = b"\0\0"
        self.tick += 1
        self.running = {(transition, age + 1): firings for (transition, age), firings in self.running.items() if firings}

    def begin_by(self, number, transition):
        """A start takes its tokens, the oldest first."""
        self.took[number] = [taken for place, weight in self.net.takes[transition] for taken in self.take(place, weight, number)]
        self.add(STATE_HEAD + 2 * self.net.places + 2 * transition * self.net.ages, 1)
        self.begin(transition, 0, number)

    def begin(self, transition, age, number):
        self.running.setdefault((transition, age), deque()).append(len(self.firings))
        self.firings.append(Firing(transition, number, self.tick - age))

    def finish(self, number, transition, age):
        """An end of the oldest firing of that age gives its tokens."""
        ended = self.running[transition, age].popleft()
        self.firings[ended].end, self.firings[ended].until = number, self.tick
        self.add(STATE_HEAD + 2 * self.net.places + 2 * (transition * self.net.ages + age), -1)
        for place, weight in self.net.gives[transition]:
            self.add(STATE_HEAD + 2 * place, weight)
            self.put(place, weight, number, ended)

    def put(self, place, count, number, maker):
        if count:
            self.there[place].append(len(self.tokens))
            self.tokens.append(Tokens(place, number, maker, count))

    def take(self, place, count, number):
        """The numbers of the tokens taken. Those of one maker stand together, and are parted where not all are taken."""
        self.add(STATE_HEAD + 2 * place, -count)
        taken = []
        while count:
            oldest = self.tokens[self.there[place][0]]
            if oldest.count <= count:
                taken.append(self.there[place].popleft())
            else:
                oldest.count -= count
                taken.append(len(self.tokens))
                self.tokens.append(Tokens(place, oldest.made, oldest.maker, count))
            self.tokens[taken[-1]].taken = number
            count -= self.tokens[taken[-1]].count
        return taken

    def add(self, at, change):
        """A change to the number of two bytes there."""
        self.state[at : at + 2] = (int.from_bytes(self.state[at : at + 2], "big") + change).to_bytes(2, "big")

    def wanted(self, transition):
        """The tokens that a start of the transition would take now, as far as there are enough."""
        found = []
        for place, weight in self.net.takes[transition]:
            for number in self.there[place]:
                if weight > 0:
                    found.append(number)
                    weight -= self.tokens[number].count
        return found

    def waited_for(self, tokens):
        """The firing whose end made the last of these tokens, or None where no firing did: that is what was waited for."""
        last = max((self.tokens[number] for number in tokens), key=lambda one: one.made, default=None)
        return None if last is None or last.maker == NEVER else last.maker

    def chain(self, tokens):
        """What was waited for, and what that waited for, and so on, the latest first."""
        found, number = [], self.waited_for(tokens)
        while number is not None:
            found.append(number)
            number = self.waited_for(self.inputs(number))
        return found

    def inputs(self, firing):
        """The tokens that a firing took."""
        return self.took.get(self.firings[firing].start, [])

    def chain_to(self, firing):
        """The firing and what it waited for."""
        return [firing] + self.chain(self.inputs(firing))

    def now_running(self):
        """The firings that run now, the oldest first."""
        return sorted(number for firings in self.running.values() for number in firings)

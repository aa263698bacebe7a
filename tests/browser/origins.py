"""Who made which token and who took it, worked out once more: in each place the oldest token is taken first (request W10)."""

from collections import deque

BEFORE = None  # the maker of a token that was there from the beginning


class Origins:
    """Follows the tokens of the accepted events. Tokens with one maker stand together, as [maker, count]; a maker is a firing's number."""

    def __init__(self, truth):
        self.net, self.firings = truth.net, truth.firings
        self.by_start = {firing.start: number for number, firing in enumerate(self.firings) if firing.start is not None}
        self.by_end = {firing.end: number for number, firing in enumerate(self.firings) if firing.end is not None}
        self.took = {}  # a firing's number to the tokens that it took: (place, maker, count)
        self.there = [deque([[BEFORE, count]] if count else []) for count in truth.moment(0).marking]
        self.history = [self.makers()]
        for number in range(truth.done):
            self.do(number)
            self.history.append(self.makers())

    def do(self, number):
        if number in self.by_start:
            firing = self.by_start[number]
            weights = self.net.transitions[self.firings[firing].transition].inputs
            self.took[firing] = [one for place, weight in enumerate(weights) for one in self.take(place, weight)]
        elif number in self.by_end:
            firing = self.by_end[number]
            for place, weight in enumerate(self.net.transitions[self.firings[firing].transition].outputs):
                if weight:
                    self.there[place].append([firing, weight])

    def take(self, place, count):
        """Takes so many tokens from a place: (place, maker, count)."""
        taken, queue = [], self.there[place]
        while count:
            some = min(count, queue[0][1])
            taken.append((place, queue[0][0], some))
            queue[0][1] -= some
            count -= some
            if not queue[0][1]:
                queue.popleft()
        return taken

    def makers(self):
        """The tokens in each place by maker, the oldest first."""
        return [tuple((maker, count) for maker, count in queue) for queue in self.there]

    def gave(self, firing):
        """Where the tokens went that a firing made: (place, the taker's number or None, count)."""
        taken = [(place, taker, count) for taker, tokens in self.took.items() for place, maker, count in tokens if maker == firing]
        return taken + [(place, None, count) for place, makers in enumerate(self.history[-1]) for maker, count in makers if maker == firing]

    def wanted(self, done, transition):
        """The tokens that a start would take behind so many events."""
        found = []
        for place, weight in enumerate(self.net.transitions[transition].inputs):
            for maker, count in self.history[done][place]:
                if weight > 0:
                    found.append((place, maker, min(weight, count)))
                weight -= count
        return found

    def waited_for(self, tokens):
        """The firing whose end made the last of these tokens, or None."""
        made = [maker for _, maker, _ in tokens if maker is not BEFORE]
        return max(made, key=lambda maker: self.firings[maker].end, default=None)

    def chain(self, tokens):
        """What was waited for, and what that waited for, and so on, the latest first."""
        found, firing = [], self.waited_for(tokens)
        while firing is not None:
            found.append(firing)
            firing = self.waited_for(self.took.get(firing, []))
        return found

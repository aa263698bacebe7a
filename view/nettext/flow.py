"""What can be said of a net by counting tokens alone: which transitions can never start, and which rounds of no duration there are.

Time, and the order of a step, only ever forbid something. So what counting shows to be impossible no lawful log does.
"""

from nettext.linear import fewest, solve


def by_place(arcs, places):
    weights = dict(arcs)
    return [weights.get(place, 0) for place in range(places)]


class Flow:
    """A net as numbers: what each transition takes from each place, and what a whole firing of it adds there, below 0 for less."""

    def __init__(self, net):
        self.initial = net.initial
        self.takes = [by_place(arcs, net.places) for arcs in net.takes]
        self.gives = [by_place(arcs, net.places) for arcs in net.gives]
        self.adds = [[give - take for give, take in zip(*rows)] for rows in zip(self.gives, self.takes)]


# ---- transitions that can never start


def fed(flow, among):
    """Those of the transitions that can start if a place that one of them adds to may come to hold any number of tokens.

    More and more of them are found: a place that none of those found adds to never holds more than at the beginning.
    """
    found = set()
    while True:
        growing = {place for t in found for place, added in enumerate(flow.adds[t]) if added > 0}
        more = {
            t
            for t in among - found
            if all(place in growing or taken <= flow.initial[place] for place, taken in enumerate(flow.takes[t]))
        }
        if not more:
            return found
        found |= more


def counted(flow, t, among, places):
    """Numbers for these places, a token counting as much, by which no other of the transitions adds anything and t takes more than there
    is at the beginning. So t never starts while only those others have. None where there are no such numbers."""
    rows = [[-flow.adds[other][place] for place in places] for other in sorted(among - {t})]
    rows.append([flow.takes[t][place] - flow.initial[place] for place in places])
    return solve(rows, [0] * (len(rows) - 1) + [1])[0]


def can_start(flow):
    """The transitions that counting lets start. No lawful log ever starts one of the others."""
    places = range(len(flow.initial))
    found = fed(flow, set(range(len(flow.takes))))
    while True:
        never = {t for t in found if counted(flow, t, found, places)}
        if not never:
            return found
        found = fed(flow, found - never)


def why_never(flow, t, startable):
    """{place: number} as few places as it takes to show that t never starts: one alone, counted once, where one will do."""
    others = startable - {t}
    for place, taken in enumerate(flow.takes[t]):
        if taken > flow.initial[place] and all(flow.adds[other][place] <= 0 for other in others):
            return {place: 1}
    return fewest(range(len(flow.initial)), lambda places: counted(flow, t, others, places))


# ---- rounds of no duration


def a_round(flow, among):
    """{transition: times}, as few of the transitions as it takes: fired so often they leave no place with fewer tokens. None where
    there is no such round, and then every sequence of firings of these transitions comes to an end, whatever the marking."""

    def times(some):
        return solve([[-added for added in flow.adds[t]] for t in some], [1] * len(some))[1]

    return fewest(among, times)


def rounds(net, flow, startable):
    """Rounds of transitions that can start, with an sfd of 0: first those whose lfd is 0 too. Each next one leaves out the lowest
    transition of each one before, and so in the end every round has one of these lowest ones in it."""
    quick = [t for t in sorted(startable) if net.sfd[t] == 0]
    for most in (0, max(net.lfd)):
        among = [t for t in quick if net.lfd[t] <= most]
        found = a_round(flow, among)
        while found:
            yield found
            quick.remove(min(found))
            among.remove(min(found))
            found = a_round(flow, among)

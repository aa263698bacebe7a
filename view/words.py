"""The words for people who know the product and not the net: a transition is an activity, an enabled one had to start, a firing at its lfd
had to end. Places and tokens keep their names, so that support and designers can talk."""

import re

from forms import NOTHING, START, TICK, kind, transition_of


class Words:
    """Words about one net, with the names of its places and activities."""

    def __init__(self, net, names):
        self.net, self.names = net, names

    def place(self, number):
        return quoted(self.names.place(number))

    def activity(self, number):
        """A box may name an activity that its net does not have, and the file of names too."""
        known = self.net is None or number < self.net.transitions
        return quoted(self.names.activity(number)) + ("" if known else " (not in this net)")

    def event(self, event):
        """What an event says."""
        what = kind(event)
        if what == TICK:
            return "time passes: one tick"
        if what == NOTHING:
            return "bytes %02x %02x, which are no event" % event
        name = self.activity(transition_of(event))
        return name + " starts" if what == START else "%s ends %s" % (name, after(event[1]))

    def deed(self, event):
        """The same, with the box as the one who did it."""
        what = kind(event)
        if what == TICK:
            return "let one tick pass"
        if what == NOTHING:
            return "wrote bytes that are no event"
        name = self.activity(transition_of(event))
        return "started " + name if what == START else "ended %s %s" % (name, after(event[1]))

    def lasting(self, transition):
        """How long an activity takes."""
        shortest, longest = self.net.sfd[transition], self.net.lfd[transition]
        if longest == 0:
            return "takes no time"
        if shortest == longest:
            return "takes exactly " + ticks(shortest)
        return "takes %d to %s" % (shortest, ticks(longest))

    def held(self, transition, marking):
        """What the places held that an activity takes from."""
        return listed("%s held %s" % (self.place(place), tokens(marking[place])) for place, _ in self.net.takes[transition])

    def needs(self, transition):
        return listed("%s in %s" % (tokens(weight), self.place(place)) for place, weight in self.net.takes[transition])

    def activities(self, numbers, last="and"):
        return listed((self.activity(number) for number in numbers), last)

    def activities_by_group(self, groups):
        """Within a group one or the other, and something of each group."""
        return listed(self.activities(group, "or") for group in groups)


# Letters that run from right to left, and signs that turn the direction: they would turn the words around a name as well.
TURNS = re.compile("[\u0590-\u08ff\u200e\u200f\u202a-\u202e\u2066-\u2069\ufb1d-\ufdff\ufe70-\ufefc]")


def isolated(name):
    """Such a name is shut in between two signs that are not seen."""
    return "\u2068%s\u2069" % name if TURNS.search(name) else name


def quoted(name):
    return "\u201c" + isolated(name) + "\u201d"


def counted(number, one, many=None):
    return "%s %s" % (format(number, ","), one if number == 1 else many or one + "s")


def ticks(number):
    return counted(number, "tick")


def tokens(number):
    return counted(number, "token")


def events(number):
    return counted(number, "event")


def all_events(number):
    return "the one event" if number == 1 else "all " + events(number)


def after(age):
    return "after " + ticks(age) if age else "at once"


def listed(things, last="and"):
    """Things in a sentence: a, b and c."""
    things = list(things)
    if len(things) < 2:
        return "".join(things)
    return ", ".join(things[:-1]) + " " + last + " " + things[-1]

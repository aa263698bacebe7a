"""A net as a text has it: names, places in the text, and the bytes that it comes to."""

from typing import NamedTuple

VERSION = 1
NET_HEAD = 7
MOST = {"place": 64, "transition": 64}


class Place(NamedTuple):
    name: str
    tokens: int
    line: int
    column: int


class Arc(NamedTuple):
    place: str
    weight: int
    column: int


class Transition(NamedTuple):
    name: str
    sfd: int
    lfd: int
    takes: list
    gives: list
    line: int
    column: int


class TextNet(NamedTuple):
    places: list
    transitions: list

    def weights(self, arcs):
        """The weight of each place, 0 where no arc names it."""
        given = {arc.place: arc.weight for arc in arcs}
        return bytes(given.get(place.name, 0) for place in self.places)

    def stored(self):
        """The bytes of the net."""
        body = b"".join(place.tokens.to_bytes(2, "big") for place in self.places)
        for row in self.transitions:
            body += bytes([row.sfd, row.lfd]) + self.weights(row.takes) + self.weights(row.gives)
        sizes = bytes([len(self.places), len(self.transitions)])
        return bytes([VERSION]) + (NET_HEAD + len(body)).to_bytes(4, "big") + sizes + body

    def names_file(self):
        """The file of names, for the commands that take the net's bytes."""
        rows = [("place", self.places), ("transition", self.transitions)]
        return "".join("%s %d %s\n" % (kind, n, thing.name) for kind, things in rows for n, thing in enumerate(things)).encode()

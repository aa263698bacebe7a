#!/usr/bin/env python3
"""Answers a stream of requests as the program `menuask` must.

usage: ask.py <requests >lines
"""

import sys

import reference
import wire

# the slices that a call may write, which its line shows as it left them
WRITTEN = {
    "initial": ("state",),
    "event": ("state",),
    "back": ("state",),
    "run": ("state",),
    "walk": ("state",),
    "page": ("state", "log"),
}


def answer(name, arguments):
    """The line for one request, without its end."""
    lent = {}
    for parameter, value in zip(wire.BY_NAME[name][1], arguments):
        written = parameter in WRITTEN.get(name, ())
        lent[parameter] = bytearray(value) if written else value
    fields = [name, *getattr(reference, name)(*lent.values())]
    fields += [lent[parameter].hex() or "-" for parameter in WRITTEN.get(name, ())]
    return " ".join(str(field) for field in fields)


def lines(stream):
    """The lines for a whole stream."""
    at = 0
    while at < len(stream):
        try:
            name, arguments, at = wire.decode(stream, at)
        except wire.BadRequest:
            yield "bad request"
            return
        yield answer(name, arguments)


if __name__ == "__main__":
    for line in lines(sys.stdin.buffer.read()):
        print(line)

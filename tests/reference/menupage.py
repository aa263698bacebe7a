#!/usr/bin/env python3
"""Prints what the program `menupage` must print for its arguments and its standard input.

usage: menupage.py [--log] [BUDGET] <net

The words may stand in any order. The exit status says nothing.
"""

import sys
from typing import NamedTuple

import menurun
import reference

USAGE = "usage: menupage [--log] [BUDGET] <net, where BUDGET is a number of events from 0 to 4294967295\n"
MOST = 4_294_967_295
DIGITS = frozenset("0123456789")


class Printed(NamedTuple):
    out: bytes
    err: bytes


class Usage(Exception):
    """Arguments that are none of the program's."""


def options(words):
    """Whether the log is wanted, and the budget."""
    words = list(words)
    wants_log = "--log" in words
    if wants_log:
        words.remove("--log")
    if not words:
        return wants_log, reference.MAX_EVENTS
    word = words.pop()
    if words or not 1 <= len(word) <= 10 or not DIGITS.issuperset(word) or int(word) > MOST:
        raise Usage
    return wants_log, int(word)


def is_whole(data):
    """Whether the input is as long as its length field says, and no longer than the longest net."""
    return len(data) >= 5 and int.from_bytes(data[1:5], "big") == len(data) <= menurun.LONGEST_NET


def page(data, budget):
    """The log that is written, or none, and the lines about it."""
    number, index = reference.check_net(data) if is_whole(data) else (1, 0)
    if number:
        return b"", f"stop 0\nresult {number} {index} 0 0 0 0 0\n"
    buffer = bytearray(reference.state_length(reference.read_net(data)))
    reference.initial(data, buffer)
    room = bytearray(reference.LOG_HEAD + 2 * reference.MAX_EVENTS)
    _, _, stop, events, _ = reference.page(data, buffer, room, budget)
    log = bytes(room[: reference.LOG_HEAD + 2 * events])
    return log, f"stop {stop}\n" + menurun.output(data + log)


def printed(words, data):
    """Standard output and standard error."""
    try:
        wants_log, budget = options(words)
    except Usage:
        return Printed(b"", USAGE.encode())
    log, lines = page(data, budget)
    return Printed(log, lines.encode()) if wants_log else Printed(lines.encode(), b"")


if __name__ == "__main__":
    told = printed(sys.argv[1:], sys.stdin.buffer.read())
    sys.stdout.buffer.write(told.out)
    sys.stderr.buffer.write(told.err)

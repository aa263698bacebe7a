#!/usr/bin/env python3
"""Prints what the program `menurun` must print for its standard input.

usage: menurun.py <net-and-log
"""

import sys

import reference

LONGEST_NET = 8_455


def split(data):
    """The net and the log, or None where no whole net arrives."""
    if len(data) < 5:
        return None
    length = int.from_bytes(data[1:5], "big")
    if length > LONGEST_NET or length > len(data):
        return None
    return data[:length], data[length:]


def output(data):
    """The whole output, with the end of each line."""
    parts = split(data)
    if parts is None:
        return "result 1 0 0 0 0 0 0\n"
    net_bytes, log = parts
    number, index = reference.check_net(net_bytes)
    if number:
        return f"result {number} {index} 0 0 0 0 0\n"
    net = reference.read_net(net_bytes)
    buffer = bytearray(reference.state_length(net))
    reference.initial(net_bytes, buffer)
    number, index, done, ticks, place, shortage, _ = reference.run(net_bytes, buffer, log, reference.NO_START_MADE)
    if 1 <= number <= 10:
        return f"result {number} {index} 0 0 0 0 0\n"
    standing = reference.owed(net_bytes, buffer)[-1]
    state = reference.read_state(net, buffer)
    lines = [
        f"result {number} {index} {done} {ticks} {standing} {place} {shortage}",
        " ".join(["marks", *map(str, state.marking)]),
    ]
    for t, row in enumerate(state.counts):
        lines += [f"run {t} {age} {count}" for age, count in enumerate(row) if count > 0]
    return "".join(line + "\n" for line in lines)


if __name__ == "__main__":
    sys.stdout.write(output(sys.stdin.buffer.read()))

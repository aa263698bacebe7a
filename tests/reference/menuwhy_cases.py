#!/usr/bin/env python3
"""Seeded cases of `menuwhy`: files and options, with every kind of outcome among them.

usage: menuwhy_cases.py SEED N DIR    writes the files of N cases, each into a folder of its own, with the options and
                                      the expected output
"""

import os
import random
import sys
from typing import NamedTuple, Optional

import generate
import material
import menuwhy
import menuwhy_example
import menuwhy_material
import menuwhy_names
import reference
from menuwhy_example import realistic, realistic_lawful
from reference import Net, Transition


class Case(NamedTuple):
    net: bytes
    log: bytes
    last: Optional[bytes] = None
    names: Optional[bytes] = None
    all_steps: bool = False
    states: bool = False


def options(rng, places, transitions):
    names = menuwhy_names.a_file(rng, places, transitions) if rng.random() < 0.5 else None
    return names, rng.random() < 0.3, rng.random() < 0.3


def scrap(rng):
    """A few bytes of any kind, about as many as a length field needs."""
    return bytes([rng.choice([1, 1, 0])]) + rng.randbytes(rng.randint(0, 7))


def refused_net(rng):
    """Another file in place of the net, each number as likely as another."""
    number = rng.randint(1, 6)
    while True:
        data = material.damaged_net(rng, material.encode_net(material.any_net(rng)))
        if rng.random() < 0.1:
            data = scrap(rng)
        if reference.check_net(data)[0] == number:
            return data


def refused_log(rng, log):
    while True:
        data = material.damaged_log(rng, log)
        if rng.random() < 0.15:
            data = rng.choice([scrap, scrap, generate.menurun_long_log])(rng)
        if reference.step(data, 0)[0] == 10 and len(data) < 65_536:
            return data


def a_case(rng):
    kinds, shares = zip(*menuwhy_material.LOGS)
    net, pairs, end = rng.choices(kinds, shares)[0](rng)
    data, log = material.encode_net(net), material.encode_log(pairs)
    last = menuwhy_material.last_image(rng, net, end) if rng.random() < 0.7 else None
    kind = rng.randrange(24)
    if kind <= 1:
        data = refused_net(rng)
    if kind == 1 or kind == 2:
        log = refused_log(rng, log)
    return Case(data, log, last, *options(rng, len(net.marking), len(net.transitions)))


def longest():
    """A log of 24,000 events that keeps the rules, and the state that it leads to."""
    net = Net((2, 0), (Transition(1, 1, (1, 0), (0, 1)), Transition(0, 0, (0, 1), (1, 0))))
    data, log = material.encode_net(net), bytearray(reference.LOG_HEAD + 2 * reference.MAX_EVENTS)
    state = bytearray(reference.state_length(net))
    reference.initial(data, state)
    reference.page(data, state, log, reference.MAX_EVENTS)
    return data, bytes(log), bytes(state), menuwhy_example.NAMES


def fixed():
    """The example, with and without its fault and its options, and the longest log."""
    for files in (realistic(), realistic_lawful()):
        net, log, _, names = files
        yield Case(*files)
        yield Case(*files, True, True)
        yield Case(net, log)
        yield Case(net, log, menuwhy_example.early_state(), names)
    yield Case(*longest(), True, True)


def cases(seed, count):
    """So many cases, the fixed ones first."""
    rng = random.Random(seed)
    found = list(fixed())[:count]
    yield from found
    for _ in range(count - len(found)):
        yield a_case(rng)


def files_of(case):
    """The files of a case, by name."""
    return {name: data for name, data in case._asdict().items() if isinstance(data, bytes)}


def write_cases(seed, count, folder):
    for number, case in enumerate(cases(seed, count)):
        place = os.path.join(folder, f"{number:04}")
        os.makedirs(place, exist_ok=True)
        flags = b"--all\n" * case.all_steps + b"--states\n" * case.states
        for name, data in {**files_of(case), "options": flags, "expected": menuwhy.output(*case)}.items():
            with open(os.path.join(place, name), "wb") as file:
                file.write(data)


if __name__ == "__main__":
    if len(sys.argv) != 4:
        sys.exit(__doc__)
    write_cases(int(sys.argv[1]), int(sys.argv[2]), sys.argv[3])

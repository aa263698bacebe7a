"""The stream of requests that the program `menuask` reads."""

CAPACITY = {"net": 16_384, "state": 16_384, "log": 65_536, "weights": 65_536}
MOST = {"first": 255, "second": 255, "started": 1}

# kind byte, name of the call, its parameters: a slice is named in CAPACITY,
# any other is a number, and one named in MOST at most so large
TABLE = (
    (1, "check_net", ("net",)),
    (2, "initial", ("net", "state")),
    (3, "check_state", ("net", "state")),
    (4, "event", ("net", "state", "first", "second", "started")),
    (5, "back", ("net", "state", "first", "second", "started")),
    (6, "degree", ("net", "state", "t")),
    (7, "owed", ("net", "state")),
    (8, "run", ("net", "state", "log", "started")),
    (9, "walk", ("net", "state", "log", "n", "started")),
    (10, "step", ("log", "k")),
    (11, "page", ("net", "state", "log", "budget")),
    (12, "balance", ("net", "state", "weights")),
)
BY_KIND = {kind: (name, parameters) for kind, name, parameters in TABLE}
BY_NAME = {name: (kind, parameters) for kind, name, parameters in TABLE}


class BadRequest(Exception):
    """A request that is too long, of an unknown kind, cut short, or with a number above its most."""


def four_bytes(number):
    return number.to_bytes(4, "big")


def encode(name, *arguments):
    """The bytes of one request."""
    kind, parameters = BY_NAME[name]
    if len(arguments) != len(parameters):
        raise ValueError(f"{name} takes {len(parameters)} arguments")
    parts = [bytes([kind])]
    for parameter, value in zip(parameters, arguments):
        if parameter in CAPACITY:
            parts += [four_bytes(len(value)), bytes(value)]
        else:
            parts.append(four_bytes(value))
    return b"".join(parts)


def decode(stream, at):
    """The request at that place of the stream: name, arguments, place behind it."""

    def take(count):
        nonlocal at
        if at + count > len(stream):
            raise BadRequest
        at += count
        return stream[at - count : at]

    kind = take(1)[0]
    if kind not in BY_KIND:
        raise BadRequest
    name, parameters = BY_KIND[kind]
    arguments = []
    for parameter in parameters:
        number = int.from_bytes(take(4), "big")
        if parameter not in CAPACITY:
            if number > MOST.get(parameter, number):
                raise BadRequest
            arguments.append(number)
        elif number > CAPACITY[parameter]:
            raise BadRequest
        else:
            arguments.append(take(number))
    return name, arguments, at

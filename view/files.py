"""The files that a command is given, and what it says of them."""

import os
import sys

from names import Names

# what menuask takes (docs/ASK.md); the longest net has 8,455 bytes, the longest log 48,005
MOST_NET = MOST_STATE = 16_384
MOST_LOG = MOST_NAMES = 65_536


def complaint(text):
    """A line for standard error, with the command's name in front: this is view/NAME.py, and bin/NAME starts it."""
    return "bin/%s: %s" % (os.path.splitext(os.path.basename(sys.argv[0]))[0], text)


def front(path, most):
    """A file's first bytes, as many as asked for; None where no file is given."""
    if path is None:
        return None
    try:
        with open(path, "rb") as file:
            return file.read(most)
    except OSError as error:
        raise SystemExit(complaint("%s: %s" % (path, error.strerror)))


def contents(path, most):
    """All of a file, which must not be longer."""
    data = front(path, most + 1)
    if data is not None and len(data) > most:
        raise SystemExit(complaint("%s has more than %d bytes" % (path, most)))
    return data


def state_in(path):
    """A state, which stands at the front of its file: no state is so long that what is left out here matters."""
    return front(path, MOST_STATE)


def names_in(path):
    """The names in a file; what is no name in it is told, and does no harm."""
    names = Names(contents(path, MOST_NAMES) or b"")
    for number in names.bad_lines:
        print(complaint("%s, line %d: a line is place or transition, a number from 0 to 63 and a name of 1 to 40 bytes" % (path, number)),
              file=sys.stderr)
    return names

"""bin/draw: writes a picture of a net to standard output, as SVG."""

import argparse
import sys

from engine import Broken, Engine
from files import MOST_NET, complaint, contents, names_in
from forms import Net
from headline import of_form
from picture import NoPicture, alone, installed
from record import Refused
from words import Words


def arguments():
    parser = argparse.ArgumentParser(prog="bin/draw", description="Writes a picture of a net, as SVG, to standard output.")
    parser.add_argument("net", metavar="NET")
    parser.add_argument("--names", metavar="FILE", help="lines `place 3 adult_history` and `transition 4 children's_catalogue`")
    return parser.parse_args()


def drawn(given):
    """The picture of a net that the engine accepts."""
    data, names = contents(given.net, MOST_NET), names_in(given.names)
    with Engine() as engine:
        number, index = map(int, engine.ask("check_net", data))
    if number:
        raise SystemExit(complaint("%s (number %d)" % (of_form(Refused(number, index), Words(None, names)).title, number)))
    return alone(Net(data), names)


def main():
    given = arguments()
    if not installed():
        raise SystemExit(complaint("Graphviz, whose command is dot, lays the picture out and is not installed"))
    try:
        text = drawn(given)
    except (Broken, NoPicture) as error:
        raise SystemExit(complaint(str(error)))
    sys.stdout.reconfigure(encoding="utf-8")
    sys.stdout.write(text)


if __name__ == "__main__":
    main()

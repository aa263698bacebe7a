"""bin/report: writes a page on a log to standard output."""

import argparse
import os
import sys

import laststate
from engine import Broken, Engine
from files import MOST_LOG, MOST_NET, complaint, contents, names_in, state_in
from page import page, page_of_form
from record import Record, Refused
from words import Words


def arguments():
    parser = argparse.ArgumentParser(prog="bin/report", description="Writes a page on a log, one HTML file, to standard output.")
    parser.add_argument("net", metavar="NET")
    parser.add_argument("log", metavar="LOG")
    parser.add_argument("--last", metavar="STATE", help="the box's last state")
    parser.add_argument("--names", metavar="FILE", help="lines `place 3 adult_history` and `transition 4 children's_catalogue`")
    parser.add_argument("--first", metavar="STATE", help="the state that the log begins in; without it the net's initial one")
    parser.add_argument("--started", action="store_true", help="a start has happened in the step that the log begins in")
    return parser.parse_args()


def written(given):
    """The page."""
    net, log = contents(given.net, MOST_NET), contents(given.log, MOST_LOG)
    first, last = state_in(given.first), state_in(given.last)
    names = names_in(given.names)
    paths = ("Net", given.net), ("Log", given.log), ("First state", given.first), ("Last state", given.last)
    files = [(what, os.path.basename(path)) for what, path in paths if path]
    with Engine() as engine:
        try:
            record = Record(engine, net, log, first, int(given.started))
        except Refused as refused:
            return page_of_form(refused, Words(None, names), files)
        walked = None if last is None else laststate.walk(record, last)
        return page(record, Words(record.net, names), walked, files)


def main():
    try:
        text = written(arguments())
    except Broken as broken:
        raise SystemExit(complaint("no page is written: %s" % broken))
    sys.stdout.reconfigure(encoding="utf-8")
    sys.stdout.write(text)


if __name__ == "__main__":
    main()

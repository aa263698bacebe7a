"""The command `bin/net` (docs/NETS.md): a net's text made into bytes, only checked, or written from bytes."""

import os
import sys

import forms
from engine import Broken, Engine
from names import Names
from nettext.messages import NAMES
from nettext.reader import read
from nettext.warnings import warnings_of
from nettext.writer import written

USAGE = """usage: bin/net make [--names FILE] TEXT > NET
       bin/net check TEXT
       bin/net show [--names FILE] NET > TEXT
"""
DONE, MISTAKEN, TROUBLE, FAULT = 0, 1, 2, 3
LONGEST_NET = 8_455

# what the engine's numbers say of a net; T is the transition
REFUSALS = {
    1: "a net has at least 7 bytes, version 1 and its own length in its length field",
    2: "a net has 1 to 64 places and 1 to 64 transitions",
    3: "a net is as long as its places and transitions ask for",
    4: "transition T has an lfd that is below its sfd, or too long",
    5: "transition T takes no token from any place",
    6: "transition T gives no token to any place",
}


class Trouble(Exception):
    """The command cannot do its work: its words, a file, a terminal."""


def say(*lines):
    for line in lines:
        print(line, file=sys.stderr)


def contents(path):
    try:
        with open(path, "rb") as file:
            return file.read()
    except OSError as error:
        raise Trouble("%s: %s" % (path, error.strerror))


def write_names(path, text, data):
    if os.path.exists(path) and os.path.samefile(path, text):
        raise Trouble("%s: the file of names would be written over the text" % path)
    try:
        with open(path, "wb") as file:
            file.write(data)
    except OSError as error:
        raise Trouble("%s: %s" % (path, error.strerror))


def write_out(data):
    try:
        sys.stdout.buffer.write(data)
        sys.stdout.buffer.flush()
    except OSError as error:
        os.dup2(os.open(os.devnull, os.O_WRONLY), sys.stdout.fileno())  # nothing is left to be written at the exit
        raise Trouble("standard output: %s" % error.strerror)


def engine_on(data):
    """Number and index that the engine tells of a net's bytes."""
    try:
        with Engine() as engine:
            number, index = map(int, engine.ask("check_net", data))
    except (OSError, ValueError) as error:
        raise Broken("the engine cannot be asked: %s" % error)
    return number, index


def net_of(path):
    """The net of a text with its warnings told; None where mistakes are told in their place."""
    net, mistakes = read(contents(path))
    messages = mistakes or warnings_of(net)
    say(*(message.shown(path) for message in messages))
    return net


def check(path):
    return DONE if net_of(path) else MISTAKEN


def make(path, names_path):
    if sys.stdout.isatty():
        raise Trouble("a net is bytes, and not for a terminal: write > NET behind the command, or ask bin/net check")
    net = net_of(path)
    if not net:
        return MISTAKEN
    data = net.stored()
    number, index = engine_on(data)
    if number:
        say("bin/net: internal fault: the engine refuses the net of %s by %d, index %d; nothing is written" % (path, number, index))
        return FAULT
    if names_path:
        write_names(names_path, path, net.names_file())
    write_out(data)
    return DONE


def show(path, names_path):
    data = contents(path)
    names = Names(contents(names_path) if names_path else b"")
    say(*("%s:%d: warning: %s" % (names_path, line, NAMES["bad_line"]) for line in names.bad_lines))
    if len(data) > LONGEST_NET:
        say("%s: this is no net: it has %d bytes, and the longest net has %d" % (path, len(data), LONGEST_NET))
        return MISTAKEN
    number, index = engine_on(data)
    if number:
        say(refusal(path, data, number, index, names))
        return MISTAKEN
    text, told = written(forms.Net(data), names)
    say(*("%s: warning: %s" % (names_path, words) for words in told))
    write_out(text.encode())
    return DONE


def refusal(path, data, number, index, names):
    """Why bytes are no net. Every net has a zero byte in its length field, and a text has none."""
    thing = " ".join(["transition %d" % index, names.given["transition"].get(index, "")]).rstrip()
    behind = "; where it is a text, bin/net make makes the net of it" if data and b"\0" not in data else ""
    return "%s: the net is refused by %d: %s%s" % (path, number, REFUSALS[number].replace("transition T", thing), behind)


def options(words):
    """The file of names, or None, and the other words. --names may stand before the other file or behind it."""
    names, others = None, []
    words = list(words)
    while words:
        word = words.pop(0)
        if word == "--names" and words and names is None:
            names = words.pop(0)
        elif word.startswith("-"):
            raise Trouble("%s is not known here, or stands alone, or twice\n%s" % (word, USAGE.rstrip()))
        else:
            others.append(word)
    return names, others


def run(words):
    if words and words[0] in ("-h", "--help"):
        print(USAGE, end="")
        return DONE
    names, files = options(words[1:])
    if len(files) == 1 and words[0] in ("make", "show"):
        return {"make": make, "show": show}[words[0]](files[0], names)
    if len(files) == 1 and words[0] == "check" and names is None:
        return check(files[0])
    say(USAGE.rstrip())
    return TROUBLE


def main():
    try:
        return run(sys.argv[1:])
    except Trouble as trouble:
        say("bin/net: %s" % trouble)
        return TROUBLE
    except Broken as broken:
        say("bin/net: %s; nothing is written" % broken)
        return FAULT


if __name__ == "__main__":
    sys.exit(main())

"""Nets and names to texts and back: nets of every size, texts written in every lawful way, and texts that are damaged."""

import re

import forms
import material
import menuwhy_names
from faults import hold
from names import Names
from nettext.reader import read
from nettext.writer import written
from reference import Net, Transition

LETTERS = "abcdefgxyzABC___0123456789-'.>;()[]=+*/\\\"!?$&@^`|~äñ日€\u00a0\u2028\u0085"
SIGNS = ",", ":", "->"
BLANKS = [" "] * 6 + ["  ", "\t", " \t "]
NOTES = ["", "", "", "# a note", "#", " # place x 1: -> ,", "#\t日本"]
PIECES = [" ", "#", ",", ":", "->", "..", "0", "1", "64", "255", "256", "65536", "place", "transition", "\n", "\t", "\r", "a", "_", "-", "ü"]


# ---- nets and names


def dense_net(rng):
    """64 places and 64 transitions, and every weight above 0, up to the limits."""
    def row():
        return tuple(rng.choice([1, 255, rng.randint(1, 255)]) for _ in range(64))

    rows = [Transition(*sorted(rng.choices([0, 1, 62, 63], k=2)), row(), row()) for _ in range(64)]
    return Net(tuple(rng.choice([0, 1, 65_535, rng.randint(0, 65_535)]) for _ in range(64)), tuple(rows))


def a_net(rng, number):
    if number % 100 == 0:
        return dense_net(rng)
    return material.full_net(rng) if number % 50 == 25 else material.any_net(rng)


def is_carried(name):
    """A second reading of the rule which names the text can carry."""
    if not 1 <= len(name.encode()) <= 40 or "->" in name or "\ufffd" in name:
        return False
    if any(sign in name for sign in ",:#") or any(ord(letter) <= 32 or ord(letter) == 127 for letter in name):
        return False
    return not (name.isascii() and re.match(r"\d+(\.\.\d+)?$", name))


def a_name(rng):
    while True:
        name = "".join(rng.choice(LETTERS) for _ in range(rng.choice([1, 2, 3, 5, 8, 13, 39, 40])))
        if is_carried(name):
            return name


def some_names(rng, count):
    found = []
    while len(found) < count:
        name = a_name(rng)
        if name not in found:
            found.append(name)
    return found


# ---- from bytes to a text and back


def check_names(kind, given, called, told):
    """The names in a text: those given that it can carry, of which the first of a name counts; the others told and made."""
    hold(len(set(called)) == len(called), "two of a name", called)
    kept = {}
    for number, name in sorted(given.items()):
        if number < len(called) and is_carried(name) and name not in kept.values():
            kept[number] = name
    for number, name in enumerate(called):
        if number in kept:
            hold(name == kept[number], kind, number, "is called", name, "and not", kept[number])
        else:
            hold(re.fullmatch(r"%s_%d(_\d+)?" % (kind, number), name), kind, number, "is called", name)
    lost = [number for number in given if number < len(called) and number not in kept]
    said = [words for words in told if words.startswith(kind + " ")]
    hold(sorted(int(words.split()[1]) for words in said) == sorted(lost), "told:", said, "lost:", lost)


def made_names(rng):
    """At times, lines with names that the writer would make for another."""
    kind = rng.choice(["place", "transition"])
    numbers = rng.sample(range(6), 4) if rng.random() < 0.3 else []
    return "".join("%s %d %s_%d%s\n" % (kind, number, kind, rng.randrange(6), rng.choice(["", "_2"])) for number in numbers).encode()


def from_bytes(rng, number, engine):
    """A net as bytes and a file of names of any kind. The text must be in the writer's own form, and lead back to both."""
    net = a_net(rng, number)
    data = material.encode_net(net)
    names = Names(made_names(rng) + menuwhy_names.a_file(rng, len(net.marking), len(net.transitions)))
    text, told = written(forms.Net(data), names)
    hold(text.count("\n") == len(net.marking) + len(net.transitions) and not re.search(r"  |\t|#|(^|\n) | \n", text), "the form of", text)
    made, mistakes = read(text.encode())
    hold(not mistakes, "a text of our own has mistakes:", mistakes, text)
    hold(made.stored() == data, "other bytes come back:", text)
    for kind, things in (("place", made.places), ("transition", made.transitions)):
        check_names(kind, names.given[kind], [thing.name for thing in things], told)
    again = written(forms.Net(data), Names(made.names_file()))
    hold(again == (text, []), "the names of a text do not give the text again:", text, again)
    hold(engine.ask("check_net", data) == ["0", "0"], "the engine refuses", data.hex())


# ---- from a text to bytes and back


def spaced(rng, words):
    """Words with blanks between them, as few as may be next to a sign."""
    line = words[0]
    for before, word in zip(words, words[1:]):
        may_touch = before in SIGNS or word in SIGNS
        line += ("" if may_touch and rng.random() < 0.4 else rng.choice(BLANKS)) + word
    return line


def arcs(rng, weights, names):
    """The words of one side, its places in any order."""
    some = [(p, weight) for p, weight in enumerate(weights) if weight]
    rng.shuffle(some)
    words = []
    for place, weight in some:
        words += [","] if words else []
        words += [names[place]] if weight == 1 and rng.random() < 0.8 else [number(rng, weight), names[place]]
    return words


def number(rng, value):
    return "0" * rng.choice([0, 0, 0, 0, 1, 4]) + str(value)


def rows_of(rng, net, places, transitions):
    """The lines of places and those of transitions, each in their order, written in any way."""
    first = []
    for name, tokens in zip(places, net.marking):
        first.append(["place", name] + ([] if tokens == 0 and rng.random() < 0.7 else [number(rng, tokens)]))
    second = []
    for name, row in zip(transitions, net.transitions):
        duration = number(rng, row.sfd) + ".." + number(rng, row.lfd)
        if row.sfd == row.lfd and rng.random() < 0.5:
            duration = number(rng, row.lfd)
        sides = arcs(rng, row.inputs, places) + ["->"] + arcs(rng, row.outputs, places)
        second.append(["transition", name, duration, ":"] + sides)
    return first, second


def a_text(rng, net, places, transitions):
    first, second = rows_of(rng, net, places, transitions)
    lines = []
    while first or second:
        rows = rng.choice([first, second]) if rng.random() < 0.5 else first or second
        if rows:
            lines.append(rng.choice(["", "", " ", "\t"]) + spaced(rng, rows.pop(0)) + rng.choice(["", "", " "]) + rng.choice(NOTES))
        if rng.random() < 0.1:
            lines.append(rng.choice(["", " ", "\t", "# a note", " #"]))
    end = rng.choice(["\n", "\n", "\r\n"])
    mark = rng.choice([b"", b"", b"", b"\xef\xbb\xbf"])
    return mark + (end.join(lines) + rng.choice(["", end, end + end])).encode()


def from_text(rng, count, engine):
    """A text of a net that is known, with names that it can carry."""
    net = a_net(rng, count)
    data = material.encode_net(net)
    places, transitions = some_names(rng, len(net.marking)), some_names(rng, len(net.transitions))
    text = a_text(rng, net, places, transitions)
    made, mistakes = read(text)
    hold(not mistakes, "a lawful text has mistakes:", mistakes, text)
    hold(made.stored() == data, "not the bytes of the net:", text, data.hex())
    lines = ["place %d %s\n" % pair for pair in enumerate(places)] + ["transition %d %s\n" % pair for pair in enumerate(transitions)]
    hold(made.names_file() == "".join(lines).encode(), "not the names of the text:", text)
    shown, told = written(forms.Net(data), Names(made.names_file()))
    again, mistakes = read(shown.encode())
    hold(not told and not mistakes, "what is shown is told of:", told, mistakes, shown)
    hold((again.stored(), again.names_file()) == (data, made.names_file()), "show and make lead elsewhere:", shown)
    hold(engine.ask("check_net", data) == ["0", "0"], "the engine refuses", data.hex())
    return text


# ---- damaged texts


def damaged(rng, text):
    """A text with a few bytes or pieces put in, taken out or doubled."""
    for _ in range(rng.choice([1, 1, 2, 3, 8])):
        at = rng.randint(0, len(text))
        to = min(len(text), at + rng.choice([0, 0, 1, 1, 2, 9]))
        piece = rng.choice([rng.choice(PIECES).encode(), b"", text[at:to] * 2, rng.randbytes(1)])
        text = text[:at] + piece + text[to:]
    return text


def from_damage(rng, text, engine):
    """Whatever is wrong, it is told, and where nothing is told the net is one that the engine takes. Whether something was told."""
    text = damaged(rng, text)
    net, mistakes = read(text)
    hold(bool(mistakes) == (net is None), "a net and mistakes, or neither:", text)
    places = [(found.line, found.column) for found in mistakes]
    hold(places == sorted(places), "not in order:", places, text)
    lengths = [len(line.decode("utf-8", "surrogateescape")) for line in text.split(b"\n")]
    for line, column in places:
        hold(1 <= line <= len(lengths) and 1 <= column <= lengths[line - 1] + 1, "no such place:", (line, column), text)
    if net:
        data = net.stored()
        hold(engine.ask("check_net", data) == ["0", "0"], "the engine refuses what the text form takes:", text)
        hold(read(written(forms.Net(data), Names(net.names_file()))[0].encode())[0].stored() == data, "show and make lead elsewhere:", text)
    return not net

"""The command `bin/net` itself: what it writes where, its words, and its exit status."""

import os
import pty
import subprocess
import tempfile

from faults import hold

ROOT = os.path.dirname(os.path.dirname(os.path.dirname(os.path.abspath(__file__))))
NET = os.path.join(ROOT, "bin", "net")
DONE, MISTAKEN, TROUBLE, FAULT = 0, 1, 2, 3

# document 01's row net
ROW = b"place own_file 1\nplace loaded\nplace row\ntransition load 1..3: own_file -> loaded\ntransition fill 0..0: loaded -> row\n"
LOOSE = b"transition fill 0: loaded->row # at once\r\nplace own_file 01\r\n\r\nplace\tloaded\r\nplace row\r\n"
LOOSE += b"transition load 1..3:own_file->loaded"
ROW_BYTES = bytes.fromhex("01 0000001D 03 02 0001 0000 0000 01 03 010000 000100 00 00 000100 000001")
LOOSE_BYTES = bytes.fromhex("01 0000001D 03 02 0001 0000 0000 00 00 000100 000001 01 03 010000 000100")
ROW_NAMES = b"place 0 own_file\nplace 1 loaded\nplace 2 row\ntransition 0 load\ntransition 1 fill\n"
MISSPELT = b"place a 1\ntransition t 1: a -> bb\ntransition u 1: a -> b\nplace b\n"
UNUSED = b"place a 1\nplace b\ntransition t 1: a -> a\n"

# an engine that refuses every net by 5, one that ends without an answer, one that answers something else
REFUSES = "sh -c 'head -c 1 >/dev/null; echo check_net 5 7; cat >/dev/null'"
SILENT = "sh -c 'head -c 1 >/dev/null'"
ODD = "sh -c 'head -c 1 >/dev/null; echo check_net yes; cat >/dev/null'"


class Place:
    """A folder of its own, and the command run in it."""

    def __init__(self, folder):
        self.folder, self.runs = folder, 0

    def write(self, name, data):
        with open(os.path.join(self.folder, name), "wb") as file:
            file.write(data)

    def read(self, name):
        with open(os.path.join(self.folder, name), "rb") as file:
            return file.read()

    def has(self, name):
        return os.path.exists(os.path.join(self.folder, name))

    def run(self, words, engine=None):
        self.runs += 1
        surroundings = {**os.environ, **({"MENUASK": engine} if engine else {})}
        return subprocess.run([NET, *words.split()], cwd=self.folder, env=surroundings, capture_output=True, timeout=60)

    def holds(self, words, status, out=b"", err=(), engine=None):
        """The command with these words ends so, and writes just this; a line of err that ends with '..' is the front of one."""
        done = self.run(words, engine)
        got = done.stderr.decode().splitlines()
        hold(done.returncode == status, "bin/net", words, "ends with", done.returncode, got)
        hold(done.stdout == out, "bin/net", words, "writes", done.stdout)
        same = len(got) == len(err) and all(a == b or b.endswith("..") and a.startswith(b[:-2]) for a, b in zip(got, err))
        hold(same, "bin/net", words, "says", got, "and not", err)


def makes(at):
    at.write("row.txt", ROW)
    at.write("loose.txt", LOOSE)
    at.holds("make row.txt", DONE, ROW_BYTES)
    at.holds("make row.txt --names row.names", DONE, ROW_BYTES)
    hold(at.read("row.names") == ROW_NAMES, "the file of names is", at.read("row.names"))
    at.holds("make --names loose.names loose.txt", DONE, LOOSE_BYTES)
    hold(b"transition 0 fill\ntransition 1 load\n" in at.read("loose.names"), "the file of names is", at.read("loose.names"))
    at.holds("check row.txt", DONE)
    at.holds("check loose.txt", DONE, engine="false")
    at.write("unused.txt", UNUSED)
    warning = "unused.txt:2:7: warning: no transition takes from the place 'b' or gives to it"
    at.holds("check unused.txt", DONE, err=[warning])
    at.holds("make unused.txt", DONE, bytes.fromhex("01 00000011 02 01 0001 0000 01 01 0100 0100"), [warning])


def mistakes(at):
    at.write("bad.txt", MISSPELT)
    words = ["bad.txt:2:22: no place is called 'bb'; did you mean 'b'?"]
    at.holds("check bad.txt", MISTAKEN, err=words)
    at.holds("make bad.txt --names bad.names", MISTAKEN, err=words)
    hold(not at.has("bad.names"), "names of a text with a mistake are written")
    at.write("row.net", ROW_BYTES)
    words = ["row.net:1:2: a zero byte, so this is no text; where it is a net, bin/net show writes it as text"]
    at.holds("check row.net", MISTAKEN, err=words)


def engines(at):
    """An engine that refuses what the text form took, or that does not answer: nothing is written."""
    for engine, words in (
        (REFUSES, "bin/net: internal fault: the engine refuses the net of row.txt by 5, index 7; nothing is written"),
        (SILENT, "bin/net: the engine .."),
        (ODD, "bin/net: the engine cannot be asked: .."),
        ("./no-such-engine", "bin/net: the engine cannot be asked: .."),
    ):
        at.holds("make --names none.names row.txt", FAULT, err=[words], engine=engine)
    hold(not at.has("none.names"), "names are written though the engine refuses")
    at.holds("show row.net", FAULT, err=["bin/net: the engine .."], engine=SILENT)


def shows(at):
    at.holds("show --names row.names row.net", DONE, ROW)
    bare = b"place place_0 1\nplace place_1\nplace place_2\n"
    bare += b"transition transition_0 1..3: place_0 -> place_1\ntransition transition_1 0..0: place_1 -> place_2\n"
    at.holds("show row.net", DONE, bare)
    odd = b"place 0 place_1\nplace 2 a,b\ntransition 1 go\nplace 7 \ntransition 0 go\nplace 63 x\ntransition 1 come\nplace 1 7\n"
    at.write("odd.names", odd)
    shown = b"place place_1 1\nplace place_1_2\nplace place_2\ntransition go 1..3: place_1 -> place_1_2\n"
    shown += b"transition transition_1 0..0: place_1_2 -> place_2\n"
    at.holds("show row.net --names odd.names", DONE, shown, [
        "odd.names:4: warning: a line is place or transition, a number from 0 to 63 and a name of 1 to 40 bytes, one blank between them "
        "and none behind",
        "odd.names: warning: place 1 is called 'place_1_2' here: the text cannot carry its name '7'",
        "odd.names: warning: place 2 is called 'place_2' here: the text cannot carry its name 'a,b'",
        "odd.names: warning: transition 1 is called 'transition_1' here: transition 0 has the name 'go' already",
    ])


def refusals(at):
    """Bytes that are no net, one for each number; of 4 to 6 the transition is named where it has a name."""
    wrong = [
        (1, b"", "a net has at least 7 bytes, version 1 and its own length in its length field"),
        (1, ROW_BYTES[:-1], "a net has at least 7 bytes, version 1 and its own length in its length field"),
        (2, ROW_BYTES[:5] + b"\0" + ROW_BYTES[6:], "a net has 1 to 64 places and 1 to 64 transitions"),
        (3, ROW_BYTES[:5] + b"\4" + ROW_BYTES[6:], "a net is as long as its places and transitions ask for"),
        (4, ROW_BYTES[:13] + b"\4" + ROW_BYTES[14:], "transition 0 load has an lfd that is below its sfd, or too long"),
        (5, ROW_BYTES[:24] + b"\0" + ROW_BYTES[25:], "transition 1 fill takes no token from any place"),
        (6, ROW_BYTES[:28] + b"\0", "transition 1 fill gives no token to any place"),
    ]
    for number, data, words in wrong:
        at.write("wrong.net", data)
        at.holds("show --names row.names wrong.net", MISTAKEN, err=["wrong.net: the net is refused by %d: %s" % (number, words)])
    at.holds("show wrong.net", MISTAKEN, err=["wrong.net: the net is refused by 6: transition 1 gives no token to any place"])
    at.holds("show row.txt", MISTAKEN, err=["row.txt: the net is refused by 1: .."])
    hold(at.run("show row.txt").stderr.endswith(b"; where it is a text, bin/net make makes the net of it\n"), "no word of a text")
    at.write("long.net", bytes(8_456))
    at.holds("show long.net", MISTAKEN, err=["long.net: this is no net: it has 8456 bytes, and the longest net has 8455"])


def troubles(at):
    usage = ["usage: bin/net make [--names FILE] TEXT > NET", "       bin/net check TEXT", "       bin/net show [--names FILE] NET > TEXT"]
    for words in ("", "make", "show", "check", "make row.txt row.txt", "draw row.txt", "check --names row.names row.txt"):
        at.holds(words, TROUBLE, err=usage)
    for words in ("make --name x row.txt", "make row.txt --names", "make --names a --names b row.txt", "check -x"):
        at.holds(words, TROUBLE, err=["bin/net: .."] + usage)
    at.holds("--help", DONE, "".join(line + "\n" for line in usage).encode())
    at.holds("make no.txt", TROUBLE, err=["bin/net: no.txt: No such file or directory"])
    at.holds("show row.net --names no.names", TROUBLE, err=["bin/net: no.names: No such file or directory"])
    at.holds("make row.txt --names no/row.names", TROUBLE, err=["bin/net: no/row.names: No such file or directory"])
    at.holds("make row.txt --names ./row.txt", TROUBLE, err=["bin/net: ./row.txt: the file of names would be written over the text"])
    hold(at.read("row.txt") == ROW, "the text was written over")
    master, terminal = pty.openpty()
    done = subprocess.run([NET, "make", "row.txt"], cwd=at.folder, stdout=terminal, stderr=subprocess.PIPE)
    os.close(terminal)
    os.set_blocking(master, False)
    hold(done.returncode == TROUBLE and b"not for a terminal" in done.stderr, "a terminal gets", done)
    at.runs += 1
    os.close(master)


def check_all():
    """Every case, in a folder that is removed behind them; how often the command was run."""
    with tempfile.TemporaryDirectory() as folder:
        at = Place(folder)
        for part in (makes, mistakes, engines, shows, refusals, troubles):
            part(at)
        return at.runs

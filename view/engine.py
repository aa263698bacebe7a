"""Asks the proved engine, through the program `menuask` (docs/ASK.md). Nothing here judges anything."""

import os
import shlex
import subprocess

ROOT = os.path.dirname(os.path.dirname(os.path.abspath(__file__)))

# the byte of each call that is asked here
CALLS = {"check_net": 1, "initial": 2, "check_state": 3, "degree": 6, "owed": 7, "run": 8, "walk": 9, "step": 10}


class Broken(Exception):
    """The engine did not answer as docs/ASK.md says, or two of its answers disagree: no page is to be believed then."""


def command():
    """What starts menuask: MENUASK of the environment, or the program of this repository, which is built where it is not."""
    given = os.environ.get("MENUASK")
    if given:
        return shlex.split(given)
    if not os.access(os.path.join(ROOT, "crates", "menuask", "out", "menuask"), os.X_OK):
        build = [os.path.join(ROOT, "bin", "run"), "menuask"]
        if subprocess.run(build, stdin=subprocess.DEVNULL, stdout=subprocess.DEVNULL).returncode:
            raise Broken("menuask is not built, and bin/run menuask does not build it")
    return [os.path.join(ROOT, "bin", "start"), "menuask"]


def encode(call, parameters):
    """The bytes of a request: a slice with its length in front, a number in 4 bytes."""
    parts = [bytes([CALLS[call]])]
    for value in parameters:
        if isinstance(value, int):
            parts.append(value.to_bytes(4, "big"))
        else:
            parts += [len(value).to_bytes(4, "big"), value]
    return b"".join(parts)


def buffer(field):
    """The bytes of a buffer in a line."""
    return b"" if field == "-" else bytes.fromhex(field)


class Engine:
    """One menuask, kept open. `asked` counts the requests by call."""

    def __init__(self):
        self.asked = {}
        try:
            self.program = subprocess.Popen(command(), stdin=subprocess.PIPE, stdout=subprocess.PIPE)
        except OSError as error:
            raise Broken("the engine does not start: %s" % error)

    def __enter__(self):
        return self

    def __exit__(self, *_):
        try:
            self.program.stdin.close()
        except BrokenPipeError:
            pass
        self.program.stdout.close()
        self.program.wait()

    def send(self, call, *parameters):
        """One request, whose line is to be read later, in turn. Two may be under way: more could fill both pipes."""
        self.asked[call] = self.asked.get(call, 0) + 1
        try:
            self.program.stdin.write(encode(call, parameters))
            self.program.stdin.flush()
        except BrokenPipeError:
            raise Broken("the engine has ended before the call " + call)

    def answer(self, call):
        """The fields of the next line, behind the call's name."""
        words = self.program.stdout.readline().decode("ascii", "replace").split()
        if not words or words[0] != call:
            raise Broken("the engine does not answer the call %s: %s" % (call, " ".join(words) or "it has ended"))
        return words[1:]

    def ask(self, call, *parameters):
        self.send(call, *parameters)
        return self.answer(call)

"""Asks `menuask` (docs/ASK.md) by itself: what the page says is compared with what the engine tells on another way than the page's own.

The page's program feeds a log in portions; here each moment is one run of all the events before it."""

import os
import shlex
import subprocess

import wire

ROOT = os.path.dirname(os.path.dirname(os.path.dirname(os.path.abspath(__file__))))


class Client:
    """One menuask, kept open."""

    def __init__(self):
        command = shlex.split(os.environ.get("MENUASK", "")) or [os.path.join(ROOT, "bin", "start"), "menuask"]
        self.program = subprocess.Popen(command, stdin=subprocess.PIPE, stdout=subprocess.PIPE)

    def ask(self, call, *parameters):
        """The fields of the line behind the call's name: numbers, and last the state's buffer, where the call has one."""
        self.program.stdin.write(wire.encode(call, *parameters))
        self.program.stdin.flush()
        name, *fields = self.program.stdout.readline().decode("ascii").split() or [None]
        if name != call:
            raise RuntimeError("menuask does not answer the call " + call)
        if call in ("initial", "run", "walk"):
            return [*map(int, fields[:-1]), bytes.fromhex("" if fields[-1] == "-" else fields[-1])]
        return list(map(int, fields))

    @property
    def is_gone(self):
        """It ends behind a request that is none."""
        return self.program.poll() is not None

    def close(self):
        if not self.is_gone:
            self.program.stdin.close()
        self.program.stdout.close()
        self.program.wait()

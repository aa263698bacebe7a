"""Headless Chromium over its debugging pipe: real window sizes, colour schemes, keys and print, and what a page does wrong by itself.

Only the protocol sets a window of 390 pixels; on the command line Chromium makes it 500."""

import base64
import json
import os
import select
import shutil
import subprocess
import tempfile
import time

PROGRAMS = "chromium", "chromium-browser", "google-chrome"
PATIENCE = 60  # seconds for one answer
KEYS = {
    "Tab": 9, "Enter": 13, "Escape": 27, "PageUp": 33, "PageDown": 34, "End": 35, "Home": 36,
    "ArrowLeft": 37, "ArrowUp": 38, "ArrowRight": 39, "ArrowDown": 40,
}
FLAGS = "--headless=new --no-sandbox --disable-gpu --hide-scrollbars --no-first-run --remote-debugging-pipe".split()


def program():
    """The browser's command, or None where none is installed."""
    return next(filter(None, map(shutil.which, PROGRAMS)), None)


class BrowserFault(Exception):
    """The browser itself ended, does not answer, or could not do what was asked."""


class Browser:
    """`problems` are errors of scripts and the console since the page was opened, `fetched` the addresses that it asked for."""

    def __init__(self):
        self.folder = tempfile.mkdtemp(prefix="page-browser-")
        commands, self.commands = os.pipe()
        self.answers, answers = os.pipe()

        def channels():
            # the browser reads commands from 3 and writes answers to 4
            ours = os.dup(commands), os.dup(answers)
            os.dup2(ours[0], 3)
            os.dup2(ours[1], 4)

        self.process = subprocess.Popen(
            [program(), *FLAGS, "--user-data-dir=" + self.folder, "about:blank"],
            preexec_fn=channels, close_fds=False, stdout=subprocess.DEVNULL, stderr=subprocess.DEVNULL,
        )
        os.close(commands)
        os.close(answers)
        self.count, self.rest, self.session, self.is_gone = 0, b"", None, False
        self.problems, self.fetched, self.loaded, self.path, self.fragment = [], [], False, None, ""
        target = self.ask("Target.createTarget", url="about:blank")["targetId"]
        self.session = self.ask("Target.attachToTarget", targetId=target, flatten=True)["sessionId"]
        for domain in ("Page", "Runtime", "Log", "Network"):
            self.ask(domain + ".enable")

    def message(self):
        """The next message of the browser."""
        while b"\0" not in self.rest:
            is_there = select.select([self.answers], [], [], PATIENCE)[0]
            got = os.read(self.answers, 1 << 20) if is_there else b""
            if not got:
                self.is_gone = True
                raise BrowserFault("the browser has ended" if is_there else "the browser does not answer")
            self.rest += got
        one, self.rest = self.rest.split(b"\0", 1)
        return json.loads(one)

    def hear(self, message):
        """Keeps what a message without a question says."""
        what, said = message.get("method"), message.get("params", {})
        if what == "Page.loadEventFired":
            self.loaded = True
        elif what == "Network.requestWillBeSent":
            self.fetched.append(said["request"]["url"])
        elif what == "Runtime.exceptionThrown":
            thrown = said["exceptionDetails"]
            self.problems.append("a script fails: " + thrown.get("exception", {}).get("description", thrown["text"]))
        elif what == "Log.entryAdded" and said["entry"]["level"] in ("error", "warning"):
            self.problems.append("the browser reports: " + said["entry"]["text"])
        elif what == "Runtime.consoleAPICalled" and said["type"] in ("error", "assert", "warning"):
            words = [str(value.get("value", value.get("description"))) for value in said["args"]]
            self.problems.append("the console has: " + " ".join(words))

    def ask(self, method, **parameters):
        self.count += 1
        request = {"id": self.count, "method": method, "params": parameters}
        if self.session:
            request["sessionId"] = self.session
        data = json.dumps(request).encode() + b"\0"
        while data:
            data = data[os.write(self.commands, data) :]
        while True:
            message = self.message()
            if message.get("id") != self.count:
                self.hear(message)
            elif "error" in message:
                raise BrowserFault("%s: %s" % (method, message["error"]["message"]))
            else:
                return message["result"]

    def go(self, address):
        self.loaded = False
        self.ask("Page.navigate", url=address)
        while not self.loaded:
            self.hear(self.message())

    def open(self, path, width=1280, dark=False, scripts=True, at=""):
        """Opens a file, `at` being the fragment of its address; the seconds until it is loaded."""
        self.ask("Emulation.setScriptExecutionDisabled", value=not scripts)
        self.ask("Emulation.setDeviceMetricsOverride", width=width, height=900, deviceScaleFactor=1, mobile=False)
        self.ask("Emulation.setEmulatedMedia", features=[{"name": "prefers-color-scheme", "value": "dark" if dark else "light"}])
        if at or self.fragment:
            self.go("about:blank")  # with another fragment alone the page would not be loaded again
        self.path, self.fragment, self.problems, self.fetched = path, at, [], []
        began = time.monotonic()
        self.go("file://" + os.path.abspath(path) + at)
        return time.monotonic() - began

    def value(self, expression):
        """What an expression of the page comes to."""
        told = self.ask("Runtime.evaluate", expression=expression, returnByValue=True, awaitPromise=True)
        if "exceptionDetails" in told:
            thrown = told["exceptionDetails"]
            raise BrowserFault(thrown.get("exception", {}).get("description", thrown["text"]))
        return told["result"].get("value")

    def call(self, function, *arguments):
        """What a function of the page comes to; the arguments go as JSON."""
        return self.value("(%s)(%s)" % (function, ", ".join(map(json.dumps, arguments))))

    def key(self, key):
        """A real key, down and up."""
        for kind in ("keyDown", "keyUp"):
            self.ask("Input.dispatchKeyEvent", type=kind, key=key, code=key, windowsVirtualKeyCode=KEYS[key])

    def click(self, x, y):
        """A real click, at a point of the window."""
        for kind in ("mousePressed", "mouseReleased"):
            self.ask("Input.dispatchMouseEvent", type=kind, x=x, y=y, button="left", clickCount=1)

    def shot(self, path):
        """A picture of the whole page."""
        size = self.ask("Page.getLayoutMetrics")["cssContentSize"]
        clip = {"x": 0, "y": 0, "width": size["width"], "height": size["height"], "scale": 1}
        with open(path, "wb") as file:
            file.write(base64.b64decode(self.ask("Page.captureScreenshot", format="png", clip=clip, captureBeyondViewport=True)["data"]))

    def printed(self):
        """The page on A4, as a PDF."""
        return base64.b64decode(self.ask("Page.printToPDF", paperWidth=8.27, paperHeight=11.69)["data"])

    def close(self):
        try:
            self.session = None
            if not self.is_gone:
                self.ask("Browser.close")
            self.process.wait(timeout=0 if self.is_gone else 20)
        except (BrowserFault, BrokenPipeError, subprocess.TimeoutExpired):
            self.process.kill()
            self.process.wait()
        os.close(self.commands)
        os.close(self.answers)
        shutil.rmtree(self.folder, ignore_errors=True)

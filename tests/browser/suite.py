"""All cases, two at a time: writes their pages, examines them, and tells what was found."""

import concurrent.futures
import os
import queue
import shlex
import subprocess
import tempfile
import threading
import time
import traceback

import cases
from browser import Browser
from client import ROOT, Client
from examine import Examination
from findings import Findings

WORKERS = 2
SHOWN = 12  # findings of one page
HEADLINES = os.path.join(os.path.dirname(os.path.abspath(__file__)), "headlines.txt")

names = cases.names


class NoPage(Exception):
    """What bin/report says in place of a page."""


def command():
    return shlex.split(os.environ.get("REPORT", "")) or [os.path.join(ROOT, "bin", "report")]


def write_page(case, folder, report=None, environment=None):
    """Has the page of a case written; its path, and the seconds that it took."""
    path, began = os.path.join(folder, case.name + ".html"), time.monotonic()
    with open(path, "wb") as page:
        done = subprocess.run([*(report or command()), *case.words()], stdout=page, stderr=subprocess.PIPE, env=environment)
    if done.returncode or done.stderr:
        said = done.stderr.decode("utf-8", "replace").strip().split("\n")[-1]
        raise NoPage("bin/report ends with %d and says: %s" % (done.returncode, said))
    return path, time.monotonic() - began


def build(folder):
    """The first page has menuask built, where it is not. Two at a time would both build it."""
    try:
        write_page(cases.stored("row-good"), folder)
    except NoPage as error:
        print(error)


class Workers:
    """A browser and an engine for each thread. They are started before the threads are: a fork among threads may hang."""

    def __init__(self):
        self.own, self.free, self.opened = threading.local(), queue.SimpleQueue(), []
        for _ in range(WORKERS):
            self.free.put(self.start())

    def start(self):
        tools = Browser(), Client()
        self.opened += tools
        return tools

    def mine(self):
        """The thread's own; where one is gone, both are replaced."""
        if not hasattr(self.own, "tools"):
            self.own.tools = self.free.get()
        if any(tool.is_gone for tool in self.own.tools):
            self.own.tools = self.start()
        return self.own.tools

    def __enter__(self):
        return self

    def __exit__(self, *_):
        for tool in self.opened:
            tool.close()


def examined(name, folder, workers, shots):
    """The examination of one case. Where the test itself fails, that is a finding too."""
    findings, examination, began = Findings(name), None, time.monotonic()
    try:
        case = cases.case(name, folder)
        path, took = write_page(case, folder)
        examination = Examination(findings, case, path, *workers.mine())
        if case.long:
            examination.notes.append("written in %.1f s" % took)
        examination.run()
        if shots:
            take_shots(examination.visit, shots, name)
    except NoPage as error:
        findings.check(False, str(error))
    except Exception as error:
        place = traceback.extract_tb(error.__traceback__)[-1]
        where = os.path.basename(place.filename), place.lineno
        findings.check(False, "the test fails at %s:%d: %s: %s" % (*where, type(error).__name__, error))
    findings.seconds = time.monotonic() - began
    return findings, examination


def take_shots(visit, folder, name):
    os.makedirs(folder, exist_ok=True)
    for width in (1280, 390):
        for dark in (False, True):
            visit.open(width, dark)
            visit.browser.shot(os.path.join(folder, "%s-%d-%s.png" % (name, width, "dark" if dark else "light")))


def run(chosen, golden=False, shots=None):
    """Examines the cases of these names; 0 where nothing was found."""
    checks, found, headlines = 0, 0, {}
    with tempfile.TemporaryDirectory(prefix="page-") as folder:
        build(folder)
        with Workers() as workers, concurrent.futures.ThreadPoolExecutor(WORKERS) as pool:
            for findings, examination in pool.map(lambda name: examined(name, folder, workers, shots), chosen):
                if examination and examination.headline:
                    headlines[findings.name] = examination.headline
                    if not golden:
                        compare_headline(findings, examination.headline)
                tell(findings, examination.notes if examination else [])
                checks, found = checks + findings.checks, found + len(findings.found)
    if golden:
        write_headlines(headlines)
    print("%d checks, %d findings" % (checks, found))
    return 1 if found else 0


def tell(findings, notes):
    found = ["%d FINDINGS" % len(findings.found)] if findings.found else []
    beside = "".join(", " + one for one in notes + found)
    print("%-18s %6d checks, %4.1f s%s" % (findings.name, findings.checks, findings.seconds, beside), flush=True)
    different = list(dict.fromkeys(findings.found))
    for one in different[:SHOWN]:
        print("    " + one + (" (%d times)" % findings.found.count(one) if findings.found.count(one) > 1 else ""))
    if len(different) > SHOWN:
        print("    and %d others" % (len(different) - SHOWN), flush=True)


# ---- the stored headlines


def read_headlines():
    """{case: (headline, the line under it)}"""
    if not os.path.exists(HEADLINES):
        return {}
    with open(HEADLINES, encoding="utf-8") as file:
        blocks = file.read().strip("\n").split("\n\n")
    return {name: (title.strip(), why.strip()) for name, title, why in (block.split("\n") for block in blocks)}


def compare_headline(findings, said):
    stored = read_headlines().get(findings.name)
    findings.same("the headline and the line under it, as they are stored", (said["title"], said["why"]), stored)


def write_headlines(new):
    """Those of the cases that were not examined stay."""
    told = {**read_headlines(), **{name: (said["title"], said["why"]) for name, said in new.items()}}
    told = {name: said for name, said in told.items() if name in names()}
    with open(HEADLINES, "w", encoding="utf-8") as file:
        file.write("\n\n".join("%s\n    %s\n    %s" % (name, *told[name]) for name in sorted(told)) + "\n")

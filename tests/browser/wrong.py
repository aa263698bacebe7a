"""Wrong pages, which the tests must refuse: each is made by one small change to a copy of view/.

A change whose old text is not found exactly once is an error, so that none is lost when the page changes. The page of one fitting case
is written by the changed program and examined as ever. It is refused where a finding comes that the right page does not have and that is
about the very fact; a script that fails, a program that ends or a page that is not drawn refuses nothing."""

import concurrent.futures
import os
import re
import shlex
import shutil
import sys
import tempfile

import cases
from client import ROOT
from examine import Examination
from findings import Findings
from suite import WORKERS, NoPage, Workers, build, write_page
from wrongs import WRONGS

CRASH = re.compile(r"a script fails|the test fails|bin/report ends|not say that it is drawn|does not answer|the console has")
SHOWN = 230  # characters of a finding


def names():
    return [wrong.name for wrong in WRONGS]


class Stale(Exception):
    """A change that does not fit the program any more."""


def program(root, wrong=None):
    """A copy of view/ in a folder, with one change or with none; the command that writes a page with it."""
    view = shutil.copytree(os.path.join(ROOT, "view"), os.path.join(root, "view"))
    if wrong:
        path = os.path.join(view, wrong.file)
        with open(path, encoding="utf-8") as file:
            text = file.read()
        if text.count(wrong.old) != 1:
            raise Stale("%s: its text is %d times in view/%s, not once" % (wrong.name, text.count(wrong.old), wrong.file))
        with open(path, "w", encoding="utf-8") as file:
            file.write(text.replace(wrong.old, wrong.new))
    return [sys.executable, "-B", os.path.join(view, "report.py")]


def found(folder, workers, name, wrong=None):
    """What is found on the page of a case."""
    findings, root = Findings(name), os.path.join(folder, (wrong.name if wrong else "right " + name).replace(" ", "-"))
    command = program(root, wrong)
    environment = {**os.environ, "MENUASK": os.environ.get("MENUASK") or shlex.join([os.path.join(ROOT, "bin", "start"), "menuask"])}
    try:
        case = cases.case(name, root)
        path, _ = write_page(case, root, command, environment)
        Examination(findings, case, path, *workers.mine(), enough=lambda: wrong and fitting(wrong, findings.found)).run()
    except NoPage as error:
        findings.check(False, str(error))
    except Exception as error:  # what a wrong page does to the test refuses it no more than a crash does
        findings.check(False, "the test fails: %s: %s" % (type(error).__name__, error))
    return findings.found


def fitting(wrong, new):
    """Findings about the very fact that was changed."""
    return [one for one in new if re.search(wrong.finding, one) and not CRASH.search(one)]


def told(wrong, new):
    """(whether it is refused, what is said of it)"""
    crashes = [one for one in new if CRASH.search(one)]
    if fitting(wrong, new) and not crashes:
        return True, fitting(wrong, new)[0][:SHOWN]
    return False, "NOT REFUSED as it should be: %s" % ((crashes + new)[:3] or "nothing was found")


def run(chosen):
    """Makes the wrong pages of these names; 0 where each is refused."""
    wrongs, refused = [wrong for wrong in WRONGS if wrong.name in chosen and shutil.which(wrong.needs)], 0
    for wrong in WRONGS:
        if wrong.name in chosen and wrong not in wrongs:
            print("%-44s left out: %s is not installed" % (wrong.name, wrong.needs))
    with tempfile.TemporaryDirectory(prefix="wrong-") as folder:
        build(folder)
        with Workers() as workers, concurrent.futures.ThreadPoolExecutor(WORKERS) as pool:
            right = {name: pool.submit(found, folder, workers, name) for name in dict.fromkeys(wrong.case for wrong in wrongs)}
            waiting = [(wrong, pool.submit(found, folder, workers, wrong.case, wrong)) for wrong in wrongs]
            for wrong, one in waiting:
                try:
                    known = {*right[wrong.case].result()}
                    is_refused, said = told(wrong, [finding for finding in one.result() if finding not in known])
                except Stale as error:
                    is_refused, said = False, "NOT MADE: %s" % error
                refused += is_refused
                print("%-44s %-18s %s" % (wrong.name, wrong.case, said), flush=True)
    print("%d wrong pages, %d refused" % (len(wrongs), refused))
    return 0 if refused == len(wrongs) else 1

"""The cases: files for bin/report, stored in the folder cases/, or made when they are asked for because they are long."""

import os
from typing import NamedTuple, Optional

from client import ROOT
from nets import HOME, ROW, end, log, start, wide
from player import Player, broken

FOLDER = os.path.join(os.path.dirname(os.path.abspath(__file__)), "cases")
MOST_EVENTS = 24_000

# the example of the support tool
BOX = os.path.join(ROOT, "crates", "menuwhy", "data", "box")


class Case(NamedTuple):
    """Paths of files, and whether a start had happened before the log's first event. Of a long log only `sample` moments are looked at."""

    name: str
    net: str
    log: str
    names: Optional[str] = None
    first: Optional[str] = None
    last: Optional[str] = None
    started: bool = False
    sample: int = 0

    @property
    def long(self):
        return self.sample > 0

    def words(self):
        """The arguments of bin/report."""
        options = [("--" + kind, getattr(self, kind)) for kind in ("first", "last", "names")]
        given = [word for option in options if option[1] for word in option]
        return [self.net, self.log, *given] + ["--started"] * self.started


def read(path):
    with open(path, "rb") as file:
        return file.read()


def stored(name):
    """The case of that name in the folder (make_cases.py says how its files are called)."""
    family = name.split("-")[0]

    def found(kind, *places):
        return next((path for path in (os.path.join(FOLDER, place + kind) for place in places) if os.path.exists(path)), None)

    return Case(
        name, found(".net", name, family), found(".log", name), found(".names", name, family),
        found(".first", name), found(".last", name), bool(found(".started", name)),
    )


def box():
    return Case("box", BOX + ".net", BOX + ".log", BOX + ".names", last=BOX + ".last")


def made(folder, name, net, events):
    """Writes the files of a case with a log that is too long to be stored."""
    path = os.path.join(folder, name)
    for kind, data in ((".net", net.image()), (".log", log(events[:MOST_EVENTS])), (".names", net.name_lines().encode())):
        with open(path + kind, "wb") as file:
            file.write(data)
    return Case(name, path + ".net", path + ".log", path + ".names", sample=24)


def long_home(folder, name):
    events = Player(HOME, 7, keen=0.9).play(lambda box: len(box.events) >= MOST_EVENTS - 20).events
    return made(folder, name, HOME, events if name == "long-good" else broken(HOME, events, events.count((0, 0)) * 2 // 3))


def long_wide(folder, name):
    net = wide()
    events = Player(net, 3, keen=0.2).play(lambda box: len(box.events) >= MOST_EVENTS - 60).events
    spoilt = broken(net, events, events.count((0, 0)) * 2 // 3, over_starts=True)  # each end here sets the next start going
    return made(folder, name, net, events if name == "wide-good" else spoilt)


def dense(folder, name):
    """As many events as a log may have in one step: 12,000 rows are filled at once."""
    case = made(folder, name, ROW, [event for _ in range(MOST_EVENTS // 2) for event in (start(1), end(1, 0))])
    first = os.path.join(folder, name + ".first")
    with open(first, "wb") as file:
        file.write(ROW.state({"own_file_loaded": MOST_EVENTS // 2}))
    return case._replace(first=first, sample=6)


LONG = {"dense": dense, "long-good": long_home, "long-broken": long_home, "wide-good": long_wide, "wide-broken": long_wide}


def names():
    """The names of all cases, the long ones first: they take the longest."""
    return [*LONG, *sorted(name[:-4] for name in os.listdir(FOLDER) if name.endswith(".log")), "box"]


def case(name, folder):
    """The case of that name; a long one is written into the folder."""
    if name in LONG:
        return LONG[name](folder, name)
    return box() if name == "box" else stored(name)

#!/usr/bin/env python3
"""Writes the stored cases into the folder cases/.

usage: make_cases.py

A case NAME is a file NAME.log. Its net is NAME.net, or else that of its family, which is the name's first word: row-13 has row.net. So is
its file of names; there may be none. NAME.first and NAME.last are the state that the log began with and the box's last one. An empty
file NAME.started says that a start had happened before the log's first event."""

import os

from nets import HOME, PAGE, ROW, TICK, end, log, start
from player import Player, broken

FOLDER = os.path.join(os.path.dirname(os.path.abspath(__file__)), "cases")

MARKUP = PAGE.called(
    {0: "<b>&\"'", 4: "</script><script>spoilt=1</script>", 6: "<!--<script>", 7: "פרופיל_מבוגר", 9: "&lt;i&gt;", 11: "größte_日本_“x”"},
    {0: "<b>&\"'", 3: "<img/src=x/onerror=spoilt=1>", 4: "</script><b>", 6: "תולדות_הצפייה", 7: "]]>\\u003c&amp;", 8: "${spoilt=1}`"},
)
LENGTHY = PAGE.called(
    {0: "W" * 40, 4: "the_own_file_of_the_youngest_could_not_b", 6: "m" * 40, 9: "free_slots_of_the_rows_on_the_page_below", 11: "x"},
    {0: "W" * 40, 3: "the_own_file_is_broken_or_of_another_day", 4: "w" * 39 + "4", 7: "w" * 39 + "7",
     9: "show_the_page_to_the_child_that_asked_it"},
)
FAMILIES = {"row": ROW, "page": PAGE, "home": HOME, "markup": MARKUP, "lengthy": LENGTHY}

WHOLE_ROW = [start(0), TICK, end(0, 1), start(1), end(1, 0)]
# the own file is broken
BEFORE = [start(0), TICK, TICK, TICK, end(0, 3), start(1), TICK, TICK, TICK, TICK, TICK, end(1, 5), start(3), end(3, 0)]
RANKED = [TICK] * 4 + [end(7, 4), start(8), start(8), start(8), TICK]
BUILT = [end(8, 1), end(8, 1), TICK, end(8, 2), start(9), end(9, 0)]
GOOD_PAGE = BEFORE + [start(4), TICK, TICK, end(4, 2), start(7)] + RANKED + BUILT
# what the predecessor missed: a tick passes while the children's catalogue is owed
BROKEN_PAGE = BEFORE + [TICK, start(6), TICK, end(6, 1), start(7)] + RANKED + BUILT


def put(name, data):
    with open(os.path.join(FOLDER, name), "wb") as file:
        file.write(data if isinstance(data, bytes) else data.encode())


def case(name, events, **states):
    """A log, with the states and the fact that its report is to be given."""
    put(name + ".log", events if isinstance(events, bytes) else log(events))
    for kind, state in states.items():
        put("%s.%s" % (name, kind), state)


def put_nets():
    for family, net in FAMILIES.items():
        put(family + ".net", net.image())
        put(family + ".names", net.name_lines())
    put("plain.net", PAGE.image())


def rows():
    """The net of document 01, with a log for each number that an event can be refused by."""
    case("row-good", WHOLE_ROW)
    case("row-last-fits", WHOLE_ROW, last=ROW.state({"row_filled": 1}))
    case("row-last-longer", WHOLE_ROW, last=ROW.state({"row_filled": 1}) + b"behind it")
    case("row-18", [start(0), TICK, end(0, 1), TICK], last=ROW.state({"own_file_loaded": 1}))
    case("row-11", [start(0), (200, 0), TICK])
    case("row-11-tick", [start(0), TICK, (0, 5), TICK, end(0, 3)])
    case("row-12", [start(0), start(7), TICK])
    case("row-13", [start(0), start(1), TICK, end(1, 0)])
    case("row-14", [start(0), TICK], first=ROW.state({"own_file_wanted": 1}, [(0, 0)] * 65_535))
    case("row-15-soon", [start(0), end(0, 0)])
    case("row-15-late", [start(0), TICK, TICK, TICK, end(0, 4), start(1), end(1, 0)])
    case("row-16", [start(0), TICK, end(0, 2), start(1)])
    case("row-17", [end(0, 1)], first=ROW.state({"own_file_loaded": 65_535}, [(0, 1)]))
    case("row-19", [start(0), TICK, TICK, TICK, TICK, end(0, 4)])
    case("row-20", WHOLE_ROW + [TICK])
    two = ROW.state({"own_file_wanted": 2})
    case("row-28", [start(0), start(0), TICK, end(0, 1), start(1), end(0, 1), end(1, 0), TICK], first=two)
    case("row-28-started", [end(0, 2), TICK], first=ROW.state({}, [(0, 2)]), started=b"")
    case("row-29", [start(0), end(0, 3), TICK], first=ROW.state({"own_file_wanted": 1}, [(0, 3)]))
    case("row-empty", [])
    case("row-form", log(WHOLE_ROW)[:12])
    full = ROW.state({"own_file_loaded": 65_534}, [(0, 1)])
    case("row-first", [end(0, 1), start(1), start(1), start(1), end(1, 0), end(1, 0), TICK], first=full)
    case("row-before", [TICK, end(0, 2), start(1), end(1, 0)], first=ROW.state({}, [(0, 1)]))
    many = ROW.state({}, [(0, 0)] * 30 + [(0, 1)] * 7)
    case("row-many", [TICK, end(0, 1), end(0, 2), start(1), end(1, 0), start(1), end(1, 0), TICK], first=many)
    case("row-crowd", [TICK, end(0, 1), start(1), end(1, 0), TICK], first=ROW.state({}, [(0, 0)] * 1_200))
    case("row-first-8", WHOLE_ROW, first=b"no state")
    case("row-first-9", WHOLE_ROW, first=ROW.state({}, [(1, 2)]))


def pages():
    case("page-good", GOOD_PAGE, last=PAGE.state({"page_shown": 1, "adult_history": 1}))
    case("page-last-differs", GOOD_PAGE, last=PAGE.state({"page_shown": 1, "adult_profile": 2}))
    case("page-last-8", GOOD_PAGE, last=ROW.state({"row_filled": 1}))
    case("page-broken", BROKEN_PAGE, last=PAGE.state({"page_shown": 1}))
    case("page-broken-kept", BROKEN_PAGE[:15], last=PAGE.state({"own_file_failed": 1, "adult_history": 1, "free_row_slots": 3}))
    late = [start(4), TICK, TICK, TICK, end(4, 3), start(7)] + [TICK] * 7
    case("page-late", BEFORE + late + [end(7, 6), start(8), start(8), start(8), TICK])
    case("page-cut", BEFORE)
    case("page-running", GOOD_PAGE[:17])
    case("page-due", GOOD_PAGE[:4])
    case("page-either", BEFORE[:-2] + [TICK, start(6), TICK])
    case("page-13-second", BEFORE + [start(6), start(4), TICK, TICK, end(4, 2), end(6, 2)])
    case("page-13-some", GOOD_PAGE[:-5] + [start(9)] + GOOD_PAGE[-5:])
    for family in ("markup", "lengthy", "plain"):
        case(family + "-good", GOOD_PAGE)
        case(family + "-broken", BROKEN_PAGE)
    case("markup-13", BEFORE + [start(6), TICK])


def inserted(seed, wrong):
    """A good log of 40 ticks with one event more: the first that is `wrong` behind tick 20."""
    box = Player(HOME, seed)
    while box.ticks < 20 or not wrong(box):
        box.turn()
    at, event = len(box.events), wrong(box)[0]
    events = box.play(lambda box: box.ticks >= 40).events
    return events[:at] + [event] + events[at:]


def ends_of_no_such_age(box):
    return not box.started and [end(t, age + 1) for t, age in box.running if age == 1 and box.lfd((t, 1)) > 2]


def old_ends_behind_a_start(box):
    return box.started and [end(t, age) for t, age in box.running if age >= HOME.transitions[t][1] > 0]


def starts_before_an_owed_end(box):
    return any(age for _, age in box.due()) and [start(t) for t in box.enabled()]


def homes():
    """The log whose length is nearest to 200 events in 60 ticks; the same with faults; and one that begins in the middle of a step."""
    boxes = (Player(HOME, seed).play(lambda box: box.ticks >= 60) for seed in range(400))
    best = min(boxes, key=lambda box: abs(len(box.events) - 200))
    case("home-good", best.events, last=best.state())
    case("home-broken", broken(HOME, best.events, 41))
    case("home-cut", best.events[:43])  # what had just ended had to start again
    case("home-18", best.events[:62] + [TICK] + best.events[62:])
    case("home-13", best.events[:150] + [start(7)] + best.events[150:])
    case("home-16", inserted(1, ends_of_no_such_age))
    case("home-28", inserted(50, old_ends_behind_a_start))
    case("home-29", inserted(16, starts_before_an_owed_end))
    box = Player(HOME, 5).play(lambda box: box.ticks >= 20)
    while not box.started:
        box.turn()
    first, seen = box.state(), len(box.events)
    box.play(lambda box: box.ticks >= 35)
    case("home-middle", box.events[seen:], first=first, last=box.state(), started=b"")


def refused():
    """Nets that are none, by their numbers."""
    image = PAGE.image()
    row = 7 + 2 * len(PAGE.places)
    whole = bytearray(image)
    whole[row], whole[row + 1] = 3, 1
    case("refused-4", GOOD_PAGE, net=bytes(whole))
    case("refused-1", GOOD_PAGE, net=image[:-1])


def main():
    os.makedirs(FOLDER, exist_ok=True)
    for name in os.listdir(FOLDER):
        os.remove(os.path.join(FOLDER, name))
    put_nets()
    rows()
    pages()
    homes()
    refused()


if __name__ == "__main__":
    main()

"""The file of names (docs/REPORT-TO-SUPPORT.md): lines `place 3 adult-history` and `transition 4 children's-catalogue`."""

import re

LINE = re.compile(rb"(place|transition) ([0-9]{1,2}) ([^\x00-\x20\x7f]{1,40})")
MOST_NUMBER = 63


class Names:
    """What places and transitions are called. What has no name is called by its number."""

    def __init__(self, data=b""):
        self.given = {"place": {}, "transition": {}}
        self.bad_lines = []
        for number, line in enumerate(data.split(b"\n"), 1):
            if line:
                self.read(number, line)

    def read(self, number, line):
        """One line. The first name of a thing counts; a line of another form is kept for a message and does no harm."""
        found = LINE.fullmatch(line)
        if found and int(found[2]) <= MOST_NUMBER:
            self.given[found[1].decode()].setdefault(int(found[2]), found[3].decode("utf-8", "replace"))
        else:
            self.bad_lines.append(number)

    def shown(self, kind, number, otherwise):
        """For people: an underscore stands for a blank, unless there is nothing else."""
        name = self.given[kind].get(number, otherwise % number)
        return name.replace("_", " ").strip() or name

    def place(self, number):
        return self.shown("place", number, "place %d")

    def activity(self, number):
        return self.shown("transition", number, "activity %d")

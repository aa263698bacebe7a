"""The nets of the cases, in the words of the product, and their stored forms (document 01)."""

import struct

TICK = (0, 0)


def start(transition):
    return (1 + transition, 0)


def end(transition, age):
    return (65 + transition, age)


class Net:
    """places: [(name, tokens)]; transitions: [(name, sfd, lfd, {place: weight taken}, {place: weight given})]"""

    def __init__(self, places, transitions):
        self.places, self.transitions = places, transitions
        self.names = [name for name, _ in places]
        self.marking = dict(places)
        self.ages = max(row[2] for row in transitions) + 1

    def image(self):
        places, transitions = len(self.places), len(self.transitions)
        length = 7 + 2 * places + transitions * (2 + 2 * places)
        head = struct.pack(">BIBB", 1, length, places, transitions)
        marking = b"".join(struct.pack(">H", tokens) for _, tokens in self.places)
        return head + marking + b"".join(map(self.row, self.transitions))

    def row(self, transition):
        _, sfd, lfd, takes, gives = transition
        return bytes([sfd, lfd, *(takes.get(name, 0) for name in self.names), *(gives.get(name, 0) for name in self.names)])

    def state(self, marking, running=()):
        """A state with these tokens, {place: tokens}, and these firings, [(transition, age)]."""
        counts = [[0] * self.ages for _ in self.transitions]
        for transition, age in running:
            counts[transition][age] += 1
        sizes = len(self.places), len(self.transitions), self.ages
        head = struct.pack(">BIBBB", 1, 8 + 2 * sizes[0] + 2 * sizes[1] * sizes[2], *sizes)
        numbers = [marking.get(name, 0) for name in self.names] + [count for row in counts for count in row]
        return head + struct.pack(">%dH" % len(numbers), *numbers)

    def name_lines(self):
        lines = ["place %d %s" % pair for pair in enumerate(self.names)]
        return "\n".join(lines + ["transition %d %s" % (number, row[0]) for number, row in enumerate(self.transitions)]) + "\n"

    def called(self, places, transitions):
        """The same net with other names, given by number; the rest keep theirs."""
        new = {name: places.get(number, name) for number, name in enumerate(self.names)}
        rows = [
            (transitions.get(number, name), sfd, lfd, {new[p]: w for p, w in takes.items()}, {new[p]: w for p, w in gives.items()})
            for number, (name, sfd, lfd, takes, gives) in enumerate(self.transitions)
        ]
        return Net([(new[name], tokens) for name, tokens in self.places], rows)


def log(events):
    """The stored form of a log."""
    return struct.pack(">BI", 1, 5 + 2 * len(events)) + bytes(byte for event in events for byte in event)


# the net of document 01
ROW = Net(
    [("own_file_wanted", 1), ("own_file_loaded", 0), ("row_filled", 0)],
    [
        ("load_own_file", 1, 3, {"own_file_wanted": 1}, {"own_file_loaded": 1}),
        ("fill_row", 0, 0, {"own_file_loaded": 1}, {"row_filled": 1}),
    ],
)

# where the own file is broken, the children's catalogue has to be loaded in its place
PAGE = Net(
    [
        ("profile_wanted", 1), ("profile_known", 0), ("own_file_read", 0), ("own_file_good", 0), ("own_file_failed", 0),
        ("titles_found", 0), ("adult_history", 1), ("adult_profile", 0), ("ranked_titles", 0), ("free_row_slots", 3),
        ("rows_filled", 0), ("page_shown", 0),
    ],
    [
        ("load_profile", 1, 3, {"profile_wanted": 1}, {"profile_known": 1}),
        ("read_own_file", 1, 5, {"profile_known": 1}, {"own_file_read": 1}),
        ("own_file_is_good", 0, 0, {"own_file_read": 1}, {"own_file_good": 1}),
        ("own_file_is_broken", 0, 0, {"own_file_read": 1}, {"own_file_failed": 1}),
        ("children's_catalogue", 1, 3, {"own_file_failed": 1}, {"titles_found": 1}),
        ("titles_from_own_file", 0, 1, {"own_file_good": 1}, {"titles_found": 1}),
        ("titles_from_adult_history", 1, 2, {"adult_history": 1, "adult_profile": 1}, {"titles_found": 1}),
        ("rank_titles", 2, 6, {"titles_found": 1}, {"ranked_titles": 3}),
        ("build_row", 1, 2, {"ranked_titles": 1, "free_row_slots": 1}, {"rows_filled": 1}),
        ("show_page", 0, 0, {"rows_filled": 3}, {"page_shown": 1}),
    ],
)

# a page that is built again and again
HOME = Net(
    [
        ("refresh_due", 1), ("history_wanted", 0), ("trends_wanted", 0), ("artwork_wanted", 0), ("history_here", 0),
        ("trends_here", 0), ("network_lines", 2), ("ranker_free", 1), ("ranked_titles", 0), ("artwork_here", 0),
        ("row_slots", 4), ("rows_built", 0), ("page_old", 0),
    ],
    [
        ("begin_refresh", 0, 0, {"refresh_due": 1}, {"history_wanted": 1, "trends_wanted": 1, "artwork_wanted": 2}),
        ("load_history", 1, 3, {"history_wanted": 1, "network_lines": 1}, {"history_here": 1, "network_lines": 1}),
        ("load_trends", 1, 4, {"trends_wanted": 1, "network_lines": 1}, {"trends_here": 1, "network_lines": 1}),
        ("load_artwork", 1, 2, {"artwork_wanted": 1, "network_lines": 1}, {"artwork_here": 1, "network_lines": 1}),
        ("rank_history", 2, 5, {"history_here": 1, "ranker_free": 1}, {"ranked_titles": 2, "ranker_free": 1}),
        ("rank_trends", 1, 3, {"trends_here": 1, "ranker_free": 1}, {"ranked_titles": 2, "ranker_free": 1}),
        ("build_plain_row", 1, 2, {"ranked_titles": 1, "row_slots": 1}, {"rows_built": 1}),
        ("decorate_page", 0, 1, {"artwork_here": 2, "rows_built": 4}, {"page_old": 1}),
        ("clear_page", 1, 2, {"page_old": 1}, {"refresh_due": 1, "row_slots": 4}),
    ],
)


def wide():
    """The largest net: eight lines of eight stages, through which tokens go round, with times of up to 63 ticks."""
    def place(line, stage):
        return "line_%d,_stage_%d" % (line, stage % 8)

    return Net(
        [(place(line, stage), 3 if stage == 0 else 0) for line in range(8) for stage in range(8)],
        [
            ("move_line_%d_from_stage_%d" % (line, stage), 1, 63 if line == stage else 3 + (line + stage) % 5,
             {place(line, stage): 1}, {place(line, stage + 1): 1})
            for line in range(8) for stage in range(8)
        ],
    )

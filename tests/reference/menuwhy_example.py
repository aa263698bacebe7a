"""A page of a children's menu, built by a box that once ticks too early: the fixed example of `menuwhy`.

Three parts of the children's catalogue, the own history in two parts and the adult history are loaded, a ranker
ranks two titles at a time, two row builders build rows, and four rows make a page, which goes into the own history.
"""

import material
import reference
from reference import Net, Transition

NAMES = b"""\
place 0 children's-catalogue
place 1 own-history
place 2 adult-history
place 3 ranker
place 4 titles-loaded
place 5 titles-ranked
place 6 row-builder
place 7 rows-built

transition 0 load-children's-catalogue
transition 1 load-own-history
transition 2 load-adult-history
transition 3 rank-titles
transition 4 build-row
transition 5 show-page
"""

NET = Net(
    marking=(3, 2, 1, 1, 0, 0, 2, 0),
    transitions=(
        Transition(2, 9, (1, 0, 0, 0, 0, 0, 0, 0), (0, 0, 0, 0, 2, 0, 0, 0)),
        Transition(1, 3, (0, 1, 0, 0, 0, 0, 0, 0), (0, 0, 0, 0, 1, 0, 0, 0)),
        Transition(4, 12, (0, 0, 1, 0, 0, 0, 0, 0), (0, 0, 0, 0, 1, 0, 0, 0)),
        Transition(1, 3, (0, 0, 0, 1, 2, 0, 0, 0), (0, 0, 0, 1, 0, 2, 0, 0)),
        Transition(1, 4, (0, 0, 0, 0, 0, 1, 1, 0), (0, 0, 0, 0, 0, 0, 1, 1)),
        Transition(0, 0, (0, 0, 0, 0, 0, 0, 0, 4), (0, 1, 0, 0, 0, 0, 0, 0)),
    ),
)

# a step in each line, with a tick between two: +t is the start of transition t, -t.a its end at age a
BEGINNING = """\
+0 +0 +0 +1 +1 +2
-1.1
-1.2 +3
-0.3
-0.4 -3.2 +3 +4 +4

-4.2
"""
LAWFUL = BEGINNING + """\
-3.3 +3 +4
-4.4 +4
-0.9 -3.2 +3
-4.2 -4.3 +4 +4 +5 -5.0 +1
"""
FAULTY = BEGINNING + """\
-3.3 +3
-4.4 +4 +4
-0.9 -3.2 +3
-4.2 -4.2 +4 +4 +5 -5.0 +1
"""


def pair_of(word):
    """The two bytes of an event."""
    t, _, age = word[1:].partition(".")
    return (1 + int(t), 0) if word[0] == "+" else (65 + int(t), int(age))


def pairs_of(text):
    """The events of the steps."""
    pairs = []
    for line in text.splitlines():
        pairs += [*map(pair_of, line.split()), (0, 0)]
    return pairs[:-1]


def shown_by_box(pairs):
    """The state that a box has behind these events, of which it asks nothing."""
    state = reference.initial_state(NET)
    for pair in pairs:
        state = reference.changed(NET, state, reference.read_event(NET, *pair))
    return reference.state_image(NET, state)


def early_state():
    """A last state from before the log's last event."""
    return shown_by_box(pairs_of(LAWFUL)[:-1])


def example(text):
    """Net, log, last state and names."""
    pairs = pairs_of(text)
    return material.encode_net(NET), material.encode_log(pairs), shown_by_box(pairs), NAMES


def realistic():
    """The faulty log: a row builder is free before tick 8 and two titles wait, but its start comes behind that tick."""
    return example(FAULTY)


def realistic_lawful():
    """The same page by a box that starts the row builder in time; it comes to the same last state."""
    return example(LAWFUL)

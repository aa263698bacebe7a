"""The lines of the timeline from the maker of a token to its taker, for a firing that is chosen."""

from geometry import SLACK
from whys import shown_links

TIP = 3  # pixels that a line ends before its bar


def wanted(truth, number):
    """(maker, taker, whether it is dashed), as numbers of firings: along what was waited for, and dashed for the other tokens."""
    makers = {maker for _, maker, _ in truth.origins.took.get(number, []) if maker is not None}
    chain = shown_links(truth.origins.chain(truth.origins.took.get(number, [])))
    others = sorted(makers - {*chain[:1]})
    return [(maker, number, True) for maker in others] + [(maker, taker, False) for maker, taker in zip(chain, [number, *chain])]


def check(findings, frame, lines, truth, number):
    """`lines` are x and y of both ends, and whether the line is dashed. What is out of sight is only counted."""
    where = "the lines to “%s” of event %s" % (truth.names.activity(truth.firings[number].transition), truth.firings[number].start)
    places = truth.columns.place
    right = [one for one in wanted(truth, number) if {truth.firings[end].transition for end in one[:2]} <= {*frame.lanes}]
    findings.same(where + ", how many there are", len(lines), len(right))
    for maker, taker, dashed in right:
        made, took = truth.firings[maker], truth.firings[taker]
        if took.start is None or not frame.first <= places(made.end) <= places(took.start) <= frame.behind:
            continue
        begin, end = frame.scale.x(places(made.end)), frame.scale.x(places(took.start)) - TIP
        fits = [line for line in lines if line[4] == dashed and abs(line[0] - begin) <= SLACK and abs(line[2] - end) <= SLACK
                and frame.lane(line[1], line[1]) == made.transition and frame.lane(line[3], line[3]) == took.transition]
        findings.check(fits, "%s: there is none from event %d to event %d%s" % (where, made.end, took.start, ", dashed" * dashed))

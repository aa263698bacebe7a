"""The net as a picture: Graphviz lays it out, and the SVG is drawn here, with classes and ids that a page can style and fill."""

import json
import shutil
import subprocess
import textwrap

from markup import esc

MARGIN, LINE = 6, 13  # of the picture, and between two lines of text
SMALLEST = 0.72  # a page never shows it smaller than this part of its size
MOST_DOTS = 4
MOST_SECONDS = 30

STYLE = """
text { font: 11.5px system-ui, Arial, sans-serif; text-anchor: middle; fill: #1a1d23; }
path { fill: none; stroke: #565d6b; } polygon { fill: #565d6b; } circle { fill: #fff; stroke: #565d6b; stroke-width: 1.2; }
ellipse, rect { fill: #fff; stroke: #565d6b; stroke-width: 1.2; } .held ellipse { stroke: #1f5fa8; stroke-width: 2.2; }
.tokens { fill: #1f5fa8; font-weight: 700; } .span { fill: #565d6b; }
.weight { font-weight: 700; paint-order: stroke; stroke: #fff; stroke-width: 4px; } .ground { stroke: none; }
"""


class NoPicture(Exception):
    """Why Graphviz has laid nothing out."""


def installed():
    return shutil.which("dot") is not None


def picture(net, names):
    """The net with its initial tokens, as an element of a page, which styles it and says how wide it is at least."""
    wide, high, parts = drawn(net, names)
    title = "The net: %d places (round) and %d activities (square). The table under it has the same." % (net.places, net.transitions)
    return '<svg class="net" viewBox="0 0 %.0f %.0f" style="width:max(min(100%%,%.0fpx),%.0fpx)" role="img" aria-labelledby="net-t">\n' \
        '<title id="net-t">%s</title>\n%s\n</svg>' % (wide, high, wide, SMALLEST * wide, title, "\n".join(parts))


def alone(net, names):
    """The same as a file of its own, on a white ground."""
    wide, high, parts = drawn(net, names)
    return '<svg xmlns="http://www.w3.org/2000/svg" width="%.0f" height="%.0f" viewBox="0 0 %.0f %.0f">\n<style>%s</style>\n' \
        '<rect class="ground" width="100%%" height="100%%"/>\n%s\n</svg>\n' % (wide, high, wide, high, STYLE, "\n".join(parts))


def drawn(net, names):
    """Width and height, and the elements: arcs first, so that places and activities lie over them."""
    lines = {**{"p%d" % p: wrapped(names.place(p), 10) for p in range(net.places)},
             **{"t%d" % t: wrapped(names.activity(t), 12) for t in range(net.transitions)}}
    laid = layout(net, lines)
    width, height = (float(side) for side in laid["bb"].split(",")[2:])
    parts = [arc(edge, laid["objects"], height) for edge in laid.get("edges", [])]
    parts += [node(one, lines[one["name"]], height, net, names) for one in laid["objects"]]
    return width + 2 * MARGIN, height + 2 * MARGIN, ['<g transform="translate(%d %d)">' % (MARGIN, MARGIN), *parts, "</g>"]


def wrapped(name, width):
    return textwrap.wrap(name, width, break_long_words=True) or [""]


def breadth(line):
    """How wide a line of text is, in inches, by its letters: no font is measured here."""
    return sum(0.175 if letter >= "\u1100" else 0.055 if letter in "ijlftr .,:;'|!()-" else 0.165 if letter in "mwMW@%" else
               0.092 if letter == letter.lower() else 0.11 for letter in line)


def layout(net, lines):
    """Where Graphviz puts everything. The nodes are as large as their lines of text, and one for tokens or times."""
    dot = ["digraph net {", "graph [rankdir=LR, nodesep=0.2, ranksep=0.27]", 'node [fixedsize=true, label=""]', "edge [arrowsize=0.7]"]
    for name, text in lines.items():
        width, height = max(map(breadth, text)) + 0.2, (len(text) + 1) * 0.19 + 0.2
        if name[0] == "p":
            # wide enough for as many tokens as a place can hold
            dot.append("%s [shape=ellipse, width=%.2f, height=%.2f]" % (name, max(width * 1.12, 0.7), height * 1.3))
        else:
            dot.append("%s [shape=box, width=%.2f, height=%.2f]" % (name, max(width, 0.6), height))
    for t in range(net.transitions):
        dot += ["p%d -> t%d [%s]" % (p, t, weighed(weight)) for p, weight in net.takes[t]]
        dot += ["t%d -> p%d [%s]" % (t, p, weighed(weight)) for p, weight in net.gives[t]]
        dot += ['p%d -> t%d [arrowhead=odot, label=" %d "]' % (p, t, threshold) for p, threshold in net.blocks[t]]
    return laid_out("\n".join([*dot, "}"]))


def laid_out(dot):
    try:
        told = subprocess.run(["dot", "-Tjson"], input=dot, capture_output=True, text=True, check=True, timeout=MOST_SECONDS)
    except subprocess.TimeoutExpired:
        raise NoPicture("Graphviz has not laid it out in %d seconds: it has too many arcs" % MOST_SECONDS)
    except (OSError, subprocess.CalledProcessError) as error:
        raise NoPicture("Graphviz does not lay it out: %s" % error)
    return json.loads(told.stdout)


def weighed(weight):
    return 'label=" %d "' % weight if weight > 1 else ""


def arc(edge, objects, height):
    """A line from place to activity or back, with its tip: an arrow, or a ring where so many tokens block."""
    tip, *points = [tuple(map(float, point.removeprefix("e,").split(","))) for point in edge["pos"].split()]
    (begin, *curve), end = points, points[-1]
    path = "M%.1f %.1f C" % (begin[0], height - begin[1]) + " ".join("%.1f %.1f" % (x, height - y) for x, y in curve)
    blocks = edge.get("arrowhead") == "odot"
    between = 'class="arc%s" data-a="%s" data-b="%s"' % (
        " blocks" if blocks else "", objects[edge["tail"]]["name"], objects[edge["head"]]["name"])
    drawn = ring(end, tip, height) if blocks else arrow(end, tip, height)
    if "lp" in edge:
        x, y = map(float, edge["lp"].split(","))
        drawn += '<text class="weight" x="%.1f" y="%.1f">%s</text>' % (x, height - y + 4, esc(edge["label"].strip()))
    return '<g %s><path d="%s"/>%s</g>' % (between, path, drawn)


def arrow(end, tip, height):
    """A triangle from the end of a line to its tip."""
    dx, dy = tip[0] - end[0], end[1] - tip[1]
    length = (dx * dx + dy * dy) ** 0.5 or 1
    across = 3.2 * dy / length, 3.2 * dx / length
    x, y = end[0], height - end[1]
    corners = (tip[0], height - tip[1]), (x - across[0], y + across[1]), (x + across[0], y - across[1])
    return '<polygon points="%s"/>' % " ".join("%.1f,%.1f" % corner for corner in corners)


def ring(end, tip, height):
    radius = ((tip[0] - end[0]) ** 2 + (tip[1] - end[1]) ** 2) ** 0.5 / 2
    return '<circle cx="%.1f" cy="%.1f" r="%.1f"/>' % ((end[0] + tip[0]) / 2, height - (end[1] + tip[1]) / 2, radius)


def node(laid, lines, height, net, names):
    """A place with its tokens, or an activity with its times."""
    name, number = laid["name"], int(laid["name"][1:])
    x, y = map(float, laid["pos"].split(","))
    y, wide, high = height - y, float(laid["width"]) * 72, float(laid["height"]) * 72
    top = y - len(lines) * LINE / 2 + 2
    text = "".join('<text x="%.1f" y="%.1f">%s</text>' % (x, top + LINE * k, esc(line)) for k, line in enumerate(lines))
    under = top + LINE * len(lines)
    if name[0] == "p":
        count = net.initial[number]
        return '<g class="place%s" id="n-%s"><title>%s (place %d)</title><ellipse cx="%.1f" cy="%.1f" rx="%.1f" ry="%.1f"/>%s' \
            '<text class="tokens" x="%.1f" y="%.1f">%s</text></g>' % (
                " held" if count else "", name, esc(names.place(number)), number, x, y, wide / 2, high / 2, text, x, under + 1, dots(count))
    shortest, longest = net.sfd[number], net.lfd[number]
    return '<g class="activity" id="n-%s"><title>%s (transition %d), %d to %d ticks</title>' \
        '<rect x="%.1f" y="%.1f" width="%.1f" height="%.1f" rx="2"/>%s<text class="span" x="%.1f" y="%.1f">%d..%d</text></g>' % (
            name, esc(names.activity(number)), number, shortest, longest, x - wide / 2, y - high / 2, wide, high, text, x, under, shortest, longest)


def dots(count):
    return "\u25cf" * count if count <= MOST_DOTS else "%d \u25cf" % count

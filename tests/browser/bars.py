"""The bars of the timeline: each is a firing of the log, and each firing in sight has its bar."""

from collections import defaultdict

from geometry import SLACK, SMALLEST
from phrases import counted, lasting

STRIPS_FROM = 7  # in narrower columns no strip shows the time that a firing had left
MOST_ROWS = 24  # of one lane
LONGEST = 64  # columns that a firing may reach into the picture from the left
ASIDE = 0, -1, 1  # a place may be rounded to the pixel beside it
STICKS_OUT = 20  # pixels that a bar goes on behind the picture's edge, where it is cut off


def check(picture):
    """Each bar is in the lane of its activity, from its start to its end, and is told so to screen readers."""
    left_over, drawn, known = nearby(picture), set(), []
    for bar in picture.seen["bars"]:
        box, lane = bar["box"], picture.frame.lane(*bar["box"][2:])
        begin = pixel(picture, box[0])
        drawn.add((lane, begin, round(box[1])))
        fits = ((some, one) for some in (left_over[lane, begin + aside] for aside in ASIDE) for one in some
                if picture.frame.spans(box, *one[1:]) and label(picture.truth, one[0]) == bar["label"])
        some, fit = next(fits, (None, None))
        places = tuple(map(picture.scale.place, box[:2]))
        what = "the bar %s, in lane %s from column %.2f to %.2f, is none of the log's" % (bar["label"], lane, *places)
        if picture.holds(fit, what):
            some.remove(fit)
            known.append((fit, box, bar["must"]))
    rest = [one for some in left_over.values() for one in some if picture.frame.has(*one[1:])]
    picture.same("firings without a bar", [one[0] for one in rest if not is_covered(picture, drawn, *one)], [])
    check_times(picture, known)
    check_rows(picture)


def check_rows(picture):
    """Firings of one activity that run at the same time stand one under the other; only where they are very many they share a row."""
    rows = defaultdict(list)
    for box in [bar["box"] for bar in picture.seen["bars"]] + [box for tag, _, *box in picture.seen["ghosts"] if tag == "rect"]:
        rows[picture.frame.lane(*box[2:]), round(box[2] / 4)].append(box[:2])  # a ghost is a little lower than a bar
    many = {lane for lane in picture.lanes if sum(one == lane for one, _ in rows) >= MOST_ROWS}
    over = []
    for (lane, _), boxes in rows.items():
        boxes.sort()
        over += [(lane, round(picture.scale.place(left), 2)) for (_, right), (left, _) in zip(boxes, boxes[1:])
                 if lane not in many and left < right - SMALLEST]
    picture.same("lanes and columns where bars lie over each other", over, [])


def nearby(picture):
    """(firing, begin, end) of what may be in sight, by lane and pixel of the start, as a step may have thousands."""
    found = defaultdict(list)
    for firing, begin, end in picture.truth.spans:
        if firing.transition in picture.lanes and begin < picture.frame.behind and end > picture.frame.first - LONGEST:
            found[firing.transition, pixel(picture, picture.scale.x(begin))].append((firing, begin, end))
    return found


def pixel(picture, x):
    """A pixel of the picture; what lies left of it is cut off there."""
    return round(max(x, picture.frame.left - 1))


def is_covered(picture, drawn, firing, begin, end):
    """Whether a bar would be covered to the pixel by another, which is then drawn for both."""
    left, right = picture.scale.x(begin), picture.scale.x(end)
    right = round(min(max(right, left + SMALLEST - 1), picture.frame.right + STICKS_OUT))
    return any((firing.transition, pixel(picture, left) + one, right + other) in drawn for one in ASIDE for other in ASIDE)


def label(truth, firing):
    """A firing's bar as it is named for screen readers."""
    row = truth.net.transitions[firing.transition]
    since = "tick %d" % firing.since if firing.since >= 0 else counted(-firing.since, "tick") + " before the log"
    if firing.end is None:
        ran = "running since " + since
    elif firing.since == firing.until:
        ran = "at " + since
    else:
        ticks = "ticks %d to %d" % (firing.since, firing.until) if firing.since >= 0 else "from %s to tick %d" % (since, firing.until)
        ran = "%s, took %s" % (ticks, counted(firing.until - firing.since, "tick"))
    return "“%s”, %s (%s)" % (truth.names.activity(firing.transition), ran, lasting(row.sfd, row.lfd))


def check_times(picture, known):
    """A bar is dark up to the shortest time of its activity, and a strip behind it goes up to its latest end."""
    wanted, scale = [], picture.scale
    for (firing, _, end), (left, right, *_), must in known:
        row = picture.truth.net.transitions[firing.transition]
        sure = right if row.lfd == 0 else left if row.sfd == 0 else min(max(scale.x(firing.since + row.sfd), left), right)
        dark = must[0][1] if must else left
        what = "%s is dark up to column %.2f, not %.2f" % (firing, scale.place(dark), scale.place(sure))
        picture.holds(abs(dark - sure) <= SLACK, what)
        if row.lfd and picture.frame.has(end, firing.since + row.lfd + 1):
            wanted.append((end, firing.since + row.lfd + 1))
    if scale.wide > STRIPS_FROM + SLACK:
        strips = [box for box in picture.seen["rooms"] if picture.frame.has(*map(scale.place, box[:2]))]
        picture.same("how many strips of time left there are", len(strips), len(wanted))
        lost = [one for one in wanted if not any(picture.frame.spans(box, *one) for box in strips)]
        picture.same("strips of time left that are not there", lost, [])

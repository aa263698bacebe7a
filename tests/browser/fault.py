"""The fault in the timeline: its line, what is not checked behind it, and that nothing checked lies there."""

from geometry import SLACK, SMALLEST


def check(picture):
    x = None if picture.truth.fault is None else picture.scale.x(picture.truth.fault)
    check_line(picture, x)
    check_ground(picture, x)
    if x is not None:
        late = [bar["label"] for bar in picture.seen["bars"] if bar["box"][1] > max(x + SLACK, bar["box"][0] + SMALLEST)]
        picture.same("checked bars that are right of the fault", late, [])
    check_ghosts(picture)


def check_line(picture, x):
    """A refused tick is a line on the right edge of its column, another event one at its place; a flag is over it."""
    line, flag, frame = picture.seen["fault"], picture.seen["flag"], picture.frame
    shown = x is not None and frame.left - SLACK <= x <= frame.right + SLACK
    if picture.same("whether the fault is in sight", bool(line), shown) and shown:
        at = sum(line[:2]) / 2
        what = "the fault's line is at column %.2f, not %.2f" % (picture.scale.place(at), picture.truth.fault)
        picture.holds(abs(at - x) <= SLACK, what)
        picture.holds(flag and flag[0] - SLACK <= x <= flag[1] + SLACK, "the fault's flag is not at its line")


def check_ground(picture, x):
    """What follows the fault is on another ground."""
    ground, frame = picture.seen["unchecked"], picture.frame
    grey = x is not None and x < frame.right - SLACK
    is_grey = bool(ground) and ground[1] - ground[0] > SLACK
    if picture.same("whether some ground is not checked", is_grey, grey) and grey:
        left, right = max(x, frame.left), frame.right
        fits = abs(ground[0] - left) <= SLACK and abs(ground[1] - right) <= SLACK
        picture.holds(fits, "what is not checked goes from %.1f to %.1f, not from %.1f to %.1f" % (*ground[:2], left, right))


def check_ghosts(picture):
    """What the box wrote behind the fault is there, faded, in its lanes and ticks; and nothing else is faded."""
    wanted = [one for one in picture.truth.unchecked if one[1] is None or one[1] <= picture.frame.behind]
    for tag, title, *box in picture.seen["ghosts"]:
        lane = picture.frame.lane(*box[2:])
        fits = [one for one in wanted if one[0] == lane and is_ghost(picture, tag, box, *one[1:])]
        what = "what is faded in lane %s at column %.2f (%s) is not in the log" % (lane, picture.scale.place(box[0]), title)
        if picture.holds(fits, what):
            wanted.remove(fits[0])
        picture.holds("not checked" in title, "what is faded is called %r" % title)
    for lane, begin, end in wanted:
        begin, end = end if begin is None else begin, picture.columns.count if end is None else end
        if lane in picture.lanes:
            is_seen = begin < picture.frame.behind and end > picture.frame.first
            picture.holds(not is_seen, "lane %d lacks what was written from %.2f to %.2f" % (lane, begin, end))


def is_ghost(picture, tag, box, begin, end):
    """Whether it is a small mark for an end without a start, else a box from place to place."""
    if begin is None:
        return tag == "path" and abs((box[0] + box[1]) / 2 - picture.scale.x(end)) <= SMALLEST
    return tag == "rect" and picture.frame.spans(box, begin, picture.columns.count if end is None else end)

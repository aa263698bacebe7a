"""The numbers of a moment as the page says them, held to the engine's."""

import shutil

import reading
from firings import END, NOTHING, START, TICK
from reading import NotUnderstood

MOST_DOTS, MOST_MAKERS = 4, 5
SHORT_STEP = 30  # a step of so many events is listed whole


def dots(count):
    """How a place of the net's picture shows its tokens."""
    return "●" * count if count <= MOST_DOTS else "%d ●" % count


def compare(findings, words, truth, done, before):
    """All that the page says of the moment behind `done` events; the moment before it is the one behind `before`."""
    where = "after %d events" % done
    for part in (compare_moment, compare_step, compare_owed, compare_running, compare_marks, compare_makers, compare_net):
        try:
            part(findings, where, words, truth, done, before)
        except NotUnderstood as error:
            findings.check(False, "%s: %s" % (where, error))


def compare_moment(findings, where, words, truth, done, before):
    right = truth.moment(done)
    tick, said, total, tail = reading.moment(words["moment"])
    findings.same(where + ", the tick", tick, right.tick)
    findings.same(where + ", events done", said, done)
    findings.same(where + ", all events", total, len(truth.pairs) if done else None)
    last = "just before the fault" if truth.number else "the end of the log"
    findings.same(where + ", what is said of the moment", tail, last if done == truth.done else None)
    findings.same(where + ", the slider as it is spoken", words["spoken"], words["moment"])
    findings.same(where + ", the heading of the step", words["stepHead"], "Events at tick %d" % right.tick)
    net_when = "at tick %d" % right.tick + (", just before the fault" if truth.number and done == truth.done else "")
    findings.same(where + ", when the net is as it is shown", words["netWhen"], net_when)


def event_in_words(truth, number):
    """(kind, name or None, age or None). Of an activity that the net does not have the name is left open."""
    kind, transition, age = truth.columns.events[number]
    name = truth.names.activity(transition) if kind in (START, END) and transition < len(truth.net.transitions) else None
    return kind, name, age if kind == END else None


def compare_step(findings, where, words, truth, done, before):
    """The list has the events of the moment's column and the tick behind them, with the fault and what follows it marked."""
    columns, tick = truth.columns, truth.moment(done).tick
    step = [*columns.step(tick)] + ([columns.begins[tick + 1] - 1] if tick + 1 < columns.count else [])
    said = [reading.step_line(line["parts"]) for line in words["step"] if "remark" not in line["sort"]]
    step = part_of_step(findings, where, words, [number for number, _, _ in said], step, done)
    for number, event, sort in said if step else []:
        right = event_in_words(truth, number)
        if right[0] in (TICK, NOTHING) or right[1] is not None:
            findings.same("%s, event %d" % (where, number), event, right)
        mark = "" if not truth.number or number < truth.done else "refused" if number == truth.done else "after"
        findings.same("%s, the mark of event %d" % (where, number), sort, mark)
    here = [[line["parts"][-1] for line in words["step"] if sign in line["sort"].split()] for sign in ("here", "now")]
    right = [["event %d" % number] if number in step else [] for number in (done - 1, done)]
    findings.same(where + ", the events before and behind the moment", here, right)
    compare_border(findings, where, words, truth.border(tick), step)


def part_of_step(findings, where, words, numbers, step, done):
    """The events that are listed: all of the step, or of a long one those around the moment, and how many are left out on either side."""
    if len(step) > SHORT_STEP and len(numbers) < len(step) and numbers:
        left_out = [reading.left_out(line["parts"]) for line in words["step"] if line["sort"] == "remark"]
        right = [(numbers[0] - step[0], "earlier"), (step[-1] - numbers[-1], "later")]
        findings.same(where + ", the events of the step that are left out", left_out, [one for one in right if one[0]])
        has_moment = all(number in numbers for number in (done - 1, done) if number in step)
        findings.check(has_moment, "%s: the list of events is another part of the step" % where)
        step = [number for number in step if numbers[0] <= number <= numbers[-1]]
    return step if findings.same(where + ", the numbers of the step's events", numbers, step) else []


def compare_border(findings, where, words, first, step):
    """The remark that starts begin stands in front of the first start of the step, and nowhere else."""
    lines = [line["parts"][-1] if "remark" not in line["sort"] else line["sort"] for line in words["step"]]
    found = [lines[at + 1 : at + 2] for at, line in enumerate(lines) if "border" in line.split()]
    findings.same(where + ", the event that starts begin with", found, [["event %d" % first]] if first in step else [])


def compare_owed(findings, where, words, truth, done, before):
    right = truth.moment(done)
    starts, ends, _, _ = reading.owed(words["owed"])
    name, lfd = truth.names.activity, [row.lfd for row in truth.net.transitions]
    findings.same(where + ", what had to start", starts, [name(t) for t in right.starts])
    counts = [right.running[t, lfd[t]] if truth.follows() else 1 for t in right.ends]
    findings.same(where + ", what had to end", ends, [(name(t), lfd[t], count) for t, count in zip(right.ends, counts)])
    if not right.starts and not right.ends:
        said = {3: "Nothing: time may pass.", 4: "Nothing: the page is at rest."}[right.standing]
        findings.check(said in words["owedText"], "%s: the page does not say %r: %r" % (where, said, words["owedText"]))


def compare_running(findings, where, words, truth, done, before):
    """All kinds of firings that run, or as many as are shown and the number of the others."""
    right = {(truth.names.activity(t), age): count for (t, age), count in truth.moment(done).running.items()}
    _, _, runs, more = reading.owed(words["owed"])
    if not truth.follows() and done < truth.done:
        findings.check("not followed" in words["owedText"] and not runs, "%s: the page does not say that firings are not followed" % where)
        return
    findings.same(where + ", what runs for how many ticks", runs, {key: right.get(key) for key in runs} if more else right)
    findings.same(where + ", how many kinds more run", more, len(right) - len(runs))


def compare_marks(findings, where, words, truth, done, before):
    """All places are shown, the empty ones too, with the tokens of the moment before where these were others."""
    now, was = truth.moment(done).marking, truth.moment(before).marking
    said = [(row["name"], *reading.tokens(row["tokens"])) for row in words["marks"]]
    right = [(truth.names.place(p), now[p], was[p] if was[p] != now[p] else None) for p in range(len(now))]
    findings.same(where + ", the tokens of the places", said, right)


def compare_some(findings, words, truth):
    """As the page opens, the places that hold no tokens, and did not before, are left out."""
    now, was = (truth.moment(done).marking for done in (truth.done, max(truth.done - 1, 0)))
    right = [truth.names.place(p) for p in range(len(now)) if now[p] or was[p]]
    findings.same("the places that are shown at first", [row["name"] for row in words["marks"]], right or [None])


def compare_makers(findings, where, words, truth, done, before):
    """Who made the tokens of each place, the oldest first."""
    if truth.origins is None:
        return
    for place, row in enumerate(words["marks"]):
        groups = {}  # (activity, tick of the end) to how many, in the order of the oldest
        for maker, count in truth.origins.history[done][place]:
            firing = truth.firings[maker] if maker is not None else None
            key = "“%s” at tick %d" % (truth.names.activity(firing.transition), firing.until) if firing else "there from the beginning"
            groups[key] = groups.get(key, 0) + count
        right = [("%d × " % count if count > 1 else "") + key for key, count in groups.items()]
        right = right[:MOST_MAKERS] + ["and others"] * (len(right) > MOST_MAKERS)
        findings.same("%s, who made the tokens of “%s”" % (where, row["name"]), [line.replace(",", "") for line in row["made"]], right)


def compare_net(findings, where, words, truth, done, before):
    """The net's picture, which Graphviz lays out, has the same tokens, what runs and what is owed."""
    right = truth.moment(done)
    if not shutil.which("dot"):
        findings.same(where + ", what the net's picture has without Graphviz", words["places"] + words["activities"], [])
        return
    findings.same(where + ", the tokens in the net's picture", sorted(words["places"]), sorted(
        ["n-p%d" % place, dots(count), count > 0] for place, count in enumerate(right.marking)))
    run, owed = {t for t, _ in right.running}, {*right.starts, *right.ends}
    if truth.follows() or done == truth.done:
        findings.same(where + ", what runs and is owed in the net's picture", sorted(words["activities"]), sorted(
            ["n-t%d" % t, t in run, t in owed] for t in range(len(truth.net.transitions))))

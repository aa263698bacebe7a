"""What is lawful in a net and surely not wanted, in words, and where it stands in the text."""

import forms

from nettext.flow import Flow, can_start, rounds, why_never
from nettext.messages import listed, quoted, warning


def warnings_of(text):
    """The warnings of a net that was read from a text, in the order of their lines and columns."""
    net = forms.Net(text.stored())
    flow = Flow(net)
    startable = can_start(flow)
    found = [*unused(text, net)]
    found += [never(text, flow, t, startable) for t in range(net.transitions) if t not in startable]
    found += [goes_round(text, net, times) for times in rounds(net, flow, startable)]
    return sorted(found, key=lambda message: (message.line, message.column))


def unused(text, net):
    used = {place for arcs in net.takes + net.gives for place, _ in arcs}
    for number, place in enumerate(text.places):
        if number not in used:
            yield warning(place.line, place.column, "unused", place=quoted(place.name))


def never(text, flow, t, startable):
    """A transition that can never start, told at the place that is short, or at the first that it takes from of those counted."""
    row, numbers = text.transitions[t], why_never(flow, t, startable)
    names = {text.places[place].name: number for place, number in numbers.items()}
    needs, tokens = (sum(number * has[place] for place, number in numbers.items()) for has in (flow.takes[t], flow.initial))
    if len(numbers) == 1:
        given = any(weights[place] for weights in flow.gives for place in numbers)
        key, shown = "nothing_adds" if given else "nothing_gives", [quoted(name) for name in names]
    elif set(numbers.values()) == {1}:
        key, shown = "together", [quoted(name) for name in names]
    else:
        key, shown = "counted", ["%s as %d" % (quoted(name), number) for name, number in names.items()]
    column = next(arc.column for arc in row.takes if arc.place in names)
    return warning(row.line, column, key, name=quoted(row.name), place=shown[0], places=listed(shown), needs=needs, tokens=tokens)


def goes_round(text, net, times):
    """A round of no duration, told at its lowest transition."""
    row = text.transitions[min(times)]
    called = {t: quoted(text.transitions[t].name) for t in times}
    shown = ", ".join(called[t] if often == 1 else "%d %s" % (often, called[t]) for t, often in times.items())
    longer = [t for t in times if net.lfd[t]]
    if not longer:
        return warning(row.line, row.column, "no_time", round=shown)
    parts = {"name": called[longer[0]], "lfd": net.lfd[longer[0]]}
    return warning(row.line, row.column, "may_take_no_time", round=shown, **parts)

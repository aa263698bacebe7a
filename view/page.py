"""The page: one HTML file that needs no other file and no network."""

import json
import os

import laststate
import story
import tables
from headline import headline, of_form
from markup import esc
from picture import NoPicture, installed, picture

HERE = os.path.join(os.path.dirname(os.path.abspath(__file__)), "browser")
# in the order in which they stand on the page: they share one scope
SCRIPTS = ("elements", "log", "moments", "firings", "unchecked", "causes", "words", "view", "scale", "lanes", "bars", "causelines", "marks",
           "timeline", "overview", "key", "panels", "why", "netpicture", "table", "focus", "steer", "main")
POLICY = "default-src 'none'; style-src 'unsafe-inline'; script-src 'unsafe-inline'"
MARK = {"bad": "\u2715", "good": "\u2713", "open": "!"}


def asset(name):
    with open(os.path.join(HERE, name), encoding="utf-8") as file:
        return file.read()


def framed(said, files, facts, body, script=""):
    """The whole file: headline, the line of facts, what follows."""
    told = "".join("<div><dt>%s</dt><dd>%s</dd></div>" % (esc(what), esc(value)) for what, value in [*files, *facts])
    return "\n".join([
        "<!doctype html>",
        '<html lang="en"><head><meta charset="utf-8"><meta name="viewport" content="width=device-width, initial-scale=1">',
        '<meta http-equiv="Content-Security-Policy" content="%s">' % POLICY,
        "<title>%s</title>" % esc(said.title),
        "<style>%s</style></head><body><main>" % asset("page.css"),
        '<header class="verdict %s"><span class="mark" aria-hidden="true">%s</span><div><h1>%s</h1><p>%s</p></div></header>' % (
            said.sort, MARK[said.sort], esc(said.title), esc(said.why)),
        '<dl class="facts">%s</dl>' % told, *body, "</main>" + script, "</body></html>", ""])


def page_of_form(refused, words, files):
    """The page where the net, the first state or the log is refused by its form."""
    return framed(of_form(refused, words), files, [("Refusal", "number %d" % refused.number)], [])


def page(record, words, last, files):
    """The page of a log whose events were checked; `last` is None where no last state is given."""
    begun = story.opening(record, words)
    believed = laststate.section_of(last, record, words) if last else ""
    body = ['<div class="two">%s%s</div>' % (story.section_of(record, words, begun), believed),
            asset("page.part.html").replace("<!--marks-->", tables.marking(record, words.names)),
            net_section(record, words), tables_section(record, words), foot(record)]
    return framed(headline(record, words), files, facts_of(record), body, script_of(record, words.names, begun))


def facts_of(record):
    number, index, done = record.verdict[:3]
    checked = "all" if not number else "%d, then the fault" % done
    refusal = [("Refusal", "number %d at event %d" % (number, index))] if number else []
    begun = [("Before the log", "a start had happened")] if record.started else []
    return [*begun, ("Events", len(record.events)), ("Checked", checked), *refusal]


def net_section(record, words):
    return '<section aria-labelledby="net-h"><h2 id="net-h">The net <small id="net-when">as the net begins</small></h2>%s%s</section>' % (
        picture_of(record, words), tables.net(record, words))


def picture_of(record, words):
    """The picture of the net with its key; or why there is none."""
    if not installed():
        return ""
    try:
        drawn = picture(record.net, words.names)
    except NoPicture as error:
        return '<p class="hint">There is no picture of this net. %s.</p>' % esc(error)
    return '<div class="scroll" tabindex="0" role="region" aria-label="Picture of the net">%s</div>' \
        '<p class="hint">Round: places, a dot for each token. Square: activities with their shortest and longest time in ticks. ' \
        'A number at an arrow: so many tokens. Filled: running. Dashed: had to start or end.</p>' % drawn


def tables_section(record, words):
    return '<section aria-labelledby="tables-h"><h2 id="tables-h">As tables</h2>%s' \
        '<details id="firings"><summary>The activities in the picture above (table)</summary>' \
        '<div class="scroll" id="firings-table"></div></details></section>' % tables.steps(record, words)


def foot(record):
    """What is the engine's word, and what this page worked out itself."""
    asked = ", ".join("%s %d" % call for call in sorted(record.engine.asked.items()))
    return "<footer><p>The proved engine told the verdict, the tokens at every moment, what had to start or end, and for a missing token its place " \
        "(questions asked: %s). This page\u2019s program worked out from these: the words, and which of the owed ones, starts and ends they name; which run " \
        "of an activity an end belongs to, and who made or took which token, the oldest first, until the engine draws that itself; which place an end " \
        "would overfill; and where two states differ. At every moment asked, the tokens and runs that it follows so were those of the engine\u2019s own " \
        "state. Nothing after a broken rule is checked: what the box wrote there is shown as it stands.</p></footer>" % esc(asked)


def script_of(record, names, begun):
    told = json.dumps(data(record, names, begun), separators=(",", ":")).replace("<", "\\u003c")
    code = "\n".join(asset(name + ".js") for name in SCRIPTS)
    return '<script type="application/json" id="data">%s</script>\n<script>(function () {\n\'use strict\';\n%s})();</script>' % (told, code)


def data(record, names, begun):
    """What the script draws from. Events, firings and tokens are lists of numbers, as long logs have many."""
    net, verdict, causes = record.net, record.verdict, record.causes
    owed, owes = {}, []
    for moment in record.moments:
        owes.append(owed.setdefault(moment[2:], len(owed)))
    dones = [moment.done for moment in record.moments]
    told = {
        "places": [names.place(p) for p in range(net.places)], "activities": [names.activity(t) for t in range(net.transitions)],
        "sfd": net.sfd, "lfd": net.lfd, "takes": net.takes, "gives": net.gives,
        "events": [byte for event in record.events for byte in event],
        "started": record.started, "done": verdict.done, "number": verdict.number, "ticks": verdict.ticks,
        "moments": None if len(dones) == verdict.done + 1 else dones,
        "first": record.moments[0].marking, "moved": changes(record.moments), "owed": list(owed), "owes": owes,
        "followed": causes is not None, "chosen": begun.chosen,
        "firings": [firing.listed() for firing in causes.firings] if causes else [],
        "tokens": [some.listed() for some in causes.tokens] if causes else [],
    }
    if causes is None:
        told["running"] = [[t, age, count] for (t, age), count in sorted(record.counts().items())]
    return told


def changes(moments):
    """For each moment behind the first what has changed since the one before: place, tokens, place, tokens and so on."""
    return [[value for place, (was, now) in enumerate(zip(one.marking, other.marking)) if was != now for value in (place, now)]
            for one, other in zip(moments, moments[1:])]

"""What a page must be like whatever it tells: for small windows and dark ones, for keys, screen readers and paper, and by itself."""

import html.parser
import os
import re
import shutil
import subprocess
import tempfile

ADDRESSES = {"src", "href", "srcset", "action", "formaction", "data", "poster", "background", "ping", "xlink:href"}
REACHES = re.compile(
    r"https?://(?!www\.w3\.org/2000/svg)\S+|@import\b|url\((?!#)|\bfetch\(|\bimport\(|XMLHttpRequest|WebSocket|EventSource|sendBeacon"
)
PAGES = re.compile(rb"/Type\s*/Page\b(?!s)")
RIGHT_TO_LEFT = re.compile("[\u0590-\u08ff]")  # pdftotext turns such words round
MOST_TABS = 60
MOST_PRINTED = 1_000  # rows
POLICY = "default-src 'none'"


class Parts(html.parser.HTMLParser):
    """The attributes of a file that hold addresses, and the text of its scripts and styles."""

    def __init__(self, text):
        super().__init__()
        self.addresses, self.code, self.inside = [], "", False
        self.feed(text)
        self.close()

    def handle_starttag(self, tag, attributes):
        self.addresses += ["%s of %s: %s" % (name, tag, value) for name, value in attributes if name in ADDRESSES]
        self.inside = tag == "style" or tag == "script" and ("type", "application/json") not in attributes

    def handle_endtag(self, tag):
        self.inside = False

    def handle_data(self, data):
        if self.inside:
            self.code += data


def check_file(findings, text):
    """The file asks for nothing outside itself, and forbids it."""
    parts = Parts(text)
    findings.none("the file has an address", parts.addresses)
    findings.none("the file's code reaches outside", REACHES.findall(parts.code))
    findings.check(POLICY in text and len(parts.code) > 1_000, "the page does not forbid itself to reach outside, or it has no code")


def check_quiet(findings, where, browser):
    """No script failed, the console is empty, and nothing but the file itself was fetched."""
    findings.none(where, browser.problems)
    fetched = [address.split("#")[0] for address in browser.fetched]
    findings.same(where + ", what was fetched", fetched, ["file://" + os.path.abspath(browser.path)])
    findings.same(where + ", whether a name was run as a script", browser.value("typeof spoilt"), "undefined")


def check_sight(findings, visit, width, dark):
    """The page as it is opened. Labels overlap or not in whatever colours."""
    where = "%d %s" % (width, "dark" if dark else "light")
    seen = visit.browser.value("[innerWidth, matchMedia('(prefers-color-scheme: dark)').matches]")
    findings.same(where + ", the window", seen, [width, dark])
    audit(findings, where, visit, "contrast", *() if dark else ("overflow", "labels", "names"))
    check_quiet(findings, where, visit.browser)


def audit(findings, where, visit, *kinds):
    for kind in kinds:
        findings.none(where, visit.audit(kind))


def check_unfolded(findings, where, visit):
    visit.browser.value("document.querySelectorAll('details').forEach(one => { one.open = true; })")
    audit(findings, where + ", unfolded", visit, "overflow", "names", "contrast")


def check_keys(its):
    """With real keys: Tab comes to one bar, arrows walk over the bars, Enter chooses one and keeps the focus."""
    findings, visit = its.findings, its.visit
    bars = visit.browser.value("document.querySelectorAll('.firing').length")
    if not bars:
        return
    for _ in range(MOST_TABS):
        visit.keys("Tab")
        if "firing" in (visit.on_focus("class") or ""):
            break
    else:
        findings.check(False, "no bar is reached by Tab")
        return
    walked = {visit.on_focus("data-f")}
    for key in ("ArrowLeft", "ArrowUp", "ArrowRight", "ArrowDown"):
        visit.keys(key)
        walked.add(visit.on_focus("data-f"))
    findings.check(None not in walked, "an arrow on a bar loses the focus")
    findings.check(len(walked) > 1 or bars == 1, "arrows on a bar do nothing")
    before, chosen = visit.on_focus("aria-pressed"), visit.on_focus("data-f")
    visit.keys("Enter")
    findings.check(visit.on_focus("aria-pressed") not in (None, before), "Enter on a bar does nothing")
    findings.same("the bar that has the focus behind Enter", visit.on_focus("data-f"), chosen)
    visit.keys("Escape")
    pressed = visit.browser.value("document.querySelectorAll('[aria-pressed=true].firing').length")
    findings.same("how many bars are chosen behind Escape", pressed, 0)


def check_without_scripts(its):
    """A preview in a mail runs no scripts: the verdict, the tokens and the events in words are seen all the same."""
    findings, visit, truth = its.findings, its.visit, its.truth
    visit.open(scripts=False)
    text, said = visit.browser.value("document.body.innerText").replace("\n", " "), visit.headline()
    findings.check(said["title"] in text and said["why"] in text, "without scripts the headline is not seen")
    findings.same("without scripts, whether the timeline is seen", visit.is_seen("timeline"), False)
    right = [[truth.names.place(place), str(count)] for place, count in enumerate(truth.moment(truth.done).marking) if count]
    findings.same("without scripts, the tokens", visit.rows_seen("noscript tbody tr"), right or [["no tokens anywhere", ""]])
    events = visit.rows_seen("#words tbody tr")
    findings.same("without scripts, the events in words", events, said["events"])
    findings.check(events or not truth.pairs, "without scripts there are no events in words")
    audit(findings, "without scripts", visit, "overflow", "names", "contrast")


def check_paper(its):
    """Printed, it is a few pages; where pdftotext is installed, the headline and the rows of the events are on them."""
    findings, visit = its.findings, its.visit
    said = visit.headline()
    if len(said["events"]) > MOST_PRINTED:
        return  # a finding already, and minutes to print
    paper = visit.browser.printed()
    pages = len(PAGES.findall(paper))
    findings.check(1 <= pages <= 12, "printed it has %d pages" % pages)
    if not shutil.which("pdftotext"):
        return
    text = bare(text_of(paper))
    findings.check(bare(said["title"]) in text or RIGHT_TO_LEFT.search(said["title"]), "the headline is not on paper")
    rows = [row[2] for row in said["events"] if not RIGHT_TO_LEFT.search(row[2])]
    lacking = sorted({row for row in rows if text.count(bare(row)) < rows.count(row)})
    findings.same("events that are not on paper", lacking, [])


def bare(text):
    """Without blanks: on paper a line may break anywhere."""
    return "".join(text.split())


def text_of(paper):
    with tempfile.NamedTemporaryFile(suffix=".pdf") as file:
        file.write(paper)
        file.flush()
        return subprocess.run(["pdftotext", "-raw", file.name, "-"], capture_output=True, text=True).stdout

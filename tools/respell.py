#!/usr/bin/env python3
"""Brings the repository's own definitions, lemmas and labels to the spelling of the language: words in snake case.

usage: tools/respell.py [FOLDER]      once, behind port.py, at the top of the repository (or of FOLDER)

Three rules. A word in camel case that begins small gets underscores, as 'initialState' to 'initial_state', also where a dash joins it
to another in a lemma's name. A test's name that ends in '?' gets the words of the table TESTS. A dash between the words of a label of a
record, or of a definition in specs/, becomes an underscore; a lemma's dash stays. It stops where a new name is in use already.
"""

import os
import re
import sys

TOKEN = re.compile(r'[^\s(){}.;,@"«»`]+')
CAMEL = re.compile(r"^[a-z].*[a-z0-9][A-Z]")
DECLARED = re.compile(r"^(\s*)(?:(?:abbrev|unfoldable) )?(?:pub )?([^\s(){}]+) :")

TESTS = {
    "all-visible?": "are_all_visible",
    "arrived?": "has_arrived",
    "asks?": "asks_so",
    "bad?": "is_bad",
    "begins?": "begins_with",
    "begun?": "is_begun",
    "blank?": "is_blank",
    "complete?": "is_complete",
    "covers?": "does_cover",
    "digit?": "is_digit",
    "due?": "is_due",
    "early?": "is_early",
    "enabled?": "is_enabled",
    "end?": "is_end",
    "even?": "is_even",
    "goes-on?": "does_go_on",
    "good?": "is_good",
    "has-head?": "has_head",
    "has-room?": "has_room",
    "held?": "is_held",
    "holds?": "does_hold",
    "interval?": "is_interval",
    "is-log?": "is_log",
    "logged?": "is_logged",
    "low?": "is_low",
    "mark?": "is_mark",
    "may-end?": "can_end",
    "name?": "is_name",
    "names?": "does_name",
    "net-head?": "has_net_head",
    "no-end-owed?": "has_no_end_owed",
    "no-old-end-owed?": "has_no_old_end_owed",
    "no-start-owed?": "has_no_start_owed",
    "none-fresh?": "has_none_fresh",
    "none-past?": "has_none_past",
    "nothing-running?": "has_nothing_running",
    "number?": "is_number",
    "other?": "is_other",
    "over?": "is_over",
    "owes-end?": "does_owe_end",
    "owes-no-old-end?": "owes_no_old_end",
    "owes-start?": "does_owe_start",
    "owes?": "does_owe",
    "room?": "leaves_room",
    "roomy?": "is_roomy",
    "same?": "is_same",
    "short?": "is_short",
    "shown?": "is_shown",
    "sized?": "is_sized",
    "some-weight?": "has_some_weight",
    "start?": "is_start",
    "starts?": "starts_with",
    "still?": "is_still",
    "takes-fact?": "takes_fact",
    "tick?": "is_tick",
    "timely?": "is_timely",
    "unbalanced?": "is_unbalanced",
    "visible?": "is_visible",
    "within-but-step?": "is_within_but_step",
    "within?": "is_within",
    "zero?": "is_zero",
    "zeros?": "are_zeros",
}

# Where the new name would be that of a constructor, a label or a lemma, which stands elsewhere.
OTHERS = {
    "atRest": "is_at_rest",
    "takenBack": "state_taken_back",
    "tooMany": "are_too_many",
}

# A lemma, or a module's second name, that would have its function's name. Behind a dot such a name is a function's of src/.
LEMMAS = {name: name + "_lem" for name in ("count_at", "no_place", "ran_on", "turn_at", "is_name")}
LEMMAS |= {name: name + "_call" for name in ("has_room", "name_of", "room_of", "row_at")}


def files(root, *ends):
    for folder, dirs, names in os.walk(root):
        dirs[:] = sorted(d for d in dirs if d not in ("out", "target", ".git"))
        for name in sorted(names):
            if name.endswith(ends):
                yield os.path.join(folder, name)


def read(path):
    with open(path, encoding="utf-8") as f:
        return f.read()


def snake(word):
    if not CAMEL.match(word):
        return word
    return re.sub(r"(?<=[a-z0-9])([A-Z])", r"_\1", word).lower()


def turned(token):
    for names in (TESTS, OTHERS, LEMMAS):
        if token in names:
            return names[token]
    if "::" in token:
        return token
    return "-".join(snake(part) for part in token.replace("getD", "get_or").split("-"))


def labels(path, text):
    """The labels of records, and in specs/ the definitions, whose words a dash joins."""
    found, inside, specs = set(), False, "/specs/" in path
    for line in text.split("\n"):
        if re.match(r"(pub )?(record|data)\b", line):
            inside = True
            continue
        if line and not line[0].isspace():
            inside = False
        m = DECLARED.match(line)
        if m and "-" in m.group(2) and "?" not in m.group(2) and (inside if m.group(1) else specs):
            found.add(m.group(2))
    return found


def quiet(text):
    """The places of quoted text in a source."""
    return [m.span() for m in re.finditer(r'"(?:[^"\\\n]|\\.)*"', text)]


def behind_dot(text, at):
    return at > 0 and text[at - 1] == "."


def table_of(crates):
    used, joined = set(), set()
    for path in files(crates, ".antt"):
        text = re.sub(r"(?m)--.*$", "", read(path))
        used.update(m.group() for m in TOKEN.finditer(text) if not behind_dot(text, m.start()))
        joined |= labels(path, text)
    for path in files(crates, ".rt"):
        used.update(t for part in re.findall(r"ghost use[^;]*;|\{[^{};]*\}", read(path)) for t in TOKEN.findall(part) if not re.fullmatch(r"[a-z0-9_]+", t))
    table = {t: turned(t) for t in used}
    table.update(TESTS)
    table = {old: new for old, new in table.items() if old != new}
    taken = set(table.values())
    for t in sorted(joined):
        new = "_".join(snake(p) for p in t.split("-"))
        if new in taken or new in used:
            print(f"respell: the label {t} keeps its dash, since {new} is another name")
        else:
            table[t] = new
    there = {}
    for old, new in sorted(table.items()):
        if (new in used and new not in LEMMAS) or new in there:
            raise SystemExit(f"respell: {old} would become {new}, which is in use ({there.get(new, 'as it is')})")
        there[new] = old
    return table


def respell(path, table):
    text = read(path)
    spans = quiet(text) if path.endswith(".rt") else []
    out, at = [], 0
    for m in TOKEN.finditer(text):
        word = m.group()
        if word not in table or any(a <= m.start() < b for a, b in spans):
            continue
        if word in LEMMAS and (behind_dot(text, m.start()) or not path.endswith((".antt", ".edit"))):
            continue
        if path.endswith(".md") and word not in TESTS and not CAMEL.match(word) and "`" not in text[max(0, m.start() - 1)] + text[m.end() : m.end() + 1]:
            continue
        out += [text[at : m.start()], table[word]]
        at = m.end()
    if out:
        with open(path, "w", encoding="utf-8") as f:
            f.write("".join(out) + text[at:])


def main():
    root = os.path.abspath(sys.argv[1] if len(sys.argv) > 1 else ".")
    table = table_of(os.path.join(root, "crates"))
    for path in list(files(os.path.join(root, "crates"), ".antt", ".rt", ".edit")) + list(files(root, ".md")):
        respell(path, table)
    with open(os.path.join(root, "tools", "respelled.tsv"), "w", encoding="utf-8") as f:
        f.writelines(f"{old}\t{new}\n" for old, new in sorted(table.items()))
    print(f"respell: {len(table)} names")


main()

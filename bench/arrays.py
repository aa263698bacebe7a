#!/usr/bin/env python3
"""Whether a function of the library, or of a crate below it, has an array of its own, in the compiler's own form of the code.

usage: arrays.py CALLS

It ends with 1 where one has, or where fewer than CALLS answers are found: arrays that a caller lends, behind a reference. The form is in the
libraries that the crates below menu_c were built into (crates/NAME/out/rlib). Of menu_c itself rt keeps none, so its text is read.
"""

import json
import re
import sys

TEXT = "crates/menu_c/src/lib.rt"


def arrays(part, path=()):
    """The path to each array type."""
    if isinstance(part, dict):
        for key, value in part.items():
            if key == "Array":
                yield path
            yield from arrays(value, path + (key,))
    elif isinstance(part, list):
        for place, value in enumerate(part):
            yield from arrays(value, path + (place,))


def below():
    """The crates that menu_c stands on."""
    with open("crates.txt", encoding="utf-8") as file:
        return re.search(r"^menu_c staticlib: (.*)$", file.read(), re.M)[1].split()


def main():
    lent, own = 0, []
    for crate in below():
        with open(f"crates/{crate}/out/rlib/{crate}.rlib/toolchain/mir.json", encoding="utf-8") as file:
            functions = json.load(file)
        for name, form in functions:
            for path in arrays(form):
                if path[-2:] == ("Ref", 2):
                    lent += path[0] == "locals"
                elif path[-1] != "Deref":
                    own.append(name)
    with open(TEXT, encoding="utf-8") as file:
        own += [TEXT for before in re.findall(r"(.{5})\[\w+; \w+\]", file.read()) if before != "&mut "]
    for name in own:
        print("arrays.py: an array in", name, file=sys.stderr)
    return int(lent < int(sys.argv[1]) or bool(own))


if __name__ == "__main__":
    sys.exit(main())

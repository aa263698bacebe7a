#!/usr/bin/env python3
"""How many of the seeded cases of `menuwhy` have each word in their output; ends with 1 where some word is too rare.

usage: menuwhy_census.py SEED COUNT
"""

import collections
import sys

import menuwhy
import menuwhy_cases
from menuwhy_words import WORDS

# a word is to be in 5 of 2,000 cases
RAREST = 5 / 2_000

# a log begins with no firing and has at most 24,000 starts, so that no count comes to 65,535
IMPOSSIBLE = {114}


def census(seed, count):
    """The cases that have each word."""
    found = collections.Counter()
    for case in menuwhy_cases.cases(seed, count):
        found.update({word for word, *_ in menuwhy.phrases(*case)})
    return found


def main():
    if len(sys.argv) != 3 or not all(word.isdecimal() for word in sys.argv[1:]):
        sys.exit(__doc__)
    seed, count = map(int, sys.argv[1:])
    found = census(seed, count)
    for word, text in WORDS.items():
        print(f"{found[word]:6} {word:4} {text.strip()[:90]}")
    rare = [word for word in WORDS if found[word] < RAREST * count and word not in IMPOSSIBLE]
    if rare:
        sys.exit("menuwhy_census.py: too rare are the words " + ", ".join(map(str, rare)))


if __name__ == "__main__":
    main()

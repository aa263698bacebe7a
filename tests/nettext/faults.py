"""What a test says when it is not passed."""

SHOWN = 800


class Fault(Exception):
    """A test that was not passed."""


def cut(text):
    return text if len(text) <= SHOWN else "%s.. (%d characters)" % (text[:SHOWN], len(text))


def hold(truth, *words):
    """Raises Fault, with these words, where something is not so."""
    if not truth:
        raise Fault(" ".join(word if isinstance(word, str) and "\n" not in word else cut(repr(word)) for word in words))

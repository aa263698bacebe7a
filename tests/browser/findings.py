"""What was checked and what was found."""

SHOWN = 300  # characters of a value


class Findings:
    """`found` are sentences; `checks` counts what could have been one; `seconds` are what it took."""

    def __init__(self, name):
        self.name, self.checks, self.found, self.seconds = name, 0, [], 0.0

    def check(self, holds, what):
        self.checks += 1
        if not holds:
            self.found.append(what)
        return bool(holds)

    def same(self, what, said, right):
        """The page says one thing, and it has to be this. Of two long lists only the places where they differ are told."""
        if said == right:
            return self.check(True, "")
        if isinstance(said, list) and isinstance(right, list) and len(said) == len(right) > 3:
            said, right = zip(*((one, other) for one, other in zip(said, right) if one != other))
        return self.check(False, "%s: the page has %s, right is %s" % (what, short(said), short(right)))

    def none(self, what, bad):
        """A list of what is wrong must be empty."""
        self.checks += 1
        self.found += ["%s: %s" % (what, one) for one in bad]


def short(value):
    text = repr(value)
    return text if len(text) <= SHOWN else text[:SHOWN] + ".."

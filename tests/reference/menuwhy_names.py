"""Random files of names for `menuwhy`: good lines, and bad ones of every kind."""

KINDS = b"place", b"transition"
LETTERS = b"abcdefghijklmnopqrstuvwxyz-'_0123456789"
ANY_BYTES = bytes([*range(33, 127), *range(128, 256)])
EDGE_BYTES = bytes([33, 126, 128, 255])
NO_NAME_BYTES = bytes([0, 9, 11, 13, 31, 32, 32, 127, 127, 127])


def a_name(rng):
    length = rng.choice([1, 1, 2, 5, 9, 9, 14, 14, 39, 40, 40])
    letters = rng.choice([LETTERS, LETTERS, LETTERS, ANY_BYTES, EDGE_BYTES])
    return bytes(rng.choice(letters) for _ in range(length))


def number_word(rng, number):
    """The number in one digit or two."""
    return b"%02d" % number if rng.random() < 0.2 else b"%d" % number


def good_line(rng, kind, number):
    return b" ".join([kind, number_word(rng, number), a_name(rng)])


def other_kind(rng):
    """A word that is nearly one of the two, or none."""
    kind = rng.choice(KINDS)
    return rng.choice([b"", b"Place", b"PLACE", b"places", b"transitions", b"name", kind[:-1], kind[1:], b" " + kind, kind + b" "])


def other_number(rng):
    """A number that is too long, too great, or none."""
    return rng.choice([b"", b"64", b"64", b"65", b"99", b"007", b"000", b"063", b"100", b"-1", b"+1", b"1x", b"x", b"0x1", b" 1", b"1 "])


def other_name(rng):
    """A name that is too long, too short, or has a byte that no name has."""
    name = a_name(rng)
    at = rng.randint(0, len(name))
    barred = bytes([rng.choice(NO_NAME_BYTES)])
    return rng.choice([b"", name.ljust(41, b"x"), name * 41, name[:at] + barred + name[at:], name + b"\r", name + b" ", b" " + name])


def bad_line(rng):
    """A line of which one part is wrong or lacking, or something else altogether."""
    parts = [rng.choice(KINDS), number_word(rng, rng.randrange(64)), a_name(rng)]
    kind = rng.randrange(9)
    if kind <= 4:
        part = (0, 1, 1, 2, 2)[kind]
        parts[part] = (other_kind, other_number, other_name)[part](rng)
        return b" ".join(parts)
    if kind == 5:
        return rng.choice([b"\t", b"", b"  ", b","]).join(parts)
    if kind == 6:
        return b" ".join(parts[: rng.choice([1, 2])]) + rng.choice([b"", b" "])
    if kind == 7:
        return rng.choice([b"\r", b" ", b"#", b"# names", b"\0", b"place", b"transition ", b"place 0", b"place 0 ", b"\x7f", b"\xff"])
    return bytes(rng.choice(ANY_BYTES + b" ") for _ in range(rng.choice([1, 8, 60, 300])))


def some_lines(rng, places, transitions):
    """Good lines for most of the net's places and transitions, and a few for others; at times bad and empty ones among them."""
    share = rng.choice([0.3, 0.8, 1])
    numbers = [(KINDS[0], p) for p in range(places)] + [(KINDS[1], t) for t in range(transitions)]
    lines = [good_line(rng, *number) for number in numbers if rng.random() < share]
    for _ in range(rng.choice([0, 0, 1, 5])):
        number = rng.choice([0, 62, 63, transitions % 64, rng.randrange(64)])
        lines.append(good_line(rng, rng.choice(KINDS), number))
    if rng.random() < 0.3:
        lines += [good_line(rng, KINDS[1], t) for t in range(64)]
    lines += [bad_line(rng) for _ in range(rng.choice([0, 0, 0, 1, 1, 3, 12]))]
    lines += [b""] * rng.choice([0, 0, 0, 1, 4])
    return lines


def a_file(rng, places, transitions):
    """A file of names for a net of this size."""
    kind = rng.randrange(30)
    if kind == 0:
        return rng.choice([b"", b"\n", b"\n\n\n", b"place 0 a", b"place 0 a\n", b" ", b"\r\n", b"place 0 a\n\nx"])
    if kind == 1:
        return rng.choice([rng.randbytes(rng.randint(1, 300)), b"\r\n" * rng.choice([9, 300])])
    lines = some_lines(rng, places, transitions)
    rng.shuffle(lines)
    if kind == 2:
        return b"\r\n".join(lines)
    if kind == 3:
        return (b"\n".join(lines) + b"\n").ljust(rng.choice([400, 65_535]), b"\n")
    return b"\n".join(lines) + rng.choice([b"\n", b"\n", b"\n", b"", b"\n\n"])

"""The solver of inequalities: its answers with what they give along, and how fast it comes to them."""

from faults import hold
from nettext import linear
from nettext.linear import Table, solve


def solved(rows, wanted, patience):
    """The solver's answer; with no patience it takes from the first pivot on the way that surely comes to an end."""
    usual, linear.PATIENCE = linear.PATIENCE, patience
    try:
        return solve(rows, wanted)
    finally:
        linear.PATIENCE = usual


def check_solver(rng):
    """Whatever the solver answers, what it gives along shows it right."""
    height, width, most = rng.randint(1, 7), rng.randint(1, 7), rng.choice([1, 2, 255])
    rows = [[rng.choice([0, rng.randint(-most, most)]) for _ in range(width)] for _ in range(height)]
    wanted = [rng.choice([0, 1]) for _ in range(height)]
    numbers, shows = solved(rows, wanted, rng.choice([0, linear.PATIENCE]))
    if shows is None:
        hold(min(numbers) >= 0, "a number below 0", rows, wanted, numbers)
        got = [sum(a * n for a, n in zip(row, numbers)) for row in rows]
        hold(all(a >= want for a, want in zip(got, wanted)), "too little", rows, wanted, numbers)
        return True
    hold(min(shows) >= 0 and sum(f * want for f, want in zip(shows, wanted)) > 0, "this shows nothing", rows, wanted, shows)
    columns = [sum(f * row[column] for f, row in zip(shows, rows)) for column in range(width)]
    hold(max(columns) <= 0, "this does not show it", rows, wanted, shows)
    return False


def check_speed(rng):
    """A great system takes few pivots, since the least cost leads on; how many."""
    size = 40
    table = Table([[rng.randint(-255, 255) for _ in range(size)] for _ in range(size)], [1] * size)
    while True:
        at = table.lowest_row()
        column = None if at is None else table.cheapest_column(table.rows[at])
        if column is None:
            return table.pivots
        table.pivot(at, column)
        hold(table.pivots <= 4 * size, "too many pivots")

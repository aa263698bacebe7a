"""Linear inequalities in numbers that are not negative, answered exactly: in whole numbers, and with what shows the answer right.

It is the dual simplex method for the least sum of the numbers. Each row of the table says what a basic variable is: a constant and a
multiple of each other variable, all divided by one common divisor, so that no fraction is ever needed.
"""

from math import gcd

PATIENCE = 8


def whole(values):
    """The values divided by what divides them all."""
    common = gcd(*values) or 1
    return [value // common for value in values]


class Table:
    """Variables 0 to width - 1 are the numbers that are looked for; variable width + i is by how much row i has more than it wants."""

    def __init__(self, rows, wanted):
        self.width, self.divisor, self.pivots = len(rows[0]), 1, 0
        self.rows = [[-want, *row] for row, want in zip(rows, wanted)]
        self.costs = [0] + [1] * self.width
        self.basic = [self.width + at for at in range(len(rows))]
        self.other = list(range(self.width))

    def lowest_row(self):
        """A row whose variable is below 0, or None: the lowest; after many pivots the first variable, so that it comes to an end."""
        below = [at for at, row in enumerate(self.rows) if row[0] < 0]
        hasty = self.pivots < PATIENCE * (self.width + len(self.rows))
        return min(below, key=lambda at: (self.rows[at][0] if hasty else 0, self.basic[at]), default=None)

    def cheapest_column(self, row):
        """The variable that makes the row's own rise at the least cost, the first of several; None where none does."""
        best = None
        for column in range(1, self.width + 1):
            if row[column] > 0:
                gain = -1 if best is None else self.costs[column] * row[best] - self.costs[best] * row[column]
                if gain < 0 or gain == 0 and self.other[column - 1] < self.other[best - 1]:
                    best = column
        return best

    def pivot(self, at, column):
        """The variables of a row and of a column change places."""
        row = self.rows[at]
        entry = row[column]
        self.rows = [line if line is row else self.without(line, row, column) for line in self.rows]
        self.costs = self.without(self.costs, row, column)
        self.rows[at] = [-value for value in row]
        self.rows[at][column] = self.divisor
        self.basic[at], self.other[column - 1] = self.other[column - 1], self.basic[at]
        self.divisor = entry
        self.pivots += 1

    def without(self, line, row, column):
        """Another row, with the row's own variable in place of the column's. The divisor before always divides."""
        entry, factor = row[column], line[column]
        made = [(value * entry - factor * other) // self.divisor for value, other in zip(line, row)]
        made[column] = factor
        return made


def solve(rows, wanted):
    """(y, None) with y >= 0 and row * y >= want for each row; or (None, f) with f >= 0, f * wanted > 0, and f * rows <= 0 in
    every column, which shows that there is no such y. All are whole numbers; a want is 0 or 1."""
    table = Table(rows, wanted)
    while True:
        at = table.lowest_row()
        if at is None:
            found = dict(zip(table.basic, (row[0] for row in table.rows)))
            return whole([found.get(variable, 0) for variable in range(table.width)]), None
        row = table.rows[at]
        column = table.cheapest_column(row)
        if column is None:
            shows = {table.basic[at]: table.divisor, **dict(zip(table.other, (-value for value in row[1:])))}
            return None, whole([shows.get(table.width + number, 0) for number in range(len(rows))])
        table.pivot(at, column)


def fewest(items, numbers_for):
    """{item: number} for as few of the items as will do, or None. Items will do where there are numbers for them, and those whose number
    is 0 are not needed; then one after the other is left out where there are numbers for those that remain."""
    numbers = numbers_for(items) if items else None
    if not numbers:
        return None
    left = {item: number for item, number in zip(items, numbers) if number}
    for item in list(left):
        rest = [other for other in left if other != item]
        numbers = numbers_for(rest) if rest and item in left else None
        if numbers:
            left = {other: number for other, number in zip(rest, numbers) if number}
    return left

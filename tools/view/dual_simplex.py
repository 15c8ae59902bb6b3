"""A dual simplex method in exact numbers: a point of rows whose worth is greatest."""

import dataclasses
import fractions

Number = int | fractions.Fraction


@dataclasses.dataclass(slots=True)
class Row:
    """The sum of columns, each times its factor, is at most a number, or is that number."""

    terms: dict[int, Number]
    most: Number
    is_equation: bool


def quotient(number: Number, divisor: Number) -> Number:
    """Whole where it can be: sums of whole numbers are much faster."""
    found = fractions.Fraction(number) / divisor
    return found.numerator if found.denominator == 1 else found


class Tableau:
    """Each row as an equation with a further column, its slack, and solved for one column, its base.

    Columns from the number of costs on are slacks. That of an equation is always 0: it leaves and does not come back.
    """

    def __init__(self, rows: list[Row], costs: list[int], work: int) -> None:
        self.width = len(costs)
        self.rows = [{**row.terms, self.width + number: 1} for number, row in enumerate(rows)]
        self.values: list[Number] = [row.most for row in rows]
        self.bases = [self.width + number for number in range(len(rows))]
        self.fixed = {self.width + number for number, row in enumerate(rows) if row.is_equation}
        # What the worth grows by with each column. A point is best where none is above 0.
        self.gains: dict[int, Number] = {it: cost for it, cost in enumerate(costs) if cost}
        self.work = work

    def best_point(self, first: dict[int, int]) -> list[Number] | None:
        """The point, where the first bases leave no gain above 0, the rows can be met, and the work suffices."""
        for row, column in first.items():
            if self.gains.get(column, 0) > 0:
                self.pivot(row, column)
        if any(gain > 0 for gain in self.gains.values()):
            return None
        while self.work > 0:
            row = self.broken_row()
            if row is None:
                point: list[Number] = [0] * self.width
                for number, base in enumerate(self.bases):
                    if base < self.width:
                        point[base] = self.values[number]
                return point
            column = self.entering(row)
            if column is None:
                return None
            self.pivot(row, column)
        return None

    def broken_row(self) -> int | None:
        """The row whose base is farthest from what it may be, the first of several."""
        worst, found = 0, None
        for number, (value, base) in enumerate(zip(self.values, self.bases)):
            far = abs(value) if base in self.fixed else -value
            if far > worst:
                worst, found = far, number
        return found

    def entering(self, row: int) -> int | None:
        """The column that comes in for a row's base: no gain may come above 0, and the first of several is taken."""
        sign = 1 if self.values[row] < 0 else -1
        least, found = None, None
        for column, factor in self.rows[row].items():
            if sign * factor >= 0 or column in self.fixed or column == self.bases[row]:
                continue
            ratio = fractions.Fraction(self.gains.get(column, 0)) / (sign * factor)
            if least is None or ratio < least or ratio == least and column < found:
                least, found = ratio, column
        return found

    def pivot(self, row: int, column: int) -> None:
        """Solves a row for a column, and takes the column out of all others."""
        pivot = self.rows[row][column]
        terms = {it: quotient(value, pivot) for it, value in self.rows[row].items()}
        self.rows[row], self.values[row] = terms, quotient(self.values[row], pivot)
        for number, other in enumerate(self.rows):
            factor = other.get(column)
            if factor and number != row:
                self.take_out(other, terms, factor)
                self.values[number] -= factor * self.values[row]
        if self.gains.get(column):
            self.take_out(self.gains, terms, self.gains[column])
        self.bases[row] = column

    def take_out(self, other: dict[int, Number], terms: dict[int, Number], factor: Number) -> None:
        """Subtracts a row times a factor from another."""
        self.work -= len(terms)
        for it, value in terms.items():
            left = other.get(it, 0) - factor * value
            if left:
                other[it] = left
            else:
                other.pop(it, None)

"""What exact readings tell of coefficients: the rank of readings at points, and the cells that show a function.

Document 02, Ten: 'two acceptable tables with one sheet and one tree, whose exact readings agree at every point of the
1/128 grid, have the same coefficients throughout'. Readings are linear in the coefficients, so that this says: only
coefficients that are all 0 read 0 at every point. Each active function is a column, its readings with its own
coefficient 1 and the others 0; readings at points tell all coefficients exactly where these columns are independent.
"""
from __future__ import annotations

from fractions import Fraction
from functools import cached_property, lru_cache
from math import lcm
from typing import Callable, Dict, Iterable, List, Optional, Sequence, Tuple, Union

from samples import Point
from stopping import whole
from surface import D, FINEST, LEVELS, QUARTERS_PER_CELL, STEPS_PER_CELL, Surface, cell_count, in_cells, spline

# The steps of a level 3 cell, and those to the points of it that tell a coefficient, along each side.
CELL_STEPS = STEPS_PER_CELL // 2**FINEST
OFFSETS = (0, 4, 8, 12)
# The steps between points of the 1/32, the 1/16 and the 1/8 grid; the last are the knots of level 3.
SIXTEENTH, EIGHTH = 8, 16
PRIME = 2**31 - 1

# A function by its level, i and j; a level 3 cell by its place along u and v; and at a point the readings of the
# columns that are not 0, by the column: numerators over D.
Named = Tuple[int, int, int]
Cell = Tuple[int, int]
Number = Union[int, Fraction]
Row = Dict[int, Number]


# Document 01: the level 3 splines of one direction that are not 0 at a place, over 6 times the cube of a cell's steps.
@lru_cache(maxsize=None)
def finest_splines(steps: int, side: int) -> List[Tuple[int, int]]:
    cells = cell_count(side, FINEST)
    values = [(i, whole(spline(i, in_cells(steps, FINEST), cells) * 6 * CELL_STEPS**3)) for i in range(-3, cells)]
    return [(i, value) for i, value in values if value != 0]


class Columns:
    """The active functions of a sheet and its regions, each by its readings with its own coefficient 1."""

    def __init__(self, surface: Surface) -> None:
        self.surface = surface
        named = [(level, i, j) for level in LEVELS for i, j in surface.active_functions(level)]
        # Functions that lie near each other are near in this order, which keeps rows short in elimination.
        self.functions: List[Named] = sorted(named, key=lambda f: ((f[2] + 2) / 2 ** f[0], (f[1] + 2) / 2 ** f[0]))
        self.at = {function: column for column, function in enumerate(self.functions)}

    # By the level 3 function the truncated functions that it is a term of, with its weight there. D is 64^3 times the
    # square of what splines are over, and a unit of level L is 1/64^L watt.
    @cached_property
    def terms(self) -> Dict[Tuple[int, int], List[Tuple[int, int]]]:
        terms: Dict[Tuple[int, int], List[Tuple[int, int]]] = {}
        for column, function in enumerate(self.functions):
            for term, amount in self.surface.truncated_in_finest(*function).items():
                terms.setdefault(term, []).append((column, whole(amount * 64 ** (FINEST - function[0]))))
        return terms

    # The readings at a point.
    def row(self, u: int, v: int) -> Row:
        row: Row = {}
        for j, along in finest_splines(v, self.surface.h):
            for i, across in finest_splines(u, self.surface.w):
                for column, weight in self.terms.get((i, j), ()):
                    row[column] = row.get(column, 0) + along * across * weight
        return row

    # The same by the values of truncated functions, which follow the surface's rules where those are misread.
    def row_by_values(self, u: int, v: int) -> Row:
        values = [self.surface.truncated_value(*f, u, v) * D / 64 ** f[0] for f in self.functions]
        return {column: whole(value) for column, value in enumerate(values) if value != 0}


# The rank of rows, exactly or modulo a prime, by elimination; once it is enough no more rows are asked for.
def rank(rows: Iterable[Row], enough: Optional[int] = None, prime: Optional[int] = None) -> int:
    pivots: Dict[int, List[Tuple[int, Number]]] = {}
    for row in rows:
        left = {column: number % prime if prime else Fraction(number) for column, number in row.items()}
        left = {column: number for column, number in left.items() if number}
        while left:
            first = min(left)
            number = left.pop(first)
            if first not in pivots:
                inverse = pow(number, -1, prime) if prime else 1 / number
                pivots[first] = [(column, other * inverse % prime if prime else other * inverse)
                                 for column, other in left.items()]
                break
            for column, other in pivots[first]:
                mixed = left.get(column, 0) - number * other
                if prime:
                    mixed %= prime
                if mixed:
                    left[column] = mixed
                else:
                    left.pop(column, None)
        if len(pivots) == enough:
            break
    return len(pivots)


# Whether readings at points tell all coefficients. A minor that is not 0 modulo a prime is not 0, so that a rank that
# is full modulo the prime is full; where it is not, nothing follows.
def tells_all(columns: Columns, points: Iterable[Point]) -> bool:
    due = len(columns.functions)
    return rank((columns.row(u, v) for u, v in points), due, PRIME) == due


# Whether rows of readings tell one coefficient, whatever the others are: its column is no sum of multiples of the
# others, so that the rank is less without it. Exactly, since a prime may divide what makes the difference.
def tells(rows: Sequence[Row], column: int) -> bool:
    others = [{other: number for other, number in row.items() if other != column} for row in rows]
    return rank(rows) == rank(others) + 1


# The points of a sheet with so many steps between them, far edges included.
def grid(w: int, h: int, steps: int) -> List[Point]:
    return [(u, v) for v in range(0, STEPS_PER_CELL * h + 1, steps) for u in range(0, STEPS_PER_CELL * w + 1, steps)]


# The points of a cell with these offsets along each side: the sixteen, if no others are named.
def points_in(cell: Cell, offsets: Sequence[int] = OFFSETS) -> List[Point]:
    return [(CELL_STEPS * cell[0] + across, CELL_STEPS * cell[1] + along) for along in offsets for across in offsets]


# The twenty-five points of the quarter square that a level 3 cell lies in, 8 steps apart, its edges included.
def points_around(cell: Cell) -> List[Point]:
    u, v = (2 * CELL_STEPS * (place // 2) for place in cell)
    return [(u + 8 * i, v + 8 * j) for j in range(5) for i in range(5)]


# The level of the quarter square that a level 3 cell lies in.
def level_of(surface: Surface, cell: Cell) -> int:
    cells_to_a_quarter = 2**FINEST // QUARTERS_PER_CELL
    return surface.levels[cell[1] // cells_to_a_quarter][cell[0] // cells_to_a_quarter]


# The sixteen functions of a level whose support the cell lies under.
def functions_over(cell: Cell, level: int) -> List[Named]:
    i, j = (place // 2 ** (FINEST - level) for place in cell)
    return [(level, i - 3 + k, j - 3 + m) for m in range(4) for k in range(4)]


def cells_of(surface: Surface) -> List[Cell]:
    return [(x, y) for y in range(cell_count(surface.h, FINEST)) for x in range(cell_count(surface.w, FINEST))]


# The active functions that a cell shows: those of the level of its quarter square whose cut support it lies under.
def shown_by(columns: Columns, cell: Cell) -> List[Named]:
    return [f for f in functions_over(cell, level_of(columns.surface, cell)) if f in columns.at]


# The cells that show an active function.
def cells_that_show(surface: Surface, function: Named) -> List[Cell]:
    level, *place = function
    parts = 2 ** (FINEST - level)
    across, along = (range(max(0, parts * first), min(parts * (first + 4), cell_count(side, FINEST)))
                     for first, side in zip(place, (surface.w, surface.h)))
    return [(x, y) for y in along for x in across if level_of(surface, (x, y)) == level]


# For each function that is shown a cell that shows it, of few cells: each next one shows the most that are left.
def few_cells(columns: Columns) -> Dict[Named, Cell]:
    shown = {cell: {*shown_by(columns, cell)} for cell in cells_of(columns.surface)}
    found: Dict[Named, Cell] = {}
    while any(shown.values()):
        best = max(shown, key=lambda cell: len(shown[cell]))
        found.update({function: best for function in shown[best]})
        shown = {cell: functions - found.keys() for cell, functions in shown.items()}
    return found


# The inverse of a matrix of fractions, by elimination; it is there where the matrix has full rank.
def inverse_of(matrix: Sequence[Sequence[Fraction]]) -> List[List[Fraction]]:
    size = len(matrix)
    rows = [[*row, *(Fraction(int(n == m)) for m in range(size))] for n, row in enumerate(matrix)]
    for at in range(size):
        pivot = next(n for n in range(at, size) if rows[n][at] != 0)
        rows[at], rows[pivot] = rows[pivot], rows[at]
        rows[at] = [number / rows[at][at] for number in rows[at]]
        rows = [row if n == at else [a - row[at] * b for a, b in zip(row, rows[at])] for n, row in enumerate(rows)]
    return [row[size:] for row in rows]


# By which four readings along one side of a cell are multiplied for each of the four splines of a level over it, so
# that they give 1 for that spline and 0 for the other three; whole numbers, and the one that all are over. The cell is
# this part of its cell of the level, on which the four are independent cubics, and four points tell cubics apart.
@lru_cache(maxsize=None)
def multipliers(level: int, part: int) -> Tuple[List[List[int]], int]:
    places = [in_cells(CELL_STEPS * part + offset, level) for offset in OFFSETS]
    inverse = inverse_of([[spline(k, t, 1) for k in range(-3, 1)] for t in places])
    over = lcm(*(number.denominator for row in inverse for number in row))
    return [[whole(number * over) for number in row] for row in inverse], over


# The coefficient of a function in its own units, by the numerators over D at the sixteen points of a cell that shows
# it. On the cell a reading is a sum of the sixteen functions of that level, and this one's number is its coefficient.
def coefficient_told(function: Named, cell: Cell, readings: Sequence[int]) -> Fraction:
    level, *place = function
    parts = 2 ** (FINEST - level)
    (across, over_u), (along, over_v) = (multipliers(level, at % parts) for at in cell)
    k, m = (one - at // parts + 3 for one, at in zip(place, cell))
    products = (a * b for b in along[m] for a in across[k])
    total = sum(product * reading for product, reading in zip(products, readings))
    return Fraction(total * 64**level, over_u * over_v * D)


# The coefficients over a sheet's regions that readings tell, each by the points of a cell that shows its function; the
# passive places hold 0.
def told_by(columns: Columns, readings: Callable[[Sequence[Point]], Sequence[int]]) -> List[Fraction]:
    told, cells = [Fraction(0)] * columns.surface.total, few_cells(columns)
    read = {cell: readings(points_in(cell)) for cell in {*cells.values()}}
    for function, cell in cells.items():
        told[columns.surface.place(*function)] = coefficient_told(function, cell, read[cell])
    return told

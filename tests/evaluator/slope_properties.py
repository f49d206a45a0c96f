"""What holds of the slopes of every acceptable table, tried on tables of mixed levels.

Document 02, Two: 'the exact derivative of the surface, worked as a fraction'.
"""
from __future__ import annotations

from fractions import Fraction
from random import Random
from typing import List, Sequence

import calls
import samples
from derivatives import EIGHTHS_PER_CELL, Derived, Polynomial, derived, lesser_cell, product, value_at
from properties import LARGE_SHEETS, SMALL_SHEETS, Check, table_after
from samples import Point, Table
from slope_cases import STEEPEST, Slopes, steep, turned
from stopping import mixed, points_of
from surface import D, STEPS_PER_CELL, cell_count, cell_of, in_cells

STEPS_PER_EIGHTH = STEPS_PER_CELL // EIGHTHS_PER_CELL
# Four places of a closed cell of level 3, in steps from its start: a cubic is known by its values there.
FOUR = (0, 5, 11, 16)


# The watts and both slopes at a point of an acceptable table.
def slopes_at(table: Table, point: Point) -> Slopes:
    return calls.slopes(*table, *point).answer[1:]


# A place on the sheet along u or along v from a point, which stays where it is along the other.
def moved(point: Point, along: int, to: int) -> Point:
    return (to, point[1]) if along == 0 else (point[0], to)


# The closed cells of level 3 of one side that hold a place: two on an edge that they share, else one.
def closed_cells(steps: int, side: int) -> List[int]:
    starts = ((cell, STEPS_PER_EIGHTH * cell) for cell in range(cell_count(side, 3)))
    return [cell for cell, start in starts if start <= steps <= start + STEPS_PER_EIGHTH]


# The polynomial of least degree that has these values at these places, by Lagrange.
def through(places: Sequence[Fraction], values: Sequence[Fraction]) -> Polynomial:
    total = [Fraction(0)] * len(places)
    for x, value in zip(places, values):
        term: Polynomial = [value]
        for other in places:
            if other != x:
                term = product(term, [-other / (x - other), 1 / (x - other)])
        total = [a + b for a, b in zip(total, term)]
    return total


# A reading is a cubic along u, and along v, on each closed cell of level 3, so that four exact readings there give its
# slope; on an edge that two such cells share, the readings of either do.
def by_readings(check: Check) -> None:
    rng, shared = Random(41), 0
    for table in mixed(rng):
        surface = table.surface()
        for point in rng.sample(points_of(rng, table), 4):
            due = slopes_at(table, point)
            for along, side in enumerate(table[:2]):
                cells = closed_cells(point[along], side)
                shared += len(cells) > 1
                for cell in cells:
                    start = STEPS_PER_EIGHTH * cell
                    read = [surface.read(table.coefficients, *moved(point, along, start + at)) for at in FOUR]
                    cubic = through([Fraction(at, STEPS_PER_EIGHTH) for at in FOUR], read)
                    t = Fraction(point[along] - start, STEPS_PER_EIGHTH)
                    told = "%s at %s on %d by %d" % ("uv"[along], point, table.w, table.h)
                    check(value_at(cubic, t) == due[0], "the cubic of readings along " + told)
                    check(value_at(derived(cubic), t) == due[1 + along], "its slope along " + told)
    check(shared > 60, "only %d edges of cells" % shared)


# The readings in a cell of level 3 are whole numbers over D, and in steps a polynomial with whole coefficients: what a
# reading so many steps away has more, less the slope times these, is divisible by their square.
def remainders(check: Check) -> None:
    rng, nothing_else = Random(42), 0
    for table in mixed(rng):
        surface = table.surface()
        for point in rng.sample(points_of(rng, table), 3):
            watts, *both = slopes_at(table, point)
            for along, (side, slope) in enumerate(zip(table[:2], both)):
                start = STEPS_PER_EIGHTH * cell_of(in_cells(point[along], 3), cell_count(side, 3))
                by_step = slope * D / STEPS_PER_EIGHTH
                check(by_step.denominator == 1, "a slope by a step is a whole number over D")
                for to in {start, start + STEPS_PER_EIGHTH, *rng.sample(range(start, start + STEPS_PER_EIGHTH), 4)}:
                    distance = to - point[along]
                    more = calls.numerator_over_d(surface.read(table.coefficients, *moved(point, along, to)) - watts)
                    left = more - distance * by_step.numerator
                    divisible = left == 0 if distance == 0 else left % distance**2 == 0
                    check(divisible, "%d steps along %s from %s" % (distance, "uv"[along], point))
                    nothing_else += left != 0
    check(nothing_else > 300, "only %d readings were off the line" % nothing_else)


# On an edge that two cells of any level share, the polynomials of both have one value and both slopes; and the splines
# as polynomials read as the splines of document 01 do.
def both_cells(check: Check) -> None:
    rng = Random(43)
    for table in mixed(rng):
        surface, read = table.surface(), table.coefficients
        orders = (0, 0), (1, 0), (0, 1)
        greater, lesser = ([Derived(surface, *order, cell) for order in orders] for cell in (cell_of, lesser_cell))
        for u, v in rng.sample(points_of(rng, table), 5):
            told = "at %d %d on %d by %d" % (u, v, table.w, table.h)
            due = [one.read(read, u, v) for one in greater]
            check(due[0] == surface.read(read, u, v), "the polynomials' value " + told)
            check(tuple(due) == slopes_at(table, (u, v)), "the polynomials' slopes " + told)
            check([one.read(read, u, v) for one in lesser] == due, "in the cell of less u and v " + told)


# 'a times the second's plus b times the third's', as demand 3 has it of the reading.
def linearity(check: Check) -> None:
    rng = Random(44)
    for w, h in SMALL_SHEETS + LARGE_SHEETS:
        second = samples.random_table(rng, w, h, share=100)
        third = second._replace(coefficients=samples.random_coefficients(rng, second.surface(), 100))
        a, b = rng.randint(-49, 49), rng.randint(-49, 49)
        first = second._replace(coefficients=[a * c + b * d for c, d in zip(second.coefficients, third.coefficients)])
        for point in samples.random_points(rng, w, h, 6):
            one, two, three = (slopes_at(table, point) for table in (first, second, third))
            same = all(x == a * y + b * z for x, y, z in zip(one, two, three))
            check(same, "slopes of %d times plus %d times on %d by %d" % (a, b, w, h))


# 'any list of box insertions, refused ones included' moves no slope, as demand 3 has it of the reading.
def refinement(check: Check) -> None:
    rng, tried = Random(45), {"ok": 0, "refused": 0}
    for w, h in SMALL_SHEETS + LARGE_SHEETS:
        start = table = samples.random_table(rng, w, h, 3)
        for _ in range(rng.randint(2, 6)):
            insertion = samples.random_insertion(rng, w, h, len(table.coefficients))
            tried[calls.insert(*table, *insertion).answer[0]] += 1
            table = table_after(check, table, insertion)
        for point in samples.random_points(rng, w, h, 12) + [(STEPS_PER_CELL * w, STEPS_PER_CELL * h)]:
            same = slopes_at(start, point) == slopes_at(table, point)
            check(same, "refining moved the slopes at %s on %d by %d" % (point, w, h))
    check(min(tried.values()) >= 15, "insertions that were tried: %s" % tried)


# Exchanging u and v exchanges the slopes; equal coefficients have none; and none is above 48,000 in size, which is
# reached in the middle of each second cell of level 3 where two columns below zero stand beside two above.
def sizes(check: Check) -> None:
    rng, greatest = Random(46), Fraction(0)
    for table in mixed(rng):
        other = turned(table)
        level = table._replace(coefficients=samples.equal_coefficients(table.surface(), -31_999))
        for u, v in rng.sample(points_of(rng, table), 4):
            watts, along_u, along_v = slopes_at(table, (u, v))
            check(slopes_at(other, (v, u)) == (watts, along_v, along_u), "turned at %d %d" % (u, v))
            check(slopes_at(level, (u, v)) == (-31_999, 0, 0), "equal coefficients at %d %d" % (u, v))
            greatest = max(greatest, abs(along_u), abs(along_v))
    check(2_000 < greatest < STEEPEST, "the steepest of those drawn is %s" % greatest)
    for table in (steep(1, 1, [4, 4, 4, 3] + [0] * 9), steep(8, 8, [3])):
        for cell in range(cell_count(table.w, 3)):
            for v in (0, 5, STEPS_PER_CELL * table.h):
                watts, along_u, along_v = slopes_at(table, (STEPS_PER_EIGHTH * cell + 8, v))
                rises = (0, 1, 0, -1)[(cell - 1) % 4]
                check((along_u, along_v) == (STEEPEST * rises, 0), "the steepest in cell %d" % cell)
                check((watts == 0) == (rises != 0), "watts where it is steepest, in cell %d" % cell)

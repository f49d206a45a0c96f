"""Watts and slopes: cases worked out by hand.

Document 02, Two: 'Slopes are in watts per eighth of a cell, along u and along v. Each lies within 2^-20 of the exact
derivative of the surface, worked as a fraction. At the far edges the last cell's polynomial counts. Watts keep the
bound of 2^-30.' Of the four splines of a cell, and of their derivatives by t, the cases use these:

    t    splines                    derivatives by t
    0    1/6   4/6    1/6    0      -1/2  0     1/2   0
    1/2  1/48  23/48  23/48  1/48   -1/8  -5/8  5/8   1/8
    1    0     1/6    4/6    1/6    0     -1/2  0     1/2

A cell of level 0 is 8 eighths wide, of level 1 it is 4, of level 2 it is 2, and of level 3 one.
"""
from __future__ import annotations

from fractions import Fraction
from typing import Callable, List, NamedTuple, Tuple

import calls
import samples
import tree as quadtree
from level_cases import of_cells
from properties import Check
from samples import Point, Table
from surface import LEVELS, Surface, total_places

STEEPEST = 48_000

# The watts, the slope along u and the slope along v.
Slopes = Tuple[Fraction, ...]


class Case(NamedTuple):
    """A table, a point, and the watts and both slopes that are due there."""

    told: str
    table: Table
    point: Point
    watts: Fraction
    along_u: Fraction
    along_v: Fraction

    def due(self) -> Slopes:
        return Fraction(self.watts), Fraction(self.along_u), Fraction(self.along_v)


# A table whose active functions have these watts, by level, i and j.
def watts_table(w: int, h: int, tree: List[int], watts: Callable[[int, int, int], int]) -> Table:
    surface, coefficients = calls.surface_of(w, h, tree), [0] * total_places(w, h)
    for level in LEVELS:
        for i, j in surface.active_functions(level):
            coefficients[surface.place(level, i, j)] = watts(level, i, j) * 64**level
    return Table(w, h, tree, coefficients)


def only(w: int, h: int, tree: List[int], level: int, i: int, j: int, watts: int) -> Table:
    """One function alone has watts."""
    return watts_table(w, h, tree, lambda *f: watts if f == (level, i, j) else 0)


def column(w: int, h: int, tree: List[int], level: int, i: int, watts: int) -> Table:
    """One column of a level alone has watts. Where the regions are the same in all rows it reads as its spline along u
    and has no slope along v, since along v the splines add up to 1."""
    return watts_table(w, h, tree, lambda of, a, b: watts if (of, a) == (level, i) else 0)


# The same with u and v exchanged.
def turned(table: Table) -> Table:
    old = table.surface()
    levels = samples.levels_by(lambda u, v: old.levels[u][v])
    new, coefficients = Surface(table.h, table.w, levels), [0] * old.total
    for level in LEVELS:
        for i, j in old.functions(level):
            coefficients[new.place(level, j, i)] = table.coefficients[old.place(level, i, j)]
    return Table(table.h, table.w, quadtree.tree_of(levels), coefficients)


def turned_case(case: Case) -> Case:
    return Case(case.told + ", turned", turned(case.table), case.point[::-1], case.watts, case.along_v, case.along_u)


# Document 01, Bench sheet: S rises by 1,000 watts in a cell along u, wherever it is refined.
_S = samples.bench_s()
_S_1 = samples.inserted(_S, (0, 0, 4, 4), 1)
SLOPING = [
    Case(told, table, (u, v), Fraction(1_000 * u, 128), 125, 0)
    for told, table in (("S", _S), ("S with level 1", _S_1), ("S refined", samples.inserted(_S_1, (1, 1, 4, 3), 3)))
    for u, v in ((0, 0), (64, 5), (77, 128), (128, 0), (128, 128), (32, 64), (127, 127))
]

# Watts of 7 + 16 (i + 2) - 40 (j + 2) read 7 + 16 x - 40 y, as i + 2 is the middle of support i: 2 and -5 by an eighth.
_PLANE = watts_table(3, 2, [0], lambda level, i, j: 7 + 16 * (i + 2) - 40 * (j + 2))
PLANE = [
    Case("a plane", _PLANE, (u, v), 7 + Fraction(16 * u - 40 * v, 128), 2, -5)
    for u, v in ((0, 0), (384, 0), (0, 256), (384, 256), (128, 128), (200, 77), (383, 255))
]

# One function of level 0 on 1 by 1 has 32,000 watts: products of the table above, a slope by 8 eighths, for one watt.
CORNERS = [
    Case("only (%d, %d)" % place, only(1, 1, [0], 0, *place, 32_000), point, *(32_000 * Fraction(*one) for one in due))
    for place, point, due in (
        ((-3, -3), (0, 0), ((1, 36), (-1, 96), (-1, 96))), ((-1, -2), (0, 0), ((1, 9), (1, 24), (0, 1))),
        ((-2, -2), (0, 0), ((4, 9), (0, 1), (0, 1))), ((0, 0), (0, 0), ((0, 1), (0, 1), (0, 1))),
        ((0, 0), (128, 128), ((1, 36), (1, 96), (1, 96))), ((0, -1), (128, 128), ((1, 9), (1, 24), (0, 1))),
        ((-2, 0), (128, 128), ((1, 36), (-1, 96), (1, 96))), ((-3, -3), (128, 128), ((0, 1), (0, 1), (0, 1))),
        ((0, -3), (128, 0), ((1, 36), (1, 96), (-1, 96))), ((-2, -1), (128, 0), ((1, 36), (-1, 96), (1, 96))),
        ((-3, 0), (64, 64), ((1, 2_304), (-1, 3_072), (1, 3_072))),
        ((-1, -2), (64, 64), ((529, 2_304), (115, 3_072), (-115, 3_072))))
]

# The last function of a sheet that is all of level L, 576 watts: 16 at the far corner, and 1/12 of it by 8/2^L eighths.
FAR_CORNERS = [
    Case("last of level %d" % level, only(1, 1, of_cells(level), level, 2**level - 1, 2**level - 1, 576), (128, 128),
         16, 6 * 2**level, 6 * 2**level) for level in (1, 2, 3)
]

# Level 2 on the last quarter along u alone, and 24 watts in its one column, which begins at u = 96: t^3/6, and t^2/2 by
# two eighths. At the far edge t is 1, a step before it 31/32.
_LAST_QUARTER = quadtree.tree_of(samples.levels_by(lambda u, v: 2 * (u == 3 and v < 4)))
FAR_EDGES = [
    Case("the last quarter", column(1, 1, _LAST_QUARTER, 2, 3, 24), point, watts, slope, 0)
    for point, watts, slope in (((128, 9), 4, 6), ((128, 128), 4, 6), ((127, 9), Fraction(29_791, 8_192),
                                                                      Fraction(2_883, 512)), ((96, 9), 0, 0))
]

# 96 watts in one column, on an edge that two cells share: of level 0 on 2 by 1, and of level 3 on 1 by 1. In the cell
# of less u t is 1, in the other 0: 1/6 and 1/2, 4/6 and 0, 1/6 and -1/2 in both.
KNOTS = [
    *(Case("column %d on a knot of level 0" % i, column(2, 1, [0], 0, i, 96), (128, 5), watts, slope, 0)
      for i, watts, slope in ((0, 16, 6), (-1, 64, 0), (-2, 16, -6), (-3, 0, 0), (1, 0, 0))),
    *(Case("column %d on a knot of level 3" % i, column(1, 1, of_cells(3), 3, i, 96), (80, 5), watts, slope, 0)
      for i, watts, slope in ((4, 16, 48), (3, 64, 0), (2, 16, -48), (1, 0, 0), (5, 0, 0))),
    # Level 3 ends at u = 128 on 2 by 1, and with it column 4: a step before, t is 15/16, so (1/16)^3 / 6 and
    # -(1/16)^2 / 2 of 24,576 watts.
    Case("before the edge of level 3", column(2, 1, of_cells(3), 3, 4, 24_576), (127, 5), 1, -48, 0),
    Case("on the edge of level 3", column(2, 1, of_cells(3), 3, 4, 24_576), (128, 5), 0, 0, 0),
]

# 48 watts in column -2 of level 0 on 2 by 1, whose west cell is of level 1: of its terms 1, 4, 6, 4, 1 over 8, columns
# -4 to 0, the first vanishes and columns -3 and -2 lie in the region. At u = 64, a knot of level 1, column -1 is 4/6
# without a slope, column 0 is 1/6 with 1/2 by 4 eighths: 48 (4/8 x 4/6 + 1/8 x 1/6), and 48 x 1/8 x 1/8.
# West cell of level 2: columns -1 and 0 of level 1 are columns -2 to 4 of level 2, of which 1 to 4 stay, 20, 10, 4 and
# 1 over 64. At u = 96, a knot, column 1 is 4/6 without a slope, column 2 is 1/6 with 1/2 by 2 eighths.
TRUNCATED = [
    Case("truncated by level 1", column(2, 1, of_cells(1), 0, -2, 48), (64, 9), 17, Fraction(3, 4), 0),
    Case("truncated by level 2", column(2, 1, of_cells(2), 0, -2, 48), (96, 9), Fraction(45, 4), Fraction(15, 8), 0),
]

# 24,576 watts in the last column read 4,096 t^3, which rises by 1,536 t^2 in an eighth: no difference of readings does.
BENT = [
    Case("a cube", column(1, 1, [0], 0, 0, 24_576), (u, 9), watts, slope, 0)
    for u, watts, slope in ((0, 0, 0), (64, 512, 384), (128, 4_096, 1_536),
                            (127, Fraction(2_048_383, 512), Fraction(48_387, 32)))
]


def steep(w: int, h: int, tree: List[int]) -> Table:
    """Columns 1 and 2, and every fourth beside them, have 32,000 watts, the others as many below zero."""
    return watts_table(w, h, tree, lambda level, i, j: 32_000 if (i - 1) % 4 < 2 else -32_000)


# The sizes of the four derivatives add up to 1 + 2t - 2t^2, at most 3/2, in the middle: two columns below zero and then
# two above rise by 48,000 in a cell. Of level 3 on 1 by 1 columns -1 to 2 do in cell 2, from u = 32 on. There t = 1/4
# has splines 27, 235, 121 and 1 over 384. Cell 3 has columns 0 to 3, and cell 4 columns 1 to 4.
_STEEP_3 = steep(1, 1, of_cells(3))
STEEP = [
    *(Case("steepest of level %d" % level, steep(1, 1, tree), point, 0, slope, 0) for level, tree, point, slope in (
        (0, [0], (64, 9), -6_000), (1, of_cells(1), (32, 9), -12_000), (2, of_cells(2), (80, 9), 24_000))),
    *(Case("steepest", _STEEP_3, (u, v), watts, slope, 0) for u, watts, slope in (
        (32, Fraction(-64_000, 3), 32_000), (36, Fraction(-35_000, 3), 44_000), (40, 0, STEEPEST),
        (56, Fraction(88_000, 3), 0), (72, 0, -STEEPEST)) for v in (9, 128)),
    Case("steepest on 8 by 8", steep(8, 8, [3]), (1_000, 1_024), 0, STEEPEST, 0),
]

# Document 01, Bench sheet: 'every active coefficient 700 watts'; nothing rises. And with a jump of three levels.
EVEN = [
    Case("700 watts", watts_table(w, h, quadtree.insert_box([0], w, h, box, level), lambda *f: 700), point, 700, 0, 0)
    for w, h, box, level in ((2, 1, (0, 0, 4, 4), 1), (2, 2, (2, 2, 5, 5), 3))
    for point in ((0, 0), (64, 64), (80, 80), (100, 100), (128, 128), (128 * w, 128 * h))
]

CASES: List[Case] = [
    one for case in (*SLOPING, *PLANE, *CORNERS, *FAR_CORNERS, *FAR_EDGES, *KNOTS, *TRUNCATED, *BENT, *STEEP, *EVEN)
    for one in (case, turned_case(case))
]


def slopes(check: Check) -> None:
    for case in CASES:
        outcome = calls.slopes(*case.table, *case.point)
        check(outcome.answer == ("ok", *case.due()), "%s at %s gives %s" % (case.told, case.point, outcome.answer))
        lent = {"tree": case.table.tree, "coefficients": case.table.coefficients}
        check(outcome.lent == lent, "%s: all that was lent is as it was" % case.told)
        numerator = calls.exact(*case.table, *case.point).answer[1]
        check(outcome.answer[1] == Fraction(numerator, calls.D), "%s: the watts are the exact reading's" % case.told)


# Document 02, Two: each of the three numbers has its own bound; at it an f64 is allowed, a little beyond it is not.
def bounds(check: Check) -> None:
    due = calls.slopes(*samples.bench_s(), 65, 9).answer
    exact, beyond, watts_bound, slope_bound = (507.8125, 125.0, 0.0), 2**-44, 2**-30, 2**-20
    check(due == ("ok", *map(Fraction, exact)), "S at (65, 9)")

    def allowed(at: int, off: float) -> bool:
        given = [number + off * (place == at) for place, number in enumerate(exact)]
        return calls.slopes_allowed(due, ("ok", *given))

    for sign in (1, -1):
        for at, bound in enumerate((watts_bound, slope_bound, slope_bound)):
            check(allowed(at, sign * bound), "number %d is off by its bound" % at)
            check(not allowed(at, sign * (bound + beyond)), "number %d is off by more than its bound" % at)
        check(not allowed(0, sign * 2**-21), "watts within 2^-20 only")
        check(allowed(1, sign * 2**-21) and allowed(2, sign * 2**-21), "slopes are allowed what watts are not")
    for at in range(3):
        for odd in (float("nan"), float("inf"), -float("inf")):
            check(not allowed(at, odd), "number %d is %r" % (at, odd))
    for wrong in (("refused", 6), ("ok",), ("ok", *exact[:2]), ("ok", *exact, 0.0), ("ok", *exact[::-1])):
        check(not calls.slopes_allowed(due, wrong), "%s where a record is due" % (wrong,))
    off = calls.slopes(*samples.bench_s(), 129, 9).answer
    check(calls.slopes_allowed(off, ("refused", 6)), "a refusal where 6 is due")
    for wrong in (("refused", 5), ("ok", 0.0, 0.0, 0.0)):
        check(not calls.slopes_allowed(off, wrong), "%s where 6 is due" % (wrong,))

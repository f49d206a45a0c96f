"""The level at which a reading may stop subdividing: the reading by each level, in whole numbers over D.

Document 02, Four: 'The reading stops subdividing at the greatest level under the quarter square holding its point (on a
shared edge the one of greater u or v, at a far edge the last); for the exact reading the fraction, scaled to D, is the
one document 01 defines.'
"""
from __future__ import annotations

from fractions import Fraction
from itertools import permutations
from random import Random
from typing import Callable, Dict, Iterator, List, NamedTuple, Sequence, Tuple

import calls
import samples
import tree as quadtree
from level_cases import of_cells
from properties import Check
from samples import Point, Table
from surface import (
    D,
    FINEST,
    LEVELS,
    QUARTERS_PER_CELL,
    STEPS_PER_CELL,
    TREE_SIDE,
    LevelMap,
    carried_by,
    cell_of,
    in_cells,
    place_of,
    total_places,
)

STEPS_PER_QUARTER = STEPS_PER_CELL // QUARTERS_PER_CELL


# The quarters of one side that hold a place, edges included: two on an edge that they share, else one.
def quarters_at(steps: int, side: int) -> List[int]:
    ends = [(q, STEPS_PER_QUARTER * q) for q in range(QUARTERS_PER_CELL * side)]
    return [q for q, start in ends if start <= steps <= start + STEPS_PER_QUARTER]


# The quarter squares that hold a point, edges included; the last is the one that document 02 names.
def squares_at(w: int, h: int, u: int, v: int) -> List[Tuple[int, int]]:
    return [(q, r) for r in quarters_at(v, h) for q in quarters_at(u, w)]


# Document 01: 'In these units no remainder arises.'
def whole(amount: Fraction) -> int:
    if amount.denominator != 1:
        raise ArithmeticError("%s is no whole number" % amount)
    return amount.numerator


class Readable:
    """A table, to be read by the splines of any one level times carried values."""

    def __init__(self, table: Table) -> None:
        self.table = table
        self.surface = table.surface()
        self.carried = carried_by(self.surface, table.coefficients)

    # The greatest level under a quarter square, as the call gives it.
    def level(self, q: int, r: int) -> int:
        return calls.least_level(*self.table[:3], (q, r, q + 1, r + 1)).answer[2]

    # What a function has in the units of its level: the carried value, or, where it is refined away and none is
    # carried to it, its own coefficient, which is 0.
    def units(self, level: int, i: int, j: int) -> int:
        if self.surface.least_level(level, i, j) > level:
            return self.table.coefficients[self.surface.place(level, i, j)]
        return whole(self.carried(level, i, j) * 64**level)

    # The reading by one level: its splines are whole numbers over 6 times the cube of a cell's steps in each direction.
    def by(self, level: int, u: int, v: int) -> int:
        over = (6 * (STEPS_PER_CELL // 2**level) ** 3) ** 2
        products = self.surface.splines_over(level, u, v)
        return sum(whole(product * over) * self.units(level, *f) for f, product in products.items())

    # The reading that document 01 defines, by truncated functions.
    def exact(self, u: int, v: int) -> int:
        return calls.numerator_over_d(self.surface.read(self.table.coefficients, u, v))


class Read(NamedTuple):
    """A reading worked out by hand: a table, a point, the level of its quarter square, and the numerator over D."""

    words: str
    table: Table
    point: Point
    level: int
    due: int


# A table with one coefficient of 1, at this function.
def single(w: int, h: int, tree: List[int], level: int, i: int, j: int) -> Table:
    place = place_of(w, h, level, i, j)
    return Table(w, h, tree, [int(at == place) for at in range(total_places(w, h))])


# A unit of level L is 1/64^L watt, so 2^42 / 64^L over D / 36; the splines below are the numbers of sixths.
BY_HAND = [
    # The last spline of a whole sheet at the far corner, t = 1: 1 and 1. Beyond the far edge level 0 stands.
    *(Read("last of level %d" % level, single(1, 1, of_cells(level), level, 2**level - 1, 2**level - 1),
           (128, 128), level, 2**42 // 64**level) for level in (1, 2, 3)),
    # The west cell of 2 by 1 refined: the last function in it ends at u = 128. A step before that its spline is 1 over
    # the cube of 64 or 16, the steps of a cell; along v, at a knot in its middle, 4.
    Read("before the edge of level 1", single(2, 1, of_cells(1), 1, -2, -1), (127, 64), 1, 2**36 * 4 // 64**3),
    Read("on the edge of level 1", single(2, 1, of_cells(1), 1, -2, -1), (128, 64), 0, 0),
    Read("before the edge of level 3", single(2, 1, of_cells(3), 3, 4, 2), (127, 64), 3, 2**24 * 4 // 16**3),
    Read("on the edge of level 3", single(2, 1, of_cells(3), 3, 4, 2), (128, 64), 0, 0),
    # The same along v.
    Read("before the edge of level 1, along v", single(1, 2, of_cells(1), 1, -1, -2), (64, 127), 1, 2**36 * 4 // 64**3),
    Read("on the edge of level 1, along v", single(1, 2, of_cells(1), 1, -1, -2), (64, 128), 0, 0),
    Read("before the edge of level 3, along v", single(1, 2, of_cells(3), 3, 2, 4), (64, 127), 3, 2**24 * 4 // 16**3),
    Read("on the edge of level 3, along v", single(1, 2, of_cells(3), 3, 2, 4), (64, 128), 0, 0),
    # Document 01, Bench sheet: S at (64, 5), also with level 1 on the whole sheet.
    Read("S", samples.bench_s(), (64, 5), 0, 500 * D),
    Read("S with level 1", samples.inserted(samples.bench_s(), (0, 0, 4, 4), 1), (64, 5), 1, 500 * D),
]


# Squares of so many quarters with these levels at the south-west, south-east, north-west and north-east of a corner.
def around_a_corner(side: int, levels: Sequence[int]) -> LevelMap:
    def level(u: int, v: int) -> int:
        return levels[u // side + 2 * (v // side)] if max(u, v) < 2 * side else 0

    return samples.levels_by(level)


# Tables on which squares of different levels meet: boxes, a level drawn for each quarter square, four levels around a
# corner in every order, and one near the far corner of 8 by 8, and one level throughout.
def mixed(rng: Random) -> Iterator[Table]:
    for w, h in ((1, 1), (2, 1), (1, 2), (2, 2), (3, 2), (4, 4), (8, 3), (5, 8), (8, 8)):
        yield samples.random_table(rng, w, h)
    for w, h in ((1, 1), (2, 1), (2, 3)):
        yield samples.table_of(rng, w, h, samples.speckled_levels(rng, w, h, LEVELS))
    for levels in permutations(LEVELS):
        yield samples.table_of(rng, 1, 1, around_a_corner(2, levels))
    for levels in ((0, 1, 2, 3), (3, 0, 1, 2), (2, 3, 0, 1), (1, 2, 3, 0), (3, 3, 2, 1)):
        yield samples.table_of(rng, 2, 2, around_a_corner(4, levels))
    yield samples.table_of(rng, 8, 8, samples.levels_by(lambda u, v: (u >= 30) + 2 * (v >= 30)))
    for level in (1, 2, 3):
        yield samples.table_of(rng, 2, 1, quadtree.raised(around_a_corner(1, (0,) * 4), (0, 0, 8, 4), level))
        yield samples.table_of(rng, 8, 8, samples.levels_by(lambda u, v: level))


# Places along a side at quarters' edges and a step beside them, at most so many, both ends among them.
def near_edges(rng: Random, side: int, most: int) -> List[int]:
    end = STEPS_PER_CELL * side
    places = {p + off for p in range(0, end + 1, STEPS_PER_QUARTER) for off in (-1, 0, 1)} & set(range(end + 1))
    return sorted({0, end, *rng.sample(sorted(places), min(most, len(places)))})


# Points of a table: on quarters' edges, beside them, at far edges, and anywhere.
def points_of(rng: Random, table: Table) -> List[Point]:
    across, along = (near_edges(rng, side, 5) for side in (table.w, table.h))
    return [(u, v) for v in along for u in across] + samples.random_points(rng, table.w, table.h, 6)


# On a shared edge each square that holds the point has a level from which on the readings are the same, though the
# levels differ: 'the one of greater u or v' is named so that one level is meant.
def shared_edges(check: Check) -> None:
    rng, differing = Random(32), {"lower at less u": 0, "higher at less u": 0, "lower at less v": 0,
                                  "higher at less v": 0, "four levels": 0}
    for table in mixed(rng):
        given = Readable(table)
        places = [[p for p in near_edges(rng, side, 12) if p % STEPS_PER_QUARTER == 0] for side in table[:2]]
        for u, v in [(u, v) for v in places[1] for u in places[0]][:40]:
            due, squares = given.exact(u, v), squares_at(table.w, table.h, u, v)
            levels = {square: given.level(*square) for square in squares}
            for level in set(levels.values()):
                same = all(given.by(finer, u, v) == due for finer in range(level, FINEST + 1))
                check(same, "the reading from level %d on at %d %d" % (level, u, v))
            (q, r), last = squares[-1], levels[squares[-1]]
            for along, other in (("u", levels.get((q - 1, r), last)), ("v", levels.get((q, r - 1), last))):
                differing["lower at less " + along] += other < last
                differing["higher at less " + along] += other > last
            differing["four levels"] += set(levels.values()) == set(LEVELS)
    check(min(differing.values()) >= 20, "points where levels meet: %s" % differing)


Stop = Callable[[Readable, int, int], int]


# The level of the quarter square at these numbers along u and v; beyond the sheet it is 0, as the tree has it.
def level_at(given: Readable, q: int, r: int) -> int:
    return given.surface.levels[r][q] if max(q, r) < TREE_SIDE else 0


# The level of the square that a rule names, by its quarter along each side.
def square_by(rule: Callable[[int, int], int]) -> Stop:
    return lambda given, u, v: level_at(given, rule(u, given.table.w), rule(v, given.table.h))


# The level of the square that document 02 names, changed.
def off_by(more: int) -> Stop:
    return lambda given, u, v: min(max(PUBLISHED_STOP(given, u, v) + more, 0), FINEST)


# The square with u and v exchanged, which a sheet of unequal sides may have beyond it.
def exchanged(given: Readable, u: int, v: int) -> int:
    q, r = squares_at(given.table.w, given.table.h, u, v)[-1]
    return level_at(given, r, q)


# The least level on the sheet.
def least_on_sheet(given: Readable, u: int, v: int) -> int:
    w, h = given.table.w, given.table.h
    return calls.least_level(*given.table[:3], (0, 0, 4 * w, 4 * h)).answer[1]


PUBLISHED_STOP = square_by(lambda steps, side: quarters_at(steps, side)[-1])

STOPS: Dict[str, Stop] = {
    "at level 0": lambda given, u, v: 0,
    "a level early": off_by(-1),
    "at the least level on the sheet": least_on_sheet,
    "u and v exchanged": exchanged,
    "the square beyond a far edge": square_by(lambda steps, side: steps // STEPS_PER_QUARTER),
    "the first quarter of the point's cell": square_by(
        lambda steps, side: QUARTERS_PER_CELL * cell_of(in_cells(steps, 0), side)),
    "the nearest corner's square": square_by(
        lambda steps, side: min((steps + STEPS_PER_QUARTER // 2) // STEPS_PER_QUARTER, QUARTERS_PER_CELL * side - 1)),
    "half a quarter for a quarter": square_by(
        lambda steps, side: min(2 * steps // STEPS_PER_QUARTER, QUARTERS_PER_CELL * side - 1)),
    "the square a step further": square_by(
        lambda steps, side: min((steps + 1) // STEPS_PER_QUARTER, QUARTERS_PER_CELL * side - 1)),
    # These read as document 01 does; which square is meant on a shared edge only the level under it tells.
    "the square of less u and v": square_by(lambda steps, side: quarters_at(steps, side)[0]),
    "a level late": off_by(1),
    "at level 3": lambda given, u, v: FINEST,
}
READ_ALIKE = {"the square of less u and v", "a level late", "at level 3"}


# The reading by each level from that of the point's quarter square on is document 01's; levels below give others. So do
# other rules for the level, somewhere, but those that stop at a level that is enough.
def by_levels(check: Check) -> None:
    rng, shown, misread, far = Random(31), set(), set(), 0
    for level in LEVELS:
        check((6 * (128 >> level) ** 3) ** 2 * 64**level == D, "level %d is over D by itself" % level)
    for words, table, point, level, due in BY_HAND:
        given, (q, r) = Readable(table), squares_at(table.w, table.h, *point)[-1]
        check(given.level(q, r) == level and given.exact(*point) == due, "%s at %s" % (words, point))
        check(all(given.by(finer, *point) == due for finer in range(level, FINEST + 1)), "%s, by levels" % words)
        check(due == 0 or all(given.by(coarser, *point) == 0 for coarser in range(level)), "%s, by lower ones" % words)
    for table in mixed(rng):
        given = Readable(table)
        for u, v in points_of(rng, table):
            q, r = squares_at(table.w, table.h, u, v)[-1]
            due, level, reads = given.exact(u, v), given.level(q, r), [given.by(one, u, v) for one in LEVELS]
            told = "at %d %d on %d by %d" % (u, v, table.w, table.h)
            check(level == PUBLISHED_STOP(given, u, v), "the level under the quarter square " + told)
            for finer in range(level, FINEST + 1):
                check(reads[finer] == due, "the reading by level %d %s" % (finer, told))
            shown.update((level, coarser) for coarser in range(level) if reads[coarser] != due)
            misread.update(name for name, stop in STOPS.items() if reads[stop(given, u, v)] != due)
            far += level > 0 and (u == STEPS_PER_CELL * table.w or v == STEPS_PER_CELL * table.h)
    pairs = {(level, coarser) for level in LEVELS for coarser in range(level)}
    check(shown == pairs, "levels below that of the quarter square give other readings: %s" % sorted(shown))
    check(misread == set(STOPS) - READ_ALIKE, "levels at which a reading stops show on %s" % sorted(misread))
    check(far > 100, "only %d points at far edges of refined squares" % far)

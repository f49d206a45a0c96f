"""What document 02, Ten, says of tables and their readings, tried on small sheets and on drawn tables."""
from __future__ import annotations

from collections import Counter
from functools import lru_cache
from itertools import permutations
from random import Random
from typing import Iterator, List, NamedTuple, Sequence, Tuple

import calls
import enquiries
import samples
import tree as quadtree
from enquiries import Slip
from properties import Check
from samples import Table
from slip_properties import step, table_after
from stopping import around_a_corner, single
from surface import LEVELS, Box, LevelMap, Surface
from uniqueness import (
    SIXTEENTH,
    Columns,
    cells_of,
    cells_that_show,
    coefficient_told,
    few_cells,
    grid,
    points_around,
    points_in,
    shown_by,
    tells,
    tells_all,
    told_by,
)

NO_LEVELS = samples.levels_by(lambda u, v: 0)


class Sheet(NamedTuple):
    """A sheet with its regions, in words."""

    words: str
    w: int
    h: int
    levels: LevelMap


# A sheet with boxes raised to levels, one after the other.
def boxed(words: str, w: int, h: int, *boxes: Tuple[Box, int]) -> Sheet:
    levels = NO_LEVELS
    for box, level in boxes:
        levels = quadtree.raised(levels, box, level)
    return Sheet(words, w, h, levels)


def throughout(w: int, h: int, level: int) -> Sheet:
    return boxed("level %d on all of it" % level, w, h, ((0, 0, 4 * w, 4 * h), level))


# One level throughout, two that meet along u or v, boxes of a few quarters, one level in another, all around a corner,
# and drawn ones, with boxes and with a level for each quarter square.
def sheets() -> Iterator[Sheet]:
    rng = Random(61)
    yield from (throughout(w, h, level) for w, h in ((1, 1), (2, 1)) for level in LEVELS)
    yield from (throughout(1, 2, 3), throughout(2, 2, 0), throughout(2, 2, 1))
    for low, high in ((0, 1), (0, 2), (0, 3), (1, 2), (1, 3), (2, 3)):
        half = rng.choice(((0, 0, 2, 4), (2, 0, 4, 4), (0, 0, 4, 2), (0, 2, 4, 4)))
        yield boxed("levels %d and %d" % (low, high), 1, 1, ((0, 0, 4, 4), low), (half, high))
    for box in ((0, 0, 1, 1), (1, 1, 3, 3), (3, 0, 4, 4), (1, 0, 2, 3)):
        yield boxed("a box %s of level 3" % (box,), 1, 1, (box, 3))
    yield boxed("a cell of level 1 beside one of level 0", 2, 1, ((0, 0, 4, 4), 1))
    yield boxed("a cell of level 3 beside one of level 0", 2, 1, ((0, 0, 4, 4), 3))
    yield boxed("boxes in boxes", 1, 2, ((0, 0, 4, 8), 1), ((0, 1, 4, 7), 2), ((1, 2, 4, 6), 3))
    for levels in ((0, 1, 2, 3), (3, 0, 1, 2), (2, 3, 3, 1)):
        yield Sheet("levels %s around a corner" % (levels,), 1, 1, around_a_corner(2, levels))
    for w, h in ((1, 1),) * 3 + ((1, 2), (2, 1), (2, 2)):
        yield Sheet("drawn boxes", w, h, samples.random_levels(rng, w, h, 4))
        yield Sheet("a level drawn for each quarter square", w, h, samples.speckled_levels(rng, w, h, LEVELS))


# The columns of each sheet, in words.
@lru_cache(maxsize=None)
def columns_of_sheets() -> List[Tuple[str, Columns]]:
    found = [(one, Columns(Surface(*one[1:]))) for one in sheets()]
    return [("%s, %d by %d, %d functions" % (*one[:3], len(c.functions)), c) for one, c in found]


# Agreement at the points of the 1/16 grid is enough, so at those of the 1/128 grid, which has them all; so is agreement
# at the sixteen points of one cell for each function.
def ranks(check: Check) -> None:
    rng, standing = Random(62), set()
    for words, columns in columns_of_sheets():
        w, h = columns.surface.w, columns.surface.h
        for u, v in samples.random_points(rng, w, h, 2):
            row = columns.row(u, v)
            check(row == columns.row_by_values(u, v), "readings at %d %d of %s" % (u, v, words))
            for function in rng.sample(columns.functions, 2):
                one = single(w, h, quadtree.tree_of(columns.surface.levels), *function)
                read = calls.exact(*one, u, v).answer
                check(read == ("ok", row.get(columns.at[function], 0)), "only %s at %d %d of %s" % (
                    function, u, v, words))
        check(tells_all(columns, grid(w, h, SIXTEENTH)), "the 1/16 grid on " + words)
        cells = few_cells(columns)
        points = [point for cell in {*cells.values()} for point in points_in(cell)]
        check(tells_all(columns, points), "the points of %d cells on %s" % (len({*cells.values()}), words))
        standing.update((f[0], g[0]) for f in columns.functions for g in columns.functions)
    check(len(standing) == len(LEVELS) ** 2, "levels of functions that stood on one sheet: %s" % sorted(standing))


# Each active function is shown by some cell. The sixteen readings of a cell, taken together, give 1 for the function
# that it shows and 0 for every other, so that they tell its coefficient, whatever the others are; by rank too. So do
# twenty-five readings of the cell's quarter square.
def shown(check: Check) -> None:
    rng, tried = Random(63), {level: 0 for level in LEVELS}
    for words, columns in columns_of_sheets():
        cells = few_cells(columns)
        check(cells.keys() == columns.at.keys(), "each active function is shown on " + words)
        tried_cells = {*cells.values(), *rng.sample(cells_of(columns.surface), 4)}
        for cell in sorted(tried_cells):
            rows = [columns.row(u, v) for u, v in points_in(cell)]
            over = sorted({column for row in rows for column in row})
            for function in shown_by(columns, cell):
                given = [coefficient_told(function, cell, [row.get(column, 0) for row in rows]) for column in over]
                due = [int(column == columns.at[function]) for column in over]
                check(given == due, "cell %s shows %s on %s" % (cell, function, words))
                tried[function[0]] += 1
        function, cell = rng.choice(list(cells.items()))
        showing = [one for one in cells_of(columns.surface) if function in shown_by(columns, one)]
        check(showing == cells_that_show(columns.surface, function), "the cells that show %s on %s" % (function, words))
        rows = [columns.row(u, v) for u, v in points_in(cell)]
        check(tells(rows, columns.at[function]), "cell %s tells %s by rank on %s" % (cell, function, words))
        rows = [columns.row(u, v) for u, v in points_around(cell)]
        check(tells(rows, columns.at[function]), "the square of %s tells %s on %s" % (cell, function, words))
    check(min(tried.values()) >= 300, "functions and cells that were tried: %s" % tried)


# 'a carried table is the only acceptable one over its new tree that changes no exact reading': after any list of
# enquiries and commits the readings of the table before it tell, over the new tree, the coefficients that stand there.
# Another number at one place shows at the sixteen points of a cell.
def carried(check: Check) -> None:
    rng, moved = Random(64), 0
    for w, h in ((1, 1), (2, 1), (1, 2), (2, 2), (3, 2), (2, 3)):
        start = table = samples.random_table(rng, w, h, 1)
        for _ in range(12):
            table = step(check, rng, table, samples.random_insertion(rng, w, h, len(table.coefficients)), Counter())
        columns = Columns(table.surface())
        told = told_by(columns, lambda points: calls.exact_at(*start, points))
        check(told == table.coefficients, "what the readings before tell over %s on %d by %d" % (table.tree, w, h))
        for function, cell in rng.sample(list(few_cells(columns).items()), 6):
            numbers, place = list(table.coefficients), columns.surface.place(*function)
            numbers[place] += 1 if numbers[place] < 0 else -1
            read, other = (calls.exact_at(*one, points_in(cell)) for one in (
                table, table._replace(coefficients=numbers)))
            check(read != other, "another number at %s, read in %s of %s" % (function, cell, table.tree))
        moved += table.coefficients != start.coefficients
    check(moved >= 4, "only %d lists moved a coefficient" % moved)


# The table after the commit of a slip that it gave, or that another gave for the same box and level.
def committed(table: Table, slip: Slip) -> Table:
    return table_after(table, enquiries.commit(*table, slip, [9] * slip.length, [7] * len(table.coefficients)))


# The table after a list of boxes and levels, each enquired about and then committed.
def after_all(table: Table, boxes: Sequence[Tuple[Box, int]]) -> Table:
    for box, level in boxes:
        table = committed(table, enquiries.enquire(*table, box, level).answer[1])
    return table


# The boxes of a list in pieces and in any order: a box as its quarters, as two parts along u, or level by level.
def in_pieces(rng: Random, boxes: Sequence[Tuple[Box, int]]) -> List[Tuple[Box, int]]:
    pieces: List[Tuple[Box, int]] = []
    for (u0, v0, u1, v1), level in boxes:
        kind, middle = rng.randrange(3), rng.randint(u0 + 1, u1)
        if kind == 0 and (u1 - u0) * (v1 - v0) <= 6:
            pieces += [((u, v, u + 1, v + 1), level) for v in range(v0, v1) for u in range(u0, u1)]
        elif kind == 1 and middle < u1:
            pieces += [((u0, v0, middle, v1), level), ((middle, v0, u1, v1), level)]
        else:
            pieces += [((u0, v0, u1, v1), one) for one in range(1, level + 1)]
    return rng.sample(pieces, len(pieces))


# Two lists of steps from one table that end with the same regions end with the same coefficients, and a second commit
# of a slip leaves them as they are.
def lists(check: Check) -> None:
    rng, moved, again = Random(65), 0, 0
    for w, h, count in ((1, 1, 3),) * 6 + ((2, 1, 3), (1, 2, 3), (2, 2, 3), (3, 2, 2), (4, 3, 2)):
        table = samples.random_table(rng, w, h, 2)
        boxes = [(samples.random_box(rng, w, h), rng.choice((1, 2, 3))) for _ in range(count)]
        due, told = after_all(table, boxes), "of %s in %s on %d by %d" % (boxes, table.tree, w, h)
        for order in [*permutations(boxes)][1:]:
            check(after_all(table, order) == due, "another order " + told)
        check(after_all(table, in_pieces(rng, boxes)) == due, "in pieces, boxes " + told)
        check(after_all(due, boxes) == due, "once more, boxes " + told)
        moved += due.coefficients != table.coefficients
        for box, level in boxes:
            slip = enquiries.enquire(*table, box, level).answer[1]
            first = committed(table, slip)
            twice = enquiries.commit(*first, slip, [9] * slip.length, [7] * len(first.coefficients))
            check(twice.answer == ("ok", slip.length), "a second commit of one of the boxes " + told)
            check(table_after(first, twice) == first, "the table after a second commit of one of the boxes " + told)
            again += first != table
    check(moved >= 6 and again >= 15, "only %d lists and %d commits changed the table" % (moved, again))

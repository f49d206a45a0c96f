"""What holds of every grid and every table that convert into each other, tried on drawn tables, trees and grids."""
from __future__ import annotations

from collections import Counter
from random import Random
from typing import Iterator, List, Optional, Tuple

import calls
import grids
import samples
import tree as quadtree
from full_grids import FullGrid, drawn_grid, grid_of, written_out
from grids import Grid
from properties import LARGE_SHEETS, SMALL_SHEETS, Check
from samples import Table
from surface import FINEST, LEVELS, LevelMap, coefficient_limit, knot_indices, total_places
from uniqueness import Columns, told_by
from uniqueness_properties import throughout


# The bytes of a table's grid.
def bytes_of(table: Table) -> List[int]:
    outcome = grids.write_grid(*table, [8] * grids.GREATEST_GRID)
    return outcome.lent["grid_out"][: outcome.answer[1]]


# What a grid gives over a tree: a table, or the refusal number.
def over(grid: List[int], tree: List[int]) -> Tuple[Optional[Table], int]:
    outcome = grids.read_grid(grid, tree, [7] * total_places(*grid[3:5]))
    if outcome.answer[0] == "refused":
        return None, outcome.answer[1]
    return Table(*outcome.answer[1:], list(tree), outcome.lent["coefficients_out"]), 0


# The grid with its numbers by their functions, as it is read at points.
def full(grid: Grid) -> FullGrid:
    functions = [(i, j) for j in knot_indices(grid.h, FINEST) for i in knot_indices(grid.w, FINEST)]
    return FullGrid(grid.w, grid.h, dict(zip(functions, grid.numbers)))


# 'every acceptable table converts', and the grid converts back: over its own tree to the table itself, over the tree
# that has level 3 throughout to the grid's own numbers, whose grid is the same again.
def there_and_back(check: Check) -> None:
    rng, owner = Random(71), {}
    for w, h in SMALL_SHEETS + LARGE_SHEETS:
        speckled = samples.table_of(rng, w, h, samples.speckled_levels(rng, w, h, LEVELS))
        for table in (samples.random_table(rng, w, h), speckled, samples.table_of(rng, w, h, ((0,) * 32,) * 32)):
            grid, words = bytes_of(table), "%s on %d by %d" % (table.tree, w, h)
            check(over(grid, table.tree) == (table, 0), "there and back over %s" % words)
            judged, tree = grids.judge_grid(grid), quadtree.tree_of(throughout(w, h, FINEST).levels)
            check(grids.grid_bytes(*judged) == bytes(grid), "the bytes of the grid over %s" % words)
            whole = Table(w, h, tree, [0] * (len(table.coefficients) - len(judged.numbers)) + judged.numbers)
            check(over(grid, tree) == (whole, 0), "level 3 throughout by the grid over %s" % words)
            check(bytes_of(whole) == grid, "the grid of level 3 throughout, of %s" % words)
            # One number another, or its sign, is another grid.
            place = rng.choice([at for at, limit in enumerate(table.surface().limits()) if limit is not None])
            for number in {table.coefficients[place] // 2, -table.coefficients[place]} - {table.coefficients[place]}:
                numbers = [*table.coefficients[:place], number, *table.coefficients[place + 1 :]]
                check(bytes_of(table._replace(coefficients=numbers)) != grid, "another table, one grid, %s" % words)
            check(owner.setdefault(bytes(grid), table) == table, "two tables with one grid")
    check(len(owner) == 3 * len(SMALL_SHEETS + LARGE_SHEETS), "%d grids" % len(owner))


# 'reads the same everywhere': the carried values in whole numbers are those in fractions and those by truncation, and
# the grid and the table over either tree read alike by the evaluator's own exact reading.
def readings(check: Check) -> None:
    rng = Random(72)
    for w, h in ((1, 1), (2, 1), (1, 2), (2, 2), (3, 2)):
        table = samples.random_table(rng, w, h)
        judged, words = grids.judge_grid(bytes_of(table)), "%s on %d by %d" % (table.tree, w, h)
        check(full(judged) == grid_of(table), "the numbers in fractions of %s" % words)
        check(full(judged).numbers == written_out(table, Columns(table.surface())), "by truncation of %s" % words)
        points = samples.deciding_points(w, h) if w * h == 1 else samples.random_points(rng, w, h, 40)
        read = full(judged).read(points)
        check(calls.exact_at(*table, points) == read, "the readings of %s" % words)
        finer = quadtree.tree_of(quadtree.raised(table.surface().levels, samples.random_box(rng, w, h), 3))
        other, cause = over(bytes_of(table), finer)
        check(cause == 0 and calls.exact_at(*other, points) == read, "the readings over %s of %s" % (finer, words))


# Trees whose regions hold those of a tree: boxes raised one after the other.
def held_by(rng: Random, levels: LevelMap, w: int, h: int) -> Iterator[LevelMap]:
    for _ in range(3):
        levels = quadtree.raised(levels, samples.random_box(rng, w, h), rng.choice((1, 2, 3)))
        yield levels


# Over every tree whose regions hold the table's the grid converts, to what carrying leaves; and from the grid of what
# it leaves back over the table's own tree.
def finer_trees(check: Check) -> None:
    rng, moved = Random(73), 0
    for w, h in SMALL_SHEETS + LARGE_SHEETS:
        table = samples.random_table(rng, w, h, 2)
        grid = bytes_of(table)
        for levels in held_by(rng, table.surface().levels, w, h):
            tree = quadtree.tree_of(levels)
            carried = calls.carry(table.surface(), calls.surface_of(w, h, tree), table.coefficients)
            due, words = Table(w, h, tree, carried), "%s from %s on %d by %d" % (tree, table.tree, w, h)
            check(over(grid, tree) == (due, 0), "carried to %s" % words)
            check(bytes_of(due) == grid, "the grid of what was carried to %s" % words)
            check(over(bytes_of(due), table.tree) == (table, 0), "and back from %s" % words)
            moved += due.coefficients != table.coefficients
    check(moved >= 40, "only %d trees moved a coefficient" % moved)


# The table of a grid by its readings at points, as document 02, Ten, tells coefficients, and held to the grid by
# truncation: neither has anything of the converter.
def by_readings(columns: Columns, grid: FullGrid) -> Optional[List[int]]:
    table = told_by(columns, grid.read)
    named = [(columns.surface.place(*f), coefficient_limit(f[0])) for f in columns.functions]
    if any(table[place].denominator != 1 or abs(table[place]) > limit for place, limit in named):
        return None
    whole = Table(grid.w, grid.h, quadtree.tree_of(columns.surface.levels), [int(number) for number in table])
    return whole.coefficients if written_out(whole, columns) == grid.numbers else None


# A number of a grid another: by a unit of some level, by one, or any.
def nudged(rng: Random, numbers: List[int]) -> List[int]:
    at, limit = rng.randrange(len(numbers)), coefficient_limit(FINEST)
    other = numbers[at] + rng.choice((1, -1, 64, -4_096, 64**3))
    return [*numbers[:at], min(max(other, -limit), limit), *numbers[at + 1 :]]


# 21 'is given in that case alone': over drawn trees, of grids of other trees' tables, of such with a number another,
# of drawn grids and of tables with coefficients in parts of units, the readings alone say the same.
def same_by_readings(check: Check) -> None:
    rng, tried = Random(74), Counter()
    for turn in range(20):
        w, h = rng.choice(((1, 1), (1, 1), (2, 1), (1, 2), (2, 2)))
        coarse = samples.random_table(rng, w, h, 1)
        if turn % 2:
            coarse = coarse._replace(coefficients=[number // 2 * 2 for number in coarse.coefficients])
        fine = samples.inserted(coarse, samples.random_box(rng, w, h), rng.choice((1, 2, 3)))
        other = samples.random_table(rng, w, h, 2)
        numbers = grids.carried_numbers(coarse.surface(), coarse.coefficients)
        halved = [number // 2 for number in numbers]
        mixed = grids.carried_numbers(other.surface(), other.coefficients)
        given = [("coarse", numbers), ("halved", halved), ("nudged", nudged(rng, numbers)), ("other", mixed),
                 ("drawn", list(drawn_grid(rng, w, h).numbers.values()))]
        for table in (coarse, fine, other):
            columns = Columns(table.surface())
            for name, one in given:
                due = by_readings(columns, full(Grid(w, h, one)))
                got = over(list(grids.grid_bytes(w, h, one)), table.tree)
                right = got == (None, 21) if due is None else got == (table._replace(coefficients=due), 0)
                check(right, "%s of %s over %s on %d by %d: %s" % (name, coarse.tree, table.tree, w, h, got[1]))
                tried[name, due is None] += 1
    for name in ("coarse", "halved", "nudged", "other"):
        check(min(tried[name, False], tried[name, True]) >= 5, "grids that were tried: %s" % dict(tried))
    check(tried["drawn", True] >= 5, "drawn grids that were tried: %s" % dict(tried))


# Grids are linear as tables are: over one tree sums of multiples of tables are those of their grids.
def linearity(check: Check) -> None:
    rng = Random(75)
    for w, h in SMALL_SHEETS[:8] + LARGE_SHEETS[:1]:
        levels = samples.random_levels(rng, w, h, 3)
        first, second = (samples.table_of(rng, w, h, levels, share=16) for _ in range(2))
        a, b = rng.randint(-7, 7), rng.randint(-7, 7)
        numbers = [grids.judge_grid(bytes_of(table)).numbers for table in (first, second)]
        mixed = [a * x + b * y for x, y in zip(*numbers)]
        due = [a * x + b * y for x, y in zip(first.coefficients, second.coefficients)]
        got = over(list(grids.grid_bytes(w, h, mixed)), first.tree)
        check(got == (first._replace(coefficients=due), 0), "%d and %d times grids on %d by %d" % (a, b, w, h))

"""Full grids of level 3 numbers, and what document 02, Ten, says of them: 'a grid converts to at most one table over a
tree'.

Document 02, Nine: 'plain bicubic grids: sheet, then every level 3 coefficient'. A number is one of 1/64^3 watt, and a
grid reads the sum of all its numbers times the level 3 functions.
"""
from __future__ import annotations

from random import Random
from typing import Dict, List, NamedTuple, Sequence

import calls
import samples
from properties import Check
from samples import Point, Table
from stopping import whole
from surface import FINEST, Function, Surface, carried_by, coefficient_limit, knot_indices, place_count
from uniqueness import PRIME, SIXTEENTH, Columns, finest_splines, grid, rank, told_by
from uniqueness_properties import columns_of_sheets, throughout


class FullGrid(NamedTuple):
    """A sheet and a number for each of its level 3 functions."""

    w: int
    h: int
    numbers: Dict[Function, int]

    # Numerators over D, which is 64^3 times the square of what level 3 splines are over.
    def read(self, points: Sequence[Point]) -> List[int]:
        return [sum(across * along * self.numbers[i, j] for j, along in finest_splines(v, self.h)
                    for i, across in finest_splines(u, self.w)) for u, v in points]


# The grid that reads as a table does: its numbers are the carried values of level 3.
def grid_of(table: Table) -> FullGrid:
    surface, carried = table.surface(), carried_by(table.surface(), table.coefficients)
    return FullGrid(table.w, table.h, {
        f: whole(carried(FINEST, *f) * 64**FINEST) for f in surface.functions(FINEST)})


# The same by truncation: each coefficient times its truncated function written out in level 3.
def written_out(table: Table, columns: Columns) -> Dict[Function, int]:
    numbers = [table.coefficients[columns.surface.place(*f)] for f in columns.functions]
    return {term: sum(weight * numbers[column] for column, weight in columns.terms.get(term, ()))
            for term in columns.surface.functions(FINEST)}


# A grid with any numbers up to the limit of level 3.
def drawn_grid(rng: Random, w: int, h: int) -> FullGrid:
    limit = coefficient_limit(FINEST)
    return FullGrid(w, h, {(i, j): rng.randint(-limit, limit) for j in knot_indices(h, FINEST)
                           for i in knot_indices(w, FINEST)})


# A grid has a table's readings exactly where its numbers are that table's carried values, and those tell its
# coefficients: by rank, and by what the grid's readings tell over the tree.
def grids(check: Check) -> None:
    rng = Random(66)
    for words, columns in columns_of_sheets():
        due, rows = len(columns.functions), map(dict, columns.terms.values())
        check(rank(rows, due, PRIME) == due, "the numbers of grids on " + words)
    for w, h in ((1, 1), (2, 1), (1, 2), (2, 2), (3, 2)):
        table = samples.random_table(rng, w, h)
        columns, one = Columns(table.surface()), grid_of(table)
        told = "the grid of %s on %d by %d" % (table.tree, w, h)
        check(len(one.numbers) == place_count(w, h, FINEST), "so many numbers has " + told)
        check(one.numbers == written_out(table, columns), "by truncation " + told)
        points = samples.random_points(rng, w, h, 40)
        check(one.read(points) == calls.exact_at(*table, points), "the readings of " + told)
        check(told_by(columns, one.read) == table.coefficients, "the one table of " + told)
        whole_sheet = Columns(Surface(*throughout(w, h, FINEST)[1:]))
        finest = told_by(whole_sheet, one.read)[-len(one.numbers) :]
        check(finest == list(one.numbers.values()), "level 3 throughout by " + told)
    none = 0
    for words, columns in columns_of_sheets():
        drawn = drawn_grid(rng, columns.surface.w, columns.surface.h)
        told = told_by(columns, drawn.read)
        points = grid(drawn.w, drawn.h, SIXTEENTH)
        read = [sum(number * told[columns.surface.place(*columns.functions[c])] for c, number in
                    columns.row(u, v).items()) for u, v in points[::7]]
        # What the readings tell is the only candidate. It has the grid's readings on level 3 throughout alone.
        fits = read == drawn.read(points[::7])
        check(fits == (len(columns.functions) == len(drawn.numbers)), "a drawn grid on " + words)
        none += not fits
    check(none >= 30, "only %d grids that no table reads as" % none)

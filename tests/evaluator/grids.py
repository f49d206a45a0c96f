"""Document 02, Nine: both converters of the full-grid dialect as pure functions of what the caller lends.

'Two kiln makers exchange plain bicubic grids: sheet, then every level 3 coefficient, as tags 1 and 19 only. Add
converters.' Outcomes are those of calls.py.

Which table a grid has over a tree is found by polar forms. Under each active function of level L lies a quarter square
of level L, and on it a table reads the sum of level L splines times carried values (document 02, Four), of which the
function's own is its coefficient. Of a sum of cubic splines each coefficient is the polar form of any one of its pieces
at the three knots inside the spline's support. So if any table over the tree has the grid's readings, each of its
coefficients is the polar form of a piece of the grid, whichever piece is taken: there is one candidate. It is the table
exactly where its numbers are whole and within their limits and it has the grid's readings, which is so where its
carried values of level 3 are the grid's numbers: level 3 functions are independent (document 02, Ten).
"""
from __future__ import annotations

from functools import lru_cache
from typing import Dict, List, NamedTuple, Optional, Sequence, Tuple, Union

import calls
import tree as quadtree
from calls import Outcome, refused
from surface import FINEST, LEVELS, TWO_SCALE_WEIGHTS, Function, Surface, cell_count, coefficient_limit, knot_indices
from surface import place_count, side_allowed, total_places
from tablefile import COEFFICIENT_BYTES, HEAD, SIDES_BYTES, TAG_LEVEL_0, TAG_SIDES, Reader, Refused, coefficient_bytes
from tablefile import field, level_coefficients

NO_TABLE = 21
TAG_GRID = TAG_LEVEL_0 + FINEST
# No grid is longer: 5 bytes for the sides, a head, and 5 for each of 67 by 67 numbers.
GREATEST_GRID = 22_453
# The splines over a cell as cubics in t, by their coefficients of 1, t, t^2 and t^3, each over 6.
CUBICS = ((1, -3, 3, -1), (4, 0, -6, 3), (1, 3, 3, -3), (0, 0, 0, 1))


class Grid(NamedTuple):
    """A sheet and its level 3 coefficients, in slice order."""

    w: int
    h: int
    numbers: List[int]


class Shown(NamedTuple):
    """An active function: its place in the slice, its level, and a level 3 cell that tells its coefficient."""

    place: int
    level: int
    function: Function
    cell: Tuple[int, int]


# The length of a sheet's grid in bytes.
def grid_length(w: int, h: int) -> int:
    return HEAD + SIDES_BYTES + HEAD + COEFFICIENT_BYTES * place_count(w, h, FINEST)


# 'sheet, then every level 3 coefficient, as tags 1 and 19 only'.
def grid_bytes(w: int, h: int, numbers: Sequence[int]) -> bytes:
    return field(TAG_SIDES, [w, h]) + field(TAG_GRID, b"".join(map(coefficient_bytes, numbers)))


# A grid judged as far as 15, in byte order as document 01 judges a file, or the refusal number. 'Grid coefficients past
# their limit give 4.'
def judge_grid(file: Sequence[int]) -> Union[Grid, int]:
    reader = Reader(bytes(file))
    try:
        w, h = reader.body(TAG_SIDES, SIDES_BYTES, SIDES_BYTES)
        if not (side_allowed(w) and side_allowed(h)):
            raise Refused(1)
        length = COEFFICIENT_BYTES * place_count(w, h, FINEST)
        numbers = level_coefficients(reader.body(TAG_GRID, length, length), FINEST)
        if reader.at != len(reader.file):
            raise Refused(15)
    except Refused as cause:
        return cause.number
    return Grid(w, h, numbers)


# The functions of the next coarser level along one side that have a function among their children, with the weights.
@lru_cache(maxsize=None)
def parents_along(side: int, level: int, i: int) -> List[Tuple[int, int]]:
    return [(p, TWO_SCALE_WEIGHTS[i - 2 * p]) for p in knot_indices(side, level - 1) if 0 <= i - 2 * p <= 4]


# Document 01: the carried values of level 3 in units of 1/64^3 watt. In units of each level the two-scale weights over
# 8 in each direction are whole. Functions that are refined away have a passive 0 here, and no sum takes it.
def carried_numbers(surface: Surface, coefficients: Sequence[int]) -> List[int]:
    carried: Dict[Function, int] = {}
    for level in LEVELS:
        coarser, carried = carried, {}
        for i, j in surface.functions(level):
            if surface.lies_in_region(level, level, i, j):
                carried[i, j] = coefficients[surface.place(level, i, j)]
            else:
                across = parents_along(surface.w, level, i)
                carried[i, j] = sum(b * sum(a * coarser[pi, pj] for pi, a in across)
                                    for pj, b in parents_along(surface.h, level, j))
    return list(carried.values())


# The cells of level 3 under a cut support along one side.
def cells_under(side: int, level: int, i: int) -> range:
    parts = 2 ** (FINEST - level)
    return range(max(0, parts * i), min(parts * (i + 4), cell_count(side, FINEST)))


# For each active function a cell under it in a quarter square of its own level: the last one that there is.
@lru_cache(maxsize=32)
def shown_in(surface: Surface) -> List[Shown]:
    found = []
    for level in LEVELS:
        for i, j in surface.active_functions(level):
            across, along = cells_under(surface.w, level, i), cells_under(surface.h, level, j)
            cell = next((x, y) for y in reversed(along) for x in reversed(across)
                        if surface.levels[y // 2][x // 2] == level)
            found.append(Shown(surface.place(level, i, j), level, (i, j), cell))
    return found


# By which four numbers of level 3 along one side are multiplied for the coefficient of a level's function that starts
# so many level 3 cells from theirs on, both in their own units, and what the products are over. The polar form of 1, t,
# t^2 and t^3 at three places is 1, a third of their sum, a third of the sum of their products in pairs, their product.
@lru_cache(maxsize=None)
def multipliers(level: int, start: int) -> Tuple[List[int], int]:
    parts = 2 ** (FINEST - level)
    a, b, c = (start + parts * knot for knot in (1, 2, 3))
    forms = 3, a + b + c, a * b + a * c + b * c, 3 * a * b * c
    return [sum(x * y for x, y in zip(cubic, forms)) for cubic in CUBICS], 18 * 8 ** (FINEST - level)


# The coefficient of a function by a piece of a grid, in units of its level: the whole part, and what is left over.
def told(shown: Shown, grid: Grid) -> Tuple[int, int]:
    (x, y), parts = shown.cell, 2 ** (FINEST - shown.level)
    across, over_u = multipliers(shown.level, parts * shown.function[0] - x)
    along, over_v = multipliers(shown.level, parts * shown.function[1] - y)
    row = len(knot_indices(grid.w, FINEST))
    total = 0
    for m, b in enumerate(along):
        first = (y + m) * row + x
        total += b * sum(a * number for a, number in zip(across, grid.numbers[first : first + 4]))
    return divmod(total, over_u * over_v)


# 'the table over those regions with the same exact reading at every point', or none.
def table_over(surface: Surface, grid: Grid) -> Optional[List[int]]:
    coefficients = [0] * surface.total
    for shown in shown_in(surface):
        number, left = told(shown, grid)
        if left or abs(number) > coefficient_limit(shown.level):
            return None
        coefficients[shown.place] = number
    return coefficients if carried_numbers(surface, coefficients) == grid.numbers else None


# 'Towards the grid, every acceptable table converts', 'the grid's length in bytes is returned', '18, judged last; bytes
# past the grid are untouched'; 1 to 5, 18. Answer ('ok', length); lent tree, coefficients and grid_out.
def write_grid(w: int, h: int, tree: Sequence[int], coefficients: Sequence[int], grid_out: Sequence[int]) -> Outcome:
    lent = {"tree": list(tree), "coefficients": list(coefficients), "grid_out": list(grid_out)}
    cause = calls.judge_table(w, h, tree, coefficients)
    if cause is None and len(grid_out) < grid_length(w, h):
        cause = 18
    if cause is not None:
        return Outcome(refused(cause), lent)
    grid = grid_bytes(w, h, carried_numbers(calls.surface_of(w, h, tree), coefficients))
    lent["grid_out"] = list(grid) + lent["grid_out"][len(grid) :]
    return Outcome(("ok", len(grid)), lent)


# 'From a grid, the caller lends the wanted tree and a coefficient slice', 'W and H are returned'; the grid's own
# causes, then the tree's 2, then '21, no acceptable table over that tree has those readings, after the checks of both
# inputs, the grid's first, and before 16'. Answer ('ok', W, H); lent grid, tree and coefficients_out.
def read_grid(file: Sequence[int], tree: Sequence[int], coefficients_out: Sequence[int]) -> Outcome:
    lent = {"grid": list(file), "tree": list(tree), "coefficients_out": list(coefficients_out)}
    grid = judge_grid(file)
    if isinstance(grid, int):
        return Outcome(refused(grid), lent)
    surface = quadtree.surface_over(grid.w, grid.h, tuple(tree))
    if surface is None:
        return Outcome(refused(2), lent)
    coefficients = table_over(surface, grid)
    if coefficients is None:
        return Outcome(refused(NO_TABLE), lent)
    if len(coefficients_out) != total_places(grid.w, grid.h):
        return Outcome(refused(16), lent)
    return Outcome(("ok", grid.w, grid.h), {**lent, "coefficients_out": coefficients})

"""Misreadings of the converter from a grid, each with the cases that show it; and other ways that give the same."""
from __future__ import annotations

from random import Random
from typing import Callable, Dict, List, NamedTuple, Optional, Sequence, Tuple, Union

import calls
import grid_cases
import grids
import samples
import tree as quadtree
from calls import Outcome
from grids import Grid, Shown
from properties import Check
from samples import Table
from surface import FINEST, Surface, coefficient_limit, knot_indices, total_places

# The grid's own causes among those of a call.
OWN = 0


# Numbers of columns, one after the other, in the stead of rows.
def columns_first(w: int, h: int, numbers: Sequence[int]) -> List[int]:
    wide, high = len(knot_indices(w, FINEST)), len(knot_indices(h, FINEST))
    return [numbers[b * wide + a] for a in range(wide) for b in range(high)]


# A grid in byte order, with so many bytes after it passed over where they start with one of these; or with a field
# passed over between its two; or with numbers past their limit.
def judged(after: bytes = b"", between: bytes = b"", past: bool = False) -> Callable[[bytes], Union[Grid, int]]:
    def judge(file: bytes) -> Union[Grid, int]:
        if between and file[5:6] == between:
            end = 8 + int.from_bytes(file[6:8], "big")
            file = file[:5] + file[end:]
        found = grids.judge_grid(file)
        length = grids.grid_length(*file[3:5]) if found in (4, 15) else 0
        if found == 15 and file[length : length + 1] in [bytes([one]) for one in after]:
            return judge(file[:length])
        if found == 4 and past:
            body = file[8:length]
            numbers = [int.from_bytes(body[at : at + 5], "big", signed=True) for at in range(0, len(body), 5)]
            return Grid(file[3], file[4], numbers)
        return found
    return judge


# The piece that tells a coefficient taken in a quarter square of this level or a higher one, the highest there is.
def in_higher(surface: Surface) -> List[Shown]:
    found = []
    for one in grids.shown_in(surface):
        cells = [(x, y) for y in grids.cells_under(surface.h, one.level, one.function[1])
                 for x in grids.cells_under(surface.w, one.level, one.function[0])]
        found.append(one._replace(cell=max(cells, key=lambda at: surface.levels[at[1] // 2][at[0] // 2])))
    return found


# The same in the first quarter square of the level, by rows: another piece, which tells the same.
def in_first(surface: Surface) -> List[Shown]:
    found = []
    for one in grids.shown_in(surface):
        cells = ((x, y) for y in grids.cells_under(surface.h, one.level, one.function[1])
                 for x in grids.cells_under(surface.w, one.level, one.function[0]))
        found.append(one._replace(cell=next(
            at for at in cells if surface.levels[at[1] // 2][at[0] // 2] == one.level)))
    return found


def same_numbers(surface: Surface, coefficients: Sequence[int], grid: Grid) -> bool:
    return grids.carried_numbers(surface, coefficients) == grid.numbers


# Whether the numbers of those level 3 functions alone are right that a rule picks by their place in the grid.
def at_places(picked: Callable[[Surface, int, int], bool]) -> Callable[[Surface, Sequence[int], Grid], bool]:
    def fits(surface: Surface, coefficients: Sequence[int], grid: Grid) -> bool:
        pairs = zip(surface.functions(FINEST), grids.carried_numbers(surface, coefficients), grid.numbers)
        return all(number == due for (i, j), number, due in pairs if picked(surface, i, j))
    return fits


# Whether each number is within so many units of what is due.
def within(units: int) -> Callable[[Surface, Sequence[int], Grid], bool]:
    def fits(surface: Surface, coefficients: Sequence[int], grid: Grid) -> bool:
        pairs = zip(grids.carried_numbers(surface, coefficients), grid.numbers)
        return all(abs(number - due) <= units for number, due in pairs)
    return fits


class Reading(NamedTuple):
    """How a grid is converted over a tree, as document 02 has it; any other setting is a misreading, or gives the
    same."""

    order: Tuple[int, ...] = (OWN, 2, 21, 16)
    judge: Callable[[bytes], Union[Grid, int]] = grids.judge_grid
    shown: Callable[[Surface], List[Shown]] = grids.shown_in
    rounded: Optional[int] = None
    limit: Callable[[int], float] = coefficient_limit
    past: int = 21
    fits: Callable[[Surface, Sequence[int], Grid], bool] = same_numbers
    passive: Callable[[Table, Grid], List[int]] = lambda table, grid: table.coefficients
    turned: bool = False
    refused_writes: bool = False


def nothing(surface: Surface, coefficients: Sequence[int], grid: Grid) -> bool:
    return True


# The carried values of level 3 at its passive places too.
def not_cleared(table: Table, grid: Grid) -> List[int]:
    return [*table.coefficients[: -len(grid.numbers)], *grid.numbers]


READING_MISREADINGS = {
    "21 but over level 3 throughout": Reading(fits=lambda surface, coefficients, grid: (
        {*surface.limits()} <= {None, coefficient_limit(FINEST)})),
    "the nearest table": Reading(rounded=2, fits=nothing),
    "fractions rounded, a watt off": Reading(rounded=2, fits=within(64**FINEST)),
    "fractions rounded, a unit off": Reading(rounded=2, fits=within(1)),
    "fractions cut off": Reading(rounded=1, fits=nothing),
    "what the pieces tell, no more looked at": Reading(fits=nothing),
    "rows under coarse regions not looked at": Reading(fits=at_places(lambda surface, i, j: (
        surface.active(FINEST, i, j)))),
    "the last row not looked at": Reading(fits=at_places(lambda surface, i, j: j + 1 < 8 * surface.h)),
    "the last of a row not looked at": Reading(fits=at_places(lambda surface, i, j: i + 1 < 8 * surface.w)),
    "the first row not looked at": Reading(fits=at_places(lambda surface, i, j: j > -3)),
    "every other number looked at": Reading(fits=at_places(lambda surface, i, j: (i + j) % 2 == 0)),
    "a piece in a higher region": Reading(shown=in_higher),
    "a coefficient past its limit taken": Reading(limit=lambda level: float("inf")),
    "one past the limit taken": Reading(limit=lambda level: coefficient_limit(level) + (level < FINEST)),
    "the limit itself not taken": Reading(limit=lambda level: coefficient_limit(level) - 1),
    "level 3's limit for each level": Reading(limit=lambda level: coefficient_limit(FINEST)),
    "4 for a coefficient past its limit": Reading(past=4),
    "21 before 2": Reading(order=(OWN, 21, 2, 16)),
    "16 before 21": Reading(order=(OWN, 2, 16, 21)),
    "16 before 2": Reading(order=(OWN, 16, 2, 21)),
    "16 first": Reading(order=(16, OWN, 2, 21)),
    "2 before the grid": Reading(order=(2, OWN, 21, 16)),
    "2 last": Reading(order=(OWN, 16, 21, 2)),
    "a note passed over": Reading(judge=judged(after=b"\x20")),
    "any bytes passed over": Reading(judge=judged(after=bytes(range(256)))),
    "counts passed over": Reading(judge=judged(between=b"\3")),
    "numbers past their limit taken": Reading(judge=judged(past=True), limit=lambda level: float("inf")),
    "21 for numbers past their limit": Reading(judge=judged(past=True)),
    "columns first": Reading(turned=True),
    "passive places not cleared": Reading(passive=not_cleared),
    "a refused call that writes": Reading(refused_writes=True),
}
# Ways that are right too: another piece tells the same, and once readings are compared no remainder needs to be.
ALSO_RIGHT = {
    "the first piece": Reading(shown=in_first),
    "fractions rounded, then compared": Reading(rounded=2),
    "fractions cut off, then compared": Reading(rounded=1),
}


# What a way gives over a tree's regions: coefficients, or a number.
def table_by(way: Reading, surface: Surface, grid: Grid) -> Union[List[int], int]:
    coefficients = [0] * surface.total
    for one in way.shown(surface):
        number, left = grids.told(one, grid)
        if left:
            if way.rounded is None:
                return 21
            over = grids.multipliers(one.level, 0)[1] ** 2
            number += left * way.rounded // (2 * over) if way.rounded == 2 else 0
        if abs(number) > way.limit(one.level):
            return way.past
        coefficients[one.place] = number
    return coefficients if way.fits(surface, coefficients, grid) else 21


def read_by(way: Reading, file: bytes, tree: List[int], out: List[int]) -> Outcome:
    lent = {"grid": list(file), "tree": tree, "coefficients_out": out}
    grid = way.judge(file)
    causes = {OWN: grid if isinstance(grid, int) else None}
    # A tree that is no tree on any sheet is told before the grid is known to be one.
    anywhere = quadtree.surface_over(8, 8, tuple(tree)) is None
    causes[2] = 2 if isinstance(grid, int) and anywhere else None
    causes[16] = 16 if isinstance(grid, int) and len(out) not in (211, 6_196) else None
    table: Union[List[int], int] = 21
    if not isinstance(grid, int):
        surface = quadtree.surface_over(grid.w, grid.h, tuple(tree))
        if way.turned:
            grid = grid._replace(numbers=columns_first(grid.h, grid.w, grid.numbers))
        causes[2] = 2 if surface is None else None
        causes[16] = 16 if len(out) != total_places(grid.w, grid.h) else None
        table = 21 if surface is None else table_by(way, surface, grid)
    causes[21] = table if isinstance(table, int) else None
    cause = next((causes[number] for number in way.order if causes[number] is not None), None)
    if cause is None:
        found = way.passive(Table(grid.w, grid.h, tree, table), grid)
        return Outcome(("ok", grid.w, grid.h), {**lent, "coefficients_out": found})
    if way.refused_writes and cause == 21:
        lent["coefficients_out"] = [0] * len(out)
    return Outcome(calls.refused(cause), lent)


Asked = Tuple[bytes, List[int], List[int]]


# What is converted, by the groups that misreadings show on: grids that a table has, grids that none has, and refusals.
def asked() -> Dict[str, List[Asked]]:
    found: Dict[str, List[Asked]] = {"tables": [], "none": [], "refusals": []}
    rng, cases = Random(76), grid_cases.cases()
    few = [*grid_cases.corners(), *grid_cases.other_trees(), *cases[:: 7], *cases[-160 :: 3]]
    for case in few:
        given = grids.grid_bytes(*case[1:4]), case.tree, [7] * total_places(case.w, case.h)
        found["none" if case.due is None else "tables"].append(given)
    for w, h in ((1, 1), (2, 1), (3, 2)):
        table = samples.random_table(rng, w, h)
        numbers = grids.carried_numbers(table.surface(), table.coefficients)
        found["tables"].append((grids.grid_bytes(w, h, numbers), table.tree, [7] * len(table.coefficients)))
    for _, _, file in grid_cases.faults():
        found["refusals"] += [(file[:2_000], tree, [7] * n) for tree, n in (([0], 211), ([5], 211), ([0], 210))]
    for _, file, tree, more, _ in grid_cases.in_order():
        if len(file) < grids.GREATEST_GRID:
            found["refusals"].append((file, tree, [7] * (total_places(*file[3:5]) + more)))
    return found


# Where a grid that none has is taken, its refusals with 16 become 16, and the one of a single number is among them.
TAKEN = ["none", "refusals"]
SHOWN_ON: Dict[str, List[str]] = {
    **{name: ["none"] for name in READING_MISREADINGS},
    **{name: ["refusals"] for name in READING_MISREADINGS if "before" in name or "passed over" in name},
    **{name: ["refusals"] for name in ("16 first", "2 last", "21 for numbers past their limit")},
    **{name: TAKEN for name in READING_MISREADINGS if "fractions" in name},
    "21 but over level 3 throughout": ["refusals", "tables"],
    "the nearest table": TAKEN,
    "what the pieces tell, no more looked at": TAKEN,
    "rows under coarse regions not looked at": TAKEN,
    "the first row not looked at": TAKEN,
    "a piece in a higher region": ["tables"],
    "the limit itself not taken": ["tables"],
    "passive places not cleared": ["tables"],
    "numbers past their limit taken": TAKEN,
    "columns first": ["none", "tables"],
    "a refused call that writes": TAKEN,
}


# On which of them each misreading gives another outcome than document 02.
def reading_misreadings(check: Check) -> None:
    groups = {name: [(one, grids.read_grid(*one)) for one in given] for name, given in asked().items()}
    check(min(map(len, groups.values())) >= 40, "so many: %s" % {name: len(one) for name, one in groups.items()})

    def failing(way: Reading) -> List[str]:
        return sorted(name for name, given in groups.items() if any(read_by(way, *one) != due for one, due in given))

    for name, way in {"as published": Reading(), **ALSO_RIGHT}.items():
        check(failing(way) == [], "converting, %s" % name)
    for name, way in READING_MISREADINGS.items():
        shown = failing(way)
        check(shown == SHOWN_ON[name], "%s shows on %s" % (name, shown))

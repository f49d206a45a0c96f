"""Misreadings of which readings tell a coefficient, each with the small sheets that show it."""
from __future__ import annotations

from functools import lru_cache
from random import Random
from typing import Callable, Dict, List, NamedTuple, Set

from properties import Check
from samples import Point
from surface import FINEST, NEXT_LEVEL, PUBLISHED, UNTRUNCATED, Rules, Surface
from uniqueness import (
    CELL_STEPS,
    EIGHTH,
    OFFSETS,
    Cell,
    Columns,
    Named,
    cells_of,
    grid,
    level_of,
    points_around,
    points_in,
    rank,
    tells,
)
from uniqueness_properties import Sheet, boxed, throughout

# So many functions of a sheet are tried.
TRIED = 6

SHEETS: Dict[str, Sheet] = {
    "level 0": throughout(1, 1, 0),
    "level 3": throughout(1, 1, 3),
    "levels 1 and 0": boxed("", 2, 1, ((0, 0, 4, 4), 1)),
    "levels 3 and 0": boxed("", 2, 1, ((0, 0, 4, 4), 3)),
    "levels 3 and 2": boxed("", 1, 1, ((0, 0, 4, 4), 2), ((0, 0, 2, 4), 3)),
}


# Document 01: 'support between L-cell edges i and i+4, j and j+4'.
def under(function: Named, cell: Cell) -> bool:
    level, *place = function
    return all(first <= at // 2 ** (FINEST - level) < first + 4 for first, at in zip(place, cell))


# Whether some cell of the cell's quarter square lies under the support.
def quarter_under(function: Named, cell: Cell) -> bool:
    x, y = (2 * (place // 2) for place in cell)
    return any(under(function, (x + a, y + b)) for a in (0, 1) for b in (0, 1))


class Way(NamedTuple):
    """Which cells tell a function's coefficient, at which points, and by which rules functions are read; any other
    setting is a misreading."""

    points: Callable[[Cell], List[Point]] = points_in
    shows: Callable[[Surface, Named, Cell], bool] = lambda surface, function, cell: (
        under(function, cell) and level_of(surface, cell) == function[0])
    rules: Rules = PUBLISHED


MISREADINGS = {
    "three points along each side": Way(points=lambda cell: points_in(cell, OFFSETS[:3])),
    "three points along u": Way(points=lambda cell: [point for point in points_in(cell) if point[0] % CELL_STEPS]),
    "sixteen points in a row": Way(points=lambda cell: [
        (CELL_STEPS * cell[0] + more, CELL_STEPS * cell[1]) for more in range(CELL_STEPS)]),
    "sixteen points in a diagonal": Way(points=lambda cell: [
        (CELL_STEPS * cell[0] + more, CELL_STEPS * cell[1] + more) for more in range(CELL_STEPS)]),
    "a quarter square of a higher level": Way(shows=lambda surface, function, cell: (
        under(function, cell) and level_of(surface, cell) >= function[0])),
    "a cell beside the support": Way(shows=lambda surface, function, cell: (
        quarter_under(function, cell) and level_of(surface, cell) == function[0])),
    "a quarter square without its far edges": Way(points=lambda cell: [
        (u, v) for u, v in points_around(cell) if u < 32 * (cell[0] // 2 + 1) and v < 32 * (cell[1] // 2 + 1)]),
    "no truncation": Way(rules=Rules(truncation=UNTRUNCATED)),
    "truncation against the next level only": Way(rules=Rules(truncation=NEXT_LEVEL)),
}
EVERY, MIXED = {*SHEETS}, {"levels 1 and 0", "levels 3 and 0", "levels 3 and 2"}
SHOWN_ON: Dict[str, Set[str]] = {
    **{name: EVERY for name in MISREADINGS if "points" in name},
    # Where one level stands throughout there is no higher one, and nothing to truncate.
    "a quarter square of a higher level": MIXED,
    # Only at level 3 does a support end inside a quarter square, and do five functions along a side reach over it.
    "a cell beside the support": {name for name in SHEETS if "3" in name},
    "a quarter square without its far edges": {name for name in SHEETS if "3" in name},
    "no truncation": MIXED,
    # Right where a level meets the next.
    "truncation against the next level only": {"levels 3 and 0"},
}


@lru_cache(maxsize=None)
def columns_on(title: str, rules: Rules) -> Columns:
    return Columns(Surface(*SHEETS[title][1:], rules))


# Whether every function that is tried is told in the cell where it is tried. Cells that the published rule does not
# name are tried first, and functions that have such a cell.
def holds(way: Way, title: str) -> bool:
    rng, columns = Random(67), columns_on(title, way.rules)
    row = columns.row if way.rules == PUBLISHED else columns.row_by_values
    tried = []
    for function in columns.functions:
        cells = [cell for cell in cells_of(columns.surface) if way.shows(columns.surface, function, cell)]
        others = [cell for cell in cells if not Way().shows(columns.surface, function, cell)]
        tried.append((not others, rng.random(), function, rng.choice(others or cells)))
    return all(tells([row(u, v) for u, v in way.points(cell)], columns.at[function])
               for _, _, function, cell in sorted(tried)[:TRIED])


# On which sheets each misreading leaves a coefficient untold; and by which rules readings are others than published.
def told_misread(check: Check) -> None:
    for title in SHEETS:
        check(holds(Way(), title), "the sixteen points of a cell on " + title)
    for name, way in MISREADINGS.items():
        failing = {title for title in SHEETS if not holds(way, title)}
        check(failing == SHOWN_ON[name], "%s shows on %s" % (name, sorted(failing)))
    for name in ("no truncation", "truncation against the next level only"):
        for title in SHEETS:
            misread, columns = columns_on(title, MISREADINGS[name].rules), columns_on(title, PUBLISHED)
            points = points_in((6, 3)) + points_in((1, 7))
            differs = any(columns.row(u, v) != misread.row_by_values(u, v) for u, v in points)
            check(differs == (title in SHOWN_ON[name]), "readings with %s on %s" % (name, title))


# Functions that are refined away are sums of finer ones: with both level 0 and level 1 throughout, the columns of the
# 16 and of the 25 have no more than the rank of the 25. So passive places would be told by nothing; they hold 0.
def refined_away(check: Check) -> None:
    surface = columns_on("level 0", PUBLISHED).surface
    named = [(level, i, j) for level in (0, 1) for i, j in surface.functions(level)]
    check([level for level, *_ in named] == [0] * 16 + [1] * 25, "functions of both levels")
    rows = [{column: surface.untruncated_value(*f, u, v) for column, f in enumerate(named)}
            for u, v in grid(1, 1, EIGHTH)]
    check(rank(rows) == 25, "both levels together")
    check(not any(tells(rows, column) for column in (0, 15, 16, 40)), "neither level is told beside the other")
    for level, due in ((0, 16), (1, 25)):
        part = [{column: a for column, a in row.items() if named[column][0] == level} for row in rows]
        check(rank(part) == due, "level %d by itself" % level)

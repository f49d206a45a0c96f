"""Holds examples/grid.c, or rust/examples/grid.rs, as each of the given programs, to the evaluator: its text, its
errors, its exit status and the grid that it writes. Which table has a grid's readings over a tree is found here from
what those readings tell, coefficient by coefficient.

Run as: python3 tests/hands/check_grid.py [--rust] PROGRAM...
"""
from __future__ import annotations

import sys
import tempfile
from collections import Counter
from fractions import Fraction
from functools import lru_cache
from pathlib import Path
from random import Random
from typing import Dict, List, NamedTuple, Optional, Sequence, Tuple, Union

from check_dot import files
from expected import ROOT
from runs import Run, differing, in_rust, unwritten
from rust_words import refusal_words

import calls
import samples
import tablefile
import tree as quadtree
from full_grids import FullGrid, grid_of
from samples import Table
from surface import FINEST, LEVELS, QUARTERS_PER_CELL
from uniqueness import cells_that_show, coefficient_told, points_in

NEEDED = """grid: two arguments are needed, or three: TABLE GRID [OTHER]
  TABLE   a table file
  GRID    a name for the file of its grid
  OTHER   a table file over whose tree the grid is read too
"""
NEEDED_IN_RUST = 'Error: "needs a table file and a name for its grid, and another table file for its tree"\n'
# What the runs with another table must show: its own coefficients and others; each cause of 21; a tree that is none of
# the sheet, and another sheet's that is; a table file that is refused.
SHOWN = ("the same", "others", "not whole", "past a limit", "another surface", "2", "another sheet", "file refused")


class Due(NamedTuple):
    """A run, and the grid that it must leave in its second argument's file, or None for no file."""

    run: Run
    grid: Optional[bytes]


# Document 02, Nine: 'sheet, then every level 3 coefficient, as tags 1 and 19 only'.
def grid_bytes(grid: FullGrid) -> bytes:
    body = b"".join(tablefile.coefficient_bytes(grid.numbers[i, j])
                    for j in range(-3, 8 * grid.h) for i in range(-3, 8 * grid.w))
    return tablefile.field(tablefile.TAG_SIDES, [grid.w, grid.h]) + tablefile.field(19, body)


# The coefficients that a grid's readings tell over a tree, each from a cell that shows its function.
def told_over(grid: FullGrid, tree: Sequence[int]) -> List[Fraction]:
    surface = calls.surface_of(grid.w, grid.h, tree)
    told, read = [Fraction(0)] * surface.total, {}
    for level in LEVELS:
        for i, j in surface.active_functions(level):
            cell = cells_that_show(surface, (level, i, j))[0]
            if cell not in read:
                read[cell] = grid.read(points_in(cell))
            told[surface.place(level, i, j)] = coefficient_told((level, i, j), cell, read[cell])
    return told


# 'the table over those regions with the same exact reading at every point', or why none is acceptable. No other
# coefficients than those told can have the readings.
def converted(grid: FullGrid, tree: Sequence[int]) -> Union[Table, str]:
    told = told_over(grid, tree)
    if any(number.denominator != 1 for number in told):
        return "not whole"
    table = Table(grid.w, grid.h, list(tree), [number.numerator for number in told])
    limits = table.surface().limits()
    if any(limit is not None and abs(number) > limit for limit, number in zip(limits, table.coefficients)):
        return "past a limit"
    return table if grid_of(table) == grid else "another surface"


def line(whose: str, table: Table, same: bool, expected: str) -> str:
    as_due = "the coefficients of" if same else "other coefficients than"
    return f"{whose:13} {table.w} by {table.h} cells, tree length {len(table.tree)}, {as_due} {expected}"


# The table of a file, its grid, and what is printed of both over the table's own tree and over level 3 throughout; or
# the number that the file is refused with. Files are taken several times, each with another table.
@lru_cache(maxsize=None)
def over_own(file: bytes) -> Union[Tuple[Table, FullGrid, List[str]], int]:
    content = tablefile.judge(file)
    if isinstance(content, int):
        return content
    table = Table(*content)
    grid, (w, h) = grid_of(table), (table.w, table.h)
    own = converted(grid, table.tree)
    whole = (0, 0, QUARTERS_PER_CELL * w, QUARTERS_PER_CELL * h)
    finest = converted(grid, quadtree.insert_box(table.tree, w, h, whole, FINEST))
    lines = [f"sheet:        {w} by {h} cells",
             f"grid:         {8 + 5 * (8 * w + 3) * (8 * h + 3)} bytes, {8 * w + 3} by {8 * h + 3} coefficients",
             line("own tree:", own, own == table, "the table"),
             line("level 3 tree:", finest, finest.coefficients[-len(grid.numbers) :] == [*grid.numbers.values()],
                  "the grid")]
    return table, grid, lines


# What the program must print and its exit status; the grid that it must write; and what another table shows.
def expected(file: bytes, other: Optional[bytes]) -> Tuple[List[str], int, Optional[bytes], str]:
    def refused(number: int, shown: str = "") -> Tuple[List[str], int, Optional[bytes], str]:
        return lines + [f"refused {number}: {refusal_words()[number]}"], number, written, shown

    lines, written, found = [], None, over_own(file)
    if isinstance(found, int):
        return refused(found)
    _, grid, lines = found
    written = grid_bytes(grid)
    if other is None:
        return lines, 0, written, ""
    wanted = tablefile.judge(other)
    if isinstance(wanted, int):
        return refused(wanted, "file refused")
    if quadtree.level_map(wanted.tree, grid.w, grid.h) is None:
        return refused(2, "2")
    made = converted(grid, wanted.tree)
    if isinstance(made, str):
        return refused(21, made)
    same = made == Table(*wanted)
    shown = "the same" if same else "others" if (wanted.w, wanted.h) == (grid.w, grid.h) else "another sheet"
    return lines + [line("other tree:", made, same, "the other table")], 0, written, shown


# Tables by their names, beside those of files(): flat ones, refined copies, and ones that no coarser tree has.
def more_tables() -> Dict[str, bytes]:
    rng, whole = Random(53), (0, 0, 4, 4)
    flat, s = samples.fresh_table(1, 1, 0), samples.bench_s()
    level_1 = samples.inserted(flat, whole, 1)
    corner = flat._replace(coefficients=[32_000, *flat.coefficients[1:]])
    past = samples.inserted(corner, whole, 1)
    one = samples.inserted(flat._replace(coefficients=[1, *flat.coefficients[1:]]), whole, 1)
    plain = samples.table_of(rng, 3, 5, samples.levels_by(lambda u, v: 0))
    finer = samples.inserted(samples.inserted(plain, (1, 2, 7, 9), 2), (5, 0, 12, 20), 3)
    made = {
        "flat": flat, "flat-3-by-5": samples.fresh_table(3, 5, 0), "plain": plain, "finer": finer,
        # 1/64 watt throughout, and 32,001 watts at one function of level 0, written in level 1.
        "sixty-fourth": level_1._replace(coefficients=[int(16 <= k < 41) for k in range(211)]),
        "past": past._replace(coefficients=[a + b for a, b in zip(past.coefficients, one.coefficients)]),
        "s-level-2": samples.inserted(s, whole, 2),
    }
    return {name: tablefile.write_file(*table) for name, table in made.items()}


# The other tables that each is read over, by their names; each is also read over a table that is drawn.
PAIRS = {
    "bench-s": ("flat", "s-level-2", "kiln-unrefined", "speckled-1-by-1", "empty"),
    "s-level-2": ("bench-s", "flat", "cut"), "sixty-fourth": ("flat", "sixty-fourth"), "past": ("flat", "s-level-2"),
    "plain": ("finer", "flat-3-by-5", "speckled-3-by-5"), "finer": ("plain", "flat-3-by-5", "boxes-3-by-5"),
    "kiln-refined-near-top-heat": ("kiln-unrefined", "kiln-fitted-near-top-heat", "bench-s", "tree", "tag"),
    "kiln-fitted-near-top-heat": ("kiln-unrefined", "kiln-refined-near-top-heat", "bench-s-level-1"),
    "kiln-unrefined": ("kiln-refined-near-top-heat", "bench-s-level-1", "boxes-8-by-8", "count", "note"),
    "cut": ("bench-s",), "empty": ("empty",),
}


# The runs on each table, alone and with others; those whose arguments are too few or too many; files that can't be
# read or written. And how often each thing was shown.
def runs(room: Path) -> Tuple[List[Due], "Counter[str]"]:
    made, among, rng, known = [], Counter(), Random(59), {**files(), **more_tables()}
    written = str(room / "given.grid")
    for name, file in known.items():
        (room / name).write_bytes(file)
    for name, file in known.items():
        for other in (None, *PAIRS.get(name, ()), rng.choice([*known])):
            lines, status, grid, shown = expected(file, known[other] if other else None)
            among[shown] += 1
            arguments = [str(room / name), written] + ([str(room / other)] if other else [])
            made.append(Due(Run(arguments, "\n".join(lines) + "\n", "", status), grid))
    s, sheet = str(room / "bench-s"), "sheet:        1 by 1 cells\n"
    made += [Due(Run(given, "", NEEDED, 255), None) for given in ([], [s], [s, written, s, s])]
    for path, why in ((room / "none", "No such file or directory"), (room, "Is a directory")):
        for given, what in (([str(path), written], "table"), ([s, written, str(path)], "other table")):
            made.append(Due(Run(given, "", f"grid: the {what} file '{path}' can't be read: {why}\n", 255), None))
    for path, why in ((room / "none/a.grid", "No such file or directory"), (room, "Is a directory")):
        told = f"grid: the grid file '{path}' can't be written: {why}\n"
        made.append(Due(Run([s, str(path)], sheet, told, 255), None))
    return made, among


# How many runs gave something else, or left another file in their second argument's place.
def wrong_runs(programs: Sequence[str], due: Sequence[Due], left: Path) -> int:
    wrong = 0
    for program in programs:
        for run, grid in due:
            left.unlink(missing_ok=True)
            wrong += differing([program], [run])
            if (left.read_bytes() if left.exists() else None) != grid:
                wrong += 1
                print(f"{program} {run.arguments}: another grid is written, or one where none is due")
    return wrong


def main(programs: List[str]) -> int:
    rust = programs[:1] == ["--rust"]
    programs = programs[rust:]
    with tempfile.TemporaryDirectory() as name:
        room = Path(name)
        due, among = runs(room)
        numbers = {one.run.status for one in due}
        if rust:
            due = [Due(same, one.grid) for one in due for same in in_rust(one.run, NEEDED, NEEDED_IN_RUST)]
        wrong = wrong_runs(programs, due, room / "given.grid")
        table = str(ROOT / "tables/bench-s.table")
        wrong += 0 if rust else unwritten(programs, "grid", table, str(room / "full.grid"))
    lacking = [part for part in SHOWN if not among[part]]
    if lacking or not numbers >= {0, 1, 2, 12, 13, 14, 15, 20, 21, 255}:
        wrong += 1
        print(f"the runs lack {lacking}, or one of the refusals: {sorted(numbers)}")
    print(f"the grid as expected in {len(due)} runs" if not wrong else f"{wrong} wrong")
    return 1 if wrong or not programs else 0


if __name__ == "__main__":
    sys.exit(main(sys.argv[1:]))

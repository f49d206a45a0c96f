"""Fixed cases of both converters of full grids: those worked out by hand, each pair of causes that can meet, each byte
of a small grid, both sides of each limit and length, every size of sheet, and numbers off by one everywhere.

What is due is worked by hand where it is written out, and else the unrelated evaluator's.
"""
from __future__ import annotations

from random import Random
from typing import Iterator, List, Sequence

import cases
import grid_cases
import grids
from cases import calls, quadtree, samples
from converting import LIMIT, read, write
from edges import fresh_table, whole_at
from grids import GREATEST_GRID, grid_bytes, grid_length
from level_cases import SPLIT_CELL, of_cells
from library import Library, differ, numbers, octets
from note_cases import refused_tables
from surface import FINEST, LEVELS, coefficient_limit, total_places
from tablefile import field


def by_hand(lib: Library) -> Iterator[str]:
    """Grids over trees, with the table that is due or 21."""
    for case in grid_cases.cases():
        grid, out = grid_bytes(*case[1:4]), numbers([7] * total_places(case.w, case.h))
        due = ("refused", 21) if case.due is None else ("ok", case.w, case.h)
        after = [7] * total_places(case.w, case.h) if case.due is None else case.due
        got = lib.read_grid(octets(grid), octets(case.tree), out)
        yield differ(f"read_grid, {case.told}, over {case.tree}", got, due, (out, after))


def written(lib: Library) -> Iterator[str]:
    """Grids written out by hand, both sides of their lengths, and read again over the table's own tree."""
    for words, t, text in grid_cases.written():
        grid = bytes.fromhex(text)
        n = len(grid)
        for length in (0, 1, 5, 8, n - 5, n - 1, n, n + 1, n + 50, n + 65_535, n + 65_536):
            out = octets([9] * length)
            got = lib.write_grid(t.w, t.h, octets(t.tree), numbers(t.coefficients), out)
            due, after = (("ok", n), grid + bytes([9]) * (length - n)) if length >= n else (("refused", 18), None)
            yield differ(f"write_grid, {words} into {length}", got, due, *([(out, after)] if after else []))
        numbers_out = numbers([7] * len(t.coefficients))
        got = lib.read_grid(octets(grid), octets(t.tree), numbers_out)
        yield differ(f"read_grid, {words}", got, ("ok", t.w, t.h), (numbers_out, t.coefficients))


def two_causes(lib: Library) -> Iterator[str]:
    """The grid's own number before the tree's 2, that before 21, 21 before 16; a table's before 18."""
    for words, due, grid in grid_cases.faults():
        for tree, slots in (([0], 211), ([5], 211), ([], 0), ([4, 0, 0, 0, 0], 210), (of_cells(3), 212)):
            got = lib.read_grid(octets(grid), octets(tree), numbers([7] * slots))
            yield differ(f"read_grid, {words}, over {tree} into {slots}", got, ("refused", due))
    for words, grid, tree, more, due in grid_cases.in_order():
        got = lib.read_grid(octets(grid), octets(tree), numbers([7] * (total_places(*grid[3:5]) + more)))
        yield differ(f"read_grid, {words}, over {tree} and {more} more", got, ("refused", due))
    tables = [*refused_tables(), (1, samples.Table(0, 1, [5], [])), (1, samples.Table(1, 2**32 + 1, [0], [0] * 211)),
              (2, samples.Table(1, 1, [5], [0] * 210)), (3, samples.Table(1, 1, [0], [32_001] * 210)),
              (4, samples.Table(1, 1, [0], [32_001] + [0] * 209 + [1]))]
    for due, t in tables:
        for length in (0, 5, 8, 612, 613, GREATEST_GRID):
            got = lib.write_grid(t.w, t.h, octets(t.tree), numbers(t.coefficients), octets([9] * length))
            yield differ(f"write_grid, {due} into {length}", got, ("refused", due))


def small_grid(lib: Library) -> Iterator[str]:
    """A grid of 1 by 1 cut everywhere, each byte of its heads any other, each of its numbers' bytes some others, and
    with bytes after it."""
    t = samples.bench_s()
    grid = grid_bytes(1, 1, grids.carried_numbers(calls.surface_of(1, 1, [0]), t.coefficients))
    yield from (read(lib, f"cut to {at}", grid[:at], [0], 211) for at in range(len(grid) + 1))
    for at, byte in enumerate(grid):
        every = range(256) if at < 8 else ((byte + 1) % 256, byte ^ 128)
        for other in sorted({*every} - {byte}):
            changed = grid[:at] + bytes([other]) + grid[at + 1:]
            yield read(lib, f"byte {at} is {other}", changed, [0] if at % 9 else of_cells(3), 211)
    tails = [bytes(1), b"\x20", b"\x20\0\0", field(32, bytes(64)), field(3, bytes(8)), field(19, b""), grid,
             bytes(65_536 - len(grid)), bytes(65_536)]
    yield from (read(lib, f"{len(tail)} bytes after", grid + tail, [0], 211) for tail in tails)


def slices(lib: Library) -> Iterator[str]:
    """Slices and trees of lengths beside those due, by one and by what is lost of a length in 8 or 16 bits."""
    for t in (samples.bench_s(), fresh_table(8, 8, 5), samples.Table(8, 8, [3], [0] * 1_707 + [-1] * 4_489)):
        grid = grid_bytes(t.w, t.h, grids.carried_numbers(calls.surface_of(t.w, t.h, t.tree), t.coefficients))
        places = total_places(t.w, t.h)
        for length in (0, 1, places - 1, places, places + 1, places + 256, places + 65_536):
            yield read(lib, "a slice", grid, t.tree, length)
        for tree in (t.tree + [0], t.tree + [0] * 256, t.tree + [0] * 65_536, t.tree[:-1]):
            yield read(lib, "a tree", grid, tree, places)


def limits(lib: Library) -> Iterator[str]:
    """A coefficient at its limit and one past it, alone at places of every level; and whole grids at theirs."""
    for w, h, tree in ((1, 1, [0]), (1, 1, SPLIT_CELL), (2, 1, of_cells(2)), (2, 1, of_cells(3)), (1, 2, of_cells(1))):
        surface = calls.surface_of(w, h, tree)
        for level in LEVELS:
            limit, active = coefficient_limit(level), surface.active_functions(level)
            for f in active[:: max(1, len(active) // 6)]:
                for number in (limit, -limit, limit + 1, -limit - 1):
                    values = [0] * surface.total
                    values[surface.place(level, *f)] = number
                    given = grid_bytes(w, h, grids.carried_numbers(surface, values))
                    yield read(lib, f"{number} at {f} of level {level}", given, tree, surface.total)
    for number in (LIMIT, -LIMIT, LIMIT + 1, -LIMIT - 1):
        for tree in ([0], [1], [2], [3]):
            yield read(lib, f"{number} everywhere", grid_bytes(8, 8, [number] * 4_489), tree, 6_196)
        for at in (0, 4_488):
            given = [-LIMIT] * at + [number] + [LIMIT] * (4_488 - at)
            yield read(lib, f"{number} at {at}", grid_bytes(8, 8, given), [3], 6_196)
    signs = [LIMIT * (1 - 2 * ((a + b) % 2)) for b in range(67) for a in range(67)]
    yield from (read(lib, "signs that change", grid_bytes(8, 8, signs), tree, 6_196) for tree in ([0], [1], [2], [3]))


def off_by_one(rng: Random, lib: Library) -> Iterator[str]:
    """Each number of a table's grid off by one, over the table's own tree and over one with level 3 throughout."""
    for w, h in ((1, 1), (2, 1), (1, 2)):
        t = samples.random_table(rng, w, h, 2, share=4)
        given = grids.carried_numbers(calls.surface_of(w, h, t.tree), t.coefficients)
        whole = quadtree.tree_of(quadtree.raised(((0,) * 32,) * 32, (0, 0, 4 * w, 4 * h), FINEST))
        for at, number in enumerate(given):
            for tree in (t.tree, whole):
                changed = [*given[:at], number + (1, -1)[at % 2], *given[at + 1:]]
                yield read(lib, f"number {at} off by one", grid_bytes(w, h, changed), tree, len(t.coefficients))


def over(lib: Library, t: samples.Table, trees: Sequence[List[int]]) -> Iterator[str]:
    """A table's grid over some trees."""
    grid = grid_bytes(t.w, t.h, grids.carried_numbers(calls.surface_of(t.w, t.h, t.tree), t.coefficients))
    yield from (read(lib, f"{t.w} by {t.h}", grid, tree, len(t.coefficients)) for tree in trees)


def sheets(rng: Random, lib: Library) -> Iterator[str]:
    """For every size of sheet a table: written to outputs beside its grid's length, and its grid over its own tree, a
    finer one, the unrefined and that with level 3 throughout, and cut or with a byte after it."""
    for w in range(1, 9):
        for h in range(1, 9):
            t = cases.table_on(rng, w, h)
            yield from (write(lib, t, grid_length(w, h) + more) for more in (-1, 0, 1))
            levels = calls.surface_of(w, h, t.tree).levels
            finer = quadtree.tree_of(quadtree.raised(levels, samples.random_box(rng, w, h), rng.choice((1, 2, 3))))
            yield from over(lib, t, (t.tree, finer, [0], whole_at(rng, w, h, FINEST).tree))
            grid = grid_bytes(w, h, grids.carried_numbers(calls.surface_of(w, h, t.tree), t.coefficients))
            for other in (grid[:-1], grid + b"\x20", grid[:-5], grid[:3] + bytes((h, w)) + grid[5:]):
                yield read(lib, f"{w} by {h}, {len(other)} bytes", other, t.tree, len(t.coefficients))


def boards(lib: Library) -> Iterator[str]:
    """8 by 8 with levels in boards, so that trees are the longest and each cell has quarters of all kinds."""
    rng = Random(38)
    boards = (lambda u, v: (u + v) % 2 * 3, lambda u, v: u % 2 + v % 2, lambda u, v: (u + 2 * v) % 4,
              lambda u, v: 3 - (u // 4 + v // 4) % 4, lambda u, v: 3 * (u % 4 > 0 or v % 4 > 0),
              lambda u, v: 3 * (u % 4 < 3 or v % 4 < 3), lambda u, v: 2 - u % 3, lambda u, v: v % 3 + 1)
    for board in boards:
        t = samples.table_of(rng, 8, 8, samples.levels_by(board))
        yield write(lib, t, GREATEST_GRID)
        yield from over(lib, t, (t.tree, [0], [3]))


def fixed(rng: Random, lib: Library) -> List[str]:
    parts = (by_hand(lib), written(lib), two_causes(lib), small_grid(lib), slices(lib), limits(lib),
             off_by_one(Random(39), lib), sheets(rng, lib), boards(lib))
    return [fault for part in parts for fault in part if fault]

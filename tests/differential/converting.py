"""Both converters of full grids, held to the unrelated evaluator: tables, whole and damaged, to outputs of any lengths;
grids of tables and others over the table's own tree, finer, coarser and unrelated ones, and grids damaged at every kind
of place.
"""
from __future__ import annotations

from random import Random
from typing import Callable, Dict, Iterator, List, Tuple

import cases
import files
import grids
from cases import calls, quadtree, samples
from counts import Field
from library import Library, differ, numbers, octets
from notes import IN_NOTES, other_tail
from saving import ROOM, drawn
from surface import FINEST, coefficient_limit, total_places
from tables import words

LIMIT = coefficient_limit(FINEST)
FLAT = ((0,) * 32,) * 32
# Faults of a grid's fields and of its bytes.
IN_FIELDS = (files.other_tag, files.other_length, files.other_body, files.other_side, files.other_number,
             files.other_order, IN_NOTES[0])
IN_BYTES = (files.cut, files.longer, files.other_byte, other_tail)


def write(lib: Library, t: samples.Table, length: int) -> str:
    """Converts a table to an output of this length: what is not as it should be."""
    grid_out, want = octets(ROOM[:length]), grids.write_grid(*t, ROOM[:length])
    got = lib.write_grid(t.w, t.h, octets(t.tree), numbers(t.coefficients), grid_out)
    told = words("write_grid", t, len(t.coefficients), "into", length)
    return differ(told, got, want.answer, (grid_out, want.lent["grid_out"]))


def read(lib: Library, told: str, grid: bytes, tree: List[int], length: int) -> str:
    """Converts a grid over a tree into a slice of this length: what is not as it should be."""
    lent = list(range(7, 7 + length))
    numbers_out, want = numbers(lent), grids.read_grid(grid, tree, lent)
    got = lib.read_grid(octets(grid), octets(tree), numbers_out)
    shown = grid.hex() if len(grid) < 700 else f"{len(grid)} bytes"
    return differ(f"read_grid, {told}, over {bytes(tree).hex()} into {length}: {shown}", got, want.answer,
                  (numbers_out, want.lent["coefficients_out"]))


def output_length(rng: Random, w: int, h: int) -> int:
    """Enough for the grid; else too short by one, by a number or by far, or at the end of its first field."""
    n = grids.grid_length(w, h) if 1 <= w <= 8 and 1 <= h <= 8 else 613
    enough = n, n, n, n + 1, n + rng.randint(1, 40), grids.GREATEST_GRID, n - 1 + cases.LONGER
    return rng.choice(enough * 2 + (n - 1, n - 1, n - 5, n - 8, rng.randrange(n), 8, 5, 0))


def write_grid(rng: Random, lib: Library) -> Iterator[str]:
    """A table, whole and damaged, converted to outputs of any lengths."""
    whole = drawn(lib, cases.reading_table(rng))
    for _ in range(5):
        t = cases.sometimes_damaged(rng, whole)
        yield write(lib, t, output_length(rng, t.w, t.h))


def table(rng: Random) -> samples.Table:
    """A table whose grid is converted, mostly on small sheets."""
    return rng.choice((cases.insertion_table,) * 5 + (cases.table, cases.limit_table))(rng)


def finer(rng: Random, t: samples.Table) -> List[int]:
    """A tree whose regions hold the table's."""
    levels = calls.surface_of(t.w, t.h, t.tree).levels
    for _ in range(rng.randint(1, 3)):
        box = rng.choice((samples.random_box(rng, t.w, t.h), (0, 0, 4 * t.w, 4 * t.h)))
        levels = quadtree.raised(levels, box, rng.choice((1, 2, 3)))
    return quadtree.tree_of(levels)


def coarser(rng: Random, t: samples.Table) -> List[int]:
    """A tree whose regions the table's hold: levels cut off above one, or nearly all left out."""
    levels, most = calls.surface_of(t.w, t.h, t.tree).levels, rng.randrange(3)
    return quadtree.tree_of(tuple(tuple(min(level, most) for level in row) for row in levels))


def unrelated(rng: Random, t: samples.Table) -> List[int]:
    return quadtree.tree_of(rng.choice((samples.random_levels(rng, t.w, t.h, 2), FLAT,
                                        samples.speckled_levels(rng, t.w, t.h, (0, 1, 2, 3)))))


def tree_for(rng: Random, t: samples.Table) -> Tuple[str, List[int]]:
    """A tree that a grid of the table is converted over, in words."""
    kind = rng.choice(("own", "own", "own", "finer", "finer", "coarser", "unrelated"))
    return kind, {"own": lambda rng, t: t.tree, "finer": finer, "coarser": coarser,
                  "unrelated": unrelated}[kind](rng, t)


def own(rng: Random, t: samples.Table, given: List[int]) -> List[int]:
    return given


def nudged(rng: Random, t: samples.Table, given: List[int]) -> List[int]:
    """A number or two another: by one, by a unit of another level, or at the limit."""
    given = list(given)
    for _ in range(rng.choice((1, 1, 2))):
        at = rng.choice((0, len(given) - 1, rng.randrange(len(given)), rng.randrange(len(given))))
        off = given[at] + rng.choice((1, -1, 64, -4_096, 64**3, rng.randint(-LIMIT, LIMIT)))
        given[at] = rng.choice((min(max(off, -LIMIT), LIMIT),) * 4 + (LIMIT, -LIMIT))
    return given


def in_parts(rng: Random, t: samples.Table, given: List[int]) -> List[int]:
    """The numbers in another unit, so that coefficients of coarser levels come out as fractions or are whole still."""
    over = rng.choice((2, 3, 4, 64))
    return [number // over for number in given] if rng.random() < 0.5 else [number // over * over for number in given]


def past_limit(rng: Random, t: samples.Table, given: List[int]) -> List[int]:
    """The grid that a table would have whose coefficient is at its limit or past it, or all of whose are past it."""
    surface, values = calls.surface_of(t.w, t.h, t.tree), list(t.coefficients)
    active = [(at, limit) for at, limit in enumerate(surface.limits()) if limit is not None]
    at, limit = rng.choice((active[0], active[-1], rng.choice(active)))
    if rng.random() < 0.5:
        values = [0] * len(values)
    values[at] = rng.choice((1, -1)) * rng.choice((limit, limit + 1, limit + 1, 2 * limit, 9 * limit))
    return [min(max(number, -(2**39)), 2**39 - 1) for number in grids.carried_numbers(surface, values)]


def any_numbers(rng: Random, t: samples.Table, given: List[int]) -> List[int]:
    limit = rng.choice((LIMIT, LIMIT, 1, 64**3))
    return [rng.randint(-limit, limit) for _ in given]


NUMBERS = (own,) * 6 + (nudged, nudged, in_parts, past_limit, past_limit, any_numbers)


def damaged(rng: Random, t: samples.Table, given: List[int]) -> bytes:
    """The bytes of a grid with a fault or two."""
    body = b"".join(map(grids.coefficient_bytes, given))
    fields: List[Field] = [(1, 2, bytes((t.w, t.h))), (19, len(body), body)]
    if rng.random() < 0.1:
        fields.insert(1, rng.choice(((3, 8, bytes(8)), (2, 1, b"\0"), (18, 0, b""))))
    return files.damaged(rng, fields, rng.choices(IN_FIELDS + IN_BYTES, k=rng.choice((1, 1, 2))))


def read_grid(rng: Random, lib: Library) -> Iterator[str]:
    """Grids of a table and others near them, over trees of all kinds and into slices of any lengths."""
    t = drawn(lib, table(rng))
    plain = grids.carried_numbers(calls.surface_of(t.w, t.h, t.tree), t.coefficients)
    for _ in range(8):
        made, (kind, tree) = rng.choice(NUMBERS), tree_for(rng, t)
        given = made(rng, t, plain)
        grid = damaged(rng, t, given) if rng.random() < 0.25 else grids.grid_bytes(t.w, t.h, given)
        if rng.random() < 0.1:
            kind, tree = "damaged", cases.damaged_tree(rng, tree) if rng.random() < 0.9 else tree + [0] * cases.LONGER
        length = cases.output_length(rng, total_places(t.w, t.h)) if rng.random() < 0.4 else total_places(t.w, t.h)
        yield read(lib, f"{made.__name__} of {t.w} by {t.h}, {kind} tree", grid, tree, length)


KINDS: Dict[str, Callable[[Random, Library], Iterator[str]]] = {"write_grid": write_grid, "read_grid": read_grid}

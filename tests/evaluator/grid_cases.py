"""Grids and tables that convert into each other, worked out by hand; grids that no table has over a tree; each refusal
of both converters, and which of two is given.

Document 02, Nine: '21, no acceptable table over that tree has those readings, after the checks of both inputs, the
grid's first, and before 16; it is given in that case alone'.
"""
from __future__ import annotations

from typing import Iterator, List, NamedTuple, Optional, Sequence, Tuple

import calls
import grids
import tablefile
from level_cases import FALLING, RISING, SPLIT_CELL, of_cells
from note_cases import refused_tables
from properties import Check
from samples import Table, bench_s, fresh_table, inserted
from surface import FINEST, LEVELS, coefficient_limit, knot_indices, place_count, total_places
from tablefile import coefficient_bytes, field


class Case(NamedTuple):
    """A grid and a tree, and the coefficients of the table that is due, or none for 21."""

    told: str
    w: int
    h: int
    numbers: List[int]
    tree: List[int]
    due: Optional[List[int]]


LIMIT = coefficient_limit(FINEST)
# Along one side of one cell function -3 of level 0 is (1 - u)^3 / 6, and of level 3 function i has its polar form at
# (i + 1) / 8, (i + 2) / 8 and (i + 3) / 8: (7 - i) (6 - i) (5 - i) / 6 of 512, C(7 - i, 3). At level 1 with half the
# cells C(3 - i, 3), at level 2 C(1 - i, 3).
CORNERS = (
    (120, 84, 56, 35, 20, 10, 4, 1, 0, 0, 0), (20, 10, 4, 1) + (0,) * 7, (4, 1) + (0,) * 9, (1,) + (0,) * 10)
# Two cells with one level, side by side along u and along v.
def two_cells(level: int, along_v: bool = False) -> List[int]:
    return [4, 4, 4, level, *((0, level) if along_v else (level, 0)), 0] + [0] * 6


# 1 by 1 with each level throughout, and where its coefficients start.
THROUGHOUT, STARTS = ([0], of_cells(1), of_cells(2), of_cells(3)), (0, 16, 41, 90)


# The number of one place in a row of zeros, or of others.
def with_one(numbers: Sequence[int], place: int, number: int) -> List[int]:
    return [*numbers[:place], number, *numbers[place + 1 :]]


# A grid of 1 by 1 that reads as function (-3, -3) of a level does with this coefficient.
def corner(level: int, number: int) -> List[int]:
    return [number * along * across for along in CORNERS[level] for across in CORNERS[level]]


# Function (-3, -3) alone, at its limit and one past it, which at level 3 the grid's own 4 tells.
def corners() -> Iterator[Case]:
    for level in LEVELS:
        limit = coefficient_limit(level)
        for number in (1, -7, limit, -limit, limit + 1, -limit - 1):
            if level < FINEST or abs(number) <= limit:
                due = None if abs(number) > limit else with_one([0] * 211, STARTS[level], number)
                yield Case("only %d of level %d" % (number, level), 1, 1, corner(level, number), THROUGHOUT[level], due)


# The same watts everywhere: 64^3 units of level 3 are one watt, one unit of level L is 64^(3 - L) of them.
def even() -> Iterator[Case]:
    for number in (0, 1, -1, 63, 64, 4_095, 4_096, 4_097, 131_072, 262_143, 262_144, -262_144, LIMIT, 1 - LIMIT):
        for level, tree in enumerate(THROUGHOUT):
            unit = 64 ** (FINEST - level)
            places = place_count(1, 1, level)
            slice_due = [0] * STARTS[level] + [number // unit] * places + [0] * (211 - STARTS[level] - places)
            yield Case("%d everywhere at level %d" % (number, level), 1, 1, [number] * 121, tree,
                       slice_due if number % unit == 0 else None)


# Numbers that rise by p along u and by q along v, in 1/32768 of a watt per cell: level 3 function (i, j) has
# p (i + 2) + q (j + 2), and level L function (i, j) the same over 32^(3 - L).
def rising(w: int, h: int, p: int, q: int) -> List[int]:
    return [p * (i + 2) + q * (j + 2) for j in knot_indices(h, FINEST) for i in knot_indices(w, FINEST)]


def rising_table(w: int, h: int, tree: List[int], p: int, q: int) -> Optional[List[int]]:
    surface, found = calls.surface_of(w, h, tree), [0] * total_places(w, h)
    for level in LEVELS:
        for i, j in surface.active_functions(level):
            number, left = divmod(p * (i + 2) + q * (j + 2), 32 ** (FINEST - level))
            if left:
                return None
            found[surface.place(level, i, j)] = number
    return found


# Planes over trees of one level and of several. 32,768,000 along u is S.
def planes() -> Iterator[Case]:
    sheets = [(1, 1, tree) for tree in (*THROUGHOUT, SPLIT_CELL)] + [(2, 2, tree) for tree in ([0], FALLING, RISING)]
    for w, h, tree in sheets:
        for p, q in ((32_768_000, 0), (0, -32_768), (32_768, 98_304), (1_024, 0), (32, 64), (0, 1), (16_384, 0)):
            yield Case("a plane of %d and %d" % (p, q), w, h, rising(w, h, p, q), tree, rising_table(w, h, tree, p, q))


# One level 3 number that is not 0. Its own place takes it where its support lies in the region of level 3: in the first
# cell along u, or along v, where it starts at most at the fourth knot of eight; else no table has it.
def single() -> Iterator[Case]:
    for place in (0, 1, 3, 12, 60, 119, 120):
        numbers = with_one([0] * 121, place, 5)
        for level, tree in enumerate(THROUGHOUT):
            yield Case("5 at place %d" % place, 1, 1, numbers, tree, [0] * 90 + numbers if level == FINEST else None)
    for w, h in ((2, 1), (1, 2)):
        wide, total = 8 * w + 3, total_places(w, h)
        for at in range(19):
            place = (at, 3) if w == 2 else (3, at)
            k = place[1] * wide + place[0]
            numbers = with_one([0] * (19 * 11), k, -1)
            due = [0] * (total - len(numbers)) + numbers
            yield Case("-1 at %d of %d by %d" % (at - 3, w, h), w, h, numbers, of_cells(FINEST),
                       due if at < 8 else None)
            yield Case("-1 at %d over both cells" % (at - 3), w, h, numbers,
                       two_cells(FINEST, along_v=h == 2), due)


# S with one number of its grid another, at every place and off by one or by more: no table over a coarse tree has it.
def changed() -> Iterator[Case]:
    plane = rising(1, 1, 32_768_000, 0)
    for place in range(121):
        numbers = with_one(plane, place, plane[place] + (1, -1, 64, 4_096, 32_768_000)[place % 5])
        yield Case("S with place %d changed" % place, 1, 1, numbers, [0], None)
        yield Case("S with place %d changed" % place, 1, 1, numbers, of_cells(1 + place % 2), None)


# A grid of level 1 or 2 over the tree of a level that is coarser, finer or its own.
def other_trees() -> Iterator[Case]:
    for level in (1, 2):
        numbers, own = corner(level, 3), with_one([0] * 211, STARTS[level], 3)
        finer = {2: [0] * 211, 3: [0] * 90 + numbers}
        for j, along in enumerate((4, 1)):
            for i, across in enumerate((4, 1)):
                finer[2][41 + 7 * j + i] = 3 * along * across
        for over, tree in enumerate(THROUGHOUT):
            due = None if over < level else own if over == level else finer[over]
            yield Case("level %d over level %d" % (level, over), 1, 1, numbers, tree, due)


def cases() -> List[Case]:
    return [*corners(), *even(), *planes(), *single(), *changed(), *other_trees()]


# Tables and the bytes of their grids, written out by hand. The 121 numbers of 1 by 1 are 605 bytes, 25d; 209 of 2 by 1
# 1,045, 415; 4,489 of 8 by 8 22,445, 57ad. 125 watts are 1f40000 in units of level 3, 700 are af00000.
def written() -> List[Tuple[str, Table, str]]:
    s = bench_s()
    row = "fffe0c0000 0000000000 0001f40000 0003e80000 0005dc0000 0007d00000 0009c40000 000bb80000 000dac0000"
    s_grid = "0100020101 13025d" + (row + "000fa00000 0011940000") * 11
    two = inserted(fresh_table(2, 1, 700), (0, 0, 4, 4), 1)
    whole = Table(8, 8, [3], [0] * 1_707 + [LIMIT, -LIMIT, -1] + [0] * 4_486)
    full = "0100020808 1357ad 01f4000000 fe0c000000 ffffffffff" + "00" * 22_430
    return [
        ("S", s, s_grid), ("S with level 1", inserted(s, (0, 0, 4, 4), 1), s_grid),
        ("S refined here and there", inserted(inserted(s, (1, 0, 4, 3), 2), (0, 2, 2, 4), 3), s_grid),
        ("700 watts on 2 by 1", two, "0100020201 130415" + "000af00000" * 209),
        ("8 by 8, tree 3", whole, full),
        ("32,000 watts on 8 by 8", fresh_table(8, 8, 32_000), "0100020808 1357ad" + "01f4000000" * 4_489),
        ("-32,000 watts on 8 by 8", fresh_table(8, 8, -32_000), "0100020808 1357ad" + "fe0c000000" * 4_489),
    ]


# Grids that are refused for themselves, whatever tree and slice are lent: in byte order, 15 last.
def faults() -> List[Tuple[str, int, bytes]]:
    sides, zeros = field(1, [1, 1]), bytes(605)
    good, number = sides + field(19, zeros), coefficient_bytes
    found = [("head cut to %d" % n, 12, b"\1\0"[:n]) for n in range(3)]
    found += [("another head cut", 12, b"\7\0"), ("a sheet alone", 12, sides), ("a side cut", 12, field(1, [0], 2)),
              ("no tag", 13, b"\7\0\2"), ("tag 19 first", 13, field(19, zeros) + sides), ("twice tag 1", 13, sides * 2),
              ("tag 13 and a length", 13, field(2, b"")), ("one side", 14, field(1, [1])),
              ("three sides", 14, field(1, [1, 1, 1]) + field(19, zeros)), ("a length cut", 14, field(1, [], 3)),
              ("a length low byte first", 14, b"\1\2\0\1\1" + field(19, zeros))]
    found += [("sides %d and %d" % (w, h), 1, field(1, [w, h]) + more) for w, h in ((0, 1), (1, 0), (9, 1), (1, 9))
              for more in (b"", b"\7\0\0", field(19, zeros))]
    found += [("second head cut to %d" % n, 12, sides + b"\x07\2\x5d"[:n]) for n in (0, 1, 2)]
    found += [("tag %d for 19" % tag, 13, sides + field(tag, zeros)) for tag in (0, 1, 2, 3, 16, 17, 18, 20, 32, 255)]
    found += [("counts before it", 13, sides + field(3, bytes(8)) + field(19, zeros)),
              ("the file of S", 13, tablefile.write_file(*bench_s())),
              ("S without counts", 13, tablefile.write_file(*bench_s(), counted=False)),
              ("13 with 14", 13, sides + field(18, b"")), ("13 with 12", 13, sides + b"\x12\2\x5d")]
    found += [("length %d" % n, 14, sides + field(19, bytes(n))) for n in (0, 5, 600, 604, 606, 610, 349, 861, 1_045)]
    found += [("length %d, cut" % n, 14, sides + field(19, zeros, n)) for n in (604, 606, 23_810, 65_535)]
    found += [("the length of another sheet", 14, field(1, [2, 1]) + field(19, zeros)),
              ("body cut to 604", 12, good[:-1]), ("body cut to 0", 12, good[: -605]),
              ("cut and past the limit", 12, sides + field(19, b"\x80" * 604, 605))]
    past = LIMIT + 1, -LIMIT - 1, 2**39 - 1, -(2**39)
    for n in past:
        for at in (0, 60, 120):
            body = zeros[: 5 * at] + number(n) + zeros[5 * at + 5 :]
            found += [("%d at %d" % (n, at), 4, sides + field(19, body) + more) for more in (b"", b"\0")]
    found += [("%d bytes after" % len(more), 15, good + more)
              for more in (b"\0", b"\x20", field(32, b""), field(32, b"note"), field(3, bytes(8)), good, bytes(70_000))]
    return found


# What is due of good grids with other faults: the tree's 2 before 21 and 16, 21 before 16, 16. The grid, the tree, how
# many numbers are lent beyond those due, and the number.
def in_order() -> List[Tuple[str, bytes, List[int], int, int]]:
    s, none = grids.grid_bytes(1, 1, rising(1, 1, 32_768_000, 0)), grids.grid_bytes(1, 1, [1] + [0] * 120)
    wide = grids.grid_bytes(8, 8, [0] * 4_489)
    bad = ([], [5], [1], [0, 0], [4, 0, 0, 0, 0], [4, 4, 4, 1] + [0] * 8, [4, 4, 4, 4, 4, 4] + [0] * 20)
    found = [("a bad tree", grid, tree, more, 2) for grid in (s, none) for tree in bad for more in (0, -1, 1)]
    found += [("a tree of another sheet", s, two_cells(1), more, 2) for more in (0, 1)]
    found += [("tree 5 on 8 by 8", wide, [5], more, 2) for more in (0, 1)]
    found += [("no table", none, tree, more, 21) for tree in ([0], of_cells(1), SPLIT_CELL)
              for more in (0, 1, -1, -211)]
    found += [("another length", s, tree, more, 16) for tree in ([0], of_cells(3), SPLIT_CELL)
              for more in (1, -1, -211, 256)]
    return found + [("another length on 8 by 8", wide, [3], more, 16) for more in (1, -1)]


# 'The slice receives the table over those regions', 'W and H are returned'.
def converted(check: Check) -> None:
    for case in cases():
        grid, out = grids.grid_bytes(*case[1:4]), [7] * total_places(case.w, case.h)
        outcome = grids.read_grid(grid, case.tree, out)
        lent = {"grid": list(grid), "tree": case.tree, "coefficients_out": out if case.due is None else case.due}
        due = ("refused", 21) if case.due is None else ("ok", case.w, case.h)
        check(outcome == (due, lent), "%s over %s: %s" % (case.told, case.tree, outcome.answer))
        if case.due is not None:
            table = case.w, case.h, case.tree, case.due
            back = grids.write_grid(*table, [8] * len(grid))
            check(back.lent["grid_out"] == list(grid), "%s over %s, written" % (case.told, case.tree))
    counted = [case.due is None for case in cases()]
    check(min(counted.count(True), counted.count(False)) >= 80, "cases of both kinds: %d" % counted.count(True))


# 'the grid's length in bytes is returned'; '18, judged last; bytes past the grid are untouched'.
def writing(check: Check) -> None:
    for words, table, text in written():
        grid = list(bytes.fromhex(text))
        check(len(grid) == grids.grid_length(table.w, table.h), "the length of the grid of %s" % words)
        for more in (0, 1, 9):
            outcome = grids.write_grid(*table, [8] * (len(grid) + more))
            check(outcome.answer == ("ok", len(grid)), "the length of %s, %d bytes more lent" % (words, more))
            check(outcome.lent["grid_out"] == grid + [8] * more, "the grid of %s, %d bytes more lent" % (words, more))
        for length in (0, 1, 5, 8, len(grid) - 5, len(grid) - 1):
            kept = {"tree": table.tree, "coefficients": table.coefficients, "grid_out": [8] * length}
            check(grids.write_grid(*table, [8] * length) == (("refused", 18), kept), "%s into %d" % (words, length))
        back = grids.read_grid(grid, table.tree, [7] * len(table.coefficients))
        check(back.answer == ("ok", table.w, table.h), "the grid of %s is read" % words)
        check(back.lent["coefficients_out"] == table.coefficients, "what the grid of %s gives" % words)
    for cause, table in refused_tables():
        for length in (0, 612, 613, grids.GREATEST_GRID):
            kept = {"tree": table.tree, "coefficients": table.coefficients, "grid_out": [8] * length}
            check(grids.write_grid(*table, [8] * length) == (("refused", cause), kept), "%d into %d" % (cause, length))
    check(grids.grid_length(8, 8) == grids.GREATEST_GRID == 5 + 3 + 5 * 67 * 67, "no grid is longer")


# Each refusal of a grid, with a tree and a slice that fit and with such as do not; then those of tree and slice.
def refusals(check: Check) -> None:
    for words, due, grid in faults():
        for tree, numbers in (([0], 211), ([5], 211), ([], 0), (of_cells(3), 210)):
            kept = {"grid": list(grid), "tree": tree, "coefficients_out": [7] * numbers}
            outcome = grids.read_grid(grid, tree, [7] * numbers)
            check(outcome == (("refused", due), kept), "grid, %s: %d is due, given %s" % (words, due, outcome.answer))
    for words, grid, tree, more, due in in_order():
        out = [7] * (total_places(*grid[3:5]) + more)
        kept = {"grid": list(grid), "tree": tree, "coefficients_out": out}
        outcome = grids.read_grid(grid, tree, out)
        check(outcome == (("refused", due), kept), "%s over %s: %d is due" % (words, tree, due))

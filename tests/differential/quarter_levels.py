"""Fixed cases of levels: the least and the greatest under a box, and readings on edges where quarter squares of
different levels meet, a step beside them, and at far edges.

What is due is worked by hand where it is written out, and else the unrelated evaluator's.
"""
from __future__ import annotations

from fractions import Fraction
from itertools import combinations, permutations
from random import Random
from typing import Iterator, List

import level_cases
import stopping
from cases import calls, quadtree, samples
from library import Library, differ, numbers, octets
from surface import D, LEVELS, Box
from tables import AT_POINT, read_at, words

# The rows of the cell that level_cases.py has split to single quarters, v rising.
ROWS = ((0, 1, 3, 3), (2, 3, 3, 3), (1, 1, 2, 2), (1, 1, 2, 0))


def under(lib: Library, told: str, w: int, h: int, tree: List[int], box: Box, *want) -> str:
    got = lib.least_level(w, h, octets(tree), box)
    return differ(f"least_level, {told}, {w} by {h}, {bytes(tree).hex()}, {box}", got, want)


def visited(t: samples.Table, box: Box) -> int:
    """The evaluator's count."""
    return calls.least_level(t.w, t.h, t.tree, box).answer[-1]


def by_hand(lib: Library) -> Iterator[str]:
    """The evaluator's cases that are worked out by hand: boxes at edges of levels, single quarters, one leaf of each
    level, sheets below 8 by 8."""
    for title, cases in level_cases.CASES.items():
        yield from (under(lib, title, *case[:4], "ok", *case.due) for case in cases)


def every_box(lib: Library) -> Iterator[str]:
    """Every box of a cell that is split to single quarters: the least and the greatest of the squares in it."""
    t = samples.Table(1, 1, level_cases.SPLIT_CELL, [])
    for v0, v1 in combinations(range(5), 2):
        for u0, u1 in combinations(range(5), 2):
            box, squares = (u0, v0, u1, v1), [level for row in ROWS[v0:v1] for level in row[u0:u1]]
            yield under(lib, "every box", *t[:3], box, "ok", min(squares), max(squares), visited(t, box))


def quarter_boxes(rng: Random, lib: Library) -> Iterator[str]:
    """Boxes of one quarter, as a display asks for its point: both levels are the square's."""
    for w, h in ((1, 1), (3, 2), (8, 8)):
        levels = samples.speckled_levels(rng, w, h, LEVELS)
        t = samples.Table(w, h, quadtree.tree_of(levels), [])
        squares = [(q, r) for r in range(4 * h) for q in range(4 * w)]
        for q, r in rng.sample(squares, min(len(squares), 60)) + [(4 * w - 1, 4 * h - 1)]:
            box, level = (q, r, q + 1, r + 1), levels[r][q]
            yield under(lib, "one quarter", *t[:3], box, "ok", level, level, visited(t, box))


def refused(lib: Library) -> Iterator[str]:
    """Refusals of a refined tree, which leave the least level, the greatest and the count as they were lent."""
    tree, whole = level_cases.FALLING, (0, 0, 8, 8)
    for w, h in ((0, 2), (2, 0), (9, 2), (2, 2**64 - 1)):
        yield under(lib, "sides", w, h, tree, whole, "refused", 1)
    # Cells of level 1 and 2 beyond the sheet; trees cut, longer, and with a byte that is none of a tree's.
    for w, h, damaged in ((1, 2, tree), (2, 1, tree), (2, 2, tree[:-1]), (2, 2, tree + [0]), (2, 2, tree[:-1] + [5])):
        yield under(lib, "tree", w, h, damaged, (0, 0, 4, 4), "refused", 2)
        yield under(lib, "tree and box", w, h, damaged, (0, 0, 9, 9), "refused", 2)
    for box in ((0, 0, 9, 8), (0, 0, 8, 9), (4, 0, 4, 4), (0, 4, 4, 4), (8, 0, 8, 8), (5, 0, 4, 8), (0, 5, 8, 4),
                (0, 0, 32, 32), (8, 8, 9, 9), (2**64 - 1, 0, 1, 1), (0, 0, 2**64 - 1, 1)):
        yield under(lib, "box", 2, 2, tree, box, "refused", 7)


def read_as(lib: Library, told: str, t: samples.Table, point: samples.Point, due: int) -> Iterator[str]:
    """All readings at a point with this numerator over D; at a tariff of 1,000 the cost is the watts of the display."""
    table, shown = (t.w, t.h, octets(t.tree), numbers(t.coefficients)), calls.round_half_up(Fraction(due, D))
    yield differ(words(f"exact, {told}", t, point), lib.exact(*table, *point), ("ok", due))
    got = lib.watts(*table, *point)
    near = got.said()[0] == "ok" and calls.within_bound(got.said()[1], due)
    yield differ(words(f"watts, {told}", t, point), got, got.said() if near else ("within 2^-30 of it over D", due))
    yield differ(words(f"display, {told}", t, point), lib.display(*table, *point), ("ok", shown))
    yield differ(words(f"cost, {told}", t, point), lib.cost(*table, *point, 1_000), ("ok", max(shown, 0)))


def read_by_hand(lib: Library) -> Iterator[str]:
    """Readings before and on an edge of levels and at the far corner, and both levels under the point's square."""
    for told, t, point, level, due in stopping.BY_HAND:
        yield from read_as(lib, told, t, point, due)
        q, r = stopping.squares_at(t.w, t.h, *point)[-1]
        box = (q, r, q + 1, r + 1)
        yield under(lib, told, *t[:3], box, "ok", level, level, visited(t, box))


def equal_numbers(lib: Library) -> Iterator[str]:
    """Four levels around a corner, in every order, and one level throughout: equal watts read as themselves on all
    sides of it and at the far edges, where a reading that stops too early misses those of the functions that were
    refined away."""
    for levels in (*permutations(LEVELS), *((level,) * 4 for level in LEVELS)):
        tree = quadtree.tree_of(stopping.around_a_corner(2, levels))
        t = samples.Table(1, 1, tree, samples.equal_coefficients(calls.surface_of(1, 1, tree), 700))
        for point in ((63, 63), (64, 63), (65, 63), (63, 64), (64, 64), (65, 64), (63, 65), (64, 65), (65, 65),
                      (128, 128), (128, 64), (64, 128), (128, 0), (0, 128), (0, 0), (127, 128), (128, 127)):
            yield from read_as(lib, "equal numbers", t, point, 700 * D)


def edges_met(rng: Random, lib: Library) -> Iterator[str]:
    """Exact readings of tables of mixed levels, on edges of quarter squares in both directions, a step beside them, at
    far edges and anywhere; of each table the other readings at one point, and the levels under its quarter square."""
    for t in stopping.mixed(rng):
        points = stopping.points_of(rng, t)
        yield from (read_at(lib, "exact", t, *point) for point in points)
        one = rng.choice(points)
        yield from (read_at(lib, name, t, *one) for name in AT_POINT[1:])
        yield read_at(lib, "cost", t, *one, 99_999)
        q, r = stopping.squares_at(t.w, t.h, *one)[-1]
        box, level = (q, r, q + 1, r + 1), calls.surface_of(t.w, t.h, t.tree).levels[r][q]
        yield under(lib, "under a point", *t[:3], box, "ok", level, level, visited(t, box))


def fixed(lib: Library) -> List[str]:
    rng = Random(34)  # the same tables in every run, whatever the seed of generated calls is
    parts = (by_hand(lib), every_box(lib), quarter_boxes(rng, lib), refused(lib), read_by_hand(lib),
             equal_numbers(lib), edges_met(rng, lib))
    return [fault for part in parts for fault in part if fault]

"""Generated calls, valid and damaged, on all sheet sizes."""
from __future__ import annotations

import sys
from pathlib import Path
from random import Random
from typing import List, Tuple

sys.path.insert(0, str(Path(__file__).resolve().parents[1] / "evaluator"))

import calls
import enquiries
import samples
import tree as quadtree
from enquiries import Slip
from surface import LEVELS, place_count, total_places

LEAST, GREATEST = -(2**63), 2**63 - 1
ODD_SIDES = (0, 9, 2**32 + 1, 2**64 - 1)
ODD_LEVELS = (0, 4, 257, 2**32 + 2, 2**64 - 1)
# Numbers of a slip that no table gives, and some that one might.
ODD_NUMBERS = (0, 1, 4, 13, 16, 25, 1_365, 4_489, 2**16, 2**32 + 13, 2**63, 2**64 - 1)
TARIFFS = (0, 1, 1_499, 1_500, 99_999, 100_000, 2**63)
# A length kept in 16 bits is right but for so many elements.
LONGER = 65_536


def table(rng: Random) -> samples.Table:
    """An acceptable table on any sheet; sometimes on 8 by 8 with a tree of one leaf above 0, or nearly the largest."""
    kind = rng.random()
    if kind < 0.04:
        return samples.table_of(rng, 8, 8, ((rng.randint(1, 3),) * 32,) * 32)
    if kind < 0.06:
        return samples.table_of(rng, 8, 8, samples.speckled_levels(rng, 8, 8, (0, 1, 2, 3)))
    return table_on(rng, rng.randint(1, 8), rng.randint(1, 8))


def table_on(rng: Random, w: int, h: int) -> samples.Table:
    """An acceptable table: unrefined, boxed, or with a level for each quarter square."""
    kind = rng.random()
    if kind < 0.15:
        return samples.table_of(rng, w, h, tuple((0,) * 32 for _ in range(32)))
    if kind < 0.3:
        return samples.table_of(rng, w, h, samples.speckled_levels(rng, w, h, (0, 1, 2, 3)))
    return samples.random_table(rng, w, h)


def damaged_tree(rng: Random, tree: List[int]) -> List[int]:
    """A tree with one fault: empty, cut, longer, another byte, a split too deep, equal leaves or one leaf above 0."""
    kind, tree = rng.randrange(8), list(tree)
    if kind == 0 or not tree:
        return []
    if kind == 1:
        return tree[:rng.randrange(len(tree))]
    if kind == 2:
        return tree + [rng.choice((0, 1, 4, 255))]
    at = rng.randrange(len(tree))
    if kind == 3:
        tree[at] = rng.choice((0, 1, 2, 3, 4, 5, 255))
        return tree
    if kind == 4:
        return tree[:at] + [4] + [tree[at]] * 4 + tree[at + 1:]
    if kind == 5:
        return tree[:at] + [4, 0, 0, 0, 1] + tree[at + 1:]
    if kind == 6:
        return [rng.randint(1, 3)]
    return [rng.randrange(6) for _ in range(rng.randrange(60))]


def damaged(rng: Random, t: samples.Table) -> samples.Table:
    """A table with up to two faults of causes 1 to 5, or none."""
    w, h, tree, numbers = t.w, t.h, list(t.tree), list(t.coefficients)
    for _ in range(rng.choice((1, 1, 2))):
        kind = rng.randrange(6)
        if kind == 0:
            w, h = rng.choice(((rng.choice(ODD_SIDES), h), (w, rng.choice(ODD_SIDES)), (h, w)))
        elif kind == 1:
            tree = damaged_tree(rng, tree) if rng.random() < 0.9 else tree + [0] * LONGER
        elif kind == 2:
            numbers = rng.choice((numbers[:-1], numbers + [0], [], numbers + [0] * LONGER))
        elif numbers:
            limits = calls.surface_of(t.w, t.h, t.tree).limits()
            active = [at for at, limit in enumerate(limits) if limit is not None and at < len(numbers)]
            at = rng.choice(active) if kind == 3 and active else rng.randrange(len(numbers))
            limit = (limits[at] if at < len(limits) else None) or 32_000
            numbers[at] = rng.choice((LEAST, GREATEST, 1, limit, -limit, limit + 1, limit + 1, -limit - 1, -limit - 1))
    return samples.Table(w, h, tree, numbers)


def box(rng: Random, w: int, h: int) -> Tuple[int, int, int, int]:
    """A box inside, a quarter of it, or the whole sheet; else reversed, with no area, past the sheet by one or by far,
    along u or v."""
    wide, high = 4 * (min(w, 8) or 1), 4 * (min(h, 8) or 1)
    u0, v0, u1, v1 = samples.random_box(rng, wide // 4, high // 4)
    return rng.choice(((u0, v0, u1, v1),) * 10 + ((u0, v0, u0 + 1, v0 + 1), (u1 - 1, v1 - 1, u1, v1)) * 2 + (
        (u1, v0, u0, v1), (u0, v1, u1, v0), (u0, v0, u0, v1), (u0, v0, u1, v0), (u0, v0, wide + 1, v1),
        (u0, v0, u1, high + 1), (0, 0, wide, high), (0, 0, 32, 32), (2**64 - 1, 0, 2**63, 1),
        (0, 2**64 - 1, 1, 2**63), (0, 0, 2**32 + wide, high), (0, 0, wide, 2**32 + high)))


def sometimes_damaged(rng: Random, t: samples.Table, share: float = 0.3) -> samples.Table:
    return damaged(rng, t) if rng.random() < share else t


def sloped_table(rng: Random) -> samples.Table:
    """An unrefined table that rises by whole watts from cell to cell, so that it reads halves between them."""
    w, h = rng.randint(1, 8), rng.randint(1, 8)
    at_0, along_u, along_v = rng.randint(-9, 9), rng.randint(-3, 3), rng.randint(-3, 3)
    coarse = [at_0 + i * along_u + j * along_v for j in range(h + 3) for i in range(w + 3)]
    return samples.Table(w, h, [0], coarse + [0] * (total_places(w, h) - len(coarse)))


def half_table(rng: Random) -> samples.Table:
    """A table with every number a half above whole watts, but for some off by one unit, so that it reads near halves.
    Those off are four apart, so that a point beside a half cell's edge is at the very corner of one of level 3."""
    w, h = rng.choice((1, 1, 2, 8)), rng.choice((1, 1, 2, 8))
    levels = samples.random_levels(rng, w, h, 2) if rng.random() < 0.3 else ((0,) * 32,) * 32
    tree = quadtree.tree_of(quadtree.raised(levels, (0, 0, 4 * w, 4 * h), rng.choice((1, 3, 3, 3))))
    surface, watts = calls.surface_of(w, h, tree), rng.choice((0, -1, 31_999, -32_000, rng.randint(-32_000, 31_999)))
    doubled = samples.equal_coefficients(surface, 2 * watts + 1)
    values = [number // 2 for number in doubled]
    for level in (1, 2, 3):
        for i, j in surface.active_functions(level):
            if i % 4 == j % 4 == 0:
                values[surface.place(level, i, j)] += rng.choice((-1, -1, 0, 1))
    return samples.Table(w, h, tree, values)


def limit_table(rng: Random) -> samples.Table:
    """A table with every number at its limit, all of one sign, so that it reads 32,000 watts or -32,000."""
    t = table(rng)
    watts = rng.choice((32_000, -32_000))
    return t._replace(coefficients=samples.equal_coefficients(calls.surface_of(t.w, t.h, t.tree), watts))


def reading_table(rng: Random) -> samples.Table:
    return rng.choice((sloped_table, half_table, half_table, limit_table) + (table,) * 6)(rng)


def steep_table(rng: Random) -> samples.Table:
    """A table with every number at its limit, of one sign in two columns, or rows, and of the other in the next two, so
    that each second cell is as steep as one can be in its middle; sometimes with any signs."""
    t, along, phase, any_sign = table(rng), rng.randrange(2), rng.randrange(4), rng.random() < 0.2
    surface = calls.surface_of(t.w, t.h, t.tree)
    values = samples.equal_coefficients(surface, 32_000)
    for level in LEVELS:
        for f in surface.active_functions(level):
            values[surface.place(level, *f)] *= rng.choice((1, -1)) if any_sign else 1 - (f[along] + phase) % 4 // 2 * 2
    return t._replace(coefficients=values)


def slope_table(rng: Random) -> samples.Table:
    return rng.choice((sloped_table, half_table, limit_table) + (steep_table,) * 3 + (table,) * 4)(rng)


def _beside(rng: Random, side: int) -> int:
    """A place along one side, one or two steps beside an edge of half a cell."""
    side = min(side, 8) or 1
    return min(max(64 * rng.randint(0, 2 * side) + rng.choice((-2, -1, -1, 1, 1, 2)), 1), 128 * side - 1)


def _steps(rng: Random, side: int) -> int:
    """A place along one side: anywhere, on edges of cells, quarters and level 3 cells, at the ends, beyond."""
    side = min(side, 8) or 1
    end = 128 * side
    inside = (rng.randint(0, end), 128 * rng.randint(0, side), 64 * rng.randint(0, 2 * side),
              32 * rng.randint(0, 4 * side), 16 * rng.randint(0, 8 * side), rng.randint(end - 16, end))
    return rng.choice(inside * 2 + (0, end, end, end + 1, rng.choice((2**63, 2**64 - 1, end + 128, 2**32))))


def _at_edge(rng: Random, side: int) -> int:
    """A place along one side on an edge of quarters, the far one included, or a step beside it."""
    side = min(side, 8) or 1
    return min(max(32 * rng.randint(0, 4 * side) + rng.choice((-1, 0, 0, 1)), 0), 128 * side)


def point(rng: Random, w: int, h: int) -> Tuple[int, int]:
    along = rng.choice((_beside, _at_edge, _steps, _steps))
    return along(rng, w), along(rng, h)


def _middle(rng: Random, side: int) -> int:
    """A place along one side in the middle of a cell of any level."""
    steps = 128 >> rng.randrange(4)
    return steps * rng.randrange((min(side, 8) or 1) * 128 // steps) + steps // 2


def slope_point(rng: Random, w: int, h: int) -> Tuple[int, int]:
    """A point as readings have it, or in the middle of cells along one side or both."""
    (u, v), kind = point(rng, w, h), rng.randrange(6)
    return _middle(rng, w) if kind in (0, 1) else u, _middle(rng, h) if kind in (1, 2) else v


def tariff(rng: Random) -> int:
    return rng.choice(TARIFFS + (rng.randint(0, 99_999), rng.randint(0, 99_999), 2**64 - 1))


def output_length(rng: Random, exact: int) -> int:
    return rng.choice((exact,) * 7 + (exact + 1, max(exact - 1, 0), 0, exact + LONGER))


def _index(rng: Random, side: int, level: int) -> int:
    """An index of a level along one side of the table's own sheet: an end, the next beyond it, anywhere, far away."""
    end = (min(side, 8) or 1) * 2**min(level, 3)
    return rng.choice((-4, -3, end - 1, end, rng.randint(-3, end - 1), rng.randint(-4, 64), LEAST, GREATEST))


def setting(rng: Random, t: samples.Table) -> Tuple[int, int, int, int]:
    """A level, a place and a number to set there: mostly of an active function, or beside one, else anywhere."""
    level, kind = rng.choice((0, 1, 2, 3, 3, 4, 2**50)), rng.random()
    if kind < 0.75 and calls.judge_regions(t.w, t.h, t.tree) is None:
        surface = calls.surface_of(t.w, t.h, t.tree)
        level = rng.choice([n for n in LEVELS if surface.active_functions(n)])
        i, j = rng.choice(surface.active_functions(level))
        if kind < 0.25:
            i, j = rng.choice(((_index(rng, t.w, level), j), (i, _index(rng, t.h, level))))
    else:
        i, j = _index(rng, t.w, level), _index(rng, t.h, level)
    limit = 32_000 * 64**min(level, 3)
    return level, i, j, rng.choice((0, 5, -limit, limit, limit + 1, -limit - 1, LEAST))


def insertion_table(rng: Random) -> samples.Table:
    """A table for insertions, mostly on small sheets: the evaluator is slow on large ones."""
    sides = range(1, 9) if rng.random() < 0.3 else (1, 1, 2, 3)
    return table_on(rng, rng.choice(sides), rng.choice(sides))


def _tree_after(t: samples.Table, given: Tuple[int, int, int, int], level: int) -> int:
    """The length of the tree after an insertion; that of the tree before where it is refused anyway."""
    if calls.least_level(t.w, t.h, t.tree, given).answer[0] == "refused" or level not in (1, 2, 3):
        return len(t.tree)
    return len(quadtree.insert_box(t.tree, t.w, t.h, given, level))


def insertion(rng: Random, t: samples.Table) -> samples.Insertion:
    """An insertion into a table; about two in five are refused for their box, level or an output."""
    inside = samples.random_box(rng, min(t.w, 8) or 1, min(t.h, 8) or 1)
    given = rng.choice((inside, inside, inside, box(rng, t.w, t.h)))
    level = rng.choice((1, 2, 3) * 10 + ODD_LEVELS)
    exact, places = _tree_after(t, given, level), all_places(t.w, t.h)
    enough = (exact, exact, exact + rng.randint(1, 40), quadtree.GREATEST_TREE, quadtree.GREATEST_TREE + 35)
    tree_length = rng.choice(enough * 4 + (0, 1, max(exact - 1, 0), LONGER))
    numbers_length = rng.choice((places,) * 30 + (places + 1, places - 1, 0, places + LONGER))
    return samples.Insertion(given, level, [at % 251 for at in range(tree_length)], list(range(7, 7 + numbers_length)))


def slip(rng: Random, t: samples.Table, given: Tuple[int, int, int, int], level: int) -> Slip:
    """A slip for a commit: the table's own for this box and level in half of the draws, else one near it, of another
    table, or of any numbers."""
    own, kind = calls.judge_insertion(*t, given, level) is None, rng.random()
    if kind < 0.3 and own:
        return enquiries.slip_of(*t[:3], given, level)
    if kind < 0.8:
        return samples.whatever_slip(rng, t, given, level)
    if kind < 0.9:
        other = insertion_table(rng)
        return enquiries.slip_of(*other[:3], samples.random_box(rng, other.w, other.h), rng.choice((1, 2, 3)))
    return Slip(given, level, rng.choice(ODD_NUMBERS), tuple(rng.choice(ODD_NUMBERS) for _ in LEVELS),
                rng.choice(ODD_NUMBERS))


def grid(w: int, h: int) -> List[samples.Point]:
    """Every point of a sheet's grid."""
    return [(u, v) for v in range(128 * h + 1) for u in range(128 * w + 1)]


def _some_of_grid(rng: Random, stride: int) -> List[samples.Point]:
    """Every stride-th point of the grid of a 1 by 1 sheet along u and along v, with the far edges."""
    across, along = ({*range(rng.randrange(stride), 129, stride), 128} for _ in range(2))
    return [(u, v) for v in sorted(along) for u in sorted(across)]


def reading_points(rng: Random, w: int, h: int) -> List[samples.Point]:
    """Where a list of enquiries and commits is read before and after it: on 1 by 1 the grid, seldom all of it, else at
    random; and at one point beyond the sheet."""
    w, h = min(w, 8) or 1, min(h, 8) or 1
    beyond = rng.choice(((128 * w + 1, 0), (0, 128 * h + 1)))
    if (w, h) == (1, 1):
        return (grid(1, 1) if rng.random() < 0.02 else _some_of_grid(rng, 8)) + [beyond]
    return samples.random_points(rng, w, h, 100) + [beyond]


def level_places(t: samples.Table, level: int) -> int:
    if 1 <= t.w <= 8 and 1 <= t.h <= 8 and 0 <= level <= 3:
        return place_count(t.w, t.h, level)
    return 7


def all_places(w: int, h: int) -> int:
    return total_places(w, h) if 1 <= w <= 8 and 1 <= h <= 8 else 11

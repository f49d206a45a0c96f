"""Random tables, boxes, insertions, slips and points, made from a seeded generator; the tables of the bench sheet."""
from __future__ import annotations

from random import Random
from typing import Callable, List, NamedTuple, Sequence, Tuple

import calls
import enquiries
import tree as quadtree
from enquiries import Slip
from surface import LEVELS, QUARTERS_PER_CELL, STEPS_PER_CELL, TREE_SIDE, Box, LevelMap, Surface, total_places

Point = Tuple[int, int]


class Table(NamedTuple):
    """Document 01, Calls: 'A table is a sheet, a tree and a coefficient slice'."""

    w: int
    h: int
    tree: List[int]
    coefficients: List[int]

    def surface(self) -> Surface:
        return calls.surface_of(self.w, self.h, self.tree)


class Insertion(NamedTuple):
    """Document 01, What each call is held to, 5: an insertion has 'its own box, level and outputs'."""

    box: Box
    level: int
    tree_out: List[int]
    coefficients_out: List[int]


# A 1 by 1 table whose level 0 columns are the given ones, 'equal in all rows'.
def columns_table(columns: Sequence[int]) -> Table:
    return Table(1, 1, [0], list(columns) * 4 + [0] * (total_places(1, 1) - 16))


# Document 01, Bench sheet: 'S is 1 by 1 with level 0 columns -1,000, 0, 1,000, 2,000'.
def bench_s() -> Table:
    return columns_table((-1_000, 0, 1_000, 2_000))


def fresh_table(w: int, h: int, number: int) -> Table:
    outcome = calls.fresh(w, h, number, [9], [7] * total_places(w, h))
    return Table(w, h, outcome.lent["tree_out"], outcome.lent["coefficients_out"])


def inserted(table: Table, box: Box, level: int) -> Table:
    outcome = calls.insert(*table, box, level, [9] * quadtree.GREATEST_TREE, [7] * len(table.coefficients))
    assert outcome.answer[0] == "ok"
    return table._replace(
        tree=outcome.lent["tree_out"][: outcome.answer[1]], coefficients=outcome.lent["coefficients_out"]
    )


def random_box(rng: Random, w: int, h: int) -> Box:
    u0, u1 = sorted(rng.sample(range(QUARTERS_PER_CELL * w + 1), 2))
    v0, v1 = sorted(rng.sample(range(QUARTERS_PER_CELL * h + 1), 2))
    return u0, v0, u1, v1


# The level map that has these levels by their quarters along u and v.
def levels_by(level: Callable[[int, int], int]) -> LevelMap:
    return tuple(tuple(level(u, v) for u in range(TREE_SIDE)) for v in range(TREE_SIDE))


# A level map with up to the given number of random boxes, each raised to a random level.
def random_levels(rng: Random, w: int, h: int, boxes: int) -> LevelMap:
    levels: LevelMap = tuple((0,) * TREE_SIDE for _ in range(TREE_SIDE))
    for _ in range(rng.randint(1, boxes)):
        levels = quadtree.raised(levels, random_box(rng, w, h), rng.choice((1, 2, 3, 3)))
    return levels


# A level map with a level drawn for each quarter square, so that the tree is large.
def speckled_levels(rng: Random, w: int, h: int, choices: Sequence[int]) -> LevelMap:
    wide, high = QUARTERS_PER_CELL * w, QUARTERS_PER_CELL * h
    return levels_by(lambda u, v: rng.choice(choices) if u < wide and v < high else 0)


# Coefficients within a share of their limit at the active places, 0 at the passive ones.
def random_coefficients(rng: Random, surface: Surface, share: int = 1) -> List[int]:
    coefficients = []
    for limit in surface.limits():
        if limit is None:
            coefficients.append(0)
        elif share == 1 and rng.random() < 0.2:
            coefficients.append(rng.choice((-limit, limit)))
        else:
            coefficients.append(rng.randint(-(limit // share), limit // share))
    return coefficients


# The same watts at every active function.
def equal_coefficients(surface: Surface, watts: int) -> List[int]:
    return [
        watts * 64**level if surface.active(level, i, j) else 0
        for level in LEVELS
        for i, j in surface.functions(level)
    ]


def table_of(rng: Random, w: int, h: int, levels: LevelMap, share: int = 1) -> Table:
    tree = quadtree.tree_of(levels)
    return Table(w, h, tree, random_coefficients(rng, calls.surface_of(w, h, tree), share))


def random_table(rng: Random, w: int, h: int, boxes: int = 4, share: int = 1) -> Table:
    return table_of(rng, w, h, random_levels(rng, w, h, boxes), share)


# A random insertion into a table of the given size; about one in three is of a kind that is refused.
def random_insertion(rng: Random, w: int, h: int, total: int) -> Insertion:
    box, level = random_box(rng, w, h), rng.choice((1, 2, 3))
    tree_length, numbers = quadtree.GREATEST_TREE, total
    fault = rng.choice((0, 0, 0, 0, 0, 0, 0, 7, 8, 16, 17))
    if fault == 7:
        u0, v0, u1, v1 = box
        box = rng.choice(((u1, v0, u0, v1), (u0, v0, u1, v0), (u0, v0, QUARTERS_PER_CELL * w + 1, v1), (-1, 0, 1, 1)))
    elif fault == 8:
        level = rng.choice((-1, 0, 4))
    elif fault == 16:
        numbers += rng.choice((-1, 1))
    elif fault == 17:
        tree_length = 0
    return Insertion(box, level, [9] * tree_length, [7] * numbers)


# A slip that a commit may be handed for a box and a level: in two of five draws the table's own, where it gives one;
# else with a number off by one or by far, or the numbers of the old tree, of another level or box, or any.
def whatever_slip(rng: Random, table: Table, box: Box, level: int) -> Slip:
    made_up = Slip(box, level, rng.choice((0, 1, 13)), tuple(rng.choice((0, 1, 16, 25)) for _ in LEVELS), 4)
    if calls.judge_insertion(*table, box, level) is not None:
        return made_up

    def given(other_box: Box, other_level: int) -> Slip:
        return enquiries.slip_of(*table[:3], other_box, other_level)._replace(box=box, level=level)

    own, kind = given(box, level), rng.randrange(10)
    if kind < 4:
        return own
    if kind < 7:
        at, off = rng.randrange(6), rng.choice((1, 1, 1, -1, -1, -1, 2**8, 2**16, 2**32, 2**63))
        numbers = [own.length, *own.active, own.visited]
        numbers[at] = (numbers[at] + off) % 2**64
        return own._replace(length=numbers[0], active=tuple(numbers[1:5]), visited=numbers[5])
    if kind == 7:
        surface, visited = table.surface(), quadtree.levels_under(table.tree, box)[-1]
        active = tuple(len(surface.active_functions(one)) for one in LEVELS)
        return rng.choice((own._replace(length=len(table.tree)), own._replace(active=active),
                           own._replace(visited=visited), Slip(box, level, len(table.tree), active, visited)))
    return given(random_box(rng, table.w, table.h), rng.choice((1, 2, 3))) if kind == 8 else made_up


# Points at knots, edges and between, far edges included.
def random_points(rng: Random, w: int, h: int, count: int) -> List[Point]:
    def place(side: int) -> int:
        end = STEPS_PER_CELL * side
        return rng.choice((0, end, rng.randint(0, end), rng.randint(0, end), 16 * rng.randint(0, 8 * side)))

    return [(place(w), place(h)) for _ in range(count)]


# Four by four points in every closed cell of level 3. A reading is bicubic on each such cell, so two readings that
# agree at these points agree at every point of the sheet.
def deciding_points(w: int, h: int) -> List[Point]:
    def places(side: int) -> List[int]:
        cell = STEPS_PER_CELL // 8
        inner = [cell * c + offset for c in range(8 * side) for offset in (0, 5, 11)]
        return inner + [STEPS_PER_CELL * side]

    return [(u, v) for v in places(h) for u in places(w)]

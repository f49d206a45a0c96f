"""The least and the greatest level under a box: cases worked out by hand, and the misreadings that they show.

Visited are the root and each square below it that shares area with the box, so that the count of a case is found by
writing down those squares, side by side: 32, 16, 8, 4 (a cell), 2 and 1 quarters. A leaf's square has its level.
"""
from __future__ import annotations

from typing import Callable, Dict, List, NamedTuple, Sequence, Tuple

import calls
from properties import Check, nodes
from surface import Box
from tree import GREATEST_LEVEL, SPLIT, shares_area

# The least level, the greatest level and the nodes visited.
Levels = Tuple[int, int, int]


class Case(NamedTuple):
    """A sheet, its tree, a box on it, and what is due."""

    w: int
    h: int
    tree: List[int]
    box: Box
    due: Levels


# A tree whose first cells, south-west, south-east, north-west and north-east, are these; all else has level 0.
def of_cells(*first: int) -> List[int]:
    return [4, 4, 4, *first] + [0] * 9


# 2 by 2, a level for each cell: 3 and 1 in the south, 2 and 0 in the north; then 0 and 3, 1 and 2, the ends first.
# Each box visits the root, its squares of 16 and 8 quarters, and the cells that it shares area with.
FALLING, RISING = [4, 4, 4, 3, 1, 2, 0] + [0] * 6, [4, 4, 4, 0, 3, 1, 2] + [0] * 6
FOUR_CELLS = [
    *(Case(2, 2, FALLING, box, due) for box, due in (
        ((0, 0, 4, 4), (3, 3, 4)), ((4, 0, 8, 4), (1, 1, 4)), ((0, 4, 4, 8), (2, 2, 4)), ((4, 4, 8, 8), (0, 0, 4)),
        ((0, 0, 8, 4), (1, 3, 5)), ((0, 4, 8, 8), (0, 2, 5)), ((0, 0, 4, 8), (2, 3, 5)), ((4, 0, 8, 8), (0, 1, 5)),
        ((0, 0, 8, 8), (0, 3, 7)), ((3, 3, 5, 5), (0, 3, 7)), ((3, 3, 4, 4), (3, 3, 4)), ((4, 3, 5, 4), (1, 1, 4)),
        ((3, 4, 4, 5), (2, 2, 4)), ((4, 4, 5, 5), (0, 0, 4)), ((3, 0, 5, 1), (1, 3, 5)), ((7, 3, 8, 5), (0, 1, 5)))),
    *(Case(2, 2, RISING, box, due) for box, due in (
        ((0, 0, 8, 8), (0, 3, 7)), ((0, 0, 8, 4), (0, 3, 5)), ((0, 4, 8, 8), (1, 2, 5)), ((0, 0, 4, 8), (0, 1, 5)),
        ((4, 0, 8, 8), (2, 3, 5)), ((7, 7, 8, 8), (2, 2, 4)), ((0, 0, 1, 1), (0, 0, 4)), ((3, 2, 6, 4), (0, 3, 5)))),
]

# 1 by 1, split to single quarters in the south-west and in the north-east; from north to south its rows are
#   1 1 2 0
#   1 1 2 2
#   2 3 3 3
#   0 1 3 3
# Each box visits the squares of 32, 16, 8 and 4 quarters, then those of 2, then single quarters of the two splits.
SPLIT_CELL = [4, 4, 4, 4, 4, 0, 1, 2, 3, 3, 1, 4, 2, 2, 2, 0] + [0] * 9
QUARTERS = [
    Case(1, 1, SPLIT_CELL, box, due) for box, due in (
        ((0, 0, 1, 1), (0, 0, 6)), ((1, 0, 2, 1), (1, 1, 6)), ((0, 1, 1, 2), (2, 2, 6)), ((1, 1, 2, 2), (3, 3, 6)),
        ((2, 0, 3, 1), (3, 3, 5)), ((1, 2, 2, 3), (1, 1, 5)), ((3, 3, 4, 4), (0, 0, 6)), ((2, 2, 3, 3), (2, 2, 6)),
        ((0, 0, 2, 1), (0, 1, 7)), ((0, 0, 1, 2), (0, 2, 7)), ((0, 0, 2, 2), (0, 3, 9)), ((2, 2, 4, 4), (0, 2, 9)),
        ((0, 2, 2, 4), (1, 1, 5)), ((1, 2, 3, 4), (1, 2, 8)), ((0, 1, 4, 2), (2, 3, 8)), ((1, 1, 3, 3), (1, 3, 10)),
        ((2, 0, 4, 2), (3, 3, 5)), ((3, 0, 4, 4), (0, 3, 8)), ((0, 0, 4, 4), (0, 3, 16)))
]

# One leaf: the root alone is visited. Above 0 it is on 8 by 8, where no square lies beyond the sheet.
ONE_LEAF = [
    *(Case(8, 8, [leaf], box, (leaf, leaf, 1)) for leaf in range(4)
      for box in ((0, 0, 32, 32), (0, 0, 1, 1), (31, 31, 32, 32), (15, 0, 17, 32), (0, 16, 32, 17))),
    *(Case(w, h, [0], (0, 0, 4 * w, 4 * h), (0, 0, 1)) for w, h in ((1, 1), (3, 2), (8, 7))),
]

# One level on the whole of a sheet below 8 by 8: 'squares beyond the sheet have level 0', and none is under a box. 3 by
# 1 reaches into two squares of 8 quarters. Of 5 by 3 two squares of 8 lie on the sheet, two reach beyond it along v,
# one along u and one along both; under the whole sheet lie 2, then 2 and 2, then 2, then 1 cells of these.
WIDE = [4, 4, 4, 2, 2, 0, 0, 4, 2, 0, 0, 0, 0, 0, 0, 0, 0]
FIVE = [4, 4, 1, 1, 4, 1, 1, 0, 0, 4, 1, 1, 0, 0, 4, 4, 1, 0, 1, 0, 0, 4, 1, 0, 0, 0, 0, 0, 0]
BEYOND = [
    *(Case(1, 1, of_cells(leaf), box, (leaf, leaf, 4)) for leaf in (1, 2, 3) for box in ((0, 0, 4, 4), (3, 3, 4, 4))),
    Case(3, 1, WIDE, (0, 0, 12, 4), (2, 2, 7)),
    Case(3, 1, WIDE, (4, 0, 12, 4), (2, 2, 6)),
    Case(3, 1, WIDE, (11, 3, 12, 4), (2, 2, 4)),
    Case(5, 3, FIVE, (0, 0, 20, 12), (1, 1, 16)),
    Case(5, 3, FIVE, (19, 11, 20, 12), (1, 1, 4)),
    # Document 01, Bench sheet: '2 by 1, the same box'; its second cell is a leaf of its own.
    Case(2, 1, of_cells(1), (0, 0, 8, 4), (0, 1, 5)),
    Case(2, 1, of_cells(1), (0, 0, 4, 4), (1, 1, 4)),
    Case(2, 1, of_cells(1), (4, 0, 8, 4), (0, 0, 4)),
]

CASES: Dict[str, List[Case]] = {
    "one leaf": ONE_LEAF, "four cells": FOUR_CELLS, "single quarters": QUARTERS, "squares beyond the sheet": BEYOND,
}


# Document 02, Four: 'The least level call also gives the greatest level under the box'.
def greatest_levels(check: Check) -> None:
    for title, cases in CASES.items():
        for case in cases:
            outcome = calls.least_level(*case[:4])
            told = "%s: %s on %d by %d" % (title, case.box, case.w, case.h)
            check(outcome == (("ok", *case.due), {"tree": case.tree}), "levels under %s" % told)


# A node's square (u, v, side) and its byte.
Node = Tuple[Tuple[int, int, int], int]
Choice = Callable[[List[Node], Box], List[int]]


# Whether a square shares an edge, a corner or area with the box.
def touches(u: int, v: int, side: int, box: Box) -> bool:
    u0, v0, u1, v1 = box
    return max(u, u0) <= min(u + side, u1) and max(v, v0) <= min(v + side, v1)


# Whether a node is a child of a split that is visited: its parent's square, of twice the side, shares area with the
# box. The root counts as such a child.
def of_visited(u: int, v: int, side: int, box: Box) -> bool:
    return shares_area(u - u % (2 * side), v - v % (2 * side), 2 * side, box)


# The levels of the leaves whose squares are chosen.
def leaves(chosen: Callable[[int, int, int, Box], bool]) -> Choice:
    return lambda tree, box: [byte for square, byte in tree if byte != SPLIT and chosen(*square, box)]


UNDER = leaves(shares_area)


# The published levels, with the greatest of others in place of the greatest; 0 where there are none.
def greatest_of(others: Choice) -> Callable[[List[Node], Box], Levels]:
    def read(tree: List[Node], box: Box) -> Levels:
        least, _, visited = published(tree, box)
        return least, max(others(tree, box), default=0), visited

    return read


# The published levels, changed.
def changed(change: Callable[[int, int, int], Levels]) -> Callable[[List[Node], Box], Levels]:
    return lambda tree, box: change(*published(tree, box))


# The published levels, from the squares of all nodes; a square's parents share area with the box where it does.
def published(tree: List[Node], box: Box) -> Levels:
    under = UNDER(tree, box)
    return min(under), max(under), sum(shares_area(*square, box) for square, _ in tree)


# The level at one quarter of the box.
def corner_of(quarter: Callable[[Box], Tuple[int, int]]) -> Choice:
    return lambda tree, box: leaves(lambda u, v, side, _: shares_area(u, v, side, one(*quarter(box))))(tree, box)


def one(u: int, v: int) -> Box:
    return u, v, u + 1, v + 1


# A walk that ends where the least and the greatest of all levels have been seen.
def ended_early(tree: List[Node], box: Box) -> Levels:
    least, greatest, visited = published(tree, box)
    bytes_seen = [byte for square, byte in tree if shares_area(*square, box)]
    ends = [n for n in range(1, visited) if {0, GREATEST_LEVEL} <= set(bytes_seen[:n])]
    return least, greatest, min(ends, default=visited)


# Another greatest where one leaf alone is under the box.
def alone(level: int) -> Callable[[List[Node], Box], Levels]:
    return greatest_of(lambda tree, box: UNDER(tree, box) if len(UNDER(tree, box)) > 1 else [level])


MISREADINGS: Dict[str, Callable[[List[Node], Box], Levels]] = {
    "the greatest of the whole tree": greatest_of(leaves(lambda u, v, side, box: True)),
    "the greatest away from the box": greatest_of(leaves(lambda u, v, side, box: not shares_area(u, v, side, box))),
    "the greatest of squares that touch the box": greatest_of(leaves(touches)),
    "the greatest of the children of visited splits": greatest_of(leaves(of_visited)),
    "the greatest of the visited bytes": greatest_of(lambda tree, box: [
        byte for square, byte in tree if shares_area(*square, box)]),
    "the greatest at the low corner": greatest_of(corner_of(lambda box: box[:2])),
    "the greatest at the high corner": greatest_of(corner_of(lambda box: (box[2] - 1, box[3] - 1))),
    "3 where one leaf is there": alone(GREATEST_LEVEL),
    "0 where one leaf is there": alone(0),
    "always 3": greatest_of(lambda tree, box: [GREATEST_LEVEL]),
    "least and greatest exchanged": changed(lambda least, greatest, visited: (greatest, least, visited)),
    "the least for both": changed(lambda least, greatest, visited: (least, least, visited)),
    "the greatest for both": changed(lambda least, greatest, visited: (greatest, greatest, visited)),
    "a second walk counted": changed(lambda least, greatest, visited: (least, greatest, 2 * visited)),
    "a second walk counted, below the root": changed(lambda least, greatest, visited: (
        least, greatest, 2 * visited - 1)),
    "no walk past 0 and 3": ended_early,
}


# On which cases each misreading gives another answer than document 02.
def greatest_misreadings(check: Check) -> None:
    def failing(read: Callable[[List[Node], Box], Levels]) -> Sequence[str]:
        return [title for title, cases in CASES.items()
                if any(read(list(zip(nodes(case.tree), case.tree)), case.box) != case.due for case in cases)]

    check(not failing(published), "levels under a box as published")
    split = {"four cells", "single quarters"}
    shown_by = {name: split | {"squares beyond the sheet"} for name in MISREADINGS}
    # Where all of the tree has one level nothing else can be told; one leaf has no split and no second node.
    shown_by.update({name: set(CASES) for name in (
        "the greatest away from the box", "3 where one leaf is there", "0 where one leaf is there", "always 3",
        "a second walk counted")})
    # No box there has 3 beside 0, or its greatest level away from its low corner.
    shown_by.update({"no walk past 0 and 3": split, "the greatest at the low corner": split})
    for name, read in MISREADINGS.items():
        shown = failing(read)
        check(set(shown) == shown_by[name], "%s shows on %s" % (name, sorted(shown)))

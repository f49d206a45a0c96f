"""Region trees of document 01: judging a byte list, its level map, the visiting rule, and the one tree of a map."""
from __future__ import annotations

from functools import lru_cache
from typing import List, Optional, Sequence, Tuple

from surface import QUARTERS_PER_CELL, TREE_SIDE, Box, LevelMap, Surface

SPLIT = 4
GREATEST_LEVEL = 3
GREATEST_TREE = 1_365


class Damaged(Exception):
    """The bytes are not a tree of the form that document 01 gives."""


# Document 01, Regions: 'south-west, south-east, north-west and north-east children (west is small u, south small v)'.
def quadrants(u: int, v: int, side: int) -> List[Tuple[int, int]]:
    half = side // 2
    return [(u, v), (u + half, v), (u, v + half), (u + half, v + half)]


# Document 01, Regions: 'squares beyond the sheet have level 0'; whether a square reaches beyond.
def beyond_sheet(u: int, v: int, side: int, w: int, h: int) -> bool:
    return u + side > w * QUARTERS_PER_CELL or v + side > h * QUARTERS_PER_CELL


# Document 01, Regions: one node 'written parent first'; fills the grid and gives the place after the node.
def _parse(tree: Sequence[int], at: int, u: int, v: int, side: int, w: int, h: int, grid: List[List[int]]) -> int:
    if at >= len(tree):
        raise Damaged("the tree ends inside a node")
    byte = tree[at]
    if byte == SPLIT:
        # 'A single quarter can't split'.
        if side == 1:
            raise Damaged("a single quarter is split")
        first = at + 1
        after = first
        for cu, cv in quadrants(u, v, side):
            after = _parse(tree, after, cu, cv, side // 2, w, h, grid)
        # 'four children that are equal leaves are not allowed'.
        if after == first + 4 and len(set(tree[first:after])) == 1:
            raise Damaged("four children are equal leaves")
        return after
    if not 0 <= byte <= GREATEST_LEVEL:
        raise Damaged("a byte is neither a leaf nor a split")
    if byte > 0 and beyond_sheet(u, v, side, w, h):
        raise Damaged("a square beyond the sheet has a level above 0")
    for row in grid[v : v + side]:
        row[u : u + side] = [byte] * side
    return at + 1


# Document 01, Regions: the level map of a tree of the given form, None for any other byte list (refusal 2).
def level_map(tree: Sequence[int], w: int, h: int) -> Optional[LevelMap]:
    grid = [[0] * TREE_SIDE for _ in range(TREE_SIDE)]
    try:
        end = _parse(tree, 0, 0, 0, TREE_SIDE, w, h, grid)
    except Damaged:
        return None
    # Document 01, Calls: 'A lent tree ends with its slice, else 2.'
    if end != len(tree):
        return None
    return tuple(tuple(row) for row in grid)


# The surface of a sheet over a tree of the given form, None for any other byte list; the last few are kept.
@lru_cache(maxsize=32)
def surface_over(w: int, h: int, tree: Tuple[int, ...]) -> Optional[Surface]:
    levels = level_map(tree, w, h)
    return None if levels is None else Surface(w, h, levels)


# Document 01, Regions: 'So one set of regions has one tree'; the bytes of the square at (u, v).
def _written(levels: LevelMap, u: int, v: int, side: int) -> List[int]:
    present = set()
    for row in levels[v : v + side]:
        present.update(row[u : u + side])
    if len(present) == 1:
        return [present.pop()]
    written = [SPLIT]
    for cu, cv in quadrants(u, v, side):
        written += _written(levels, cu, cv, side // 2)
    return written


# Document 01, Regions: the one tree of a level map.
def tree_of(levels: LevelMap) -> List[int]:
    return _written(levels, 0, 0, TREE_SIDE)


# Document 01, Regions: whether a square 'shares area with the box'; touching edges share none.
def shares_area(u: int, v: int, side: int, box: Box) -> bool:
    u0, v0, u1, v1 = box
    return max(u, u0) < min(u + side, u1) and max(v, v0) < min(v + side, v1)


# The place after the node at this place.
def _after(tree: Sequence[int], at: int) -> int:
    if tree[at] != SPLIT:
        return at + 1
    at += 1
    for _ in range(4):
        at = _after(tree, at)
    return at


# Document 01, Regions: 'The root is visited, and each child of a visited split whose square shares area with the box;
# nothing else is.' The bytes of the visited nodes, parents first.
def _visited(tree: Sequence[int], at: int, u: int, v: int, side: int, box: Box) -> List[int]:
    visited = [tree[at]]
    if tree[at] == SPLIT:
        child = at + 1
        for cu, cv in quadrants(u, v, side):
            if shares_area(cu, cv, side // 2, box):
                visited += _visited(tree, child, cu, cv, side // 2, box)
            child = _after(tree, child)
    return visited


# Document 01, Regions: 'The least level under a box comes with the number of tree nodes visited.' Document 02, Four: it
# 'also gives the greatest level under the box, from the same visited nodes and with the same count'.
def levels_under(tree: Sequence[int], box: Box) -> Tuple[int, int, int]:
    visited = _visited(tree, 0, 0, 0, TREE_SIDE, box)
    leaves = [byte for byte in visited if byte != SPLIT]
    return min(leaves), max(leaves), len(visited)


# Document 01, Functions: 'Insertion gives each square in the box the greater of its old level and the one named'.
def raised(levels: LevelMap, box: Box, level: int) -> LevelMap:
    return tuple(
        tuple(max(old, level) if shares_area(u, v, 1, box) else old for u, old in enumerate(row))
        for v, row in enumerate(levels)
    )


# The tree after the insertion of a box into a tree of the given form.
def insert_box(tree: Sequence[int], w: int, h: int, box: Box, level: int) -> List[int]:
    levels = level_map(tree, w, h)
    if levels is None:
        raise Damaged("the tree is not of the form of document 01")
    return tree_of(raised(levels, box, level))

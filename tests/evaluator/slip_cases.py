"""Slips, enquiries and commits: cases worked out by hand.

Document 02, Five: 'box, level, new tree length, active functions of each level over the new tree, and the tree nodes
that one least-level call over the box will visit in the new tree'. A tree has one byte and four more for each split.
Along a side of n cells level L has n 2^L + 3 functions; those whose cut support lies in the first k of its cells are
the first k, in the last k the last k, in k of them between the first and the last k - 3, if any; on the whole side all
lie. Visited are the root and each square below it that shares area with the box: squares of 32, 16, 8, 4 (a cell), 2
and 1 quarters.
"""
from __future__ import annotations

from typing import Callable, Iterator, List, NamedTuple, Optional, Tuple

import calls
import enquiries
import samples
import tree as quadtree
from enquiries import Slip
from level_cases import FALLING, FIVE, WIDE, of_cells
from properties import Check
from samples import Table
from surface import Box

CELL: Box = (0, 0, 4, 4)


class Case(NamedTuple):
    """A table, a box and a level, and what is due of the slip beside these."""

    told: str
    table: Table
    box: Box
    level: int
    length: int
    active: Tuple[int, int, int, int]
    visited: int

    def slip(self) -> Slip:
        return Slip(*self[2:])


# A table of 700 watts throughout: a slip has nothing of coefficients.
def even(w: int, h: int, tree: List[int], watts: int = 700) -> Table:
    return Table(w, h, tree, samples.equal_coefficients(calls.surface_of(w, h, tree), watts))


_S, _FLAT_2 = samples.bench_s(), even(2, 1, [0])

# Document 01, Bench sheet: 'S, level 1 box 0,0 to 4,4: tree 4 4 4 1 and nine 0; 25 active', '2 by 1, the same box: 16
# active at level 0, 10 at level 1', '8 by 8, tree 3: 4,489 active', 'least level 1, 4 nodes'.
BENCH = [
    Case("S, level 1", _S, CELL, 1, 13, (0, 25, 0, 0), 4),
    Case("2 by 1, the same box", _FLAT_2, CELL, 1, 13, (16, 10, 0, 0), 4),
    Case("8 by 8, level 3", even(8, 8, [0]), (0, 0, 32, 32), 3, 1, (0, 0, 0, 4_489), 1),
]

# Whole sheets: all places of one level are active. Of 1 by 1 the one cell is a leaf, of 2 by 1 two of one split; 3 by 1
# and 5 by 3 are those of level_cases.py.
WHOLE = [
    Case("S, level 2", _S, CELL, 2, 13, (0, 0, 49, 0), 4),
    Case("S, level 3", _S, CELL, 3, 13, (0, 0, 0, 121), 4),
    Case("8 by 8, level 1", even(8, 8, [0]), (0, 0, 32, 32), 1, 1, (0, 361, 0, 0), 1),
    Case("8 by 8, level 2", even(8, 8, [0]), (0, 0, 32, 32), 2, 1, (0, 0, 1_225, 0), 1),
    Case("2 by 1, both cells", _FLAT_2, (0, 0, 8, 4), 1, 13, (0, 7 * 5, 0, 0), 5),
    Case("2 by 1, the second cell", even(2, 1, of_cells(1)), (4, 0, 8, 4), 1, 13, (0, 7 * 5, 0, 0), 4),
    Case("3 by 1", even(3, 1, [0]), (0, 0, 12, 4), 2, len(WIDE), (0, 0, 15 * 7, 0), 7),
    Case("5 by 3", even(5, 3, [0]), (0, 0, 20, 12), 1, len(FIVE), (0, 13 * 9, 0, 0), 16),
]

# A quarter in a corner: five splits. It holds one cell of level 2 and two of level 3 along each side, and none of
# level 1, whose functions stay as they are: all of level 0 do.
QUARTER = [
    *(Case("a quarter of S, level %d" % level, _S, (0, 0, 1, 1), level, 21, active, 6)
      for level, active in ((1, (16, 0, 0, 0)), (2, (16, 0, 1, 0)), (3, (16, 0, 0, 4)))),
    Case("the last quarter of 8 by 8", even(8, 8, [0]), (31, 31, 32, 32), 3, 21, (121, 0, 0, 4), 6),
]

# Boxes off the edges of cells. Three columns of quarters hold six cells of level 3 along u, and of v the whole side:
# beside the cell two squares of 2 quarters are split. A box over the edge of two cells splits both and four squares of
# 2 quarters, and holds too little for any function. In the middle of a cell 2 quarters are four cells of level 3, which
# one function alone needs; four squares of 2 quarters are split.
ODD = [
    Case("three columns", _S, (0, 0, 3, 4), 3, 25, (16, 0, 0, 6 * 11), 12),
    Case("over an edge", _FLAT_2, (3, 1, 5, 3), 2, 37, (20, 0, 0, 0), 13),
    Case("in the middle", even(1, 1, of_cells(1)), (1, 1, 3, 3), 3, 33, (0, 25, 0, 1), 12),
]

# Of cells with levels 3 and 1 in the south, 2 and 0 in the north. All at least 2: of level 2 all 11 by 11 but the 4 by
# 4 that lie in the cell of level 3. The last at least 1: of level 1 all 7 by 7 but the first 2 along u, which lie in
# the cells of level 3 and 2; of level 2 the first 4 along u but 4 along v. The cell of level 3 holds 8 by 8.
MIXED = [
    Case("four cells, all", even(2, 2, FALLING), (0, 0, 8, 8), 2, 13, (0, 0, 121 - 16, 64), 7),
    Case("four cells, the last", even(2, 2, FALLING), (4, 4, 8, 8), 1, 13, (0, 49 - 14, 44 - 16, 64), 4),
]

# 8 by 8 of level 1, one of its four squares of 16 raised to 3: of level 1 all 19 by 19 but 8 by 8, of level 3 32 by 32.
# And strips along v that end at 8 quarters, of level 2, and at 16, of level 1, a box of level 3 up to 4: of level 0 all
# 11 but the first 4 along u, of level 1 the first 8 but 4, of level 2 the first 8 but 4, of level 3 the first 8. Two
# squares of 16 are split and two of 8 in each.
STRIPS = [4, 4, 2, 1, 2, 1, 0, 4, 2, 1, 2, 1, 0]
LARGE = [
    Case("a fourth of 8 by 8", even(8, 8, [1]), (0, 0, 16, 16), 3, 5, (0, 361 - 64, 0, 32 * 32), 2),
    Case("strips", even(8, 8, STRIPS), (0, 0, 4, 32), 3, 29, (7 * 11, 4 * 19, 4 * 35, 8 * 67), 15),
]

# New trees that are shorter than the old or the same: a cell that was split becomes a leaf, a checkerboard, whose tree
# is the longest, one leaf; and boxes that raise nothing.
SPLIT = [4, 4, 4, 4, 1, 0, 0, 0] + [0] * 9
_BOARD = even(8, 8, quadtree.tree_of(samples.levels_by(lambda u, v: (u + v) % 2)))
SHORTER = [
    Case("a split cell", even(1, 1, SPLIT), CELL, 1, 13, (0, 25, 0, 0), 4),
    Case("a checkerboard", _BOARD, (0, 0, 32, 32), 3, 1, (0, 0, 0, 4_489), 1),
    Case("nothing raised on 1 by 1", even(1, 1, of_cells(1)), (1, 1, 3, 3), 1, 13, (0, 25, 0, 0), 4),
    Case("nothing raised on 2 by 1", even(2, 1, of_cells(1)), CELL, 1, 13, (16, 10, 0, 0), 4),
    Case("nothing raised below level 3", even(8, 8, [3]), (5, 6, 7, 8), 1, 1, (0, 0, 0, 4_489), 1),
]

CASES: List[Case] = [*BENCH, *WHOLE, *QUARTER, *ODD, *MIXED, *LARGE, *SHORTER]


class Commit(NamedTuple):
    """A table, the slip that is handed to its commit, the lengths of the outputs, the answer that is due, and the table
    that the slip was asked of."""

    told: str
    due: calls.Answer
    table: Table
    slip: Slip
    tree_out: int = quadtree.GREATEST_TREE
    numbers_out: Optional[int] = None
    asked: Optional[Table] = None

    def outputs(self) -> Tuple[List[int], List[int]]:
        numbers = len(self.table.coefficients) if self.numbers_out is None else self.numbers_out
        return [9] * self.tree_out, [7] * numbers


# The slip with one of its six numbers beside box and level changed.
def changed(slip: Slip, at: int, change: Callable[[int], int]) -> Slip:
    numbers = [slip.length, *slip.active, slip.visited]
    numbers[at] = change(numbers[at])
    return slip._replace(length=numbers[0], active=tuple(numbers[1:5]), visited=numbers[5])


# Slips that differ from this one: each number one more and one less, which 0 has none of, and so much more that 8, 16
# or 32 bits do not show it; two of the active counts, and the length and the count of nodes, exchanged.
def others(slip: Slip) -> Iterator[Tuple[str, Slip]]:
    for at, name in enumerate(("length", "level 0", "level 1", "level 2", "level 3", "visited")):
        for more in (1, -1, 2**8, 2**16, 2**32, 2**63):
            other = changed(slip, at, lambda number: (number + more) % 2**64)
            yield "%s %+d" % (name, more), other
    for a, b in ((0, 1), (0, 2), (0, 3), (1, 2), (1, 3), (2, 3)):
        active = list(slip.active)
        active[a], active[b] = active[b], active[a]
        if tuple(active) != slip.active:
            yield "levels %d and %d exchanged" % (a, b), slip._replace(active=tuple(active))
    yield "reversed", slip._replace(active=slip.active[::-1])
    yield "length and visited exchanged", slip._replace(length=slip.visited, visited=slip.length)


# '19, the slip is not the one that this table gives': before 16 and 17, and where both apply too.
def other_slips() -> Iterator[Commit]:
    cases = [case for case in CASES if case.told in ("S, level 1", "2 by 1, the same box", "strips")]
    for case in cases:
        for told, slip in others(case.slip()):
            if slip != case.slip():
                yield Commit("%s, %s" % (case.told, told), ("refused", 19), case.table, slip)
        off, total = changed(case.slip(), 0, lambda length: length + 1), len(case.table.coefficients)
        room = quadtree.GREATEST_TREE
        for lengths in ((room, total - 1), (room, 0), (0, total), (case.length - 1, total), (0, 0)):
            yield Commit("%s, 19 with 16 or 17" % case.told, ("refused", 19), case.table, off, *lengths)


# The table's own slip: 16 before 17, both sides of the tree's length.
def own_slips() -> Iterator[Commit]:
    for case in CASES:
        total = len(case.table.coefficients)
        yield Commit(case.told, ("ok", case.length), case.table, case.slip(), case.length)
        yield Commit("%s, 17" % case.told, ("refused", 17), case.table, case.slip(), case.length - 1)
        yield Commit("%s, 16" % case.told, ("refused", 16), case.table, case.slip(), case.length, total + 1)
        yield Commit("%s, 16 with 17" % case.told, ("refused", 16), case.table, case.slip(), 0, total - 1)


# Slips that another table gave: taken where this one gives the same, whatever its coefficients and its tree were; else
# 19. On 1 by 2 the same box as on 2 by 1 has the same numbers.
def borrowed_slips() -> Iterator[Commit]:
    s, two = BENCH[0].slip(), BENCH[1].slip()
    fine, split, other = even(1, 1, of_cells(1)), even(1, 1, SPLIT), even(1, 1, [0], -32_000)
    tall, finest, second = even(1, 2, [0]), even(1, 1, of_cells(3)), even(2, 1, of_cells(2))
    for told, table in (("other coefficients", other), ("its own table after it", fine), ("a split cell", split)):
        yield Commit("S's slip, " + told, ("ok", 13), table, s, 13, asked=_S)
    yield Commit("2 by 1's slip, 1 by 2", ("ok", 13), tall, two, 13, asked=_FLAT_2)
    yield Commit("S's slip, all of level 3", ("refused", 19), finest, s, asked=_S)
    yield Commit("S's slip, 2 by 1", ("refused", 19), _FLAT_2, s, asked=_S)
    yield Commit("2 by 1's slip, S", ("refused", 19), _S, two, asked=_FLAT_2)
    yield Commit("2 by 1's slip, its first cell of level 2", ("refused", 19), second, two, asked=_FLAT_2)
    # A slip of one quarter, after which the whole sheet was raised.
    yield Commit("a stale slip", ("refused", 19), fine, QUARTER[0].slip(), asked=_S)
    # What S gives for one level or box is not what it gives for another.
    yield Commit("another level", ("refused", 19), _S, s._replace(level=2))
    yield Commit("another box", ("refused", 19), _S, s._replace(box=(0, 0, 3, 4)))


# Tables, boxes and levels with one fault and with two, and the number of the lowest.
def faults() -> Iterator[Tuple[int, Table, Box, int]]:
    good, no_box, none = _S.coefficients, (0, 0, 5, 4), 4
    past, passive = [32_001] + good[1:], good[:-1] + [1]
    tables = [
        (1, _S._replace(w=0)), (1, _S._replace(h=9, tree=[5])), (1, _S._replace(w=9, coefficients=past)),
        (2, _S._replace(tree=[4, 0, 0, 0, 0])), (2, _S._replace(tree=[1], coefficients=[])),
        (2, _S._replace(tree=[0, 0], coefficients=passive)), (3, _S._replace(coefficients=past[:-1])),
        (3, _S._replace(coefficients=passive + [0])), (4, _S._replace(coefficients=past)),
        (4, _S._replace(coefficients=past[:-1] + [1])), (5, _S._replace(coefficients=passive)),
    ]
    for number, table in tables:
        for box, level in ((CELL, 1), (no_box, 1), (CELL, none), (no_box, none)):
            yield number, table, box, level
    for box in (no_box, (0, 0, 4, 5), (4, 0, 0, 4), (0, 4, 4, 0), (1, 1, 1, 2), (1, 1, 2, 1), (0, 0, 2**64 - 1, 4)):
        for level in (1, 0, none):
            yield 7, _S, box, level
    for level in (0, none, 2**8 + 1, 2**32 + 1, 2**64 - 1):
        yield 8, _S, CELL, level


# A commit judges the slip's own box and level 'with insertion's checks', and 19 'after 8', before 16 and 17.
def faulty_commits() -> Iterator[Commit]:
    for number, table, box, level in faults():
        for told, (length, active, visited) in (("S's numbers", BENCH[0].slip().told()), ("none", (0, (0,) * 4, 0))):
            for lengths in ((quadtree.GREATEST_TREE, len(_S.coefficients)), (0, 0)):
                slip = Slip(box, level, length, active, visited)
                yield Commit("%d with 19, %s" % (number, told), ("refused", number), table, slip, *lengths)


COMMITS: List[Commit] = [*own_slips(), *other_slips(), *borrowed_slips(), *faulty_commits()]


# What the slip is, and 'writes nothing'.
def slips(check: Check) -> None:
    for case in CASES:
        outcome = enquiries.enquire(*case.table, case.box, case.level)
        check(outcome.answer == ("ok", case.slip()), "%s gives %s" % (case.told, outcome.answer[1]))
        lent = {"tree": case.table.tree, "coefficients": case.table.coefficients}
        check(outcome.lent == lent, "%s: an enquiry leaves all that was lent" % case.told)
    for number, table, box, level in faults():
        kept = {"tree": table.tree, "coefficients": table.coefficients}
        outcome = enquiries.enquire(*table, box, level)
        check(outcome == (("refused", number), kept), "an enquiry, %d, given %s" % (number, outcome.answer))


# What a commit gives, and that a refused one writes nothing and an accepted one inserts as before.
def commits(check: Check) -> None:
    for case in COMMITS:
        outputs = case.outputs()
        outcome = enquiries.commit(*case.table, case.slip, *outputs)
        check(outcome.answer == case.due, "a commit, %s, given %s" % (case.told, outcome.answer))
        lent = dict(zip(("tree", "coefficients", "tree_out", "coefficients_out"), (*case.table[2:], *outputs)))
        if case.due[0] == "refused":
            check(outcome.lent == lent, "a refused commit writes nothing, %s" % case.told)
        else:
            before = calls.insert(*case.table, case.slip.box, case.slip.level, *outputs)
            check(outcome == before, "a commit inserts as before, %s" % case.told)
    s, columns = BENCH[0], [-32_000, 0, 32_000, 64_000, 96_000]
    after = enquiries.commit(*s.table, s.slip(), [9] * 15, [7] * len(s.table.coefficients)).lent
    check(after["tree_out"] == of_cells(1) + [9, 9], "S, level 1: its tree, and nothing past it")
    check(after["coefficients_out"] == [0] * 16 + columns * 5 + [0] * 170, "S, level 1: its coefficients")

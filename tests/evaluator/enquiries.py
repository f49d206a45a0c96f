"""Document 02, Five: the slip, and the enquiry and the commit as pure functions of what the caller lends.

'Split insertion. The enquiry takes the table, box and level with insertion's checks, writes nothing and gives a slip',
'The commit takes the table and the slip and inserts as before.' Outcomes are those of calls.py.
"""
from __future__ import annotations

from typing import NamedTuple, Sequence, Tuple

import calls
import tree as quadtree
from calls import Outcome, refused
from surface import LEVELS, Box

NOT_ITS_SLIP = 19


class Slip(NamedTuple):
    """'a slip: box, level, new tree length, active functions of each level over the new tree, and the tree nodes that
    one least-level call over the box will visit in the new tree'."""

    box: Box
    level: int
    length: int
    active: Tuple[int, ...]
    visited: int

    def told(self) -> Tuple[int, Tuple[int, ...], int]:
        """What an enquiry gives beside the box and the level that it was asked about."""
        return self.length, self.active, self.visited


# The slip of a box and a level that a sheet and a tree give; the coefficients have no part in it.
def slip_of(w: int, h: int, tree: Sequence[int], box: Box, level: int) -> Slip:
    new = quadtree.insert_box(tree, w, h, box, level)
    surface = calls.surface_of(w, h, new)
    active = tuple(len(surface.active_functions(one)) for one in LEVELS)
    return Slip(box, level, len(new), active, quadtree.levels_under(new, box)[-1])


# 'with insertion's checks, writes nothing'; 1 to 5, 7, 8. Answer ('ok', slip); lent tree and coefficients.
def enquire(w: int, h: int, tree: Sequence[int], coefficients: Sequence[int], box: Box, level: int) -> Outcome:
    lent = {"tree": list(tree), "coefficients": list(coefficients)}
    cause = calls.judge_insertion(w, h, tree, coefficients, box, level)
    if cause is not None:
        return Outcome(refused(cause), lent)
    return Outcome(("ok", slip_of(w, h, tree, box, level)), lent)


# '19, the slip is not the one that this table gives for the slip's own box and level, after 8 and before 16'; 1 to 5,
# 7, 8, 19, 16, 17. Answer ('ok', tree length); lent tree, coefficients, tree_out and coefficients_out.
def commit(
    w: int,
    h: int,
    tree: Sequence[int],
    coefficients: Sequence[int],
    slip: Slip,
    tree_out: Sequence[int],
    coefficients_out: Sequence[int],
) -> Outcome:
    cause = calls.judge_insertion(w, h, tree, coefficients, slip.box, slip.level)
    if cause is None and slip != slip_of(w, h, tree, slip.box, slip.level):
        cause = NOT_ITS_SLIP
    if cause is None:
        return calls.insert(w, h, tree, coefficients, slip.box, slip.level, tree_out, coefficients_out)
    lent = {"tree": tree, "coefficients": coefficients, "tree_out": tree_out, "coefficients_out": coefficients_out}
    return Outcome(refused(cause), {name: list(buffer) for name, buffer in lent.items()})

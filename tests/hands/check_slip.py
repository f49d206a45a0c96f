"""Holds examples/slip.c, or rust/examples/slip.rs, as each of the given programs, to the evaluator: its text, its
errors and its exit status. What a slip must tell is found here from the evaluator's tree after the insertion.

Run as: python3 tests/hands/check_slip.py [--rust] PROGRAM...
"""
from __future__ import annotations

import sys
import tempfile
from collections import Counter
from pathlib import Path
from random import Random
from typing import List, NamedTuple, Sequence, Set, Tuple

from check_dot import files
from counted import active_counts
from expected import BOX, LEVEL, ROOT
from runs import GREATEST_SIZE, Run, differing, in_rust, misused, unwritten
from rust_words import refusal_words

import calls
import samples
import tablefile
import tree as quadtree
from surface import QUARTERS_PER_CELL, STEPS_PER_CELL, Box

STEPS_PER_QUARTER = STEPS_PER_CELL // QUARTERS_PER_CELL
# How many boxes are drawn on a table.
RANDOM_BOXES = 3
NEEDED = """slip: six arguments are needed, or seven: TABLE U0 V0 U1 V1 LEVEL [accept]
  TABLE            a table file
  U0, V0, U1, V1   the box, in quarters of a cell, low corner first
  LEVEL            the level to which it is to be raised, 1 to 3
  accept           to insert the box; without it nothing is changed
"""
NEEDED_IN_RUST = 'Error: "needs a table file, u0, v0, u1, v1 and a level, and accept to insert"\n'
# What the slips must show: each level asked for; a tree that grows, that shrinks and that stays; for each level more
# and fewer functions, but not more of level 0 nor fewer of level 3, which no insertion gives; fewer and more nodes;
# counts that no two levels share; an old slip that is refused and one that serves.
SHOWN = ("to level 1", "to level 2", "to level 3", "longer tree", "shorter tree", "the same tree", "fewer of level 0",
         "more of level 1", "fewer of level 1", "more of level 2", "fewer of level 2", "more of level 3",
         "fewer nodes", "more nodes", "four counts", "19", "serves")


class Slip(NamedTuple):
    """'new tree length, active functions of each level over the new tree, and the tree nodes that one least-level call
    over the box will visit in the new tree'."""

    length: int
    active: List[int]
    visited: int


# What a slip would tell of a tree as it is.
def told(w: int, h: int, tree: Sequence[int], box: Box) -> Slip:
    counts = active_counts(tablefile.Content(w, h, tree, []))
    return Slip(len(tree), counts, quadtree.levels_under(tree, box)[2])


def asked(content: tablefile.Content, box: Box, level: int) -> Slip:
    return told(content.w, content.h, quadtree.insert_box(content.tree, content.w, content.h, box, level), box)


# What becomes of a slip once the whole sheet has level 3.
def old_slip(content: tablefile.Content, box: Box, level: int) -> str:
    w, h = content.w, content.h
    whole = (0, 0, QUARTERS_PER_CELL * w, QUARTERS_PER_CELL * h)
    other = content._replace(tree=quadtree.insert_box(content.tree, w, h, whole, 3))
    # '19, the slip is not the one that this table gives for the slip's own box and level'
    if asked(other, box, level) == asked(content, box, level):
        return "serves also once the whole sheet has level 3"
    return f"refused 19 once the whole sheet has level 3: {refusal_words()[19]}"


# What a box and a level show of a table that takes them.
def shown(content: tablefile.Content, box: Box, level: int) -> Set[str]:
    now, then = told(content.w, content.h, content.tree, box), asked(content, box, level)
    parts = {f"to level {level}": True, "four counts": len(set(then.active)) == 4,
             "longer tree": then.length > now.length, "shorter tree": then.length < now.length,
             "the same tree": then == now, "fewer nodes": then.visited < now.visited,
             "more nodes": then.visited > now.visited,
             "serves": old_slip(content, box, level).startswith("serves")}
    parts["19"] = not parts["serves"]
    for one, (before, after) in enumerate(zip(now.active, then.active)):
        parts[f"more of level {one}"] = after > before
        parts[f"fewer of level {one}"] = after < before
    return {part for part, here in parts.items() if here}


# The figure and the exact reading at a corner of the box, before and after.
def corner_line(content: tablefile.Content, finer: tablefile.Content, u: int, v: int) -> str:
    before, after = (calls.display(*one, u, v).answer[1] for one in (content, finer))
    same = calls.exact(*content, u, v).answer == calls.exact(*finer, u, v).answer
    return f"u {u}, v {v}: {before} watts before, {after} after, exactly {'the same' if same else 'moved'}"


# What is left where the box is accepted: the evaluator's own insertion.
def left_lines(content: tablefile.Content, box: Box, level: int) -> List[str]:
    finer = tablefile.Content(*samples.inserted(samples.Table(*content), box, level))
    left, (u0, v0, u1, v1) = told(finer.w, finer.h, finer.tree, box), box
    active = " + ".join(map(str, left.active))
    as_told = "as told" if left == asked(content, box, level) else "not as told"
    lines = [f"inserted:       tree of {left.length} bytes, {active} active, {left.visited} nodes visited: {as_told}"]
    corners = [(STEPS_PER_QUARTER * u, STEPS_PER_QUARTER * v) for v in (v0, v1) for u in (u0, u1)]
    lines += [corner_line(content, finer, u, v) for u, v in corners]
    return lines + [f"old slip:       {old_slip(content, box, level)}"]


# What the program must print, and its exit status.
def expected(file: bytes, box: Box, level: int, accepted: bool) -> Tuple[List[str], int]:
    def refused(number: int) -> Tuple[List[str], int]:
        return lines + [f"refused {number}: {refusal_words()[number]}"], number

    lines: List[str] = []
    content = tablefile.judge(file)
    if isinstance(content, int):
        return refused(content)
    (w, h, tree, numbers), (u0, v0, u1, v1) = content, box
    lines = [f"sheet:          {w} by {h} cells, u 0 to {4 * w}, v 0 to {4 * h} in quarters",
             f"box:            u {u0} to {u1}, v {v0} to {v1}, to level {level}"]
    # 'with insertion's checks': with no room for a table only what comes before 16 is left to be refused.
    cause = calls.insert(w, h, tree, numbers, box, level, [], []).answer[1]
    if cause != 16:
        return refused(cause)
    now, then = told(w, h, tree, box), asked(content, box, level)
    lines += [f"tree bytes:     {now.length} now, {then.length} then"]
    lines += [f"level {k} active: {now.active[k]} now, {then.active[k]} then" for k in range(4)]
    lines += [f"coefficients:   {sum(now.active)} now, {sum(then.active)} then",
              f"nodes visited:  {now.visited} now, {then.visited} then"]
    if not accepted:
        return lines + ["nothing was changed: say accept after the level to insert the box"], 0
    return lines + left_lines(content, box, level), 0


# Boxes and levels of a table: all of the sheet and a single quarter square, and some that are drawn.
def taken(rng: Random, w: int, h: int) -> List[Tuple[Box, int]]:
    far_u, far_v = QUARTERS_PER_CELL * w, QUARTERS_PER_CELL * h
    made = [((0, 0, far_u, far_v), rng.choice((1, 2, 3))), ((far_u - 1, far_v - 1, far_u, far_v), 3)]
    made += [(samples.random_box(rng, w, h), rng.choice((1, 2, 3))) for _ in range(RANDOM_BOXES)]
    return made + ([(BOX, LEVEL)] if (w, h) == (8, 4) else [])


# Boxes without area or past the sheet, levels that are none, and both at once.
def not_taken(w: int, h: int) -> List[Tuple[Box, int]]:
    far_u, far_v, most = QUARTERS_PER_CELL * w, QUARTERS_PER_CELL * h, GREATEST_SIZE
    boxes = [(0, 0, far_u + 1, far_v), (0, 0, far_u, far_v + 1), (1, 0, 1, far_v), (0, 2, far_u, 1), (0, 0, most, 1),
             (most, 0, 1, 1), (0, 0, 0, 0)]
    return [(box, 1) for box in boxes] + [((0, 0, 1, 1), level) for level in (0, 4, most)] + [(boxes[0], 0)]


# The runs on each table, refused ones on the first of each size, and those whose arguments are no such thing; and how
# often each thing was shown. A box is asked for, and accepted.
def runs(room: Path) -> Tuple[List[Run], "Counter[str]"]:
    made, among, rng, sheets = [], Counter(), Random(47), set()
    for name, file in files().items():
        (room / name).write_bytes(file)
        content = tablefile.judge(file)
        chosen = [((0, 0, 1, 1), 1)]
        if not isinstance(content, int):
            w, h = content.w, content.h
            chosen = taken(rng, w, h)
            for box, level in chosen:
                among.update(shown(content, box, level))
            chosen += not_taken(w, h) if (w, h) not in sheets else []
            sheets.add((w, h))
        for box, level in chosen:
            for accepted in (False, True):
                lines, status = expected(file, box, level, accepted)
                given = [str(room / name), *map(str, box), str(level)] + ["accept"] * accepted
                made.append(Run(given, "\n".join(lines) + "\n", "", status))
    good = [str(room / "bench-s"), "0", "0", "4", "4", "1"]
    others = [good + ["Accept"], good + ["accept", "accept"], good + [""]]
    made += [Run(given, "", NEEDED, 255) for given in others]
    return made + misused("slip", NEEDED, good[0], ("U0", "V0", "U1", "V1", "LEVEL"), room), among


def main(programs: List[str]) -> int:
    rust = programs[:1] == ["--rust"]
    programs = programs[rust:]
    with tempfile.TemporaryDirectory() as room:
        due, among = runs(Path(room))
        numbers = {run.status for run in due}
        if rust:
            due = [same for run in due for same in in_rust(run, NEEDED, NEEDED_IN_RUST)]
        wrong = differing(programs, due)
        wrong += 0 if rust else unwritten(programs, "slip", str(ROOT / "tables/bench-s.table"), "1", "1", "2", "2", "1")
    lacking = [part for part in SHOWN if not among[part]]
    if lacking or not numbers >= {0, 1, 2, 7, 8, 12, 13, 14, 15, 20, 255}:
        wrong += 1
        print(f"the runs lack {lacking}, or one of the refusals: {sorted(numbers)}")
    print(f"the slip as expected in {len(due)} runs" if not wrong else f"{wrong} wrong")
    return 1 if wrong or not programs else 0


if __name__ == "__main__":
    sys.exit(main(sys.argv[1:]))

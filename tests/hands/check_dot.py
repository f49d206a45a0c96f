"""Holds examples/dot.c, or rust/examples/dot.rs, as each of the given programs, to the evaluator: its text, its errors
and its exit status.

Run as: python3 tests/hands/check_dot.py [--rust] PROGRAM...
"""
from __future__ import annotations

import sys
import tempfile
from collections import Counter
from pathlib import Path
from random import Random
from typing import Dict, List, Set, Tuple

from counted import with_counts, without_counts
from expected import POINT, ROOT
from noted import noted
from runs import GREATEST_SIZE, Run, differing, in_rust, misused, unwritten
from rust_words import refusal_words

import calls
import samples
import tablefile
import tree as quadtree
from stopping import STEPS_PER_QUARTER, squares_at
from surface import QUARTERS_PER_CELL, STEPS_PER_CELL, LevelMap

# A table and the one that it is a refined copy of.
REFINED = ("kiln-refined-near-top-heat", "kiln-unrefined")
# How many points of a table are looked at for what they decide, and how many are taken whatever they decide.
CANDIDATES, RANDOM_POINTS = 200, 2
NEEDED = """dot: three arguments are needed: TABLE U V
  TABLE   a table file
  U, V    the point, in steps of 1/128 cell: U along temperature, V along climb rate
"""
# What the points must show: each level; the rule for shared edges where it decides the level, in each direction and at
# a corner, and the step before such an edge; far edges, and their corner, where there is a dot.
SHOWN = ("level 0", "level 1", "level 2", "level 3", "shared u", "shared v", "shared u and v", "before u", "before v",
         "far u", "far v", "far u and v")


# What a point shows that is on the sheet: its level, and which part of the rule decided it.
def shown(levels: LevelMap, w: int, h: int, u: int, v: int) -> Set[str]:
    far_u, far_v = u == STEPS_PER_CELL * w, v == STEPS_PER_CELL * h
    (west, south), (a, b) = squares_at(w, h, u, v)[0], squares_at(w, h, u, v)[-1]
    east, north = squares_at(w, h, u + (not far_u), v + (not far_v))[-1]
    level = levels[b][a]
    parts = {
        f"level {level}": True,
        "shared u": levels[b][west] != level,
        "shared v": levels[south][a] != level,
        "shared u and v": west < a and south < b and levels[south][west] != level,
        "before u": levels[b][east] != level,
        "before v": levels[north][a] != level,
        "far u": far_u and level > 0,
        "far v": far_v and level > 0,
        "far u and v": far_u and far_v and level > 0,
    }
    return {part for part, here in parts.items() if here}


# A place along a side: an edge of quarters, the far one too, the step before one, or any.
def place(rng: Random, side: int) -> int:
    edge = STEPS_PER_QUARTER * rng.randint(1, QUARTERS_PER_CELL * side)
    return rng.choice((edge, edge - 1, rng.randint(0, STEPS_PER_CELL * side), STEPS_PER_CELL * side))


# Points of a table of which each shows something that none before it showed: the far corner, and points drawn.
def deciding(rng: Random, levels: LevelMap, w: int, h: int) -> List[Tuple[int, int]]:
    kept: List[Tuple[int, int]] = []
    seen: Set[str] = set()
    drawn = [(place(rng, w), place(rng, h)) for _ in range(CANDIDATES)]
    for u, v in [(STEPS_PER_CELL * w, STEPS_PER_CELL * h), *drawn]:
        parts = shown(levels, w, h, u, v)
        if not parts <= seen:
            kept.append((u, v))
            seen |= parts
    return kept


# Points off the sheet: a step past it, and as far as a number goes.
def off(w: int, h: int) -> List[Tuple[int, int]]:
    far_u, far_v = STEPS_PER_CELL * w, STEPS_PER_CELL * h
    return [(far_u + 1, 0), (0, far_v + 1), (far_u + 1, far_v + 1), (GREATEST_SIZE, 0), (0, GREATEST_SIZE)]


# Each table file by its name: the sample tables, tables with a level drawn for each square and with boxes, and files
# that are refused.
def files() -> Dict[str, bytes]:
    made = {one.stem: one.read_bytes() for one in sorted((ROOT / "tables").glob("*.table"))}
    rng = Random(29)
    for w, h in ((1, 1), (1, 8), (8, 1), (3, 5), (8, 8)):
        levels = samples.speckled_levels(rng, w, h, (0, 1, 2, 3))
        made[f"speckled-{w}-by-{h}"] = tablefile.write_file(*samples.table_of(rng, w, h, levels))
        made[f"boxes-{w}-by-{h}"] = tablefile.write_file(*samples.random_table(rng, w, h))
    refined = made["kiln-refined-near-top-heat"]
    s = made["bench-s"]
    made.update({
        "refined-bare": without_counts(refined), "refined-noted": noted(refined, bytes(64)), "empty": b"",
        "cut": refined[:100], "tag": b"\2" + s[1:], "on": s + b"\0", "side": s[:3] + b"\x09" + s[4:],
        "tree": s[:8] + b"\1" + s[9:], "count": with_counts(s, [16, 0, 0, 1]), "note": noted(s, bytes(65)),
    })
    return made


# What the program must print, and its exit status.
def expected(file: bytes, u: int, v: int) -> Tuple[List[str], int]:
    def refused(number: int) -> Tuple[List[str], int]:
        return lines + [f"refused {number}: {refusal_words()[number]}"], number

    lines: List[str] = []
    content = tablefile.judge(file)
    if isinstance(content, int):
        return refused(content)
    w, h = content.w, content.h
    lines = [f"sheet:   {w} by {h} cells, u 0 to {128 * w}, v 0 to {128 * h}", f"point:   u {u}, v {v}"]
    cause = calls.judge_reading(*content, u, v)
    if cause is not None:
        return refused(cause)
    a, b = squares_at(w, h, u, v)[-1]
    level = quadtree.level_map(content.tree, w, h)[b][a]
    lines += [f"quarter: u {a} to {a + 1}, v {b} to {b + 1}", f"level:   {level}"]
    return lines + [f"dot:     {'yes' if level > 0 else 'no'}"], 0


# The runs on each table, off the sheet on the first of each size, and those whose arguments are no such thing; and how
# often each part of the rule was shown.
def runs(room: Path) -> Tuple[List[Run], "Counter[str]"]:
    made, among, rng, sheets = [], Counter(), Random(31), set()
    for name, file in files().items():
        (room / name).write_bytes(file)
        content = tablefile.judge(file)
        chosen = [(0, 0)]
        if not isinstance(content, int):
            w, h = content.w, content.h
            levels = quadtree.level_map(content.tree, w, h)
            chosen = deciding(rng, levels, w, h) + samples.random_points(rng, w, h, RANDOM_POINTS)
            for u, v in chosen:
                among.update(shown(levels, w, h, u, v))
            chosen += off(w, h) if (w, h) not in sheets else []
            sheets.add((w, h))
        for u, v in chosen:
            lines, status = expected(file, u, v)
            made.append(Run([str(room / name), str(u), str(v)], "\n".join(lines) + "\n", "", status))
    return made + misused("dot", NEEDED, str(room / "bench-s"), ("U", "V"), room), among


# Whether docs/WHY.md tells of a dot where there is one, of none where there is none, and of equal watts where they are.
def told_in_page() -> bool:
    refined, plain = (tablefile.judge((ROOT / f"tables/{name}.table").read_bytes()) for name in REFINED)
    a, b = squares_at(refined.w, refined.h, *POINT)[-1]
    fine, coarse = (quadtree.level_map(one.tree, one.w, one.h)[b][a] for one in (refined, plain))
    alike = calls.exact(*refined, *POINT).answer == calls.exact(*plain, *POINT).answer
    page = " ".join((ROOT / "docs/WHY.md").read_text(encoding="utf-8").split())
    told = (f"At {POINT[0]} {POINT[1]} `{REFINED[0]}.table` has a dot, of level {fine}, and `{REFINED[1]}.table` has "
            "none; their exact watts are the same.")
    return fine > 0 and coarse == 0 and alike and told in page


def main(programs: List[str]) -> int:
    rust = programs[:1] == ["--rust"]
    programs = programs[rust:]
    with tempfile.TemporaryDirectory() as room:
        due, among = runs(Path(room))
        numbers = {run.status for run in due}
        if rust:
            due = [same for run in due for same in in_rust(run, NEEDED)]
        wrong = differing(programs, due)
        wrong += 0 if rust else unwritten(programs, "dot", str(ROOT / "tables/bench-s.table"), "1", "1")
    if not told_in_page():
        wrong += 1
        print("docs/WHY.md tells otherwise of the dot")
    lacking = [part for part in SHOWN if not among[part]]
    if lacking or not numbers >= {0, 1, 2, 6, 12, 13, 14, 15, 20, 255}:
        wrong += 1
        print(f"the runs lack {lacking}, or one of the refusals: {sorted(numbers)}")
    print(f"the dot as expected in {len(due)} runs" if not wrong else f"{wrong} wrong")
    return 1 if wrong or not programs else 0


if __name__ == "__main__":
    sys.exit(main(sys.argv[1:]))

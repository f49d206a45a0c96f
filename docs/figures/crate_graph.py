"""The crates and what rests on what, drawn from crates.txt.

An arrow that others imply is left out. Crates that all others rest on are bars at the foot and have no arrows.
"""
from __future__ import annotations

from pathlib import Path
from typing import Dict, FrozenSet, List, NamedTuple, Set, Tuple

from drawing import FAINT, LEVEL_FILLS, Picture

ROOT = Path(__file__).resolve().parents[2]
LETTER, HIGH, GAP, ROW, EDGE = 9, 32, 22, 92, 26
# A node is a crate at its own row, or a place in a higher row through which arrows to that crate pass.
Node = Tuple[str, int]


class Crates(NamedTuple):
    """The crates with what each rests on, what is said of each, and those that are not of this repository."""

    rests: Dict[str, List[str]]
    notes: Dict[str, str]
    toolchain: List[str]


def read_crates() -> Crates:
    rests: Dict[str, List[str]] = {}
    notes: Dict[str, str] = {}
    for line in (ROOT / "crates.txt").read_text(encoding="utf-8").splitlines():
        body, _, note = line.partition("#")
        if body.strip():
            head, _, others = body.partition(":")
            name = head.split()[0]  # of a static library 'staticlib' stands behind it
            rests[name], notes[name] = others.split(), note.strip()
    toolchain = sorted({one for others in rests.values() for one in others} - set(rests))
    return Crates({**rests, **{name: [] for name in toolchain}}, notes, toolchain)


def beneath(rests: Dict[str, List[str]]) -> Dict[str, FrozenSet[str]]:
    """All that each crate rests on, through others too."""
    known: Dict[str, FrozenSet[str]] = {}

    def of(name: str) -> FrozenSet[str]:
        if name not in known:
            known[name] = frozenset(rests[name]).union(*(of(one) for one in rests[name]))
        return known[name]

    for name in rests:
        of(name)
    return known


def rows_of(arrows: Dict[str, List[str]]) -> Dict[str, int]:
    """The row of each crate from the top down: next below the lowest that rests on it."""
    depth: Dict[str, int] = {}

    def of(name: str) -> int:
        if name not in depth:
            depth[name] = max((of(one) + 1 for one in arrows if name in arrows[one]), default=0)
        return depth[name]

    for name in arrows:
        of(name)
    return depth


def chains(arrows: Dict[str, List[str]], row: Dict[str, int]) -> Set[Tuple[Node, Node]]:
    """Each arrow from row to row; arrows to one crate share the places that they pass through."""
    steps: Set[Tuple[Node, Node]] = set()
    for name, others in arrows.items():
        for other in others:
            at: Node = (name, row[name])
            for below in range(row[name] + 1, row[other] + 1):
                steps.add((at, (other, below)))
                at = (other, below)
    return steps


def crossings(upper: List[Node], lower: List[Node], steps: Set[Tuple[Node, Node]]) -> int:
    above, under = ({node: k for k, node in enumerate(nodes)} for nodes in (upper, lower))
    drawn = [(above[a], under[b]) for a, b in steps if a in above and b in under]
    return sum((a - c) * (b - d) < 0 for k, (a, b) in enumerate(drawn) for c, d in drawn[:k])


def ordered(rows: List[List[Node]], steps: Set[Tuple[Node, Node]]) -> List[List[Node]]:
    """The rows in an order with few crossings: each node goes where it has the fewest, until none moves."""

    def cost(at: int, row: List[Node]) -> int:
        over = crossings(rows[at - 1], row, steps) if at else 0
        return over + (crossings(row, rows[at + 1], steps) if at + 1 < len(rows) else 0)

    moved = True
    while moved:
        moved = False
        for at in range(len(rows)):
            best = cost(at, rows[at])
            for node in list(rows[at]):
                rest = [one for one in rows[at] if one != node]
                for k in range(len(rest) + 1):
                    tried = rest[:k] + [node] + rest[k:]
                    if cost(at, tried) < best:
                        best, rows[at], moved = cost(at, tried), tried, True
    return rows


def places(rows: List[List[Node]], steps: Set[Tuple[Node, Node]], width: Dict[Node, float]) -> Dict[Node, float]:
    """The middle of each node: near those it is joined to, and clear of its neighbours."""
    x: Dict[Node, float] = {}
    for row in rows:
        left = 0.0
        for node in row:
            x[node] = left + width[node] / 2
            left += width[node] + GAP
    widest = max(x[row[-1]] + width[row[-1]] / 2 for row in rows)
    for row in rows:
        off = (widest - x[row[-1]] - width[row[-1]] / 2) / 2
        for node in row:
            x[node] += off
    for _ in range(60):
        for row in rows:
            for k, node in enumerate(row):
                joined = [x[b] for a, b in steps if a == node] + [x[a] for a, b in steps if b == node]
                low, high = width[node] / 2, widest - width[node] / 2
                if k:
                    low = x[row[k - 1]] + (width[row[k - 1]] + width[node]) / 2 + GAP
                if k + 1 < len(row):
                    high = x[row[k + 1]] - (width[row[k + 1]] + width[node]) / 2 - GAP
                if joined:
                    x[node] = min(max(sum(sorted(joined)) / len(joined), low), high)
    return {node: round(at) for node, at in x.items()}


def crate_graph() -> str:
    crates = read_crates()
    under = beneath(crates.rests)
    own = [name for name in crates.rests if name not in crates.toolchain]
    bars = [name for name in own if all(one in under[name] or name in under[one] for one in own if one != name)]
    bars = [name for name in bars if under[name] <= set(bars)]
    arrows = {name: [one for one in others if one not in bars
                     and not any(one in under[other] for other in others)]
              for name, others in crates.rests.items() if name not in bars}
    row = rows_of(arrows)
    steps = chains(arrows, row)
    nodes = sorted({node for step in steps for node in step} | {(name, row[name]) for name in arrows})
    rows = ordered([[node for node in nodes if node[1] == at] for at in range(max(row.values()) + 1)], steps)
    box = LETTER * max(map(len, arrows))
    width = {node: box if row[node[0]] == node[1] else 4.0 for node in nodes}
    x = places(rows, steps, width)
    wide = max(x[node] + width[node] / 2 for node in nodes) + 2 * EDGE
    foot = EDGE + len(rows) * ROW - 20
    picture = Picture(wide, foot + len(bars) * (HIGH + 8) + 66)

    def y(at: int) -> float:
        return EDGE + at * ROW

    for (a, b) in sorted(steps):
        x0, y0 = EDGE + x[a], y(a[1]) + HIGH
        x1, y1 = EDGE + x[b], y(b[1])
        through = f"V{y1 + HIGH:g}" if row[b[0]] != b[1] else ""
        bend = (y0 + y1) / 2
        picture.path(f"M{x0:g} {y0:g}C{x0:g} {bend:g} {x1:g} {bend:g} {x1:g} {y1:g}{through}", FAINT, 1.3)
    for name in arrows:
        at = x[(name, row[name])] + EDGE - box / 2
        call = crates.notes.get(name, "").startswith("call")
        kit = name in crates.toolchain
        picture.box(at, y(row[name]), box, HIGH, LEVEL_FILLS[1] if call else "#fff", dashed=kit, round_by=6)
        picture.text(at + box / 2, y(row[name]) + 21, name)
    for k, name in enumerate(reversed(bars)):
        picture.box(EDGE, foot + k * (HIGH + 8), wide - 2 * EDGE, HIGH, LEVEL_FILLS[2], round_by=6)
        words = f"{name}: every crate above rests on it, but for the toolchain's"
        picture.text(wide / 2, foot + k * (HIGH + 8) + 21, words)
    end = foot + len(bars) * (HIGH + 8) + 22
    picture.box(EDGE, end, 24, 16, LEVEL_FILLS[1], round_by=3)
    picture.text(EDGE + 32, end + 13, "calls", at="start")
    picture.box(EDGE + 100, end, 24, 16, "#fff", dashed=True, round_by=3)
    picture.text(EDGE + 132, end + 13, "of the toolchain", at="start")
    picture.text(EDGE + 290, end + 13, "a line: the upper rests on the lower", at="start")
    return picture.svg()

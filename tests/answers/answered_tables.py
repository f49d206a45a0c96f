"""The tables whose answers are kept: document 01's, the sample tables, the benchmark's, some at the limits, some drawn
by a rule that is written here, and some that are refused."""
from __future__ import annotations

import sys
from pathlib import Path
from typing import Callable, Dict, List, Tuple

ROOT = Path(__file__).resolve().parents[2]
sys.path[:0] = [str(ROOT / "tests" / part) for part in ("evaluator", "differential", "benchmark")]

import calls
import measure
import samples
import tablefile
import tree as quadtree
from edges import NO_LEVELS
from samples import Table
from surface import LEVELS, QUARTERS_PER_CELL, STEPS_PER_CELL, LevelMap, coefficient_limit

# The sample tables but document 01's S; a file with counts or a note holds the table of one without.
SHIPPED = ("bench-s-level-1", "kiln-unrefined", "kiln-fitted-near-top-heat", "kiln-refined-near-top-heat")
SIDES = ((1, 1), (1, 2), (2, 1), (3, 2), (5, 4), (8, 8))
DRAWN, BOXES = 12, 5


class Draw:
    """Numbers that follow from a seed by multiplying and adding."""

    def __init__(self, seed: int) -> None:
        self.state = seed

    def below(self, n: int) -> int:
        """One of 0 to n - 1."""
        self.state = (self.state * 6_364_136_223_846_793_005 + 1_442_695_040_888_963_407) % 2**64
        return (self.state >> 24) % n


def table_of(w: int, h: int, levels: LevelMap, number: Callable[[int, int, int], int]) -> Table:
    """A table with these levels and a number for each active function, by its limit and its indices."""
    tree = quadtree.tree_of(levels)
    surface = calls.surface_of(w, h, tree)
    return Table(w, h, tree, [number(coefficient_limit(level), i, j) if surface.active(level, i, j) else 0
                              for level in LEVELS for i, j in surface.functions(level)])


def at_limits(w: int, h: int, level: int) -> Table:
    """A sheet that is all of one level, with every coefficient at its limit, one in three of them below zero."""
    levels = quadtree.raised(NO_LEVELS, (0, 0, QUARTERS_PER_CELL * w, QUARTERS_PER_CELL * h), level)
    return table_of(w, h, levels, lambda limit, i, j: -limit if (i + 2 * j) % 3 == 0 else limit)


def drawn(seed: int) -> Table:
    """A sheet with boxes raised to levels, and any coefficients."""
    draw, (w, h), levels = Draw(seed), SIDES[seed % len(SIDES)], NO_LEVELS
    for _ in range(1 + draw.below(BOXES)):
        u, v = draw.below(QUARTERS_PER_CELL * w), draw.below(QUARTERS_PER_CELL * h)
        far = u + 1 + draw.below(QUARTERS_PER_CELL * w - u), v + 1 + draw.below(QUARTERS_PER_CELL * h - v)
        levels = quadtree.raised(levels, (u, v, *far), 1 + draw.below(3))
    return table_of(w, h, levels, lambda limit, i, j: draw.below(2 * limit + 1) - limit)


def only(i: int, j: int) -> Table:
    """Document 01's sheet with the one coefficient (i, j) of level 0, which is 1."""
    return table_of(1, 1, NO_LEVELS, lambda limit, a, b: int((a, b) == (i, j)))


def accepted() -> Dict[str, Table]:
    """The acceptable tables by name."""
    two = samples.inserted(samples.fresh_table(2, 1, 700), (0, 0, 4, 4), 1)
    document = {"S": samples.bench_s(), "2 by 1": two, "only (-3, -3)": only(-3, -3), "only (-2, -2)": only(-2, -2),
                "tree 1": table_of(8, 8, quadtree.raised(NO_LEVELS, (0, 0, 32, 32), 1), lambda limit, i, j: 0)}
    shipped = {name.partition("-near")[0]: Table(*tablefile.judge((ROOT / f"tables/{name}.table").read_bytes()))
               for name in SHIPPED}
    limits = {f"limits at level {level}": at_limits(2, 2, level) for level in LEVELS}
    return {**document, **shipped, **dict(measure.tables()), **limits,
            **{f"drawn {seed}": drawn(seed) for seed in range(DRAWN)}}


def refused() -> Dict[str, Table]:
    """Tables with one fault each, causes 1 to 5."""
    s = samples.bench_s()
    past, passive = [32_001, *s.coefficients[1:]], [*s.coefficients[:-1], 1]
    return {"no width": s._replace(w=0), "tree 4 0 0 0 0": s._replace(tree=[4, 0, 0, 0, 0]),
            "tree 1 on 1 by 1": s._replace(tree=[1]), "one number short": s._replace(coefficients=s.coefficients[:-1]),
            "32,001": s._replace(coefficients=past), "a passive 1": s._replace(coefficients=passive)}


def points(t: Table) -> List[Tuple[int, int]]:
    """Points at knots, beside them and between, on both far edges, and one beyond each; and of each level but 0 points
    in all quarters of a first and a last quarter square of it, so that readings take both halves in each direction."""
    wide, high = STEPS_PER_CELL * t.w, STEPS_PER_CELL * t.h

    def places(end: int) -> List[int]:
        return [0, 1, 21, 32, 47, end // 2 + 5, end - 37, end - 1, end]

    found = [(u, v) for v in places(high) for u in places(wide)] + [(wide + 1, 0), (3, high + 1), (wide // 2, 5)]
    levels = quadtree.level_map(t.tree, t.w, t.h)
    for level in LEVELS[1:]:
        squares = [(q, r) for r in range(QUARTERS_PER_CELL * t.h) for q in range(QUARTERS_PER_CELL * t.w)
                   if levels[r][q] == level]
        found += [(32 * q + a, 32 * r + b) for q, r in squares[:1] + squares[-1:] for a in (5, 21) for b in (7, 23)]
    return found


def steps_at(t: Table, u: int, v: int) -> List[Tuple[int, int, int]]:
    """The steps of a reading on the sheet, each by its level and the halves along u and v: up to the level of the
    quarter square that holds the point."""
    def cell(x: int, n: int, to_a_cell: int) -> int:
        return min(x * to_a_cell // STEPS_PER_CELL, n * to_a_cell - 1)

    levels = quadtree.level_map(t.tree, t.w, t.h)
    stop = levels[cell(v, t.h, QUARTERS_PER_CELL)][cell(u, t.w, QUARTERS_PER_CELL)]
    return [(level, cell(u, t.w, 2**level) % 2, cell(v, t.h, 2**level) % 2) for level in range(1, stop + 1)]

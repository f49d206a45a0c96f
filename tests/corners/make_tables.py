"""Writes the sample tables in tables/: the evaluator fits and writes them, and the compiled library refines one. Each
is there as a file without counts, as files were at first, and as one with them; two are there with a note too.

Run as: python3 tests/corners/make_tables.py
"""
from __future__ import annotations

import sys
from pathlib import Path
from typing import Callable, Dict, Sequence, Tuple

sys.dont_write_bytecode = True
ROOT = Path(__file__).resolve().parents[2]
sys.path[:0] = [str(ROOT / "tests" / part) for part in ("evaluator", "differential")]

import calls
import tablefile
import tree as quadtree
from library import Inside, Library, numbers, octets, shared
from surface import LEVELS, Box

Watts = Callable[[float, float], float]
Boxes = Sequence[Tuple[Box, int]]
FLAT = tuple((0,) * 32 for _ in range(32))


def fitted(w: int, h: int, boxes: Boxes, watts: Watts) -> bytes:
    """The file, without counts, of a table with these regions, whose coefficients are the watts in the middle of each
    support."""
    levels = FLAT
    for box, level in boxes:
        levels = quadtree.raised(levels, box, level)
    tree = quadtree.tree_of(levels)
    surface = calls.surface_of(w, h, tree)
    coefficients = [
        round(watts((i + 2) / 2**level, (j + 2) / 2**level)) * 64**level if surface.active(level, i, j) else 0
        for level in LEVELS
        for i, j in surface.functions(level)
    ]
    return tablefile.write_file(w, h, tree, coefficients, counted=False)


def kiln(u: float, v: float) -> float:
    """Draw of a kiln: losses that rise with temperature, heat for the climb, and a bend near top heat."""
    heat = max(u, 0.0) / 8
    losses = 350 + 5_200 * heat**3
    climb = 900 * max(v, 0.0) * (1 - 0.4 * heat)
    bend = -2_600 * max(0.0, u - 6.75) ** 2
    return min(max(losses + climb + bend, 0.0), 11_000.0)


def bench(u: float, v: float) -> float:
    """The sheet S of document 01: columns of -1,000, 0, 1,000 and 2,000 watts."""
    return 1_000 * u


def refined(lib: Library, file: bytes, boxes: Boxes) -> bytes:
    """The file, without counts, of a table after the library's insertion of each box, by an enquiry and a commit, and
    nothing else."""
    w, h, tree, coefficients = tablefile.judge(file)
    for box, level in boxes:
        tree_out, numbers_out = octets([0] * quadtree.GREATEST_TREE), numbers([0] * len(coefficients))
        got = lib.insert(w, h, octets(tree), numbers(coefficients), box, level, tree_out, numbers_out)
        if got.commit.cause:
            raise ValueError(f"the insertion of {box} is refused with {got.commit.cause}")
        tree, coefficients = tree_out.values()[: got.commit.said()[1]], numbers_out.values()
    return tablefile.write_file(w, h, tree, coefficients, counted=False)


def counted(file: bytes) -> bytes:
    """The file with counts of the table that a file holds."""
    return tablefile.write_file(*tablefile.judge(file))


def noted(file: bytes, note: bytes) -> bytes:
    """The file with counts and a note of the table that a file holds."""
    return tablefile.write_file(*tablefile.judge(file), note=note)


NEAR_TOP_HEAT: Boxes = (((20, 0, 32, 16), 1), ((25, 0, 32, 16), 2), ((26, 4, 30, 12), 3))
UNREFINED = fitted(8, 4, (), kiln)
LIBRARY = Library(Inside(shared(), "kiln_"))
UNCOUNTED: Dict[str, bytes] = {
    "bench-s": fitted(1, 1, (), bench),
    "bench-s-level-1": fitted(1, 1, (((0, 0, 4, 4), 1),), bench),
    "kiln-unrefined": UNREFINED,
    "kiln-refined-near-top-heat": refined(LIBRARY, UNREFINED, NEAR_TOP_HEAT),
    "kiln-fitted-near-top-heat": fitted(8, 4, NEAR_TOP_HEAT, kiln),
}
NOTES: Dict[str, bytes] = {
    "bench-s-level-1": b"S, box level 1",
    "kiln-unrefined": b"Stand 2: fitted to the firing of 12 May, not refined yet",
}
TABLES: Dict[str, bytes] = {
    **UNCOUNTED,
    **{f"{name}-counted": counted(file) for name, file in UNCOUNTED.items()},
    **{f"{name}-noted": noted(UNCOUNTED[name], note) for name, note in NOTES.items()},
}


def main() -> int:
    for name, file in TABLES.items():
        (ROOT / "tables" / f"{name}.table").write_bytes(file)
    print(f"tables: {len(TABLES)} written")
    return 0


if __name__ == "__main__":
    sys.exit(main())

"""Holds rust/examples/around.rs to the unrelated evaluator: the coefficients around a point, on the sample tables
and on random ones.

Run as: python3 tests/hands/around.py PROGRAM
"""
from __future__ import annotations

import subprocess
import sys
import tempfile
from decimal import Decimal
from fractions import Fraction
from pathlib import Path
from random import Random
from typing import List

sys.dont_write_bytecode = True
ROOT = Path(__file__).resolve().parents[2]
sys.path.insert(0, str(ROOT / "tests/evaluator"))

import calls
import samples
import tablefile
from surface import LEVELS, STEPS_PER_CELL, holds, in_cells, in_watts

RANDOM_POINTS = 40
RANDOM_SHEETS = [(1, 1), (2, 1), (1, 3), (8, 8)]


# A fraction that an f64 holds, in the fewest digits that tell it from its neighbours.
def shown(watts: Fraction) -> str:
    if Fraction(float(watts)) != watts:
        raise ValueError("%s is not an f64" % watts)
    digits = format(Decimal(repr(float(watts))), "f")
    return digits.rstrip("0").rstrip(".") if "." in digits else digits


def expected(content: tablefile.Content, u: int, v: int) -> List[str]:
    w, h, tree, coefficients = content
    surface = calls.surface_of(w, h, tree)
    lines = ["reading %d/%d watts" % (calls.exact(w, h, tree, coefficients, u, v).answer[1], calls.D)]
    around = []
    for level in LEVELS:
        for i, j in surface.active_functions(level):
            if holds(i, in_cells(u, level)) and holds(j, in_cells(v, level)):
                number = coefficients[surface.place(level, i, j)]
                watts = in_watts(number, level)
                around.append(watts)
                lines.append("%d (%d, %d) %d/%d = %s watts" % (level, i, j, number, 64**level, shown(watts)))
    return lines + ["between %s and %s watts" % (shown(min(around)), shown(max(around)))]


# What a program printed. A decimal counts as its f64 and its length: two with the fewest digits may be equally near.
def known(lines: List[str]) -> List[object]:
    words = [word for line in lines for word in line.split(" ") + ["\n"]]
    return [(float(word), len(word)) if "." in word else word for word in words]


# The program's answers at corners and random points of a table, compared; how many there were.
def compare(program: str, file: Path, rng: Random) -> int:
    content = tablefile.judge(file.read_bytes())
    if isinstance(content, int):
        sys.exit("around: %s is refused with %d" % (file, content))
    far_u, far_v = STEPS_PER_CELL * content.w, STEPS_PER_CELL * content.h
    points = [(0, 0), (far_u, 0), (0, far_v), (far_u, far_v)]
    points += samples.random_points(rng, content.w, content.h, RANDOM_POINTS)
    for u, v in points:
        given = subprocess.run([program, str(file), str(u), str(v)], capture_output=True, text=True)
        wanted = expected(content, u, v)
        if given.returncode != 0 or known(given.stdout.splitlines()) != known(wanted):
            shown_wanted = "\n".join(wanted)
            sys.exit(f"around: {file} at {u} {v} gives\n{given.stdout}{given.stderr}instead of\n{shown_wanted}")
    return len(points)


def main(program: str) -> None:
    rng, compared = Random(17), 0
    files = sorted((ROOT / "tables").glob("*.table"))
    if not files:
        sys.exit("around: no sample table")
    with tempfile.TemporaryDirectory() as room:
        for w, h in RANDOM_SHEETS:
            files.append(Path(room) / f"random-{w}-by-{h}.table")
            files[-1].write_bytes(tablefile.write_file(*samples.random_table(rng, w, h)))
        for file in files:
            compared += compare(program, file, rng)
    print("coefficients around %d points of %d tables as expected" % (compared, len(files)))


if __name__ == "__main__":
    main(sys.argv[1])

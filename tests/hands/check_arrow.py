"""Holds examples/arrow.c, or rust/examples/arrow.rs, as each of the given programs, to the evaluator: its text, its
errors and its exit status. The slopes are found here, as fractions, from the evaluator's exact readings.

Run as: python3 tests/hands/check_arrow.py [--rust] PROGRAM...
"""
from __future__ import annotations

import sys
import tempfile
from collections import Counter
from fractions import Fraction
from itertools import product
from math import ceil, floor
from pathlib import Path
from random import Random
from typing import Callable, Dict, List, Set, Tuple

from check_dot import files, off
from expected import POINT, ROOT
from runs import Run, differing, in_rust, misused, unwritten
from rust_words import refusal_words

import calls
import samples
import tablefile
from level_cases import of_cells
from surface import STEPS_PER_CELL, place_count, place_of, total_places

# 'Each lies within 2^-20 of the exact derivative'; a program rounds the difference of two, which are below 2^17.
BOUND, ROUNDED = Fraction(1, 2**20), Fraction(1, 2**36)
HALF = Fraction(1, 2)
# An eighth of a cell, which is a cell of level 3, in steps; places in it, ends included, that determine a cubic.
EIGHTH, APART = STEPS_PER_CELL // 8, (0, 5, 11, 16)
UNIT = "watts per eighth of a cell"
RANDOM_POINTS = 3
NEEDED = """arrow: three arguments are needed: TABLE U V
  TABLE   a table file
  U, V    the point, in steps of 1/128 cell: U along temperature, V along climb rate
"""
# What the runs must show: each way in each direction, each arrow, also where both cost less; slopes at far edges; a
# slope that is not 0 and may be told as even; and one that lies half way between two texts.
SHOWN = ("hotter more", "hotter less", "hotter even", "quicker more", "quicker less", "quicker even", "arrow hotter",
         "arrow quicker", "arrow even", "even, with slopes", "both less", "far u", "far v", "far u and v", "within",
         "half way", "steepest")

Reading = Callable[[int], Fraction]


# The derivative, per step, of the cubic through four readings of a cell of level 3.
def derivative(cell: int, steps: int, reading: Reading) -> Fraction:
    at = [EIGHTH * cell + apart for apart in APART]
    slope = Fraction(0)
    for one in at:
        others = [x for x in at if x != one]
        rises = sum((steps - x) * (steps - y) for x, y in zip(others, others[1:] + others[:1]))
        over = (one - others[0]) * (one - others[1]) * (one - others[2])
        slope += reading(one) * Fraction(rises, over)
    return slope


# 'the exact derivative of the surface, worked as a fraction', per eighth of a cell. Cells on both sides of a knot must
# give the same; 'At the far edges the last cell's polynomial counts.'
def exact_slope(side: int, steps: int, reading: Reading) -> Fraction:
    cells = [cell for cell in range(8 * side) if EIGHTH * cell <= steps <= EIGHTH * (cell + 1)]
    found = {EIGHTH * derivative(cell, steps, reading) for cell in cells}
    if len(found) != 1:
        raise ArithmeticError("the surface has a kink")
    return found.pop()


def slopes_at(content: tablefile.Content, u: int, v: int) -> Tuple[Fraction, Fraction]:
    return (exact_slope(content.w, u, lambda x: calls.watts_at(*content, x, v)),
            exact_slope(content.h, v, lambda y: calls.watts_at(*content, u, y)))


# The texts, with so many digits after the point, of all numbers within a bound of an amount; half way either will do.
def texts(amount: Fraction, bound: Fraction, digits: int) -> List[str]:
    unit = 10**digits
    low, high = (amount - bound) * unit, (amount + bound) * unit
    made = []
    for whole in range(ceil(low - HALF), floor(high + HALF) + 1):
        text = f"{abs(whole) // unit}.{abs(whole) % unit:0{digits}d}"
        made += [text] if whole > 0 or (whole == 0 and high >= 0) else []
        made += [f"-{text}"] if whole < 0 or (whole == 0 and low < 0) else []
    return made


# The texts of those that are above 0.
def above(amount: Fraction, bound: Fraction) -> List[str]:
    return [text for text in texts(amount, bound, 3) if not text.startswith("-")]


# What may be told of a slope. More only where the exact one is above 0, less only where it is below, and the same
# where a number within the bound of it is within the bound of 0.
def slope_lines(direction: str, name: str, slope: Fraction) -> List[str]:
    told = [(text, "more") for text in above(slope, BOUND)] if slope > 0 else []
    told += [(f"-{text}", "less") for text in above(-slope, BOUND)] if slope < 0 else []
    told += [("0.000", "the same")] if abs(slope) <= 2 * BOUND else []
    return [f"{direction}: {text} {UNIT}: {name} costs {words}" for text, words in told]


# What may be told of both: the difference lies within twice the bound of the exact one.
def arrow_lines(along_u: Fraction, along_v: Fraction) -> List[str]:
    more, bound = along_u - along_v, 2 * BOUND + ROUNDED
    told = [f"hotter costs more than a quicker climb, by {text} {UNIT}" for text in above(more, bound) if more > 0]
    told += [f"a quicker climb costs more than hotter, by {text} {UNIT}" for text in above(-more, bound) if more < 0]
    told += ["hotter and a quicker climb cost the same"] if abs(more) <= 4 * BOUND else []
    return [f"arrow:   {words}" for words in told]


# What the program may print, a list of texts for each line, and its exit status.
def expected(file: bytes, u: int, v: int) -> Tuple[List[List[str]], int]:
    def refused(number: int) -> Tuple[List[List[str]], int]:
        return lines + [[f"refused {number}: {refusal_words()[number]}"]], number

    lines: List[List[str]] = []
    content = tablefile.judge(file)
    if isinstance(content, int):
        return refused(content)
    w, h = content.w, content.h
    lines = [[f"sheet:   {w} by {h} cells, u 0 to {128 * w}, v 0 to {128 * h}"], [f"point:   u {u}, v {v}"]]
    cause = calls.judge_reading(*content, u, v)
    if cause is not None:
        return refused(cause)
    along_u, along_v = slopes_at(content, u, v)
    watts = texts(calls.watts_at(*content, u, v), calls.FLOAT_BOUND, 6)
    return lines + [[f"watts:   {text}" for text in watts], slope_lines("along u", "hotter", along_u),
                    slope_lines("along v", "a quicker climb", along_v), arrow_lines(along_u, along_v)], 0


# Which of what must be shown a point of a table shows, by its exact slopes.
def shown(content: tablefile.Content, u: int, v: int) -> Set[str]:
    along_u, along_v = slopes = slopes_at(content, u, v)
    far_u, far_v = u == STEPS_PER_CELL * content.w, v == STEPS_PER_CELL * content.h
    parts = {f"{name} {way}": here for name, slope in (("hotter", along_u), ("quicker", along_v))
             for way, here in (("more", slope > 2 * BOUND), ("less", slope < -2 * BOUND), ("even", slope == 0))}
    parts.update({
        "arrow hotter": along_u - along_v > 4 * BOUND,
        "arrow quicker": along_v - along_u > 4 * BOUND,
        "arrow even": along_u == along_v,
        "even, with slopes": along_u == along_v != 0,
        "both less": max(slopes) < -2 * BOUND and along_u != along_v,
        "far u": far_u and 0 not in slopes,
        "far v": far_v and 0 not in slopes,
        "far u and v": far_u and far_v and 0 not in slopes,
        "within": any(0 < abs(slope) <= 2 * BOUND for slope in slopes),
        "half way": any(slope * 1_000 % 1 == HALF for slope in slopes),
        "steepest": max(map(abs, slopes)) == 48_000,
    })
    return {part for part, here in parts.items() if here}


# The file of a sheet of one level, its active coefficients by their places from the low corner.
def by_places(w: int, h: int, tree: List[int], level: int, number: Callable[[int, int], int]) -> bytes:
    coefficients = [0] * total_places(w, h)
    row, first = w * 2**level + 3, place_of(w, h, level, -3, -3)
    for place in range(place_count(w, h, level)):
        coefficients[first + place] = number(place % row, place // row)
    return tablefile.write_file(w, h, tree, coefficients)


# Tables whose slopes are known beforehand, each with points to read.
def chosen() -> Dict[str, Tuple[bytes, List[Tuple[int, int]]]]:
    limit = 32_000 * 64**3
    return {
        "level": (tablefile.write_file(*samples.fresh_table(2, 1, 700)), [(0, 0), (77, 5), (256, 128)]),
        # The same both ways, so that slopes on the diagonal are equal.
        "diagonal": (by_places(2, 2, [0], 0, lambda a, b: 300 * (a + b) - 40 * a * b), [(77, 77), (256, 256), (9, 99)]),
        "falling": (by_places(2, 1, [0], 0, lambda a, b: -90 * a - 7 * b), [(77, 77), (256, 128), (0, 0)]),
        "falling-quicker": (by_places(1, 2, [0], 0, lambda a, b: -9 * a - 70 * b), [(77, 77), (128, 256)]),
        # Level 1 on 1 by 1: a quarter watt for half a cell is 1/16 watt for an eighth.
        "half-way": (by_places(1, 1, of_cells(1), 1, lambda a, b: 16 * a - 48 * b), [(5, 7), (128, 128)]),
        # Level 3: one unit of 1/64^3 watt, whose slopes are within 2^-20 of 0.
        "tiny": (by_places(1, 1, of_cells(3), 3, lambda a, b: int(a == b == 5)), [(60, 60), (40, 55), (0, 0)]),
        # Two columns at one limit and two at the other, and rows: half way into a cell of level 3.
        "steepest-u": (by_places(1, 1, of_cells(3), 3, lambda a, _: limit if a > 4 else -limit), [(56, 9), (57, 9)]),
        "steepest-v": (by_places(1, 1, of_cells(3), 3, lambda _, b: limit if b < 5 else -limit), [(9, 56), (9, 55)]),
    }


# The runs on each table, off the sheet on the first of each size, and those whose arguments are no such thing; and how
# often each thing was shown.
def runs(room: Path) -> Tuple[List[Run], "Counter[str]"]:
    made, among, rng, sheets = [], Counter(), Random(43), set()
    tables = {name: (file, [(0, 0)]) for name, file in files().items()}
    tables.update(chosen())
    for name, (file, points) in tables.items():
        (room / name).write_bytes(file)
        content = tablefile.judge(file)
        if not isinstance(content, int):
            w, h = content.w, content.h
            points = points + [(STEPS_PER_CELL * w, STEPS_PER_CELL * h)] + ([POINT] if (w, h) == (8, 4) else [])
            points += samples.random_points(rng, w, h, RANDOM_POINTS)
            for u, v in points:
                among.update(shown(content, u, v))
            points += off(w, h) if (w, h) not in sheets else []
            sheets.add((w, h))
        for u, v in points:
            lines, status = expected(file, u, v)
            text, *others = ("\n".join(told) + "\n" for told in product(*lines))
            made.append(Run([str(room / name), str(u), str(v)], text, "", status, others))
    return made + misused("arrow", NEEDED, str(room / "bench-s"), ("U", "V"), room), among


def main(programs: List[str]) -> int:
    rust = programs[:1] == ["--rust"]
    programs = programs[rust:]
    with tempfile.TemporaryDirectory() as room:
        due, among = runs(Path(room))
        numbers = {run.status for run in due}
        if rust:
            due = [same for run in due for same in in_rust(run, NEEDED)]
        wrong = differing(programs, due)
        wrong += 0 if rust else unwritten(programs, "arrow", str(ROOT / "tables/bench-s.table"), "1", "1")
    lacking = [part for part in SHOWN if not among[part]]
    if lacking or not numbers >= {0, 1, 2, 6, 12, 13, 14, 15, 20, 255}:
        wrong += 1
        print(f"the runs lack {lacking}, or one of the refusals: {sorted(numbers)}")
    print(f"the arrow as expected in {len(due)} runs" if not wrong else f"{wrong} wrong")
    return 1 if wrong or not programs else 0


if __name__ == "__main__":
    sys.exit(main(sys.argv[1:]))

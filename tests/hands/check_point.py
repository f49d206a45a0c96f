"""Holds examples/point.c, as each of the given programs, to the evaluator: its text, its errors and its exit status.

Run as: python3 tests/hands/check_point.py PROGRAM...
"""
from __future__ import annotations

import sys
import tempfile
from fractions import Fraction
from pathlib import Path
from random import Random
from typing import Dict, List, Tuple

from counted import with_counts, without_counts
from expected import ROOT, six_places
from noted import copies, noted
from runs import GREATEST_SIZE, Run, differing, misused, unwritten
from rust_words import refusal_words

import calls
import samples
import tablefile
import tree as quadtree

FLAT = tuple((0,) * quadtree.TREE_SIDE for _ in range(quadtree.TREE_SIDE))
NEEDED = """point: four arguments are needed: TABLE U V TARIFF
  TABLE   a table file
  U, V    the point, in steps of 1/128 cell: U along temperature, V along climb rate
  TARIFF  hundredths of a cent a kWh, 0 to 99999
"""


# A 1 by 1 sheet raised to level 1, with the given units of 1/64 watt at every function but one.
def fine_sheet(units: int, units_at_origin: int) -> samples.Table:
    tree = quadtree.tree_of(quadtree.raised(FLAT, (0, 0, 4, 4), 1))
    surface = calls.surface_of(1, 1, tree)
    coefficients = [0] * surface.total
    for i, j in surface.active_functions(1):
        coefficients[surface.place(1, i, j)] = units_at_origin if (i, j) == (0, 0) else units
    return samples.Table(1, 1, tree, coefficients)


def file_of(table: samples.Table) -> bytes:
    return tablefile.write_file(*table)


# Each table file, by name, with the points and tariffs to read there.
def cases() -> List[Tuple[str, bytes, List[Tuple[int, int, int]]]]:
    sample: Dict[str, bytes] = {one.stem: one.read_bytes() for one in sorted((ROOT / "tables").glob("*.table"))}
    refined = sample["kiln-refined-near-top-heat"]
    here = [(900, 200, 2_950), (0, 0, 0), (1_024, 512, 99_999), (777, 511, 1), (1_024, 0, 1_500)]
    past = [(1_025, 0, 2_950), (0, 513, 2_950), (900, 200, 100_000), (1_025, 0, 100_000), (GREATEST_SIZE, 0, 0),
            (0, GREATEST_SIZE, 0), (0, 0, GREATEST_SIZE)]
    chosen = [("refined", refined, here + past), ("unrefined", sample["kiln-unrefined"], here)]
    chosen += [(name, sample[name], [(64, 5, 1_000), (128, 128, 0), (129, 128, 0), (0, 129, 0)])
               for name in ("bench-s", "bench-s-level-1")]
    chosen += [(f"halves{units}", file_of(fine_sheet(units, units)), [(0, 0, 2_950), (128, 77, 2_950)])
               for units in (-96, -32, 32, 96)]
    # One numerator below and above 500.5 watts: whole watts 500 and 501.
    chosen += [("below", file_of(fine_sheet(32_032, 32_031)), [(1, 1, 2_950)]),
               ("above", file_of(fine_sheet(32_032, 32_033)), [(1, 1, 2_950)])]
    rng = Random(53)
    random = [samples.random_table(rng, w, h) for w, h in ((1, 8), (8, 1), (3, 5), (6, 2))]
    # A long tree, and a long file.
    random += [samples.table_of(rng, 8, 8, samples.speckled_levels(rng, 8, 8, of)) for of in ((0, 1, 2, 3), (3,))]
    chosen += [(f"random{k}", file_of(table), [(*at, rng.randint(0, 99_999))
               for at in samples.random_points(rng, table.w, table.h, 4)]) for k, table in enumerate(random)]
    s = sample["bench-s"]
    bare = without_counts(s)
    chosen += [("counted", with_counts(s, [16, 0, 0, 0]), [(64, 5, 1_000), (129, 128, 0)]),
               ("bare", bare, [(64, 5, 1_000)]), ("bare-refined", without_counts(refined), here)]
    # A note moves no figure.
    chosen += [(name, file, [(64, 5, 1_000)]) for name, file in copies(sample["bench-s-counted"]).items()]
    chosen += [("noted-refined", noted(refined, bytes(64)), here + past[:4])]
    faults = {
        "empty": b"", "cut": refined[:100], "tag": b"\2" + s[1:], "length": s[:2] + b"\3" + s[3:], "on": s + b"\0",
        "long": refined + bytes(70_000), "side": s[:3] + b"\x09" + s[4:], "tree": s[:8] + b"\1" + s[9:],
        "noted-long": noted(refined, bytes(64)) + b" " * 70_000, "spaces": s + b" " * 70_000,
        "limit": bare[:12] + tablefile.coefficient_bytes(32_001) + bare[17:],
        "count": with_counts(s, [16, 0, 0, 1]),
    }
    return chosen + [(name, file, [(0, 0, 2_950)]) for name, file in faults.items()]


def mixed(watts: Fraction) -> str:
    whole, part = divmod(abs(watts), 1)
    sign = "-" if watts < 0 else ""
    if not part:
        return f"{sign}{whole}"
    return f"{sign}{whole} {part}" if whole else f"{sign}{part}"


# What the program must print, and its exit status.
def expected(file: bytes, u: int, v: int, tariff: int) -> Tuple[List[str], int]:
    def refused(number: int) -> Tuple[List[str], int]:
        return lines + [f"refused {number}: {refusal_words()[number]}"], number

    lines: List[str] = []
    content = tablefile.judge(file)
    if isinstance(content, int):
        return refused(content)
    w, h = content.w, content.h
    lines = [f"sheet:   {w} by {h} cells, u 0 to {128 * w}, v 0 to {128 * h}", f"point:   u {u}, v {v}"]
    exact = calls.exact(*content, u, v).answer
    if exact[0] == "refused":
        return refused(exact[1])
    watts = Fraction(exact[1], calls.D)
    lines += [f"exact:   {exact[1]}/{calls.D} watts", f"         = {mixed(watts)} watts",
              f"f64:     {six_places(watts)} watts", f"display: {calls.display(*content, u, v).answer[1]} watts"]
    cost = calls.cost(*content, u, v, tariff).answer
    if cost[0] == "refused":
        return refused(cost[1])
    return lines + [f"cost:    {cost[1]} hundredths of a cent an hour, at {tariff} a kWh"], 0


# The runs on each table, and those whose arguments are no such thing.
def runs(room: Path) -> List[Run]:
    made = []
    for name, file, points in cases():
        (room / name).write_bytes(file)
        for u, v, tariff in points:
            lines, status = expected(file, u, v, tariff)
            made.append(Run([str(room / name), str(u), str(v), str(tariff)], "\n".join(lines) + "\n", "", status))
    return made + misused("point", NEEDED, str(room / "bench-s"), ("U", "V", "TARIFF"), room)


def main(programs: List[str]) -> int:
    with tempfile.TemporaryDirectory() as room:
        due = runs(Path(room))
        wrong = differing(programs, due)
        wrong += unwritten(programs, "point", str(ROOT / "tables/bench-s.table"), "1", "1", "1")
    numbers = {run.status for run in due}
    if not numbers >= {0, 1, 2, 4, 6, 11, 12, 13, 14, 15, 20, 255}:
        wrong += 1
        print(f"no run gives some of the refusals: {sorted(numbers)}")
    print(f"one point as expected in {len(due)} runs" if not wrong else f"{wrong} wrong")
    return 1 if wrong or not programs else 0


if __name__ == "__main__":
    sys.exit(main(sys.argv[1:]))

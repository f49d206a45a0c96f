"""Measures instructions and stack of each call and compares them with every bar (bars.py). Times are left out.

Run as: python3 tests/benchmark/check_bars.py [--self-test]; a line for each figure above its bar, exit code 1 then.
The self test comes first, or alone where it is asked for: made-up figures past each bar must be told.
"""
from __future__ import annotations

import re
import sys
from argparse import ArgumentParser
from functools import partial
from typing import Callable, Iterator, List, Optional, Tuple

sys.dont_write_bytecode = True

import bars
from calls import watts_at
from measure import BEYONDS, CALLS, EXACT, EXACT_1, EXACT_2, LARGEST, LARGEST_FILE, MEASURED, READ, READ_UNCOUNTED
from measure import READINGS, REFINING_BEYONDS, ROOT, SLOPES_BEYONDS, UNREFINED, Figures, Measured, all_figures
from measure import calls_on, counted_on, point_of, stacked_on, table_names, tables

PAGE, HEADERS = ROOT / "docs/BENCHMARKS.md", ROOT / "include"
# What reads a file, what writes one, what reads at a point, and what gives slopes there, named here again.
READ_BY = (READ, READ_UNCOUNTED, "read_noted", "read_bench", "bench_noted")
WRITTEN = ("write_file", "write_noted")
FROM_GRID, LARGE = "read_grid", (UNREFINED, LARGEST, LARGEST_FILE)
# What adds a record, what gives the figures of a window, and the table beside which they are measured.
ADDED, FIGURED = ("add_record", "add_small", "add_first"), ("window_figures", "figures_small", "figures_none")
FIRST = "1 by 1, unrefined"
BESIDE_EXACT = ("watts", "display", "cost")
READ_AT_POINT = (EXACT, EXACT_1, EXACT_2, *BESIDE_EXACT)
SLOPES_AT = ("slopes", "slopes_2")
# Enquiries and commits, each pair with its place in bars.INSERTED_BEFORE.
ENQUIRED, COMMITTED = {"enquire": 0, "enquire_at": 1}, {"commit": 0, "commit_at": 1}
# The level of the quarter square at which an exact reading is taken, by the kind of table. On a fully split one the
# level of quarter (q, r) is q % 2 + r % 2, and the points lie in quarters (2 W, 2 H), (2 W + 1, 2 H) and
# (2 W + 1, 2 H + 1).
LEVELS = {"unrefined": {EXACT: 0, EXACT_1: 0, EXACT_2: 0}, "fully split": {EXACT: 0, EXACT_1: 1, EXACT_2: 2},
          "all of level 3": {EXACT: 3}}
# The bar's name, where its figure is taken, made-up figures of which that one is so far past the bar, and the names of
# lower bars of the same figure, which it is past by then.
Push = Tuple[str, str, Callable[[int], Figures], Tuple[str, ...]]


def usual(call: str) -> int:
    """The count of a call that is made up: 100, and a commit's one more, since an enquiry is to take less."""
    return 100 + (call in COMMITTED)


def made_up(table: str = "", call: str = "", ours: Optional[int] = None, theirs: Optional[int] = None,
            stack: int = 100, corners: int = 100) -> Figures:
    """Figures that are all as usual, but for those of one call on one table and of the corner program."""
    def on(name: str, count: Optional[int]) -> Measured:
        this = {call} if name == table else set()
        return Measured({one: count if one in this and count is not None else usual(one) for one in counted_on(name)},
                        {one: stack if one in this else 100 for one in stacked_on(name)}, {})
    names = table_names()
    return Figures({name: on(name, ours) for name in names}, {name: on(name, theirs) for name in names}, corners)


def by_count(table: str, call: str, bar: int, past: int) -> Figures:
    """Both programs have this count, so that their ratio is 1."""
    return made_up(table, call, ours=bar + past, theirs=bar + past)


def by_ratio(table: str, call: str, bar: float, past: int) -> Figures:
    return made_up(table, call, ours=round(100 * bar) + past, theirs=100)


def by_stack(table: str, call: str, bar: int, past: int) -> Figures:
    return made_up(table, call, stack=bar + past)


def by_corners(past: int) -> Figures:
    return made_up(corners=round(100 * bars.CORNERS) + past)


def named(call: str, table: str) -> str:
    """A call on a table, in words; those of windows take none."""
    return MEASURED[call] if call in ADDED + FIGURED else f"{MEASURED[call]}, {table}"


def pushes() -> Iterator[Push]:
    """Every figure that a bar is held of, by itself: no code of bars.py says which these are."""
    for table in table_names():
        for call in calls_on(table):
            # So far past C an f64 reading takes 20 more than the exact one, watts and slopes 1.2 times an f64 reading,
            # an enquiry more than a commit, and a record into a window 160, which is past their bars.
            lower = ("watts",) if call == "watts" else ("slopes",) if call in SLOPES_AT else (
                ("enquiry first",) if call in ENQUIRED else ("record",) if call in ADDED else ())
            name, bar = ("window ratio", bars.RATIO_OF_WINDOWS) if call in ADDED + FIGURED else ("ratio", bars.RATIO)
            yield name, named(call, table), partial(by_ratio, table, call, bar), lower
        yield "grid stack", f"{MEASURED[FROM_GRID]}, {table}", partial(
            by_stack, table, FROM_GRID, bars.FROM_GRID_STACK), ()
        for call in set(stacked_on(table)) - {FROM_GRID}:
            lower = ("reading stack",) if call in READ_AT_POINT else ()
            yield "stack", named(call, table), partial(by_stack, table, call, bars.STACK), lower
            if lower:
                bar = bars.READING_STACK[table.partition(", ")[2]]
                yield "reading stack", f"{MEASURED[call]}, {table}", partial(by_stack, table, call, bar), ()
        for call in set(BESIDE_EXACT) & set(calls_on(table)):
            bar = made_up().library[table].counts[EXACT] + bars.BEYOND_EXACT[call]
            yield call, f"{MEASURED[call]}, {table}", partial(by_count, table, call, bar), ()
        for call in set(SLOPES_AT) & set(calls_on(table)):
            bar = round(bars.OVER_WATTS * made_up().library[table].counts["watts"])
            yield "slopes", f"{MEASURED[call]}, {table}", partial(by_count, table, call, bar), ()
        for call in set(ENQUIRED) & set(calls_on(table)):
            bar = bars.INSERTED_BEFORE[table][ENQUIRED[call]] - 1
            yield "enquiry", f"{MEASURED[call]}, {table}", partial(by_count, table, call, bar), ("enquiry first",)
            yield "enquiry first", f"{MEASURED[call]}, {table}", partial(by_count, table, call, usual("commit") - 1), ()
        for call in set(COMMITTED) & set(calls_on(table)):
            bar = round(100 * bars.OVER_INSERTION) * bars.INSERTED_BEFORE[table][COMMITTED[call]] // 100
            yield "commit", f"{MEASURED[call]}, {table}", partial(by_count, table, call, bar), ()
        for call in SLOPES_AT[:1] if table == LARGEST_FILE else SLOPES_AT:
            beyond = SLOPES_BEYONDS[call]
            yield "ratio", f"{beyond}, {table}", partial(by_ratio, table, beyond, bars.RATIO), ()
        for call in {**ENQUIRED, **COMMITTED} if table != LARGEST_FILE else ():
            beyond = REFINING_BEYONDS[call]
            yield "ratio", f"{beyond}, {table}", partial(by_ratio, table, beyond, bars.RATIO), ()
        for call in (READ, READ_UNCOUNTED):
            bar = bars.READ_BEFORE_COUNTS[table] + bars.MORE_FOR_COUNTS
            yield "counts", f"{MEASURED[call]}, {table}", partial(by_count, table, call, bar), ("note",)
        for call in READ_BY:
            bar = bars.READ_BEFORE_NOTE[table][call == READ_UNCOUNTED] + bars.MORE_FOR_NOTE
            yield "note", f"{MEASURED[call]}, {table}", partial(by_count, table, call, bar), ()
        for call, level in LEVELS[table.partition(", ")[2]].items():
            beyond, most = BEYONDS[call], bars.BEYOND_AT_LEVEL[level]
            yield "ratio", f"{beyond}, {table}", partial(by_ratio, table, beyond, bars.RATIO), ()
            yield f"level {level}", f"{beyond}, {table}", partial(by_count, table, beyond, most), ()
    for name, table, call, bar in (
            ("check", LARGEST, "table_cause", bars.CHECK),
            ("unrefined", UNREFINED, "table_cause", bars.CHECK_UNREFINED),
            *(("reading", LARGEST, call, bars.READING) for call in READINGS),
            *(("committing", LARGEST, call, bars.COMMITTING) for call in COMMITTED),
            *(("file reading", LARGEST_FILE, call, bars.FILE_READING) for call in READ_BY),
            *(("file writing", LARGEST_FILE, call, bars.FILE_WRITING) for call in WRITTEN),
            *(("from a grid", table, FROM_GRID, bars.FROM_GRID) for table in LARGE),
            *(("record", FIRST, call, bars.ADDING) for call in ADDED),
            ("window", FIRST, FIGURED[0], bars.FIGURES_OF_WINDOW)):
        lower = (call,) if call in BESIDE_EXACT else ("commit",) if call in COMMITTED else (
            () if call not in READ_BY else ("counts", "note") if call in (READ, READ_UNCOUNTED) else ("note",))
        yield name, named(call, table), partial(by_count, table, call, bar), lower
    yield "corners", LARGEST_FILE, by_corners, ()


def told_otherwise(figures: Figures, names: Tuple[str, ...], where: str) -> List[str]:
    """What is told of figures, where that is anything but a line for each of these bars that names it and the place."""
    lines = bars.missed(figures)
    due = [f"{bars.BARS[name].what}: {where}: " for name in names]
    same = len(lines) == len(due) and all(any(line.startswith(one) for line in lines) for one in due)
    return [] if same else lines or ["nothing"]


def self_test() -> List[str]:
    """Faults of the comparison: at a bar nothing is told of it, just past it one line that names the bar and the
    place."""
    faults, tried = [], []
    for name, where, figures, lower in pushes():
        tried.append(name)
        for past, names in ((0, lower), (1, (*lower, name))):
            lines = told_otherwise(figures(past), names, where)
            if lines:
                faults.append(f"self test: {name}, {where}: a figure {past} past the bar is told as {lines}")
    faults += [f"self test: {name}: no figure was put past this bar" for name in bars.BARS if name not in tried]
    if len(tried) != bars.compared(made_up()):
        faults.append(f"self test: {len(tried)} figures were put past a bar, {bars.compared(made_up())} are compared")
    for table in table_names():
        for part, held in (("counts", counted_on(table)), ("stacks", stacked_on(table))):
            for call in held:
                figures = made_up()
                del getattr(figures.library[table], part)[call]
                try:
                    bars.missed(figures)
                    faults.append(f"self test: {call}, {table}: nobody misses its {part}")
                except KeyError:
                    pass
    return faults


def unmeasured() -> List[str]:
    """Calls of the headers that are not measured, and the other way round."""
    declared = {call for header in HEADERS.glob("*.h")
                for call in re.findall(r"^uint8_t kiln_(\w+)", header.read_text(encoding="utf-8"), re.M)}
    return [f"kiln_{call}: declared or measured, but not both" for call in sorted(declared ^ set(CALLS))]


def unpriced() -> List[str]:
    """A line where no cost is measured of a reading above zero: those below cost 0 at once."""
    above = (name for name, t in tables() if "cost" in calls_on(name) and watts_at(*t, *point_of(t, EXACT)) > 0)
    return [] if any(above) else ["no cost is measured of a reading above zero"]


def other_bars() -> List[str]:
    """A line where the page's bars, the first two cells of its rows, are not those that are compared."""
    part = PAGE.read_text(encoding="utf-8").partition("\n## Bars\n")[2].partition("\n## ")[0]
    on_page = [tuple(row.split(" | ")[:2]) for row in re.findall(r"^\| (.*) \|$", part, re.M)][1:]
    held = [(bar.what, bars.shown(bar.greatest)) for bar in bars.BARS.values()]
    return [] if on_page == held else ["docs/BENCHMARKS.md has other bars: run tests/benchmark/run.py"]


def main() -> int:
    parser = ArgumentParser(prog="check_bars.py")
    parser.add_argument("--self-test", action="store_true", help="only see that figures past each bar are told")
    alone = parser.parse_args().self_test
    faults = self_test() + unmeasured() + unpriced() + other_bars()
    words = f"{len(bars.BARS)} bars, {sum(1 for _ in pushes())} made-up figures put past one"
    if not alone:
        figures = all_figures(with_times=False)
        faults += [f"bar not met: {line}" for line in bars.missed(figures)]
        words += f"; {bars.compared(figures)} figures measured and compared"
    for fault in faults:
        print(fault)
    print(f"bars: {words}, {len(faults)} faults")
    return 1 if faults else 0


if __name__ == "__main__":
    sys.exit(main())

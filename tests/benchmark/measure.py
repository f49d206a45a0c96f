"""Measures one call of the library and of the plain C program: instructions, bytes of stack, and nanoseconds.

Instructions and bytes of stack repeat from run to run; nanoseconds do not.
"""
from __future__ import annotations

import re
import subprocess
import sys
import tempfile
from functools import lru_cache
from pathlib import Path
from random import Random
from shutil import which
from typing import Dict, List, NamedTuple, Tuple

ROOT = Path(__file__).resolve().parents[2]
HERE, BUILT = ROOT / "tests/benchmark", ROOT / "target/staticlib"
sys.path += [str(ROOT / "tests/evaluator"), str(ROOT / "tests/differential")]

import grids
import samples
import tablefile
import windows
from calls import surface_of
from library import archive, corner_program
from surface import QUARTERS_PER_CELL, STEPS_PER_CELL, total_places
from tree import level_map

# The calls by their names without kiln_, as bench.c has them.
READINGS = {"exact": "Exact reading", "watts": "Reading as f64", "display": "Display", "cost": "Cost"}
SLOPED = {"slopes": "Watts and slopes"}
CALLS = {"table_cause": "Table check", "least_level": "Least level", "activity": "Activity", "fresh": "Fresh table",
         "set": "Set", "enquire": "Enquiry", "commit": "Commit", **READINGS, **SLOPED, "read_file": "File reading",
         "read_bench": "Bench reading", "write_file": "File writing", "write_grid": "Grid writing",
         "read_grid": "Grid reading", "add_record": "Record into a window", "window_figures": "Figures of a window"}
# What is measured: each call, those of files with counts and no note; the least level under the point's quarter square
# too, the enquiry and the commit of it, the exact reading at two points more, that as f64 and watts and slopes at the
# last of them, file reading without counts, reading by both loaders and writing with a note, and the calls of windows
# on three of them.
CHECKED, LEAST_AT = "table_cause", "least_at"
ENQUIRE, COMMIT, ENQUIRE_AT, COMMIT_AT = "enquire", "commit", "enquire_at", "commit_at"
EXACT, EXACT_1, EXACT_2 = "exact", "exact_1", "exact_2"
WATTS, WATTS_2, SLOPES, SLOPES_2 = "watts", "watts_2", "slopes", "slopes_2"
AT_LEVEL = {EXACT_1: ", at a point of level 1 of a split table", EXACT_2: ", at a point of level 2 of a split table"}
READ, READ_UNCOUNTED, READ_NOTED = "read_file", "read_uncounted", "read_noted"
BENCH, BENCH_NOTED = "read_bench", "bench_noted"
WRITE, WRITE_NOTED = "write_file", "write_noted"
WRITE_GRID, READ_GRID = "write_grid", "read_grid"
ADD, ADD_SMALL, ADD_FIRST = "add_record", "add_small", "add_first"
FIGURES, FIGURES_SMALL, FIGURES_NONE = "window_figures", "figures_small", "figures_none"
LOADS, WRITES = (READ, READ_UNCOUNTED, READ_NOTED, BENCH, BENCH_NOTED), (WRITE, WRITE_NOTED)
MEASURED = {**CALLS, LEAST_AT: "Least level, under a point", ENQUIRE_AT: "Enquiry, of one quarter square",
            COMMIT_AT: "Commit, of one quarter square",
            **{call: READINGS[EXACT] + where for call, where in AT_LEVEL.items()},
            WATTS_2: READINGS[WATTS] + AT_LEVEL[EXACT_2], SLOPES_2: SLOPED[SLOPES] + AT_LEVEL[EXACT_2],
            READ_UNCOUNTED: "File reading, without counts", READ_NOTED: "File reading, with a note",
            BENCH_NOTED: "Bench reading, with a note", WRITE_NOTED: "File writing, with a note",
            ADD_SMALL: "Record into a window, a small one", ADD_FIRST: "Record into a window, the first",
            FIGURES_SMALL: "Figures of a window, a small one", FIGURES_NONE: "Figures of a window, none held"}
OF_FILES, OF_GRIDS = LOADS + WRITES, (WRITE_GRID, READ_GRID)
ADDS, ALL_FIGURES = (ADD, ADD_SMALL, ADD_FIRST), (FIGURES, FIGURES_SMALL, FIGURES_NONE)
OF_WINDOWS = ADDS + ALL_FIGURES
# The longest note.
NOTE = bytes(range(64, 128))
# What an exact reading, and watts and slopes, take beyond the table check, by the call; and the point of each exact
# reading, from (64 W, 64 H) on: the other calls are made at the first, as f64 and with slopes at the last too.
BEYOND = "Exact reading beyond the table check"
BEYONDS = {EXACT: BEYOND, **{call: BEYOND + where for call, where in AT_LEVEL.items()}}
SLOPES_BEYOND = "Watts and slopes beyond the table check"
SLOPES_BEYONDS = {SLOPES: SLOPES_BEYOND, SLOPES_2: SLOPES_BEYOND + AT_LEVEL[EXACT_2]}
# What enquiries and commits take beyond it, by the call.
REFINING_BEYONDS = {call: f"{MEASURED[call]}, beyond the table check"
                    for call in (ENQUIRE, COMMIT, ENQUIRE_AT, COMMIT_AT)}
POINTS = {EXACT: (5, 7), EXACT_1: (37, 7), EXACT_2: (37, 39)}
SIZES, TURNS = (1, 4, 8), 3
# The windows: how many places they have, how many they hold, and the place of the oldest, in the middle.
WINDOWS = ((1_440, 1_440, 720), (7, 7, 3), (1_440, 0, 720))
LARGEST, UNREFINED, LARGEST_FILE = "8 by 8, fully split", "8 by 8, unrefined", "8 by 8, all of level 3"
# The calls of windows take no table, and are measured beside those on one of them.
BESIDE_WINDOWS = "1 by 1, unrefined"

# Callgrind counts each repetition of a rep instruction, so fills and copies are made without: by glibc, and in C.
NO_REP = {
    "GLIBC_TUNABLES": "glibc.cpu.x86_rep_stosb_threshold=1000000:glibc.cpu.x86_rep_movsb_threshold=1000000",
}
FLAGS = ("-O2", "-pthread", "-Wall", "-Wextra", "-Werror", "-mmemset-strategy=libcall:-1:noalign")
PLAIN = tuple(sorted(map(str, HERE.glob("plain_*.c"))))


class Measured(NamedTuple):
    """One program's figures on one table by call: instructions, bytes of stack, and nanoseconds where timed."""

    counts: Dict[str, int]
    stacks: Dict[str, int]
    times: Dict[str, float]


class Figures(NamedTuple):
    """The library's and the C program's figures by table, and the instructions of the corner program."""

    library: Dict[str, Measured]
    plain: Dict[str, Measured]
    corners: int


@lru_cache(maxsize=None)
def tables() -> List[Tuple[str, samples.Table]]:
    """Each table that is measured, by its name; the last is that of the file with the most coefficients."""
    rng, made = Random(8), []
    for n in SIZES:
        flat = tuple((0,) * 32 for _ in range(32))
        split = tuple(tuple((u % 2) + (v % 2) if u < 4 * n and v < 4 * n else 0 for u in range(32)) for v in range(32))
        for name, levels in (("unrefined", flat), ("fully split", split)):
            made.append((f"{n} by {n}, {name}", samples.table_of(rng, n, n, levels)))
    rng, places, limit = Random(9), (8 * 8 + 3) ** 2, 32_000 * 64**3
    numbers = [rng.randint(-limit, limit) for _ in range(places)]
    return [*made, (LARGEST_FILE, samples.Table(8, 8, [3], [0] * (total_places(8, 8) - places) + numbers))]


def table_names() -> Tuple[str, ...]:
    return tuple(name for name, _ in tables())


def calls_on(table: str) -> Tuple[str, ...]:
    """The calls that are measured on a table: of that of the largest file only those of files and of grids. Those of
    windows are measured beside one table."""
    if table == LARGEST_FILE:
        return OF_FILES + OF_GRIDS
    return tuple(call for call in MEASURED if table == BESIDE_WINDOWS or call not in OF_WINDOWS)


def where(call: str, table: str) -> str:
    """A call, or what one takes beyond another, and the table that it is made on, in words."""
    return MEASURED[call] if call in OF_WINDOWS else f"{MEASURED.get(call, call)}, {table}"


def beyond_on(table: str) -> Dict[str, str]:
    """The exact readings that are measured beyond the table check: on that of the largest file one, which is of level 3
    all over."""
    return {EXACT: BEYOND} if table == LARGEST_FILE else BEYONDS


def slopes_beyond_on(table: str) -> Dict[str, str]:
    """The calls of watts and slopes that are measured beyond the table check: on that of the largest file one, as of
    exact readings."""
    return {SLOPES: SLOPES_BEYOND} if table == LARGEST_FILE else SLOPES_BEYONDS


def refining_beyond_on(table: str) -> Dict[str, str]:
    """The enquiries and commits that are measured beyond the table check: those that are measured."""
    return {call: title for call, title in REFINING_BEYONDS.items() if call in calls_on(table)}


def counted_on(table: str) -> Tuple[str, ...]:
    """What has a count on a table: its calls, and what some of them take beyond the table check."""
    return (*calls_on(table), *beyond_on(table).values(), *slopes_beyond_on(table).values(),
            *refining_beyond_on(table).values())


def stacked_on(table: str) -> Tuple[str, ...]:
    """The calls whose stack is measured on a table: its calls, and on that of the largest file those at a point too."""
    return (*calls_on(table), *READINGS, *SLOPED) if table == LARGEST_FILE else calls_on(table)


def point_of(t: samples.Table, call: str) -> Tuple[int, int]:
    """Where an exact reading of a table is taken."""
    u, v = POINTS[call]
    return STEPS_PER_CELL * t.w // 2 + u, STEPS_PER_CELL * t.h // 2 + v


def level_at(t: samples.Table, call: str) -> int:
    """The level of the quarter square that holds that point, which is on no edge."""
    u, v = (steps * QUARTERS_PER_CELL // STEPS_PER_CELL for steps in point_of(t, call))
    return level_map(t.tree, t.w, t.h)[v][u]


def file_of(t: samples.Table, call: str) -> bytes:
    """The file that a call of files reads or writes; of a call of grids the grid."""
    if call in OF_GRIDS:
        return grids.grid_bytes(t.w, t.h, grids.carried_numbers(surface_of(*t[:3]), t.coefficients))
    noted = call in (READ_NOTED, BENCH_NOTED, WRITE_NOTED)
    return tablefile.write_file(*t, counted=call != READ_UNCOUNTED, note=NOTE if noted else None)


@lru_cache(maxsize=None)
def told_windows() -> Tuple[int, ...]:
    """The records of the windows, and each window with what is due of it."""
    rng, made = Random(10), []
    records = [rng.randint(-32_000, 32_000) for _ in range(windows.GREATEST_WINDOW)]
    for places, held, oldest in WINDOWS:
        answer = windows.window_figures(records[:places], held, oldest).answer
        made += [places, held, oldest, *windows.linked(answer, 0, 0)[1:]]
    return (*records, *made)


def told(t: samples.Table) -> str:
    """A table, its files, with counts, without, and with counts and a note, the note, its grid, the windows, and the
    points to read at, as the program reads them."""
    files = [*(file_of(t, call) for call in (READ, READ_UNCOUNTED, READ_NOTED)), NOTE, file_of(t, WRITE_GRID)]
    return " ".join(map(str, [t.w, t.h, len(t.tree), *t.tree, len(t.coefficients), *t.coefficients,
                              *(part for file in files for part in (len(file), *file)), *told_windows(),
                              *(steps for call in POINTS for steps in point_of(t, call))]))


def built(name: str, *given: str) -> str:
    subprocess.run(["gcc", *FLAGS, "-o", str(BUILT / name), str(HERE / "bench.c"), *given], check=True)
    return f"./{name}"


def programs() -> Tuple[str, str]:
    """The program that makes the calls, linked with the library and with plain C."""
    library = str(archive())
    return built("bench_library", "-DPREFIX=kiln_", library), built("bench_plain", *PLAIN)


def said(program: str, what: str, text: str, *call: str) -> Dict[str, float]:
    """What the program prints of each call, or of some."""
    command = [program, what, *call]
    lines = subprocess.run(command, cwd=BUILT, input=text, capture_output=True, text=True, check=True).stdout
    return {name: float(figure) for name, figure in (line.split() for line in lines.splitlines())}


def counted(program: str, text: str, *call: str) -> Dict[str, int]:
    """The instructions of each call, or of some, without those that it takes to be counted at all."""
    counts: Dict[str, int] = {}
    with tempfile.TemporaryDirectory() as room:
        # The names and the environment are the same everywhere: their length moves the stack, and fills with it.
        command = [which("valgrind"), "--tool=callgrind", f"--callgrind-out-file={room}/dump", program, "count", *call]
        subprocess.run(command, cwd=BUILT, input=text, capture_output=True, text=True, check=True, env=NO_REP)
        for dump in Path(room).iterdir():
            words = dump.read_text()
            name = re.search(r"^desc: Trigger: Client Request: (\w+)$", words, re.M)
            if name:
                counts[name.group(1)] = int(re.search(r"^summary: (\d+)$", words, re.M).group(1))
    nothing = counts.pop("nothing")
    counts = {name: count - nothing for name, count in counts.items()}
    beyonds = {**BEYONDS, **SLOPES_BEYONDS, **REFINING_BEYONDS}.items()
    counts.update({title: counts[one] - counts[CHECKED] for one, title in beyonds if one in counts})
    return counts


def timed(both: Tuple[str, str], text: str, *call: str) -> Tuple[Dict[str, float], ...]:
    """The nanoseconds of each call, by program: the least of some turns, which the programs take one by one."""
    least: Tuple[Dict[str, float], ...] = ({}, {})
    for _ in range(TURNS):
        for program, figures in zip(both, least):
            for name, figure in said(program, "time", text, *call).items():
                figures[name] = min(figure, figures.get(name, figure))
    return least


def corners(t: samples.Table) -> int:
    """The instructions of the corner program on the file of a table, from start to end."""
    with tempfile.TemporaryDirectory() as room:
        command = [which("valgrind"), "--tool=callgrind", f"--callgrind-out-file={room}/out", str(corner_program())]
        run = subprocess.run(command, cwd=ROOT, input=file_of(t, READ), capture_output=True, check=True, env=NO_REP)
    return int(re.search(rb"refs:\s+([\d,]+)", run.stderr).group(1).replace(b",", b""))


def all_figures(with_times: bool) -> Figures:
    """All figures; the times are left out where they are not asked for."""
    both, made = programs(), tables()
    figures = Figures({}, {}, corners(dict(made)[LARGEST_FILE]))
    for name, t in made:
        only, stacked = (calls_on(name), stacked_on(name)) if name == LARGEST_FILE else ((), ())
        text = told(t)
        times = timed(both, text, *only) if with_times else ({}, {})
        for of, program, spent in zip((figures.library, figures.plain), both, times):
            stacks = {call: int(n) for call, n in said(program, "stack", text, *stacked).items()}
            counts = counted(program, text, *only)
            if BEYOND not in counts:
                more = counted(program, text, CHECKED, EXACT, SLOPES)
                counts.update({title: more[title] for title in (BEYOND, SLOPES_BEYOND)})
            of[name] = Measured(counts, stacks, spent)
    return figures

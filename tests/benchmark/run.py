"""Instructions, time and stack of each call, of the library and of the plain C program, into docs/BENCHMARKS.md, and of
its further inputs into docs/BENCHMARKS-INPUTS.md.

Run as: python3 tests/benchmark/run.py; a line for each figure above its bar, and exit code 1 then.
"""
from __future__ import annotations

import re
import subprocess
import sys
from pathlib import Path
from textwrap import fill
from typing import Dict, List, Sequence

sys.dont_write_bytecode = True

import bars
from measure import ADD, ADDS, ALL_FIGURES, BESIDE_WINDOWS, BEYONDS, CALLS, FIGURES, LARGEST_FILE, MEASURED, OF_FILES
from measure import OF_GRIDS, OF_WINDOWS, READ, REFINING_BEYONDS, ROOT, SLOPES_2, SLOPES_BEYONDS, WINDOWS, Figures
from measure import Measured, all_figures, file_of, tables


def processor() -> str:
    """The processor's name, as the machine tells it."""
    found = re.search(r"^model name\s*: (.*)$", Path("/proc/cpuinfo").read_text(), re.M)
    return found.group(1).strip() if found else "an unnamed processor"


def paragraphs() -> List[str]:
    """How the figures are made."""
    gcc = subprocess.run(["gcc", "-dumpfullversion"], check=True, capture_output=True, text=True).stdout.strip()
    return [
        "Instructions of one call, counted by valgrind's callgrind on x86-64, so that they repeat: of the library, "
        "and of `tests/benchmark/plain_*.c`, the same checks and the same steps in plain C, built by "
        f"gcc {gcc} -O2. Beside them the microseconds of one call on {processor()}, processor's time, the least of "
        "many rounds that both programs made by turns. In that directory `run.py` makes this page, whose figures are "
        "those of the day it was made, and `check_plain.py` holds the C program to the evaluator.",
        "The least level, with the greatest, is asked over the whole sheet, and under the quarter square that holds "
        "the point of the readings; the activity of level 3; one coefficient of level 0 is set; enquiries are made for "
        "raising the whole sheet, and that quarter square, to level 3, and their slips are committed; readings are "
        "taken at (64 W + 5, 64 H + 7), in a quarter square of level 0; the exact one "
        "also at (64 W + 37, 64 H + 7) and at (64 W + 37, 64 H + 39), which on the fully split tables lie in quarter "
        "squares of level 1 and of level 2, and on the unrefined ones of level 0; the f64 reading and watts and slopes "
        "at the first and the last of these points; the exact reading and watts and slopes beyond the table "
        "check and the stack of readings also where all is of level 3; the tariff is 1,500; the file that is read and "
        "written is the table's, with its counts and no note; it is read without the counts too, and read by both "
        "loaders and written with a note of 64 bytes. The largest is that of 8 by 8 with the tree 3, 22,445 bytes of "
        "coefficients. The grid that is written is the table's, and it is read over the table's own tree. Records are "
        "added to a window of 1,440 places and to one of 7, both full with the oldest in the middle, and to one of "
        "1,440 that holds none; the figures are taken of the same. "
        "Callgrind counts each repetition of a rep instruction, so on both sides memory is filled and copied without. "
        "No call allocates.",
    ]


def bar_table(figures: Figures) -> List[str]:
    """Every bar, with the greatest of the figures that are compared with it."""
    slowest = max(ours.times[call] / figures.plain[table].times[call]
                  for table, ours in figures.library.items() for call in ours.times)
    words = ("The gate (`.ci/run`) runs `tests/benchmark/check_bars.py`, which counts instructions and measures stack "
             "anew, compares each figure that a bar speaks of, on every table, and fails where one is above its bar. "
             "Before that it tries itself on made-up figures just past each bar, and sees that the bars below are "
             "those of `bars.py`. Times are compared with nothing, since they do not repeat as counts do; the "
             f"greatest ratio of times is {slowest:.2f}. `docs/DECISIONS-BARS.md` says where each bar "
             "comes from.")
    return ["", "## Bars", "", fill(words, 116, break_on_hyphens=False), "", "| what | bar | greatest figure |",
            "|---|---|---|",
            *(f"| {bar.what} | {bars.shown(bar.greatest)} | {bars.shown(max(bar.of(figures).values()))} |"
              for bar in bars.BARS.values())]


def row(name: str, sizes: Sequence[int], call: str, timed: bool, library: Measured, plain: Measured) -> str:
    """A line of a call's figures beside C's."""
    ours, theirs = library.counts[call], plain.counts[call]
    cells = [name, *(f"{size:,}" for size in sizes), f"{ours:,}", f"{theirs:,}", f"{ours / theirs:.2f}"]
    if timed:
        ours, theirs = library.times[call], plain.times[call]
        cells += [f"{ours / 1_000:.2f}", f"{theirs / 1_000:.2f}", f"{ours / theirs:.2f}"]
    return f"| {' | '.join(cells)} |"


def section(title: str, head: str, timed: bool) -> List[str]:
    """A title, and the head of its table."""
    head += " library, µs | C, µs | ratio |" if timed else ""
    return ["", f"## {title}", "", head, "|---" * head.count(" | ") + "|---|"]


def window_table(call: str, title: str, figures: Figures) -> List[str]:
    """A call of windows, on each of them."""
    lines = section(title, "| places | held | oldest at | library | C | ratio |", True)
    library, plain = figures.library[BESIDE_WINDOWS], figures.plain[BESIDE_WINDOWS]
    for made, (places, held, oldest) in zip({ADD: ADDS, FIGURES: ALL_FIGURES}[call], WINDOWS):
        lines.append(row(f"{places:,}", (held, oldest), made, True, library, plain))
    return lines


def call_table(call: str, title: str, figures: Figures) -> List[str]:
    if call in OF_WINDOWS:
        return window_table(call, title, figures)
    of_file = call in OF_FILES + OF_GRIDS
    bytes_of = "file" if call in OF_FILES else "grid" if of_file else "tree"
    lines = section(title, f"| table | {bytes_of} bytes | library | C | ratio |", call in MEASURED)
    for name, t in tables():
        library, plain = figures.library[name], figures.plain[name]
        if call in library.counts:
            size = len(file_of(t, call) if of_file else t.tree)
            lines.append(row(name, (size,), call, call in MEASURED, library, plain))
    return lines


def greatest_stack(measured: Dict[str, Measured], call: str) -> int:
    return max(one.stacks[call] for one in measured.values() if call in one.stacks)


def page(figures: Figures) -> str:
    lines = ["# Benchmarks"]
    for words in paragraphs():
        lines += ["", fill(words, 116, break_on_hyphens=False)]
    lines += bar_table(figures)
    for call, title in CALLS.items():
        lines += call_table(call, title, figures)
    lines += ["", "## Stack", "", "Bytes of stack down to the lowest that one call changes, the greatest over these "
              "tables.", "", "| call | library | C |", "|---|---|---|"]
    for call, title in MEASURED.items():
        ours, theirs = greatest_stack(figures.library, call), greatest_stack(figures.plain, call)
        lines.append(f"| {title} | {ours:,} | {theirs:,} |")
    loaded = figures.library[LARGEST_FILE].counts[READ]
    lines += ["", "## The corner program", "",
              fill(f"On the file of {LARGEST_FILE}: {figures.corners:,} instructions from start to end, "
                   f"{figures.corners / loaded:.2f} times file reading of it.", 116)]
    return "\n".join(lines) + "\n"


def inputs_page(figures: Figures) -> str:
    """Calls on further inputs, and beyond the table check."""
    lines = ["# Benchmarks, further inputs", "",
             fill("As `docs/BENCHMARKS.md`, which says how the figures are made: the same calls on other inputs, and "
                  "what they take beyond the table check.", 116)]
    beyonds = *BEYONDS.values(), *SLOPES_BEYONDS.values(), *REFINING_BEYONDS.values()
    for call, title in (*MEASURED.items(), *((beyond, beyond) for beyond in beyonds)):
        # At its second point watts and slopes are shown beyond the table check alone, and all windows with the first.
        if call not in CALLS and call != SLOPES_2 and call not in OF_WINDOWS:
            lines += call_table(call, title, figures)
    return "\n".join(lines) + "\n"


def main() -> int:
    figures = all_figures(with_times=True)
    (ROOT / "docs/BENCHMARKS.md").write_text(page(figures), encoding="utf-8")
    (ROOT / "docs/BENCHMARKS-INPUTS.md").write_text(inputs_page(figures), encoding="utf-8")
    faults = bars.missed(figures)
    for fault in faults:
        print(f"bar not met: {fault}")
    print(f"benchmark: {len(CALLS)} calls of the library beside C on {len(tables())} tables, {len(faults)} faults")
    return 1 if faults else 0


if __name__ == "__main__":
    sys.exit(main())

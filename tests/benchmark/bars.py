"""The bars of the benchmark: the greatest that figures may be, and the figures that each bar is compared with.

`docs/DECISIONS-BARS.md` says where each number comes from.
"""
from __future__ import annotations

from typing import Callable, Dict, List, NamedTuple

from measure import ADDS, AT_LEVEL, BESIDE_WINDOWS, COMMIT, COMMIT_AT, ENQUIRE, ENQUIRE_AT, EXACT, FIGURES, LARGEST
from measure import LARGEST_FILE, LOADS, MEASURED, OF_WINDOWS, READ, READ_GRID, READ_UNCOUNTED, READINGS, SLOPES
from measure import SLOPES_2, UNREFINED, WATTS, WATTS_2, WRITES, Figures, beyond_on, calls_on, counted_on, level_at
from measure import stacked_on, tables, where

RATIO = 1.2
# Of the calls of a window, which take some forty instructions but for a pass over many records.
RATIO_OF_WINDOWS = 1.6
CHECK = 150_000
CHECK_UNREFINED = 64_000
COMMITTING = 450_000
# What insertion took before it was split into enquiry and commit, of the whole sheet and of one quarter square.
INSERTED_BEFORE = {
    "1 by 1, unrefined": (13_950, 14_676),
    "1 by 1, fully split": (15_176, 16_400),
    "4 by 4, unrefined": (61_681, 64_835),
    "4 by 4, fully split": (71_553, 88_952),
    "8 by 8, unrefined": (184_410, 192_915),
    "8 by 8, fully split": (222_671, 290_685),
}
# An enquiry takes less than that, and less than the commit of its slip; a commit at most so many times that.
LESS, OVER_INSERTION = -1, 1.3
FILE_READING = 290_000
FILE_WRITING = 500_000
# What file reading took before files had counts, of the file of each table, which had none.
READ_BEFORE_COUNTS = {
    "1 by 1, unrefined": 6_059,
    "1 by 1, fully split": 8_659,
    "4 by 4, unrefined": 16_156,
    "4 by 4, fully split": 33_675,
    "8 by 8, unrefined": 31_951,
    "8 by 8, fully split": 93_298,
    "8 by 8, all of level 3": 220_558,
}
MORE_FOR_COUNTS = 1_000
# What file reading took before files had notes, of the file of each table with counts and without.
READ_BEFORE_NOTE = {
    "1 by 1, unrefined": (5_002, 4_965),
    "1 by 1, fully split": (7_615, 7_578),
    "4 by 4, unrefined": (13_046, 13_009),
    "4 by 4, fully split": (30_602, 30_565),
    "8 by 8, unrefined": (26_141, 26_104),
    "8 by 8, fully split": (87_557, 87_520),
    "8 by 8, all of level 3": (219_152, 219_115),
}
MORE_FOR_NOTE = 500
# Of an exact reading beyond the table check, by the level of the quarter square that holds its point; of the other
# readings beyond the exact one; and of their stack, by the kind of table: the most that they took before the step that
# subdivides a patch worked in one array, but at level 0, where it is what a reading takes since slopes are read by the
# same code.
BEYOND_AT_LEVEL = (306, 970, 1_588, 2_181)
BEYOND_EXACT = {"watts": 18, "display": 21, "cost": 34}
READING_STACK = {"unrefined": 1_520, "fully split": 1_968, "all of level 3": 1_520}
# Of watts and slopes over those of the f64 reading at the same point: one check of the table, and one patch. A second
# check would be past it anywhere, a second patch at the point of level 2 of the smallest split table.
OVER_WATTS = 1.15
# Readings are taken at a point of level 0.
READING = CHECK + BEYOND_AT_LEVEL[0]
# Of reading a grid over its table's own tree, 8 by 8: unrefined, fully split and all of level 3.
FROM_GRID = 1_500_000
# Of a record into each of the windows; and of the figures of that with 1,440 records, so many for each: plain C takes
# 9 in one pass, and would take 13 with one pass for the total and one for the others.
ADDING = 100
FIGURES_OF_WINDOW = 10 * 1_440
STACK = 8_192
# Reading a grid keeps the numbers of levels 0 to 2, 1,707 of 8 bytes.
FROM_GRID_STACK = 20_480
CORNERS = 5.0


class Bar(NamedTuple):
    """What is held, in words; the greatest that it may be; and its figures, by where they were taken."""

    what: str
    greatest: float
    of: Callable[[Figures], Dict[str, float]]


def ratios(of_windows: bool) -> Callable[[Figures], Dict[str, float]]:
    """The instructions over those of the C program, of each call on each table, or of each call of a window."""
    return lambda figures: {where(call, table): ours.counts[call] / figures.plain[table].counts[call]
                            for table, ours in figures.library.items() for call in counted_on(table)
                            if (call in OF_WINDOWS) == of_windows}


def counts(table: str, *calls: str) -> Callable[[Figures], Dict[str, float]]:
    """The instructions of calls on one table."""
    return lambda figures: {where(call, table): figures.library[table].counts[call] for call in calls}


def more_for_counts(figures: Figures) -> Dict[str, float]:
    """The instructions of file reading beyond those before files had counts: of files with counts and without."""
    return {f"{MEASURED[call]}, {table}": ours.counts[call] - READ_BEFORE_COUNTS[table]
            for table, ours in figures.library.items() for call in (READ, READ_UNCOUNTED)}


def before_note(table: str, call: str) -> int:
    """What file reading took of the same table's file, with the same counts or none, before files had notes."""
    return READ_BEFORE_NOTE[table][call == READ_UNCOUNTED]


def more_for_note(figures: Figures) -> Dict[str, float]:
    """The instructions of file reading beyond those before files had notes: by both loaders, with or without one."""
    return {f"{MEASURED[call]}, {table}": ours.counts[call] - before_note(table, call)
            for table, ours in figures.library.items() for call in LOADS}


def beyond_at(level: int) -> Callable[[Figures], Dict[str, float]]:
    """The instructions of exact readings beyond the table check where the quarter square that holds the point has this
    level."""
    return lambda figures: {f"{title}, {table}": figures.library[table].counts[title] for table, t in tables()
                            for call, title in beyond_on(table).items() if level_at(t, call) == level}


def from_grid(figures: Figures) -> Dict[str, float]:
    """The instructions of a grid's conversion on the 8 by 8 tables."""
    return {f"{MEASURED[READ_GRID]}, {table}": figures.library[table].counts[READ_GRID]
            for table in (UNREFINED, LARGEST, LARGEST_FILE)}


def stacks(figures: Figures) -> Dict[str, float]:
    return {where(call, table): ours.stacks[call]
            for table, ours in figures.library.items() for call in stacked_on(table) if call != READ_GRID}


def grid_stacks(figures: Figures) -> Dict[str, float]:
    return {f"{MEASURED[READ_GRID]}, {table}": ours.stacks[READ_GRID] for table, ours in figures.library.items()}


def more_stack(figures: Figures) -> Dict[str, float]:
    """The stack of a reading beyond what it took before, by the kind of table."""
    return {f"{MEASURED[call]}, {table}": ours.stacks[call] - READING_STACK[table.partition(", ")[2]]
            for table, ours in figures.library.items() for call in stacked_on(table) if call in (*READINGS, *AT_LEVEL)}


def beyond_exact(call: str) -> Callable[[Figures], Dict[str, float]]:
    """The instructions of another reading beyond those of the exact one."""
    return lambda figures: {f"{MEASURED[call]}, {table}": ours.counts[call] - ours.counts[EXACT]
                            for table, ours in figures.library.items() if call in calls_on(table)}


def over_watts(figures: Figures) -> Dict[str, float]:
    """The instructions of watts and slopes over those of the f64 reading, at the same point."""
    return {f"{MEASURED[call]}, {table}": ours.counts[call] / ours.counts[watts]
            for table, ours in figures.library.items()
            for call, watts in ((SLOPES, WATTS), (SLOPES_2, WATTS_2)) if call in calls_on(table)}


def inserted_before(table: str, call: str) -> int:
    """What the insertion of the same box took before it was split."""
    return INSERTED_BEFORE[table][call in (ENQUIRE_AT, COMMIT_AT)]


def enquiries_beyond_insertion(figures: Figures) -> Dict[str, float]:
    """The instructions of an enquiry beyond those of the insertion of the same box before it was split."""
    return {f"{MEASURED[call]}, {table}": figures.library[table].counts[call] - inserted_before(table, call)
            for table in INSERTED_BEFORE for call in (ENQUIRE, ENQUIRE_AT)}


def enquiries_beyond_commit(figures: Figures) -> Dict[str, float]:
    """The instructions of an enquiry beyond those of the commit of its slip."""
    return {f"{MEASURED[call]}, {table}": figures.library[table].counts[call] - figures.library[table].counts[commit]
            for table in INSERTED_BEFORE for call, commit in ((ENQUIRE, COMMIT), (ENQUIRE_AT, COMMIT_AT))}


def over_insertion(figures: Figures) -> Dict[str, float]:
    """The instructions of a commit over those of the insertion of the same box before it was split."""
    return {f"{MEASURED[call]}, {table}": figures.library[table].counts[call] / inserted_before(table, call)
            for table in INSERTED_BEFORE for call in (COMMIT, COMMIT_AT)}


def corners(figures: Figures) -> Dict[str, float]:
    return {LARGEST_FILE: figures.corners / figures.library[LARGEST_FILE].counts[READ]}


BARS = {
    "ratio": Bar("instructions over those of the C program, of a call, and of an exact reading, of watts and slopes, "
                 "of an enquiry and of a commit beyond the table check", RATIO, ratios(of_windows=False)),
    "window ratio": Bar("instructions over those of the C program, of a call of a window", RATIO_OF_WINDOWS,
                        ratios(of_windows=True)),
    "check": Bar(f"instructions of the table check, {LARGEST}", CHECK, counts(LARGEST, "table_cause")),
    "unrefined": Bar(f"instructions of the table check, {UNREFINED}", CHECK_UNREFINED,
                     counts(UNREFINED, "table_cause")),
    "reading": Bar(f"instructions of a reading, {LARGEST}", READING, counts(LARGEST, *READINGS)),
    "committing": Bar(f"instructions of a commit, {LARGEST}", COMMITTING, counts(LARGEST, COMMIT, COMMIT_AT)),
    "enquiry": Bar("instructions of an enquiry beyond those of the insertion of its box before that was split", LESS,
                   enquiries_beyond_insertion),
    "enquiry first": Bar("instructions of an enquiry beyond those of the commit of its slip", LESS,
                         enquiries_beyond_commit),
    "commit": Bar("instructions of a commit over those of the insertion of its box before that was split",
                  OVER_INSERTION, over_insertion),
    "file reading": Bar("instructions of reading the largest file", FILE_READING, counts(LARGEST_FILE, *LOADS)),
    "counts": Bar("instructions of file reading beyond those before files had counts, of a file with them or without",
                  MORE_FOR_COUNTS, more_for_counts),
    "note": Bar("instructions of file reading beyond those before files had notes, by either loader, of a file with a "
                "note or without", MORE_FOR_NOTE, more_for_note),
    "file writing": Bar("instructions of writing the largest file", FILE_WRITING, counts(LARGEST_FILE, *WRITES)),
    **{f"level {level}": Bar("instructions of an exact reading beyond the table check, at a point whose quarter square "
                             f"has level {level}", most, beyond_at(level))
       for level, most in enumerate(BEYOND_AT_LEVEL)},
    **{call: Bar(f"instructions of {words} beyond those of the exact reading", BEYOND_EXACT[call], beyond_exact(call))
       for call, words in (("watts", "an f64 reading"), ("display", "a display"), ("cost", "a cost"))},
    "slopes": Bar("instructions of watts and slopes over those of an f64 reading at the same point", OVER_WATTS,
                  over_watts),
    "from a grid": Bar("instructions of reading a grid over its table's own tree, of each 8 by 8 table", FROM_GRID,
                       from_grid),
    "record": Bar("instructions of a record into a window", ADDING, counts(BESIDE_WINDOWS, *ADDS)),
    "window": Bar("instructions of the figures of a window that holds 1,440 records", FIGURES_OF_WINDOW,
                  counts(BESIDE_WINDOWS, FIGURES)),
    "stack": Bar("bytes of stack of a call, but of reading a grid", STACK, stacks),
    "grid stack": Bar("bytes of stack of reading a grid", FROM_GRID_STACK, grid_stacks),
    "reading stack": Bar("bytes of stack of a reading, beyond those before subdivision worked in one array", 0,
                         more_stack),
    "corners": Bar("instructions of the corner program over those of reading its file, the largest", CORNERS, corners),
}


def shown(figure: float) -> str:
    """A ratio with two digits, a count as it is."""
    return f"{figure:.2f}" if isinstance(figure, float) else f"{figure:,}"


def missed(figures: Figures) -> List[str]:
    """A line for each figure that is above its bar; a figure that is due and was not measured raises KeyError."""
    return [f"{bar.what}: {where}: {round(figure, 4):,} is above {bar.greatest:,}"
            for bar in BARS.values() for where, figure in bar.of(figures).items() if figure > bar.greatest]


def compared(figures: Figures) -> int:
    """How many figures are compared with a bar."""
    return sum(len(bar.of(figures)) for bar in BARS.values())

"""Properties of the two files that load one table, with counts and without, and the misreadings of saving."""
from __future__ import annotations

from random import Random
from typing import Callable, Dict, List, NamedTuple

import calls
import samples
import tablefile
from properties import LARGE_SHEETS, SMALL_SHEETS, Check, loaded, near
from samples import Table
from surface import LEVELS, Surface, place_count
from tablefile import field


# Document 02, Seven: the active counts of levels 0 to 3.
def active_counts(surface: Surface) -> List[int]:
    return [sum(surface.active(level, i, j) for i, j in surface.functions(level)) for level in LEVELS]


# The field of four counts, high byte first.
def high_first(counts: List[int]) -> bytes:
    return field(3, [part for count in counts for part in divmod(count, 256)])


class Saving(NamedTuple):
    """How a table is saved, as documents 01 and 02 have it; any other setting is a misreading."""

    passive_too: bool = False
    number_bytes: Callable[[int], bytes] = tablefile.coefficient_bytes
    length_of_output: bool = False
    counts: Callable[[Surface], bytes] = lambda surface: high_first(active_counts(surface))
    counts_first: bool = False


# Fields of counts that are misread: none, of levels 3 to 0, low byte first, of places in the stead of functions.
def no_counts(surface: Surface) -> bytes:
    return b""


def finest_first(surface: Surface) -> bytes:
    return high_first(active_counts(surface)[::-1])


def low_first(surface: Surface) -> bytes:
    return field(3, [part for count in active_counts(surface) for part in divmod(count, 256)[::-1]])


def places(surface: Surface) -> bytes:
    return high_first([place_count(surface.w, surface.h, level) for level in LEVELS])


SAVING_MISREADINGS = {
    "passive zeros written too": Saving(passive_too=True),
    "numbers low byte first": Saving(number_bytes=lambda number: number.to_bytes(5, "little", signed=True)),
    "a number's size without its sign": Saving(number_bytes=lambda number: abs(number).to_bytes(5, "big")),
    "the output's length for the file's": Saving(length_of_output=True),
    "the old rule's file": Saving(counts=no_counts),
    "counts of levels 3 to 0": Saving(counts=finest_first),
    "counts low byte first": Saving(counts=low_first),
    "counts of places": Saving(counts=places),
    "counts before the tree": Saving(counts_first=True),
}


# Document 02, Seven: 'Files lacking it are still loaded.' So a file loads a table where it is the table's file, or that
# file without the counts; with the counts of another table it does where those are the same four numbers.
def files_of_a_table(check: Check) -> None:
    rng, owner, crossed = Random(23), {}, {True: 0, False: 0}
    for w, h in SMALL_SHEETS + LARGE_SHEETS:
        tables = near(rng, samples.random_table(rng, w, h)) + [samples.random_table(rng, w, h)]
        for table in tables:
            words = "%d by %d" % (w, h)
            file, old = tablefile.write_file(*table), tablefile.write_file(*table, counted=False)
            end = 8 + len(table.tree)
            check(file == old[:end] + high_first(active_counts(table.surface())) + old[end:], "counts on %s" % words)
            check(tablefile.is_counted(file) and not tablefile.is_counted(old), "which has counts on %s" % words)
            check(tablefile.with_counts(old) == file and tablefile.without_counts(file) == old, "added on %s" % words)
            for one in (file, old):
                check(loaded(one) == table, "%d bytes load their table on %s" % (len(one), words))
                check(owner.setdefault(one, table) == table, "two tables have one file on %s" % words)
                saved = calls.write_file(*loaded(one), [8] * len(file))
                check(saved.answer == ("ok", len(file)), "the length saved on %s" % words)
                check(bytes(saved.lent["file_out"]) == file, "the file saved on %s" % words)
            for other in tables:
                counts = [active_counts(one.surface()) for one in (table, other)]
                crossed[counts[0] == counts[1]] += 1
                judged = tablefile.judge(old[:end] + high_first(counts[1]) + old[end:])
                check(judged == (tuple(table) if counts[0] == counts[1] else 20), "another's counts on %s" % words)
    check(len(owner) > 380 and min(crossed.values()) > 300, "%d files, crossed %s" % (len(owner), crossed))


# Document 02, Seven: each bit of the field turned over alone; its tag gives 13, its length 14, its counts 20.
def counts_bits(check: Check) -> None:
    rng = Random(24)
    for w, h in SMALL_SHEETS + LARGE_SHEETS:
        table = samples.random_table(rng, w, h)
        file, start = tablefile.write_file(*table), 8 + len(table.tree)
        for bit in range(8 * 11):
            at = start + bit // 8
            other = file[:at] + bytes([file[at] ^ 1 << bit % 8]) + file[at + 1 :]
            due = 13 if bit < 8 else 14 if bit < 24 else 20
            check(tablefile.judge(other) == due, "bit %d of the counts on %d by %d" % (bit, w, h))


# What is sent out where a table is saved in some way to an output: as many of its bytes as the length told.
def sent(way: Saving, table: Table, out: List[int]) -> List[int]:
    surface = table.surface()
    tree, counts = field(2, table.tree), way.counts(surface)
    file = field(1, [table.w, table.h]) + (counts + tree if way.counts_first else tree + counts)
    for level in LEVELS:
        functions = surface.functions(level) if way.passive_too else surface.active_functions(level)
        numbers = [table.coefficients[surface.place(level, i, j)] for i, j in functions]
        file += field(16 + level, b"".join(way.number_bytes(number) for number in numbers))
    after = list(file) + out[len(file) :]
    return after[: len(out) if way.length_of_output else len(file)]


# Which of the properties of saving a way to save has, on tables that all differ.
def saving_holds(way: Saving, tables: List[Table]) -> Dict[str, bool]:
    room = [8] * tablefile.GREATEST_FILE
    files = [sent(way, table, room) for table in tables]
    published = [calls.write_file(*table, room) for table in tables]
    return {
        "loading": all(loaded(file) == table for file, table in zip(files, tables)),
        "saving again": all(file == one.lent["file_out"][: one.answer[1]] for file, one in zip(files, published)),
        "one file each": len(set(map(bytes, files))) == len(tables),
        "any output": all(file == sent(way, table, room[:-1]) for file, table in zip(files, tables)),
    }


# On which properties each misreading of saving gives another answer than documents 01 and 02.
def saving_misreadings(check: Check) -> None:
    rng = Random(21)
    tables = [one for w, h in ((1, 1), (3, 2)) for one in near(rng, samples.random_table(rng, w, h))]
    check(all(saving_holds(Saving(), tables).values()), "saving as published")
    shown_by = {
        "passive zeros written too": {"loading", "saving again"},
        "numbers low byte first": {"loading", "saving again"},
        # Two tables that differ in a sign only then have one file.
        "a number's size without its sign": {"loading", "saving again", "one file each"},
        # What is sent then goes on after its last field.
        "the output's length for the file's": {"loading", "saving again", "any output"},
        # Such a file is still loaded, and saved with its counts.
        "the old rule's file": {"saving again"},
        "counts of levels 3 to 0": {"loading", "saving again"},
        "counts low byte first": {"loading", "saving again"},
        "counts of places": {"loading", "saving again"},
        "counts before the tree": {"loading", "saving again"},
    }
    for name, way in SAVING_MISREADINGS.items():
        failing = {title for title, holds in saving_holds(way, tables).items() if not holds}
        check(failing == shown_by[name], "%s shows on %s" % (name, sorted(failing)))

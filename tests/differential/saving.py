"""Tables saved to files with a note or none, held to the unrelated evaluator; and of every case what was seen in it:
each table is saved and loaded again, with its counts and without, and converted to its grid and back, and each file
that loaded is saved again, as either loader leaves it.
"""
from __future__ import annotations

from array import array
from random import Random
from typing import Callable, Dict, Iterator, Optional, Tuple
from zlib import crc32

import cases
import notes
import tablefile
from cases import calls, quadtree, samples
from grids import grid_length
from library import Held, Library, Seen, differ, numbers, octets
from notes import NONE, LentNote
from tablefile import GREATEST_FILE

# The kind of the calls that save and load what was seen.
AGAIN = "again"
# The bytes of the counts, with their head: so much shorter was a file by the old rule.
COUNTS = tablefile.HEAD + tablefile.COUNTS_BYTES
# What outputs hold before a call, of a file, a tree and numbers; no table has such numbers.
ROOM = bytes(at % 251 for at in range(100_000))
FILE_ROOM, TREE_ROOM = ROOM[:GREATEST_FILE], ROOM[:quadtree.GREATEST_TREE]
# Notes that tables are saved with again: of no byte, of one, of the most, and some that look like fields.
NOTES = (b"", b"\7", ROOM[:64], bytes(64), *notes.LIKE_FIELDS)


def drawn(lib: Library, t: samples.Table) -> samples.Table:
    """A table that was drawn, which is seen by that."""
    lib.see(t.w, t.h, bytes(t.tree), array("q", t.coefficients).tobytes())
    return t


def file_length(t: samples.Table) -> int:
    """The length of the file without a note of a sheet and a tree, whatever the numbers; that of the bench sheet's S
    where none is."""
    if calls.judge_regions(t.w, t.h, t.tree) is not None:
        return 112
    active = sum(limit is not None for limit in calls.surface_of(t.w, t.h, t.tree).limits())
    return 31 + len(t.tree) + 5 * active


def write(lib: Library, t: samples.Table, length: int, lent: LentNote = NONE) -> str:
    """Saves a table with a note or none to an output of this length: what is not as it should be."""
    file_out, want = octets(ROOM[:length]), calls.write_file(*t, ROOM[:length], lent.note())
    got = lib.write_file(t.w, t.h, octets(t.tree), numbers(t.coefficients), file_out, lent.noted, octets(lent.body))
    words = f"write_file {t.w} {t.h} {bytes(t.tree).hex()} {len(t.coefficients)}, {lent.words()} into {length}"
    return differ(words, got, want.answer, (file_out, want.lent["file_out"]))


def output_length(rng: Random, t: samples.Table, lent: LentNote) -> int:
    """Enough for the file; else too short by one, by a head, a number, the counts or the note, by far, or at the end of
    a field."""
    bare = file_length(t)
    n = bare + min(lent.size(), 70)
    enough = (n, n, n, n + 1, n + rng.randint(1, 40), GREATEST_FILE) * 2 + (n - 1 + cases.LONGER, cases.LONGER)
    short = n - 1, n - 1, n - 3, n - 5, n - COUNTS, rng.randrange(n), bare, bare + 2, bare + 3
    return rng.choice(enough + short + (8 + len(t.tree), 8 + len(t.tree) + COUNTS, 5, 0))


def write_file(rng: Random, lib: Library) -> Iterator[str]:
    """A table, whole and damaged, saved with any note or none to outputs of any lengths."""
    whole = drawn(lib, cases.reading_table(rng))
    for _ in range(10):
        t, lent = cases.sometimes_damaged(rng, whole), notes.lent(rng)
        yield write(lib, t, output_length(rng, t, lent), lent)


KINDS: Dict[str, Callable[[Random, Library], Iterator[str]]] = {"write_file": write_file}


def _saved(lib: Library, words: str, table: Held, note: Optional[bytes]) -> Tuple[str, bytes]:
    """Saves an acceptable table, with a note or none, to the longest output: what is not as it should be, and the
    file."""
    w, h, tree, values = table
    file_out = octets(FILE_ROOM)
    got = lib.write_file(w, h, octets(tree), numbers(values), file_out, int(note is not None), octets(note or b""))
    length = got.said()[-1]
    file = file_out.contents()[:length]
    return differ(f"{words}, saved", got, ("ok", length), (file_out, file + FILE_ROOM[length:])), file


def _loaded(lib: Library, words: str, file: bytes, table: Held, note: Optional[bytes]) -> str:
    """Loads a file by both loaders: what is not as it should be where it holds this table and this note or none."""
    w, h, tree, values = table
    part = (0, 0, 0) if note is None else (1, len(file) - len(note), len(note))
    if note is not None and file[len(file) - len(note):] != note:
        return f"{words}: ends with {file[-64:].hex()} and not with the note {note.hex()}"
    for call, more in ((lib.read_file, ()), (lib.read_bench, part)):
        tree_out, numbers_out = octets(TREE_ROOM), numbers(ROOM[:len(values)])
        fault = differ(f"{words}, {call.__name__}", call(octets(file), tree_out, numbers_out),
                       ("ok", len(tree), w, h, *more), (tree_out, tree + TREE_ROOM[len(tree):]), (numbers_out, values))
        if fault:
            return fault
    return ""


def _table_again(lib: Library, table: Held) -> str:
    """"loading it restores the same tree and coefficients", and the note; "Files lacking it are still loaded", without
    counts, as the same."""
    w, h, tree, values = table
    fault = ""
    for note in (None, NOTES[crc32(tree + values) % len(NOTES)]):
        words = f"table {w} {h} {tree.hex()} with note {note}"
        broken, file = _saved(lib, words, table, note)
        fault = fault or broken or _loaded(lib, f"{words}, saved", file, table, note) or _loaded(
            lib, f"{words}, saved, without its counts", tablefile.without_counts(file), table, note)
    return fault


def _grid_again(lib: Library, table: Held) -> str:
    """"every acceptable table converts", and its grid comes back over its own tree as the table that it was."""
    w, h, tree, values = table
    words, length = f"table {w} {h} {tree.hex()}, converted", grid_length(w, h)
    grid_out, numbers_out = octets(ROOM[:length + 1]), numbers(ROOM[:len(values)])
    got = lib.write_grid(w, h, octets(tree), numbers(values), grid_out)
    grid = grid_out.contents()[:length]
    fault = differ(words, got, ("ok", length), (grid_out, grid + ROOM[length:length + 1]))
    return fault or differ(f"{words} and back", lib.read_grid(octets(grid), octets(tree), numbers_out), ("ok", w, h),
                           (numbers_out, values))


def _file_again(lib: Library, file: bytes, table: Held) -> str:
    """"saving what was loaded reproduces the bytes only of files that had it": others get the evaluator's counts after
    the tree. "Saving after the bench loader keeps it; after the controller's loader the note is gone": the note."""
    words = f"file {file.hex()}, loaded"
    if isinstance(tablefile.judge(file), int):
        return f"{words}, though {tablefile.judge(file)} is due"
    note, counted = tablefile.note_of(file), file if tablefile.is_counted(file) else tablefile.with_counts(file)
    fault = _loaded(lib, f"{words} again", file, table, note)
    for given, due in ((note, counted), (None, tablefile.without_note(counted))):
        broken, again = _saved(lib, f"{words} with note {given}", table, given)
        wrong = "" if again == due else f"{words}, saved with note {given}: is {again.hex()}, should be {due.hex()}"
        fault = fault or broken or wrong
    return fault


def again(lib: Library) -> Iterator[str]:
    """What is not as it should be where all that was seen since the last time is saved, and tables are loaded."""
    seen, kind = lib.seen or Seen(), lib.kind
    lib.seen, lib.kind = None, AGAIN
    try:
        yield from filter(None, (_table_again(lib, table) or _grid_again(lib, table) for table in seen.tables))
        yield from filter(None, (_file_again(lib, *one) for one in seen.files.items()))
    finally:
        lib.seen, lib.kind = Seen(), kind

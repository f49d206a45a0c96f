"""Fixed cases of the note in table files: both loaders, each byte of its field, its part, saving, long inputs.

What is due is worked by hand where it is written out, and else the unrelated evaluator's.
"""
from __future__ import annotations

from random import Random
from typing import Iterator, List, Sequence

import notes
from cases import samples
from counted_files import refused
from edges import fresh_table
from files import both_files, read, small
from library import Library, differ, numbers, octets
from note_cases import GOOD_LENGTHS, LONG_LENGTHS, WORDS, in_order, lent_notes, parts, refused_tables
from notes import LentNote
from saving import file_length, write
from tablefile import GREATEST_FILE, GREATEST_UNNOTED, TAG_NOTE, field, write_file

# What may be passed to say that a note is lent.
STANDS = (1, 2, 255)


def causes_in_order(lib: Library) -> Iterator[str]:
    """Where the note may stand, its length, and its causes among the others, with 16 and 17 applying too."""
    for words, due, file in in_order():
        for call in (lib.read_file, lib.read_bench):
            got = call(octets(file), octets([]), numbers([7] * 210))
            yield differ(f"{call.__name__}, note, {words}", got, ("refused", due))


def parts_told(lib: Library) -> Iterator[str]:
    """Files of S that load: the same table by both loaders, and the part of the file that the note is."""
    s = samples.bench_s()
    for words, file, part in parts():
        for call, more in ((lib.read_file, ()), (lib.read_bench, tuple(map(int, part)))):
            tree_out, numbers_out = octets([9] * 3), numbers([7] * 211)
            got = call(octets(file), tree_out, numbers_out)
            yield differ(f"{call.__name__}, {words}", got, ("ok", 1, 1, 1, *more), (tree_out, [0, 9, 9]),
                         (numbers_out, s.coefficients))
        for tree_length, places, due in ((0, 211, 17), (0, 210, 16), (3, 212, 16)):
            got = lib.read_bench(octets(file), octets([9] * tree_length), numbers([7] * places))
            yield differ(f"read_bench, {words}, {due}", got, ("refused", due))


def field_bytes(lib: Library) -> Iterator[str]:
    """Each byte of the note's head is another, and a bit of each of its body: another tag is 15, a length that is less
    than what stands there too, a length above 64 is 14, another that is more than what stands there 12."""
    t = small()
    for n, counted in ((0, True), (1, False), (64, True)):
        file = write_file(*t, counted=counted, note=WORDS[:n])
        start = len(file) - n - 3
        for at in range(start, start + 3):
            for byte in (byte for byte in range(256) if byte != file[at]):
                told = byte if at == start + 2 else 256 * byte + n
                due = 15 if at == start or told < n else 14 if told > 64 else 12
                other = file[:at] + bytes([byte]) + file[at + 1:]
                yield refused(lib, f"note of {n}, byte {at - start} is {byte}", other, t, due)
        for at in range(start + 3, len(file)):
            other = file[:at] + bytes([file[at] ^ 1 << at % 8]) + file[at + 1:]
            yield read(lib, f"note of {n}, byte {at - start} is {other[at]}", other, len(t.tree), len(t.coefficients))


def saved(lib: Library, t: samples.Table, lent: LentNote, length: int, due: int, file: Sequence[int] = ()) -> str:
    """A table saved to an output of this length: the number due, or, where it is 0, this file and what lay past it."""
    file_out, after = octets([9] * length), [*file, *[9] * (length - len(file))]
    got = lib.write_file(t.w, t.h, octets(t.tree), numbers(t.coefficients), file_out, lent.noted, octets(lent.body))
    words = f"write_file {t.w} {t.h} {bytes(t.tree).hex()}, {lent.words()} into {length}"
    return differ(words, got, ("refused", due) if due else ("ok", len(file)), (file_out, after))


def notes_saved(lib: Library) -> Iterator[str]:
    """"The writer takes a note or none; a lent note above 64 bytes gives 14": 1 to 5 before it, 18 after it. The file
    of S has 112 bytes without a note; where none is said, whatever is lent in its place is passed over."""
    s = samples.bench_s()
    bare = write_file(*s)
    for body, due in lent_notes():
        for noted in STANDS if body is not None else ():
            lent, whole = LentNote(noted, body), bare + bytes([32, 0, len(body) % 256]) + body
            yield from (saved(lib, s, lent, n, due or 18) for n in (0, 111, 112, 114, min(len(whole), 179) - 1))
            yield from (saved(lib, s, lent, len(whole) + n, due, () if due else whole) for n in (0, 1, 70))
            yield from (saved(lib, table, lent, n, cause) for cause, table in refused_tables() for n in (0, 400))
        passed = LentNote(0, body or b"")
        yield from (saved(lib, s, passed, n, 18) for n in (0, 101, 111))
        yield from (saved(lib, s, passed, n, 0, bare) for n in (112, 113, 115, 179, 400))
        yield from (saved(lib, table, passed, n, cause) for cause, table in refused_tables() for n in (0, 400))


def saved_lengths(lib: Library) -> Iterator[str]:
    """Every output up to the length of a small file with a note and a little past it, and both sides of the length of
    the file with the most coefficients and of that of the largest sheet, unrefined."""
    t = small()
    for n in (0, 1, 5, 64):
        lent = LentNote(1, WORDS[:n])
        yield from (write(lib, t, length, lent) for length in range(file_length(t) + lent.size() + 4))
    for whole in (samples.Table(8, 8, [3], [0] * 1_707 + [-1] * 4_489), fresh_table(8, 8, -7)):
        bare = file_length(whole)
        for n in GOOD_LENGTHS + LONG_LENGTHS[:3]:
            lent, end = LentNote(255, (WORDS * 2)[:n]), bare + 3 + n
            yield from (write(lib, whole, length, lent)
                        for length in (0, bare, bare + 2, bare + 3, end - 1, end, end + 1, GREATEST_FILE))


def every_byte(lib: Library) -> Iterator[str]:
    """Notes that have each byte, at every length, saved and loaded."""
    t = small()
    bare = write_file(*t)
    for n in range(65):
        body = bytes((n + at) % 256 for at in range(0, 3 * n, 3))
        file = bare + bytes([32, 0, n]) + body
        yield saved(lib, t, LentNote(1, body), len(file) + 1, 0, file)
        tree_out, numbers_out = octets([9] * len(t.tree)), numbers([7] * len(t.coefficients))
        yield differ(f"read_bench, a note of {n}", lib.read_bench(octets(file), tree_out, numbers_out),
                     ("ok", len(t.tree), 1, 1, 1, len(bare) + 3, n), (tree_out, t.tree), (numbers_out, t.coefficients))


def long_inputs(lib: Library) -> Iterator[str]:
    """Input of about the length that no file exceeds, and longer than any file, whole and its first 32,444 bytes: a
    small file and that with the most coefficients, with notes of all kinds and bytes after them."""
    largest = samples.Table(8, 8, [3], [0] * 1_707 + [-1] * 4_489)
    for t in (small(), largest):
        for file in both_files(t):
            for words, tail, due in (("an empty note", field(TAG_NOTE, b""), 15), ("no note", b"\x21", 15),
                                     ("a note", field(TAG_NOTE, WORDS), 15), ("two", field(TAG_NOTE, WORDS) * 2, 15),
                                     ("a note of 65", field(TAG_NOTE, bytes(65)), 14),
                                     ("a note of 65,535", b"\x20\xff\xff", 14)):
                long = file + tail + bytes([TAG_NOTE]) * (100_000 - len(file) - len(tail))
                for n in (GREATEST_UNNOTED, GREATEST_UNNOTED + 1, GREATEST_FILE - 1, GREATEST_FILE, GREATEST_FILE + 1,
                          GREATEST_FILE + 2, 65_536 + len(file) + 67, len(long)):
                    yield refused(lib, f"{words}, {len(file)} bytes and on to {n}", long[:n], t, due)


def sheets(rng: Random, lib: Library) -> Iterator[str]:
    """For every size of sheet a file with a note, whole, cut in it, and with a byte after it; and the table saved."""
    for w in range(1, 9):
        for h in range(1, 9):
            t, body = samples.random_table(rng, w, h), notes.body(rng, rng.choice((0, 1, 63, 64, rng.randint(2, 62))))
            room, lent = (len(t.tree), len(t.coefficients)), LentNote(1, body)
            for file in both_files(t):
                noted = file + field(TAG_NOTE, body)
                for other in (noted, noted[:-1], noted[:len(file) + 1], noted[:len(file) + 2], noted + b"\x20"):
                    yield read(lib, f"note on {w} by {h}", other, *room)
            yield from (write(lib, t, file_length(t) + lent.size() + more, lent) for more in (-1, 0, 1))


def fixed(rng: Random, lib: Library) -> List[str]:
    made: Sequence[Iterator[str]] = (causes_in_order(lib), parts_told(lib), field_bytes(lib), notes_saved(lib),
                                     saved_lengths(lib), every_byte(lib), long_inputs(lib), sheets(rng, lib))
    return [fault for part in made for fault in part if fault]

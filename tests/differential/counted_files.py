"""Fixed cases of the counts in table files: each byte of the field, wrong counts, the order of causes, long inputs.

What is due is worked by hand where it is written out, and else the unrelated evaluator's.
"""
from __future__ import annotations

from random import Random
from typing import Iterator, List, Sequence

from cases import samples
from file_cases import STRIP_BYTES, body_of, in_order, strips, wrong_bodies
from files import both_files, read, small
from library import Library, differ, numbers, octets
from saving import GREATEST_FILE, file_length, write
from surface import total_places
from tablefile import GREATEST_UNCOUNTED, GREATEST_UNNOTED, TAG_COUNTS, TAG_LEVEL_0, field, write_file


def refused(lib: Library, words: str, file: bytes, t: samples.Table, due: int) -> str:
    """A file read by both loaders into outputs that fit a table: this refusal, and nothing written."""
    found = [differ(f"{call.__name__}, {words}", call(octets(file), octets([9] * len(t.tree)),
                                                      numbers([7] * len(t.coefficients))), ("refused", due))
             for call in (lib.read_file, lib.read_bench)]
    return max(found)


def field_bytes(lib: Library) -> Iterator[str]:
    """Each byte of the field is another: its tag gives 13, or 14 where it is the next one due, its length 14, its
    counts 20. Every other byte in the file of a small table; each bit turned over of four large counts that differ."""
    for t, turned in ((small(), range(1, 256)), (strips(), [1 << bit for bit in range(8)])):
        file, start = write_file(*t), 8 + len(t.tree)
        for at in range(start, start + 11):
            for byte in (file[at] ^ bits for bits in turned):
                tag_due = 14 if byte == TAG_LEVEL_0 else 13
                due = tag_due if at == start else 14 if at < start + 3 else 20
                other = file[:at] + bytes([byte]) + file[at + 1:]
                yield refused(lib, f"counts, byte {at - start} is {byte}", other, t, due)


def wrong_counts(lib: Library) -> Iterator[str]:
    """20 where one count is wrong, where levels stand in another order, where low bytes stand first; not else."""
    t = strips()
    old, end = write_file(*t, counted=False), 8 + len(t.tree)
    front, rest = old[:end], old[end:]
    for words, body in wrong_bodies():
        yield refused(lib, f"counts, {words}", front + field(TAG_COUNTS, body) + rest, t, 20)
    for counts in (field(TAG_COUNTS, bytes.fromhex(STRIP_BYTES)), b""):
        tree_out, numbers_out = octets([9] * len(t.tree)), numbers([7] * len(t.coefficients))
        got = lib.read_file(octets(front + counts + rest), tree_out, numbers_out)
        yield differ(f"read_file, strips, {len(counts)} bytes of counts", got, ("ok", len(t.tree), 8, 8),
                     (tree_out, t.tree), (numbers_out, t.coefficients))


def causes_in_order(lib: Library) -> Iterator[str]:
    """Where the field may stand, its length, and 20 among the other causes, with 16 and 17 applying too."""
    for words, due, file in in_order():
        got = lib.read_file(octets(file), octets([]), numbers([7] * 210))
        yield differ(f"read_file, counts, {words}", got, ("refused", due))
    s = samples.bench_s()
    file = write_file(*s)
    for counts, due in (("0010", 17), ("0011", 20)):
        other = file[:12] + bytes.fromhex(counts) + file[14:]
        got = lib.read_file(octets(other), octets([]), numbers([7] * 211))
        yield differ(f"read_file, counts, {due} with no tree output", got, ("refused", due))


def counts_saved(lib: Library) -> Iterator[str]:
    """The counts that saving puts after the tree: of one level on all of 8 by 8, of the strips, of a small table."""
    whole = [samples.Table(8, 8, [leaf], [0] * total_places(8, 8)) for leaf in range(4)]
    due = [body_of([places if level == leaf else 0 for level, places in enumerate((121, 361, 1_225, 4_489))])
           for leaf in range(4)]
    for t, body in (*zip(whole, due), (strips(), bytes.fromhex(STRIP_BYTES)), (small(), body_of((16, 5, 0, 0)))):
        n, start = file_length(t), 8 + len(t.tree)
        file_out = octets([9] * n)
        got = lib.write_file(t.w, t.h, octets(t.tree), numbers(t.coefficients), file_out)
        told = f"write_file, counts {body.hex()} of {t.w} by {t.h}"
        yield differ(told, got, ("ok", n), (file_out, both_files(t)[0]))
        file = file_out.contents()
        yield "" if file[start:start + 11] == field(TAG_COUNTS, body) else f"{told}: is {file[start:start + 11].hex()}"
        yield from (write(lib, t, length) for length in (n - 11, n - 1, n, GREATEST_UNCOUNTED, GREATEST_FILE))


def long_inputs(lib: Library) -> Iterator[str]:
    """Input of about the length that no file exceeds, and longer than any file, whole and its first 32,444 bytes: a
    small file and that with the most coefficients, with counts, without, and with a wrong count. No file is as long
    as the bound, which counts all places of all levels as active."""
    largest = samples.Table(8, 8, [3], [0] * 1_707 + [-1] * 4_489)
    for t in (small(), largest):
        start = 8 + len(t.tree)
        file, old = both_files(t)
        wrong = file[:start + 10] + bytes([file[start + 10] ^ 1]) + file[start + 11:]
        for name, given in (("counts", file), ("no counts", old), ("a wrong count", wrong)):
            long = given + bytes(100_000 - len(given))
            for n in (GREATEST_UNCOUNTED, GREATEST_UNNOTED, GREATEST_UNNOTED + 1, GREATEST_FILE - 1, GREATEST_FILE,
                      GREATEST_FILE + 1, GREATEST_FILE + 2, len(long)):
                due = 20 if given == wrong else 15
                yield refused(lib, f"{name}, {len(given)} bytes and on to {n}", long[:n], t, due)


def sheets(rng: Random, lib: Library) -> Iterator[str]:
    """For every size of sheet the counts of another table in the file: 20, but where they are the same."""
    for w in range(1, 9):
        for h in range(1, 9):
            t, other = (samples.random_table(rng, w, h) for _ in range(2))
            start, from_other = 8 + len(t.tree), 8 + len(other.tree)
            file, another = write_file(*t), write_file(*other)
            mixed = file[:start] + another[from_other:from_other + 11] + file[start + 11:]
            yield read(lib, f"counts of another table on {w} by {h}", mixed, len(t.tree), len(t.coefficients))


def fixed(rng: Random, lib: Library) -> List[str]:
    parts: Sequence[Iterator[str]] = (field_bytes(lib), wrong_counts(lib), causes_in_order(lib), counts_saved(lib),
                                      long_inputs(lib), sheets(rng, lib))
    return [fault for part in parts for fault in part if fault]

"""Runs the corner program on sample, generated and damaged files, with counts and a note and without, with expected
output made by the evaluator; holds the refined sample table to the unrefined one, and the figures told in the pages to
the library.

Run as: python3 tests/corners/run.py
"""
from __future__ import annotations

import subprocess
import sys
from pathlib import Path
from random import Random
from typing import Iterator, List

sys.dont_write_bytecode = True
ROOT = Path(__file__).resolve().parents[2]
sys.path[:0] = [str(ROOT / "tests" / part) for part in ("evaluator", "differential")]

import calls
import refined_copy
import samples
import tablefile
import told_in_pages
from library import corner_program
from make_tables import NOTES, TABLES, UNCOUNTED
from note_cases import in_order, parts

PROGRAM = corner_program()
HELD = 65_536


def printed(file: bytes) -> List[str]:
    run = subprocess.run([str(PROGRAM)], input=file, capture_output=True, check=True)
    return run.stdout.decode().split("\n")


def printed_without_input() -> List[bytes]:
    """What the program prints where every read fails: standard input closed, and a directory as standard input."""
    runs = [subprocess.run(["sh", "-c", f'exec "$0" {told}', str(PROGRAM)], capture_output=True, check=True)
            for told in ("<&-", "</")]
    return [run.stdout for run in runs]


def files_of(t: samples.Table, note: bytes = bytes(64)) -> List[bytes]:
    """Files of a table: without counts, with them, and both with a note."""
    return [tablefile.write_file(*t, counted=counted, note=one) for one in (None, note) for counted in (False, True)]


def generated() -> List[bytes]:
    """Files of a dozen tables and more, whole and damaged, and input longer than any file."""
    rng, files = Random(11), []
    for n in range(16):
        files += files_of(samples.random_table(rng, rng.randint(1, 8), rng.randint(1, 8)), bytes(range(5 * n % 65)))
    for small in (TABLES["bench-s-level-1"], TABLES["bench-s-level-1-counted"], TABLES["bench-s-level-1-noted"]):
        files += [small[:n] for n in range(0, len(small), 7)] + [small + b"\0", small + bytes(10), bytes([1]) + small]
        files += [small + bytes(2 * HELD), small + b"\x20" * HELD]
        files += [bytes([1, 0, 2, w, h]) + small[5:] for w, h in ((0, 1), (9, 1), (1, 255), (2, 1))]
    return files + [files[0] + bytes(HELD), files[1] + bytes(HELD), bytes(HELD), bytes(3 * HELD)]


def miscounted() -> List[bytes]:
    """A file with each bit of its counts' field turned over, alone: refused with 13, 14 or 20."""
    file = TABLES["kiln-refined-near-top-heat-counted"]
    start = 8 + int.from_bytes(file[6:8], "big")
    return [file[:at] + bytes([file[at] ^ 1 << bit]) + file[at + 1:]
            for at in range(start, start + 11) for bit in range(8)]


def misnoted() -> List[bytes]:
    """A file with each bit of its note's field turned over, alone: refused with 12, 14 or 15, or with another note. And
    the fixed cases of the note, but for those of a byte of each kind after the last level."""
    file = TABLES["bench-s-level-1-noted"]
    start = tablefile.levels_end(file)
    turned = [file[:at] + bytes([file[at] ^ 1 << bit]) + file[at + 1:]
              for at in range(start, len(file)) for bit in range(8)]
    cases = [case.file for case in in_order() if not case.words.startswith("a byte of")]
    return turned + [file[:n] for n in range(start, len(file))] + cases + [noted for _, noted, _ in parts()]


def fronts(files: List[bytes]) -> Iterator[str]:
    """That long input has the text of its first 32,444 bytes, and of more and of all of them. No file is as long as
    that bound, so that a shorter front would pass here too; that 32,444 are enough for every input is proved."""
    for file in files:
        long = file + bytes(3 * HELD)
        lengths = tablefile.GREATEST_FILE + 1, tablefile.GREATEST_FILE + 2, HELD, HELD + 1, len(long)
        if len({"\n".join(printed(long[:n])) for n in lengths}) != 1:
            yield f"{len(file)} bytes and more: the text moves with what is given beyond {lengths[0]}"


def largest() -> List[bytes]:
    whole = tuple((3,) * 32 for _ in range(32))
    return files_of(samples.table_of(Random(3), 8, 8, whole))


def main() -> int:
    faults = 0
    for name, file in TABLES.items():
        if (ROOT / "tables" / f"{name}.table").read_bytes() != file:
            faults += 1
            print(f"tables/{name}.table is not what make_tables.py makes")
    files = list(TABLES.values()) + generated() + miscounted() + misnoted() + largest()
    for at, file in enumerate(files):
        want = calls.corner_lines(file) + [""]
        got = printed(file)
        if got != want:
            faults += 1
            print(f"file {at} of {len(file)} bytes: prints {got[:5]}, should print {want[:5]}")
    if printed_without_input() != [b"refused 12\n"] * 2:
        faults += 1
        print(f"with no input the program prints {printed_without_input()}")
    for name, file in UNCOUNTED.items():
        if printed(file) != printed(TABLES[f"{name}-counted"]) or file == TABLES[f"{name}-counted"]:
            faults += 1
            print(f"{name}: the text of the file with counts is another than that of the one without")
    for name, note in NOTES.items():
        file = TABLES[f"{name}-noted"]
        if printed(UNCOUNTED[name]) != printed(file) or tablefile.note_of(file) != note:
            faults += 1
            print(f"{name}: the text of the file with a note is another than that of the one without")
    for fault in (*fronts(largest() + miscounted()[-1:] + files[:1]), *refined_copy.faults(), *told_in_pages.faults()):
        faults += 1
        print(fault)
    if printed(TABLES["kiln-refined-near-top-heat"]) != printed(TABLES["kiln-unrefined"]):
        faults += 1
        print("refining moved whole watts at a corner")
    print(f"corners: {len(files)} files, {faults} faults")
    return 1 if faults else 0


if __name__ == "__main__":
    sys.exit(main())

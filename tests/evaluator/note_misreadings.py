"""Misreadings of the note, in loading and in saving, each with the cases and properties that show it."""
from __future__ import annotations

from random import Random
from typing import Callable, Dict, List, NamedTuple, Optional, Tuple

import calls
import note_cases
import samples
import tablefile
from note_properties import added, notes
from properties import Check
from samples import Table
from tablefile import NO_PART, NotePart


class Loading(NamedTuple):
    """How what follows tag 19 is read, as document 02 has it; any other setting is a misreading."""

    greatest: int = 64
    outputs_first: bool = False
    whole_head_first: bool = False
    body_first: bool = False
    low_first: bool = False
    empty_is_none: bool = False
    tail_taken: int = 0
    other_tag: int = 15
    offset: Callable[[bytes, int, int], int] = lambda file, at, n: at
    told_when_refused: bool = False


LOADING_MISREADINGS = {
    "a note of 65 bytes": Loading(greatest=65),
    "no note of 64 bytes": Loading(greatest=63),
    "a note of any length": Loading(greatest=65_535),
    "16 and 17 before the note": Loading(outputs_first=True),
    "12 for a byte other than 32 where a head is cut": Loading(whole_head_first=True),
    "13 for a byte other than 32": Loading(other_tag=13),
    "12 before 14": Loading(body_first=True),
    "the length low byte first": Loading(low_first=True),
    "none for a note of no bytes": Loading(empty_is_none=True),
    "a byte after the note taken": Loading(tail_taken=1),
    "any bytes after the note taken": Loading(tail_taken=70_000),
    "the place of the head": Loading(offset=lambda file, at, n: at - 3),
    "the place counted from the note's field": Loading(offset=lambda file, at, n: 3),
    "the first equal bytes of the file": Loading(offset=lambda file, at, n: file.find(file[at : at + n])),
    "a note of a refused call": Loading(told_when_refused=True),
}


# What a way to read gives of a good front, which ends with tag 19, and the bytes after it, with the number of outputs
# that do not fit, 0 where they do: a refusal number, 0 for none, and the part.
def read_by(way: Loading, front: bytes, tail: bytes, outputs: int) -> Tuple[int, NotePart]:
    if way.outputs_first and outputs:
        return outputs, NO_PART
    if not tail:
        return outputs, NO_PART
    if way.whole_head_first and len(tail) < 3:
        return 12, NO_PART
    if tail[0] != 32:
        return way.other_tag, NO_PART
    if len(tail) < 3:
        return 12, NO_PART
    n = tail[1] + 256 * tail[2] if way.low_first else 256 * tail[1] + tail[2]
    causes = [(12, len(tail) < 3 + n), (14, n > way.greatest)]
    for number, applies in causes if way.body_first else causes[::-1]:
        if applies:
            return number, NO_PART
    offset = way.offset(front + tail, len(front) + 3, n)
    part = NO_PART if way.empty_is_none and n == 0 else NotePart(True, offset, n)
    cause = 15 if len(tail) > 3 + n + way.tail_taken else outputs
    return cause, NO_PART if cause and not way.told_when_refused else part


# Which of the note's cases and properties a way to read has.
def loading_holds(way: Loading) -> Dict[str, bool]:
    s = samples.bench_s()
    fronts = [note_cases.bench_file(counted) for counted in (False, True)]
    due = [(17 if due == 16 else due, tail) for _, due, tail in note_cases.tails()]
    parts = [(file[: note_cases.ENDS[counted]], file[note_cases.ENDS[counted] :], part)
             for counted in (False, True) for _, file, part in note_cases.parts()
             if file[: note_cases.ENDS[counted]] == fronts[counted]]
    given = [(note, front, added(note)) for front in fronts for note in notes(Random(28))]
    saved = []
    for _, front, tail in given:
        _, (stands, offset, n) = read_by(way, front, tail, 0)
        note = (front + tail)[offset : offset + n] if stands else None
        saved.append(calls.write_file(*s, [8] * 300, note))
    return {
        "causes": all(read_by(way, front, tail, 17) == (number, NO_PART) for front in fronts for number, tail in due),
        "parts": all(read_by(way, front, tail, 0) == (0, part) for front, tail, part in parts),
        "passed over": all(read_by(way, front, tail, outputs)[0] == outputs
                           for _, front, tail in given for outputs in (0, 16, 17)),
        "kept": all(one.answer[0] == "ok" and bytes(one.lent["file_out"][: one.answer[1]]) == fronts[1] + tail
                    for one, (_, _, tail) in zip(saved, given)),
    }


# On which of them each misreading of loading gives another answer than document 02.
def loading_misreadings(check: Check) -> None:
    check(all(loading_holds(Loading()).values()), "loading as published")
    shown_by = {
        "a note of 65 bytes": {"causes"},
        "no note of 64 bytes": {"causes", "parts", "passed over", "kept"},
        "a note of any length": {"causes"},
        "16 and 17 before the note": {"causes"},
        "12 for a byte other than 32 where a head is cut": {"causes"},
        "13 for a byte other than 32": {"causes"},
        "12 before 14": {"causes"},
        "the length low byte first": {"causes", "parts", "passed over", "kept"},
        # Only the bench loader tells it from none; the controller's passes over both.
        "none for a note of no bytes": {"parts", "kept"},
        "a byte after the note taken": {"causes"},
        "any bytes after the note taken": {"causes"},
        "the place of the head": {"parts", "kept"},
        "the place counted from the note's field": {"parts", "kept"},
        # The same bytes are saved, so that only the place tells it.
        "the first equal bytes of the file": {"parts"},
        "a note of a refused call": {"causes"},
    }
    for name, way in LOADING_MISREADINGS.items():
        failing = {title for title, holds in loading_holds(way).items() if not holds}
        check(failing == shown_by[name], "%s shows on %s" % (name, sorted(failing)))


class Writing(NamedTuple):
    """How a note is saved, as document 02 has it; any other setting is a misreading."""

    field_for_none: bool = False
    none_for_empty: bool = False
    greatest: int = 64
    cut_to_64: bool = False
    tag: int = 32
    before_levels: bool = False
    low_first: bool = False
    short_first: bool = False
    length_without: bool = False
    note_first: bool = False


WRITING_MISREADINGS = {
    "tag 32 for none": Writing(field_for_none=True),
    "none for a note of no bytes": Writing(none_for_empty=True),
    "a note of 65 bytes": Writing(greatest=65),
    "no note of 64 bytes": Writing(greatest=63),
    "a longer note cut to 64 bytes": Writing(cut_to_64=True),
    "the note under tag 20": Writing(tag=20),
    "the note before the levels": Writing(before_levels=True),
    "the length low byte first": Writing(low_first=True),
    "18 before 14": Writing(short_first=True),
    "14 before the table's causes": Writing(note_first=True),
    "the length without the note": Writing(length_without=True),
}


# What a way to save gives of a table: a refusal number or the length, and the output after it.
def written_by(way: Writing, table: Table, note: Optional[bytes], out: List[int]) -> Tuple[calls.Answer, List[int]]:
    long = note is not None and len(note) > way.greatest and not way.cut_to_64
    cause = calls.judge_table(*table)
    if way.note_first and long:
        return ("refused", 14), out
    if cause is not None:
        return ("refused", cause), out
    bare = tablefile.write_file(*table)
    body = (note or b"")[:64] if way.cut_to_64 else note or b""
    stands = way.field_for_none if note is None else bool(note) or not way.none_for_empty
    told = (len(body) % 65_536).to_bytes(2, "little" if way.low_first else "big")
    more = bytes([way.tag]) + told + body if stands else b""
    at = tablefile.tree_end(bare) + 11 if way.before_levels else len(bare)
    file = list(bare[:at] + more + bare[at:])
    causes = [(14, long), (18, len(out) < (len(bare) if way.length_without else len(file)))]
    for number, applies in causes[::-1] if way.short_first else causes:
        if applies:
            return ("refused", number), out
    after = (file + out[len(file) :])[: len(out)]
    return ("ok", len(bare) if way.length_without else len(file)), after


# Which of the note's cases and properties a way to save has.
def writing_holds(way: Writing, tables: List[Table]) -> Dict[str, bool]:
    room, s = [8] * tablefile.GREATEST_FILE, samples.bench_s()
    cases = [(s, note, [8] * (112 + n)) for note, _ in note_cases.lent_notes() for n in (0, 2, 3, 66, 67, 200)]
    cases += [(table, note, [8] * 20) for _, table in note_cases.refused_tables() for note in (None, b"", bytes(65))]
    again = []
    for table in tables:
        for note in notes(Random(29)):
            (_, length), after = written_by(way, table, note, room)
            given = tablefile.judge_noted(after[:length] if isinstance(length, int) else b"")
            part = NO_PART if isinstance(given, int) else given[1]
            held = after[part.offset : part.offset + part.length] if part.stands else None
            again.append(not isinstance(given, int) and given[0] == tuple(table)
                         and held == (None if note is None else list(note)))
    return {
        "cases": all(written_by(way, table, note, out) == (one.answer, one.lent["file_out"])
                     for table, note, out in cases for one in [calls.write_file(*table, out, note)]),
        "loading": all(again),
    }


# On which of them each misreading of saving gives another answer than document 02.
def writing_misreadings(check: Check) -> None:
    rng = Random(30)
    tables = [samples.bench_s(), *(samples.random_table(rng, w, h) for w, h in ((1, 1), (3, 2), (8, 8)))]
    check(all(writing_holds(Writing(), tables).values()), "saving with a note as published")
    shown_by = {name: {"cases", "loading"} for name in WRITING_MISREADINGS}
    # No note that is saved and loaded again has more than 64 bytes, and outputs are long enough there.
    shown_by.update({name: {"cases"} for name in (
        "a note of 65 bytes", "a longer note cut to 64 bytes", "18 before 14", "14 before the table's causes")})
    for name, way in WRITING_MISREADINGS.items():
        failing = {title for title, holds in writing_holds(way, tables).items() if not holds}
        check(failing == shown_by[name], "%s shows on %s" % (name, sorted(failing)))

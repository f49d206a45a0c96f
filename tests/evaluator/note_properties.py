"""Properties of files that differ only in the note, and of saving and loading with a note."""
from __future__ import annotations

from random import Random
from typing import Iterator, List, Optional, Sequence, Tuple

import calls
import samples
import tablefile
import tree as quadtree
from properties import LARGE_SHEETS, SMALL_SHEETS, Check, loaded, near
from samples import Table
from surface import total_places
from tablefile import NotePart, field

# What outputs hold before a call; no table has such numbers.
TREE_ROOM = [9] * quadtree.GREATEST_TREE
Fields = List[Tuple[int, bytes]]


def joined(fields: Sequence[Tuple[int, bytes]]) -> bytes:
    return b"".join(field(tag, body) for tag, body in fields)


# None, the shortest and the longest note, one that looks like fields, and some that are drawn.
def notes(rng: Random, count: int = 3) -> List[Optional[bytes]]:
    drawn = [bytes(rng.randrange(256) for _ in range(rng.randint(0, 64))) for _ in range(count)]
    return [None, b"", bytes(64), field(19, b"") + field(32, b"\7"), *drawn]


# What a note adds to a file.
def added(note: Optional[bytes]) -> bytes:
    return b"" if note is None else field(32, note)


# Fields of a table with one fault that is in a whole field: of each kind that a file is refused for in byte order.
def faults(rng: Random, fields: Fields) -> Iterator[Tuple[int, Fields]]:
    held = [at for at, (tag, body) in enumerate(fields) if tag >= 16 and body]
    at, counted = rng.choice(held), fields[2][0] == 3
    tag, body = fields[at]
    yield 1, [(1, bytes([9, fields[0][1][1]]))] + fields[1:]
    yield 2, fields[:1] + [(2, fields[1][1] + b"\0")] + fields[2:]
    yield 4, fields[:at] + [(tag, body[:-5] + b"\x80\0\0\0\0")] + fields[at + 1 :]
    yield 13, fields[:at] + [(tag + 4, body)] + fields[at + 1 :]
    yield 13, fields[:-1] + [(20, fields[-1][1])]
    yield 14, fields[:at] + [(tag, body[:-1])] + fields[at + 1 :]
    yield 14, fields[:-1] + [(19, fields[-1][1] + b"\0")]
    if counted:
        yield 20, fields[:2] + [(3, fields[2][1][:-1] + bytes([fields[2][1][-1] ^ 1]))] + fields[3:]
        yield 13, fields[:2] + [fields[2]] * 2 + fields[3:]


# Document 02, Eight: 'two files that differ only in the note, its presence included, give it the same answer'. Such
# files are one front, which ends where the field of tag 19 does, with a note or none after it. So are all outputs.
def passed_over(check: Check) -> None:
    rng, seen, otherwise = Random(25), {}, 0
    for w, h in SMALL_SHEETS + LARGE_SHEETS:
        table = samples.random_table(rng, w, h)
        exact = len(table.coefficients)
        for counted in (True, False):
            whole = tablefile.table_fields(*table, counted=counted)
            fronts = [(due, joined(fields), len(TREE_ROOM), exact) for due, fields in faults(rng, whole)]
            fronts += [(0, joined(whole), len(table.tree), exact), (16, joined(whole), len(table.tree), exact + 1),
                       (17, joined(whole), len(table.tree) - 1, exact), (16, joined(whole), 0, 0)]
            for due, front, room, slots in fronts:
                outputs = [9] * room, [7] * slots
                outcomes = [same(calls.read_file(front + added(note), *outputs)) for note in notes(rng)]
                words = "%d on %d by %d" % (due, w, h)
                check(outcomes == outcomes[:1] * len(outcomes), "the answer moves with the note, %s" % words)
                check(outcomes[0][0] == (("refused", due) if due else ("ok", len(table.tree), w, h)), words)
                seen[due] = seen.get(due, 0) + 1
            otherwise += cut_fronts(check, rng, joined(whole), table)
    check(set(seen) == {0, 1, 2, 4, 13, 14, 16, 17, 20} and min(seen.values()) >= 20, "files were read: %s" % seen)
    check(otherwise > 100, "only %d cut files have another answer with a note" % otherwise)


# The answer and the outputs of a call that reads a file.
def same(outcome: calls.Outcome) -> Tuple[calls.Answer, List[int], List[int]]:
    return outcome.answer, outcome.lent["tree_out"], outcome.lent["coefficients_out"]


# A file that is cut in or before its last field has no note after that field: what stands there is judged as the rest
# of what is due. It is 12 alone, and how many get another answer where a note's bytes follow is told.
def cut_fronts(check: Check, rng: Random, file: bytes, table: Table) -> int:
    found, ends = 0, [len(file) - 3, tablefile.tree_end(file), 5, 0]
    for cut in ends + rng.sample(range(len(file)), 6):
        alone = calls.read_file(file[:cut], TREE_ROOM, [7] * len(table.coefficients))
        check(alone.answer == ("refused", 12), "cut to %d of %d bytes" % (cut, len(file)))
        noted = calls.read_file(file[:cut] + field(32, b"\7"), TREE_ROOM, [7] * len(table.coefficients))
        check(noted.answer[0] == "refused", "cut to %d of %d bytes, with a note" % (cut, len(file)))
        check(cut not in ends[1:] or noted.answer[1] == 13, "cut to %d of %d bytes, a note there" % (cut, len(file)))
        found += noted.answer != alone.answer
    return found


# Saves what the bench loader gave: the table, and its note where it says that one stands there.
def bench_saved(file: bytes, room: int) -> Tuple[Optional[Table], Optional[bytes], bytes]:
    places = total_places(file[3], file[4])
    (answer, lent), (stands, offset, length) = calls.read_bench(file, TREE_ROOM, [7] * places)
    table = Table(answer[2], answer[3], lent["tree_out"][: answer[1]], lent["coefficients_out"])
    note = file[offset : offset + length] if stands else None
    saved = calls.write_file(*table, [8] * room, note)
    return table, note, bytes(saved.lent["file_out"][: saved.answer[1]])


# Document 02, Eight: 'Saving after the bench loader keeps it; after the controller's loader the note is gone.' Which
# files load one table: with counts or not, with any note or none; and loading what was saved restores table and note.
def saved_again(check: Check) -> None:
    rng, owner, turned = Random(26), {}, 0
    for w, h in SMALL_SHEETS + LARGE_SHEETS:
        for table in near(rng, samples.random_table(rng, w, h)):
            words, bare = "%d by %d" % (w, h), tablefile.write_file(*table)
            for note in notes(rng, 1):
                files = [tablefile.write_file(*table, counted=counted, note=note) for counted in (True, False)]
                check(files[0] == bare + added(note), "the note is last in the file on %s" % words)
                out = calls.write_file(*table, [8] * (len(files[0]) + 3), note)
                check(out.answer == ("ok", len(files[0])), "the length of a file with a note on %s" % words)
                check(bytes(out.lent["file_out"]) == files[0] + b"\10" * 3, "a file with a note on %s" % words)
                for file in files:
                    check(loaded(file) == table, "%d bytes load their table on %s" % (len(file), words))
                    check(owner.setdefault(file, (table, note)) == (table, note), "two have one file on %s" % words)
                    kept = bench_saved(file, len(file) + 20)
                    check(kept == (table, note, files[0]), "saving after the bench loader on %s" % words)
                    gone = calls.write_file(*loaded(file), [8] * len(bare))
                    check(bytes(gone.lent["file_out"]) == bare, "saving after the controller's loader on %s" % words)
                    check(tablefile.note_of(file) == note, "the note of a file on %s" % words)
                    check(tablefile.without_note(file) + added(note) == file, "a file without its note on %s" % words)
                    turned += turned_over(check, rng, file)
    check(len(owner) > 1_500 and turned > 800, "only %d files, and %d others" % (len(owner), turned))


# A file that loads is its table's, with counts or not, with its note or none: of a file with a bit turned over, where
# it loads. How many did.
def turned_over(check: Check, rng: Random, file: bytes) -> int:
    at = rng.randrange(len(file))
    other = file[:at] + bytes([file[at] ^ 1 << rng.randrange(8)]) + file[at + 1 :]
    table = loaded(other)
    if table is None:
        return 0
    due = tablefile.write_file(*table, counted=tablefile.is_counted(other), note=tablefile.note_of(other))
    check(due == other, "%d bytes that load are not their table's" % len(other))
    return 1


# Each bit of a note's field turned over alone: its tag gives 15, a greater length 14 or 12, a smaller one 15, and
# another bit of the body is another note of the same table.
def note_bits(check: Check) -> None:
    rng, seen = Random(27), {}
    for w, h in SMALL_SHEETS[::5] + LARGE_SHEETS:
        table = samples.random_table(rng, w, h)
        for n in (0, 1, 32, 63, 64):
            note = bytes(rng.randrange(256) for _ in range(n))
            file = tablefile.write_file(*table, counted=rng.random() < 0.5, note=note)
            start = len(file) - n - 3
            for bit in range(8 * (n + 3)):
                at = start + bit // 8
                other = file[:at] + bytes([file[at] ^ 1 << bit % 8]) + file[at + 1 :]
                told = other[start + 1] * 256 + other[start + 2]
                due = 15 if bit < 8 or told < n else 14 if told > 64 else 12 if told > n else 0
                judged = tablefile.judge_noted(other)
                good = (tuple(table), NotePart(True, start + 3, n))
                check(judged == (due or good), "bit %d of a note of %d on %d by %d" % (bit, n, w, h))
                seen[due] = seen.get(due, 0) + 1
    check(set(seen) == {0, 12, 14, 15} and min(seen.values()) > 100, "bits of notes: %s" % seen)

"""Fixed cases of the note in a table file: every boundary, its place, its causes among the others, its part, saving.

Document 02, Eight: 'a note of 0 to 64 bytes with a table, tag 32, last in the file, optional'. What is due is worked
by hand; the compiled library reads the same cases.
"""
from __future__ import annotations

from typing import Callable, Iterator, List, NamedTuple, Optional, Tuple

import calls
import samples
import tablefile
from samples import Table
from surface import total_places
from tablefile import NO_PART, NotePart, coefficient_bytes, field

Check = Callable[[bool, str], None]

# The bytes of a note, none of them equal, and none of them a tag of a file.
WORDS = bytes(range(64, 128))
# The file of S has 101 bytes without counts and 112 with them; a note's body starts after a head of 3.
ENDS = {False: 101, True: 112}
# Lengths that are a note's, and those that are none, at both sides of 64 and of a byte.
GOOD_LENGTHS = (0, 1, 2, 3, 31, 32, 63, 64)
LONG_LENGTHS = (65, 66, 128, 255, 256, 257, 320, 8_192, 16_384, 65_535)
OTHER_TAGS = (0, 1, 2, 3, 4, 16, 19, 20, 31, 33, 34, 160, 255)


class Case(NamedTuple):
    """A file that is read into outputs of no length; 16 is due where nothing of the file is wrong."""

    words: str
    due: int
    file: bytes


# The file of S: whole, with counts or without.
def bench_file(counted: bool) -> bytes:
    return tablefile.write_file(*samples.bench_s(), counted=counted)


# What follows tag 19, with the number due.
def tails() -> Iterator[Tuple[str, int, bytes]]:
    yield "no note", 16, b""
    for n in GOOD_LENGTHS:
        yield "a note of %d" % n, 16, field(32, WORDS[:n])
        for byte in (0, 1, 31, 32, 255):
            yield "a note of %d and a byte of %d" % (n, byte), 15, field(32, WORDS[:n]) + bytes([byte])
        yield "two notes of %d" % n, 15, field(32, WORDS[:n]) * 2
        yield "a note of %d and a longer one" % n, 15, field(32, WORDS[:n]) + field(32, bytes(65))
        yield "a note of %d and an old field" % n, 15, field(32, WORDS[:n]) + field(19, b"")
        for short in sorted({0, n // 2, n - 1} - {-1, n}):
            yield "a note of %d cut to %d" % (n, short), 12, field(32, WORDS[:short], n)
        for told in range(n):
            yield "a note of %d that tells %d" % (n, told), 15, field(32, WORDS[:n], told)
    for n in LONG_LENGTHS:
        yield "a note of %d" % n, 14, field(32, bytes(n))
        yield "a note of %d and a byte" % n, 14, field(32, bytes(n)) + b"\0"
        for short in (0, 1, 63, 64):
            yield "length %d, %d bytes" % (n, short), 14, field(32, WORDS[:short], n)
    # Two bytes of length, the high one first.
    yield "length 1, low byte first", 14, b"\x20\x01\x00" + WORDS[:1]
    yield "length 256 with 1 byte in the low", 14, b"\x20\x01\x01" + WORDS
    for cut in (b"\x20", b"\x20\x00", b"\x20\x01", b"\x20\x40", b"\x20\x41", b"\x20\xff"):
        yield "head cut to %s" % cut.hex(), 12, cut
    for byte in (byte for byte in range(256) if byte != 32):
        yield "a byte of %d" % byte, 15, bytes([byte])
    for tag in OTHER_TAGS:
        for n in (2, 3, 4):
            yield "%d bytes of %d" % (n, tag), 15, bytes([tag]) * n
        yield "tag %d" % tag, 15, field(tag, WORDS[:5])
        yield "tag %d and then a note" % tag, 15, field(tag, b"") + field(32, WORDS[:5])
        yield "tag %d, of a length above 64" % tag, 15, field(tag, b"", 65)
        yield "tag %d, cut" % tag, 15, field(tag, b"", 5)
    for words, body in looks_like_fields():
        yield words, 16, field(32, body)
        yield "%s and a byte" % words, 15, field(32, body) + b"\x20"
        yield "%s, cut" % words, 12, field(32, body)[:-1]


# Notes whose bytes look like fields, or like the end of a file.
def looks_like_fields() -> List[Tuple[str, bytes]]:
    last = field(17, b"") + field(18, b"") + field(19, b"")
    return [
        ("a note that is a head of a note", field(32, b"")), ("a note that is two heads", field(32, b"") * 2),
        ("a note that is a note", field(32, WORDS[:5])), ("a note that is a longer note", field(32, WORDS, 65)[:40]),
        ("a note that is a cut head", b"\x20"), ("a note that is a cut head", b"\x20\0"),
        ("a note that is tag 19", field(19, b"")), ("a note that is the last fields", last),
        ("a note that is the last fields and a note", last + field(32, WORDS[:5])),
        ("a note that starts like a file", bench_file(True)[:64]), ("a note of tags", b"\x20" * 64),
        ("a note of zeros", bytes(64)), ("a note of set bits", b"\xff" * 64),
    ]


# Document 02, Eight: 'last in the file', and its causes among the others: every file with the number due.
def in_order() -> List[Case]:
    sides, tree, zero = field(1, [1, 1]), field(2, [0]), field(16, coefficient_bytes(5) * 16)
    finer, note, long = [field(tag, b"") for tag in (17, 18, 19)], field(32, WORDS[:5]), field(32, b"", 65)
    right, wrong = (field(3, bytes.fromhex(counts)) for counts in ("0010000000000000", "0010000000000001"))
    over, rest = field(16, coefficient_bytes(32_001) * 16), b"".join(finer)
    cases = [Case(words + counts * ", counted", due, bench_file(counts) + tail)
             for counts in (False, True) for words, due, tail in tails()]
    for words, front in (("", sides + tree), (", counted", sides + tree + right)):
        for good in (note, field(32, b""), long):
            cases += [
                Case("before tag 16" + words, 13, front + good + zero + rest),
                Case("before tag 17" + words, 13, front + zero + good + rest),
                Case("before tag 18" + words, 13, front + zero + finer[0] + good + finer[1] + finer[2]),
                Case("before tag 19" + words, 13, front + zero + finer[0] + finer[1] + good + finer[2]),
                Case("for tag 16" + words, 13, front + good), Case("for tag 17" + words, 13, front + zero + good),
                Case("for tag 18" + words, 13, front + zero + finer[0] + good),
                Case("for tag 19" + words, 13, front + zero + finer[0] + finer[1] + good),
                Case("4 and not the note's" + words, 4, front + over + rest + good),
                Case("14 of tag 16 and not the note's" + words, 14, front + field(16, b"") + rest + good),
                Case("14 of tag 19 and not the note's" + words, 14, front + zero + rest[:-3] + field(19, b"5") + good),
                Case("4 with a byte after" + words, 4, front + over + rest + good + b"\0"),
            ]
        # A head that is cut where tag 19 is due is 12, whatever its tag.
        cases += [Case("a cut head for tag 19" + words, 12, front + zero + rest[:-3] + note[:n]) for n in (1, 2)]
    cases += [Case("before tag 2", 13, sides + one + tree + zero + rest) for one in (note, long)]
    cases += [Case("first", 13, one + sides + tree + zero + rest) for one in (note, long)]
    cases += [Case("before the counts", 13, sides + tree + one + right + zero + rest) for one in (note, long)]
    for one in (note, long, note + b"\0", note[:-1], b"\x20"):
        cases += [Case("1 and not the note's", 1, field(1, [0, 1]) + tree + zero + rest + one),
                  Case("2 and not the note's", 2, sides + field(2, [1]) + zero + rest + one),
                  Case("20 and not the note's", 20, sides + tree + wrong + zero + rest + one)]
    return cases


# Files that load, with the table and the part of the file that the note is; S's file ends at 101 or at 112.
def parts() -> List[Tuple[str, bytes, NotePart]]:
    found = []
    for counted, end in ENDS.items():
        file = bench_file(counted)
        bodies: List[Tuple[str, bytes]] = [("a note of %d" % n, WORDS[:n]) for n in GOOD_LENGTHS] + looks_like_fields()
        # The same bytes stand in the file before its note.
        bodies += [("a note that is a part of the file", file[at : at + n]) for at, n in ((0, 9), (12, 20), (40, 64))]
        found.append(("no note, %d bytes" % end, file, NO_PART))
        for words, body in bodies:
            found.append(("%s from %d" % (words, end + 3), file + field(32, body), NotePart(True, end + 3, len(body))))
    return found


# Document 02, Eight: each file of those cases, read by both loaders; none of a refused call.
def reading(check: Check) -> None:
    cases = in_order()
    check([len(bench_file(counted)) for counted in (False, True)] == [101, 112], "the files of S")
    check(len(cases) > 1_500 and {one.due for one in cases} == {1, 2, 4, 12, 13, 14, 15, 16, 20}, "cases of the note")
    for words, due, file in cases:
        kept = {"file": list(file), "tree_out": [], "coefficients_out": []}
        check(calls.read_file(file, [], []) == (("refused", due), kept), "note, %s: %d is due" % (words, due))
        check(calls.read_bench(file, [], []) == ((("refused", due), kept), NO_PART), "bench, %s: %d" % (words, due))
    short, room = [7] * total_places(1, 1), [9] * 3
    for words, due, tail in tails():
        due = 17 if due == 16 else due
        benched = calls.read_bench(bench_file(True) + tail, [], short)
        told = benched.linked(), benched.note
        check(told == (("refused", due), NO_PART), "%d with no tree output, %s" % (due, words))
    s = samples.bench_s()
    for words, file, part in parts():
        after = {"file": list(file), "tree_out": [0, 9, 9], "coefficients_out": s.coefficients}
        check(calls.read_file(file, room, short) == (("ok", 1, 1, 1), after), "loaded: %s" % words)
        check(calls.read_bench(file, room, short) == ((("ok", 1, 1, 1), after), part), "bench: %s" % words)
        linked = ("ok", 1, 1, 1, int(part.stands), part.offset, part.length)
        check(calls.read_bench(file, room, short).linked() == linked, "linked: %s" % words)


# Tables that 1 to 5 apply to.
def refused_tables() -> List[Tuple[int, Table]]:
    s = samples.bench_s()
    passive, over = s.coefficients[:-1] + [1], [32_001] + s.coefficients[1:]
    return [(1, s._replace(w=9)), (2, s._replace(tree=[5])), (3, s._replace(coefficients=passive + [0])),
            (4, s._replace(coefficients=over)), (5, s._replace(coefficients=passive))]


# A note to be saved: its bytes, or none; the number due of a table that is acceptable and an output that is long.
def lent_notes() -> List[Tuple[Optional[bytes], int]]:
    notes = [WORDS[:n] for n in GOOD_LENGTHS] + [body for _, body in looks_like_fields()]
    # The last ones are short in 16 bits, and longer than any file.
    long = [bytes(n) for n in LONG_LENGTHS + (67, 65_536, 65_600, 100_000)]
    return [(None, 0), *((note, 0) for note in notes), *((note, 14) for note in long)]


# Document 02, Eight: 'The writer takes a note or none; a lent note above 64 bytes gives 14'; 1 to 5, 14, 18.
def saving(check: Check) -> None:
    s, file = samples.bench_s(), list(bench_file(True))
    check(file[-9:] == [17, 0, 0, 18, 0, 0, 19, 0, 0], "the end of the file of S")
    for note, due in lent_notes():
        words = "none" if note is None else "a note of %d" % len(note)
        lent = {"tree": s.tree, "coefficients": s.coefficients}
        lent.update({} if note is None else {"note": list(note)})
        whole = file + ([] if note is None else [32, 0, len(note) % 256, *note])
        for length in (0, 111, 112, 113, 114, 115, len(whole) - 1, len(whole), len(whole) + 3):
            out = [8] * length
            answer = ("refused", due) if due else ("refused", 18) if length < len(whole) else ("ok", len(whole))
            after = {**lent, "file_out": out if answer[0] == "refused" else whole + out[len(whole) :]}
            check(calls.write_file(*s, out, note) == (answer, after), "%s into %d" % (words, length))
        for cause, table in refused_tables():
            for length in (0, len(whole)):
                answer = calls.write_file(*table, [8] * length, note).answer
                check(answer == ("refused", cause), "%d with %s into %d" % (cause, words, length))
    longest = 5 + (3 + 1_365) + (3 + 8) + 4 * 3 + 5 * total_places(8, 8)
    check((tablefile.GREATEST_UNNOTED, tablefile.GREATEST_FILE) == (longest, longest + 67), "no file is longer")
    check(tablefile.GREATEST_FILE == 32_443 and tablefile.GREATEST_NOTE == 64, "the longest file, 32,443 bytes")

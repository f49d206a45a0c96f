"""Table files read by the evaluator: whole ones with their counts and without, each damage with its number, and what
the corner program prints of them."""
from __future__ import annotations

from itertools import permutations
from random import Random
from typing import Callable, List, Sequence, Tuple

import calls
import samples
import tablefile
import tree as quadtree
from samples import Table, bench_s, fresh_table, inserted
from surface import place_count, total_places
from tablefile import coefficient_bytes, field

Check = Callable[[bool, str], None]

# 8 by 8 in strips along v, of level 3, 2, 1 and 0, that end at 4, 8, 16 and 32 quarters. Along v all of a level's
# places count: 11, 19, 35 or 67. Along u the first 4 functions of a level lie in four of its cells, and the first 8 in
# eight. So active are 11 - 4 columns of level 0, 8 - 4 of level 1, 8 - 4 of level 2 and 8 of level 3.
STRIPS = (((0, 0, 16, 32), 1), ((0, 0, 8, 32), 2), ((0, 0, 4, 32), 3))
STRIP_COUNTS = (7 * 11, 4 * 19, 4 * 35, 8 * 67)
STRIP_BYTES = "004d 004c 008c 0218"


def strips() -> Table:
    levels = ((0,) * 32,) * 32
    for box, level in STRIPS:
        levels = quadtree.raised(levels, box, level)
    return samples.table_of(Random(22), 8, 8, levels)


# Document 01, The table file: files read back, and each damage with its number in byte order.
def files(check: Check) -> None:
    rng = Random(21)
    for w, h in ((1, 1), (2, 1), (3, 4), (8, 8)):
        table = samples.random_table(rng, w, h)
        for counted in (False, True):
            read_back(check, rng, table, tablefile.write_file(*table, counted=counted))
    one, sides, tree = field, field(1, [1, 1]), field(2, [0])
    number = coefficient_bytes
    level_0 = one(16, number(5) * 16)
    rest = one(17, b"") + one(18, b"") + one(19, b"")
    cases = [
        (12, b""), (12, b"\1"), (12, b"\7\0"), (12, sides), (13, b"\7\0\0"), (13, tree + sides), (14, one(1, [1])),
        (14, one(1, [1, 1, 1])), (14, one(1, [], 3)), (12, one(1, [1], 2)), (12, one(1, [0], 2)), (1, one(1, [0, 1])),
        (1, one(1, [1, 9])), (1, one(1, [255, 0]) + b"\7"), (12, sides + b"\7"), (14, sides + one(2, [])),
        (14, sides + one(2, [], 1_366)), (12, sides + one(2, [0] * 9, 1_365)), (2, sides + one(2, [0] * 1_365)),
        (2, sides + one(2, [1])), (2, sides + one(2, [4, 0, 0, 0])), (2, sides + one(2, [0, 0]) + b"\7"),
        (12, sides + tree), (13, sides + tree + one(17, b"")), (14, sides + tree + one(16, number(5) * 15)),
        (14, sides + tree + one(16, b"", 81)), (12, sides + tree + one(16, number(99_999), 80)),
        (4, sides + tree + one(16, number(5) * 15 + number(32_001))),
        (4, sides + tree + one(16, number(-32_001) * 16) + b"\7"), (4, sides + tree + one(16, b"\x80" * 80)),
        (12, sides + tree + level_0), (14, sides + tree + level_0 + one(17, b"\0")),
        (15, sides + tree + level_0 + rest + b"\0"),
    ]
    for due, file in cases:
        check(calls.read_file(file, [], []).answer == ("refused", due), "file refused %d: %s" % (due, file[:16].hex()))
    good = calls.read_file(sides + tree + level_0 + rest, [9], [7] * total_places(1, 1))
    check(good.answer == ("ok", 1, 1, 1) and good.lent["coefficients_out"][:17] == [5] * 16 + [0], "the shortest file")
    check(number(-1) == b"\xff" * 5 and number(258) == b"\0\0\0\1\2", "coefficient bytes")


# A table's file, read whole, cut, with a byte after it, and into outputs that do not fit.
def read_back(check: Check, rng: Random, table: Table, file: bytes) -> None:
    words, length = "file of %d bytes, %d by %d" % (len(file), table.w, table.h), len(table.tree)
    outcome = calls.read_file(file, [9] * (length + 2), [7] * len(table.coefficients))
    check(outcome.answer == ("ok", length, table.w, table.h), words)
    check(outcome.lent["tree_out"] == table.tree + [9, 9], "tree from a %s" % words)
    check(outcome.lent["coefficients_out"] == table.coefficients, "coefficients from a %s" % words)
    for cut in sorted(rng.sample(range(len(file)), min(60, len(file)))):
        check(calls.read_file(file[:cut], [], []).answer == ("refused", 12), "%s, cut to %d bytes" % (words, cut))
    check(calls.read_file(file + b"\0", [], []).answer == ("refused", 15), "%s, a byte after the last field" % words)
    check(calls.read_file(file, [], []).answer == ("refused", 16), "%s, slice of a wrong length" % words)
    short = calls.read_file(file, [9] * (length - 1), [7] * len(table.coefficients))
    check(short.answer == ("refused", 17), "%s, tree buffer too short" % words)
    check(short.lent["tree_out"] == [9] * (length - 1), "%s, nothing written with 17" % words)
    check(set(short.lent["coefficients_out"]) == {7} and bytes(short.lent["file"]) == file, "%s, nothing else" % words)


# The bytes of four counts, each high byte first.
def body_of(counts: Sequence[int]) -> bytes:
    return bytes(part for count in counts for part in (count // 256 % 256, count % 256))


# Bodies of tag 3 that are wrong for the strips: one count off by a little or by a high byte, with its bytes swapped, 0
# or the greatest; another order of levels; low byte first; numbers of places in the stead of active functions.
def wrong_bodies() -> List[Tuple[str, bytes]]:
    right, found = body_of(STRIP_COUNTS), []
    for at, count in enumerate(STRIP_COUNTS):
        for other in (count + 1, count - 1, count + 256, count - 256, count % 256 * 256 + count // 256, 0, 65_535):
            named = "count %d is %d" % (at, other)
            found.append((named, body_of([*STRIP_COUNTS[:at], other, *STRIP_COUNTS[at + 1 :]])))
    found += [("counts %s" % (order,), body_of(order)) for order in permutations(STRIP_COUNTS)]
    found += [("low byte first", bytes(right[at ^ 1] for at in range(8))), ("bytes reversed", right[::-1])]
    found.append(("counts of places", body_of([place_count(8, 8, level) for level in range(4)])))
    return [(words, body) for words, body in found if body != right]


# Document 02, Seven: 'four two-byte active counts, high byte first, levels 0 to 3', and 20 where one differs.
def counts(check: Check) -> None:
    table = strips()
    check(body_of(STRIP_COUNTS) == bytes.fromhex(STRIP_BYTES), "counts of the strips, written out by hand")
    fields = tablefile.table_fields(*table, counted=False)
    front = b"".join(field(tag, body) for tag, body in fields[:2])
    rest = b"".join(field(tag, body) for tag, body in fields[2:])
    room = [9] * len(table.tree), [7] * len(table.coefficients)
    right = front + field(3, bytes.fromhex(STRIP_BYTES)) + rest
    check(tablefile.write_file(*table) == right, "the counts of the strips")
    for file in (right, front + rest):
        outcome = calls.read_file(file, *room)
        check(outcome.answer == ("ok", len(table.tree), 8, 8), "strips of %d bytes are loaded" % len(file))
        after = {"file": list(file), "tree_out": table.tree, "coefficients_out": table.coefficients}
        check(outcome.lent == after, "what strips of %d bytes load" % len(file))
    wrong = wrong_bodies()
    check(len(wrong) == 4 * 7 + 23 + 3, "%d wrong bodies of counts" % len(wrong))
    for words, body in wrong:
        file = front + field(3, body) + rest
        kept = {"file": list(file), "tree_out": room[0], "coefficients_out": room[1]}
        check(calls.read_file(file, *room) == (("refused", 20), kept), "20 where %s" % words)


# Document 02, Seven: where the field may stand, its length, and 20 'with the contents of tag 3', which come after its
# whole head, tag, length and whole body, and before anything of tag 16. Words, the number due and the file, which is
# read into outputs of no length.
def in_order() -> List[Tuple[str, int, bytes]]:
    sides, tree, zero = field(1, [1, 1]), field(2, [0]), field(16, coefficient_bytes(5) * 16)
    finer = [field(tag, b"") for tag in (17, 18, 19)]
    rest, front, good = zero + b"".join(finer), sides + tree, bytes.fromhex("0010 0000 0000 0000")
    right, bad = field(3, good), bytes.fromhex("0010 0000 0000 0001")
    wrong, over = field(3, bad), field(16, coefficient_bytes(32_001) * 16)
    others = (0, 1, 2, 4, 15, 17, 19, 255)
    cases = [("tag %d in its place" % tag, 13, front + field(tag, good) + rest) for tag in others]
    cases += [("length %d" % n, 14, front + field(3, (good * 2)[:n]) + rest) for n in (*range(8), *range(9, 17))]
    cases += [("length %d, cut" % n, 14, front + field(3, good, n)) for n in (0, 7, 9, 16, 264, 2_048, 65_535)]
    cases += [("body cut to %d" % n, 12, front + field(3, good[:n], 8)) for n in range(8)]
    cases += [("wrong and cut to %d" % n, 12, front + field(3, b"\xff" * n, 8)) for n in range(8)]
    return cases + [
        ("head cut", 12, front + b"\3"), ("head cut", 12, front + b"\3\0"), ("other head cut", 12, front + b"\4\0"),
        ("first", 13, right + front + rest), ("before tag 2", 13, sides + right + tree + rest),
        ("after tag 16", 13, front + zero + right + b"".join(finer)),
        ("after tag 17", 13, front + zero + finer[0] + right + finer[1] + finer[2]),
        ("after tag 18", 13, front + zero + finer[0] + finer[1] + right + finer[2]),
        ("at the end", 15, front + rest + right), ("again at the end", 15, front + right + rest + right),
        ("twice", 13, front + right + right + rest), ("twice, then wrong", 13, front + right + wrong + rest),
        ("twice, of another length", 13, front + right + field(3, b"") + rest),
        ("twice, the second cut", 13, front + right + right[:3]), ("then a cut head", 12, front + right + right[:2]),
        ("the last", 12, front + right), ("then tag 17", 13, front + right + finer[0]),
        ("then a wrong length", 14, front + right + field(16, b"\0")),
        ("then a cut body", 12, front + right + zero[:-1]),
        ("then past the limit", 4, front + right + over), ("then a byte after", 15, front + right + rest + b"\0"),
        ("1 and not 20", 1, field(1, [0, 1]) + tree + wrong), ("2 and not 20", 2, sides + field(2, [1]) + wrong),
        ("13 and not 14", 13, front + field(4, b"")), ("13 and not 20", 13, front + field(4, bad) + rest),
        ("14 and not 20", 14, front + field(3, bad[1:]) + rest), ("14 and not 20", 14, front + field(3, bad + b"\1")),
        ("20 and not 12", 20, front + wrong), ("20 and not 12 of a head", 20, front + wrong + zero[:2]),
        ("20 and not 12 of a body", 20, front + wrong + zero[:-1]), ("20 and not 13", 20, front + wrong + finer[0]),
        ("20 and not 13, twice", 20, front + wrong + right + rest),
        ("20 and not 14", 20, front + wrong + field(16, b"")),
        ("20 and not 4", 20, front + wrong + over), ("20 and not 15", 20, front + wrong + rest + b"\0"),
        ("20 and not 16", 20, front + wrong + rest), ("16 with right counts", 16, front + right + rest),
    ]


# Each of those cases; then 20 against 17, and what the shortest file with counts loads.
def counts_in_order(check: Check) -> None:
    for words, due, file in in_order():
        answer = calls.read_file(file, [], []).answer
        check(answer == ("refused", due), "counts, %s: %d is due, given %s" % (words, due, answer))
    table = samples.bench_s()
    front, rest = (tablefile.write_file(*table, counted=False)[part] for part in (slice(9), slice(9, None)))
    for counts, due in (("0010 0000 0000 0001", 20), ("0010 0000 0000 0000", 17)):
        answer = calls.read_file(front + field(3, bytes.fromhex(counts)) + rest, [], [7] * total_places(1, 1)).answer
        check(answer == ("refused", due), "%d with a tree buffer too short" % due)
    loaded = calls.read_file(front + field(3, bytes.fromhex(counts)) + rest, [9], [7] * total_places(1, 1))
    check(loaded.answer == ("ok", 1, 1, 1), "the file of S with counts")
    check(loaded.lent["coefficients_out"] == table.coefficients, "what the file of S with counts loads")


# Document 01, Bench sheet: what the corner program prints.
def corners(check: Check) -> None:
    lines = ["u v watts", "0 0 0", "1 0 1000", "0 1 0", "1 1 1000"]
    wide_lines = ["u v watts", "0 0 -3", "1 0 -3", "2 0 -3", "0 1 -3", "1 1 -3", "2 1 -3"]
    fine = inserted(inserted(bench_s(), (0, 0, 4, 4), 1), (1, 1, 4, 3), 3)
    for counted in (False, True):
        file, refined, wide = (
            tablefile.write_file(*table, counted=counted) for table in (bench_s(), fine, fresh_table(2, 1, -3))
        )
        check(calls.corner_lines(file) == lines, "corner program on S")
        check(calls.corner_lines(refined) == lines, "corner program on S refined")
        check(calls.corner_lines(wide) == wide_lines, "corner program on 2 by 1")
        for note in (b"", b"note", bytes(64)):
            noted = tablefile.write_file(*fine, counted=counted, note=note)
            check(calls.corner_lines(noted) == lines, "corner program on S refined, with a note of %d" % len(note))
        check(calls.corner_lines(file + b"\0" * 9) == ["refused 15"], "corner program, 15")
    other = tablefile.write_file(*bench_s()).replace(bytes.fromhex("030008 0010"), bytes.fromhex("030008 0011"))
    check(calls.corner_lines(other) == ["refused 20"], "corner program on a count of 17")
    check(calls.corner_lines(b"") == ["refused 12"], "corner program on an empty file")

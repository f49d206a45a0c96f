"""Table files with counts and a note and without, whole and damaged at every kind of place, read by both loaders and
held to the unrelated evaluator."""
from __future__ import annotations

from itertools import accumulate
from random import Random
from typing import Callable, Dict, Iterator, List, Optional, Sequence, Tuple

import cases
import notes
import tablefile
from cases import calls, quadtree, samples
from counts import IN_COUNTS, Field
from library import Library, differ, numbers, octets
from notes import IN_NOTES, other_tail
from saving import drawn
from surface import coefficient_limit, total_places
from tablefile import COEFFICIENT_BYTES, HEAD, TAG_LEVEL_0, TAG_NOTE, TAG_SIDES, TAG_TREE, Note
from tablefile import coefficient_bytes, field, write_file

SIDES = (0, 9, 255, 1, 8)
# The least and the greatest number of five bytes.
FIVE_BYTES = (-(2**39), 2**39 - 1)


def loads(lib: Library, words: str, file: bytes, tree_length: int, numbers_length: int) -> Iterator[str]:
    """Reads a file by the controller's loader and by the bench loader into outputs of these lengths: of each, what is
    not as it should be."""
    tree_lent, numbers_lent = [at % 251 for at in range(tree_length)], list(range(7, 7 + numbers_length))
    want = calls.read_bench(file, tree_lent, numbers_lent)
    after = want.loaded.lent["tree_out"], want.loaded.lent["coefficients_out"]
    for name, call, answer in (("read_file", lib.read_file, want.loaded.answer),
                               ("read_bench", lib.read_bench, want.linked())):
        outputs = octets(tree_lent), numbers(numbers_lent)
        told = f"{name}, {words}, into {tree_length} and {numbers_length}: {file.hex()}"
        yield differ(told, call(octets(file), *outputs), answer, *zip(outputs, after))


def read(lib: Library, words: str, file: bytes, tree_length: int, numbers_length: int) -> str:
    """What is not as it should be with either loader."""
    return next(filter(None, loads(lib, words, file, tree_length, numbers_length)), "")


def fields_of(t: samples.Table, counted: bool, note: Note = None) -> List[Field]:
    return [(tag, len(body), body) for tag, body in tablefile.table_fields(*t, counted, note)]


def both_files(t: samples.Table) -> Tuple[bytes, bytes]:
    """The two files that load a table and have no note: with its counts, and without."""
    return write_file(*t), write_file(*t, counted=False)


def joined(fields: Sequence[Field]) -> bytes:
    return b"".join(field(tag, body, length) for tag, length, body in fields)


def _with(fields: List[Field], at: int, tag: int, body: bytes, length: Optional[int] = None) -> List[Field]:
    """The fields with another one at this place; it tells its body's length unless one is given."""
    return fields[:at] + [(tag, len(body) if length is None else length, body)] + fields[at + 1:]


def _tagged(fields: List[Field], tag: int) -> int:
    """Where the field of this tag is; 0 where another fault has left none."""
    return next((at for at, one in enumerate(fields) if one[0] == tag), 0)


def other_tag(rng: Random, fields: List[Field]) -> List[Field]:
    at = rng.randrange(len(fields))
    tag, length, body = fields[at]
    return _with(fields, at, rng.choice((0, (tag - 1) % 256, tag + 1, 255, rng.choice(fields)[0])) % 256, body, length)


def other_length(rng: Random, fields: List[Field]) -> List[Field]:
    """The head tells another length by one of its bytes, and the body stays."""
    at = rng.randrange(len(fields))
    tag, length, body = fields[at]
    told, which = list(length.to_bytes(2, "big")), rng.randrange(2)
    told[which] = rng.choice((0, 255, told[which] + 1, told[which] - 1, told[which] + 5)) % 256
    return _with(fields, at, tag, body, int.from_bytes(bytes(told), "big"))


def other_body(rng: Random, fields: List[Field]) -> List[Field]:
    """A body that is shorter or longer, as its head tells: by a byte, by a coefficient, empty, or as no tree is."""
    at = rng.randrange(len(fields))
    tag, _, body = fields[at]
    longer = body + bytes(rng.choice((1, COEFFICIENT_BYTES, 256)))
    full = bytes(quadtree.GREATEST_TREE + rng.randrange(2))
    return _with(fields, at, tag, rng.choice((b"", body[:-1], body[:-COEFFICIENT_BYTES], longer, longer, full)))


def other_tree(rng: Random, fields: List[Field]) -> List[Field]:
    at = _tagged(fields, TAG_TREE)
    return _with(fields, at, fields[at][0], bytes(cases.damaged_tree(rng, list(fields[at][2]))))


def other_regions(rng: Random, fields: List[Field]) -> List[Field]:
    """A tree of the form, but of other regions, so that other functions are active."""
    at = _tagged(fields, TAG_TREE)
    levels = samples.random_levels(rng, rng.randint(1, 8), rng.randint(1, 8), 3)
    return _with(fields, at, fields[at][0], bytes(quadtree.tree_of(levels)))


def other_side(rng: Random, fields: List[Field]) -> List[Field]:
    at = _tagged(fields, TAG_SIDES)
    body = list(fields[at][2][:2]) or [0]
    body[rng.randrange(len(body))] = rng.choice(SIDES)
    return _with(fields, at, fields[at][0], bytes(body))


def other_number(rng: Random, fields: List[Field]) -> List[Field]:
    """A coefficient of a level, often its first or last, that is at its limit, past it or of another sign."""
    held = [at for at, one in enumerate(fields) if len(one[2]) >= COEFFICIENT_BYTES and 16 <= one[0] <= 19]
    if not held:
        return fields
    at = rng.choice(held)
    tag, length, body = fields[at]
    limit, count = coefficient_limit(tag - TAG_LEVEL_0), len(body) // COEFFICIENT_BYTES
    first = COEFFICIENT_BYTES * rng.choice((0, count - 1, rng.randrange(count)))
    number = rng.choice((limit, -limit, limit + 1, limit + 1, -limit - 1, -limit - 1, 0, -1, *FIVE_BYTES))
    body = body[:first] + coefficient_bytes(number) + body[first + COEFFICIENT_BYTES:]
    return _with(fields, at, tag, body, length)


def other_order(rng: Random, fields: List[Field]) -> List[Field]:
    """A field left out, twice there, or in the place of another."""
    at, to = rng.randrange(len(fields)), rng.randrange(len(fields))
    one, rest = fields[at], fields[:at] + fields[at + 1:]
    return rng.choice((rest, fields[:at] + [one] + fields[at:], rest[:to] + [one] + rest[to:]))


def cut(rng: Random, file: bytes, edges: Sequence[int]) -> bytes:
    """Anywhere, or in a head, right before it or after it."""
    near = rng.choice(edges) + rng.randint(-1, HEAD + 1)
    return file[:rng.choice((rng.randrange(len(file) + 1), max(near, 0)))]


def longer(rng: Random, file: bytes, _: Sequence[int]) -> bytes:
    more = rng.choice((1, 1, 2, HEAD, 200, 33_000))
    return file + rng.choice((bytes(more), bytes([255]) * more, field(TAG_LEVEL_0 + 4, b""), file,
                              field(TAG_NOTE, bytes(more))))


def other_byte(rng: Random, file: bytes, edges: Sequence[int]) -> bytes:
    at = rng.choice((rng.randrange(len(file) + 1), rng.choice(edges) + rng.randrange(HEAD)))
    return file[:at] + bytes([rng.randrange(256)]) + file[at + 1:]


def any_bytes(rng: Random, _: bytes, __: Sequence[int]) -> bytes:
    return bytes(rng.choice((0, 1, 2, 4, 16, rng.randrange(256))) for _ in range(rng.randrange(80)))


IN_FIELDS = (other_tag, other_length, other_body, other_tree, other_regions, other_side, other_number, other_order,
             *IN_COUNTS, *IN_NOTES)
IN_BYTES = (cut, longer, other_byte, other_tail)
# Faults of whole fields before the note.
BEFORE_NOTE = (other_tag, other_body, other_tree, other_regions, other_side, other_number, *IN_COUNTS)


def damaged(rng: Random, fields: List[Field], kinds: Sequence[Callable]) -> bytes:
    """The file of these fields with a fault of each of these kinds: those of fields first, then those of bytes."""
    for kind in IN_FIELDS:
        for _ in range(kinds.count(kind)):
            fields = kind(rng, fields)
    file, edges = joined(fields), [0, *accumulate(HEAD + len(body) for _, _, body in fields)]
    for kind in kinds:
        if kind not in IN_FIELDS:
            file = kind(rng, file, edges)
    return file


def lengths(rng: Random, t: samples.Table) -> Tuple[int, int]:
    """The lengths of the outputs; about one in four is too short for the tree or not that of the numbers."""
    n, places = len(t.tree), total_places(t.w, t.h)
    room = rng.choice((n, n, n + rng.randint(1, 40), quadtree.GREATEST_TREE, quadtree.GREATEST_TREE + 35))
    return (rng.choice((room,) * 12 + (n - 1, 0, n + cases.LONGER)),
            rng.choice((places,) * 20 + (places + 1, places - 1, 0, places + cases.LONGER,
                                         total_places(rng.randint(1, 8), t.h))))


def read_file(rng: Random, lib: Library) -> Iterator[str]:
    """Files of a table, with counts or a note or without, each with no fault, one or two, read into outputs of any
    lengths."""
    t = drawn(lib, cases.table(rng))
    for _ in range(6):
        fields = fields_of(t, rng.random() < 0.6, notes.note(rng))
        kinds = rng.choices(IN_FIELDS + IN_BYTES, k=rng.choice((0, 0, 1, 1, 2)))
        kinds = [any_bytes] if rng.random() < 0.03 else kinds
        words = " and ".join(kind.__name__ for kind in kinds) or "whole"
        yield from loads(lib, f"{words} of {t.w} by {t.h}", damaged(rng, fields, kinds), *lengths(rng, t))


def read_bench(rng: Random, lib: Library) -> Iterator[str]:
    """Files that differ only in the note, its presence included: whole, and with a fault before it."""
    t = drawn(lib, cases.table(rng))
    for _ in range(2):
        fields, room = fields_of(t, rng.random() < 0.6), lengths(rng, t)
        kinds = rng.choices(BEFORE_NOTE, k=rng.choice((0, 0, 1)))
        front, words = damaged(rng, fields, kinds), " and ".join(kind.__name__ for kind in kinds) or "whole"
        for note in (None, notes.note(rng) or b"", notes.note(rng) or bytes(64)):
            tail = b"" if note is None else field(TAG_NOTE, note)
            yield from loads(lib, f"{words} of {t.w} by {t.h}, note {note}", front + tail, *room)


KINDS: Dict[str, Callable[[Random, Library], Iterator[str]]] = {"read_file": read_file, "read_bench": read_bench}


def small() -> samples.Table:
    """1 by 1 with level 1 on its west half: 16 functions of level 0 are active and 5 of level 1."""
    tree = quadtree.tree_of(quadtree.raised(((0,) * 32,) * 32, (0, 0, 2, 4), 1))
    values = [32_000, -32_000, 0, -1, 1, 255, 256, -256, 65_535 // 4, -7, 700, 3, 2, 1, 0, -31_999]
    level_1 = [2_048_000, -2_048_000, -1, 0, 65_536]
    return samples.Table(1, 1, tree, values + [x for one in level_1 for x in (one, 0, 0, 0, 0)] + [0] * 170)


def small_file(lib: Library) -> List[str]:
    """A small file, with a note or none, cut everywhere, with each byte changed to some others, and with bytes after
    it."""
    t, found = small(), []
    room = len(t.tree) + 3, 211
    noted = write_file(*t, note=field(19, b"") + field(TAG_NOTE, b"\7")), write_file(*t, counted=False, note=b"")
    # A file with a note is the same up to the last field of a level.
    starts = [(file, 0) for file in both_files(t)] + [(file, tablefile.levels_end(file) - HEAD) for file in noted]
    for file, start in starts:
        found += [read(lib, f"cut to {at}", file[:at], *room) for at in range(start, len(file) + 1)]
        for at, byte in enumerate(file[start:], start):
            others = {0, 1, 2, 3, 4, 8, 9, 127, 128, 255, (byte + 1) % 256, (byte - 1) % 256, byte ^ 128} - {byte}
            found += [read(lib, f"byte {at} is {other}", file[:at] + bytes([other]) + file[at + 1:], *room)
                      for other in sorted(others)]
        tails = [bytes(1), b"\xff", bytes(2), bytes(3), field(20, b""), field(1, b"\1\1"), file, bytes(70_000),
                 field(TAG_NOTE, b""), field(TAG_NOTE, bytes(64)), field(TAG_NOTE, bytes(65)), b"\x20", b"\x20\0"]
        found += [read(lib, f"{len(tail)} bytes after it", file + tail, *room) for tail in tails]
    return found


def outputs(lib: Library) -> List[str]:
    """A small file and the largest read into outputs of all lengths near those due, with and without a note and bytes
    after."""
    big = samples.Table(8, 8, [3], [0] * 1_707 + [(-1)**at * (64**3 * 32_000 - at) for at in range(4_489)])
    found = []
    for t in (small(), big):
        n, places = len(t.tree), len(t.coefficients)
        tails = b"", b"\0", field(TAG_NOTE, b"\7" * 64), field(TAG_NOTE, b"") + b"\0"
        found += [read(lib, f"outputs, {t.w} by {t.h}", file + tail, room, slots) for file in both_files(t)
                  for tail in tails for room in (0, n - 1, n, n + 1, quadtree.GREATEST_TREE)
                  for slots in (0, places - 1, places, places + 1)]
    return found


def two_faults(lib: Library) -> List[str]:
    """Files with two faults, and the number of the one that comes first in byte order."""
    sides, tree, zero = field(1, b"\1\1"), field(2, b"\0"), field(16, coefficient_bytes(5) * 16)
    over, rest = field(16, coefficient_bytes(5) * 15 + coefficient_bytes(-32_001)), field(17, b"") + field(18, b"")
    good, last = sides + tree + zero + rest, field(19, b"")
    checks = (
        ("a head cut, 12, with 13", b"\7\0", 12), ("13 with 14", field(7, b""), 13), ("13 with 12", b"\7\0\2", 13),
        ("14 with a body cut, 12", b"\1\0\3", 14), ("a body cut, 12, with 1", b"\1\0\2\0", 12),
        ("1 with 12", field(1, b"\0\1"), 1), ("1 with 13", field(1, b"\1\11") + field(7, b""), 1),
        *(("1 with 13", field(1, body) + field(7, b""), 1) for body in (b"\1\0", b"\0\1", b"\11\1")),
        ("14 with 2", sides + field(2, b"\5" * 1_366), 14), ("a body cut, 12, with 2", sides + b"\2\0\2\5", 12),
        ("2 with 13", sides + field(2, b"\1") + field(7, b""), 2), ("2 with 4", sides + field(2, b"\0\0") + over, 2),
        ("14 with 4", sides + tree + field(16, coefficient_bytes(-32_001) * 17), 14),
        ("a body cut, 12, with 4", sides + tree + over[:3] + b"\x80" * 79, 12), ("4 with 12", sides + tree + over, 4),
        ("4 with 13", sides + tree + over + field(18, b""), 4),
        ("4 with 15", sides + tree + over + rest + last + b"\0", 4), ("12 with 16", good, 12),
        ("13 with 15", good + field(20, b"") + b"\0", 13), ("15 with 16", good + last + b"\0", 15),
        ("16 with 17", good + last, 16),
    )
    found = []
    for words, file, due in checks:
        for call in (lib.read_file, lib.read_bench):
            got = call(octets(file), octets([]), numbers([7] * 210))
            found.append(differ(f"{call.__name__}, {words}", got, ("refused", due)))
    return found


def sheets(rng: Random, lib: Library) -> List[str]:
    """For every size of sheet a file, whole and with a fault of each kind."""
    found = []
    for w in range(1, 9):
        for h in range(1, 9):
            t = cases.table_on(rng, w, h)
            room = len(t.tree), total_places(w, h)
            for fields in (fields_of(t, True), fields_of(t, False), fields_of(t, True, notes.body(rng, 64))):
                found.append(read(lib, f"whole of {w} by {h}", joined(fields), *room))
                found += [read(lib, f"{kind.__name__} of {w} by {h}", damaged(rng, fields, [kind]), *room)
                          for kind in IN_FIELDS + IN_BYTES]
    return found


def last_bytes(rng: Random, lib: Library) -> List[str]:
    """For every size of sheet a file whose last byte is of level 3: whole, and cut by that byte or by its number."""
    sides = [(w, h) for w in range(1, 9) for h in range(1, 9)]
    tables = [samples.table_of(rng, w, h, quadtree.raised(samples.random_levels(rng, w, h, 2),
                                                          (4 * w - 1, 4 * h - 1, 4 * w, 4 * h), 3))
              for w, h in sides]
    # The largest files: any numbers, and all bits set or all but the last.
    tables.append(samples.table_of(rng, 8, 8, ((3,) * 32,) * 32))
    tables += [samples.Table(8, 8, [3], [0] * 1_707 + [number] * 4_489) for number in (-1, -2)]
    found = []
    for t in tables:
        found += [read(lib, f"{less} bytes cut of {t.w} by {t.h}", file[:len(file) - less], len(t.tree),
                       len(t.coefficients)) for file in both_files(t) for less in (0, 1, COEFFICIENT_BYTES)]
    return found


def fixed(rng: Random, lib: Library) -> List[str]:
    return small_file(lib) + outputs(lib) + two_faults(lib) + sheets(rng, lib) + last_bytes(rng, lib)

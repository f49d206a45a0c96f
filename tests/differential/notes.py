"""Notes of table files, the field of tag 32: drawn ones, lent ones, and faults in their length, place and head."""
from __future__ import annotations

from random import Random
from typing import List, NamedTuple, Optional, Sequence

from counts import Field
from tablefile import GREATEST_NOTE, HEAD, TAG_NOTE, field

# Lengths above the greatest; some are below it in their low byte, or in 16 bits.
LONG = (65, 65, 66, 67, 128, 255, 256, 257, 320, 1_365)
LONGER_STILL = (65_535, 65_536, 65_537, 65_600)
# Bytes that look like fields or like the end of a file.
LIKE_FIELDS = (field(TAG_NOTE, b""), field(19, b""), field(TAG_NOTE, b"\7"), field(19, b"") + field(TAG_NOTE, b"\1\2"),
               bytes([TAG_NOTE]) * 3, bytes([TAG_NOTE]), bytes([TAG_NOTE, 0]), field(TAG_NOTE, b"", 65),
               field(1, b"\1\1"))


class LentNote(NamedTuple):
    """What is lent to saving: a number, 0 for none, and the bytes that are the note where it is another."""

    noted: int
    body: bytes

    def note(self) -> Optional[bytes]:
        return self.body if self.noted else None

    def size(self) -> int:
        """The bytes of its field."""
        return HEAD + len(self.body) if self.noted else 0

    def words(self) -> str:
        return f"note {self.noted} of {len(self.body)} bytes {self.body[:GREATEST_NOTE].hex()}"


NONE = LentNote(0, b"")


def body(rng: Random, length: int) -> bytes:
    return bytes(rng.randrange(256) for _ in range(length))


def note(rng: Random) -> Optional[bytes]:
    """A note that a file may have, or none: often of no byte, one, or the most."""
    length = rng.choice((0, 1, 2, GREATEST_NOTE - 1, GREATEST_NOTE, GREATEST_NOTE, rng.randint(0, GREATEST_NOTE)))
    return rng.choice((None, None, body(rng, length), body(rng, length), bytes(length), rng.choice(LIKE_FIELDS)))


def lent(rng: Random) -> LentNote:
    """A note to be saved, or none: one that fits, one that is too long, and any bytes where there is none."""
    fits = note(rng) or b""
    long = body(rng, rng.choice(LONG)) if rng.random() < 0.9 else bytes(rng.choice(LONGER_STILL))
    given = rng.choice((fits, fits, fits, long))
    return LentNote(rng.choice((0, 0, 1, 1, 1, 2, 128, 255)), given)


def _at(fields: List[Field]) -> int:
    """Where the note stands, -1 in a file that has none."""
    return next((at for at, one in enumerate(fields) if one[0] == TAG_NOTE), -1)


def other_note(rng: Random, fields: List[Field]) -> List[Field]:
    """Another note in its place, or none."""
    at, given = _at(fields), note(rng)
    front = fields if at < 0 else fields[:at]
    return front + ([] if given is None else [(TAG_NOTE, len(given), given)])


def other_note_length(rng: Random, fields: List[Field]) -> List[Field]:
    """A body that is too long, as its head tells; or a head that tells more or less than stands there."""
    at = _at(fields)
    front, was = (fields, body(rng, 9)) if at < 0 else (fields[:at], fields[at][2])
    long = body(rng, rng.choice(LONG))
    told = rng.choice(((len(long), long), (rng.choice(LONG), was), (len(was) + 1, was), (max(len(was) - 1, 0), was),
                       (GREATEST_NOTE, was), (len(was) << 8, was), (65_535, was)))
    return front + [(TAG_NOTE, *told)]


def other_note_place(rng: Random, fields: List[Field]) -> List[Field]:
    """The note twice, under another tag, before another field, or with another field after it."""
    at = _at(fields)
    one = (TAG_NOTE, 2, b"\1\2") if at < 0 else fields[at]
    rest = fields if at < 0 else fields[:at] + fields[at + 1:]
    to, tag = rng.randrange(len(rest) + 1), rng.choice((0, 3, 16, 19, 20, 31, 33, 160, 255))
    return rng.choice((rest + [one, one], rest[:to] + [one] + rest[to:], rest + [(tag, *one[1:])],
                       rest + [one, rng.choice(rest or fields)], rest + [one, (TAG_NOTE, 0, b"")]))


def other_tail(rng: Random, file: bytes, edges: Sequence[int]) -> bytes:
    """Few bytes after a field, mostly after one of the last two: of a note's head, or of anything else."""
    at, any_byte = rng.choice((edges[-1], edges[-1], *edges[-2:], rng.choice(edges))), rng.randrange(256)
    tail = rng.choice((b"\x20", b"\x20\0", b"\x20\0\0", b"\x20\0\x40", b"\x20\0\x41", b"\x20\1\0", b"\x20\xff",
                       bytes([any_byte]), bytes([any_byte, 0]), bytes([any_byte, 0, 0]), bytes([any_byte]) * 4))
    return file[:at] + tail


IN_NOTES = (other_note, other_note_length, other_note_place)

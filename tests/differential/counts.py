"""Faults of the counts in a table file, the field of tag 3: in a count, in their order, in the length, in the place."""
from __future__ import annotations

from random import Random
from typing import List, Tuple

from tablefile import COUNTS_BYTES, TAG_COUNTS

# A field: its tag, the length that its head tells, its body.
Field = Tuple[int, int, bytes]


def _at(fields: List[Field]) -> int:
    """Where the counts stand, as long as a body of counts is; -1 in a file that lacks them."""
    return next((at for at, (tag, _, body) in enumerate(fields) if tag == TAG_COUNTS and len(body) == COUNTS_BYTES), -1)


def _told(counts: List[int]) -> bytes:
    return b"".join((count % 65_536).to_bytes(2, "big") for count in counts)


def _counts(body: bytes) -> List[int]:
    return [int.from_bytes(body[at:at + 2], "big") for at in range(0, COUNTS_BYTES, 2)]


def other_count(rng: Random, fields: List[Field]) -> List[Field]:
    """One count of the four is another: by one, by a high byte, with its bytes swapped, or any."""
    at = _at(fields)
    if at < 0:
        return fields
    counts, level = _counts(fields[at][2]), rng.randrange(4)
    was = counts[level]
    counts[level] = rng.choice((was + 1, was - 1, was + 256, was - 256, was % 256 * 256 + was // 256, 0,
                                rng.choice(counts), rng.randrange(65_536)))
    return fields[:at] + [(TAG_COUNTS, fields[at][1], _told(counts))] + fields[at + 1:]


def other_counts_order(rng: Random, fields: List[Field]) -> List[Field]:
    """The right counts in a wrong order: levels reversed, turned round or any, bytes swapped or reversed."""
    at = _at(fields)
    if at < 0:
        return fields
    body = fields[at][2]
    counts = _counts(body)
    bodies = (_told(counts[::-1]), _told(counts[1:] + counts[:1]), _told(rng.sample(counts, 4)), body[::-1],
              bytes(body[k ^ 1] for k in range(COUNTS_BYTES)))
    return fields[:at] + [(TAG_COUNTS, fields[at][1], rng.choice(bodies))] + fields[at + 1:]


def other_counts_length(rng: Random, fields: List[Field]) -> List[Field]:
    """A body that is not of eight bytes, as its head tells or though its head tells eight; or a head that lies."""
    at = _at(fields)
    if at < 0:
        return fields
    body = fields[at][2]
    other = rng.choice((body[:7], body + bytes(1), b"", body[:6], body * 2, body[1:]))
    told = rng.choice(((len(other), other), (COUNTS_BYTES, other), (len(other), body), (COUNTS_BYTES << 8, body)))
    return fields[:at] + [(TAG_COUNTS, *told)] + fields[at + 1:]


def other_counts_place(rng: Random, fields: List[Field]) -> List[Field]:
    """The counts twice, under another tag, before the tree, further on, or at the end."""
    at = _at(fields)
    if at < 0:
        return fields
    one, rest = fields[at], fields[:at] + fields[at + 1:]
    to = rng.choice((0, 1, 3, len(rest) - 1, len(rest)))
    tag = rng.choice((0, 1, 2, 4, 16, 19, 255))
    return rng.choice((fields[:at] + [one] + fields[at:], rest[:to] + [one] + rest[to:], fields + [one],
                       fields[:at] + [(tag, *one[1:])] + fields[at + 1:]))


IN_COUNTS = (other_count, other_counts_order, other_counts_length, other_counts_place)

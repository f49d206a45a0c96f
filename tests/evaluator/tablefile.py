"""The table file of documents 01 and 02: the file of a table, and the judging of a file in byte order.

Since document 02's request Seven a file may have a field of counts after the tree, and a file that is written has it;
since Eight it may end with a note.
"""
from __future__ import annotations

from typing import List, NamedTuple, Optional, Sequence, Tuple, Union

import tree as quadtree
from surface import LEVELS, Surface, coefficient_limit, side_allowed

TAG_SIDES = 1
TAG_TREE = 2
TAG_COUNTS = 3
TAG_LEVEL_0 = 16
TAG_NOTE = 32
HEAD = 3
SIDES_BYTES = 2
COUNT_BYTES = 2
COUNTS_BYTES = 8
COEFFICIENT_BYTES = 5
# Document 02, Eight: 'a note of 0 to 64 bytes'.
GREATEST_NOTE = 64
# No file is longer: 5 bytes for the sides, 1,368 for the tree, 11 for the counts, four heads of 3, 5 for each of 6,196
# coefficients, and 67 for the note. Nor is one without a note, or without a note and counts.
GREATEST_FILE = 32_443
GREATEST_UNNOTED = 32_376
GREATEST_UNCOUNTED = 32_365

# Document 02, Eight: 'a note or none'. A note of no bytes is not none.
Note = Optional[Sequence[int]]


class Content(NamedTuple):
    """What a good file holds."""

    w: int
    h: int
    tree: List[int]
    coefficients: List[int]


class NotePart(NamedTuple):
    """Document 02, Eight: 'whether a note stands there', and 'the note as the part of the file it is'."""

    stands: bool
    offset: int
    length: int


# Document 02, Eight: 'it says none and the part is empty'.
NO_PART = NotePart(False, 0, 0)


# Document 01, The table file: 'a one-byte tag, a two-byte length (high byte first) and a body'.
def field(tag: int, body: Sequence[int], length: Optional[int] = None) -> bytes:
    told = len(body) if length is None else length
    return bytes([tag]) + told.to_bytes(2, "big") + bytes(body)


# Document 01, The table file: 'five bytes each, two's complement, high byte first'.
def coefficient_bytes(coefficient: int) -> bytes:
    return coefficient.to_bytes(COEFFICIENT_BYTES, "big", signed=True)


# Document 02, Seven: 'eight bytes, four two-byte active counts, high byte first, levels 0 to 3'.
def counts_body(surface: Surface) -> bytes:
    return b"".join(len(surface.active_functions(level)).to_bytes(COUNT_BYTES, "big") for level in LEVELS)


# The surface of a tree that is of the form of document 01.
def _surface(w: int, h: int, tree: Sequence[int]) -> Surface:
    surface = quadtree.surface_over(w, h, tuple(tree))
    if surface is None:
        raise quadtree.Damaged("the tree is not of the form of document 01")
    return surface


# Document 01, The table file: the six fields 'in this order, all present', of a table that need not be acceptable
# in its coefficients but has a tree of the given form. Document 02, Seven: 'a field of tag 3 after tag 2'; a file that
# lacks it is one of the old rule. Eight: a note, 'tag 32, last in the file, optional'.
def table_fields(
    w: int, h: int, tree: Sequence[int], coefficients: Sequence[int], counted: bool = True, note: Note = None
) -> List[Tuple[int, bytes]]:
    surface = _surface(w, h, tree)
    fields = [(TAG_SIDES, bytes([w, h])), (TAG_TREE, bytes(tree))]
    if counted:
        fields.append((TAG_COUNTS, counts_body(surface)))
    for level in LEVELS:
        places = [surface.place(level, i, j) for i, j in surface.active_functions(level)]
        fields.append((TAG_LEVEL_0 + level, b"".join(coefficient_bytes(coefficients[p]) for p in places)))
    return fields if note is None else fields + [(TAG_NOTE, bytes(note))]


# Document 01, The table file: the file of a table. Document 02, Seven: 'The writer always puts it', the counts; what
# the old rule wrote has none. Eight: 'The writer takes a note or none'.
def write_file(
    w: int, h: int, tree: Sequence[int], coefficients: Sequence[int], counted: bool = True, note: Note = None
) -> bytes:
    return b"".join(field(tag, body) for tag, body in table_fields(w, h, tree, coefficients, counted, note))


# Where tag 2's field ends, of a file that is good so far.
def tree_end(file: bytes) -> int:
    at = HEAD + SIDES_BYTES
    return at + HEAD + int.from_bytes(file[at + 1 : at + HEAD], "big")


# Whether a file that loads has the counts.
def is_counted(file: bytes) -> bool:
    return file[tree_end(file)] == TAG_COUNTS


# A file that loads and lacks the counts, with them added after tag 2.
def with_counts(file: bytes) -> bytes:
    end = tree_end(file)
    w, h = file[HEAD : HEAD + SIDES_BYTES]
    surface = _surface(w, h, file[HEAD + SIDES_BYTES + HEAD : end])
    return file[:end] + field(TAG_COUNTS, counts_body(surface)) + file[end:]


# A file that loads and has the counts, without that field.
def without_counts(file: bytes) -> bytes:
    end = tree_end(file)
    return file[:end] + file[end + HEAD + COUNTS_BYTES :]


# Where tag 19's field ends, of a file that is good so far: by its heads, from field to field.
def levels_end(file: bytes) -> int:
    at, tag = 0, 0
    while tag != TAG_LEVEL_0 + LEVELS[-1]:
        tag = file[at]
        at += HEAD + int.from_bytes(file[at + 1 : at + HEAD], "big")
    return at


# A file that loads, without its note.
def without_note(file: bytes) -> bytes:
    return file[: levels_end(file)]


# The note of a file that loads, or none.
def note_of(file: bytes) -> Optional[bytes]:
    end = levels_end(file)
    return None if end == len(file) else file[end + HEAD :]


class Refused(Exception):
    """A refusal number on the way through a file."""

    def __init__(self, number: int) -> None:
        super().__init__(number)
        self.number = number


class Reader:
    """Document 01, Calls: 'judged in byte order: whole head, tag, length, whole body, contents'."""

    def __init__(self, file: bytes) -> None:
        self.file = file
        self.at = 0

    def head(self) -> bytes:
        head = self.file[self.at : self.at + HEAD]
        if len(head) < HEAD:
            raise Refused(12)
        return head

    def body(self, tag: int, least: int, greatest: int) -> bytes:
        head = self.head()
        if head[0] != tag:
            raise Refused(13)
        length = int.from_bytes(head[1:], "big")
        if not least <= length <= greatest:
            raise Refused(14)
        body = self.file[self.at + HEAD : self.at + HEAD + length]
        if len(body) < length:
            raise Refused(12)
        self.at += HEAD + length
        return body


# Document 01, The table file: the coefficients of one level's body, judged against the limit.
def level_coefficients(body: bytes, level: int) -> List[int]:
    numbers = [
        int.from_bytes(body[at : at + COEFFICIENT_BYTES], "big", signed=True)
        for at in range(0, len(body), COEFFICIENT_BYTES)
    ]
    if any(abs(number) > coefficient_limit(level) for number in numbers):
        raise Refused(4)
    return numbers


# Document 02, Eight: what may follow tag 19. 'After tag 19 a byte other than 32 is 15', however few bytes are left;
# with 32 it is a field like the others, of '0 to 64 bytes'.
def _note_part(reader: Reader) -> NotePart:
    if reader.file[reader.at : reader.at + 1] != bytes([TAG_NOTE]):
        return NO_PART
    offset = reader.at + HEAD
    return NotePart(True, offset, len(reader.body(TAG_NOTE, 0, GREATEST_NOTE)))


def _content(file: bytes) -> Tuple[Content, NotePart]:
    reader = Reader(file)
    w, h = reader.body(TAG_SIDES, SIDES_BYTES, SIDES_BYTES)
    if not (side_allowed(w) and side_allowed(h)):
        raise Refused(1)
    # 'Tag 2's length is 1 to 1,365.'
    tree = list(reader.body(TAG_TREE, 1, quadtree.GREATEST_TREE))
    surface = quadtree.surface_over(w, h, tuple(tree))
    if surface is None:
        raise Refused(2)
    # Document 02, Seven: 'Files lacking it are still loaded.' So the tag of the next head is 3 or 16, else 13; 20, 'a
    # count differs from the tree's, with the contents of tag 3', and tag 16 is due after it.
    if reader.head()[0] == TAG_COUNTS:
        if reader.body(TAG_COUNTS, COUNTS_BYTES, COUNTS_BYTES) != counts_body(surface):
            raise Refused(20)
    coefficients = [0] * surface.total
    for level in LEVELS:
        functions = surface.active_functions(level)
        length = COEFFICIENT_BYTES * len(functions)
        numbers = level_coefficients(reader.body(TAG_LEVEL_0 + level, length, length), level)
        for (i, j), number in zip(functions, numbers):
            coefficients[surface.place(level, i, j)] = number
    note = _note_part(reader)
    # 'bytes after the last field'; Document 02, Eight: 'and so is any byte past the note'.
    if reader.at != len(file):
        raise Refused(15)
    return Content(w, h, tree, coefficients), note


# A file judged as far as 15: its content and the part of it that its note is, or the refusal number.
def judge_noted(file: Sequence[int]) -> Union[Tuple[Content, NotePart], int]:
    try:
        return _content(bytes(file))
    except Refused as refused:
        return refused.number


# Document 01, Calls: a file judged as far as 15: its content, or the refusal number. The note is passed over.
def judge(file: Sequence[int]) -> Union[Content, int]:
    judged = judge_noted(file)
    return judged if isinstance(judged, int) else judged[0]

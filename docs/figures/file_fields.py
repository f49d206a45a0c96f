"""The fields of a table file, drawn from a sample table."""
from __future__ import annotations

from pathlib import Path
from typing import List, Tuple

import calls
import tablefile
from drawing import FAINT, LEVEL_FILLS, MARK, Picture
from surface import LEVELS

ROOT = Path(__file__).resolve().parents[2]
TABLE = "bench-s-level-1-noted"
SIDE, LEFT, TOP, ROW = 34, 64, 92, 66
BODY = LEFT + 3 * SIDE + 30
SHOWN = 15


def told(tag: int, body: bytes, numbers: List[int]) -> str:
    """What stands in a field, in words."""
    if tag == tablefile.TAG_SIDES:
        return "the sides W and H of the sheet, 1 to 8"
    if tag == tablefile.TAG_TREE:
        return "the tree: 0 to 3 a leaf of that level, 4 a split before its four children"
    if tag == tablefile.TAG_COUNTS:
        return (f"counts of active functions, two bytes for each level: {', '.join(map(str, numbers))}; "
                "a file that is read may lack them")
    if tag == tablefile.TAG_NOTE:
        return (f'a note of 0 to 64 bytes, here "{body.decode()}"; optional, and controllers pass over it; '
                "another tag here is 15")
    level = tag - tablefile.TAG_LEVEL_0
    words = f"active coefficients of level {level}, five bytes each"
    if not body:
        return words + ": none here"
    first = ", ".join(f"{number:,}" for number in numbers[:3])
    return f"{words}: {first} and {len(numbers) - 3} more, in units of 1/{64**level} watt"


def numbers_of(content: tablefile.Content, tag: int, body: bytes) -> Tuple[List[int], int]:
    """The numbers in a field's body, and how many bytes each one takes: counts or coefficients, else none."""
    if tag == tablefile.TAG_COUNTS:
        size = tablefile.COUNT_BYTES
        return [int.from_bytes(body[at:at + size], "big") for at in range(0, len(body), size)], size
    surface = calls.surface_of(content.w, content.h, content.tree)
    return [content.coefficients[surface.place(level, i, j)] for level in LEVELS
            if level == tag - tablefile.TAG_LEVEL_0
            for i, j in surface.active_functions(level)], tablefile.COEFFICIENT_BYTES


def file_fields() -> str:
    file = (ROOT / "tables" / f"{TABLE}.table").read_bytes()
    content = tablefile.judge(file)
    fields = tablefile.table_fields(*content, note=tablefile.note_of(file))
    picture = Picture(BODY + 21 * SIDE, TOP + ROW * len(fields))
    heads: List[Tuple[float, str, str]] = [
        (LEFT + SIDE / 2, "tag", "else 13"),
        (LEFT + 2 * SIDE + 8, "length", "else 14"),
    ]
    for x, word, refusal in heads:
        picture.text(x, 40, word, bold=True)
        picture.text(x, 60, refusal, 12, colour=MARK)
    picture.text(BODY, 40, "body", bold=True, at="start")
    picture.text(BODY, 60, "cut short 12; contents 1 (sides), 2 (tree), 20 (counts) or 4 (a coefficient past its "
                 "limit); bytes after the last field 15", 12, "start", MARK)
    picture.text(LEFT - 12, 40, "from", at="end", colour=FAINT)
    picture.text(LEFT - 12, 60, "byte", at="end", colour=FAINT)
    at = 0
    for row, (tag, body) in enumerate(fields):
        y = TOP + row * ROW
        numbers, size = numbers_of(content, tag, body)
        # Dashed: a file may lack it.
        lacking = tag in (tablefile.TAG_COUNTS, tablefile.TAG_NOTE)
        picture.text(LEFT - 12, y + 22, str(at), at="end", colour=FAINT)
        for k, byte in enumerate(tablefile.field(tag, body)[:3]):
            x = LEFT + k * SIDE + (8 if k else 0)
            picture.box(x, y, SIDE, SIDE, LEVEL_FILLS[2] if k == 0 else LEVEL_FILLS[1], dashed=lacking)
            picture.text(x + SIDE / 2, y + 22, str(byte), 13)
        for k, byte in enumerate(body[:SHOWN]):
            x = BODY + k * SIDE
            picture.box(x, y, SIDE, SIDE, dashed=lacking)
            picture.text(x + SIDE / 2, y + 22, str(byte), 13)
        if len(body) > SHOWN:
            picture.text(BODY + SHOWN * SIDE + 12, y + 22, "…", at="start")
        for k in range(0, min(len(body), SHOWN) if numbers else 0, size):
            picture.box(BODY + k * SIDE, y, size * SIDE, SIDE, width=2.4, dashed=lacking)
        picture.text(BODY, y + (SIDE + 17 if body else 22), told(tag, body, numbers), 12, "start")
        at += tablefile.HEAD + len(body)
    return picture.svg()

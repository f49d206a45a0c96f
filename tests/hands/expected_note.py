"""Prints what examples/note.c must print for a table file, found by the unrelated evaluator, and writes to a second
name what it must save, or nothing where it is refused. A third argument is a note in place of the file's own.

Run as: python3 tests/hands/expected_note.py FILE SAVED [NOTE]
"""
from __future__ import annotations

import os
import sys
from pathlib import Path
from typing import List, Optional, Tuple

from expected import POINT, refined, shown

import calls
import tablefile

# No file is longer.
ROOM = 32_443


def note_line(note: Optional[bytes]) -> str:
    """A note in signs of ASCII, all other bytes and the backslash by their number."""
    if note is None:
        return "note: none"
    signs = (chr(byte) if 32 <= byte <= 126 and byte != 92 else f"\\x{byte:02x}" for byte in note)
    return f"note: '{''.join(signs)}', {len(note)} bytes"


def written(content: tablefile.Content, note: Optional[bytes]) -> Tuple[Optional[int], bytes]:
    """The number that saving is refused with, or none and the file."""
    out = calls.write_file(*content, [0] * ROOM, note=note)
    if out.answer[0] == "refused":
        return out.answer[1], b""
    return None, bytes(out.lent["file_out"][: out.answer[1]])


def expected(file: bytes, named: Optional[bytes]) -> Tuple[List[str], bytes]:
    """The lines of the example, and the file that it saves, empty for none."""
    judged = tablefile.judge_noted(file)
    if isinstance(judged, int):
        return [f"refused {judged}"], b""
    content, part = judged
    note = file[part.offset : part.offset + part.length] if part.stands else None
    lines = [note_line(note)]
    cause = calls.judge_reading(*content, *POINT)
    if cause is not None:
        return lines + [f"refused {cause}"], b""
    lines.append(shown("loaded", *content))
    finer = refined(content)
    if isinstance(finer, int):
        return lines + [f"refused {finer}"], b""
    kept = note if named is None else named
    cause, saved = written(finer, kept)
    if cause is not None:
        return lines + [f"refused {cause}"], b""
    # The table of the saved file is the finer one, which has no other figures; a controller knows of no note.
    lines += [f"saved: {len(saved)} bytes", note_line(kept), shown("controller", *finer)]
    return lines + [f"saved by the controller: {len(written(finer, None)[1])} bytes", note_line(None)], saved


def main(name: str, to: str, named: Optional[str] = None) -> None:
    lines, saved = expected(Path(name).read_bytes(), None if named is None else os.fsencode(named))
    if saved:
        Path(to).write_bytes(saved)
    print("\n".join(lines))


if __name__ == "__main__":
    main(*sys.argv[1:])

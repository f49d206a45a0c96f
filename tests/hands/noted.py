"""Writes copies of a table file that end in a note: notes of no bytes, of a few and of as many as there may be, and
fields that are malformed. The bytes are put together here; what a copy gives is the evaluator's to say.

Run as: python3 tests/hands/noted.py FILE FOLDER
"""
from __future__ import annotations

import sys
from pathlib import Path
from typing import Dict

from counted import without_counts

TAG = 32
WORDS = b"Kiln 7, new elements"
# Quotes, a backslash, controls, tags, an end of line and bytes beyond ASCII, each of them a byte like another.
ODD = bytes([39, 34, 92, 37, 0, 10, 13, 27, 32, 126, 127, 128, 195, 188, 255, 19])
LONGEST = ODD * 4


def noted(file: bytes, note: bytes) -> bytes:
    """A file without a note, with one: 'tag 32, last in the file'."""
    return file + bytes([TAG]) + len(note).to_bytes(2, "big") + note


def copies(file: bytes) -> Dict[str, bytes]:
    """Copies of a good file without a note, by what follows its last level."""
    words = noted(file, WORDS)
    return {
        "note-of-words": words,
        "note-empty": noted(file, b""),
        "note-longest": noted(file, LONGEST),
        "note-without-counts": noted(without_counts(file), WORDS),
        "note-like-fields": noted(file, bytes([19, 0, 0, TAG, 0, 1, 7])),
        # 14, also where the body is cut short.
        "note-too-long": noted(file, LONGEST + b"x"),
        "note-too-long-and-cut": file + bytes([TAG, 0, 65]),
        # 12: the tag alone, half of the length, and a body that lacks a byte.
        "note-tag-alone": file + bytes([TAG]),
        "note-head-cut": file + bytes([TAG, 0]),
        "note-cut": words[:-1],
        # 15: a byte past the note, a second note, and another tag, however little follows.
        "note-and-a-byte": words + b"\0",
        "note-twice": noted(words, b""),
        "tag-of-no-note": file + bytes([TAG + 1]),
        "field-of-another-tag": file + bytes([TAG - 1, 0, 0]),
    }


def main(name: str, folder: str) -> None:
    for copy, file in copies(Path(name).read_bytes()).items():
        (Path(folder) / f"{copy}.table").write_bytes(file)


if __name__ == "__main__":
    main(*sys.argv[1:])

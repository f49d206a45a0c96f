"""Writes two copies of a table file: one without the counts of tag 3, as versions before 0.3.0 wrote it, and one whose
count of level 3 is one more than its tree's, found by the unrelated evaluator.

Run as: python3 tests/hands/counted.py FILE WITHOUT MISCOUNTED
"""
from __future__ import annotations

import sys
from pathlib import Path
from typing import List, Sequence

sys.dont_write_bytecode = True
ROOT = Path(__file__).resolve().parents[2]
sys.path.insert(0, str(ROOT / "tests/evaluator"))

import calls
import tablefile
from surface import LEVELS

# The head and the body of tag 3: 'eight bytes, four two-byte active counts, high byte first, levels 0 to 3'.
HEAD = bytes([3, 0, 8])
FIELD = len(HEAD) + 8


def after_tree(file: bytes) -> int:
    """Where the field after the tree's starts: sides, the tree's head, and as many bytes as that says."""
    return 8 + int.from_bytes(file[6:8], "big")


def without_counts(file: bytes) -> bytes:
    """A good file less its counts, if it has them."""
    at = after_tree(file)
    return file[:at] + file[at + FIELD :] if file[at] == HEAD[0] else file


def with_counts(file: bytes, counts: Sequence[int]) -> bytes:
    """A good file with these counts in place of its own or of none."""
    at, bare = after_tree(file), without_counts(file)
    return bare[:at] + HEAD + b"".join(count.to_bytes(2, "big") for count in counts) + bare[at:]


def active_counts(content: tablefile.Content) -> List[int]:
    """How many functions of levels 0 to 3 are active over a table's tree."""
    surface = calls.surface_of(content.w, content.h, content.tree)
    return [len(surface.active_functions(level)) for level in LEVELS]


def main(name: str, without: str, miscounted: str) -> None:
    file = Path(name).read_bytes()
    content = tablefile.judge(file)
    if isinstance(content, int):
        sys.exit(f"counted: {name} is refused with {content}")
    *coarse, fine = active_counts(content)
    Path(without).write_bytes(without_counts(file))
    Path(miscounted).write_bytes(with_counts(file, [*coarse, fine + 1]))


if __name__ == "__main__":
    main(*sys.argv[1:])

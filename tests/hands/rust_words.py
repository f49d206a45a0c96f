"""Prints what tests/hands/words.c must print: the version and the refusal words of the Rust crate, from its sources.

Run as: python3 tests/hands/rust_words.py
"""
from __future__ import annotations

import re
from pathlib import Path
from typing import Dict

CRATE = Path(__file__).resolve().parents[2] / "rust"
# One refusal in the crate's list: its number, its name and its words.
REFUSAL = re.compile(r'^\s*(\d+)\s+\w+\s+"([^"\\]+)"\s*$', re.M)
# The numbers of documents 01 and 02 that calls give so far.
NUMBERS = [*range(1, 22)]
# Its words for a number that is not in the list, where it has any. C's are the same less 'of the crate'.
OTHER = re.compile(r'\bUnknown\b[^\n]*=> "([^"\\]+)"')
NO_WORDS = "a cause that this version of the crate has no words for"


def version() -> str:
    package = (CRATE / "Cargo.toml").read_text(encoding="utf-8").split("[package]")[1].split("\n[")[0]
    found = re.findall(r'^version = "([0-9]+\.[0-9]+\.[0-9]+)"$', package, re.M)
    if len(found) != 1:
        raise ValueError("the Rust crate has no version of three numbers")
    return found[0]


def refusal_words() -> Dict[int, str]:
    """The words of every number that a byte holds."""
    source = (CRATE / "src/refusal.rs").read_text(encoding="utf-8")
    found = [(int(number), words) for number, words in REFUSAL.findall(source)]
    if [number for number, _ in found] != NUMBERS:
        raise ValueError("the Rust crate's refusals are not numbered as the documents number them")
    other = (OTHER.findall(source) or [NO_WORDS])[0].replace(" of the crate", "")
    return {**{number: other for number in range(256)}, 0: "no refusal", **dict(found)}


if __name__ == "__main__":
    print("version", version())
    for number, words in sorted(refusal_words().items()):
        print(number, words)

"""Lines of code, definitions and proofs of each crate, and its must-fail edits, as a table in markdown.

Run as: python3 tests/figures/count_lines.py [REVISION]; with a revision, what moved since has both numbers (12 → 15).
All lines count, comments and empty ones too.
"""
from __future__ import annotations

import re
import subprocess
import sys
import tarfile
from collections import Counter
from io import BytesIO
from pathlib import Path
from typing import Dict, Iterator, List, Tuple

ROOT = Path(__file__).resolve().parents[2]
COLUMNS = ("code", "definitions", "proofs", "must-fail edits")
# A file's crate, and the column that its lines count in; an edit counts as one.
COUNTED = re.compile(r"crates/(\w+)/(?:(?P<code>src/.*\.rt)|(?P<definitions>specs/.*\.antt)"
                     r"|(?P<proofs>proofs/.*\.antt)|(?P<edit>must-fail/[^/]*\.edit))")

Lines = Dict[str, Counter]


def present() -> Iterator[Tuple[str, bytes]]:
    """Path and contents of the files as they stand."""
    for file in (ROOT / "crates").rglob("*"):
        if file.is_file():
            yield str(file.relative_to(ROOT)), file.read_bytes()


def at_revision(revision: str) -> Iterator[Tuple[str, bytes]]:
    """Path and contents of the files of a revision."""
    packed = subprocess.run(["git", "archive", revision, "crates"], cwd=ROOT, check=True, capture_output=True).stdout
    with tarfile.open(fileobj=BytesIO(packed)) as files:
        for file in files:
            if file.isfile():
                yield file.name, files.extractfile(file).read()


def lines_of(files: Iterator[Tuple[str, bytes]]) -> Lines:
    """By crate, the lines of each column."""
    lines: Lines = {}
    for path, contents in files:
        found = COUNTED.fullmatch(path)
        if found:
            of, kind = lines.setdefault(found.group(1), Counter()), found.lastgroup
            of["must-fail edits" if kind == "edit" else kind] += 1 if kind == "edit" else contents.count(b"\n")
    return lines


def crates() -> List[str]:
    """The crates' names, lowest first."""
    return re.findall(r"^(\w+)(?: staticlib)?:", (ROOT / "crates.txt").read_text(encoding="utf-8"), re.M)


def row(name: str, before: Counter, now: Counter) -> str:
    cells = [f"{now[of]:,}" if before[of] == now[of] else f"{before[of]:,} → {now[of]:,}" for of in COLUMNS]
    return f"| {name} | {' | '.join(cells)} |"


def main() -> int:
    if len(sys.argv) > 2:
        print(__doc__, file=sys.stderr)
        return 2
    now = lines_of(present())
    before = lines_of(at_revision(sys.argv[1])) if len(sys.argv) == 2 else now
    # A crate that is gone comes after those that are listed.
    names = crates() + [name for name in before if name not in now]
    print(f"| crate | {' | '.join(COLUMNS)} |")
    print("|---" * (len(COLUMNS) + 1) + "|")
    for name in names:
        print(row(name, before.get(name, Counter()), now.get(name, Counter())))
    print(row("all", sum(before.values(), Counter()), sum(now.values(), Counter())))
    return 0


if __name__ == "__main__":
    sys.exit(main())

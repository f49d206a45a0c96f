"""Checks docs/MAP*.md: every statement and file that they name exists, no entry lacks a line, and the misreadings list
every must-fail edit once.

Run as: python3 tests/map/check_map.py
"""
from __future__ import annotations

import re
import sys
from pathlib import Path
from typing import Dict, List

ROOT = Path(__file__).resolve().parents[2]
# A path in the text, but for the gate itself; and a file that may be named, with what it declares.
PATH = re.compile(r"`(?!\.ci/)([^`\s]*/[^`\s]*)`")
ENTRY = re.compile(r"`((?:crates|tests|docs|include)/[^`#\s]+)(?:#([^`\s]+))?`")
# The lines that each entry of a part has; a part's title is that of its file, else that of its section.
LINES = {
    "The demands": ("definition", "theorem", "test", "must-fail"),
    "Calls": ("definition", "promise", "theorem", "test", "must-fail"),
    "Refusal numbers": ("definition", "promise", "theorem", "test", "must-fail"),
    "Words of document 01": ("definition", "theorem"),
    "Words of document 02": ("definition", "theorem", "test", "must-fail"),
    "Misreadings and wrong programs": ("must-fail", "refused by"),
    "Wrong programs of document 02's requests": ("must-fail", "refused by"),
    "Wrong programs of the full-grid dialect": ("must-fail", "refused by"),
    "Wrong programs of the window over a firing": ("must-fail", "refused by"),
}
REFUSALS = range(1, 22)


def declares(text: str, name: str, kind: str) -> bool:
    """A declaration of the name: a signature, data or record in antt, a function in Rattle or Python."""
    word = re.escape(name)
    if kind == ".antt":
        return bool(re.search(rf"^\s*(?:(?:unfoldable|abbrev|pub) )*{word}(?: \{{[^}}]*\}})? :", text, re.M)
                    or re.search(rf"^\s*(?:pub )?(?:data|record) {word}\b", text, re.M))
    return bool(re.search(rf"\b{'def' if kind == '.py' else 'fn'} {word}\b", text))


def missing(text: str) -> List[str]:
    """Names in the map that nothing declares."""
    faults = [f"{word}: no name of a file that the map may have" for word in PATH.findall(text)
              if not ENTRY.fullmatch(f"`{word}`")]
    for path, name in ENTRY.findall(text):
        file = ROOT / path
        if not file.is_file():
            faults.append(f"{path}: no such file")
        elif name and not declares(file.read_text(encoding="utf-8"), name, file.suffix):
            faults.append(f"{path}: declares no {name}")
    return faults


def unlisted(misreadings: str) -> List[str]:
    """Must-fail edits that the list of misreadings does not name once."""
    named = [path for path, _ in ENTRY.findall(misreadings)]
    edits = sorted(str(p.relative_to(ROOT)) for p in ROOT.glob("crates/*/must-fail/*.edit"))
    return [f"{edit}: {named.count(edit)} times among the misreadings" for edit in edits if named.count(edit) != 1]


def entries_of(text: str) -> Dict[str, Dict[str, Dict[str, str]]]:
    """For each part the lines of each entry, by the entry's first line and the line's first word."""
    parts: Dict[str, Dict[str, Dict[str, str]]] = {}
    part: Dict[str, Dict[str, str]] = {}
    lines: Dict[str, str] = {}
    file = word = ""
    for line in text.splitlines():
        if line.startswith("#"):
            title = line.lstrip("# ")
            file = title if line.startswith("# ") else file
            part = parts.setdefault(file if file in LINES else title, {})
        elif line.startswith("- "):
            lines = part.setdefault(line[2:], {})
        elif line.startswith("  - "):
            word, lines[word] = line[4:].split(":")[0], line
        elif line.startswith("    "):
            lines[word] += line
    return parts


def incomplete(text: str) -> List[str]:
    """Entries that lack a line or a name in it, refusal numbers and functions for C that are not in the map."""
    parts = entries_of(text)
    faults = [f"{part}: {entry}: no name as its {line}" for part, due in LINES.items()
              for entry, lines in parts[part].items() for line in due if not ENTRY.search(lines.get(line, ""))]
    told = {int(entry.split(":")[0]) for entry in parts["Refusal numbers"]}
    faults += [f"refusal {number}: not in the map" for number in REFUSALS if number not in told]
    linked = "".join(one.read_text(encoding="utf-8") for one in sorted((ROOT / "crates/kiln/src").glob("*.rt")))
    promised = "".join(lines["promise"] for lines in parts["Calls"].values())
    return faults + [f"{name}: not among the calls" for name in re.findall(r"\bfn (kiln_\w+)", linked)
                     if f"#{name}`" not in promised]


def pages(names: str) -> str:
    """The pages of the map with such names, one after the other."""
    return "".join(one.read_text(encoding="utf-8") for one in sorted((ROOT / "docs").glob(names)))


def main() -> int:
    text = pages("MAP*.md")
    misreadings = pages("MAP-MISREADINGS*.md")
    faults = missing(text) + unlisted(misreadings) + incomplete(text)
    for fault in faults:
        print(fault)
    count = len(ENTRY.findall(text))
    print(f"map: {count} names, {len(faults)} faults")
    return 1 if faults or not count else 0


if __name__ == "__main__":
    sys.exit(main())

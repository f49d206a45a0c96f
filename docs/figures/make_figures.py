"""Makes the pictures of the pages, or with --check only says which of them are not as they would be made.

Run as: python3 docs/figures/make_figures.py [--check]
"""
from __future__ import annotations

import sys
from pathlib import Path

sys.dont_write_bytecode = True
HERE = Path(__file__).resolve().parent
sys.path.insert(0, str(HERE.parents[1] / "tests/evaluator"))

from crate_graph import crate_graph
from file_fields import file_fields
from patch_step import patch_step
from refined_sheet import refined_sheet

FIGURES = {
    "crates.svg": crate_graph,
    "file-fields.svg": file_fields,
    "patch-step.svg": patch_step,
    "refined-sheet.svg": refined_sheet,
}


def main() -> int:
    if sys.argv[1:] not in ([], ["--check"]):
        print(__doc__.strip().splitlines()[-1])
        return 2
    stale = sorted(one.name for one in HERE.glob("*.svg") if one.name not in FIGURES)
    for name, figure in FIGURES.items():
        file, made = HERE / name, figure()
        if not sys.argv[1:]:
            file.write_text(made, encoding="utf-8")
        elif not file.is_file() or file.read_text(encoding="utf-8") != made:
            stale.append(name)
    for name in stale:
        print(f"docs/figures/{name} is not what make_figures.py makes")
    print(f"figures: {len(FIGURES)} pictures, {len(stale)} faults")
    return 1 if stale else 0


if __name__ == "__main__":
    sys.exit(main())

"""Prints what examples/read_and_refine.c must print for a table file, found by the unrelated evaluator; with a second
name what examples/save.c must print, and writes there what it must save, or nothing where it is refused.

Run as: python3 tests/hands/expected.py FILE [SAVED]
"""
from __future__ import annotations

import sys
from fractions import Fraction
from pathlib import Path
from typing import List, Sequence, Tuple, Union

sys.dont_write_bytecode = True
ROOT = Path(__file__).resolve().parents[2]
sys.path.insert(0, str(ROOT / "tests/evaluator"))

import calls
import tablefile
import tree as quadtree
from counted import active_counts

POINT, TARIFF = (900, 200), 2_950
BOX, LEVEL = (28, 4, 32, 8), 3


def six_places(watts: Fraction) -> str:
    """The watts with six digits after the point, which must be the same for every f64 within the bound."""
    low, high = (calls.round_half_up((watts + off) * 10**6) for off in (-calls.FLOAT_BOUND, calls.FLOAT_BOUND))
    if low != high:
        raise ValueError("an f64 within the bound may round either way here")
    return "%s%d.%06d" % ("-" if low < 0 else "", abs(low) // 10**6, abs(low) % 10**6)


def shown(when: str, w: int, h: int, tree: Sequence[int], coefficients: Sequence[int]) -> str:
    watts = Fraction(calls.exact(w, h, tree, coefficients, *POINT).answer[1], calls.D)
    cost = calls.cost(w, h, tree, coefficients, *POINT, TARIFF).answer[1]
    return f"{when}: {six_places(watts)} watts, {cost} hundredths of a cent an hour"


def loaded(file: bytes) -> Union[tablefile.Content, int]:
    """What a file holds, or the number where it or its reading is refused."""
    content = tablefile.judge(file)
    if isinstance(content, int):
        return content
    cause = calls.judge_reading(*content, *POINT)
    return content if cause is None else cause


def refined(content: tablefile.Content) -> Union[tablefile.Content, int]:
    """The table after the insertion, or the number where that is refused."""
    w, h, _, coefficients = content
    inserted = calls.insert(*content, BOX, LEVEL, [0] * quadtree.GREATEST_TREE, [0] * len(coefficients))
    if inserted.answer[0] == "refused":
        return inserted.answer[1]
    tree = inserted.lent["tree_out"][: inserted.answer[1]]
    return tablefile.Content(w, h, tree, inserted.lent["coefficients_out"])


def lines(file: bytes) -> List[str]:
    content = loaded(file)
    if isinstance(content, int):
        return [f"refused {content}"]
    before, finer = shown("before", *content), refined(content)
    return [before, f"refused {finer}" if isinstance(finer, int) else shown("after", *finer)]


def saved(file: bytes) -> Tuple[List[str], bytes]:
    """The lines of examples/save.c, and the file that it saves, empty for none."""
    content = loaded(file)
    if isinstance(content, int):
        return [f"refused {content}"], b""
    before, finer = shown("loaded", *content), refined(content)
    if isinstance(finer, int):
        return [before, f"refused {finer}"], b""
    out = calls.write_file(*finer, [0] * 32_443)
    length = out.answer[1]
    active = ", ".join(f"{count} of level {level}" for level, count in enumerate(active_counts(finer)))
    told = [before, f"saved: {length} bytes", f"active: {active}", shown("loaded again", *finer)]
    return told, bytes(out.lent["file_out"][:length])


def main(name: str, to: str = "") -> None:
    told, file = saved(Path(name).read_bytes()) if to else (lines(Path(name).read_bytes()), b"")
    if file:
        Path(to).write_bytes(file)
    print("\n".join(told))


if __name__ == "__main__":
    main(*sys.argv[1:])

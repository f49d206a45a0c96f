"""Every call of documents 01 and 02, as a pure function of what the caller lends.

A call returns an Outcome: the answer, ('ok', ...) or ('refused', number), and the contents of every lent buffer
after the call, by name. Buffers that were lent are never changed in place. A box is (u0, v0, u1, v1) in quarters.
"""
from __future__ import annotations

from fractions import Fraction
from math import floor, isfinite
from typing import Any, Dict, List, NamedTuple, Optional, Sequence, Tuple

import tablefile
import tree as quadtree
from derivatives import slopes_over
from surface import D, LEVELS, QUARTERS_PER_CELL, STEPS_PER_CELL, Box, Surface, carry, coefficient_limit, place_count
from surface import side_allowed, total_places
from tablefile import GREATEST_NOTE, NO_PART, Note, NotePart

GREATEST_TARIFF = 99_999
FLOAT_BOUND = Fraction(1, 2**30)
SLOPE_BOUND = Fraction(1, 2**20)

Answer = Tuple[Any, ...]


class Outcome(NamedTuple):
    """The answer of a call, and every lent buffer after it."""

    answer: Answer
    lent: Dict[str, List[int]]


class Benched(NamedTuple):
    """What the bench loader gives: the controller's answer and buffers, and the note as a part of the file."""

    loaded: Outcome
    note: NotePart

    def linked(self) -> Answer:
        """The answer of the linked call, which gives all of it in one and says nothing of a note where it refuses."""
        answer = self.loaded.answer
        return answer if answer[0] == "refused" else (*answer, int(self.note.stands), *self.note[1:])


def refused(number: int) -> Answer:
    return ("refused", number)


def _after(answer: Answer, **lent: Sequence[int]) -> Outcome:
    return Outcome(answer, {name: list(buffer) for name, buffer in lent.items()})


# Document 01, Calls: 'a side of 0 or above 8' is refusal 1.
def _sides_refused(w: int, h: int) -> bool:
    return not (side_allowed(w) and side_allowed(h))


# The surface of a sheet and a tree that refusals 1 and 2 do not apply to.
def surface_of(w: int, h: int, tree: Sequence[int]) -> Surface:
    surface = quadtree.surface_over(w, h, tuple(tree))
    if surface is None:
        raise quadtree.Damaged("the tree is not of the form of document 01")
    return surface


# Document 01, Calls: refusals 1 and 2, in that order; None when neither applies.
def judge_regions(w: int, h: int, tree: Sequence[int]) -> Optional[int]:
    if _sides_refused(w, h):
        return 1
    if quadtree.surface_over(w, h, tuple(tree)) is None:
        return 2
    return None


# Document 01, Calls: 'it is acceptable when none of 1 to 5 applies to it'; the lowest of them that applies.
def judge_table(w: int, h: int, tree: Sequence[int], coefficients: Sequence[int]) -> Optional[int]:
    number = judge_regions(w, h, tree)
    if number is not None:
        return number
    if len(coefficients) != total_places(w, h):
        return 3
    limits = surface_of(w, h, tree).limits()
    if any(limit is not None and abs(c) > limit for c, limit in zip(coefficients, limits)):
        return 4
    if any(limit is None and c != 0 for c, limit in zip(coefficients, limits)):
        return 5
    return None


# Document 01, The sheet and its grids: a point is '0 to 128 x W and 0 to 128 x H, far edges included'.
def _point_refused(w: int, h: int, u: int, v: int) -> bool:
    return not (0 <= u <= STEPS_PER_CELL * w and 0 <= v <= STEPS_PER_CELL * h)


# Document 01, Calls: 'box with no area, or past the sheet' is refusal 7.
def _box_refused(w: int, h: int, box: Box) -> bool:
    u0, v0, u1, v1 = box
    return not (0 <= u0 < u1 <= QUARTERS_PER_CELL * w and 0 <= v0 < v1 <= QUARTERS_PER_CELL * h)


# A lent output after a tree or a file is written: 'tree output past the tree is untouched', 'bytes past the file are
# untouched'.
def _written(out: Sequence[int], content: Sequence[int]) -> List[int]:
    return list(content) + list(out[len(content) :])


# Document 01, Calls: 'numbers ... output not of the exact length' 16, 'tree output shorter than the tree' 17.
def _outputs_refused(w: int, h: int, tree: Sequence[int], tree_out: Sequence[int], numbers: int) -> Optional[int]:
    if numbers != total_places(w, h):
        return 16
    if len(tree_out) < len(tree):
        return 17
    return None


# Document 01, Calls: 'fresh table (tree the one byte 0, all level 0 coefficients one number)'; 1, 10, 16, 17.
# Answer ('ok', tree length); lent tree_out and coefficients_out.
def fresh(w: int, h: int, number: int, tree_out: Sequence[int], coefficients_out: Sequence[int]) -> Outcome:
    lent = {"tree_out": tree_out, "coefficients_out": coefficients_out}
    if _sides_refused(w, h):
        return _after(refused(1), **lent)
    if abs(number) > coefficient_limit(0):
        return _after(refused(10), **lent)
    cause = _outputs_refused(w, h, [0], tree_out, len(coefficients_out))
    if cause is not None:
        return _after(refused(cause), **lent)
    level_0 = place_count(w, h, 0)
    lent["tree_out"] = _written(tree_out, [0])
    lent["coefficients_out"] = [number] * level_0 + [0] * (total_places(w, h) - level_0)
    return _after(("ok", 1), **lent)


# Document 01, Calls: insertion's checks of what it reads, 1 to 5, 7 and 8, in that order.
def judge_insertion(
    w: int, h: int, tree: Sequence[int], coefficients: Sequence[int], box: Box, level: int
) -> Optional[int]:
    cause = judge_table(w, h, tree, coefficients)
    if cause is None and _box_refused(w, h, box):
        return 7
    if cause is None and level not in (1, 2, 3):
        return 8
    return cause


# Document 01, Calls: 'Insertion reads one table and writes another'; 1 to 5, 7, 8, 16, 17. Document 02, Five, splits
# it in two (enquiries.py), of which the commit 'inserts as before'.
# Answer ('ok', tree length); lent tree, coefficients, tree_out and coefficients_out.
def insert(
    w: int,
    h: int,
    tree: Sequence[int],
    coefficients: Sequence[int],
    box: Box,
    level: int,
    tree_out: Sequence[int],
    coefficients_out: Sequence[int],
) -> Outcome:
    lent = {"tree": tree, "coefficients": coefficients, "tree_out": tree_out, "coefficients_out": coefficients_out}
    cause = judge_insertion(w, h, tree, coefficients, box, level)
    if cause is not None:
        return _after(refused(cause), **lent)
    tree_after = quadtree.insert_box(tree, w, h, box, level)
    cause = _outputs_refused(w, h, tree_after, tree_out, len(coefficients_out))
    if cause is not None:
        return _after(refused(cause), **lent)
    lent["tree_out"] = _written(tree_out, tree_after)
    lent["coefficients_out"] = carry(surface_of(w, h, tree), surface_of(w, h, tree_after), coefficients)
    return _after(("ok", len(tree_after)), **lent)


# Document 01, Calls: 'set one active coefficient', 'set writes its one place'; 1 to 5, 8, 9, 10.
# Answer ('ok',); lent tree and coefficients.
def set_coefficient(
    w: int, h: int, tree: Sequence[int], coefficients: Sequence[int], level: int, i: int, j: int, number: int
) -> Outcome:
    lent = {"tree": tree, "coefficients": coefficients}
    cause = judge_table(w, h, tree, coefficients)
    if cause is not None:
        return _after(refused(cause), **lent)
    if level not in LEVELS:
        return _after(refused(8), **lent)
    surface = surface_of(w, h, tree)
    if not surface.has(level, i, j) or not surface.active(level, i, j):
        return _after(refused(9), **lent)
    if abs(number) > coefficient_limit(level):
        return _after(refused(10), **lent)
    place = surface.place(level, i, j)
    lent["coefficients"] = list(coefficients[:place]) + [number] + list(coefficients[place + 1 :])
    return _after(("ok",), **lent)


# Document 01, Calls: 'activity of a level (one byte per place, 0 or 1)'; 1, 2, 8, 16.
# Answer ('ok',); lent tree and activity_out.
def activity(w: int, h: int, tree: Sequence[int], level: int, activity_out: Sequence[int]) -> Outcome:
    lent = {"tree": tree, "activity_out": activity_out}
    cause = judge_regions(w, h, tree)
    if cause is not None:
        return _after(refused(cause), **lent)
    if level not in LEVELS:
        return _after(refused(8), **lent)
    if len(activity_out) != place_count(w, h, level):
        return _after(refused(16), **lent)
    surface = surface_of(w, h, tree)
    lent["activity_out"] = [int(surface.active(level, i, j)) for i, j in surface.functions(level)]
    return _after(("ok",), **lent)


# Document 01, Regions: 'The least level under a box comes with the number of tree nodes visited.'; 1, 2, 7.
# Document 02, Four: 'also gives the greatest level'. Answer ('ok', least, greatest, nodes visited); lent tree.
def least_level(w: int, h: int, tree: Sequence[int], box: Box) -> Outcome:
    cause = judge_regions(w, h, tree)
    if cause is not None:
        return _after(refused(cause), tree=tree)
    if _box_refused(w, h, box):
        return _after(refused(7), tree=tree)
    return _after(("ok", *quadtree.levels_under(tree, box)), tree=tree)


# Document 01, Calls: the refusals of all readings, 1 to 6.
def judge_reading(w: int, h: int, tree: Sequence[int], coefficients: Sequence[int], u: int, v: int) -> Optional[int]:
    cause = judge_table(w, h, tree, coefficients)
    if cause is None and _point_refused(w, h, u, v):
        return 6
    return cause


# Document 01, Readings: the exact watts at a point that no refusal applies to.
def watts_at(w: int, h: int, tree: Sequence[int], coefficients: Sequence[int], u: int, v: int) -> Fraction:
    return surface_of(w, h, tree).read(coefficients, u, v)


# Document 01, Readings: 'a signed i64 numerator over D = 36 x 2^42'.
def numerator_over_d(watts: Fraction) -> int:
    scaled = watts * D
    if scaled.denominator != 1:
        raise ArithmeticError("the reading is no whole number over D")
    return scaled.numerator


# Document 01, Readings, 'Exact'; 1 to 6. Answer ('ok', numerator over D); lent tree and coefficients.
def exact(w: int, h: int, tree: Sequence[int], coefficients: Sequence[int], u: int, v: int) -> Outcome:
    cause = judge_reading(w, h, tree, coefficients, u, v)
    if cause is not None:
        return _after(refused(cause), tree=tree, coefficients=coefficients)
    numerator = numerator_over_d(watts_at(w, h, tree, coefficients, u, v))
    return _after(("ok", numerator), tree=tree, coefficients=coefficients)


# The exact numerators at many points of one table; a table or point that is refused raises.
def exact_at(
    w: int, h: int, tree: Sequence[int], coefficients: Sequence[int], points: Sequence[Tuple[int, int]]
) -> List[int]:
    causes = [judge_table(w, h, tree, coefficients)] + [6 for u, v in points if _point_refused(w, h, u, v)]
    if causes != [None]:
        raise ValueError("refused %s" % [cause for cause in causes if cause is not None][0])
    return [numerator_over_d(watts_at(w, h, tree, coefficients, u, v)) for u, v in points]


# Whether an f64 lies within a bound of a fraction; an infinity or no number lies within nothing.
def _within(given: float, due: Fraction, bound: Fraction) -> bool:
    return isfinite(given) and abs(Fraction(given) - due) <= bound


# Demand 2: 'the f64 reading lies within 2^-30 watt of it'.
def within_bound(watts: float, numerator: int) -> bool:
    return _within(watts, Fraction(numerator, D), FLOAT_BOUND)


# Document 01, Readings, 'Float': whether ('ok', f64 watts) or ('refused', number) is an answer the promise allows.
def float_allowed(
    w: int, h: int, tree: Sequence[int], coefficients: Sequence[int], u: int, v: int, answer: Answer
) -> bool:
    expected = exact(w, h, tree, coefficients, u, v).answer
    if expected[0] == "refused" or answer[0] == "refused":
        return tuple(answer) == expected
    return within_bound(answer[1], expected[1])


# Document 02, Two: 'One record holds the watts and both slopes', 'Checks are those of a float reading'; 1 to 6. Answer
# ('ok', watts, slope along u, slope along v), each the fraction that its f64 lies near; lent tree and coefficients.
def slopes(w: int, h: int, tree: Sequence[int], coefficients: Sequence[int], u: int, v: int) -> Outcome:
    cause = judge_reading(w, h, tree, coefficients, u, v)
    if cause is not None:
        return _after(refused(cause), tree=tree, coefficients=coefficients)
    both = (derivative.read(coefficients, u, v) for derivative in slopes_over(w, h, tuple(tree)))
    return _after(("ok", watts_at(w, h, tree, coefficients, u, v), *both), tree=tree, coefficients=coefficients)


# Document 02, Two: 'Each lies within 2^-20 of the exact derivative', 'Watts keep the bound of 2^-30'; whether ('ok',
# three f64) or ('refused', number) is an answer that the promise allows where the other is due.
def slopes_allowed(due: Answer, answer: Answer) -> bool:
    if due[0] == "refused" or answer[0] == "refused":
        return tuple(answer) == tuple(due)
    bounds = (FLOAT_BOUND, SLOPE_BOUND, SLOPE_BOUND)
    return len(answer) == len(due) and all(map(_within, answer[1:], due[1:], bounds))


# Document 01, Readings: 'rounded to the nearest whole number, halves upward, also below zero'.
def round_half_up(amount: Fraction) -> int:
    return floor(amount + Fraction(1, 2))


# Document 01, Readings, 'Display'; 1 to 6. Answer ('ok', whole watts); lent tree and coefficients.
def display(w: int, h: int, tree: Sequence[int], coefficients: Sequence[int], u: int, v: int) -> Outcome:
    cause = judge_reading(w, h, tree, coefficients, u, v)
    if cause is not None:
        return _after(refused(cause), tree=tree, coefficients=coefficients)
    watts = round_half_up(watts_at(w, h, tree, coefficients, u, v))
    return _after(("ok", watts), tree=tree, coefficients=coefficients)


# Document 02, Three: 'rounded once, from the exact reading times the tariff over 1,000, halves upward. Exact readings
# of zero or less still cost 0.'
def cost_of(watts: Fraction, tariff: int) -> int:
    return 0 if watts <= 0 else round_half_up(watts * tariff / 1_000)


# The rule before it, document 01, Readings: 'those whole watts times the tariff ... over 1,000, nearest, halves upward;
# 0 for watts of 0 or less'. Cases tell the two apart by it; no call follows it.
def former_cost_of(whole_watts: int, tariff: int) -> int:
    return 0 if whole_watts <= 0 else round_half_up(Fraction(whole_watts * tariff, 1_000))


# Document 01, Calls, 'cost a tariff too'; 1 to 6, 11. Answer ('ok', hundredths of a cent); lent tree and coefficients.
def cost(w: int, h: int, tree: Sequence[int], coefficients: Sequence[int], u: int, v: int, tariff: int) -> Outcome:
    cause = judge_reading(w, h, tree, coefficients, u, v)
    if cause is None and not 0 <= tariff <= GREATEST_TARIFF:
        cause = 11
    if cause is not None:
        return _after(refused(cause), tree=tree, coefficients=coefficients)
    hundredths = cost_of(watts_at(w, h, tree, coefficients, u, v), tariff)
    return _after(("ok", hundredths), tree=tree, coefficients=coefficients)


# Document 01, The table file: 'Reading fills a tree buffer and a coefficient slice.'; byte order, in which 20 has its
# place (Document 02, Seven), and the note (Eight), then 15, 16, 17. Answer ('ok', tree length, W, H); lent file,
# tree_out and coefficients_out. Eight: 'The bench loader also says whether a note stands there and returns the note as
# the part of the file it is; with none there, or a refused call, it says none and the part is empty.'
def read_bench(file: Sequence[int], tree_out: Sequence[int], coefficients_out: Sequence[int]) -> Benched:
    lent = {"file": file, "tree_out": tree_out, "coefficients_out": coefficients_out}
    judged = tablefile.judge_noted(file)
    if isinstance(judged, int):
        return Benched(_after(refused(judged), **lent), NO_PART)
    content, note = judged
    cause = _outputs_refused(content.w, content.h, content.tree, tree_out, len(coefficients_out))
    if cause is not None:
        return Benched(_after(refused(cause), **lent), NO_PART)
    lent["tree_out"] = _written(tree_out, content.tree)
    lent["coefficients_out"] = content.coefficients
    return Benched(_after(("ok", len(content.tree), content.w, content.h), **lent), note)


# Document 02, Eight: 'The controller's loader passes over it.'
def read_file(file: Sequence[int], tree_out: Sequence[int], coefficients_out: Sequence[int]) -> Outcome:
    return read_bench(file, tree_out, coefficients_out).loaded


# Document 02, One: 'Add the writer for document 01's file', 'Tables are checked as elsewhere'; 1 to 5, then Eight: 'a
# lent note above 64 bytes gives 14', then 18, 'file output shorter than the file, judged last'. Seven: 'Size needs ...
# include the field'. Answer ('ok', file length); lent tree, coefficients and file_out, and the note where there is one.
def write_file(
    w: int, h: int, tree: Sequence[int], coefficients: Sequence[int], file_out: Sequence[int], note: Note = None
) -> Outcome:
    lent = {"tree": tree, "coefficients": coefficients, "file_out": file_out}
    if note is not None:
        lent["note"] = note
    cause = judge_table(w, h, tree, coefficients)
    if cause is not None:
        return _after(refused(cause), **lent)
    if note is not None and len(note) > GREATEST_NOTE:
        return _after(refused(14), **lent)
    file = tablefile.write_file(w, h, tree, coefficients, note=note)
    if len(file_out) < len(file):
        return _after(refused(18), **lent)
    lent["file_out"] = _written(file_out, file)
    return _after(("ok", len(file)), **lent)


# Document 01, Bench sheet: 'The corner program reads a table file from standard input and prints a header, ...'.
def corner_lines(file: Sequence[int]) -> List[str]:
    content = tablefile.judge(file)
    if isinstance(content, int):
        return ["refused %d" % content]
    lines = ["u v watts"]
    for v in range(content.h + 1):
        for u in range(content.w + 1):
            at = (u * STEPS_PER_CELL, v * STEPS_PER_CELL)
            watts = round_half_up(watts_at(content.w, content.h, content.tree, content.coefficients, *at))
            lines.append("%d %d %d" % (u, v, watts))
    return lines

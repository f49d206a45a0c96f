"""Misreadings of the slopes, each of which a case worked out by hand must show.

A misreading is shown where what it gives, as f64, is not within the bounds of what is due.
"""
from __future__ import annotations

from fractions import Fraction
from struct import pack, unpack
from typing import Callable, Dict, List

import calls
from derivatives import EIGHTHS_PER_CELL, CellRule, Derived, splines_over_cell
from properties import Check
from slope_cases import CASES, Slopes
from stopping import PUBLISHED_STOP, STOPS, Readable, Stop
from surface import (
    NEXT_LEVEL,
    STEPS_PER_CELL,
    UNTRUNCATED,
    Rules,
    Surface,
    cell_count,
    cell_of,
    in_cells,
    in_watts,
    knot_indices,
)

STEPS_PER_EIGHTH = STEPS_PER_CELL // EIGHTHS_PER_CELL

# What is read of a table at a point, where the last is due.
Misreading = Callable[[Readable, int, int, Slopes], Slopes]
# The watts of a function beyond the sheet, by its level and its indices.
Beyond = Callable[[Readable, int, int, int], Fraction]


# The slopes times a factor that a level has.
def scaled(factor: Callable[[int], Fraction]) -> Misreading:
    def read(given: Readable, u: int, v: int, due: Slopes) -> Slopes:
        by = factor(PUBLISHED_STOP(given, u, v))
        return due[0], by * due[1], by * due[2]

    return read


# Differences of exact readings so many steps before the point and after it, by an eighth; less where the sheet ends,
# and over the last step where none is left.
def quotient(before: int, after: int) -> Misreading:
    def read(given: Readable, u: int, v: int, due: Slopes) -> Slopes:
        def along(at: int, side: int, reading: Callable[[int], Fraction]) -> Fraction:
            low, high = max(at - before, 0), min(at + after, STEPS_PER_CELL * side)
            low -= low == high
            return (reading(high) - reading(low)) * Fraction(STEPS_PER_EIGHTH, high - low)

        watts = given.surface.read
        return (due[0], along(u, given.table.w, lambda at: watts(given.table.coefficients, at, v)),
                along(v, given.table.h, lambda at: watts(given.table.coefficients, u, at)))

    return read


def _no_watts(given: Readable, level: int, i: int, j: int) -> Fraction:
    return Fraction(0)


def _last_watts(given: Readable, level: int, i: int, j: int) -> Fraction:
    last = min(i, knot_indices(given.table.w, level)[-1]), min(j, knot_indices(given.table.h, level)[-1])
    return in_watts(given.units(level, *last), level)


def by_level(stop: Stop, cell: CellRule = cell_of, t_in: CellRule = cell_of, beyond: Beyond = _no_watts) -> Misreading:
    """The slopes by the splines of one level times carried values: the level by a rule, the cell whose splines are
    taken by another, t from the start of the cell that a third one names, and what stands beyond the sheet."""
    def read(given: Readable, u: int, v: int, due: Slopes) -> Slopes:
        level, (w, h) = stop(given, u, v), given.table[:2]

        def over(steps: int, side: int, order: int) -> Dict[int, Fraction]:
            x, cells = in_cells(steps, level), cell_count(side, level)
            return splines_over_cell(level, cell(x, cells), x - t_in(x, cells), order)

        def watts(i: int, j: int) -> Fraction:
            if given.surface.has(level, i, j):
                return in_watts(given.units(level, i, j), level)
            return beyond(given, level, i, j)

        def along(order_u: int, order_v: int) -> Fraction:
            across, upward = over(u, w, order_u), over(v, h, order_v)
            return sum((a * b * watts(i, j) for j, b in upward.items() for i, a in across.items()), Fraction(0))

        return due[0], along(1, 0), along(0, 1)

    return read


# The slopes of functions that are truncated by another rule.
def truncated(rule: str) -> Misreading:
    def read(given: Readable, u: int, v: int, due: Slopes) -> Slopes:
        old = given.surface
        surface = Surface(old.w, old.h, old.levels, Rules(truncation=rule))
        both = (Derived(surface, *orders).read(given.table.coefficients, u, v) for orders in ((1, 0), (0, 1)))
        return due[0], *both

    return read


# At a far edge of u the slope along u, and at one of v that along v, is 0.
def flat_at_far_edges(given: Readable, u: int, v: int, due: Slopes) -> Slopes:
    far = u == STEPS_PER_CELL * given.table.w, v == STEPS_PER_CELL * given.table.h
    return due[0], *(Fraction(0) if edge else slope for edge, slope in zip(far, due[1:]))


def single_precision(number: Fraction) -> Fraction:
    return Fraction(unpack("=f", pack("=f", float(number)))[0])


# The cell that a place is in where the sheet is thought to go on.
def unclamped_cell(x: Fraction, cells: int) -> int:
    return x.numerator // x.denominator


MISREADINGS: Dict[str, Misreading] = {
    "slopes by a cell": scaled(lambda level: Fraction(8)),
    "slopes by a step": scaled(lambda level: Fraction(1, 16)),
    "slopes by a quarter": scaled(lambda level: Fraction(2)),
    "slopes by a cell of the level where the reading stops": scaled(lambda level: Fraction(8, 2**level)),
    "falling where it rises": scaled(lambda level: Fraction(-1)),
    "u and v exchanged": lambda given, u, v, due: (due[0], due[2], due[1]),
    "both slopes that along u": lambda given, u, v, due: (due[0], due[1], due[1]),
    "a difference over the next step": quotient(0, 1),
    "a difference over the step before and the next": quotient(1, 1),
    "a difference over the next eighth": quotient(0, STEPS_PER_EIGHTH),
    "the patch of level 0": by_level(STOPS["at level 0"]),
    "the patch a level early": by_level(STOPS["a level early"]),
    "the patch of the square beyond a far edge": by_level(STOPS["the square beyond a far edge"]),
    "no slope at a far edge": flat_at_far_edges,
    "the start of the last cell at a far edge": by_level(PUBLISHED_STOP, t_in=unclamped_cell),
    "the cell beyond at its end": by_level(PUBLISHED_STOP, cell=unclamped_cell),
    "functions untruncated": truncated(UNTRUNCATED),
    "functions truncated by the next level only": truncated(NEXT_LEVEL),
    "watts within 2^-20 only": lambda given, u, v, due: (due[0] + Fraction(1, 2**21), *due[1:]),
    "slopes within 2^-19 only": lambda given, u, v, due: (*due[:2], due[2] - Fraction(1, 2**19)),
    "watts as f32": lambda given, u, v, due: (single_precision(due[0]), *due[1:]),
    "slopes as f32": lambda given, u, v, due: (due[0], *map(single_precision, due[1:])),
}

# These give what is due: the function that a further cell would add begins at the far edge, where its spline has no
# slope, so that no coefficient of it counts; and each level from that of the quarter square on has the same surface.
ALIKE: Dict[str, Misreading] = {
    "a further cell, with 0 beyond": by_level(PUBLISHED_STOP, unclamped_cell, unclamped_cell, _no_watts),
    "a further cell, with the last again": by_level(PUBLISHED_STOP, unclamped_cell, unclamped_cell, _last_watts),
    "the patch of the point's quarter square": by_level(PUBLISHED_STOP),
    "the patch of level 3": by_level(STOPS["at level 3"]),
}


def slope_misreadings(check: Check) -> None:
    shown: Dict[str, List[str]] = {name: [] for name in (*MISREADINGS, *ALIKE)}
    for case in CASES:
        given, due = Readable(case.table), case.due()
        for name, read in (*MISREADINGS.items(), *ALIKE.items()):
            answer = ("ok", *map(float, read(given, *case.point, due)))
            if not calls.slopes_allowed(("ok", *due), answer):
                shown[name].append(case.told)
        check(calls.slopes_allowed(("ok", *due), ("ok", *map(float, due))), "%s as f64" % case.told)
    for name, cases in shown.items():
        check((cases == []) == (name in ALIKE), "%s shows in %s" % (name, cases or "no case"))

"""The kiln power surface of document 01, in exact fractions and by the published definitions.

A function is named (level, i, j) with i and j from -3. A quarter square is named (u, v) in whole quarters.
Weights are fractions over 8 and spline values fractions over 6; watts are fractions throughout.
"""
from __future__ import annotations

from fractions import Fraction
from functools import lru_cache
from math import ceil, floor
from typing import Callable, Dict, Iterator, List, NamedTuple, Optional, Sequence, Tuple

LEVELS = (0, 1, 2, 3)
FINEST = 3
STEPS_PER_CELL = 128
QUARTERS_PER_CELL = 4
TREE_SIDE = 32
GREATEST_SIDE = 8
LIMIT_WATTS = 32_000
D = 36 * 2**42

# levels[v][u] is the level of the quarter square (u, v), for all 32 by 32 quarters of the tree.
LevelMap = Tuple[Tuple[int, ...], ...]
Function = Tuple[int, int]
Box = Tuple[int, int, int, int]

# How a support is taken: cut to the sheet, or (misread) uncut, with level 0 or no region at all beyond the sheet.
CUT = "cut to the sheet"
UNCUT_LEVEL_0 = "uncut, level 0 beyond the sheet"
UNCUT_NO_REGION = "uncut, no region beyond the sheet"

# Against which levels a function is truncated: every finer one, or (misread) fewer.
EVERY_LEVEL = "every finer level"
NEXT_LEVEL = "the next level only"
UNTRUNCATED = "none"


class Rules(NamedTuple):
    """The published rules; any other setting is one of document 01's misreadings."""

    supports: str = CUT
    truncation: str = EVERY_LEVEL
    weights_over: int = 8


PUBLISHED = Rules()
TWO_SCALE_WEIGHTS = (1, 4, 6, 4, 1)


# Document 01, The sheet and its grids: 'each side 1 to 8'.
def side_allowed(side: int) -> bool:
    return 1 <= side <= GREATEST_SIDE


# Document 01, The sheet and its grids: 'each level halves the cells'.
def cell_count(side: int, level: int) -> int:
    return side * 2**level


# Document 01, The sheet and its grids: 'i runs from -3 to W x 2^L - 1'.
def knot_indices(side: int, level: int) -> range:
    return range(-3, cell_count(side, level))


# Document 01, Functions and coefficients: 'Level L has (W x 2^L + 3) x (H x 2^L + 3) places'.
def place_count(w: int, h: int, level: int) -> int:
    return len(knot_indices(w, level)) * len(knot_indices(h, level))


# Document 01, Functions and coefficients: 'For 8 by 8 the total is ...'.
def total_places(w: int, h: int) -> int:
    return sum(place_count(w, h, level) for level in LEVELS)


# Document 01, Functions and coefficients: 'level 0 first, then 1, 2, 3; in a level j rises, within a row i rises'.
def place_of(w: int, h: int, level: int, i: int, j: int) -> int:
    before = sum(place_count(w, h, coarser) for coarser in range(level))
    return before + (j + 3) * len(knot_indices(w, level)) + (i + 3)


# Document 01, Functions and coefficients: 'a signed whole number of 1/64^L watt'.
def in_watts(coefficient: int, level: int) -> Fraction:
    return Fraction(coefficient, 64**level)


# Document 01, Functions and coefficients: 'at most 32,000 x 64^L in size'.
def coefficient_limit(level: int) -> int:
    return LIMIT_WATTS * 64**level


# Document 01, The sheet and its grids: a point 'in steps of 1/128 cell', here in cells of the level.
def in_cells(steps: int, level: int) -> Fraction:
    return Fraction(steps * 2**level, STEPS_PER_CELL)


# Document 01, The sheet and its grids: 'far edges included. There the last cell's polynomial is used.'
def cell_of(x: Fraction, cells: int) -> int:
    return min(floor(x), cells - 1)


# Document 01, The sheet and its grids: 'On a cell with 0 <= t <= 1 the four splines are ... each over 6'.
def spline(i: int, x: Fraction, cells: int) -> Fraction:
    cell = cell_of(x, cells)
    t = x - cell
    if i == cell - 3:
        return (1 - t) ** 3 / 6
    if i == cell - 2:
        return (3 * t**3 - 6 * t**2 + 4) / 6
    if i == cell - 1:
        return (-3 * t**3 + 3 * t**2 + 3 * t + 1) / 6
    if i == cell:
        return t**3 / 6
    return Fraction(0)


# Document 01, The sheet and its grids: a function 'holds the points strictly inside' its support before the cut.
def holds(i: int, x: Fraction) -> bool:
    return i < x < i + 4


# Document 01, The sheet and its grids: 'support between L-cell edges i and i+4', in quarters.
def support_in_quarters(level: int, i: int) -> Tuple[Fraction, Fraction]:
    quarters_per_cell = Fraction(QUARTERS_PER_CELL, 2**level)
    return i * quarters_per_cell, (i + 4) * quarters_per_cell


# Document 01, Regions: 'Under a support lie all quarter squares that share area with it'; the span in one direction.
def squares_under(level: int, i: int, side: int, cut: bool) -> Tuple[int, int]:
    low, high = support_in_quarters(level, i)
    if cut:
        low = max(low, Fraction(0))
        high = min(high, Fraction(side * QUARTERS_PER_CELL))
    return floor(low), ceil(high)


# Document 01, Functions and coefficients: 'the sum of functions 2i to 2i+4 of level L+1 with weights ... over 8'.
def two_scale(i: int, level: int, side: int, over: int) -> Dict[int, Fraction]:
    finer = knot_indices(side, level + 1)
    terms = {2 * i + k: Fraction(weight, over) for k, weight in enumerate(TWO_SCALE_WEIGHTS)}
    # 'Terms that vanish on the sheet drop out.'
    return {child: weight for child, weight in terms.items() if child in finer}


# The weights of the two-scale relation in both directions, by the distances of the child from 2i and 2j.
@lru_cache(maxsize=None)
def weight_products(over: int) -> Dict[Function, Fraction]:
    line = [Fraction(weight, over) for weight in TWO_SCALE_WEIGHTS]
    return {(k, m): a * b for m, b in enumerate(line) for k, a in enumerate(line)}


class Surface:
    """One sheet with one set of regions: which functions are active, and what each one is worth at a point."""

    def __init__(self, w: int, h: int, levels: LevelMap, rules: Rules = PUBLISHED) -> None:
        self.w = w
        self.h = h
        self.levels = levels
        self.rules = rules
        self.total = total_places(w, h)
        self._span: Dict[Tuple[int, int, int], Tuple[int, int]] = {}
        self._least: Dict[Tuple[int, int, int], int] = {}
        self._splines: Dict[Tuple[int, int, int], Dict[int, Fraction]] = {}
        self._at_point: Dict[Tuple[int, int], Dict[Tuple[int, int, int], Fraction]] = {}
        self._active: Dict[int, List[Function]] = {}
        self._limits: Optional[List[Optional[int]]] = None

    # Document 01, Functions and coefficients: the functions of a level in slice order.
    def functions(self, level: int) -> Iterator[Function]:
        for j in knot_indices(self.h, level):
            for i in knot_indices(self.w, level):
                yield i, j

    def has(self, level: int, i: int, j: int) -> bool:
        return level in LEVELS and i in knot_indices(self.w, level) and j in knot_indices(self.h, level)

    def place(self, level: int, i: int, j: int) -> int:
        return place_of(self.w, self.h, level, i, j)

    def _squares(self, level: int, i: int, side: int) -> Tuple[int, int]:
        key = (level, i, side)
        if key not in self._span:
            self._span[key] = squares_under(level, i, side, self.rules.supports == CUT)
        return self._span[key]

    # Document 01, Functions and coefficients: 'the least level under its cut support'.
    def least_level(self, level: int, i: int, j: int) -> int:
        key = (level, i, j)
        if key not in self._least:
            u0, u1 = self._squares(level, i, self.w)
            v0, v1 = self._squares(level, j, self.h)
            beyond = u0 < 0 or v0 < 0 or u1 > QUARTERS_PER_CELL * self.w or v1 > QUARTERS_PER_CELL * self.h
            # Only the misreadings with uncut supports reach beyond the sheet.
            if beyond:
                self._least[key] = 0 if self.rules.supports == UNCUT_LEVEL_0 else -1
            else:
                self._least[key] = min(min(row[u0:u1]) for row in self.levels[v0:v1])
        return self._least[key]

    # Document 01, Functions and coefficients: 'active exactly when the least level under its cut support is L'.
    def active(self, level: int, i: int, j: int) -> bool:
        return self.least_level(level, i, j) == level

    # Document 01, Regions: 'the region of level L is all quarter squares with level at least L'.
    def lies_in_region(self, region: int, level: int, i: int, j: int) -> bool:
        return self.least_level(level, i, j) >= region

    def active_functions(self, level: int) -> List[Function]:
        if level not in self._active:
            self._active[level] = [(i, j) for i, j in self.functions(level) if self.active(level, i, j)]
        return self._active[level]

    # For each place of the slice the limit of its coefficient when active, None when passive.
    def limits(self) -> List[Optional[int]]:
        if self._limits is None:
            self._limits = [
                coefficient_limit(level) if self.active(level, i, j) else None
                for level in LEVELS
                for i, j in self.functions(level)
            ]
        return self._limits

    # Document 01, Functions and coefficients: the two-scale relation 'in each direction'.
    def children(self, level: int, i: int, j: int) -> Dict[Function, Fraction]:
        across = two_scale(i, level, self.w, self.rules.weights_over)
        along = two_scale(j, level, self.h, self.rules.weights_over)
        return {(ci, cj): a * b for cj, b in along.items() for ci, a in across.items()}

    # The functions of the next coarser level that have (i, j) among their children, with its weight in each.
    def parents(self, level: int, i: int, j: int) -> Dict[Function, Fraction]:
        weights = weight_products(self.rules.weights_over)
        return {
            (pi, pj): weights[(i - 2 * pi, j - 2 * pj)]
            for pj in range(ceil(Fraction(j - 4, 2)), floor(Fraction(j, 2)) + 1)
            for pi in range(ceil(Fraction(i - 4, 2)), floor(Fraction(i, 2)) + 1)
            if self.has(level - 1, pi, pj)
        }

    # The splines of one direction that are not 0 by their cell alone.
    def _splines_at(self, level: int, steps: int, side: int) -> Dict[int, Fraction]:
        key = (level, steps, side)
        if key not in self._splines:
            x, cells = in_cells(steps, level), cell_count(side, level)
            cell = cell_of(x, cells)
            self._splines[key] = {i: spline(i, x, cells) for i in range(cell - 3, cell + 1)}
        return self._splines[key]

    # The sixteen functions of a level that the cell of a point lies under, knots included.
    def _near(self, level: int, u: int, v: int) -> List[Function]:
        along = self._splines_at(level, v, self.h)
        return [(i, j) for j in along for i in self._splines_at(level, u, self.w)]

    # Document 01, The sheet and its grids: 'the product of two uniform cubic B-splines'.
    def untruncated_value(self, level: int, i: int, j: int, u: int, v: int) -> Fraction:
        across = self._splines_at(level, u, self.w).get(i, Fraction(0))
        along = self._splines_at(level, v, self.h).get(j, Fraction(0))
        return across * along

    # The functions of a level whose product of splines is not 0 at a point, each with that product.
    def splines_over(self, level: int, u: int, v: int) -> Dict[Function, Fraction]:
        products = {(i, j): self.untruncated_value(level, i, j, u, v) for i, j in self._near(level, u, v)}
        return {function: product for function, product in products.items() if product != 0}

    # Document 01, Functions and coefficients: 'Truncation drops those terms ... repeated for every finer level.'
    def truncated_in_finest(self, level: int, i: int, j: int) -> Dict[Function, Fraction]:
        terms = {(i, j): Fraction(1)}
        for finer in range(level + 1, FINEST + 1):
            written: Dict[Function, Fraction] = {}
            for (ti, tj), amount in terms.items():
                for child, weight in self.children(finer - 1, ti, tj).items():
                    written[child] = written.get(child, Fraction(0)) + amount * weight
            terms = {term: a for term, a in written.items() if not self.lies_in_region(finer, finer, *term)}
        return terms

    # The value at a point of a function with the terms of the next level that lie in that level's region dropped,
    # and the same done to each term that is kept. By linearity this is the value of the truncated function.
    def truncated_value(self, level: int, i: int, j: int, u: int, v: int) -> Fraction:
        known = self._at_point.setdefault((u, v), {})
        key = (level, i, j)
        if key not in known:
            known[key] = self._truncated_value(level, i, j, u, v)
        return known[key]

    def _truncated_value(self, level: int, i: int, j: int, u: int, v: int) -> Fraction:
        if level == FINEST or self.rules.truncation == UNTRUNCATED:
            return self.untruncated_value(level, i, j, u, v)
        term_value = self.truncated_value if self.rules.truncation == EVERY_LEVEL else self.untruncated_value
        weights = weight_products(self.rules.weights_over)
        across = self._splines_at(level + 1, u, self.w)
        along = self._splines_at(level + 1, v, self.h)
        value = Fraction(0)
        for (k, m), weight in weights.items():
            ci, cj = 2 * i + k, 2 * j + m
            if ci in across and cj in along and not self.lies_in_region(level + 1, level + 1, ci, cj):
                value += weight * term_value(level + 1, ci, cj, u, v)
        return value

    # Demand 2: 'the fraction that the active coefficients times their truncated functions add up to there'.
    def read_watts(self, watts: Callable[[int, int, int], Fraction], u: int, v: int) -> Fraction:
        if len(self._at_point) >= 256:
            self._at_point.clear()
        reading = Fraction(0)
        for level in LEVELS:
            for i, j in self._near(level, u, v):
                if self.active(level, i, j):
                    reading += watts(level, i, j) * self.truncated_value(level, i, j, u, v)
        return reading

    # Document 01, Readings: the exact reading, in watts, of a lent coefficient slice.
    def read(self, coefficients: Sequence[int], u: int, v: int) -> Fraction:
        def watts(level: int, i: int, j: int) -> Fraction:
            return in_watts(coefficients[self.place(level, i, j)], level)

        return self.read_watts(watts, u, v)

    # Demand 3: 'the least and the greatest active coefficient, in watts, whose support holds the point'.
    def coefficient_range(self, coefficients: Sequence[int], u: int, v: int) -> Tuple[Fraction, Fraction]:
        held = [
            in_watts(coefficients[self.place(level, i, j)], level)
            for level in LEVELS
            for i, j in self._near(level, u, v)
            if holds(i, in_cells(u, level)) and holds(j, in_cells(v, level)) and self.active(level, i, j)
        ]
        return min(held), max(held)


# Document 01, Functions and coefficients: 'let the carried value of a function be its own coefficient when active,
# and the two-scale sum of its parents' carried values when the least old level under it is below its own'; in watts.
def carried_by(old: Surface, coefficients: Sequence[int]) -> Callable[[int, int, int], Fraction]:
    known: Dict[Tuple[int, int, int], Fraction] = {}

    def carried(level: int, i: int, j: int) -> Fraction:
        key = (level, i, j)
        if key not in known:
            if old.active(level, i, j):
                known[key] = in_watts(coefficients[old.place(level, i, j)], level)
            elif old.least_level(level, i, j) < level:
                parents = old.parents(level, i, j)
                known[key] = sum((w * carried(level - 1, *p) for p, w in parents.items()), Fraction(0))
            else:
                raise ValueError("no value is carried to a function refined away")
        return known[key]

    return carried


# The carried values of all functions that are active after an insertion.
def carried_watts(old: Surface, new: Surface, coefficients: Sequence[int]) -> Dict[Tuple[int, int, int], Fraction]:
    carried = carried_by(old, coefficients)
    return {(level, i, j): carried(level, i, j) for level in LEVELS for i, j in new.active_functions(level)}


# Document 01, Functions and coefficients: 'Newly active functions take it. In these units no remainder arises.'
def carry(old: Surface, new: Surface, coefficients: Sequence[int]) -> List[int]:
    slice_after = [0] * new.total
    for (level, i, j), watts in carried_watts(old, new, coefficients).items():
        units = watts * 64**level
        if units.denominator != 1:
            raise ArithmeticError("a remainder arose in carrying")
        slice_after[new.place(level, i, j)] = units.numerator
    return slice_after

"""The derivatives of the surface, in exact fractions: the splines of a cell as polynomials, differentiated by the rule
for powers. A polynomial is the list of its coefficients, that of power 0 first.

Document 02, Two: 'Slopes are in watts per eighth of a cell, along u and along v ... the exact derivative of the
surface, worked as a fraction. At the far edges the last cell's polynomial counts.'
"""
from __future__ import annotations

from fractions import Fraction
from functools import lru_cache
from math import ceil
from typing import Callable, Dict, List, Sequence, Tuple

import tree as quadtree
from surface import Surface, cell_count, cell_of, in_cells

EIGHTHS_PER_CELL = 8

Polynomial = List[Fraction]
# Names the cell of a level that a place along one side is taken in, by the place in such cells and their number.
CellRule = Callable[[Fraction, int], int]


def product(p: Sequence[Fraction], q: Sequence[Fraction]) -> Polynomial:
    return [sum((p[k] * q[n - k] for k in range(len(p)) if 0 <= n - k < len(q)), Fraction(0))
            for n in range(len(p) + len(q) - 1)]


# The power n of t has the derivative n times its power n - 1.
def derived(p: Sequence[Fraction]) -> Polynomial:
    return [n * c for n, c in enumerate(p)][1:]


def value_at(p: Sequence[Fraction], t: Fraction) -> Fraction:
    return sum((c * t**n for n, c in enumerate(p)), Fraction(0))


def _sixths(*coefficients: int) -> Polynomial:
    return [Fraction(c, 6) for c in coefficients]


# Document 01, The sheet and its grids: '(1-t)^3, 3t^3-6t^2+4, -3t^3+3t^2+3t+1 and t^3, each over 6', as i rises.
_FALLING = [Fraction(1), Fraction(-1)]
SPLINES = [
    product(product(_FALLING, _FALLING), product(_FALLING, _sixths(1))),
    _sixths(4, 0, -6, 3),
    _sixths(1, 3, 3, -3),
    _sixths(0, 0, 0, 1),
]
# Those splines, their derivatives, and the derivatives of these.
ORDERS = [SPLINES, [derived(p) for p in SPLINES], [derived(derived(p)) for p in SPLINES]]


# The four splines over a cell of a level, t of the way across it, differentiated so many times; a cell of level L is
# 8/2^L eighths wide, so that each derivative by eighths is 2^L/8 times the one by t.
def splines_over_cell(level: int, cell: int, t: Fraction, order: int) -> Dict[int, Fraction]:
    by_eighths = Fraction(2**level, EIGHTHS_PER_CELL) ** order
    return {cell - 3 + k: by_eighths * value_at(p, t) for k, p in enumerate(ORDERS[order])}


# On a shared edge the cell of less u or v, which document 01 does not name; both have one slope there.
def lesser_cell(x: Fraction, cells: int) -> int:
    return max(ceil(x) - 1, 0)


class Derived(Surface):
    """A surface with each function differentiated so many times along u and along v, by eighths of a cell: its readings
    are the derivatives of the surface that it is made from, since a sum is differentiated term by term."""

    def __init__(self, surface: Surface, along_u: int, along_v: int, cell: CellRule = cell_of) -> None:
        super().__init__(surface.w, surface.h, surface.levels, surface.rules)
        # What lies under a support is the same.
        self._span, self._least = surface._span, surface._least
        self.along_u, self.along_v, self.cell = along_u, along_v, cell
        self._by_order: Dict[Tuple[int, int, int, int], Dict[int, Fraction]] = {}

    def _derived_at(self, level: int, steps: int, side: int, order: int) -> Dict[int, Fraction]:
        key = (level, steps, side, order)
        if key not in self._by_order:
            x = in_cells(steps, level)
            cell = self.cell(x, cell_count(side, level))
            self._by_order[key] = splines_over_cell(level, cell, x - cell, order)
        return self._by_order[key]

    # The splines themselves, by the same rule for the cell.
    def _splines_at(self, level: int, steps: int, side: int) -> Dict[int, Fraction]:
        return self._derived_at(level, steps, side, 0)

    # A product of one spline along u and one along v: the other is a number where one is differentiated.
    def untruncated_value(self, level: int, i: int, j: int, u: int, v: int) -> Fraction:
        across = self._derived_at(level, u, self.w, self.along_u).get(i, Fraction(0))
        along = self._derived_at(level, v, self.h, self.along_v).get(j, Fraction(0))
        return across * along


# Both derivatives of the surface of a sheet over a tree, along u and along v; the last few are kept.
@lru_cache(maxsize=32)
def slopes_over(w: int, h: int, tree: Tuple[int, ...]) -> Tuple[Derived, Derived]:
    surface = quadtree.surface_over(w, h, tree)
    if surface is None:
        raise quadtree.Damaged("the tree is not of the form of document 01")
    return Derived(surface, 1, 0), Derived(surface, 0, 1)

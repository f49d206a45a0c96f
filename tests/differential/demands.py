"""Demand 3 of the compiled library's readings: linear in the coefficients, and between those around the point. And
document 02, Ten: they tell the coefficients.

That no list of enquiries and commits moves a reading is in insertions.py.
"""
from __future__ import annotations

from random import Random
from typing import Callable, Dict, Iterator, List, Tuple

import cases
from cases import calls, samples
from library import Library, differ, numbers, octets
from saving import drawn
from surface import D
from uniqueness import Columns, cells_that_show, coefficient_told, points_in


def exact(lib: Library, t: samples.Table, values: List[int], point: samples.Point) -> Tuple[str, int]:
    """An exact reading that must be given: what is not as it should be, and the numerator."""
    got = lib.exact(t.w, t.h, octets(t.tree), numbers(values), *point)
    said = got.said()
    return differ(f"exact {t.w} {t.h} {bytes(t.tree).hex()} {point}", got, ("ok", *said[1:])), said[-1]


def linear(rng: Random, lib: Library) -> Iterator[str]:
    """"at every point the first's exact reading is a times the second's plus b times the third's"."""
    t = drawn(lib, cases.table(rng))
    surface = calls.surface_of(t.w, t.h, t.tree)
    second, third = (samples.random_coefficients(rng, surface, 16) for _ in range(2))
    a, b = rng.randint(-7, 7), rng.randint(-7, 7)
    first = [a * x + b * y for x, y in zip(second, third)]
    for point in samples.random_points(rng, t.w, t.h, 12):
        faults, read = zip(*(exact(lib, t, values, point) for values in (first, second, third)))
        same = read[0] == a * read[1] + b * read[2]
        yield max(faults) or ("" if same else f"at {point} {read} are not linear with {a} and {b}")


def bracketed(rng: Random, lib: Library) -> Iterator[str]:
    """"each exact reading lies between the least and the greatest active coefficient, in watts, whose support holds
    the point"."""
    t = drawn(lib, cases.table(rng))
    surface = calls.surface_of(t.w, t.h, t.tree)
    for point in samples.random_points(rng, t.w, t.h, 12):
        least, greatest = surface.coefficient_range(t.coefficients, *point)
        fault, reading = exact(lib, t, t.coefficients, point)
        inside = least * D <= reading <= greatest * D
        yield fault or ("" if inside else f"at {point} {reading} over D lies beyond {least} to {greatest}")


def told(rng: Random, lib: Library) -> Iterator[str]:
    """"two acceptable tables with one sheet and one tree, whose exact readings agree ... have the same coefficients":
    of four functions, each by the sixteen points of a cell that shows it."""
    t = drawn(lib, cases.table(rng))
    surface = calls.surface_of(t.w, t.h, t.tree)
    for function in rng.sample(Columns(surface).functions, 4):
        cell = rng.choice(cells_that_show(surface, function))
        faults, read = zip(*(exact(lib, t, t.coefficients, point) for point in points_in(cell)))
        due, given = t.coefficients[surface.place(*function)], coefficient_told(function, cell, read)
        yield max(faults) or ("" if given == due else f"{function} of {t.tree}: {due}, but {given} by cell {cell}")


KINDS: Dict[str, Callable[[Random, Library], Iterator[str]]] = {
    "linear": linear, "bracketed": bracketed, "told": told}

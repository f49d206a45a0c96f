"""Fixed cases of watts and slopes: those worked out by hand, corners, edges and knots, the greatest slopes, and every
refusal, alone and with another.

Document 02, Two: 'Each lies within 2^-20 of the exact derivative of the surface', 'At the far edges the last cell's
polynomial counts', 'Checks are those of a float reading'. What is due is worked by hand where it is written out, and
else the unrelated evaluator's.
"""
from __future__ import annotations

from fractions import Fraction
from itertools import permutations
from random import Random
from typing import Iterator, List

import stopping
from cases import GREATEST, LEAST, calls, quadtree, samples
from edges import fresh_table, lent
from library import Library, differ
from slope_cases import CASES, STEEPEST, Slopes, steep, turned
from surface import LEVELS
from tables import near_slopes, read_at, words

REFINED = [4, 4, 4, 1] + [0] * 9
S = samples.bench_s()


def due_at(lib: Library, told: str, t: samples.Table, point: samples.Point, due: Slopes) -> str:
    """Watts and slopes that must be near these."""
    return near_slopes(words(f"slopes, {told}", t, point), lib.slopes(*lent(t), *point), ("ok", *due))


def by_hand(lib: Library) -> Iterator[str]:
    yield from (due_at(lib, case.told, case.table, case.point, case.due()) for case in CASES)


def equal_numbers(lib: Library) -> Iterator[str]:
    """Four levels around a corner, in every order, and one level throughout: equal watts have no slope on any side of
    it, nor at the far edges."""
    for levels in (*permutations(LEVELS), *((level,) * 4 for level in LEVELS)):
        tree = quadtree.tree_of(stopping.around_a_corner(2, levels))
        t = samples.Table(1, 1, tree, samples.equal_coefficients(calls.surface_of(1, 1, tree), 700))
        for point in ((63, 63), (64, 63), (65, 63), (63, 64), (64, 64), (65, 64), (63, 65), (64, 65), (65, 65),
                      (128, 128), (128, 64), (64, 128), (128, 0), (0, 128), (0, 0), (127, 128), (128, 127)):
            yield due_at(lib, "equal numbers", t, point, (Fraction(700), Fraction(0), Fraction(0)))


def steepest(lib: Library) -> Iterator[str]:
    """The steepest that a table can be, along u and along v, rising and falling: in the middle of each second cell of
    level 3; in the cells between the slope is 0."""
    for w, tree in ((1, [4, 4, 4, 3] + [0] * 9), (8, [3])):
        t = steep(w, w, tree)
        across = turned(t)
        for cell in range(8 * w):
            rises = Fraction((0, 1, 0, -1)[(cell - 1) % 4])
            # There the splines are 1, 23, 23 and 1 over 48: two and two cancel, or 46 stand against 2.
            watts = Fraction(0) if rises else (1 if cell % 4 == 3 else -1) * Fraction(88_000, 3)
            middle, due = 16 * cell + 8, (watts, STEEPEST * rises)
            for along in (0, 5, 64 * w + 8, 128 * w):
                yield due_at(lib, "steepest along u", t, (middle, along), (*due, Fraction(0)))
                yield due_at(lib, "steepest along v", across, (along, middle), (watts, Fraction(0), due[1]))


def edges_met(rng: Random, lib: Library) -> Iterator[str]:
    """Tables of mixed levels at their corners, along far edges, on knots of every level, on edges of quarter squares, a
    step beside them, and anywhere."""
    for t in stopping.mixed(rng):
        wide, high = 128 * t.w, 128 * t.h
        corners = [(u, v) for v in (0, high) for u in (0, wide)]
        far = [(wide, rng.randint(0, high)), (rng.randint(0, wide), high), (wide - 1, high), (wide, high - 1)]
        knots = [(steps * rng.randint(0, wide // steps), steps * rng.randint(0, high // steps))
                 for steps in (128, 64, 32, 16)]
        points = corners + far + knots + rng.sample(stopping.points_of(rng, t), 6)
        yield from (read_at(lib, "slopes", t, *point) for point in points)


def refused_at(lib: Library, told: str, t: samples.Table, u: int, v: int, due: int) -> str:
    """A refusal, which leaves the watts and both slopes as they were lent, and all else."""
    return differ(words(f"slopes, {told}", t, (u, v)), lib.slopes(*lent(t), u, v), ("refused", due))


def refusals(lib: Library) -> Iterator[str]:
    """Each cause, 1 to 6, alone and with each later one that can stand beside it: the lowest is given."""
    numbers = S.coefficients
    past, short, passive = [32_001, *numbers[1:]], numbers[:-1], [*numbers[:-1], 1]
    tables = [
        *((1, "a side", S._replace(w=w, h=h)) for w, h in ((0, 1), (1, 0), (9, 1), (1, 9), (2**64 - 1, 1), (1, 2**63))),
        (1, "1 with 2", S._replace(w=0, tree=[5])), (1, "1 with 3", S._replace(h=9, coefficients=short)),
        (1, "1 with 4", S._replace(w=9, coefficients=past)), (1, "1 with 5", S._replace(h=0, coefficients=passive)),
        *((2, "a tree", S._replace(tree=tree)) for tree in ([], [5], [1], [0, 0], [4, 0, 0, 0, 0], REFINED[:-1])),
        (2, "2 with 3", S._replace(tree=[5], coefficients=short)),
        (2, "2 with 4", S._replace(tree=[1], coefficients=past)),
        (2, "2 with 5", S._replace(tree=[0, 0], coefficients=passive)),
        *((3, "numbers", S._replace(coefficients=given)) for given in ([], short, [*numbers, 0])),
        (3, "3 with 4", S._replace(coefficients=[*past, 0])), (3, "3 with 5", S._replace(coefficients=[*passive, 1])),
        *((4, "a number", S._replace(coefficients=[*numbers[:15], number, *numbers[16:]]))
          for number in (32_001, -32_001, LEAST, GREATEST)),
        (4, "4 with 5 after it", S._replace(coefficients=[*past[:-1], 1])),
        (4, "4 with 5 before it", S._replace(tree=REFINED, coefficients=[1] + [0] * 39 + [-2_048_001] + [0] * 170)),
        *((5, "a passive place", S._replace(coefficients=[*numbers[:at], number, *numbers[at + 1:]]))
          for at in (16, 41, 90, 210) for number in (1, -1, LEAST)),
    ]
    for due, told, t in tables:
        yield refused_at(lib, told, t, 64, 5, due)
        for u, v in ((129, 0), (0, 129), (2**64 - 1, 2**64 - 1)):
            yield refused_at(lib, f"{told}, with 6", t, u, v, due)
    for w, h in ((1, 1), (2, 1), (1, 3), (8, 8)):
        t, wide, high = fresh_table(w, h, 7), 128 * w, 128 * h
        for u, v in ((wide + 1, 0), (0, high + 1), (wide + 1, high + 1), (wide + 128, 5), (5, high + 128), (2**32, 0),
                     (0, 2**32), (2**32 + 5, 2**32 + 5), (2**63, 0), (0, 2**63), (2**64 - 1, high), (wide, 2**64 - 1)):
            yield refused_at(lib, "a point", t, u, v, 6)
        for u, v in ((wide, high), (wide, 0), (0, high), (0, 0)):
            yield due_at(lib, "the last points", t, (u, v), (Fraction(7), Fraction(0), Fraction(0)))


def fixed(lib: Library) -> List[str]:
    rng = Random(36)  # the same tables in every run, whatever the seed of generated calls is
    parts = by_hand(lib), equal_numbers(lib), steepest(lib), edges_met(rng, lib), refusals(lib)
    return [fault for part in parts for fault in part if fault]

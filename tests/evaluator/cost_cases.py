"""The cost: cases worked out by hand, and the misreadings that they show.

Document 02, Three: 'From now on the cost is rounded once, from the exact reading times the tariff over 1,000, halves
upward. Exact readings of zero or less still cost 0.' Each case has what is due by it and by the rule before it.
"""
from __future__ import annotations

from fractions import Fraction
from math import ceil, floor
from random import Random
from typing import Callable, Dict, List, NamedTuple, Tuple

import calls
from calls import GREATEST_TARIFF
from level_cases import of_cells
from properties import Check
from samples import Point, Table, columns_table, fresh_table
from surface import D

# One step of 1/128 cell on columns -1, 0, 1, 2, and one unit of every coefficient of level 3, each over D.
STEP, UNIT = 1_236_950_581_248, 603_979_776
GREATEST_COST = 3_199_968
TARIFFS = (1, 2, 31, 499, 500, 1_000, 2_950, 50_000, GREATEST_TARIFF)


class Case(NamedTuple):
    """A table and a point, its numerator over D and the watts shown, a tariff, and the cost formerly and now."""

    told: str
    table: Table
    point: Point
    numerator: int
    shown: int
    tariff: int
    former: int
    due: int


# A 1 by 1 table all of level 3, whose numerator over D at (1, 1) is this one, at most 32,000 x D in size: equal
# coefficients, but for that of function (0, 0), of which a unit adds 1 over D there: t^3 / 6 is 1 / 24,576 at t = 1/16.
def reading_as(numerator: int) -> Table:
    units = numerator // UNIT if numerator < 0 else -(-numerator // UNIT)
    coefficients = [0] * 90 + [units] * 121
    coefficients[126] += numerator - units * UNIT
    return Table(1, 1, of_cells(3), coefficients)


def sloping(u: int) -> Dict[str, object]:
    """Columns -1, 0, 1, 2, which read u/128 watts at (u, 5)."""
    return {"table": columns_table((-1, 0, 1, 2)), "point": (u, 5), "numerator": u * STEP}


def at_numerator(numerator: int) -> Dict[str, object]:
    return {"table": reading_as(numerator), "point": (1, 1), "numerator": numerator}


def all_of(watts: int) -> Dict[str, object]:
    return {"table": fresh_table(1, 1, watts), "point": (9, 9), "numerator": watts * D}


# 62/128 watt is 0.484375, and at 99,999 that is 48.437...; 0.49 x D is 77,581,540,455,874.56, and at 50,000 it is 24.5.
# At 99,999 the cost rises from 3,199,549 to 3,199,550 between two numerators that no f64 tells apart.
CASES: List[Case] = [
    Case("31/64 watt", **sloping(62), shown=0, tariff=99_999, former=0, due=48),
    Case("below 0.49 watt", **at_numerator(77_581_540_455_874), shown=0, tariff=50_000, former=0, due=24),
    Case("above 0.49 watt", **at_numerator(77_581_540_455_875), shown=0, tariff=50_000, former=0, due=25),
    Case("below 0.49 watt, dear", **at_numerator(77_581_540_455_874), shown=0, tariff=99_999, former=0, due=49),
    Case("the least above zero", **at_numerator(1), shown=0, tariff=99_999, former=0, due=0),
    Case("zero", **sloping(0), shown=0, tariff=99_999, former=0, due=0),
    Case("the greatest below zero", **at_numerator(-1), shown=0, tariff=99_999, former=0, due=0),
    Case("1/64 watt below zero", columns_table((1, 0, -1, -2)), (2, 5), -2 * STEP, 0, 99_999, 0, 0),
    Case("9 watts below zero", **all_of(-9), shown=-9, tariff=99_999, former=0, due=0),
    Case("1/4 watt, one more", **sloping(32), shown=0, tariff=2_000, former=0, due=1),
    Case("below 1/4 watt", **at_numerator(32 * STEP - 1), shown=0, tariff=2_000, former=0, due=0),
    Case("3/4 watt, one less", **sloping(96), shown=1, tariff=600, former=1, due=0),
    Case("1/2 watt", **sloping(64), shown=1, tariff=99_999, former=100, due=50),
    Case("1/2 watt, 1,499.5 over 1,000", **sloping(64), shown=1, tariff=2_999, former=3, due=1),
    Case("1 watt, 1,499", **all_of(1), shown=1, tariff=1_499, former=1, due=1),
    Case("1 watt, 1,500", **all_of(1), shown=1, tariff=1_500, former=2, due=2),
    *(Case(f"{told} a half near the greatest", **at_numerator(numerator), shown=31_996, tariff=99_999,
           former=3_199_568, due=due)
      for told, numerator, due in (("below", 5_065_886_964_478_281_936, 3_199_549),
                                   ("above", 5_065_886_964_478_281_937, 3_199_550))),
    Case("32,000 watts, dear", **all_of(32_000), shown=32_000, tariff=99_999, former=3_199_968, due=3_199_968),
    Case("32,000 watts, free", **all_of(32_000), shown=32_000, tariff=0, former=0, due=0),
]


# The least numerator whose cost at a tariff is above an amount: n x tariff / (1,000 x D) is at least amount + 1/2.
def least_above(amount: int, tariff: int) -> int:
    return -(-(2 * amount + 1) * 500 * D // tariff)


# Amounts at a tariff, each with the least numerator that costs more: 0, the last one that a reading passes, some drawn.
def steps(rng: Random, tariff: int, drawn: int) -> List[Tuple[int, int]]:
    last = 32 * tariff - 1
    amounts = {0, last, *(rng.randint(0, last) for _ in range(drawn))}
    return [(amount, least_above(amount, tariff)) for amount in sorted(amounts)]


def costs(check: Check) -> None:
    for case in CASES:
        held = *case.table, *case.point
        check(calls.exact(*held).answer == ("ok", case.numerator), "reading of %s" % case.told)
        check(calls.display(*held).answer == ("ok", case.shown), "display of %s" % case.told)
        check(calls.former_cost_of(case.shown, case.tariff) == case.former, "former cost of %s" % case.told)
        check(calls.cost(*held, case.tariff).answer == ("ok", case.due), "cost of %s" % case.told)
    check(any(case.due == case.former + 1 for case in CASES), "one more than formerly")
    check(any(case.due == case.former - 1 for case in CASES), "one less than formerly")


# The most by which a cost can differ from the one before: what half a watt costs, rounded up.
def greatest_change(tariff: int) -> int:
    return ceil(Fraction(tariff, 2_000))


# That is never passed, by readings anywhere and beside halves, and at 2,950 and the greatest tariff it is reached.
def changes(check: Check) -> None:
    rng = Random(4)
    for tariff in (*TARIFFS, *(rng.randint(1, GREATEST_TARIFF) for _ in range(40))):
        near = [watts * D // 2 + off for watts in (0, 1, 2, 7, 63_999, *(rng.randint(0, 64_000) for _ in range(30)))
                for off in (-1, 0, 1)]
        readings = [Fraction(n, D) for n in (*near, *(rng.randint(0, 32_000 * D) for _ in range(200)))]
        moved = [abs(calls.cost_of(x, tariff) - calls.former_cost_of(calls.round_half_up(x), tariff)) for x in readings]
        check(max(moved) <= greatest_change(tariff), "a change of %d at %d" % (max(moved), tariff))
        check(tariff not in (2_950, GREATEST_TARIFF) or max(moved) == greatest_change(tariff), "reached at %d" % tariff)


# One below the least numerator that costs more than an amount the cost is that amount, and there one more.
def nearest(check: Check) -> None:
    rng = Random(3)
    for tariff in (*TARIFFS, *(rng.randint(1, GREATEST_TARIFF) for _ in range(40))):
        for amount, above in steps(rng, tariff, 12):
            for numerator, due in ((above - 1, amount), (above, amount + 1)):
                check(calls.cost_of(Fraction(numerator, D), tariff) == due, "%d/D watts at %d" % (numerator, tariff))
    check(calls.cost_of(Fraction(32_000), GREATEST_TARIFF) == GREATEST_COST, "the greatest cost")


def upward(amount: Fraction) -> int:
    return floor(amount + Fraction(1, 2))


# By the numerator over D and the tariff.
def published(n: int, tariff: int) -> int:
    return max(upward(Fraction(n * tariff, 1_000 * D)), 0)


def in_i64(n: int) -> int:
    return (n + 2**63) % 2**64 - 2**63


MISREADINGS: Dict[str, Callable[[int, int], int]] = {
    "whole watts first": lambda n, t: max(upward(Fraction(upward(Fraction(n, D)) * t, 1_000)), 0),
    "the product to a whole number, then thousandths": lambda n, t: max(
        upward(Fraction(upward(Fraction(n * t, D)), 1_000)), 0),
    "thousandths of a watt first": lambda n, t: max(upward(Fraction(upward(Fraction(1_000 * n, D)) * t, 10**6)), 0),
    "halves downward": lambda n, t: max(ceil(Fraction(n * t, 1_000 * D) - Fraction(1, 2)), 0),
    "rounded down": lambda n, t: max(floor(Fraction(n * t, 1_000 * D)), 0),
    "rounded up": lambda n, t: max(ceil(Fraction(n * t, 1_000 * D)), 0),
    "as much below zero as above": lambda n, t: upward(Fraction(abs(n) * t, 1_000 * D)),
    "above -1 watt by its size": lambda n, t: upward(Fraction(abs(n) * t, 1_000 * D)) if n > -D else 0,
    "the product cut to 64 bits": lambda n, t: max(upward(Fraction(n * t % 2**64, 1_000 * D)), 0),
    "the product cut to an i64": lambda n, t: max(upward(Fraction(in_i64(n * t), 1_000 * D)), 0),
    "what is left over, times the tariff, cut to an i64": lambda n, t: max(
        floor(Fraction(n // D * t + in_i64(n % D * t) // D + 500, 1_000)), 0),
    "worked in f64": lambda n, t: max(floor(n / D * t / 1_000 + 0.5), 0),
}


def cost_misreadings(check: Check) -> None:
    def failing(rule: Callable[[int, int], int]) -> List[str]:
        return [case.told for case in CASES if rule(case.numerator, case.tariff) != case.due]

    check(failing(published) == [], "the cost as published")
    for name, rule in MISREADINGS.items():
        check(failing(rule) != [], "%s shows in no case" % name)

"""Calls on tables, several of a kind on a table that is drawn once, each held to the unrelated evaluator.

A kind of call is a generator: for each call that it makes it yields what is not as it should be, or nothing.
"""
from __future__ import annotations

from random import Random
from typing import Callable, Dict, Iterator, Tuple

import cases
from cases import calls, samples
from library import Answer, Library, differ, numbers, octets
from saving import drawn

# The calls that take a table and a point alone, and those that read at a point.
AT_POINT = ("exact", "watts", "display", "slopes")
READINGS = (*AT_POINT, "cost")


def words(name: str, t: samples.Table, *more) -> str:
    """A call, in words that it can be made from, but for coefficients: those come with the case's number."""
    return f"{name} {t.w} {t.h} {bytes(t.tree).hex()} {' '.join(map(str, more))}"


def least_level(rng: Random, lib: Library) -> Iterator[str]:
    whole = drawn(lib, cases.table(rng))
    for _ in range(30):
        t = cases.sometimes_damaged(rng, whole)
        box = cases.box(rng, t.w, t.h)
        got = lib.least_level(t.w, t.h, octets(t.tree), box)
        want = calls.least_level(t.w, t.h, t.tree, box).answer
        yield differ(words("least_level", t, box), got, want)


def activity(rng: Random, lib: Library) -> Iterator[str]:
    whole = drawn(lib, cases.table(rng))
    for _ in range(12):
        t = cases.sometimes_damaged(rng, whole)
        level = rng.choice((0, 1, 2, 3, 0, 1, 2, 3, 4, 2**40))
        lent = [9] * cases.output_length(rng, cases.level_places(t, level))
        out = octets(lent)
        got = lib.activity(t.w, t.h, octets(t.tree), level, out)
        want = calls.activity(t.w, t.h, t.tree, level, lent)
        yield differ(words("activity", t, level, len(lent)), got, want.answer, (out, want.lent["activity_out"]))


def fresh(rng: Random, lib: Library) -> Iterator[str]:
    for _ in range(12):
        w, h = (rng.choice(tuple(range(1, 9)) * 6 + cases.ODD_SIDES) for _ in range(2))
        value = rng.choice((0, 1, -7, 700, 32_000, -32_000, 32_001, -32_001, cases.LEAST, cases.GREATEST))
        tree_lent = [9] * rng.choice((0, 1, 1, 2, 5))
        numbers_lent = [7] * cases.output_length(rng, cases.all_places(w, h))
        tree, values = octets(tree_lent), numbers(numbers_lent)
        got = lib.fresh(w, h, value, tree, values)
        want = calls.fresh(w, h, value, tree_lent, numbers_lent)
        yield differ(f"fresh {w} {h} {value} {len(tree_lent)} {len(numbers_lent)}", got, want.answer,
                     (tree, want.lent["tree_out"]), (values, want.lent["coefficients_out"]))


def set_coefficient(rng: Random, lib: Library) -> Iterator[str]:
    whole = drawn(lib, cases.table(rng))
    for _ in range(12):
        t = cases.sometimes_damaged(rng, whole)
        place = cases.setting(rng, t)
        values = numbers(t.coefficients)
        got = lib.set_coefficient(t.w, t.h, octets(t.tree), values, *place)
        want = calls.set_coefficient(t.w, t.h, t.tree, t.coefficients, *place)
        yield differ(words("set", t, place), got, want.answer, (values, want.lent["coefficients"]))


def table_cause(rng: Random, lib: Library) -> Iterator[str]:
    whole = drawn(lib, cases.table(rng))
    for k in range(12):
        t = cases.damaged(rng, whole) if k else whole
        got = lib.table_cause(t.w, t.h, octets(t.tree), numbers(t.coefficients))
        cause = calls.judge_table(t.w, t.h, t.tree, t.coefficients)
        yield differ(words("table_cause", t), got, ("refused", cause) if cause else ("ok",))


def read_at(lib: Library, name: str, t: samples.Table, *place: int) -> str:
    """One reading at a point, with the tariff where the cost is asked; an f64 may differ within its bound."""
    got = getattr(lib, name)(t.w, t.h, octets(t.tree), numbers(t.coefficients), *place)
    if name == "slopes":
        return near_slopes(words(name, t, place), got, calls.slopes(*t, *place).answer)
    if name == "watts":
        said = got.said()
        allowed = calls.float_allowed(t.w, t.h, t.tree, t.coefficients, *place, said)
        want = said if allowed else ("within 2^-30 of the numerator over D",
                                     calls.exact(t.w, t.h, t.tree, t.coefficients, *place).answer)
    else:
        want = getattr(calls, name)(t.w, t.h, t.tree, t.coefficients, *place).answer
    return differ(words(name, t, place), got, want)


def near_slopes(told: str, got: Answer, due: Tuple) -> str:
    """Watts and slopes, each of which may differ within its own bound from the fraction that is due, or the refusal."""
    said = got.said()
    near = calls.slopes_allowed(due, said)
    return differ(told, got, said if near else ("within 2^-30 of watts and 2^-20 of slopes", *map(str, due)))


def readings(rng: Random, lib: Library) -> Iterator[str]:
    """All readings of a table at some points; the cost at several tariffs."""
    whole = drawn(lib, cases.reading_table(rng))
    for _ in range(6):
        t = cases.sometimes_damaged(rng, whole)
        u, v = cases.point(rng, t.w, t.h)
        for name in AT_POINT:
            yield read_at(lib, name, t, u, v)
        for _ in range(3):
            yield read_at(lib, "cost", t, u, v, cases.tariff(rng))


def slopes(rng: Random, lib: Library) -> Iterator[str]:
    """Watts and slopes of a table, steep ones among them, at many points, middles of cells among them."""
    whole = drawn(lib, cases.slope_table(rng))
    for _ in range(12):
        t = cases.sometimes_damaged(rng, whole, 0.2)
        yield read_at(lib, "slopes", t, *cases.slope_point(rng, t.w, t.h))


KINDS: Dict[str, Callable[[Random, Library], Iterator[str]]] = {
    "least_level": least_level,
    "activity": activity,
    "fresh": fresh,
    "set": set_coefficient,
    "table_cause": table_cause,
    "readings": readings,
    "slopes": slopes,
}

"""Costs: the cases worked out by hand, and both sides of a numerator at which a cost rises by one.

Document 02, Three: 'rounded once, from the exact reading times the tariff over 1,000, halves upward'.
"""
from __future__ import annotations

from random import Random
from typing import Callable, Dict, Iterator, List

from cases import calls
from cost_cases import CASES, TARIFFS, reading_as, steps
from edges import lent
from library import Library, differ
from surface import STEPS_PER_CELL
from tables import words


def by_hand(lib: Library) -> Iterator[str]:
    for case in CASES:
        held = *lent(case.table), *case.point
        yield differ(f"exact, {case.told}", lib.exact(*held), ("ok", case.numerator))
        yield differ(f"display, {case.told}", lib.display(*held), ("ok", case.shown))
        yield differ(f"cost, {case.told}", lib.cost(*held, case.tariff), ("ok", case.due))


def rises(rng: Random, lib: Library, tariff: int, drawn: int) -> Iterator[str]:
    """At a tariff, what the two numerators cost between which the cost rises from an amount to the next."""
    for amount, above in steps(rng, tariff, drawn):
        for numerator, due in ((above - 1, amount), (above, amount + 1)):
            t = reading_as(numerator)
            yield differ(words("exact", t, (1, 1)), lib.exact(*lent(t), 1, 1), ("ok", numerator))
            yield differ(words("cost", t, (1, 1, tariff)), lib.cost(*lent(t), 1, 1, tariff), ("ok", due))


def drawn_rises(rng: Random, lib: Library) -> Iterator[str]:
    """Where the cost rises at a tariff that is drawn; above the greatest tariff 11, and off the sheet 6 before it."""
    yield from rises(rng, lib, rng.randint(1, calls.GREATEST_TARIFF), 2)
    t, tariff = reading_as(rng.randint(-10**18, 10**18)), calls.GREATEST_TARIFF + rng.choice((1, 2**32, 2**64 - 10**5))
    off = STEPS_PER_CELL + rng.choice((1, 2**32, 2**63))
    yield differ(words("cost", t, (1, 1, tariff)), lib.cost(*lent(t), 1, 1, tariff), ("refused", 11))
    yield differ(words("cost", t, (1, off, tariff)), lib.cost(*lent(t), 1, off, tariff), ("refused", 6))
    yield differ(words("exact", t, (off, 1)), lib.exact(*lent(t), off, 1), ("refused", 6))


def fixed(lib: Library) -> List[str]:
    rng = Random(35)  # the same amounts in every run, whatever the seed of generated calls is
    parts = by_hand(lib), *(rises(rng, lib, tariff, 6) for tariff in TARIFFS)
    return [fault for part in parts for fault in part if fault]


KINDS: Dict[str, Callable[[Random, Library], Iterator[str]]] = {"cost_rises": drawn_rises}

"""That the worked figures in README.md and docs/WHY.md are what the compiled library gives."""
from __future__ import annotations

from typing import Iterator, NamedTuple, Sequence, Tuple

import tablefile
from calls import former_cost_of
from cost_cases import greatest_change
from library import numbers, octets
from make_tables import LIBRARY, ROOT, TABLES
from surface import D, total_places

TARIFF, IN_CENTS = 2_950, 30
REFINED = "kiln-refined-near-top-heat"
COUNTED = REFINED + "-counted"


class Figures(NamedTuple):
    """What the library gives at a point; the cost at the tariff, and at the tariff entered in cents."""

    exact: int
    shown: int
    cost: int
    cost_in_cents: int


def figures(table: tablefile.Content, u: int, v: int) -> Figures:
    w, h, tree, values = table.w, table.h, octets(table.tree), numbers(table.coefficients)
    answers = [LIBRARY.exact(w, h, tree, values, u, v), LIBRARY.display(w, h, tree, values, u, v)]
    answers += [LIBRARY.cost(w, h, tree, values, u, v, tariff) for tariff in (TARIFF, IN_CENTS)]
    return Figures(*(answer.said()[1] for answer in answers))


def slopes(table: tablefile.Content, u: int, v: int) -> Sequence[float]:
    """The watts, and both slopes."""
    return LIBRARY.slopes(table.w, table.h, octets(table.tree), numbers(table.coefficients), u, v).said()[1:]


def cost_at(table: tablefile.Content, u: int, tariff: int) -> int:
    return LIBRARY.cost(table.w, table.h, octets(table.tree), numbers(table.coefficients), u, 0, tariff).said()[1]


def sloping(columns: Tuple[int, int, int, int]) -> tablefile.Content:
    """An unrefined table of 1 by 1 with these columns, in all rows."""
    return tablefile.Content(1, 1, [0], list(columns) * 4 + [0] * (total_places(1, 1) - 16))


def damaged() -> Tuple[int, int]:
    """The bits of the refined sample file, and how many of them turned over alone leave a file that loads."""
    file, loaded = TABLES[COUNTED], 0
    tree_out, numbers_out = octets([0] * 1_365), numbers([0] * total_places(file[3], file[4]))
    for bit in range(8 * len(file)):
        changed = bytearray(file)
        changed[bit // 8] ^= 1 << bit % 8
        loaded += LIBRARY.read_file(octets(changed), tree_out, numbers_out).cause == 0
    return 8 * len(file), loaded


def cost_changed(at: Figures) -> Iterator[str]:
    """What is told of a cost that changed: a worked example, and the greatest change at two tariffs."""
    before, watts = former_cost_of(at.shown, TARIFF), f"{at.exact / D:,.4f}"
    yield f"| Exact watts | {at.exact}/{D} = {watts} | the same |"
    yield f"| Shown | {at.shown:,} W | {at.shown:,} W |"
    yield f"| Priced | {at.shown:,} W, the ones shown | {watts} W |"
    yield f"| Times 2,950 over 1,000 | {at.shown * TARIFF / 1_000:,.2f} | {at.exact * TARIFF / D / 1_000:,.2f} |"
    yield f"| Cost | {before:,}: {before / 100} cents an hour | {at.cost:,}: {at.cost / 100} cents an hour |"
    yield f"{greatest_change(TARIFF)} hundredths an hour at 2,950, {greatest_change(99_999)} at the greatest tariff"
    standby = sloping((-1, 0, 1, 2))
    cheaper, dear, plain = (cost_at(standby, u, tariff) for u, tariff in ((96, 600), (62, 99_999), (62, TARIFF)))
    yield f"at 600, 0.75 W cost {former_cost_of(1, 600)} as the 1 W that is shown, and costs {cheaper} now"
    yield f"31/64 watt at 99,999 costs {dear} now, at 2,950 it costs {plain}"


def told() -> Iterator[Tuple[str, str]]:
    """Pages, each with a sentence that it must have."""
    why = "docs/WHY.md"
    plain, refined, fitted, bench = (tablefile.judge(TABLES[name]) for name in (
        "kiln-unrefined", REFINED, "kiln-fitted-near-top-heat", "bench-s"))
    at, there = figures(plain, 900, 200), figures(plain, 900, 201)
    yield "README.md", f"prints `{at.shown} watts, {at.cost} hundredths of a cent an hour`"
    four = figures(sloping((4,) * 4), 0, 0)
    below, half, tiny = (figures(sloping((-1, 0, 1, 2)), u, 0) for u in (63, 64, 21))
    yield why, f"| 4 W | {four.shown} W | 2,950 | 4 × 2,950 / 1,000 = 11.8, so {four.cost}:"
    yield why, f"| 4 W | {four.shown} W | 30, that is cents | 0.12, so {four.cost_in_cents} |"
    yield why, f"| 0.49 W ({below.exact * 128 // D}/128) | {below.shown} W | 2,950 | 1.45, so {below.cost}:"
    yield why, f"| {half.exact / D} W | {half.shown} W | 2,950 | 1.475, so {half.cost}:"
    yield why, f"| 0.16 W ({tiny.exact * 128 // D}/128) | {tiny.shown} W | 2,950 | 0.48, so {tiny.cost} |"
    none, minus = (figures(sloping((watts,) * 4), 0, 0) for watts in (0, -3))
    yield why, f"| 0 W, or −3 W | {none.shown} W, −{-minus.shown} W | any | {none.cost + minus.cost} |"
    yield why, f"| {at.exact / D:,.1f} W | {at.shown:,} W | 2,950 | {at.cost:,}: {at.cost / 100} cents |"
    yield why, f"| {at.exact / D:,.1f} W | {at.shown:,} W | 30, that is cents | {at.cost_in_cents}: 1.20 cents |"
    yield from ((why, sentence) for sentence in cost_changed(at))
    yield "README.md", f"that moves a cost by at most {greatest_change(TARIFF) / 100} cents an hour"
    yield why, f"at U 900 it is {at.shown:,} W at V 200 and {there.shown:,} W one step further"
    for same in (at, figures(refined, 900, 200)):
        yield why, f"the unrefined sample table and its refined copy both give {same.exact}/{D}"
    yield why, f"the fitted one gives {figures(fitted, 900, 200).shown:,} W"
    middle = figures(bench, 8, 0)
    halves = 2 * middle.exact // D if 2 * middle.exact % D == 0 else -1
    yield why, (f"In `bench-s.table` at 8 0 the exact watts are {halves // 2} {halves % 2}/2, and the display shows "
                f"{middle.shown}")
    hotter, quicker = (float(slope) for slope in slopes(plain, 900, 200)[1:])
    yield why, f"falls by {-hotter:.1f} W hotter and rises by {quicker:.1f} W for a quicker climb"
    bits, loaded = damaged()
    yield why, (f"`{COUNTED}.table` has {bits:,} bits; with a single one turned over, it is refused in "
                f"{bits - loaded:,} cases, and in the other {loaded:,} it loads")


def faults() -> Iterator[str]:
    for name, sentence in told():
        if sentence not in " ".join((ROOT / name).read_text(encoding="utf-8").split()):
            yield f"{name} does not say: {sentence}"

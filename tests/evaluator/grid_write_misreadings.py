"""Misreadings of the converter towards the grid, each with the cases and properties that show it."""
from __future__ import annotations

from random import Random
from typing import Callable, Dict, List, NamedTuple, Sequence, Tuple

import calls
import grid_cases
import grids
import samples
from grid_misreadings import columns_first
from note_cases import refused_tables
from properties import Check
from samples import Table
from stopping import whole
from surface import FINEST, LEVELS, Function, carried_by, coefficient_limit
from tablefile import coefficient_bytes, counts_body, field

TABLE = 0


# The two-scale sum of a function's parents' values.
def summed(table: Table, level: int, function: Function, coarser: Dict[Function, int]) -> int:
    return sum(a * b * coarser[pi, pj] for pj, b in grids.parents_along(table.h, level, function[1])
               for pi, a in grids.parents_along(table.w, level, function[0]))


# Level 3 numbers by another rule for a function: of its own number, the two-scale sum, and whether its cut support lies
# in the region of its level.
def by_rule(rule: Callable[[int, int, bool], int]) -> Callable[[Table], List[int]]:
    def numbers(table: Table) -> List[int]:
        surface, values = table.surface(), {}
        for level in LEVELS:
            coarser, values = values, {}
            for f in surface.functions(level):
                own, inside = table.coefficients[surface.place(level, *f)], surface.lies_in_region(level, level, *f)
                values[f] = rule(own, summed(table, level, f, coarser), inside) if level else own
        return list(values.values())
    return numbers


# Terms of the next level alone dropped that lie in its region: those of older levels are kept there.
def next_only(table: Table) -> List[int]:
    surface = table.surface()
    older = {f: 0 for f in surface.functions(0)}
    own = {f: table.coefficients[surface.place(0, *f)] for f in surface.functions(0)}
    for level in LEVELS[1:]:
        kept = {f: summed(table, level, f, older) for f in surface.functions(level)}
        older = {f: number if surface.lies_in_region(level, level, *f) else number + summed(table, level, f, own)
                 for f, number in kept.items()}
        own = {f: table.coefficients[surface.place(level, *f)] for f in surface.functions(level)}
    return [older[f] + own[f] for f in own]


# The carried value of level 2 that lies nearest, in units of level 3, where a function has none of its own.
def copied(table: Table) -> List[int]:
    surface, carry = table.surface(), carried_by(table.surface(), table.coefficients)
    return [table.coefficients[surface.place(FINEST, i, j)] if surface.active(FINEST, i, j) else
            whole(carry(2, (i - 2) // 2, (j - 2) // 2) * 64**FINEST) for i, j in surface.functions(FINEST)]


# The active coefficients of level 3 alone.
def own_alone(table: Table) -> List[int]:
    surface = table.surface()
    return [table.coefficients[surface.place(FINEST, *f)] for f in surface.functions(FINEST)]


def carried(table: Table) -> List[int]:
    return grids.carried_numbers(table.surface(), table.coefficients)


class Writing(NamedTuple):
    """How a table is converted to a grid, as document 02 has it; any other setting is a misreading."""

    numbers: Callable[[Table], List[int]] = carried
    number_bytes: Callable[[int], bytes] = coefficient_bytes
    fields: Callable[[Table, bytes], bytes] = lambda table, body: field(1, table[:2]) + field(19, body)
    enough: Callable[[int, int], bool] = lambda n, length: n >= length
    order: Tuple[int, ...] = (TABLE, 18)
    past: Callable[[List[int]], List[int]] = lambda bytes_past: bytes_past
    told: Callable[[int, int], int] = lambda length, n: length


# The fields of coarser levels too, with nothing in them, as a file has them.
def as_file(table: Table, body: bytes) -> bytes:
    return field(1, table[:2]) + b"".join(field(16 + level, b"") for level in LEVELS[:FINEST]) + field(19, body)


WRITING_MISREADINGS = {
    "values of level 2 copied": Writing(numbers=copied),
    "level 3's own coefficients alone": Writing(numbers=own_alone),
    # Each step is then a fourth of what it is.
    "weights over 16": Writing(numbers=by_rule(lambda own, above, inside: own if inside else above // 4)),
    "functions not truncated": Writing(numbers=by_rule(lambda own, above, inside: own + above)),
    "truncation against the next level only": Writing(numbers=next_only),
    "columns first": Writing(numbers=lambda table: columns_first(table.w, table.h, carried(table))),
    "numbers low byte first": Writing(number_bytes=lambda number: number.to_bytes(5, "little", signed=True)),
    "a number's size without its sign": Writing(number_bytes=lambda number: abs(number).to_bytes(5, "big")),
    "empty levels too": Writing(fields=as_file),
    "the tree too": Writing(fields=lambda table, body: field(1, table[:2]) + field(2, table.tree) + field(19, body)),
    "counts too": Writing(fields=lambda table, body: (
        field(1, table[:2]) + field(3, counts_body(table.surface())) + field(19, body))),
    "sides turned": Writing(fields=lambda table, body: field(1, [table.h, table.w]) + field(19, body)),
    "18 before the table's causes": Writing(order=(18, TABLE)),
    "18 for an output that is longer": Writing(enough=lambda n, length: n == length),
    "a byte too few is enough": Writing(enough=lambda n, length: n >= length - 1),
    "zeros past the grid": Writing(past=lambda bytes_past: [0] * len(bytes_past)),
    "the output's length": Writing(told=lambda length, n: n),
}


# What a way gives of a table: the answer, and the output after it.
def write_by(way: Writing, table: Table, out: List[int]) -> Tuple[Tuple, List[int]]:
    cause = calls.judge_table(*table)
    length = grids.grid_length(*table[:2]) if cause != 1 else 613
    causes = {TABLE: cause, 18: None if way.enough(len(out), length) else 18}
    number = next((causes[one] for one in way.order if causes[one] is not None), None)
    if number is not None:
        return ("refused", number), out
    numbers = [min(max(n, -(2**39)), 2**39 - 1) for n in way.numbers(table)]
    grid = list(way.fields(table, b"".join(map(way.number_bytes, numbers))))
    return ("ok", way.told(len(grid), len(out))), grid + way.past(out[len(grid) :])


def due(table: Table, out: Sequence[int]) -> Tuple[Tuple, List[int]]:
    outcome = grids.write_grid(*table, out)
    return outcome.answer, outcome.lent["grid_out"]


# Whether a way's grid over the table's own tree gives the table again.
def comes_back(way: Writing, table: Table) -> bool:
    answer, out = write_by(way, table, [8] * grids.GREATEST_GRID)
    back = grids.read_grid(out[: answer[1]], table.tree, [7] * len(table.coefficients))
    return back.lent["coefficients_out"] == table.coefficients


# On which of them each misreading gives another outcome than document 02: what is written by hand, drawn tables, whose
# grids come back, refusals and lengths.
def writing_misreadings(check: Check) -> None:
    rng = Random(77)
    by_hand = [table for _, table, _ in grid_cases.written() if table.w * table.h < 64]
    drawn = [samples.random_table(rng, w, h) for w, h in ((1, 1), (2, 1), (3, 2))]
    drawn.append(samples.table_of(rng, 2, 1, samples.levels_by(lambda u, v: 3 if u < 4 and v < 4 else 0)))
    drawn.append(samples.table_of(rng, 1, 2, ((0,) * 32,) * 32))
    lengths = [(table, [8] * n) for table in by_hand[:2] for n in (0, 612, 613, 614, 700)]
    refused = [(table, [8] * n) for _, table in refused_tables() for n in (0, 612, 613)]

    def failing(way: Writing) -> List[str]:
        groups = {
            "by hand": all(write_by(way, table, [8] * grids.grid_length(*table[:2])) == due(
                table, [8] * grids.grid_length(*table[:2])) for table in by_hand),
            "back": all(comes_back(way, table) for table in drawn),
            "lengths": all(write_by(way, *one) == due(*one) for one in lengths),
            "refusals": all(write_by(way, *one) == due(*one) for one in refused),
        }
        return sorted(name for name, right in groups.items() if not right)

    check(failing(Writing()) == [], "grids written as published")
    everywhere = ["back", "by hand", "lengths"]
    shown_on = {
        # S is lent room for more and less, and one level stands throughout on it.
        "functions not truncated": ["back", "by hand"],
        "truncation against the next level only": ["back", "by hand"],
        "18 before the table's causes": ["refusals"],
        "18 for an output that is longer": ["back", "lengths"],
        "a byte too few is enough": ["lengths"],
        "zeros past the grid": ["lengths"],
        "the output's length": ["back", "lengths"],
        "sides turned": ["back", "by hand"],
    }
    for name, way in WRITING_MISREADINGS.items():
        shown = failing(way)
        check(shown == shown_on.get(name, everywhere), "%s shows on %s" % (name, shown))
    check(coefficient_limit(FINEST) < 2**39, "five bytes hold every number within its limit")

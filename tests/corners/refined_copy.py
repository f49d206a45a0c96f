"""That refining moves no figure of the sample tables: the unrefined one, its refined copy and one fitted anew."""
from __future__ import annotations

from typing import Iterator, List, Tuple

import calls
import samples
import tablefile
from library import Library, numbers, octets
from make_tables import LIBRARY, NEAR_TOP_HEAT, TABLES
from surface import LEVELS


def inserted(table: tablefile.Content) -> tablefile.Content:
    """The table after the evaluator's insertion of the same boxes."""
    for box, level in NEAR_TOP_HEAT:
        outcome = calls.insert(*table, box, level, [0] * 1_365, [0] * len(table.coefficients))
        tree = outcome.lent["tree_out"][: outcome.answer[1]]
        table = table._replace(tree=tree, coefficients=outcome.lent["coefficients_out"])
    return table


def readings(lib: Library, table: tablefile.Content) -> List[Tuple]:
    """The library's exact readings at points that decide every point of the sheet."""
    w, h = table.w, table.h
    tree, values = octets(table.tree), numbers(table.coefficients)
    return [lib.exact(w, h, tree, values, *point).said() for point in samples.deciding_points(w, h)]


def faults() -> Iterator[str]:
    """What is not as it should be; the tables' corners and files are held to the evaluator beside this."""
    names = "kiln-unrefined", "kiln-refined-near-top-heat", "kiln-fitted-near-top-heat"
    plain, refined, fitted = (tablefile.judge(TABLES[name]) for name in names)
    finer = inserted(plain)
    for file, counted in ((TABLES[names[1]], False), (TABLES[f"{names[1]}-counted"], True)):
        if tablefile.write_file(*finer, counted=counted) != file:
            yield f"the refined copy of {len(file)} bytes is not what the evaluator's insertions give"
    if refined.tree != fitted.tree or refined.tree == plain.tree:
        yield "the refined and the fitted table are to share regions that the unrefined one lacks"
    surface = calls.surface_of(refined.w, refined.h, refined.tree)
    if any(not surface.active_functions(level) for level in LEVELS):
        yield "the refined copy has no active function of some level"
    before, after, anew = (readings(LIBRARY, table) for table in (plain, refined, fitted))
    moved = sum(was != now for was, now in zip(before, after))
    if moved or any(answer[0] != "ok" for answer in before):
        yield f"refining moved or lost {moved} of {len(before)} exact readings"
    # A comparison that could not fail would say nothing.
    if before == anew:
        yield "the table that was fitted anew reads everywhere as the unrefined one"

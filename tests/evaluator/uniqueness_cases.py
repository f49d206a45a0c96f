"""Pairs of tables that agree in one respect and have other coefficients, worked out by hand: what document 02, Ten,
asks beside that is needed."""
from __future__ import annotations

from typing import List

import calls
import samples
from full_grids import grid_of
from level_cases import of_cells
from properties import Check
from samples import Table
from surface import D, FINEST, coefficient_limit, place_count, total_places
from uniqueness import EIGHTH, Columns, grid, rank

# Numbers along u that read 0 at every knot of level 3, where the splines are 1, 4 and 1 over 6: 1 + 4 x 0 - 1 = 0, and
# each next is -4 times the last minus the one before.
VANISHING = (1, 0, -1, 4, -15, 56, -209, 780, -2_911, 10_864, -40_545)


# A table of 1 by 1 with level 3 throughout and these numbers along u, in every row.
def level_3_rows(numbers: List[int]) -> Table:
    return Table(1, 1, of_cells(FINEST), [0] * (total_places(1, 1) - 121) + numbers * 11)


# 'with one sheet and one tree': 7 watts read alike over two trees, as sixteen coefficients of 7 and as twenty-five of
# 448, which are 7 x 64.
def other_trees(check: Check) -> None:
    coarse = Table(1, 1, [0], [7] * 16 + [0] * 195)
    fine = Table(1, 1, [4, 4, 4, 1, *[0] * 9], [0] * 16 + [448] * 25 + [0] * 170)
    every, points = grid(1, 1, 1), samples.deciding_points(1, 1)
    check(len(every) == 129**2, "the points of the 1/128 grid")
    for table in (coarse, fine):
        check(calls.judge_table(*table) is None, "7 watts over %s is acceptable" % table.tree)
        check(calls.exact_at(*table, points) == [7 * D] * len(points), "7 watts over %s" % table.tree)
        check(grid_of(table).read(every) == [7 * D] * len(every), "7 watts over %s at every point" % table.tree)
    check(coarse.coefficients != fine.coefficients and coarse.tree != fine.tree, "7 watts over two trees")
    check(samples.inserted(coarse, (0, 0, 4, 4), 1) == fine, "7 watts carried")


# 'at every point of the 1/128 grid': the knots of level 3 are not enough. They are fewer than level 3 functions.
def at_knots(check: Check) -> None:
    zero, vanishing = level_3_rows([0] * 11), level_3_rows([*VANISHING])
    check(all(VANISHING[n] + 4 * VANISHING[n + 1] + VANISHING[n + 2] == 0 for n in range(9)), "the vanishing numbers")
    check(max(map(abs, VANISHING)) <= coefficient_limit(FINEST), "the vanishing numbers are within the limit")
    knots = [(u, v) for u, v in grid(1, 1, 1) if u % EIGHTH == 0]
    between = [(u, v) for u, v in grid(1, 1, 1) if u % EIGHTH != 0]
    for table, name in ((zero, "zero"), (vanishing, "the vanishing one")):
        check(calls.judge_table(*table) is None, name + " is acceptable")
        check(calls.exact_at(*table, knots[::7]) == [0] * len(knots[::7]), name + " at knots along u")
        check(grid_of(table).read(knots) == [0] * len(knots), name + " at all knots along u")
    check((len(knots), len(between)) == (9 * 129, 120 * 129), "so many points at knots along u")
    check(zero.tree == vanishing.tree and zero.coefficients != vanishing.coefficients, "they differ")
    # In the middle of the first cell the splines are 1, 23, 23 and 1 over 48: 1 - 23 + 4 = -18 parts of a unit.
    check(calls.exact(*vanishing, 8, 0).answer == ("ok", -18 * D // (48 * 64**3)), "the vanishing one at (8, 0)")
    check(calls.exact(*zero, 8, 0).answer == ("ok", 0), "zero at (8, 0)")
    check(0 not in grid_of(vanishing).read(between), "between knots")
    for w, h in ((1, 1), (2, 1), (8, 8)):
        points = len(grid(w, h, EIGHTH))
        check(points < place_count(w, h, FINEST), "%d knots on %d by %d" % (points, w, h))
    columns = Columns(zero.surface())
    rows = [columns.row(u, v) for u, v in grid(1, 1, EIGHTH)]
    check(rank(rows) == len(rows) == 81 and len(columns.functions) == 121, "the rank at knots")
    numbers = [VANISHING[i + 3] for _, i, _ in columns.functions]
    check(all(sum(numbers[c] * a for c, a in row.items()) == 0 for row in rows), "they give 0 in every row")


# 'acceptable': a number at a passive place, which 5 refuses, is in no reading.
def passive_numbers(check: Check) -> None:
    s = samples.bench_s()
    points = samples.deciding_points(1, 1)[::11]
    for place in (16, 40, 41, 90, 210):
        other = s._replace(coefficients=[*s.coefficients[:place], 1, *s.coefficients[place + 1 :]])
        check(calls.judge_table(*other) == 5, "a passive number at %d" % place)
        read, due = ([one.surface().read(one.coefficients, u, v) for u, v in points] for one in (other, s))
        check(read == due, "readings with a passive number at %d" % place)


# 'exact readings': whole watts are not enough. 31/64 watt at every point is shown as 0.
def shown_alike(check: Check) -> None:
    zero, standby = level_3_rows([0] * 11), level_3_rows([126_976] * 11)
    check(126_976 * 64 == 31 * 64**3, "31/64 watt in units of level 3")
    points, every = samples.deciding_points(1, 1), grid(1, 1, 1)
    for table, due in ((zero, 0), (standby, 31 * D // 64)):
        check(calls.judge_table(*table) is None, "%d over D is acceptable" % due)
        check(grid_of(table).read(every) == [due] * len(every), "%d over D at every point" % due)
        check(calls.exact_at(*table, points) == [due] * len(points), "%d over D" % due)
        check(all(calls.display(*table, u, v).answer == ("ok", 0) for u, v in points[::5]), "%d over D shown" % due)
    check(zero.tree == standby.tree and zero.coefficients != standby.coefficients, "0 and 31/64 watt differ")


def pairs(check: Check) -> None:
    other_trees(check)
    at_knots(check)
    shown_alike(check)
    passive_numbers(check)

"""Properties that every reading and every saved file must have, and the misreadings that must not have them."""
from __future__ import annotations

from fractions import Fraction
from math import ceil, floor
from random import Random
from typing import Callable, List, Optional, Tuple

import calls
import samples
import tablefile
import tree as quadtree
from samples import Insertion, Table
from surface import (
    D,
    FINEST,
    LEVELS,
    NEXT_LEVEL,
    PUBLISHED,
    QUARTERS_PER_CELL,
    UNCUT_LEVEL_0,
    UNCUT_NO_REGION,
    UNTRUNCATED,
    Rules,
    Surface,
    carried_watts,
    knot_indices,
    spline,
)

Check = Callable[[bool, str], None]

SMALL_SHEETS = [(w, h) for h in (1, 2, 3, 4) for w in (1, 2, 3, 4)]
LARGE_SHEETS = [(8, 8), (8, 1), (1, 8), (5, 7)]

MISREADINGS = {
    "uncut supports, no region beyond the sheet": Rules(supports=UNCUT_NO_REGION),
    "uncut supports, level 0 beyond the sheet": Rules(supports=UNCUT_LEVEL_0),
    "truncation against the next level only": Rules(truncation=NEXT_LEVEL),
    "no truncation": Rules(truncation=UNTRUNCATED),
    "weights over 16": Rules(weights_over=16),
}


# Document 01, The sheet and its grids: the four splines of a cell, and the two-scale relation between levels.
def splines(check: Check) -> None:
    for cells in (1, 2, 5):
        for k in range(8 * cells + 1):
            x = Fraction(k, 8)
            values = [spline(i, x, cells) for i in range(-3, cells)]
            check(sum(values) == 1 and min(values) >= 0, "splines add to one at %s of %d cells" % (x, cells))
    sheet = Surface(2, 1, quadtree.level_map([0], 2, 1))
    for level in (0, 1, 2):
        for i, j in sheet.functions(level):
            for u, v in ((0, 0), (256, 128), (131, 77), (96, 3)):
                finer = sum(
                    weight * sheet.untruncated_value(level + 1, ci, cj, u, v)
                    for (ci, cj), weight in sheet.children(level, i, j).items()
                )
                same = finer == sheet.untruncated_value(level, i, j, u, v)
                check(same, "two-scale relation of %d (%d, %d) at %d %d" % (level, i, j, u, v))


# Document 01, Regions: trees and level maps stand for each other, and what an insertion does to the levels.
def trees(check: Check) -> None:
    rng = Random(11)
    for w, h in SMALL_SHEETS + LARGE_SHEETS:
        for levels in (samples.random_levels(rng, w, h, 5), samples.speckled_levels(rng, w, h, (0, 1, 2, 3))):
            tree = quadtree.tree_of(levels)
            check(quadtree.level_map(tree, w, h) == levels, "level map of the tree on %d by %d" % (w, h))
            check(1 <= len(tree) <= quadtree.GREATEST_TREE, "tree length on %d by %d" % (w, h))
            for cut in {0, 1, len(tree) // 2, len(tree) - 1} - {len(tree)}:
                check(quadtree.level_map(tree[:cut], w, h) is None, "a cut tree is damaged")
            check(quadtree.level_map(tree + [0], w, h) is None, "a byte after the tree")
            box = samples.random_box(rng, w, h)
            u0, v0, u1, v1 = box
            level = rng.choice((1, 2, 3))
            after = quadtree.level_map(quadtree.insert_box(tree, w, h, box, level), w, h)
            inside = {(u, v) for v in range(v0, v1) for u in range(u0, u1)}
            raised = all(
                after[v][u] == (max(levels[v][u], level) if (u, v) in inside else levels[v][u])
                for v in range(32)
                for u in range(32)
            )
            check(raised, "levels after the insertion of %s" % (box,))
    full = samples.speckled_levels(rng, 8, 8, (0,))
    board = tuple(tuple((u + v) % 2 for u in range(32)) for v in range(32))
    check(quadtree.tree_of(full) == [0] and len(quadtree.tree_of(board)) == 1_365, "shortest and longest tree")


# Document 01, Regions, and document 02, Four: the least and the greatest level under a box against its squares one by
# one, and the count against all nodes; boxes of any size and of one quarter, and whole sheets.
def levels_under(check: Check) -> None:
    rng = Random(21)
    for w, h in SMALL_SHEETS + LARGE_SHEETS:
        for levels in (samples.random_levels(rng, w, h, 5), samples.speckled_levels(rng, w, h, (0, 1, 2, 3))):
            tree = quadtree.tree_of(levels)
            boxes = [samples.random_box(rng, w, h) for _ in range(8)] + [(0, 0, 4 * w, 4 * h)]
            boxes += [(u, v, u + 1, v + 1) for u, v, _, _ in boxes[:4]]
            for box in boxes:
                u0, v0, u1, v1 = box
                under = [levels[v][u] for v in range(v0, v1) for u in range(u0, u1)]
                visited = sum(quadtree.shares_area(u, v, side, box) for u, v, side in nodes(tree))
                answer = calls.least_level(w, h, tree, box).answer
                told = "levels under %s on %d by %d" % (box, w, h)
                check(answer == ("ok", min(under), max(under), visited), told)


# The squares of all nodes of a tree, without regard to a box; the root's square shares area with every box.
def nodes(tree: List[int]) -> List[Tuple[int, int, int]]:
    found, waiting = [], [(0, 0, 32)]
    for byte in tree:
        u, v, side = waiting.pop()
        found.append((u, v, side))
        if byte == quadtree.SPLIT:
            waiting += [(cu, cv, side // 2) for cu, cv in reversed(quadtree.quadrants(u, v, side))]
    return found


# Source document 003's selection rule: the support lies in the region of level L and not in that of level L+1.
def selection(check: Check) -> None:
    rng = Random(12)
    for w, h in SMALL_SHEETS + LARGE_SHEETS:
        table = samples.random_table(rng, w, h)
        levels = quadtree.level_map(table.tree, w, h)
        for level in LEVELS:
            surface = table.surface()
            places = len(list(surface.functions(level)))
            out = calls.activity(w, h, table.tree, level, [5] * places).lent["activity_out"]
            told = []
            across = {i: squares_of(level, i, w) for i in knot_indices(w, level)}
            along = {j: squares_of(level, j, h) for j in knot_indices(h, level)}
            for i, j in surface.functions(level):
                squares = [levels[v][u] for v in along[j] for u in across[i]]
                in_own = all(square >= level for square in squares)
                told.append(int(in_own and not all(square >= level + 1 for square in squares)))
            check(out == told, "activity of level %d on %d by %d" % (level, w, h))


# The quarter squares of one direction that share area with a support, found by trying each square of the sheet.
def squares_of(level: int, i: int, side: int) -> List[int]:
    low, high = Fraction(4 * i, 2**level), Fraction(4 * (i + 4), 2**level)
    return [q for q in range(QUARTERS_PER_CELL * side) if max(low, q) < min(high, q + 1)]


# Document 01, Functions and coefficients: truncated functions written out in level 3 against the values at points.
def truncation(check: Check) -> None:
    rng = Random(13)
    for w, h in ((1, 1), (2, 1), (2, 2), (3, 2)):
        for _ in range(2):
            surface = samples.random_table(rng, w, h, 3).surface()
            points = samples.random_points(rng, w, h, 5)
            for level in LEVELS:
                active = surface.active_functions(level)
                for i, j in rng.sample(active, min(6, len(active))):
                    terms = surface.truncated_in_finest(level, i, j)
                    check(all(amount > 0 for amount in terms.values()), "terms of a truncated function are above 0")
                    for u, v in points:
                        written = sum(
                            (a * surface.untruncated_value(FINEST, *t, u, v) for t, a in terms.items()), Fraction(0)
                        )
                        value = surface.truncated_value(level, i, j, u, v)
                        check(written == value, "truncated %d (%d, %d) at %d %d" % (level, i, j, u, v))


# Demand 3 with equal coefficients: they 'read as themselves'.
def unity(check: Check) -> None:
    rng = Random(14)
    for w, h in SMALL_SHEETS + LARGE_SHEETS:
        levels = samples.random_levels(rng, w, h, 5)
        tree = quadtree.tree_of(levels)
        for watts in (1, -31_999):
            coefficients = samples.equal_coefficients(calls.surface_of(w, h, tree), watts)
            points = samples.random_points(rng, w, h, 10)
            for numerator in calls.exact_at(w, h, tree, coefficients, points):
                check(numerator == watts * D, "equal coefficients of %d watts on %d by %d" % (watts, w, h))


# Demand 3: each exact reading lies 'between the least and the greatest active coefficient ... whose support holds'.
def convexity(check: Check) -> None:
    rng = Random(15)
    for w, h in SMALL_SHEETS + LARGE_SHEETS:
        table = samples.random_table(rng, w, h)
        for u, v in samples.random_points(rng, w, h, 12):
            least, greatest = table.surface().coefficient_range(table.coefficients, u, v)
            reading = Fraction(calls.exact(*table, u, v).answer[1], D)
            check(least <= reading <= greatest, "reading within its coefficients on %d by %d" % (w, h))


# Demand 3: 'the first's exact reading is a times the second's plus b times the third's'.
def linearity(check: Check) -> None:
    rng = Random(16)
    for w, h in SMALL_SHEETS + LARGE_SHEETS:
        second = samples.random_table(rng, w, h, share=100)
        third = second._replace(coefficients=samples.random_coefficients(rng, second.surface(), 100))
        a, b = rng.randint(-49, 49), rng.randint(-49, 49)
        mixed = [a * c + b * d for c, d in zip(second.coefficients, third.coefficients)]
        first = second._replace(coefficients=mixed)
        points = samples.random_points(rng, w, h, 6)
        readings = [calls.exact_at(*table, points) for table in (first, second, third)]
        for r1, r2, r3 in zip(*readings):
            check(r1 == a * r2 + b * r3, "reading of %d times plus %d times on %d by %d" % (a, b, w, h))


# Document 01, What each call is held to, 5: the table after an accepted insertion, or the one that was read.
def table_after(check: Check, table: Table, insertion: Insertion) -> Table:
    outcome = calls.insert(*table, *insertion)
    lent = outcome.lent
    check(lent["tree"] == table.tree and lent["coefficients"] == table.coefficients, "insertion leaves what it reads")
    if outcome.answer[0] == "refused":
        kept = lent["tree_out"] == insertion.tree_out and lent["coefficients_out"] == insertion.coefficients_out
        check(kept, "a refused insertion writes nothing")
        return table
    length = outcome.answer[1]
    check(lent["tree_out"][length:] == insertion.tree_out[length:], "tree output past the tree is untouched")
    return table._replace(tree=lent["tree_out"][:length], coefficients=lent["coefficients_out"])


# Demand 3: 'After the list the exact reading at every point of the sheet equals that before the list'.
def refinement(check: Check) -> None:
    rng = Random(17)
    for w, h in SMALL_SHEETS + LARGE_SHEETS:
        start = table = samples.random_table(rng, w, h, 3)
        for _ in range(rng.randint(2, 6)):
            table = table_after(check, table, samples.random_insertion(rng, w, h, len(table.coefficients)))
            check(calls.judge_table(*table) is None, "the table after an insertion is acceptable")
        points = samples.deciding_points(w, h) if w * h == 1 else samples.random_points(rng, w, h, 20)
        pairs = zip(points, calls.exact_at(*start, points), calls.exact_at(*table, points))
        for (u, v), before, after in pairs:
            least, greatest = start.surface().coefficient_range(start.coefficients, u, v)
            check(before == after, "refining moved the reading at %d %d on %d by %d" % (u, v, w, h))
            check(floor(least * D) <= after <= ceil(greatest * D), "reading within the starting coefficients")
    # One jump of three levels and back to the shortest tree: every quarter square in the end at level 3.
    start = samples.table_of(rng, 8, 8, samples.speckled_levels(rng, 8, 8, (0, 1, 2, 3)))
    whole = Insertion((0, 0, 32, 32), 3, [9] * 1, [7] * len(start.coefficients))
    table = table_after(check, start, whole)
    check(table.tree == [3] and len(start.tree) > 1, "the whole sheet at level 3")
    points = samples.random_points(rng, 8, 8, 60)
    check(calls.exact_at(*start, points) == calls.exact_at(*table, points), "8 by 8 refined to the finest level")


# Whether equal coefficients read as themselves under the given rules.
def unity_holds(rules: Rules, w: int, h: int, tree: List[int], points: List[Tuple[int, int]]) -> bool:
    surface = Surface(w, h, quadtree.level_map(tree, w, h), rules)
    return all(surface.read_watts(lambda level, i, j: Fraction(700), u, v) == 700 for u, v in points)


# Whether an insertion moves no reading when it carries by one set of rules and is read by another.
def refinement_holds(
    carrying: Rules, reading: Rules, table: Table, insertion: Insertion, points: List[Tuple[int, int]]
) -> bool:
    w, h = table.w, table.h
    before = quadtree.level_map(table.tree, w, h)
    after = quadtree.raised(before, insertion.box, insertion.level)
    new_watts = carried_watts(Surface(w, h, before, carrying), Surface(w, h, after, carrying), table.coefficients)
    old, new = Surface(w, h, before, reading), Surface(w, h, after, reading)
    return all(
        old.read(table.coefficients, u, v) == new.read_watts(lambda *f: new_watts[f], u, v) for u, v in points
    )


# Document 01, Misreadings to shut out: on which properties each one gives another answer than the published rules.
def misreadings(check: Check) -> None:
    box_tree = quadtree.insert_box([0], 2, 1, (0, 0, 4, 4), 1)
    jump_tree = quadtree.insert_box([0], 2, 2, (2, 2, 5, 5), 3)
    points = [(0, 0), (64, 64), (80, 80), (100, 100), (128, 128), (256, 128)]
    start = samples.random_table(Random(18), 2, 2, 2)
    step = Insertion((1, 1, 6, 6), 3, [], [])
    cases = {
        "equal, level 1 box": lambda rules: unity_holds(rules, 2, 1, box_tree, points),
        "equal, level 3 box": lambda rules: unity_holds(rules, 2, 2, jump_tree, points),
        "insertion": lambda rules: refinement_holds(rules, rules, start, step, points),
    }
    for title, holds in cases.items():
        check(holds(PUBLISHED), "the published rules: %s" % title)
    shown_by = {
        "uncut supports, no region beyond the sheet": {"equal, level 1 box", "equal, level 3 box"},
        # A function that reaches beyond the sheet is then never refined away, which only its activity shows.
        "uncut supports, level 0 beyond the sheet": set(),
        "truncation against the next level only": {"equal, level 3 box", "insertion"},
        "no truncation": {"equal, level 1 box", "equal, level 3 box", "insertion"},
        # The same wrong weights in carrying and in reading cancel; they show when only one of the two is wrong.
        "weights over 16": {"equal, level 1 box", "equal, level 3 box"},
    }
    for name, rules in MISREADINGS.items():
        failing = {title for title, holds in cases.items() if not holds(rules)}
        check(failing == shown_by[name], "%s shows on %s" % (name, sorted(failing)))
    over_16 = MISREADINGS["weights over 16"]
    check(not refinement_holds(over_16, PUBLISHED, start, step, points), "carrying with weights over 16")
    check(not refinement_holds(PUBLISHED, over_16, start, step, points), "reading with weights over 16")


# The table with another number at one place.
def with_number(table: Table, place: int, number: int) -> Table:
    return table._replace(coefficients=[*table.coefficients[:place], number, *table.coefficients[place + 1 :]])


# A table and others near it: one active number less in size by one or of the other sign, a box of level 3 more.
def near(rng: Random, table: Table) -> List[Table]:
    found = [table]
    places = [place for place, number in enumerate(table.coefficients) if number != 0]
    for place in rng.sample(places, 4):
        number = table.coefficients[place]
        found += [with_number(table, place, other) for other in (number - 1 if number > 0 else number + 1, -number)]
    raised = Insertion((0, 0, 1, 1), 3, [9] * quadtree.GREATEST_TREE, [7] * len(table.coefficients))
    after = calls.insert(*table, *raised)
    tree = after.lent["tree_out"][: after.answer[1]]
    return found + [table._replace(tree=tree, coefficients=after.lent["coefficients_out"])] * (tree != table.tree)


# The table that a file loads, None for a file that is refused.
def loaded(file: List[int]) -> Optional[Table]:
    content = tablefile.judge(file)
    return None if isinstance(content, int) else Table(*content)


# Document 02, One: 'Each acceptable table has one file; loading it restores the same tree and coefficients'.
def saving(check: Check) -> None:
    rng, saved = Random(19), {}
    for w, h in SMALL_SHEETS + LARGE_SHEETS:
        for table in near(rng, samples.random_table(rng, w, h)):
            active = sum(limit is not None for limit in table.surface().limits())
            # Seven heads of 3; the sides, the tree, the counts, the coefficients. The old rule's length is 11 less.
            length = 7 * 3 + 2 + len(table.tree) + 8 + 5 * active
            outcome = calls.write_file(*table, [8] * (length + 3))
            file = outcome.lent["file_out"][:length]
            check(outcome.answer == ("ok", length), "file length on %d by %d" % (w, h))
            old = tablefile.write_file(*table, counted=False)
            check(len(old) == length - 11, "file length of the old rule on %d by %d" % (w, h))
            check(outcome.lent["file_out"][length:] == [8] * 3, "bytes past the file on %d by %d" % (w, h))
            check(loaded(file) == table, "a saved table loads as it was on %d by %d" % (w, h))
            check(saved.setdefault(bytes(file), table) == table, "two tables have one file on %d by %d" % (w, h))
            short = [8] * rng.choice((0, length - 1, rng.randrange(length)))
            lent = {"tree": table.tree, "coefficients": table.coefficients, "file_out": short}
            check(calls.write_file(*table, short) == (("refused", 18), lent), "18 on %d by %d" % (w, h))
    check(len(saved) > 180, "only %d tables were saved" % len(saved))


# Document 02, One: 'saving a loaded file reproduces its bytes'; Seven: 'only of files that had' the counts, and others
# get them. Of files with one bit turned over, where they load.
def saving_again(check: Check) -> None:
    rng, again = Random(20), {True: 0, False: 0}
    for w, h in SMALL_SHEETS + LARGE_SHEETS:
        drawn = samples.random_table(rng, w, h)
        for counted in (True, False):
            file = list(tablefile.write_file(*drawn, counted=counted))
            for at in rng.sample(range(len(file)), 30):
                other = file[:at] + [file[at] ^ 1 << rng.randrange(8)] + file[at + 1 :]
                table = loaded(other)
                if table is not None:
                    again[counted] += 1
                    due = other if counted else list(tablefile.with_counts(bytes(other)))
                    outcome = calls.write_file(*table, [8] * len(due))
                    same = outcome.answer == ("ok", len(due)) and outcome.lent["file_out"] == due
                    check(same, "saving what was loaded on %d by %d" % (w, h))
                    check(counted or (len(due) == len(other) + 11 and due != other), "counts are added")
    check(min(again.values()) > 200, "only %s files were saved again" % again)

"""What holds of every enquiry and every commit, tried on drawn tables, boxes, levels and slips.

Document 02, Five: 'In demand 3's list enquiries and commits then take the place of insertions, a commit with whatever
slip it is handed; after an enquiry, accepted or refused, the table is the one it read. Carrying over still moves no
figure.'
"""
from __future__ import annotations

from collections import Counter
from random import Random
from typing import Tuple

import calls
import enquiries
import samples
from enquiries import Slip
from properties import LARGE_SHEETS, SMALL_SHEETS, Check
from samples import Insertion, Table
from surface import LEVELS, place_count


# The active functions of a level that the activity call tells.
def active_count(table: Table, level: int) -> int:
    out = [5] * place_count(table.w, table.h, level)
    return sum(calls.activity(table.w, table.h, table.tree, level, out).lent["activity_out"])


# What a slip tells beside its box and level, found by the calls on the table that is there.
def standing(table: Table, slip: Slip) -> Tuple[int, Tuple[int, ...], int]:
    visited = calls.least_level(table.w, table.h, table.tree, slip.box).answer[-1]
    return len(table.tree), tuple(active_count(table, level) for level in LEVELS), visited


# The table after a commit: 'the tree output up to the returned length, with the coefficients written', or the one read.
def table_after(table: Table, outcome: calls.Outcome) -> Table:
    if outcome.answer[0] == "refused":
        return table
    return table._replace(
        tree=outcome.lent["tree_out"][: outcome.answer[1]], coefficients=outcome.lent["coefficients_out"]
    )


# A step of the list: an enquiry or a commit, with all that it leaves checked. The table after it.
def step(check: Check, rng: Random, table: Table, one: Insertion, tried: Counter) -> Table:
    if rng.random() < 0.3:
        outcome = enquiries.enquire(*table, one.box, one.level)
        check(outcome.lent == {"tree": table.tree, "coefficients": table.coefficients}, "an enquiry writes nothing")
        tried["enquiry", outcome.answer[0]] += 1
        return table
    slip = samples.whatever_slip(rng, table, one.box, one.level)
    outcome = enquiries.commit(*table, slip, one.tree_out, one.coefficients_out)
    lent = {"tree": table.tree, "coefficients": table.coefficients}
    check({name: outcome.lent[name] for name in lent} == lent, "a commit leaves what it reads")
    if outcome.answer[0] == "refused":
        outputs = {"tree_out": one.tree_out, "coefficients_out": one.coefficients_out}
        check(outcome.lent == {**lent, **outputs}, "a refused commit writes nothing")
    tried["commit", *outcome.answer[: 1 + (outcome.answer[0] == "refused")]] += 1
    return table_after(table, outcome)


# Demand 3 of the list: 'After the list the exact reading at every point of the sheet equals that before the list'.
def lists(check: Check) -> None:
    rng, tried = Random(51), Counter()
    for w, h in SMALL_SHEETS + LARGE_SHEETS:
        start = table = samples.random_table(rng, w, h, 3)
        for _ in range(rng.randint(4, 12)):
            table = step(check, rng, table, samples.random_insertion(rng, w, h, len(table.coefficients)), tried)
            check(calls.judge_table(*table) is None, "the table after a step is acceptable")
        points = samples.deciding_points(w, h) if w * h == 1 else samples.random_points(rng, w, h, 20)
        same = calls.exact_at(*start, points) == calls.exact_at(*table, points)
        check(same, "a list moved a reading on %d by %d" % (w, h))
    least = {("enquiry", "ok"): 20, ("enquiry", "refused"): 5, ("commit", "ok"): 20, ("commit", "refused", 19): 20}
    least.update({("commit", "refused", number): 1 for number in (7, 8, 16, 17)})
    for kind, count in least.items():
        check(tried[kind] >= count, "steps that were tried: %s" % dict(tried))


# 'new tree length, active functions of each level over the new tree, and the tree nodes that one least-level call over
# the box will visit': what the slip tells is there after the commit, and an enquiry then tells the same again.
def told_and_left(check: Check) -> None:
    rng, moved = Random(52), 0
    for w, h in SMALL_SHEETS + LARGE_SHEETS:
        for _ in range(3):
            table, box = samples.random_table(rng, w, h), samples.random_box(rng, w, h)
            slip = enquiries.enquire(*table, box, rng.choice((1, 2, 3))).answer[1]
            outcome = enquiries.commit(*table, slip, [9] * slip.length, [7] * len(table.coefficients))
            after, told = table_after(table, outcome), "on %d by %d, %s" % (w, h, slip)
            check(outcome.answer == ("ok", slip.length), "the length that was told " + told)
            check(standing(after, slip) == slip.told(), "what was told is left " + told)
            again = enquiries.enquire(*after, slip.box, slip.level).answer
            check(again == ("ok", slip), "the table that is left gives the same slip " + told)
            moved += standing(table, slip) != slip.told()
    check(moved >= 40, "only %d commits changed a number" % moved)


# 'with insertion's checks', 'inserts as before': an enquiry and the commit of its slip are document 01's insertion.
def as_insertion(check: Check) -> None:
    rng, tried = Random(53), Counter()
    for w, h in SMALL_SHEETS + LARGE_SHEETS:
        table = samples.random_table(rng, w, h)
        for _ in range(6):
            one = samples.random_insertion(rng, w, h, len(table.coefficients))
            due = calls.insert(*table, *one)
            enquiry = enquiries.enquire(*table, one.box, one.level).answer
            early = due.answer[0] == "refused" and due.answer[1] < 16
            right = enquiry == due.answer if early else enquiry[0] == "ok"
            check(right, "an enquiry where an insertion gives %s" % (due.answer,))
            slip = Slip(one.box, one.level, 0, (0,) * 4, 0) if early else enquiry[1]
            outcome = enquiries.commit(*table, slip, one.tree_out, one.coefficients_out)
            check(outcome == due, "a commit is the insertion of %s on %d by %d" % (one[:2], w, h))
            tried[due.answer[0]] += 1
    check(min(tried["ok"], tried["refused"]) >= 20, "insertions that were tried: %s" % dict(tried))


# '19, the slip is not the one that this table gives for the slip's own box and level': given for every other slip, and
# for none that is the same, whichever table gave it; coefficients have no part in it.
def whose(check: Check) -> None:
    rng, tried = Random(54), Counter()
    for w, h in SMALL_SHEETS + LARGE_SHEETS:
        table = samples.random_table(rng, w, h, 2)
        other = table._replace(coefficients=samples.random_coefficients(rng, table.surface()))
        for _ in range(8):
            box, level = samples.random_box(rng, w, h), rng.choice((1, 2, 3))
            own, slip = enquiries.slip_of(w, h, table.tree, box, level), samples.whatever_slip(rng, table, box, level)
            check(enquiries.enquire(*other, box, level).answer == ("ok", own), "other coefficients give another slip")
            due = ("ok", own.length) if slip == own else ("refused", 19)
            for one in (table, other):
                outcome = enquiries.commit(*one, slip, [9] * own.length, [7] * len(one.coefficients))
                check(outcome.answer == due, "%s handed to a table that gives %s" % (slip, own))
            tried[due[0]] += 1
    check(min(tried["ok"], tried["refused"]) >= 40, "slips that were tried: %s" % dict(tried))

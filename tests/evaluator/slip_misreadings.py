"""Misreadings of the slip, the enquiry and the commit, each with the cases and properties that show it."""
from __future__ import annotations

from functools import cached_property, lru_cache
from random import Random
from typing import Callable, Dict, List, NamedTuple, Optional, Sequence, Tuple

import calls
import enquiries
import samples
import tree as quadtree
from enquiries import Slip
from properties import Check
from samples import Table
from slip_cases import CASES, COMMITS, Commit, faults
from slip_properties import standing, table_after
from surface import LEVELS, PUBLISHED, UNCUT_LEVEL_0, Box, LevelMap, Rules, Surface, place_count

# What finds a number of the slip: from the table as it is, the levels after, and the box.
Found = Callable[[Table, LevelMap, Box], int]
# Whether the slip that a table gives and the one that is handed over count as the same, of a case.
Same = Callable[[Slip, Slip, Commit], bool]


def _levels(table: Table) -> LevelMap:
    return calls.surface_of(*table[:3]).levels


def _active(table: Table, levels: LevelMap, rules: Rules = PUBLISHED) -> List[int]:
    surface = Surface(table.w, table.h, levels, rules)
    return [len(surface.active_functions(level)) for level in LEVELS]


def _newly_active(table: Table, levels: LevelMap) -> List[int]:
    old, new = table.surface(), Surface(table.w, table.h, levels)
    return [len({*new.active_functions(level)} - {*old.active_functions(level)}) for level in LEVELS]


def _nodes(tree: Sequence[int], box: Box) -> int:
    return quadtree.levels_under(tree, box)[-1]


# The named level in the box, also where it was greater.
def _lowered(levels: LevelMap, box: Box, level: int) -> LevelMap:
    bare = tuple(tuple(0 if quadtree.shares_area(u, v, 1, box) else old for u, old in enumerate(row))
                 for v, row in enumerate(levels))
    return quadtree.raised(bare, box, level)


class Way(NamedTuple):
    """How slips are given and taken, as document 02 has it; any other setting is a misreading."""

    raised: Callable[[LevelMap, Box, int], LevelMap] = quadtree.raised
    length: Found = lambda table, levels, box: len(quadtree.tree_of(levels))
    active: Callable[[Table, LevelMap], List[int]] = _active
    visited: Found = lambda table, levels, box: _nodes(quadtree.tree_of(levels), box)
    checks: Callable[[Table, Box, int], Optional[int]] = lambda table, box, level: calls.judge_insertion(
        *table, box, level)
    enquiry_writes: bool = False
    refused_writes: bool = False
    same: Same = lambda own, handed, case: own == handed
    order: Tuple[int, ...] = (0, 7, 8, 19, 16, 17)
    hands_over: bool = False


# Whether some numbers of two slips are the same.
def only(numbers: Callable[[Slip], object]) -> Same:
    return lambda own, handed, case: numbers(own) == numbers(handed)


# The numbers of a slip in so many bits.
def in_bits(bits: int) -> Same:
    return only(lambda slip: [number % 2**bits for number in (slip.length, *slip.active, slip.visited)])


SLIP_MISREADINGS = {
    "the old tree's length": Way(length=lambda table, levels, box: len(table.tree)),
    "the old tree's active functions": Way(active=lambda table, levels: _active(table, _levels(table))),
    "the nodes of the old tree": Way(visited=lambda table, levels, box: _nodes(table.tree, box)),
    "the new tree's splits": Way(length=lambda table, levels, box: quadtree.tree_of(levels).count(quadtree.SPLIT)),
    "functions that become active": Way(active=_newly_active),
    "all places of a level": Way(active=lambda table, levels: [place_count(*table[:2], level) for level in LEVELS]),
    "levels 3 to 0": Way(active=lambda table, levels: _active(table, levels)[::-1]),
    "supports not cut": Way(active=lambda table, levels: _active(table, levels, Rules(supports=UNCUT_LEVEL_0))),
    "the nodes under the whole sheet": Way(visited=lambda table, levels, box: _nodes(
        quadtree.tree_of(levels), (0, 0, 4 * table.w, 4 * table.h))),
    "all nodes": Way(visited=lambda table, levels, box: len(quadtree.tree_of(levels))),
    "the level in place of a greater one": Way(raised=_lowered),
}
ENQUIRY_MISREADINGS = {
    "an enquiry that writes": Way(enquiry_writes=True),
    "coefficients not checked": Way(checks=lambda table, box, level: calls.judge_insertion(
        *table[:3], samples.equal_coefficients(table.surface(), 0) if calls.judge_regions(*table[:3]) is None else [],
        box, level)),
    "level 0 taken": Way(checks=lambda table, box, level: calls.judge_insertion(*table, box, level or 1)),
}
COMMIT_MISREADINGS = {
    "any slip trusted": Way(same=lambda own, handed, case: True),
    "box and level alone compared": Way(same=only(lambda slip: slip[:2])),
    "the length alone compared": Way(same=only(lambda slip: slip.length)),
    "the active functions alone compared": Way(same=only(lambda slip: slip.active)),
    "the nodes not compared": Way(same=only(lambda slip: (slip.length, slip.active))),
    "the length not compared": Way(same=only(lambda slip: (slip.active, slip.visited))),
    "all active functions together compared": Way(same=only(lambda slip: (
        slip.length, sum(slip.active), slip.visited))),
    **{"level %d not compared" % level: Way(same=only(lambda slip, level=level: (
        slip.length, slip.active[:level], slip.active[level + 1 :], slip.visited))) for level in LEVELS},
    **{"numbers of %d bits compared" % bits: Way(same=in_bits(bits)) for bits in (8, 16, 32, 63)},
    "19 for every slip of another table": Way(same=lambda own, handed, case: own == handed and case.asked is None),
    "19 for a slip of other coefficients": Way(same=lambda own, handed, case: own == handed and (
        case.asked is None or case.asked.coefficients == case.table.coefficients)),
    "16 before 19": Way(order=(0, 7, 8, 16, 19, 17)),
    "17 before 19": Way(order=(0, 7, 8, 17, 19, 16)),
    "19 last": Way(order=(0, 7, 8, 16, 17, 19)),
    "17 before 16": Way(order=(0, 7, 8, 19, 17, 16)),
    "19 before 8": Way(order=(0, 7, 19, 8, 16, 17)),
    "19 before 7": Way(order=(0, 19, 7, 8, 16, 17)),
    "19 before the table's causes": Way(order=(19, 0, 7, 8, 16, 17)),
    "a refused commit that writes": Way(refused_writes=True),
    "the old table handed over": Way(hands_over=True),
}


# The published slip; those of the cases are asked for again and again.
@lru_cache(maxsize=None)
def _published(w: int, h: int, tree: Tuple[int, ...], box: Box, level: int) -> Slip:
    return enquiries.slip_of(w, h, tree, box, level)


# The slip that a way gives of an acceptable table.
def slip_by(way: Way, table: Table, box: Box, level: int) -> Slip:
    if way[:4] == Way()[:4]:
        return _published(table.w, table.h, tuple(table.tree), box, level)
    levels = way.raised(_levels(table), box, level)
    return Slip(box, level, way.length(table, levels, box), tuple(way.active(table, levels)),
                way.visited(table, levels, box))


def enquire_by(way: Way, table: Table, box: Box, level: int) -> calls.Outcome:
    lent = {"tree": list(table.tree), "coefficients": list(table.coefficients)}
    cause = way.checks(table, box, level)
    if cause is not None:
        return calls.Outcome(("refused", cause), lent)
    if way.enquiry_writes:
        lent["tree"] = quadtree.tree_of(way.raised(_levels(table), box, level))
    return calls.Outcome(("ok", slip_by(way, table, box, level)), lent)


class Ready:
    """A commit with all that no misreading moves: what is due, the causes but 19, and what an insertion gives."""

    def __init__(self, case: Commit) -> None:
        table, (box, level) = case.table, case.slip[:2]
        self.case, self.due = case, enquiries.commit(*table, case.slip, *case.outputs())
        self.readable = calls.judge_insertion(*table, box, level) is None
        length = slip_by(Way(), table, box, level).length if self.readable else len(table.tree)
        tree_out, numbers_out = case.outputs()
        on_sheet = calls.judge_regions(*table[:3]) is not None or (
            calls.least_level(*table[:3], box).answer[0] == "ok")
        # By the number, with 0 for the table's own, which is then there.
        self.causes = {0: calls.judge_table(*table), 7: None if on_sheet else 7, 8: None if level in (1, 2, 3) else 8,
                       16: None if len(numbers_out) == len(table.coefficients) else 16,
                       17: None if len(tree_out) >= length else 17}

    @cached_property
    def inserted(self) -> calls.Outcome:
        return calls.insert(*self.case.table, *self.case.slip[:2], *self.case.outputs())

    def is_own(self, way: Way) -> bool:
        """Whether a way takes the slip that is handed over for the one that the table gives."""
        return self.readable and way.same(slip_by(way, self.case.table, *self.case.slip[:2]), self.case.slip, self.case)


def commit_by(way: Way, ready: Ready) -> calls.Outcome:
    table, (tree_out, numbers_out) = ready.case.table, ready.case.outputs()
    lent = {"tree": table.tree, "coefficients": table.coefficients, "tree_out": tree_out,
            "coefficients_out": numbers_out}
    found = {**ready.causes, 19: None if ready.is_own(way) else 19}
    cause = next((found[number] for number in way.order if found[number] is not None), None)
    if cause is None and not way.hands_over:
        return ready.inserted
    if cause is None or way.refused_writes:
        # The old table, as far as there is room for it.
        given = {"tree_out": table.tree, "coefficients_out": table.coefficients}
        lent.update({name: (given[name] + lent[name][len(given[name]) :])[: len(lent[name])] for name in given})
    return calls.Outcome(("ok", len(table.tree)) if cause is None else ("refused", cause), lent)


# Which of the cases and properties a way has: the cases of slips and of refused enquiries, those of commits, and that
# an enquiry and the commit of its slip leave what was told, and what an insertion leaves.
def holds(way: Way, commits: List[Ready], asked: List[Tuple[Table, Box, int]]) -> Dict[str, bool]:
    enquired = [(enquire_by(way, case.table, case.box, case.level), ("ok", case.slip()), case.table) for case in CASES]
    enquired += [(enquire_by(way, *given), ("refused", number), given[0]) for number, *given in faults()]
    left = before = True
    for table, box, level in asked:
        slip = enquire_by(way, table, box, level).answer[1]
        ready = Ready(Commit("drawn", (), table, slip))
        outcome = commit_by(way, ready)
        after = table_after(table, outcome)
        left = left and outcome.answer == ("ok", slip.length) and standing(after, slip) == slip.told()
        before = before and outcome == ready.inserted
    return {
        "slips": all(outcome == (due, {"tree": table.tree, "coefficients": table.coefficients})
                     for outcome, due, table in enquired),
        "commits": all(commit_by(way, ready) == ready.due for ready in commits),
        "left": left,
        "insertion": before,
    }


# On which of them each misreading gives another answer than document 02.
def slip_misreadings(check: Check) -> None:
    rng, commits = Random(56), [Ready(case) for case in COMMITS]
    drawn = [samples.random_table(rng, w, h) for w, h in ((1, 1), (2, 1), (1, 3), (3, 2))]
    asked = [(table, samples.random_box(rng, *table[:2]), rng.choice((1, 2, 3))) for table in drawn]
    asked += [(table, (0, 0, 4 * table.w, 4 * table.h), 1) for table in drawn]
    check(all(holds(Way(), commits, asked).values()), "slips, enquiries and commits as published")
    # A commit that finds the same wrong slip inserts as before; what was told is not what it leaves.
    shown_by = {name: {"slips", "commits", "left"} for name in SLIP_MISREADINGS}
    shown_by.update({name: {"slips"} for name in ENQUIRY_MISREADINGS})
    shown_by.update({name: {"commits"} for name in COMMIT_MISREADINGS})
    shown_by["the old table handed over"] = {"commits", "left", "insertion"}
    for name, way in {**SLIP_MISREADINGS, **ENQUIRY_MISREADINGS, **COMMIT_MISREADINGS}.items():
        failing = {title for title, right in holds(way, commits, asked).items() if not right}
        check(failing == shown_by[name], "%s shows on %s" % (name, sorted(failing)))

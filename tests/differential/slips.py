"""Fixed cases of enquiries and commits: those worked out by hand, every refusal, alone and with another, slips that are
off by one, of another table, or of the table as it stood before, and boxes of all kinds.

Document 02, Five: '19, the slip is not the one that this table gives for the slip's own box and level, after 8 and
before 16'. What is due is worked by hand where it is written out, and else the unrelated evaluator's.
"""
from __future__ import annotations

from itertools import combinations
from random import Random
from typing import Iterator, List

import enquiries
import slip_cases
import stopping
from cases import ODD_NUMBERS, quadtree, samples
from edges import lent, room
from enquiries import Slip
from insertions import committed, enquired, words
from level_cases import SPLIT_CELL
from library import Library, differ, numbers, octets
from surface import LEVELS, place_count

GREATEST = quadtree.GREATEST_TREE


def by_hand(lib: Library) -> Iterator[str]:
    """The evaluator's cases that are worked out by hand, and each refusal of an enquiry, alone and with later ones."""
    for case in slip_cases.CASES:
        told = words(f"enquire, {case.told},", case.table, case.box, case.level)
        yield differ(told, lib.enquire(*lent(case.table), case.box, case.level), ("ok", *case.slip().told()))
    for number, t, box, level in slip_cases.faults():
        yield differ(words("enquire", t, box, level), lib.enquire(*lent(t), box, level), ("refused", number))


def commits_by_hand(lib: Library) -> Iterator[str]:
    """Each refusal of a commit, alone and with later ones, and slips that are the table's own or are not."""
    for case in slip_cases.COMMITS:
        tree_out, numbers_out = case.outputs()
        lent_out = octets(tree_out), numbers(numbers_out)
        want = enquiries.commit(*case.table, case.slip, tree_out, numbers_out)
        yield differ(words(f"commit, {case.told},", case.table, case.slip),
                     lib.commit(*lent(case.table), case.slip, *lent_out), case.due,
                     *zip(lent_out, (want.lent["tree_out"], want.lent["coefficients_out"])))


def off_by_one(rng: Random, lib: Library) -> Iterator[str]:
    """Slips of drawn tables, small boxes and whole sheets: each number one more, one less and otherwise changed gives
    19, the slip itself does not."""
    for w, h in ((1, 1), (2, 3), (8, 8)):
        t = samples.random_table(rng, w, h)
        for box in (samples.random_box(rng, w, h), (0, 0, 4 * w, 4 * h)):
            own = enquiries.slip_of(*t[:3], box, rng.choice((1, 2, 3)))
            yield committed(lib, t, own, *room(t, own.length))[0]
            for told, slip in slip_cases.others(own):
                if slip != own:
                    tree_out, numbers_out = room(t)
                    got = lib.commit(*lent(t), slip, octets(tree_out), numbers(numbers_out))
                    yield differ(words(f"commit, {told},", t, slip), got, ("refused", 19))


def odd_numbers(lib: Library) -> Iterator[str]:
    """Numbers of every size in a slip of S, one at a time and all at once; 7 and 8 stand before them."""
    case = slip_cases.BENCH[0]
    for number in ODD_NUMBERS:
        slips = [slip_cases.changed(case.slip(), at, lambda _: number) for at in range(6)]
        slips.append(Slip(case.box, case.level, number, (number,) * 4, number))
        for slip in slips:
            yield committed(lib, case.table, slip, *room(case.table))[0]
            for other, due in ((slip._replace(box=(0, 0, number, 5)), 7), (slip._replace(level=4), 8),
                               (slip._replace(level=0), 8)):
                tree_out, numbers_out = room(case.table)
                got = lib.commit(*lent(case.table), other, octets(tree_out), numbers(numbers_out))
                yield differ(words("commit", case.table, other), got, ("refused", due))


def every_box(lib: Library) -> Iterator[str]:
    """Every box of a cell, at every level, of a table that is split to single quarters and of one that is not."""
    for tree in ([0], slip_cases.SPLIT, SPLIT_CELL):
        t = slip_cases.even(1, 1, tree)
        for v0, v1 in combinations(range(5), 2):
            for u0, u1 in combinations(range(5), 2):
                yield from (enquired(lib, t, (u0, v0, u1, v1), level) for level in (1, 2, 3))


def again_and_stale(rng: Random, lib: Library) -> Iterator[str]:
    """A slip is good again after its commit, which then raises nothing; not where another box was raised between."""
    for t in stopping.mixed(rng):
        box, level = samples.random_box(rng, t.w, t.h), rng.choice((1, 2, 3))
        slip = enquiries.slip_of(*t[:3], box, level)
        fault, after = committed(lib, t, slip, *room(t))
        yield fault
        yield committed(lib, after, slip, *room(after, slip.length))[0]
        raised = samples.inserted(t, (0, 0, 4 * t.w, 4 * t.h), 3)
        yield committed(lib, raised, slip, *room(raised))[0]


def largest(lib: Library) -> Iterator[str]:
    """The longest tree: the checkerboard of levels, enquired and committed at one quarter and at all of them."""
    for low, high in ((0, 1), (2, 3), (0, 3)):
        levels = samples.levels_by(lambda u, v: high if (u + v) % 2 else low)
        t = slip_cases.even(8, 8, quadtree.tree_of(levels))
        for box in ((0, 0, 32, 32), (0, 0, 1, 1), (31, 31, 32, 32), (1, 0, 2, 1), (0, 0, 31, 32)):
            for level in (1, 3):
                yield enquired(lib, t, box, level)
        slip = enquiries.slip_of(*t[:3], (1, 0, 2, 1), 1)
        if slip.length != GREATEST:
            yield f"a tree of {slip.length} bytes is not the longest"
        yield from (committed(lib, t, slip, *room(t, length))[0] for length in (GREATEST - 1, GREATEST))


def counted(rng: Random, lib: Library) -> Iterator[str]:
    """What the calls tell of the table that a commit leaves is what the enquiry told: the activity of each level, and
    the nodes of a least level."""
    for w, h in ((1, 1), (3, 2), (8, 8)):
        t, box = samples.random_table(rng, w, h), samples.random_box(rng, w, h)
        asked = lib.enquire(*lent(t), box, 2)
        if asked.cause:
            yield f"{words('enquire', t, box, 2)} is refused with {asked.cause}"
            continue
        length, active, visited = asked.said()[1:]
        tree_out, numbers_out = (made(values) for made, values in zip((octets, numbers), room(t)))
        got = lib.commit(*lent(t), Slip(box, 2, length, active, visited), tree_out, numbers_out)
        yield "" if got.said() == ("ok", length) else f"{words('commit', t, box, 2)}: {got.said()}, told {length}"
        tree = octets(tree_out.values()[:length])
        for level in LEVELS:
            out = octets([9] * place_count(w, h, level))
            fault = lib.activity(w, h, tree, level, out).cause or sum(out.values()) != active[level]
            yield f"{words('commit', t, box, 2)}: other functions of level {level} than told" if fault else ""
        under = lib.least_level(w, h, tree, box).said()
        yield "" if under[-1] == visited else f"{words('commit', t, box, 2)}: {under} under the box, told {visited}"


def fixed(lib: Library) -> List[str]:
    rng = Random(37)  # the same tables in every run, whatever the seed of generated calls is
    parts = (by_hand(lib), commits_by_hand(lib), off_by_one(rng, lib), odd_numbers(lib), every_box(lib),
             again_and_stale(rng, lib), largest(lib), counted(rng, lib))
    return [fault for part in parts for fault in part if fault]

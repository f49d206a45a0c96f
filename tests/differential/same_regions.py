"""Lists of enquiries and commits that end with the same regions: of one table they leave the same tree and the same
numbers, in whatever order and pieces boxes are raised, refused steps included; and a second commit of a slip leaves
what the first left.

Document 02, Ten: 'a carried table is the only acceptable one over its new tree that changes no exact reading'. Trees
are held to the unrelated evaluator, refusals to the number that each is made for, and the numbers that one list leaves
to those of the other and, in a few cells, to what the readings before tell. Slips are taken as the library gives them:
insertions.py holds those to the evaluator, and the numbers that each commit writes.
"""
from __future__ import annotations

from random import Random
from typing import Callable, Dict, Iterator, List, Sequence, Tuple

import cases
from cases import calls, quadtree, samples
from demands import exact
from edges import GREATEST, lent, room
from enquiries import Slip
from insertions import words
from library import Library, differ, numbers, octets
from saving import drawn
from slip_cases import changed
from surface import FINEST, Box, cell_count
from uniqueness import coefficient_told, functions_over, level_of, points_in
from uniqueness_properties import in_pieces

# How often another step stands before the commit of a box, and a second commit of the slip after it; and in how many
# level 3 cells the readings before are taken.
BETWEEN, AGAIN, CELLS = 0.6, 0.5, 3


def asked(lib: Library, t: samples.Table, box: Box, level: int) -> Tuple[str, Slip]:
    """Makes one enquiry, which must give a slip: what is not as it should be, and the slip."""
    got = lib.enquire(*lent(t), box, level)
    told = (0, (0,) * 4, 0) if got.cause else got.said()[1:]
    return differ(words("enquire", t, box, level), got, ("ok", *told)), Slip(box, level, *told)


def committed(lib: Library, t: samples.Table, slip: Slip, cause: int = 0, tree_length: int = GREATEST,
              more: int = 0) -> Tuple[str, samples.Table]:
    """Makes one commit, which must be refused with the cause, or where that is 0 leave the evaluator's new tree: what
    is not as it should be, and the table as it then stands."""
    tree_lent, numbers_lent = room(t, tree_length, more)
    tree_out, numbers_out = octets(tree_lent), numbers(numbers_lent)
    got = lib.commit(*lent(t), slip, tree_out, numbers_out)
    told = words("commit", t, slip, tree_length, more)
    if cause:
        return differ(told, got, ("refused", cause)), t
    tree = quadtree.insert_box(t.tree, t.w, t.h, slip.box, slip.level)
    fault = differ(told, got, ("ok", len(tree)), (tree_out, tree + tree_lent[len(tree):]),
                   (numbers_out, numbers_out.contents()))
    return fault, t if fault else t._replace(tree=tree, coefficients=numbers_out.values())


def faulty(rng: Random, t: samples.Table, box: Box, level: int) -> Tuple[int, Box, int]:
    """A box or a level that is refused, with its number: 7 also where both are."""
    u0, v0, u1, v1 = box
    wrong = rng.choice(((u1, v0, u0, v1), (u0, v0, u1, v0), (u0, v0, 4 * t.w + 1, v1), (u0, v0, u1, 2**32 + v1)))
    none = rng.choice(cases.ODD_LEVELS)
    return rng.choice(((7, wrong, level), (7, wrong, none), (8, box, none)))


def between(rng: Random, lib: Library, t: samples.Table, boxes: Sequence[Tuple[Box, int]],
            slips: Sequence[Slip]) -> Tuple[str, samples.Table]:
    """A step of a list that leaves its table, or raises a box that the list raises anyway: an enquiry; one that is
    refused, and the commit too; a commit of a slip with a number changed, of one to outputs of other lengths, or of one
    that the table gave before."""
    kind, (box, level) = rng.choice((0, 0, 1, 2, 3, 4)), rng.choice(boxes)
    if kind == 0:
        cause, box, level = faulty(rng, t, box, level)
        got = lib.enquire(*lent(t), box, level)
        fault = differ(words("enquire", t, box, level), got, ("refused", cause))
        return fault or committed(lib, t, Slip(box, level, 0, (0,) * 4, 0), cause)[0], t
    fault, own = asked(lib, t, box, level)
    if fault or kind == 1:
        return fault, t
    if kind == 2:
        other = changed(own, rng.randrange(6), lambda number: number + rng.choice((1, 2**8, 2**32)))
        return committed(lib, t, other, 19, rng.choice((GREATEST, 0)), rng.choice((0, 1)))
    if kind == 3:
        cause, tree_length, more = rng.choice(((16, GREATEST, 1), (16, 0, -1), (17, own.length - 1, 0)))
        return committed(lib, t, own, cause, tree_length, more)
    old = rng.choice([*slips, own])
    fault, own = asked(lib, t, old.box, old.level)
    return (fault, t) if fault else committed(lib, t, old, 0 if old == own else 19)


def list_made(rng: Random, lib: Library, t: samples.Table,
              boxes: Sequence[Tuple[Box, int]]) -> Iterator[Tuple[str, samples.Table]]:
    """Raises boxes one after the other, with steps between and second commits: for each what is not as it should be,
    and the table as it then stands."""
    slips: List[Slip] = []
    for box, level in boxes:
        if rng.random() < BETWEEN:
            fault, t = between(rng, lib, t, boxes, slips)
            yield fault, t
        fault, slip = asked(lib, t, box, level)
        yield fault, t
        fault, t = committed(lib, t, slip)
        yield fault, t
        if rng.random() < AGAIN:
            fault, after = committed(lib, t, slip)
            same = "" if after == t else f"{words('commit', t, slip)}: a second commit leaves another table"
            yield fault or same, t
        slips.append(slip)


def two_lists(rng: Random, w: int, h: int) -> Tuple[List[Tuple[Box, int]], List[Tuple[Box, int]]]:
    """Boxes and levels that end with the same regions on any table: in another order, in pieces, or before one of the
    whole sheet at level 3, which the other list has alone."""
    boxes = [(samples.random_box(rng, w, h), rng.choice((1, 2, 3))) for _ in range(rng.randint(2, 4))]
    whole = [((0, 0, 4 * w, 4 * h), 3)]
    return rng.choice(((boxes, boxes[::-1]), (boxes, rng.sample(boxes, len(boxes))), (boxes, in_pieces(rng, boxes)),
                       (boxes[:2] + whole, whole)))


def told_before(rng: Random, lib: Library, start: samples.Table, end: samples.Table) -> Iterator[str]:
    """The numbers of the table that a list left are those that readings of the table before it tell over its tree.
    Beyond the sheet there are no readings."""
    surface, beyond = calls.surface_of(end.w, end.h, end.tree), rng.choice(((128 * end.w + 1, 0), (0, 128 * end.h + 1)))
    yield differ(words("exact", start, beyond), lib.exact(*lent(start), *beyond), ("refused", 6))
    for _ in range(CELLS):
        cell = rng.randrange(cell_count(end.w, FINEST)), rng.randrange(cell_count(end.h, FINEST))
        faults, read = zip(*(exact(lib, start, start.coefficients, point) for point in points_in(cell)))
        yield max(faults)
        for function in functions_over(cell, level_of(surface, cell)):
            if surface.active(*function):
                due, given = coefficient_told(function, cell, read), end.coefficients[surface.place(*function)]
                yield "" if given == due else f"{words('a list', start, end.tree)}: {given} at {function}, not {due}"


def same_regions(rng: Random, lib: Library) -> Iterator[str]:
    t = drawn(lib, rng.choice((cases.insertion_table, cases.insertion_table, cases.table))(rng))
    ends = []
    for boxes in two_lists(rng, t.w, t.h):
        now = t
        for fault, now in list_made(rng, lib, t, boxes):
            yield fault
            if fault:
                return
        ends.append(now)
    alike = ends[0] == ends[1]
    yield "" if alike else f"{words('two lists', t, ends[0].tree)}: the regions are the same, the numbers are not"
    yield from told_before(rng, lib, t, ends[0])


KINDS: Dict[str, Callable[[Random, Library], Iterator[str]]] = {"same_regions": same_regions}

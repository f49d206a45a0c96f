"""Enquiries and commits, single and in lists, held to the unrelated evaluator: an enquiry and the commit of its slip is
document 01's insertion, a commit takes whatever slip it is handed; and no list moves an exact reading, a cost or a
slope."""
from __future__ import annotations

from random import Random
from typing import Callable, Dict, Iterator, List, Sequence, Tuple

import cases
import enquiries
from cases import calls, samples
from enquiries import Slip
from library import Answer, Library, differ, insertion_differs, numbers, octets
from saving import drawn
from surface import Box

# At as many points the cost is asked too, at each its tariff; the last of them is refused.
TARIFFS = 2_950, 99_999, 100_000
# At one point in so many watts and slopes are asked too, and at the last, which is beyond the sheet in generated lists.
# A promise lets an f64 move within its bound; here it must not, since the fraction that it is worked from does not.
SLOPES = 4


def words(name: str, t: samples.Table, *more) -> str:
    return f"{name} {t.w} {t.h} {t.tree} {' '.join(map(str, more))}"


def slip_due(t: samples.Table, box: Box, level: int) -> Tuple:
    """The evaluator's answer to an enquiry, as the library gives it: without the box and the level that were asked."""
    said, *slip = enquiries.enquire(*t, box, level).answer
    return (said, *slip) if said == "refused" else (said, *slip[0].told())


def enquired(lib: Library, t: samples.Table, box: Box, level: int) -> str:
    """Makes one enquiry, after which the table stands as it did."""
    got = lib.enquire(t.w, t.h, octets(t.tree), numbers(t.coefficients), box, level)
    return differ(words("enquire", t, box, level), got, slip_due(t, box, level))


def table_after(t: samples.Table, got: Answer, tree_out: Sequence[int], coefficients: Sequence[int]) -> samples.Table:
    """The table as it stands after a commit: that written, or where it was refused the one read."""
    return t if got.cause else t._replace(tree=list(tree_out[:got.said()[1]]), coefficients=list(coefficients))


def committed(lib: Library, t: samples.Table, slip: Slip, tree_lent: Sequence[int],
              numbers_lent: Sequence[int]) -> Tuple[str, samples.Table]:
    """Makes one commit: what is not as it should be, and the table as it then stands."""
    tree_out, numbers_out = octets(tree_lent), numbers(numbers_lent)
    got = lib.commit(t.w, t.h, octets(t.tree), numbers(t.coefficients), slip, tree_out, numbers_out)
    want = enquiries.commit(*t, slip, tree_lent, numbers_lent)
    fault = differ(words("commit", t, slip, len(tree_lent), len(numbers_lent)), got, want.answer,
                   (tree_out, want.lent["tree_out"]), (numbers_out, want.lent["coefficients_out"]))
    return fault, table_after(t, got, tree_out.values(), numbers_out.values())


def made(lib: Library, t: samples.Table, one: samples.Insertion) -> Tuple[str, samples.Table]:
    """Makes one insertion: what is not as it should be, and the table as it then stands."""
    tree_out, numbers_out = octets(one.tree_out), numbers(one.coefficients_out)
    got = lib.insert(t.w, t.h, octets(t.tree), numbers(t.coefficients), one.box, one.level, tree_out, numbers_out)
    want = calls.insert(*t, *one)
    told = words("insert", t, one.box, one.level, len(one.tree_out), len(one.coefficients_out))
    fault = differ(f"{told}: the enquiry", got.enquiry, slip_due(t, one.box, one.level)) or insertion_differs(
        told, got, want.answer, (tree_out, want.lent["tree_out"]), (numbers_out, want.lent["coefficients_out"]))
    return fault, table_after(t, got.commit, tree_out.values(), numbers_out.values())


def step(rng: Random, lib: Library, t: samples.Table) -> Tuple[str, samples.Table]:
    """One step of demand 3's list: an insertion by both calls, an enquiry alone, or a commit with whatever slip."""
    one, kind = cases.insertion(rng, t), rng.randrange(6)
    if kind == 0:
        return enquired(lib, t, one.box, one.level), t
    if kind < 3:
        return committed(lib, t, cases.slip(rng, t, one.box, one.level), one.tree_out, one.coefficients_out)
    return made(lib, t, one)


def readings(lib: Library, t: samples.Table, points: Sequence[samples.Point]) -> Tuple[str, List[Tuple]]:
    """Reads one table at many points, watts and slopes at some, and the cost at the first: what is written that should
    not be, and the answers, each after what was asked."""
    tree, values, answers = octets(t.tree), numbers(t.coefficients), []
    asked = [("exact", lib.exact, point) for point in points]
    asked += [("slopes", lib.slopes, point) for point in (*points[::SLOPES], points[-1])]
    asked += [("cost", lib.cost, (*point, tariff)) for point, tariff in zip(points, TARIFFS)]
    for name, call, at in asked:
        got = call(t.w, t.h, tree, values, *at)
        answers.append(((name, *at), got.said()))
        fault = differ(f"{name} {t.w} {t.h} {t.tree} {at}", got, got.said())
        if fault:
            return fault, answers
    return "", answers


def list_made(
    rng: Random, lib: Library, t: samples.Table, count: int, points: Sequence[samples.Point]
) -> Iterator[str]:
    """Makes a list of enquiries and commits, each of the table as it then stands, and reads the table before and after
    it."""
    fault, before = readings(lib, t, points)
    now = t
    for _ in range(count):
        if not fault:
            fault, now = step(rng, lib, now)
            yield fault
    if fault:
        return
    fault, after = readings(lib, now, points)
    for (asked, was), (_, reads) in zip(before, after):
        if was != reads:
            fault = f"a list {t.w} {t.h} {t.tree} to {now.tree}: {asked} gave {was}, then {reads}"
    if fault:
        yield fault


def insert(rng: Random, lib: Library) -> Iterator[str]:
    whole = drawn(lib, cases.insertion_table(rng))
    for _ in range(4):
        t = cases.sometimes_damaged(rng, whole)
        yield made(lib, t, cases.insertion(rng, t))[0]


def enquire(rng: Random, lib: Library) -> Iterator[str]:
    whole = drawn(lib, cases.insertion_table(rng))
    for _ in range(8):
        t = cases.sometimes_damaged(rng, whole)
        one = cases.insertion(rng, t)
        yield enquired(lib, t, one.box, one.level)


def commit(rng: Random, lib: Library) -> Iterator[str]:
    whole = drawn(lib, cases.insertion_table(rng))
    for _ in range(6):
        t = cases.sometimes_damaged(rng, whole, 0.2)
        one = cases.insertion(rng, t)
        slip = cases.slip(rng, t, one.box, one.level)
        yield committed(lib, t, slip, one.tree_out, one.coefficients_out)[0]


def insertions(rng: Random, lib: Library) -> Iterator[str]:
    t = cases.sometimes_damaged(rng, drawn(lib, cases.insertion_table(rng)), 0.03)
    return list_made(rng, lib, t, rng.randint(1, 6), cases.reading_points(rng, t.w, t.h))


KINDS: Dict[str, Callable[[Random, Library], Iterator[str]]] = {
    "insert": insert, "enquire": enquire, "commit": commit, "insertions": insertions}

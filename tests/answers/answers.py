"""Calls whose answers are kept from revision to revision: each call on each table, those of files and of grids that are
read on acceptable ones, and readings at many points. An enquiry and a commit are kept by themselves, and as the
insertion that they are together."""
from __future__ import annotations

from hashlib import sha256
from itertools import chain
from typing import Iterator, List, Tuple, Union

from answered_tables import Table, accepted, points, refused
from surface import LEVELS, QUARTERS_PER_CELL, Box, place_count
import tablefile
import tree as quadtree
from edges import fresh_table, lent, room
from enquiries import Slip
from grids import grid_length
from library import Answer, Float, Inserted, Known, Lent, Library, Scalar, numbers, octets
from slip_cases import changed

TARIFF, TARIFFS = 12_345, (0, 499, 500, 1_499, 1_500, 99_999, 100_000)
PRICED_AT = (5, 7)
NOTE = bytes(range(64))
# What slips tell beside box and level, by the place of each number.
NUMBERS = ("length", *(f"active {level}" for level in LEVELS), "visited")


def digest(data: bytes) -> str:
    return sha256(data).hexdigest()[:16]


def given(one: Lent) -> str:
    """What a call left in what was lent: a number, the bits of an f64, of a slice its length and a digest."""
    if one.unchanged() or not one.guarded():
        return "lent" if one.guarded() else "beside"
    if isinstance(one, Float):
        return f"{one.values()[0]:016x}"
    return str(one.told()) if isinstance(one, Scalar) else f"{one.n}:{digest(one.contents())}"


def said(got: Answer) -> str:
    """The number that a call returned, what its scalars hold, and each slice that is not as it was lent, by its place
    among what was lent."""
    changed = [f"{at}={given(one)}" for at, one in enumerate(got.lent)
               if not isinstance(one, Scalar) and not one.unchanged()]
    return " ".join([str(got.cause), *(given(one) for one in got.lent if isinstance(one, Scalar)), *changed])


def as_lent(got: Answer) -> bool:
    """Whether a call wrote nothing but what it gives: nothing where it refuses, and nothing beside."""
    return all(one.guarded() and (one.unchanged() or isinstance(one, Scalar) and not got.cause) for one in got.lent)


def inserted(got: Inserted) -> str:
    """What an insertion leaves, without the slip's counts, which are lent to its commit; the enquiry too, where it
    refuses with another number or writes, or where those counts are not as they were lent."""
    enquiry, (cause, lent) = got
    counts = [one for one in lent if isinstance(one, Known) and not isinstance(one, Scalar)]
    whole = said(Answer(cause, [one for one in lent if one not in counts]))
    alike = enquiry.cause in (0, cause) and as_lent(enquiry) and all(one.unchanged() for one in counts)
    return whole if alike else f"{whole}, enquired {said(enquiry)}, counts {' '.join(map(given, counts))}"


def boxes(t: Table) -> List[Tuple[int, int, int, int]]:
    """The whole sheet, a box inside, one at the far corner, and one past the sheet."""
    wide, high = QUARTERS_PER_CELL * t.w, QUARTERS_PER_CELL * t.h
    return [(0, 0, wide, high), (1, 2, 2, 4), (wide - 2, high - 3, wide, high), (0, 0, wide + 1, 1)]


def outputs(t: Table, *lengths: int) -> Tuple[Lent, Lent]:
    tree_out, numbers_out = room(t, *lengths)
    return octets(tree_out), numbers(numbers_out)


def slip_from(lib: Library, t: Table, box: Box, level: int) -> Slip:
    """The slip that an enquiry gives, with no numbers where it gives none."""
    got = lib.enquire(*lent(t), box, level)
    return Slip(box, level, *((0, (0,) * 4, 0) if got.cause else got.said()[1:]))


def other_slips(lib: Library, t: Table, own: Slip) -> Iterator[Tuple[str, Slip]]:
    """Slips with other numbers than the table's own, or made for another box, level or table, which may be its own."""
    for at, name in enumerate(NUMBERS):
        yield f"{name} more", changed(own, at, lambda number: number + 1)
    yield "no numbers", Slip(*own[:2], 0, (0,) * 4, 0)
    yield "of the whole sheet", slip_from(lib, t, boxes(t)[0], own.level)._replace(box=own.box)
    yield "of level 3", slip_from(lib, t, own.box, 3)._replace(level=own.level)
    yield "of a fresh table", slip_from(lib, fresh_table(t.w, t.h), *own[:2])
    yield "past the sheet", own._replace(box=boxes(t)[-1])
    yield "past the sheet, level 0", own._replace(box=boxes(t)[-1], level=0)
    yield from ((f"level {level}", own._replace(level=level)) for level in (0, 4))


def about_slips(lib: Library, t: Table) -> Iterator[Tuple[str, Answer]]:
    """Enquiries, and commits of other slips than the table's own; of its own and another to outputs of other lengths;
    and of its own once more, to the table that its commit left."""
    held = lent(t)
    for box in boxes(t):
        for level in (*LEVELS, 4):
            yield f"enquire {box} {level}", lib.enquire(*held, box, level)
    own = slip_from(lib, t, boxes(t)[2], 2)
    for words, slip in other_slips(lib, t, own):
        yield f"commit {words}", lib.commit(*held, slip, *outputs(t))
    short = {"no tree": (0,), "a number more": (quadtree.GREATEST_TREE, 1), "no tree, a number less": (0, -1)}
    for words, lengths in short.items():
        for name, slip in (("own", own), ("length more", changed(own, 0, lambda number: number + 1))):
            yield f"commit {name} to {words}", lib.commit(*held, slip, *outputs(t, *lengths))
    tree_out, numbers_out = outputs(t)
    left = lib.commit(*held, own, tree_out, numbers_out)
    if not left.cause:
        tree = octets(tree_out.values()[:left.said()[1]])
        yield "commit own again", lib.commit(t.w, t.h, tree, numbers(numbers_out.values()), own, *outputs(t))


def about_files(lib: Library, t: Table) -> Iterator[Tuple[str, Answer]]:
    """Saving with a note, without, with one too long and to an output that is too short; loading the table's file by
    both loaders, with and without counts and note, damaged, and to outputs of other lengths."""
    held = lent(t)
    for note in (None, b"", NOTE, NOTE + b"+"):
        file = octets([9] * tablefile.GREATEST_FILE)
        got = lib.write_file(*held, file, int(note is not None), octets(note or b""))
        yield f"write_file {'no note' if note is None else len(note)}", got
    yield "write_file to 50 bytes", lib.write_file(*held, octets([9] * 50))
    files = {f"{word}{' noted' if note else ''}": tablefile.write_file(*t, counted=word == "counted", note=note)
             for word in ("counted", "uncounted") for note in (None, NOTE)}
    whole = files["counted"]
    last = tablefile.tree_end(whole) + 10
    files.update({"cut": whole[:-1], "longer": whole + b"\x05", "of another tag": b"\x02" + whole[1:],
                  "miscounted": whole[:last] + bytes([whole[last] ^ 1]) + whole[last + 1 :]})
    for words, file in files.items():
        yield f"read_file {words}", lib.read_file(octets(file), *outputs(t))
        yield f"read_bench {words}", lib.read_bench(octets(file), *outputs(t))
    for words, lengths in (("a number more", (quadtree.GREATEST_TREE, 1)), ("no tree", (0,))):
        yield f"read_file to {words}", lib.read_file(octets(whole), *outputs(t, *lengths))


def about_grids(lib: Library, t: Table) -> Iterator[Tuple[str, Answer]]:
    """The table's grid, read over the table's own tree, over one of no regions and over the whole sheet at level 3;
    with its last number changed, cut short, with a byte more, of another tag, and to a slice a number too long."""
    out = octets([9] * grid_length(t.w, t.h))
    lib.write_grid(*lent(t), out)
    grid = bytes(out.values())
    grids = {"grid": grid, "changed": grid[:-1] + bytes([grid[-1] ^ 1]), "cut": grid[:-1], "longer": grid + b"\x05",
             "of another tag": b"\x02" + grid[1:]}
    trees = {"its tree": t.tree, "no regions": [0], "level 3": quadtree.insert_box([0], t.w, t.h, boxes(t)[0], 3)}
    for words, file in grids.items():
        for over, tree in trees.items():
            yield f"read_grid {words} over {over}", lib.read_grid(octets(file), octets(tree), outputs(t)[1])
    longer = outputs(t, quadtree.GREATEST_TREE, 1)[1]
    yield "read_grid to a number more", lib.read_grid(octets(grid), octets(t.tree), longer)


def about(lib: Library, t: Table) -> Iterator[Tuple[str, Union[Answer, Inserted]]]:
    """The calls but readings, each in words with its answer."""
    held = lent(t)
    yield "table_cause", lib.table_cause(*held)
    for level in (*LEVELS, 4):
        out = octets([9] * place_count(t.w, t.h, min(level, 3)))
        yield f"activity {level}", lib.activity(*held[:3], level, out)
        values = numbers(t.coefficients)
        yield f"set {level}", lib.set_coefficient(t.w, t.h, held[2], values, level, -1, 0, 321)
    for box in boxes(t):
        yield f"least_level {box}", lib.least_level(*held[:3], box)
        for level in LEVELS:
            yield f"insert {box} {level}", lib.insert(*held, box, level, *outputs(t))
    for watts in (700, 32_001):
        yield f"fresh {watts}", lib.fresh(t.w, t.h, watts, *outputs(t, 3))
    for tariff in TARIFFS:
        yield f"cost {tariff}", lib.cost(*held, *PRICED_AT, tariff)
    for words, more in (("its length", 0), ("a byte more", 1), ("a byte less", -1)):
        yield f"write_grid to {words}", lib.write_grid(*held, octets([9] * max(0, grid_length(t.w, t.h) + more)))


def answers_about(lib: Library, name: str, t: Table, good: bool) -> Iterator[str]:
    """A line for each answer about one table; files and points only of one that is acceptable."""
    held = lent(t)
    yield f"{name}: {t.w} by {t.h}, tree {digest(held[2].given)}, coefficients {digest(held[3].given)}"
    of_good = (about_files(lib, t), about_grids(lib, t)) if good else ()
    for words, got in chain(about(lib, t), about_slips(lib, t), *of_good):
        yield f"{name}, {words}: {inserted(got) if isinstance(got, Inserted) else said(got)}"
    for u, v in points(t) if good else [PRICED_AT]:
        read = *(call(*held, u, v) for call in (lib.exact, lib.watts, lib.display)), lib.cost(*held, u, v, TARIFF)
        yield f"{name} ({u}, {v}): {', '.join(map(said, read))}"
        yield f"{name}, slopes ({u}, {v}): {said(lib.slopes(*held, u, v))}"


def answers(lib: Library) -> Iterator[str]:
    for good, tables in ((True, accepted()), (False, refused())):
        for name, t in tables.items():
            yield from answers_about(lib, name, t, good)

"""Fixed cases at the edges: boxes, halves, limits, the largest tree and file, long slices, ends of sheets and of rows.

What is due is worked by hand where it is written out, and else the unrelated evaluator's.
"""
from __future__ import annotations

from random import Random
from typing import Iterator, List, Sequence, Tuple

import insertions
from cases import calls, quadtree, samples
from files import both_files, read, small
from library import Library, differ, insertion_differs, numbers, octets
from saving import GREATEST_FILE, file_length, write
from surface import D, LEVELS, TREE_SIDE, Box, LevelMap, coefficient_limit, place_count, total_places
from tables import AT_POINT, READINGS, read_at, words

NO_LEVELS: LevelMap = ((0,) * TREE_SIDE,) * TREE_SIDE
# A length kept in 8 or in 16 bits is right but for so many elements.
LONGER = (256, 65_536)
GREATEST = quadtree.GREATEST_TREE


def fresh_table(w: int, h: int, watts: int = 0) -> samples.Table:
    level_0 = place_count(w, h, 0)
    return samples.Table(w, h, [0], [watts] * level_0 + [0] * (total_places(w, h) - level_0))


def whole_at(rng: Random, w: int, h: int, level: int) -> samples.Table:
    """A table with one level on its whole sheet."""
    return samples.table_of(rng, w, h, quadtree.raised(NO_LEVELS, (0, 0, 4 * w, 4 * h), level))


def lent(t: samples.Table) -> Tuple:
    return t.w, t.h, octets(t.tree), numbers(t.coefficients)


def room(t: samples.Table, tree_length: int = GREATEST, more: int = 0) -> Tuple[List[int], List[int]]:
    """Outputs for a table, the numbers' longer by some."""
    return [9] * tree_length, [7] * (total_places(t.w, t.h) + more)


def least(lib: Library, t: samples.Table, box: Box) -> str:
    want = calls.least_level(t.w, t.h, t.tree, box).answer
    return differ(words("least_level", t, box), lib.least_level(t.w, t.h, octets(t.tree), box), want)


def activity(lib: Library, t: samples.Table, level: int, more: int = 0) -> str:
    before = [9] * (place_count(t.w, t.h, level) + more)
    out, want = octets(before), calls.activity(t.w, t.h, t.tree, level, before)
    got = lib.activity(t.w, t.h, octets(t.tree), level, out)
    return differ(words("activity", t, level, len(before)), got, want.answer, (out, want.lent["activity_out"]))


def put(lib: Library, t: samples.Table, level: int, i: int, j: int, number: int) -> str:
    values, want = numbers(t.coefficients), calls.set_coefficient(*t, level, i, j, number)
    got = lib.set_coefficient(t.w, t.h, octets(t.tree), values, level, i, j, number)
    return differ(words("set", t, level, i, j, number), got, want.answer, (values, want.lent["coefficients"]))


def insert(lib: Library, t: samples.Table, box: Box, level: int, tree_length: int = GREATEST, more: int = 0) -> str:
    return insertions.made(lib, t, samples.Insertion(box, level, *room(t, tree_length, more)))[0]


def file_read(lib: Library, told: str, file: bytes, t: samples.Table, tree_length: int, more: int = 0) -> str:
    """A file read by both loaders into outputs as long as a table asks, the numbers' longer by some."""
    return read(lib, f"{told}, {t.w} by {t.h}", file, tree_length, total_places(t.w, t.h) + more)


def boxes(lib: Library) -> Iterator[str]:
    """"box with no area, or past the sheet": 7, in each direction."""
    for w, h in ((1, 1), (2, 3), (8, 7), (8, 8)):
        wide, high = 4 * w, 4 * h
        t = fresh_table(w, h, 5)
        yield differ("whole sheet", lib.least_level(w, h, octets([0]), (0, 0, wide, high)), ("ok", 0, 0, 1))
        for box in ((0, 0, wide + 1, high), (0, 0, wide, high + 1), (wide, 0, wide + 1, 1), (0, high, 1, high + 1),
                    (0, 0, wide + 3, 1), (0, 0, 1, high + 3), (2, 1, 1, 2), (1, 2, 2, 1), (1, 0, 0, 1), (0, 1, 1, 0),
                    (wide, 0, 0, high), (0, high, wide, 0), (1, 0, 1, 1), (0, 1, 1, 1), (0, 0, 0, high),
                    (0, 0, wide, 0), (wide, 0, wide, high), (0, high, wide, high), (2, 2, 1, 1), (1, 1, 1, 1)):
            told = f"box {box} on {w} by {h} gives 7"
            yield differ(f"least_level, {told}", lib.least_level(w, h, octets([0]), box), ("refused", 7))
            tree_out, numbers_out = room(t)
            got = lib.insert(*lent(t), box, 1, octets(tree_out), numbers(numbers_out))
            yield insertion_differs(f"insert, {told}", got, ("refused", 7))


def halves(lib: Library) -> Iterator[str]:
    """"to the nearest whole number, halves upward, also below zero": at a half, and one numerator beside it.

    Level 3 is on a whole 1 by 1 sheet and its numbers are equal, but for that of function (0, 0): there 1 of its units
    is 1 over D at (1, 1), as t^3 / 6 is 1 / 24,576 at t = 1/16."""
    rows = ((131_072, 79_164_837_199_872, 0, 1),
            (-131_072, -79_164_837_199_872, -1, 0),
            (393_216, 237_494_511_599_616, 1, 2),
            (-393_216, -237_494_511_599_616, -2, -1),
            (8_388_476_928, 5_066_470_415_954_608_128, 31_999, 32_000),
            (-8_388_476_928, -5_066_470_415_954_608_128, -32_000, -31_999))
    for units, half, below, above in rows:
        for off, shown in ((-1, below), (0, above), (1, above)):
            values = [0] * 90 + [units] * 121
            values[126] += off
            t = samples.Table(1, 1, [4, 4, 4, 3] + [0] * 9, values)
            told = f"{half} + {off}"
            yield differ(f"exact {told}", lib.exact(*lent(t), 1, 1), ("ok", half + off))
            yield differ(f"display {told}", lib.display(*lent(t), 1, 1), ("ok", shown))
            yield differ(f"cost {told}", lib.cost(*lent(t), 1, 1, 1_000), ("ok", max(shown, 0)))
            yield from (read_at(lib, name, t, 1, 1) for name in AT_POINT)


def limits(lib: Library) -> Iterator[str]:
    """All numbers at "at most 32,000 x 64^L in size": every reading is 32,000 watts, or as many below zero."""
    tables = [fresh_table(w, h, 32_000) for w, h in ((1, 1), (8, 8))]
    for tree in ([4, 4, 4, 3] + [0] * 9, [4, 4, 4, 4, 1, 4, 3, 2, 3, 3, 0, 3] + [0] * 9):
        tables.append(samples.Table(1, 1, tree, samples.equal_coefficients(calls.surface_of(1, 1, tree), 32_000)))
    for high in tables:
        low = high._replace(coefficients=[-number for number in high.coefficients])
        for t, watts, due in ((high, 32_000, 3_199_968), (low, -32_000, 0)):
            for point in ((0, 0), (1, 127), (64, 5), (128 * t.w, 128 * t.h)):
                told = f"{t.w} by {t.h}, all {watts}, at {point}"
                yield differ(f"table, {told}", lib.table_cause(*lent(t)), ("ok",))
                yield differ(f"exact, {told}", lib.exact(*lent(t), *point), ("ok", watts * D))
                yield read_at(lib, "watts", t, *point)
                yield differ(f"display, {told}", lib.display(*lent(t), *point), ("ok", watts))
                yield differ(f"cost, {told}", lib.cost(*lent(t), *point, 99_999), ("ok", due))


def largest(rng: Random) -> List[LevelMap]:
    """Maps of the largest tree, 1,365 bytes: a checkerboard, all levels, and level 3 but for a square in each four."""
    lower = {(u, v): rng.randrange(4) for u in range(0, TREE_SIDE, 2) for v in range(0, TREE_SIDE, 2)}

    def mostly_3(u: int, v: int) -> int:
        return 3 - (lower[u - u % 2, v - v % 2] == u % 2 + 2 * (v % 2)) * (1 + (u // 8 + v // 8) % 3)

    return [samples.levels_by(level) for level in (lambda u, v: (u + v) % 2, lambda u, v: (u + 2 * v) % 4, mostly_3)]


def largest_tree(rng: Random, lib: Library) -> Iterator[str]:
    """Every call on the largest tree."""
    whole = (0, 0, TREE_SIDE, TREE_SIDE)
    for t in (samples.table_of(rng, 8, 8, levels) for levels in largest(rng)):
        if len(t.tree) != GREATEST:
            yield f"a tree of {len(t.tree)} bytes is not the largest"
        yield differ("the largest tree", lib.table_cause(*lent(t)), ("ok",))
        for tree in (t.tree[:-1], t.tree + [0]):
            yield differ("one byte off", lib.table_cause(*lent(t._replace(tree=tree))), ("refused", 2))
        yield from (least(lib, t, box) for box in (whole, (0, 0, 32, 1), (31, 0, 32, 32), (31, 31, 32, 32),
                                                   (1, 1, 31, 31), *(samples.random_box(rng, 8, 8) for _ in range(8))))
        yield from (activity(lib, t, level) for level in LEVELS)
        for level in LEVELS:
            active = t.surface().active_functions(level)
            for i, j in active[:1] + active[-1:] + [(8 * 2**level - 1, 8 * 2**level - 1)]:
                yield put(lib, t, level, i, j, 5)
        for point in ((0, 0), (1_024, 1_024), *samples.random_points(rng, 8, 8, 6)):
            yield from (read_at(lib, name, t, *point) for name in AT_POINT)
            yield read_at(lib, "cost", t, *point, 99_999)
        yield insert(lib, t, whole, 3, 1)
        yield insert(lib, t, (0, 0, 1, 1), 1, GREATEST)
        yield insert(lib, t, (31, 31, 32, 32), 3, GREATEST - 1)
        for file in both_files(t):
            for told, given in (("largest tree", file), ("largest tree, last byte cut", file[:-1]),
                                ("largest tree, longer", file + bytes(65_536))):
                yield file_read(lib, told, given, t, GREATEST)
            yield file_read(lib, "largest tree", file, t, GREATEST - 1)
            # The file without counts is what the old rule wrote; as many bytes are too few now.
            yield from (write(lib, t, length) for length in (len(file) - 1, len(file), GREATEST_FILE))


def largest_made(rng: Random, lib: Library) -> Iterator[str]:
    """One insertion makes the largest tree of one with four equal squares, into outputs of all lengths near it."""
    for levels in largest(rng)[:2]:
        near = [list(row) for row in levels]
        for v in (30, 31):
            near[v][30:] = [0, 0]
        t = samples.table_of(rng, 8, 8, tuple(map(tuple, near)))
        yield from (insert(lib, t, (31, 31, 32, 32), 1, n) for n in (GREATEST - 1, GREATEST, GREATEST + 1))


def long_tables(lib: Library, t: samples.Table, due: int) -> Iterator[str]:
    """A table lent to every call that judges one."""
    want, outputs = ("refused", due), (octets([9] * 20), numbers([7] * 211))
    told = f"{len(t.tree)} bytes and {len(t.coefficients)} numbers"
    yield differ(f"table, {told}", lib.table_cause(*lent(t)), want)
    yield differ(f"set, {told}", lib.set_coefficient(*lent(t), 0, -2, -2, 5), want)
    yield insertion_differs(f"insert, {told}", lib.insert(*lent(t), (0, 0, 4, 4), 1, *outputs), want)
    yield from (write(lib, t, length) for length in (100, 200))
    for name in READINGS:
        place = (9, 9, 1_500) if name == "cost" else (9, 9)
        yield differ(f"{name}, {told}", getattr(lib, name)(*lent(t), *place), want)


def long_slices(lib: Library) -> Iterator[str]:
    """Slices that are longer by as much as a length in 8 or 16 bits does not see."""
    flat, refined = fresh_table(1, 1, 700), samples.Table(1, 1, [4, 4, 4, 1] + [0] * 9, [0] * 211)
    for more in LONGER:
        for t in (flat, refined):
            tree = t.tree + [0] * more
            yield from long_tables(lib, t._replace(tree=tree), 2)
            yield from long_tables(lib, t._replace(coefficients=t.coefficients + [0] * more), 3)
            for got in (lib.least_level(1, 1, octets(tree), (0, 0, 4, 4)),
                        lib.activity(1, 1, octets(tree), 0, octets([9] * 16))):
                yield differ("a long tree", got, ("refused", 2))
            yield from (activity(lib, t, level, more) for level in LEVELS)
            yield insert(lib, t, (0, 0, 4, 2), 2, GREATEST, more)
            yield insert(lib, t, (0, 0, 4, 2), 2, more)
            yield insert(lib, t, (0, 0, 4, 2), 2, more + 1)
            for file in both_files(t):
                yield file_read(lib, "long numbers", file, t, GREATEST, more)
                yield from (file_read(lib, "long tree output", file, t, n) for n in (more, more + 1))
                yield file_read(lib, "a long file", file + bytes(more), t, GREATEST)
                yield from (write(lib, t, length) for length in (more, more + len(file) - 1, more + len(file)))
        yield differ("fresh, long numbers", lib.fresh(1, 1, 700, octets([9]), numbers([7] * (211 + more))),
                     ("refused", 16))
        for length in (more, more + 1):
            tree_out, numbers_out = octets([9] * length), numbers([7] * 211)
            yield differ("fresh, a long tree output", lib.fresh(1, 1, 700, tree_out, numbers_out), ("ok", 1),
                         (tree_out, [0] + [9] * (length - 1)), (numbers_out, flat.coefficients))


def one_leaf(lib: Library) -> Iterator[str]:
    """Trees of one leaf above 0: on 8 by 8 one level is everywhere, on others squares "beyond the sheet" are not 0."""
    for leaf in (1, 2, 3):
        tree = octets([leaf])
        for box in ((0, 0, 32, 32), (0, 0, 1, 1), (31, 31, 32, 32), (3, 0, 4, 32), (0, 17, 32, 18)):
            yield differ(f"least_level, leaf {leaf}", lib.least_level(8, 8, tree, box), ("ok", leaf, leaf, 1))
        for level in LEVELS:
            after = [int(level == leaf)] * place_count(8, 8, level)
            out = octets([9] * len(after))
            yield differ(f"activity, leaf {leaf}", lib.activity(8, 8, tree, level, out), ("ok",), (out, after))
        for w, h in ((7, 8), (8, 7), (1, 8), (8, 1), (7, 7), (1, 1)):
            told, out = f"leaf {leaf} on {w} by {h} gives 2", octets([9] * place_count(w, h, 0))
            yield differ(f"least_level, {told}", lib.least_level(w, h, tree, (0, 0, 4, 4)), ("refused", 2))
            yield differ(f"activity, {told}", lib.activity(w, h, tree, 0, out), ("refused", 2))
            yield differ(f"table, {told}", lib.table_cause(*lent(fresh_table(w, h)._replace(tree=[leaf]))),
                         ("refused", 2))
        # A square of 16 quarters that reaches a quarter, or all but one cell, beyond a side.
        for w, h in ((4, 3), (3, 4), (4, 1), (1, 4), (8, 3), (3, 8)):
            yield differ(f"leaf {leaf} half beyond {w} by {h}", lib.least_level(w, h, octets([4, leaf, 0, 0, 0]),
                                                                               (0, 0, 4, 4)), ("refused", 2))


def places_set(rng: Random, lib: Library) -> Iterator[str]:
    """"i runs from -3 to W x 2^L - 1, j from -3 to H x 2^L - 1": the ends are set, the next ones give 9."""
    for w, h in ((2, 1), (1, 3), (8, 8)):
        for level in LEVELS:
            t = whole_at(rng, w, h, level) if level else fresh_table(w, h, 9)
            last_i, last_j = w * 2**level - 1, h * 2**level - 1
            for i, j in ((-3, -3), (last_i, -3), (-3, last_j), (last_i, last_j)):
                yield put(lib, t, level, i, j, 32_000 * 64**level)
            for i, j in ((-4, 0), (0, -4), (last_i + 1, 0), (0, last_j + 1), (last_i + 1, -3), (-3, last_j + 1),
                         (-4, last_j), (last_i, -4)):
                yield differ(f"set, level {level} at {(i, j)} of {w} by {h} gives 9",
                             lib.set_coefficient(*lent(t), level, i, j, 5), ("refused", 9))


def rows_carried(rng: Random, lib: Library) -> Iterator[str]:
    """"Newly active functions take it", to the last column and row: whole sheets raised, of any numbers."""
    for w, h in ((8, 8), (8, 1), (1, 8), (7, 5)):
        flat, whole = samples.table_of(rng, w, h, NO_LEVELS), (0, 0, 4 * w, 4 * h)
        for level in (3, 2, 1) if (w, h) == (8, 8) else (3,):
            yield insert(lib, flat, whole, level)
        yield insert(lib, samples.random_table(rng, w, h), whole, 3)


def active_places(t: samples.Table) -> List[int]:
    return [place for place, limit in enumerate(t.surface().limits()) if limit is not None]


def with_numbers(t: samples.Table, values: Sequence[int]) -> samples.Table:
    """The table with these numbers by turns at its active places."""
    made = [0] * len(t.coefficients)
    for at, place in enumerate(active_places(t)):
        made[place] = values[at % len(values)]
    return t._replace(coefficients=made)


def saved_numbers(rng: Random, lib: Library) -> Iterator[str]:
    """"five bytes each, two's complement, high byte first": of each level the greatest and the least number, those
    where a byte more is needed, and the first past the limits."""
    around = [sign * (2**bit + off) for bit in (0, 7, 8, 15, 16, 23, 24, 31, 32) for off in (-1, 0, 1)
              for sign in (1, -1)]
    for level in LEVELS:
        limit, t = coefficient_limit(level), whole_at(rng, 2, 1, level)
        n = file_length(t)
        good = [limit, -limit, limit - 1, 1 - limit] + [number for number in around if abs(number) <= limit]
        yield from (write(lib, with_numbers(t, values), length) for values in (good, [limit], [-limit], [-1], [0])
                    for length in (n - 1, n))
        for place in (active_places(t)[0], active_places(t)[-1]):
            for number in (limit + 1, -limit - 1, 2**39 - 1, -2**39, 2**40, -2**40, -2**63, 2**63 - 1):
                over = t.coefficients[:place] + [number] + t.coefficients[place + 1:]
                yield from (write(lib, t._replace(coefficients=over), length) for length in (n - 1, n))


def saved_lengths(lib: Library) -> Iterator[str]:
    """"file output shorter than the file": every output up to the length of a small file and a little past it, and
    both sides of the length of 8 by 8 with all of level 3."""
    t = small()
    yield from (write(lib, t, length) for length in range(file_length(t) + 4))
    limit = coefficient_limit(3)
    for values in ([limit, -limit], [-1], [-limit], [(-1)**at * (limit - at) for at in range(4_489)]):
        whole = with_numbers(samples.Table(8, 8, [3], [0] * 6_196), values)
        n = file_length(whole)
        yield from (write(lib, whole, length) for length in (0, n - 11, n - 5, n - 1, n, n + 1, GREATEST_FILE))


def fixed(rng: Random, lib: Library) -> List[str]:
    parts: Sequence[Iterator[str]] = (
        boxes(lib), halves(lib), limits(lib), long_slices(lib), one_leaf(lib), places_set(rng, lib),
        largest_tree(rng, lib), largest_made(rng, lib), rows_carried(rng, lib), saved_numbers(rng, lib),
        saved_lengths(lib))
    return [fault for part in parts for fault in part if fault]

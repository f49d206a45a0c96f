"""Fixed cases: document 01's bench sheet, two faults at once, edges, table files, full grids, windows, and lists of
enquiries and commits with every point of a sheet read around them; then all that was seen in them saved and loaded
again."""
from __future__ import annotations

from functools import partial
from random import Random
from typing import List, Sequence, Tuple

import cases
import costs
import counted_files
import edges
import files
import fixed_grids
import fixed_windows
import insertions
import noted_files
import quarter_levels
import saving
import slips
import slopes
from cases import samples
from library import Library, differ, insertion_differs, numbers, octets
from tables import AT_POINT, READINGS

FLAT, REFINED, WHOLE = [0], [4, 4, 4, 1] + [0] * 9, (0, 0, 4, 4)
# The bench sheet's surface S on 1 by 1, and S with level 1 on the whole sheet.
S = [-1_000, 0, 1_000, 2_000] * 4 + [0] * 195
S_1 = [0] * 16 + [-32_000, 0, 32_000, 64_000, 96_000] * 5 + [0] * 170


def cause(lib: Library, words: str, w: int, h: int, tree: List[int], values: List[int], *want) -> str:
    return differ(words, lib.table_cause(w, h, octets(tree), numbers(values)), want)


def least(lib: Library, words: str, w: int, h: int, tree: List[int], box: Tuple[int, int, int, int], *want) -> str:
    return differ(words, lib.least_level(w, h, octets(tree), box), want)


def activity(lib: Library, words: str, w: int, h: int, tree: List[int], level: int, want: Tuple,
             after: Sequence[int]) -> str:
    out = octets([9] * len(after))
    return differ(words, lib.activity(w, h, octets(tree), level, out), want, (out, after))


def fresh(lib: Library, words: str, w: int, h: int, value: int, lengths: Tuple[int, int], *want) -> str:
    """A fresh table, or a refusal, that leaves its outputs as they are."""
    tree_out, numbers_out = octets([9] * lengths[0]), numbers([7] * lengths[1])
    got = lib.fresh(w, h, value, tree_out, numbers_out)
    if want[0] == "refused":
        return differ(words, got, want)
    level_0 = (w + 3) * (h + 3)
    return differ(words, got, want, (tree_out, [0] + [9] * (lengths[0] - 1)),
                  (numbers_out, [value] * level_0 + [0] * (lengths[1] - level_0)))


def reading(lib: Library, words: str, name: str, tree: List[int], values: List[int], place: Tuple[int, ...],
            *want) -> str:
    """A reading of a 1 by 1 table; the place has the tariff too where the cost is asked."""
    return differ(words, getattr(lib, name)(1, 1, octets(tree), numbers(values), *place), want)


def insertion(lib: Library, words: str, w: int, h: int, tree: List[int], values: List[int],
              box: Tuple[int, int, int, int], level: int, lengths: Tuple[int, int], want: Tuple,
              *after: Sequence[int]) -> str:
    """An insertion into outputs of these lengths, by an enquiry and a commit: the table after it, or, of a refusal,
    nothing."""
    tree_out, numbers_out = octets([9] * lengths[0]), numbers([7] * lengths[1])
    got = lib.insert(w, h, octets(tree), numbers(values), box, level, tree_out, numbers_out)
    return insertion_differs(words, got, want, *zip((tree_out, numbers_out), after))


def saved(lib: Library, words: str, w: int, h: int, tree: List[int], values: List[int], length: int, want: Tuple,
          file: bytes = b"") -> str:
    """A table saved to an output of this length: the file and what lay past it, or, of a refusal, what lay there."""
    file_out = octets([9] * length)
    got = lib.write_file(w, h, octets(tree), numbers(values), file_out)
    return differ(f"write_file, {words}", got, want, (file_out, file + bytes([9]) * (length - len(file))))


def bench_sheet(lib: Library) -> List[str]:
    """The bench cases that belong to tables, least levels, activity and fresh tables."""
    table, level, marks, new = (partial(one, lib) for one in (cause, least, activity, fresh))
    level_1 = [0] * 16 + [2_048_000] * 25 + [0] * 170
    over = [0] * 16 + [2_048_001] + [0] * 194
    return [
        table("32,000 accepted", 1, 1, FLAT, [32_000] * 16 + [0] * 195, "ok"),
        table("32,001 gives 4", 1, 1, FLAT, [0] * 15 + [32_001] + [0] * 195, "refused", 4),
        table("level 1: 2,048,000 accepted", 1, 1, REFINED, level_1, "ok"),
        table("level 1: 2,048,001 gives 4", 1, 1, REFINED, over, "refused", 4),
        level("least level 1, 4 nodes", 1, 1, REFINED, WHOLE, "ok", 1, 1, 4),
        level("least level 0, 5 nodes", 2, 1, REFINED, (0, 0, 8, 4), "ok", 0, 1, 5),
        level("box 0,0 to 5,4 gives 7", 1, 1, FLAT, (0, 0, 5, 4), "refused", 7),
        level("tree 4 0 0 0 0 gives 2", 8, 8, [4, 0, 0, 0, 0], WHOLE, "refused", 2),
        level("tree 1 on 1 by 1 gives 2", 1, 1, [1], WHOLE, "refused", 2),
        level("tree 1 on 8 by 8 accepted", 8, 8, [1], WHOLE, "ok", 1, 1, 1),
        marks("25 active on 1 by 1", 1, 1, REFINED, 1, ("ok",), [1] * 25),
        marks("16 active on 2 by 1, level 0", 2, 1, REFINED, 0, ("ok",), [0, 1, 1, 1, 1] * 4),
        marks("10 active on 2 by 1, level 1", 2, 1, REFINED, 1, ("ok",), ([1] * 2 + [0] * 5) * 5),
        new("fresh 1 by 1", 1, 1, -32_000, (3, 211), "ok", 1),
        new("fresh 2 by 1", 2, 1, 700, (1, 341), "ok", 1),
    ]


def bench_readings(lib: Library) -> List[str]:
    """The bench cases of the readings, with the halves of document 01's rounding."""
    def columns(*watts: int) -> List[int]:
        return list(watts) * 4 + [0] * 195

    read = partial(reading, lib)
    d, one, corner, inner = 36 * 2**42, columns(1, 1, 1, 1), [1] + [0] * 210, [0] * 5 + [1] + [0] * 205
    return [
        read("S at (64, 5)", "exact", FLAT, S, (64, 5), "ok", 500 * d),
        read("S with level 1 at (64, 5)", "exact", REFINED, S_1, (64, 5), "ok", 500 * d),
        read("only (-3, -3), at (0, 0)", "exact", FLAT, corner, (0, 0), "ok", 2**42),
        read("only (-3, -3), at (128, 128)", "exact", FLAT, corner, (128, 128), "ok", 0),
        read("only (-2, -2), at (0, 0)", "exact", FLAT, inner, (0, 0), "ok", 2**46),
        read("u 128 accepted", "exact", FLAT, S, (128, 0), "ok", 1_000 * d),
        *(read("u 129 gives 6", name, FLAT, S, (129, 0), "refused", 6) for name in AT_POINT),
        read("500 watts as f64", "watts", FLAT, S, (64, 5), "ok", 500.0),
        read("0.5 shows 1", "display", FLAT, columns(-1, 0, 1, 2), (64, 5), "ok", 1),
        read("-0.5 shows 0", "display", FLAT, columns(-2, -1, 0, 1), (64, 5), "ok", 0),
        read("-1.5 shows -1", "display", FLAT, columns(-3, -2, -1, 0), (64, 5), "ok", -1),
        read("1 watt, tariff 1,499", "cost", FLAT, one, (9, 9, 1_499), "ok", 1),
        read("1 watt, tariff 1,500", "cost", FLAT, one, (9, 9, 1_500), "ok", 2),
        read("-1 watt costs 0", "cost", FLAT, columns(-1, -1, -1, -1), (9, 9, 99_999), "ok", 0),
        read("tariff 100,000 gives 11", "cost", FLAT, one, (9, 9, 100_000), "refused", 11),
    ]


def bench_insertions(lib: Library) -> List[str]:
    """The bench cases of insertion, and each refusal's edge."""
    after = partial(insertion, lib)
    seven = [700] * 20 + [0] * 321
    seven_1 = [0, 700, 700, 700, 700] * 4 + ([44_800] * 2 + [0] * 5) * 5 + [0] * 286
    one, one_3 = [1] * 121 + [0] * 6_075, [0] * 1_707 + [64**3] * 4_489
    return [
        after("S raised to level 1", 1, 1, FLAT, S, WHOLE, 1, (20, 211), ("ok", 13), REFINED + [9] * 7, S_1),
        after("13 bytes are enough", 1, 1, FLAT, S, WHOLE, 1, (13, 211), ("ok", 13), REFINED, S_1),
        after("12 bytes give 17", 1, 1, FLAT, S, WHOLE, 1, (12, 211), ("refused", 17)),
        after("210 numbers give 16", 1, 1, FLAT, S, WHOLE, 1, (13, 210), ("refused", 16)),
        after("212 numbers give 16", 1, 1, FLAT, S, WHOLE, 1, (13, 212), ("refused", 16)),
        after("box 0,0 to 5,4 gives 7", 1, 1, FLAT, S, (0, 0, 5, 4), 1, (13, 211), ("refused", 7)),
        after("level 0 gives 8", 1, 1, FLAT, S, WHOLE, 0, (13, 211), ("refused", 8)),
        after("level 4 gives 8", 1, 1, FLAT, S, WHOLE, 4, (13, 211), ("refused", 8)),
        after("nothing raised", 1, 1, REFINED, S_1, (1, 1, 3, 3), 1, (13, 211), ("ok", 13), REFINED, S_1),
        after("700 watts on 2 by 1", 2, 1, FLAT, seven, WHOLE, 1, (13, 341), ("ok", 13), REFINED, seven_1),
        after("8 by 8 raised to level 3", 8, 8, FLAT, one, (0, 0, 32, 32), 3, (1, 6_196), ("ok", 1), [3], one_3),
    ]


def loaded(lib: Library, words: str, w: int, h: int, tree: List[int], values: List[int], file: bytes) -> str:
    """A file read into outputs with room to spare for the tree: the table that it holds."""
    tree_out, numbers_out = octets([9] * (len(tree) + 2)), numbers([7] * len(values))
    got = lib.read_file(octets(file), tree_out, numbers_out)
    return differ(f"read_file, {words}, {len(file)} bytes", got, ("ok", len(tree), w, h), (tree_out, tree + [9, 9]),
                  (numbers_out, values))


def bench_files(lib: Library) -> List[str]:
    """The files of the bench sheet's tables, written out by hand: up to the tree, the counts, and the rest. Both sides
    of each one's length; the old rule's file has no counts, is 11 bytes shorter, and is still loaded."""
    columns = "fffffffc18 0000000000 00000003e8 00000007d0", "ffffff8300 0000000000 0000007d00 000000fa00 0000017700"
    tree, none = "02000d 04040401 000000000000000000", "120000 130000"
    seven_1 = [0, 700, 700, 700, 700] * 4 + ([44_800] * 2 + [0] * 5) * 5 + [0] * 286
    # The greatest and the least number of level 3, and -1; 22,445 bytes, 57ad, of 4,489 numbers, 1189.
    ends, whole = [32_000 * 64**3, -32_000 * 64**3, -1], "01f4000000 fe0c000000 ffffffffff" + "00" * 22_430
    rows = (
        ("S", 1, 1, FLAT, S, 112,
         ("0100020101 02000100", "0010 0000 0000 0000", "100050" + columns[0] * 4 + "110000" + none)),
        ("S with level 1", 1, 1, REFINED, S_1, 169,
         ("0100020101" + tree, "0000 0019 0000 0000", "100000 11007d" + columns[1] * 5 + none)),
        ("700 watts on 2 by 1", 2, 1, REFINED, seven_1, 174,
         ("0100020201" + tree, "0010 000a 0000 0000",
          "100050" + "00000002bc" * 16 + "110032" + "000000af00" * 10 + none)),
        ("8 by 8, tree 3", 8, 8, [3], [0] * 1_707 + ends + [0] * 4_486, 22_477,
         ("0100020808 02000103", "0000 0000 0000 1189", "100000 110000 120000 1357ad" + whole)),
    )
    found = []
    for words, w, h, regions, values, n, (front, counts, rest) in rows:
        file, old = bytes.fromhex(front + "030008" + counts + rest), bytes.fromhex(front + rest)
        found += [saved(lib, f"{words}, {length} bytes", w, h, regions, values, length, ("ok", n), file)
                  for length in (n, n + 1, n + 50, saving.GREATEST_FILE)]
        found += [saved(lib, f"{words}, {length} bytes give 18", w, h, regions, values, length, ("refused", 18))
                  for length in (0, 1, n // 2, n - 11, n - 10, n - 3, n - 1)]
        found += [loaded(lib, words, w, h, regions, values, given) for given in (file, old)]
    return found


def two_faults_of_tables(lib: Library) -> List[str]:
    """Tables with two faults, lent to every call that judges a table: the lower number wins."""
    tables = (
        ("1 with 2", 1, samples.Table(0, 1, [5], [0] * 211)),
        ("1 with 2", 1, samples.Table(1, 9, [4, 0, 0, 0, 0], [0] * 211)),
        ("2 with 3", 2, samples.Table(1, 1, [5], [0] * 210)),
        ("2 with 3", 2, samples.Table(1, 1, FLAT + [0], [0] * 212)),
        ("3 with 4", 3, samples.Table(1, 1, FLAT, [32_001] + [0] * 209)),
        ("3 with 4", 3, samples.Table(1, 1, FLAT, [-32_001] + [0] * 211)),
        ("4 with 5 after it", 4, samples.Table(1, 1, FLAT, [0] * 15 + [32_001] + [0] * 194 + [1])),
        ("4 with 5 before it", 4, samples.Table(1, 1, REFINED, [1] + [0] * 39 + [-2_048_001] + [0] * 170)),
    )
    faults = []
    for words, number, t in tables:
        tree, values, want = octets(t.tree), numbers(t.coefficients), ("refused", number)
        lent = t.w, t.h, tree, values
        outputs = octets([9] * 20), numbers([7] * 211)
        faults.append(differ(f"table, {words}", lib.table_cause(*lent), want))
        faults.append(differ(f"set, {words}", lib.set_coefficient(*lent, 0, -2, -2, 5), want))
        faults.append(insertion_differs(f"insert, {words}", lib.insert(*lent, WHOLE, 1, *outputs), want))
        faults += [saved(lib, f"{words}, into {length}", *t, length, want) for length in (0, 100, saving.GREATEST_FILE)]
        for name in READINGS:
            place = (9, 9, 1_500) if name == "cost" else (9, 9)
            faults.append(differ(f"{name}, {words}", getattr(lib, name)(*lent, *place), want))
    return faults


def two_faults_of_calls(lib: Library) -> List[str]:
    """Calls with two faults of which one at most is the table's: the lower number wins."""
    after, read, level, marks, new = (partial(one, lib) for one in (insertion, reading, least, activity, fresh))
    passive, save = S[:-1] + [1], partial(saved, lib)
    no_box, no_level = (0, 0, 5, 4), (0, 4)

    def put(words: str, tree: List[int], values: List[int], place: Tuple[int, int, int], value: int, n: int) -> str:
        return differ(words, lib.set_coefficient(1, 1, octets(tree), numbers(values), *place, value), ("refused", n))

    return [
        after("insert, 5 with 7", 1, 1, FLAT, passive, no_box, 1, (13, 211), ("refused", 5)),
        after("insert, 5 with 8", 1, 1, FLAT, passive, WHOLE, 4, (13, 211), ("refused", 5)),
        *(after("insert, 7 with 8", 1, 1, FLAT, S, no_box, n, (13, 211), ("refused", 7)) for n in no_level),
        *(after("insert, 8 with 16", 1, 1, FLAT, S, WHOLE, n, (13, 210), ("refused", 8)) for n in no_level),
        *(after("insert, 8 with 17", 1, 1, FLAT, S, WHOLE, n, (0, 211), ("refused", 8)) for n in no_level),
        *(after("insert, 16 with 17", 1, 1, FLAT, S, WHOLE, 1, (12, n), ("refused", 16)) for n in (210, 212)),
        *(read(f"{name}, 5 with 6", name, FLAT, passive, (129, 0), "refused", 5) for name in AT_POINT),
        read("cost, 5 with 6", "cost", FLAT, passive, (9, 129, 1_500), "refused", 5),
        read("cost, 5 with 11", "cost", FLAT, passive, (9, 9, 100_000), "refused", 5),
        read("cost, 6 with 11, along u", "cost", FLAT, S, (129, 9, 100_000), "refused", 6),
        read("cost, 6 with 11, along v", "cost", FLAT, S, (9, 129, 100_000), "refused", 6),
        level("least level, 1 with 2", 0, 1, [5], WHOLE, "refused", 1),
        level("least level, 2 with 7", 1, 1, [5], no_box, "refused", 2),
        marks("activity, 1 with 2", 1, 9, [5], 0, ("refused", 1), [9] * 16),
        marks("activity, 2 with 8", 1, 1, [5], 4, ("refused", 2), [9] * 16),
        marks("activity, 8 with 16", 1, 1, FLAT, 4, ("refused", 8), [9] * 15),
        new("fresh, 1 with 10", 9, 1, 32_001, (1, 211), "refused", 1),
        new("fresh, 10 with 16", 1, 1, 32_001, (1, 210), "refused", 10),
        new("fresh, 16 with 17", 1, 1, 700, (0, 210), "refused", 16),
        put("set, 5 with 8", FLAT, passive, (4, 0, 0), 0, 5),
        put("set, 8 with 9", FLAT, S, (4, -4, 0), 0, 8),
        put("set, 9 with 10", FLAT, S, (1, 0, 0), 2_048_001, 9),
        save("1 with 18", 1, 9, FLAT, S, 100, ("refused", 1)),
        save("2 with 18", 1, 1, [5], S, 100, ("refused", 2)),
        save("3 with 18", 1, 1, FLAT, S[:-1], 100, ("refused", 3)),
        save("4 with 18", 1, 1, FLAT, S[:15] + [32_001] + S[16:], 100, ("refused", 4)),
        save("5 with 18", 1, 1, FLAT, passive, 100, ("refused", 5)),
    ]


def whole_grids(rng: Random, lib: Library) -> List[str]:
    """Lists of enquiries and commits on a 1 by 1 and a 2 by 1 table, read at every point of the grid before and
    after."""
    return [fault for w in (1, 2) for fault in
            insertions.list_made(rng, lib, samples.random_table(rng, w, 1, boxes=1), 6, cases.grid(w, 1))]


def faults(lib: Library, seed: int, grids: bool) -> List[str]:
    """What is not as it should be in any fixed case, whole grids among them or not; the seed draws lists of enquiries
    and commits, tables and files, but nothing of the levels, the costs, the slopes, the slips and the windows."""
    found = bench_sheet(lib) + bench_readings(lib) + bench_insertions(lib) + bench_files(lib)
    found += two_faults_of_tables(lib) + two_faults_of_calls(lib)
    found += quarter_levels.fixed(lib) + costs.fixed(lib) + slopes.fixed(lib) + slips.fixed(lib)
    found += fixed_windows.fixed(lib)
    if grids:
        found += whole_grids(Random(seed), lib)
    for part in (edges, files, counted_files, noted_files, fixed_grids):
        found += part.fixed(Random(seed), lib)
    found += saving.again(lib)
    return [fault for fault in found if fault]

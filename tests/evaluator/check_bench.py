"""Checks the exact-fraction evaluator against documents 01 and 02: bench sheet, refusals, files, demands.

Run as: python3 tests/evaluator/check_bench.py
"""
from __future__ import annotations

import sys

sys.dont_write_bytecode = True

from fractions import Fraction
from typing import Callable, List, Sequence, Tuple

import bench_misreadings
import calls
import cost_cases
import enquiries
import file_cases
import full_grids
import grid_cases
import grid_misreadings
import grid_properties
import grid_write_misreadings
import level_cases
import note_cases
import note_misreadings
import note_properties
import properties
import samples
import saved_files
import slip_cases
import slip_misreadings
import slip_properties
import slope_cases
import slope_misreadings
import slope_properties
import stopping
import tablefile
import tree as quadtree
import uniqueness_cases
import uniqueness_misreadings
import uniqueness_properties
import window_cases
import window_misreadings
import window_properties
from samples import Table, bench_s, columns_table, fresh_table, inserted
from surface import D, LEVELS, place_count, place_of, total_places

Check = Callable[[bool, str], None]

LEVEL_1_TREE = [4, 4, 4, 1] + [0] * 9
LEAST_I64, GREATEST_I64 = -(2**63), 2**63 - 1


class Tally:
    """Counts the checks and keeps the words of those that fail."""

    def __init__(self) -> None:
        self.passed = 0
        self.failed: List[str] = []

    def check(self, good: bool, words: str) -> None:
        if good:
            self.passed += 1
        else:
            self.failed.append(words)


def level_part(table: Table, level: int) -> List[int]:
    start = place_of(table.w, table.h, level, -3, -3)
    return table.coefficients[start : start + place_count(table.w, table.h, level)]


def active_count(w: int, h: int, tree: Sequence[int], level: int) -> int:
    return sum(calls.activity(w, h, tree, level, [5] * place_count(w, h, level)).lent["activity_out"])


def single(i: int, j: int, number: int = 1) -> Table:
    table = columns_table((0, 0, 0, 0))
    return table._replace(coefficients=calls.set_coefficient(*table, 0, i, j, number).lent["coefficients"])


# Document 01, Bench sheet: the cases marked *.
def starred(check: Check) -> None:
    s = bench_s()
    check(calls.exact(*s, 64, 5).answer == ("ok", 500 * D) and 500 * D == 79_164_837_199_872_000, "S at (64, 5)")
    check(D == 158_329_674_399_744, "D")
    check(calls.exact(*single(-3, -3), 0, 0).answer == ("ok", 2**42), "only (-3, -3) at (0, 0)")
    check(calls.exact(*single(-3, -3), 128, 128).answer == ("ok", 0), "only (-3, -3) at (128, 128)")
    check(calls.exact(*single(-2, -2), 0, 0).answer == ("ok", 2**46), "only (-2, -2) at (0, 0)")
    fine = inserted(s, (0, 0, 4, 4), 1)
    check(fine.tree == LEVEL_1_TREE, "S with a level 1 box: its tree")
    check(active_count(1, 1, fine.tree, 1) == 25 and active_count(1, 1, fine.tree, 0) == 0, "S with a box: 25 active")
    check(level_part(fine, 1) == [-32_000, 0, 32_000, 64_000, 96_000] * 5, "S with a level 1 box: its columns")
    check(level_part(fine, 0) == [0] * 16 and level_part(fine, 2) == [0] * 49, "S with a level 1 box: passive places")
    check(calls.least_level(1, 1, LEVEL_1_TREE, (0, 0, 4, 4)).answer == ("ok", 1, 1, 4), "least level on 1 by 1")
    two = inserted(fresh_table(2, 1, 700), (0, 0, 4, 4), 1)
    check(two.tree == LEVEL_1_TREE, "2 by 1 with the same box: its tree")
    check([active_count(2, 1, two.tree, level) for level in LEVELS] == [16, 10, 0, 0], "2 by 1: 16 and 10 active")
    check(calls.least_level(2, 1, two.tree, (0, 0, 8, 4)).answer == ("ok", 0, 1, 5), "least level on 2 by 1")
    check(sorted(set(level_part(two, 1))) == [0, 44_800], "2 by 1: 44,800 at level 1")
    points = samples.deciding_points(2, 1)
    check(calls.exact_at(*two, points) == [700 * D] * len(points), "700 watts at each point of 2 by 1")
    check(active_count(8, 8, [3], 3) == 4_489 and total_places(8, 8) == 6_196, "8 by 8, tree 3: 4,489 active")
    check([place_count(8, 8, level) for level in LEVELS] == [121, 361, 1_225, 4_489], "places of 8 by 8")
    box = (0, 0, 1, 1)
    check(calls.least_level(8, 8, [4, 0, 0, 0, 0], box).answer == ("refused", 2), "tree 4 0 0 0 0")
    check(calls.least_level(1, 1, [1], box).answer == ("refused", 2), "tree 1 on 1 by 1")
    check(calls.least_level(8, 8, [1], box).answer == ("ok", 1, 1, 1), "tree 1 on 8 by 8")
    check(calls.exact(*s, 128, 0).answer == ("ok", 1_000 * D), "u 128 on 1 by 1")
    check(calls.exact(*s, 129, 0).answer == ("refused", 6), "u 129 on 1 by 1")
    check(calls.least_level(1, 1, [0], (0, 0, 5, 4)).answer == ("refused", 7), "box 0,0 to 5,4, least level")
    outcome = calls.insert(*s, (0, 0, 5, 4), 1, [9] * 20, [7] * len(s.coefficients))
    check(outcome.answer == ("refused", 7), "box 0,0 to 5,4, insert")


# Document 01, Bench sheet: the cases without a mark, and the roundings of 'Readings' and 'Misreadings'.
def unstarred(check: Check) -> None:
    check(calls.exact(*single(-2, 0, 32_000), 0, 0).answer[0] == "ok", "coefficient 32,000")
    for number in (32_001, -32_001, LEAST_I64, GREATEST_I64):
        table = columns_table((number, 0, 0, 0))
        check(calls.exact(*table, 0, 0).answer == ("refused", 4), "coefficient %d" % number)
    fine = inserted(bench_s(), (0, 0, 4, 4), 1)
    for number, answer in ((2_048_000, ("ok",)), (-2_048_000, ("ok",)), (2_048_001, ("refused", 10))):
        outcome = calls.set_coefficient(*fine, 1, -3, -3, number)
        check(outcome.answer == answer, "coefficient %d at level 1" % number)
    fine.coefficients[16] = 2_048_000
    check(calls.exact(*fine, 0, 0).answer[0] == "ok", "2,048,000 accepted in a lent slice")
    fine.coefficients[16] = -2_048_001
    check(calls.exact(*fine, 0, 0).answer == ("refused", 4), "-2,048,001 in a lent slice")
    one = fresh_table(1, 1, 1)
    for tariff, hundredths in ((0, 0), (499, 0), (500, 1), (1_499, 1), (1_500, 2), (99_999, 100)):
        check(calls.cost(*one, 3, 5, tariff).answer == ("ok", hundredths), "tariff %d" % tariff)
    for watts in (0, -5):
        check(calls.cost(*fresh_table(1, 1, watts), 0, 0, 99_999).answer == ("ok", 0), "cost of %d watts" % watts)
    # At u = 64 the reading is the mean of the two middle columns.
    for columns, watts in (((0, -1, -2, -3), -1), ((1, 0, -1, -2), 0), ((-1, 0, 1, 2), 1), ((0, 1, 2, 3), 2)):
        shown = calls.display(*columns_table(columns), 64, 9).answer
        check(shown == ("ok", watts), "display of columns %s" % (columns,))
    check(calls.display(*bench_s(), 65, 9).answer == ("ok", 508), "display of 507.8125")
    numerator = calls.exact(*bench_s(), 65, 9).answer[1]
    check(Fraction(numerator, D) == Fraction("507.8125"), "S at (65, 9)")
    for reading, good in ((507.8125, True), (507.8125 + 2**-30, True), (507.8125 - 2**-30, True)):
        check(calls.within_bound(reading, numerator) is good, "within 2^-30: %r" % reading)
    for reading in (507.8125 + 2**-30 + 2**-43, float("nan"), float("inf"), -507.8125):
        check(not calls.within_bound(reading, numerator), "not within 2^-30: %r" % reading)
    check(calls.float_allowed(*bench_s(), 65, 9, ("ok", 507.8125)), "a float answer")
    check(calls.float_allowed(*bench_s(), 129, 9, ("refused", 6)), "a refused float answer")
    check(not calls.float_allowed(*bench_s(), 129, 9, ("ok", 0.0)), "a float answer where 6 is due")
    check(not calls.float_allowed(*bench_s(), 65, 9, ("refused", 6)), "a refusal where a float is due")


# Document 01, Calls: 'The lowest number that applies is given'; each call with its refusals, and nothing written.
def refusals(check: Check) -> None:
    total = total_places(1, 1)
    good, bad_tree = bench_s().coefficients, [4, 0, 0, 0, 0]
    past, passive = [32_001] + good[1:], good[:-1] + [1]
    both = good[:-1] + [1]
    both[0] = LEAST_I64
    passive_first = inserted(bench_s(), (0, 0, 4, 4), 1)
    passive_first.coefficients[0], passive_first.coefficients[40] = 1, 2_048_001
    box, out, tree_out = (0, 0, 4, 4), [7] * total, [9] * 13
    tables: List[Tuple[int, Tuple[int, int, List[int], List[int]]]] = [
        (1, (0, 1, bad_tree, [])), (1, (1, 9, bad_tree, past)), (1, (-1, 1, [0], good)), (1, (1, 2**40, [0], good)),
        (2, (1, 1, bad_tree, [])), (2, (1, 1, [], good)), (2, (1, 1, [0, 0], good)), (2, (1, 1, [5], good)),
        (2, (1, 1, [1], good)), (2, (1, 1, [4, 0, 0, 0], good)), (2, (1, 1, [4, 4, 4, 4, 4, 4] + [0] * 20, good)),
        (3, (1, 1, [0], past[:-1])), (3, (1, 1, [0], passive + [0])), (3, (1, 1, [0], [])),
        (4, (1, 1, [0], past)), (4, (1, 1, [0], both)), (4, tuple(passive_first)), (5, (1, 1, [0], passive)),
    ]
    cases: List[Tuple[int, calls.Outcome]] = []
    for number, table in tables:
        cases.append((number, calls.insert(*table, (4, 4, 0, 0), 9, [], [])))
        cases.append((number, enquiries.enquire(*table, (4, 4, 0, 0), 9)))
        cases.append((number, enquiries.commit(*table, enquiries.Slip((4, 4, 0, 0), 9, 0, (0,) * 4, 0), [], [])))
        cases.append((number, calls.set_coefficient(*table, 7, 99, 99, 2**70)))
        cases.append((number, calls.exact(*table, -1, 999)))
        cases.append((number, calls.display(*table, -1, 999)))
        cases.append((number, calls.cost(*table, -1, 999, -1)))
        cases += [(number, calls.slopes(*table, u, v)) for u, v in ((-1, 999), (0, 0))]
        # 18 is 'judged last': with an output that is too short too, and with one that no file is longer than.
        cases += [(number, calls.write_file(*table, [8] * n)) for n in (0, 99, 32_376, tablefile.GREATEST_FILE)]
        if number <= 2:
            cases.append((number, calls.activity(*table[:3], 4, [])))
            cases.append((number, calls.least_level(*table[:3], (1, 1, 1, 1))))
    s = bench_s()
    for u, v in ((129, 0), (0, 129), (-1, 0), (0, -1)):
        cases += [(6, calls.exact(*s, u, v)), (6, calls.display(*s, u, v)), (6, calls.cost(*s, u, v, 100_000))]
        cases.append((6, calls.slopes(*s, u, v)))
    for wrong in ((0, 0, 5, 4), (0, 0, 4, 5), (4, 0, 0, 4), (0, 4, 4, 0), (1, 1, 1, 2), (-1, 0, 1, 1), (0, -1, 1, 1)):
        cases += [(7, calls.insert(*s, wrong, 0, [], [])), (7, calls.least_level(1, 1, [0], wrong))]
    for level in (-1, 0, 4, 2**33):
        cases.append((8, calls.insert(*s, box, level, [], [])))
    for level in (-1, 4, 2**33):
        cases.append((8, calls.set_coefficient(*s, level, 99, 99, 2**70)))
        cases.append((8, calls.activity(1, 1, [0], level, [])))
    outside = ((0, -4, 0), (0, 1, 0), (0, 0, -4), (0, 0, 1), (0, LEAST_I64, GREATEST_I64))
    for level, i, j in outside + ((1, 0, 0), (3, 0, 0)):
        cases.append((9, calls.set_coefficient(*s, level, i, j, 2**70)))
    cases += [(10, calls.set_coefficient(*s, 0, 0, 0, n)) for n in (32_001, -32_001, LEAST_I64)]
    cases += [(10, calls.fresh(1, 1, n, [], [])) for n in (32_001, -32_001, LEAST_I64)]
    cases += [(1, calls.fresh(w, h, 2**70, [], [])) for w, h in ((0, 1), (1, 0), (9, 1), (1, -3))]
    cases += [(11, calls.cost(*s, 0, 0, tariff)) for tariff in (100_000, -1)]
    cases += [(16, calls.insert(*s, box, 1, [], [7] * n)) for n in (0, total - 1, total + 1)]
    cases += [(16, calls.fresh(1, 1, 5, [], [7] * n)) for n in (0, total - 1, total + 1)]
    cases += [(16, calls.activity(1, 1, [0], 1, [5] * n)) for n in (0, 24, 26, 16)]
    cases += [(17, calls.insert(*s, box, 1, [9] * n, out)) for n in (0, 1, 12)]
    cases.append((17, calls.fresh(1, 1, 5, [], out)))
    # The file of S has 112 bytes; 101 were enough by the old rule, without the counts.
    cases += [(18, calls.write_file(*s, [8] * n)) for n in (0, 1, 5, 12, 100, 101, 102, 111)]
    for number, outcome in cases:
        check(outcome.answer == ("refused", number), "refusal %d, given %s" % (number, outcome.answer))
    refused_insert = calls.insert(*s, box, 1, [9] * 12, out)
    kept = {"tree": [0], "coefficients": good, "tree_out": [9] * 12, "coefficients_out": out}
    check(refused_insert.lent == kept, "a refused insertion writes nothing")
    check(calls.insert(*s, box, 1, tree_out, out).answer == ("ok", 13), "outputs of exactly the length needed")
    longer = calls.insert(*s, box, 1, [9] * 15, out).lent["tree_out"]
    check(longer == LEVEL_1_TREE + [9, 9], "tree output past the tree is untouched")
    start = calls.fresh(2, 1, -32_000, [9, 9], [7] * total_places(2, 1))
    check(start.answer == ("ok", 1) and start.lent["tree_out"] == [0, 9], "a fresh table's tree")
    check(start.lent["coefficients_out"] == [-32_000] * 20 + [0] * (total_places(2, 1) - 20), "a fresh table's slice")
    after = calls.set_coefficient(*s, 0, 0, -3, -7).lent["coefficients"]
    check(after == good[:3] + [-7] + good[4:], "set writes its one place")
    nothing = calls.insert(*inserted(s, box, 2), (1, 1, 2, 2), 1, tree_out, out)
    check(nothing.answer == ("ok", 13), "an insertion that raises nothing is accepted")
    subtrees = [4, 4, 4, 4] + [4, 1, 0, 0, 1] * 4 + [0] * 9
    check(calls.judge_table(1, 1, subtrees, [0] * total) is None, "four equal split subtrees are allowed")


# Document 02, One: 'The file's length is returned', 'bytes past the file are untouched', 18; Seven: the counts. Files
# written out by hand, each in three parts: up to tag 2, the counts, and the rest. The old rule's have no counts.
def saving(check: Check) -> None:
    s = bench_s()
    columns = ("fffffffc18", "0000000000", "00000003e8", "00000007d0")
    file_s = ("0100020101" + "02000100", "0010000000000000", "100050" + "".join(columns) * 4 + "110000120000130000")
    fine = inserted(s, (0, 0, 4, 4), 1)
    columns = ("ffffff8300", "0000000000", "0000007d00", "000000fa00", "0000017700")
    tree = "02000d" + "04040401" + "00" * 9
    fine_s = ("0100020101" + tree, "0000001900000000", "100000" + "11007d" + "".join(columns) * 5 + "120000130000")
    # 700 watts are 2bc, or af00 in units of 1/64 watt; 16 and 10 functions are active, 80 and 50 bytes.
    two = inserted(fresh_table(2, 1, 700), (0, 0, 4, 4), 1)
    numbers = "100050" + "00000002bc" * 16 + "110032" + "000000af00" * 10 + "120000130000"
    wide = ("0100020201" + tree, "0010000a00000000", numbers)
    # The limits of level 3 in five bytes, and -1; 4,489 functions are active, 1189, in 22,445 bytes, 57ad.
    whole = Table(8, 8, [3], [0] * 1_707 + [32_000 * 64**3, -32_000 * 64**3, -1] + [0] * 4_486)
    ends = "01f4000000" + "fe0c000000" + "ffffffffff" + "00" * 22_430
    full = ("0100020808" + "02000103", "0000000000001189", "100000110000120000" + "1357ad" + ends)
    texts = [("S", s, file_s), ("S with a level 1 box", fine, fine_s), ("2 by 1", two, wide), ("tree 3", whole, full)]
    lengths = [len("".join(parts)) // 2 + 3 for _, _, parts in texts]
    check(lengths == [112, 169, 174, 22_477], "lengths of files written out by hand")
    check([n - 11 for n in lengths] == [101, 158, 163, 22_466], "lengths by the old rule")
    for name, table, (front, counts, rest) in texts:
        old, file = bytes.fromhex(front + rest), list(bytes.fromhex(front + "030008" + counts + rest))
        check(tablefile.write_file(*table, counted=False) == old, "the file of %s by the old rule" % name)
        for given in (old, bytes(file)):
            check(tablefile.judge(given) == tuple(table), "%s is loaded from %d bytes" % (name, len(given)))
        for more in (0, 1, 9):
            outcome = calls.write_file(*table, [8] * (len(file) + more))
            check(outcome.answer == ("ok", len(file)), "length of the file of %s, %d bytes more lent" % (name, more))
            check(outcome.lent["file_out"] == file + [8] * more, "the file of %s, %d bytes more lent" % (name, more))
        # Too short by a byte, by part of the counts, and by all of them: the last was enough by the old rule.
        for less in range(1, 12):
            short = [8] * (len(file) - less)
            kept = {"tree": table.tree, "coefficients": table.coefficients, "file_out": short}
            outcome = calls.write_file(*table, short)
            check(outcome == (("refused", 18), kept), "%d bytes too short for the file of %s" % (less, name))
            first = next(place for place, limit in enumerate(table.surface().limits()) if limit is not None)
            kept["coefficients"] = properties.with_number(table, first, 2**40).coefficients
            over = calls.write_file(table.w, table.h, table.tree, kept["coefficients"], short)
            check(over == (("refused", 4), kept), "4 and not 18 for the file of %s" % name)
    longest = 5 + (3 + quadtree.GREATEST_TREE) + 4 * 3 + 5 * total_places(8, 8)
    unnoted = tablefile.GREATEST_UNCOUNTED, tablefile.GREATEST_UNNOTED
    check(unnoted == (longest, longest + 11), "no file without a note is longer")


GROUPS = [
    ("bench sheet, starred", starred),
    ("bench sheet, the rest", unstarred),
    ("corner program", file_cases.corners),
    ("refusals", refusals),
    ("levels under a box", level_cases.greatest_levels),
    ("costs", cost_cases.costs),
    ("where a cost rises", cost_cases.nearest),
    ("costs beside those before", cost_cases.changes),
    ("watts and slopes", slope_cases.slopes),
    ("bounds of watts and slopes", slope_cases.bounds),
    ("slips and enquiries", slip_cases.slips),
    ("commits", slip_cases.commits),
    ("pairs of tables that read alike", uniqueness_cases.pairs),
    ("grids and their tables", grid_cases.converted),
    ("grids of tables", grid_cases.writing),
    ("refusals of both converters", grid_cases.refusals),
    ("records into windows", window_cases.adding),
    ("figures of windows", window_cases.figures),
    ("a run of records", window_cases.run),
    ("refusals of windows", window_cases.refusals),
    ("table files", file_cases.files),
    ("counts in a file", file_cases.counts),
    ("counts and other causes", file_cases.counts_in_order),
    ("notes in a file", note_cases.reading),
    ("saving with a note", note_cases.saving),
    ("saving a table", saving),
    ("splines", properties.splines),
    ("region trees", properties.trees),
    ("levels under random boxes", properties.levels_under),
    ("selection rule", properties.selection),
    ("truncation", properties.truncation),
    ("equal coefficients", properties.unity),
    ("convexity", properties.convexity),
    ("linearity", properties.linearity),
    ("refinement", properties.refinement),
    ("readings by a level, and misreadings of that level", stopping.by_levels),
    ("readings on shared edges", stopping.shared_edges),
    ("slopes of cubics through readings", slope_properties.by_readings),
    ("readings beside the line of a slope", slope_properties.remainders),
    ("slopes in both cells of an edge", slope_properties.both_cells),
    ("linearity of slopes", slope_properties.linearity),
    ("refinement and slopes", slope_properties.refinement),
    ("sizes of slopes", slope_properties.sizes),
    ("lists of enquiries and commits", slip_properties.lists),
    ("what a slip tells and a commit leaves", slip_properties.told_and_left),
    ("an enquiry and its commit as an insertion", slip_properties.as_insertion),
    ("whose slip it is", slip_properties.whose),
    ("coefficients told by rank", uniqueness_properties.ranks),
    ("cells that show a function", uniqueness_properties.shown),
    ("coefficients after lists, told by readings before", uniqueness_properties.carried),
    ("lists that end with the same regions", uniqueness_properties.lists),
    ("full grids", full_grids.grids),
    ("grids and back", grid_properties.there_and_back),
    ("readings of grids", grid_properties.readings),
    ("grids over finer trees", grid_properties.finer_trees),
    ("tables of grids by readings", grid_properties.same_by_readings),
    ("linearity of grids", grid_properties.linearity),
    ("runs of records", window_properties.runs),
    ("one record more", window_properties.one_more),
    ("windows turned", window_properties.turned),
    ("saving and loading", properties.saving),
    ("saving what was loaded", properties.saving_again),
    ("files of one table", saved_files.files_of_a_table),
    ("fields of counts", saved_files.counts_bits),
    ("files that differ in the note", note_properties.passed_over),
    ("saving and loading with a note", note_properties.saved_again),
    ("fields of notes", note_properties.note_bits),
    ("misreadings on the bench sheet", bench_misreadings.bench_misreadings),
    ("misreadings on the properties", properties.misreadings),
    ("misreadings of the levels under a box", level_cases.greatest_misreadings),
    ("misreadings of the cost", cost_cases.cost_misreadings),
    ("misreadings of the slopes", slope_misreadings.slope_misreadings),
    ("misreadings of slips, enquiries and commits", slip_misreadings.slip_misreadings),
    ("misreadings of what readings tell", uniqueness_misreadings.told_misread),
    ("functions that are refined away", uniqueness_misreadings.refined_away),
    ("misreadings of the converter from a grid", grid_misreadings.reading_misreadings),
    ("misreadings of the converter towards the grid", grid_write_misreadings.writing_misreadings),
    ("misreadings of windows", window_misreadings.window_misreadings),
    ("misreadings of saving", saved_files.saving_misreadings),
    ("misreadings of a note that is read", note_misreadings.loading_misreadings),
    ("misreadings of a note that is saved", note_misreadings.writing_misreadings),
]


def main() -> int:
    passed = failed = 0
    for name, group in GROUPS:
        tally = Tally()
        group(tally.check)
        passed += tally.passed
        failed += len(tally.failed)
        print("%s: %d checks, %d faults" % (name, tally.passed + len(tally.failed), len(tally.failed)))
        for words in tally.failed[:20]:
            print("  failed: %s" % words)
    if failed:
        print("evaluator: %d checks failed" % failed)
        return 1
    print("evaluator: %d checks passed" % passed)
    return 0


if __name__ == "__main__":
    sys.exit(main())

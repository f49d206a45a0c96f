"""The bench sheet's cases that show document 01's misreadings."""
from __future__ import annotations

from fractions import Fraction
from typing import List

import calls
import properties
import tree as quadtree
from level_cases import of_cells
from properties import Check
from samples import bench_s
from surface import LEVELS, PUBLISHED, Rules, Surface, carried_watts


# Document 01, Misreadings: each bench case that shows a misreading, besides the properties.
def bench_misreadings(check: Check) -> None:
    fine = quadtree.level_map(of_cells(1), 1, 1)
    both = quadtree.level_map(of_cells(1), 2, 1)
    s = bench_s()

    def answers(rules: Rules) -> List[object]:
        plain = Surface(1, 1, quadtree.level_map([0], 1, 1), rules)
        one, two = Surface(1, 1, fine, rules), Surface(2, 1, both, rules)
        carried = carried_watts(plain, one, s.coefficients)
        return [
            plain.read(s.coefficients, 64, 5),
            [len(one.active_functions(level)) for level in LEVELS],
            [len(two.active_functions(level)) for level in LEVELS],
            [watts for (level, i, j), watts in sorted(carried.items())],
            [two.read_watts(lambda *f: Fraction(700), u, v) for u, v in ((0, 0), (100, 50), (200, 128))],
        ]

    published = answers(PUBLISHED)
    as_printed = published[0] == 500 and published[1] == [0, 25, 0, 0] and published[4] == [700] * 3
    check(as_printed, "the published rules on the bench sheet")
    for name, rules in properties.MISREADINGS.items():
        # Truncation against the next level only is right where two levels meet, so the bench sheet cannot show it.
        shows = answers(rules) != published
        check(shows == (name != "truncation against the next level only"), "%s on the bench sheet" % name)
    away = [int(abs(x) + Fraction(1, 2)) * (1 if x > 0 else -1) for x in (Fraction(-3, 2), Fraction(-1, 2))]
    upward = [calls.round_half_up(x) for x in (Fraction(-3, 2), Fraction(-1, 2))]
    check(upward == [-1, 0] and away == [-2, -1], "halves away from zero")

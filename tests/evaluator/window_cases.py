"""Records into windows and figures of windows, worked out by hand; a run of records; each refusal of both calls, and
which of two is given.

Document 02, Eleven: '22, a window of 0 or above 1,440 places, or more held than places, or the oldest outside them;
23, a new record beyond 32,000 in size, after 22'.
"""
from __future__ import annotations

from typing import List, NamedTuple, Optional, Tuple

import windows
from calls import Outcome, refused
from properties import Check
from windows import NO_WINDOW, PAST_RECORD

LEAST_I64, GREATEST_I64 = -(2**63), 2**63 - 1
LEAST_I32, GREATEST_I32 = -(2**31), 2**31 - 1
DAY = 1_440
# What lies in a window of three places before.
THREE = [7, 8, 9]
# The day's places, each its own number.
PLACES = list(range(DAY))


class Added(NamedTuple):
    """A record into a window, and the window and the state that are due."""

    told: str
    window: List[int]
    held: int
    oldest: int
    watts: int
    due: Tuple[List[int], int, int]

    def outcome(self) -> Outcome:
        window, held, oldest = self.due
        return Outcome(("ok",), {"window": window, "held": [held], "oldest": [oldest]})


class Figured(NamedTuple):
    """A window, and the total, the least and the greatest that are due, the last two None where they are missing."""

    told: str
    window: List[int]
    held: int
    oldest: int
    due: Tuple[int, Optional[int], Optional[int]]

    def outcome(self) -> Outcome:
        return Outcome(("ok", *self.due), {"window": self.window})


# A window of three places, by how many it holds and the place of the oldest: where 5 goes, how many are held then, and
# the place of the oldest.
IN_THREE = {
    (0, 0): (0, 1, 0), (0, 1): (1, 1, 1), (0, 2): (2, 1, 2),
    (1, 0): (1, 2, 0), (1, 1): (2, 2, 1), (1, 2): (0, 2, 2),
    (2, 0): (2, 3, 0), (2, 1): (0, 3, 1), (2, 2): (1, 3, 2),
    (3, 0): (0, 3, 1), (3, 1): (1, 3, 2), (3, 2): (2, 3, 0),
}
# The same of the windows of one and two places and of the greatest window.
IN_OTHERS = [
    (1, 0, 0, (0, 1, 0)), (1, 1, 0, (0, 1, 0)),
    (2, 0, 1, (1, 1, 1)), (2, 1, 1, (0, 2, 1)), (2, 2, 1, (1, 2, 0)), (2, 2, 0, (0, 2, 1)),
    (DAY, 0, 0, (0, 1, 0)), (DAY, 0, 1_439, (1_439, 1, 1_439)), (DAY, 1, 1_439, (0, 2, 1_439)),
    (DAY, 719, 720, (1_439, 720, 720)), (DAY, 720, 720, (0, 721, 720)), (DAY, 1_438, 0, (1_438, 1_439, 0)),
    (DAY, 1_439, 0, (1_439, DAY, 0)), (DAY, 1_439, 1, (0, DAY, 1)), (DAY, 1_439, 1_439, (1_438, DAY, 1_439)),
    (DAY, DAY, 0, (0, DAY, 1)), (DAY, DAY, 720, (720, DAY, 721)), (DAY, DAY, 1_438, (1_438, DAY, 1_439)),
    (DAY, DAY, 1_439, (1_439, DAY, 0)),
]
# Both sides of the limit of a record; 2**32 and more keep a small number in 32 bits, 2**16 in 16.
TAKEN = (0, 1, -1, 31_999, 32_000, -31_999, -32_000)
PAST = (32_001, -32_001, 32_768, -32_768, 65_536, 2**31, LEAST_I32, GREATEST_I32, 2**32, 2**32 + 5, 5 - 2**32,
        2**63 - 2**32, LEAST_I64, LEAST_I64 + 1, LEAST_I64 + 32_000, GREATEST_I64)
# Windows that are none: how many places, how many held, and the place of the oldest. With none held too, and one past
# each limit; sums of the last two lie within 64 bits or not.
NO_WINDOWS = [
    (0, 0, 0), (0, 1, 0), (0, 0, 1), (1_441, 0, 0), (1_441, 1_440, 0), (1_441, 1_441, 1_440), (1_442, 0, 0),
    (2_880, 0, 0), (65_536, 0, 0), (65_539, 3, 0), (66_976, 0, 0),
    (1, 2, 0), (3, 4, 0), (3, 4, 2), (3, 256, 0), (3, 2**32, 0), (3, 2**32 + 3, 1), (3, 2**63, 0), (3, 2**64 - 1, 0),
    (3, 2**64 - 1, 1), (3, 2**64 - 3, 2), (DAY, 1_441, 0), (DAY, 1_441, 1_439), (DAY, 2**64 - 1, 1_439),
    (1, 0, 1), (1, 1, 1), (3, 0, 3), (3, 1, 3), (3, 3, 3), (3, 0, 4), (3, 0, 256), (3, 0, 2**32), (3, 2, 2**32 + 1),
    (3, 0, 2**63), (3, 0, 2**64 - 1), (3, 1, 2**64 - 1), (3, 3, 2**64 - 3), (DAY, 0, DAY), (DAY, 1, DAY),
    (DAY, 0, 1_441), (DAY, DAY, DAY), (DAY, 1_441, DAY), (3, 4, 3),
]


def with_record(window: List[int], place: int, watts: int) -> List[int]:
    return [*window[:place], watts, *window[place + 1 :]]


def added() -> List[Added]:
    found = []
    rows = [(3, *state, due) for state, due in IN_THREE.items()] + IN_OTHERS
    for places, held, oldest, (place, *after) in rows:
        window = [-number for number in PLACES[:places]]
        told = "%d of %d held, the oldest at %d" % (held, places, oldest)
        found.append(Added(told, window, held, oldest, 5, (with_record(window, place, 5), *after)))
    for watts in TAKEN:
        found.append(Added("%d into three" % watts, THREE, 1, 0, watts, ([7, watts, 9], 2, 0)))
        found.append(Added("%d into three, full" % watts, THREE, 3, 2, watts, ([7, 8, watts], 3, 0)))
    # What is stored is not judged, whether it is held, overwritten or neither.
    ends = [LEAST_I32, GREATEST_I32, 32_001]
    found.append(Added("over the greatest i32", ends, 3, 1, -5, ([LEAST_I32, -5, 32_001], 3, 2)))
    found.append(Added("beside the least i32", ends, 1, 0, -5, ([LEAST_I32, -5, 32_001], 2, 0)))
    found.append(Added("first, among others", ends, 0, 2, -5, ([LEAST_I32, GREATEST_I32, -5], 1, 2)))
    return found


def figured() -> List[Figured]:
    ends, waves = [LEAST_I32, 5, GREATEST_I32], [32_000, -32_000] * 720
    rows: List[Tuple[List[int], int, int, Tuple[int, Optional[int], Optional[int]]]] = [
        *((THREE, 0, oldest, (0, None, None)) for oldest in (0, 1, 2)),
        (THREE, 1, 0, (7, 7, 7)), (THREE, 1, 1, (8, 8, 8)), (THREE, 1, 2, (9, 9, 9)),
        (THREE, 2, 0, (15, 7, 8)), (THREE, 2, 1, (17, 8, 9)), (THREE, 2, 2, (16, 7, 9)),
        *((THREE, 3, oldest, (24, 7, 9)) for oldest in (0, 1, 2)),
        ([5], 0, 0, (0, None, None)), ([5], 1, 0, (5, 5, 5)), ([-5], 1, 0, (-5, -5, -5)), ([0], 1, 0, (0, 0, 0)),
        # All above 0, or all below: 0 is neither the least nor the greatest.
        ([3, 1, 2], 3, 1, (6, 1, 3)), ([-3, -1, -2], 3, 1, (-6, -3, -1)), ([-4, 0, 4], 3, 2, (0, -4, 4)),
        # Places not held have no part, whatever lies there.
        (ends, 1, 1, (5, 5, 5)), (ends, 2, 1, (2_147_483_652, 5, GREATEST_I32)),
        (ends, 2, 0, (-2_147_483_643, LEAST_I32, 5)), (ends, 2, 2, (-1, LEAST_I32, GREATEST_I32)),
        (ends, 3, 1, (4, LEAST_I32, GREATEST_I32)), ([40_000, -40_000], 1, 1, (-40_000, -40_000, -40_000)),
        # The greatest totals: 1,440 times 32,000, and times the ends of an i32.
        ([32_000] * DAY, DAY, 720, (46_080_000, 32_000, 32_000)),
        ([-32_000] * DAY, DAY, 1_439, (-46_080_000, -32_000, -32_000)), (waves, DAY, 1, (0, -32_000, 32_000)),
        ([GREATEST_I32] * DAY, DAY, 0, (3_092_376_451_680, GREATEST_I32, GREATEST_I32)),
        ([LEAST_I32] * DAY, DAY, 720, (-3_092_376_453_120, LEAST_I32, LEAST_I32)),
        # 0 to 1,439 are 720 times 1,439; 720 to 1,439 and 0 to 719, each 720 numbers, 360 times 2,159 and 719.
        (PLACES, DAY, 720, (1_036_080, 0, 1_439)), (PLACES, 720, 720, (777_240, 720, 1_439)),
        (PLACES, 720, 0, (258_840, 0, 719)), (PLACES, 1_439, 720, (1_035_361, 0, 1_439)),
        (PLACES, 1_439, 0, (1_034_641, 0, 1_438)), (PLACES, 1_439, 1, (1_036_080, 1, 1_439)),
        (PLACES, 2, 1_439, (1_439, 0, 1_439)), (PLACES, 1, 1_439, (1_439, 1_439, 1_439)),
        (PLACES, 0, 1_439, (0, None, None)),
    ]
    return [Figured("%d of %d held, the oldest at %d" % (held, len(window), oldest), window, held, oldest, due)
            for window, held, oldest, due in rows]


# A run into three places, begun with none held and the oldest named at place 1: the record, the window and the state
# after it, and the figures. Refused ones are those that leave all as it was.
RUN_START = [70, 80, 90], 0, 1
RUN = [
    (32_001, [70, 80, 90], 0, 1, (0, None, None)),
    (4, [70, 4, 90], 1, 1, (4, 4, 4)),
    (-6, [70, 4, -6], 2, 1, (-2, -6, 4)),
    (-32_001, [70, 4, -6], 2, 1, (-2, -6, 4)),
    (1, [1, 4, -6], 3, 1, (-1, -6, 4)),
    (2, [1, 2, -6], 3, 2, (-3, -6, 2)),
    (LEAST_I64, [1, 2, -6], 3, 2, (-3, -6, 2)),
    (32_000, [1, 2, 32_000], 3, 0, (32_003, 1, 32_000)),
    (-32_000, [-32_000, 2, 32_000], 3, 1, (2, -32_000, 32_000)),
    (5, [-32_000, 5, 32_000], 3, 2, (5, -32_000, 32_000)),
    (6, [-32_000, 5, 6], 3, 0, (-31_989, -32_000, 6)),
    (40_000, [-32_000, 5, 6], 3, 0, (-31_989, -32_000, 6)),
    (7, [7, 5, 6], 3, 1, (18, 5, 7)),
]


class RefusedRecord(NamedTuple):
    """A record that is refused: the number that is due, the window, the state and the record."""

    due: int
    window: List[int]
    held: int
    oldest: int
    watts: int

    def outcome(self) -> Outcome:
        return Outcome(refused(self.due), {"window": self.window, "held": [self.held], "oldest": [self.oldest]})


# 22 is due whatever the record is, and 23 of windows that hold any or none.
def refused_records() -> List[RefusedRecord]:
    found = [RefusedRecord(NO_WINDOW, [9] * places, held, oldest, watts) for places, held, oldest in NO_WINDOWS
             for watts in (5, 32_000, 32_001, LEAST_I64)]
    states = ((THREE, 0, 0), (THREE, 0, 2), (THREE, 2, 2), (THREE, 3, 1), ([7], 0, 0), ([7], 1, 0),
              (PLACES, DAY, 1_439))
    return found + [RefusedRecord(PAST_RECORD, *state, watts) for state in states for watts in PAST]


# The windows that are none, each with what lies in it, how many it holds and the place of the oldest.
def refused_figures() -> List[Tuple[List[int], int, int]]:
    return [([9] * places, held, oldest) for places, held, oldest in NO_WINDOWS]


# 'A new record takes the place after the newest held', and the other places keep what they held.
def adding(check: Check) -> None:
    for case in added():
        outcome = windows.add_record(*case[1:5])
        state = outcome.lent["held"] + outcome.lent["oldest"]
        check(outcome == case.outcome(), "a record, %s: %s" % (case.told, state))
    check({*IN_THREE} == {(held, oldest) for held in range(4) for oldest in range(3)}, "every state of three places")


# 'gives the total, least and greatest of the records held'.
def figures(check: Check) -> None:
    for case in figured():
        outcome = windows.window_figures(*case[1:4])
        check(outcome == case.outcome(), "figures, %s: %s" % (case.told, outcome.answer))
    missing, there = ("ok", 0, None, None), ("ok", 15, 7, 8)
    check(windows.linked(missing, 11, 12) == ("ok", 0, 1, 11, 12), "the mark, and what lay there")
    check(windows.linked(there, 11, 12) == ("ok", 15, 0, 7, 8), "no mark")
    check(windows.linked(("refused", 22), 11, 12) == ("refused", 22), "no mark of a refused call")


# The run by hand, each record handed the state that the one before left.
def run(check: Check) -> None:
    window, held, oldest = RUN_START
    for watts, *after, due in RUN:
        outcome = windows.add_record(window, held, oldest, watts)
        left = abs(watts) > 32_000
        check(outcome.answer == (("refused", 23) if left else ("ok",)), "%d in a run: %s" % (watts, outcome.answer))
        window, [held], [oldest] = outcome.lent.values()
        check([window, held, oldest] == after, "after %d in a run: %s" % (watts, [window, held, oldest]))
        check(windows.window_figures(window, held, oldest).answer == ("ok", *due), "figures after %d in a run" % watts)


# Each refusal, 22 before 23, and all that is lent left as it was.
def refusals(check: Check) -> None:
    for case in refused_records():
        outcome = windows.add_record(*case[1:])
        words = "%d of %d held, the oldest at %d" % (case.held, len(case.window), case.oldest)
        check(outcome == case.outcome(), "%d for %d with %s: %s" % (case.due, case.watts, words, outcome.answer))
    for window, held, oldest in refused_figures():
        outcome = windows.window_figures(window, held, oldest)
        words = "%d of %d held, the oldest at %d" % (held, len(window), oldest)
        check(outcome == (("refused", 22), {"window": window}), "no figures with %s: %s" % (words, outcome.answer))

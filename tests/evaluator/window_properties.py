"""What holds of every window and every run of records, tried on drawn ones and held to a plain list of records."""
from __future__ import annotations

from random import Random
from typing import Iterator, List, NamedTuple, Sequence, Tuple

import windows
from calls import Answer
from properties import Check
from window_cases import DAY, GREATEST_I32, LEAST_I32, PAST

SIZES = (1, 2, 3, 5, 24, DAY)


class Run(NamedTuple):
    """What a run starts from, with none held, and the records that are handed over one after the other."""

    window: List[int]
    oldest: int
    records: List[int]


# A record, at times at its limit or near 0, and one in so many beyond it.
def any_record(rng: Random, past: float = 0.2) -> int:
    if rng.random() < past:
        return rng.choice(PAST)
    return rng.choice((rng.randint(-32_000, 32_000), rng.randint(-9, 9), 32_000, -32_000))


# What may lie in a window: any i32, at times its ends alone.
def any_window(rng: Random, places: int) -> List[int]:
    if rng.random() < 0.3:
        return [rng.choice((LEAST_I32, GREATEST_I32)) for _ in range(places)]
    return [rng.randint(LEAST_I32, GREATEST_I32) for _ in range(places)]


# How many are held of so many places, none, one, all and all but one among them, and the place of the oldest.
def any_state(rng: Random, places: int) -> Tuple[int, int]:
    held = rng.choice((0, 1, places - 1, places, rng.randint(0, places)))
    return held, rng.choice((0, places - 1, rng.randrange(places)))


# Runs that leave a window of few places or many part full, just full and overwritten several times, and one in which
# every record is refused.
def drawn_runs(rng: Random) -> Iterator[Run]:
    for places in (1, 1, 2, 2, 3, 3, 4, 5, 7, 24, 60):
        for count in (places // 2, places, places + 1, 2 * places, 4 * places + rng.randrange(9)):
            records = [any_record(rng) for _ in range(count)]
            yield Run(any_window(rng, places), any_state(rng, places)[1], records)
    for count in (1_400, 3_000):
        yield Run(any_window(rng, DAY), 720, [any_record(rng) for _ in range(count)])
    yield Run(any_window(rng, 3), 2, list(PAST))


# 'the sum, least and greatest of the last ones accepted, as many as the window has places, or all if fewer'.
def figures_due(accepted: Sequence[int], places: int) -> Answer:
    last = accepted[-places:]
    return ("ok", sum(last), min(last), max(last)) if last else ("ok", 0, None, None)


# 'After any run of records into one slice, refused ones included, begun with none held and no cause for 22, each
# handed the state the one before left': the figures after each; and places not held keep what they held at the start.
def runs(check: Check) -> None:
    refused = overwritten = part_full = 0
    for number, (start, first, records) in enumerate(drawn_runs(Random(81))):
        window, held, oldest = start, 0, first
        accepted: List[int] = []
        for k, watts in enumerate(records):
            outcome = windows.add_record(window, held, oldest, watts)
            if abs(watts) <= 32_000:
                accepted.append(watts)
                check(outcome.answer == ("ok",), "record %d of run %d: %s" % (k, number, outcome.answer))
            else:
                left = {"window": window, "held": [held], "oldest": [oldest]}
                check(outcome == (("refused", 23), left), "record %d of run %d, refused" % (k, number))
            window, [held], [oldest] = outcome.lent.values()
            if len(start) < DAY or k % 97 == 0 or k + 1 == len(records):
                told = windows.window_figures(window, held, oldest)
                due = figures_due(accepted, len(start)), {"window": window}
                check(told == due, "figures after record %d of run %d: %s" % (k, number, told.answer))
        order = windows.records(window, held, oldest)
        check(order == accepted[-len(start) :], "the records in order, run %d" % number)
        free = windows.once_around(len(start), oldest)[held:]
        check(all(window[place] == start[place] for place in free), "places not held after run %d" % number)
        check(len(free) == max(0, len(start) - len(accepted)), "how many places are not held after run %d" % number)
        refused += len(accepted) < len(records)
        overwritten += len(accepted) > len(start)
        part_full += 0 < len(accepted) < len(start)
    check(min(refused, overwritten, part_full) >= 10, "runs: %d, %d, %d" % (refused, overwritten, part_full))


# One record more into any window: the total rises by it, less the oldest where all places were held, and one is held
# more elsewhere. One place holds the record, the others what they held.
def one_more(check: Check) -> None:
    rng, full = Random(82), 0
    for _ in range(300):
        places = rng.choice(SIZES)
        window, (held, oldest), watts = any_window(rng, places), any_state(rng, places), any_record(rng, past=0)
        before = windows.window_figures(window, held, oldest).answer[1]
        after, [now_held], [now_oldest] = windows.add_record(window, held, oldest, watts).lent.values()
        total = windows.window_figures(after, now_held, now_oldest).answer[1]
        gone = window[oldest] if held == places else 0
        words = "%d more with %d of %d held" % (watts, held, places)
        check(total == before + watts - gone, "the total of %s: %d from %d" % (words, total, before))
        check(now_held == min(held + 1, places), "how many are held of %s: %d" % (words, now_held))
        others = [place for place in range(places) if after[place] != window[place]]
        check(len(others) <= 1 and all(after[place] == watts for place in others), "the places of %s" % words)
        full += held == places
    check(50 <= full <= 250, "full windows: %d" % full)


# The figures are those of the records held, wherever they lie and whatever lies beside them: with the window turned
# and the oldest with it, and with other numbers in places not held, they are the same.
def turned(check: Check) -> None:
    rng = Random(83)
    for _ in range(200):
        places = rng.choice(SIZES)
        window, (held, oldest), by = any_window(rng, places), any_state(rng, places), rng.randrange(places)
        due, words = windows.window_figures(window, held, oldest).answer, "%d of %d held" % (held, places)
        moved = windows.window_figures(window[by:] + window[:by], held, (oldest - by) % places).answer
        check(moved == due, "figures of %s, turned by %d" % (words, by))
        free = windows.once_around(places, oldest)[held:]
        other = [-1 - number if place in free else number for place, number in enumerate(window)]
        check(windows.window_figures(other, held, oldest).answer == due, "figures of %s, others beside" % words)
        numbers = windows.records(window, held, oldest)
        if numbers:
            total, least, greatest = due[1:]
            check(least in numbers and greatest in numbers, "least and greatest of %s" % words)
            check(len(numbers) * least <= total <= len(numbers) * greatest, "the total of %s" % words)

"""Misreadings of a window, each with the cases and runs that show it."""
from __future__ import annotations

from random import Random
from typing import Callable, Dict, List, NamedTuple, Optional, Sequence, Tuple

import window_cases
import windows
from calls import Answer, Outcome, refused
from properties import Check
from window_cases import DAY, GREATEST_I32, LEAST_I32
from window_properties import Run, drawn_runs, figures_due
from windows import no_window, records

# Of how many places there are, how many are held and the place of the oldest: whether that is no window, where a
# record goes, and the state after it.
Judged = Callable[[int, int, int], bool]
Placed = Callable[[int, int, int], int]
After = Callable[[int, int, int], Tuple[int, int]]
# The numbers of a window that figures are taken of, by how many are held and the place of the oldest.
Taken = Callable[[Sequence[int], int, int], List[int]]


# The place so many from the oldest's on, and around again.
def place_from(places: int, held: int, oldest: int) -> int:
    return (windows.once_around(places, oldest) * 2)[held]


def next_oldest(places: int, held: int, oldest: int) -> Tuple[int, int]:
    return held, place_from(places, 1, oldest)


# One more is held while there is room; else the state that a rule gives.
def with_room(full: After) -> After:
    return lambda places, held, oldest: (held + 1, oldest) if held < places else full(places, held, oldest)


def as_it_was(places: int, held: int, oldest: int) -> Tuple[int, int]:
    return held, oldest


# A number as it is kept in so many bits.
def kept_in(bits: int, number: int) -> int:
    return (number + 2 ** (bits - 1)) % 2**bits - 2 ** (bits - 1)


class Way(NamedTuple):
    """How a window is kept, as document 02 has it; any other setting is a misreading."""

    judged: Judged = no_window
    past: Callable[[int], bool] = lambda watts: abs(watts) > 32_000
    past_first: bool = False
    place: Placed = place_from
    after: After = with_room(next_oldest)
    stored: Callable[[int], int] = lambda watts: watts
    refused_written: bool = False
    refused_after: After = as_it_was
    figures_judged: Judged = no_window
    # The total is of these, and may use all records that a run handed over; least and greatest are of the others.
    summed: Taken = records
    total: Callable[[List[int], List[int]], int] = lambda numbers, given: sum(numbers)
    compared: Taken = records
    least: Callable[[List[int]], int] = min
    greatest: Callable[[List[int]], int] = max
    missing: Callable[[List[int]], bool] = lambda numbers: not numbers
    none: Answer = ("ok", 0, None, None)
    stored_cause: Callable[[List[int]], Optional[int]] = lambda numbers: None
    cleared: bool = False


# A window judged in another way by both calls.
def by_both(judged: Judged) -> Way:
    return Way(judged=judged, figures_judged=judged)


# 22 with another limit of places.
def limit(greatest: float) -> Judged:
    return lambda places, held, oldest: not 1 <= places <= greatest or held > places or oldest >= places


def outside_with_some(places: int, held: int, oldest: int) -> bool:
    return no_window(places, held, oldest) and (held > 0 or places == 0)


def no_room(places: int, held: int, oldest: int) -> bool:
    return no_window(places, held + 1, oldest)


# The place of a record where a full window's goes elsewhere.
def full_at(place: Placed) -> Placed:
    return lambda places, held, oldest: (place if held == places else place_from)(places, held, oldest)


def newest(places: int, held: int, oldest: int) -> int:
    return place_from(places, places - 1, oldest)


# A full window in the stead of one with one place left.
def early(places: int, held: int, oldest: int) -> Tuple[int, int]:
    return (held + 1, oldest) if held + 1 < places else next_oldest(places, held, oldest)


# Small numbers alone, as a record may be.
def small(numbers: Sequence[int]) -> List[int]:
    return [number for number in numbers if abs(number) <= 32_000]


PLACE_MISREADINGS = {
    "the first record at place 0": Way(place=lambda places, held, oldest: held and place_from(places, held, oldest)),
    "places from 0 on": Way(place=lambda places, held, oldest: held if held < places else oldest),
    "every record at place 0": Way(place=lambda places, held, oldest: 0),
    "places downward": Way(place=lambda places, held, oldest: (oldest - held) % places),
    "one place skipped": Way(place=lambda places, held, oldest: place_from(places, (held + 1) % places, oldest)),
    "the newest overwritten": Way(place=full_at(newest), after=with_room(as_it_was)),
    "the newest overwritten, the oldest moved": Way(place=full_at(newest)),
    "the oldest stays": Way(after=with_room(as_it_was)),
    "the oldest moves with each record": Way(after=lambda places, held, oldest: next_oldest(
        places, min(held + 1, places), oldest)),
    "the oldest moves as the window fills": Way(after=lambda places, held, oldest: (
        (held + 1, oldest) if held + 1 < places else next_oldest(places, places, oldest))),
    "the oldest moves by two": Way(after=with_room(lambda places, held, oldest: (
        held, place_from(places, 2 % places, oldest)))),
    "the oldest past the last place": Way(after=with_room(lambda places, held, oldest: (held, oldest + 1))),
    "full one place early": Way(after=early, place=lambda places, held, oldest: place_from(
        places, held if held + 1 < places else 0, oldest)),
    "full one place late": Way(after=lambda places, held, oldest: (held + 1, oldest)),
    "begun anew when full": Way(after=with_room(lambda places, held, oldest: (1, oldest))),
}
JUDGED_MISREADINGS = {
    "an oldest outside taken with none held": by_both(outside_with_some),
    "the same by the figures alone": Way(figures_judged=outside_with_some),
    "an oldest one outside taken": by_both(lambda places, held, oldest: no_window(
        places, held, oldest - (oldest == places))),
    "more held than places taken": by_both(lambda places, held, oldest: no_window(places, min(held, places), oldest)),
    "22 for a full window": Way(judged=no_room),
    "22 for figures of a full window": Way(figures_judged=no_room),
    "1,440 places refused": by_both(limit(DAY - 1)),
    "1,441 places taken": by_both(limit(DAY + 1)),
    "any number of places taken": by_both(limit(float("inf"))),
    "figures of 0 places": Way(figures_judged=lambda places, held, oldest: places > 0 and no_window(
        places, held, oldest)),
    "places in 16 bits": by_both(lambda places, held, oldest: no_window(places % 2**16, held, oldest)),
    "states in 32 bits": by_both(lambda places, held, oldest: no_window(places, held % 2**32, oldest % 2**32)),
    "records that go around refused": by_both(lambda places, held, oldest: (
        no_window(places, held, oldest) or oldest + held > places)),
    "23 before 22": Way(past_first=True),
    "32,000 refused": Way(past=lambda watts: abs(watts) >= 32_000),
    "-32,000 refused": Way(past=lambda watts: not -32_000 < watts <= 32_000),
    "32,001 taken": Way(past=lambda watts: abs(watts) > 32_001),
    "16 bits for 32,000": Way(past=lambda watts: kept_in(16, watts) != watts),
    "a size in 32 bits": Way(past=lambda watts: kept_in(32, abs(kept_in(32, watts))) > 32_000,
                             stored=lambda watts: kept_in(32, watts)),
    "a size in 64 bits": Way(past=lambda watts: kept_in(64, abs(watts)) > 32_000,
                             stored=lambda watts: kept_in(32, watts)),
    "records below zero not judged": Way(past=lambda watts: watts > 32_000, stored=lambda watts: kept_in(32, watts)),
    "a record beyond kept at the limit": Way(past=lambda watts: False,
                                             stored=lambda watts: max(-32_000, min(watts, 32_000))),
    "a record beyond kept as 0": Way(past=lambda watts: False, stored=lambda watts: watts * (abs(watts) <= 32_000)),
    "a refused record takes its place": Way(refused_after=with_room(next_oldest)),
    "a refused record is written": Way(refused_written=True),
    "a refused record empties the window": Way(refused_after=lambda places, held, oldest: (0, oldest)),
}
FIGURE_MISREADINGS = {
    "a total of all handed over": Way(total=lambda numbers, given: sum(given or numbers)),
    "a total of all accepted": Way(total=lambda numbers, given: sum(small(given) if given else numbers)),
    "a total of sizes": Way(total=lambda numbers, given: sum(map(abs, numbers))),
    "a total in 32 bits": Way(total=lambda numbers, given: kept_in(32, sum(numbers))),
    "a total that stops at 32 bits": Way(total=lambda numbers, given: max(LEAST_I32, min(sum(numbers), GREATEST_I32))),
    "a total over places not held": Way(summed=lambda window, held, oldest: list(window)),
    "least and greatest over places not held": Way(compared=lambda window, held, oldest: list(window) if held else []),
    "figures of places from 0 on": Way(summed=lambda window, held, oldest: list(window[:held]),
                                       compared=lambda window, held, oldest: list(window[:held])),
    "figures that end at the last place": Way(summed=lambda window, held, oldest: list(window[oldest:][:held]),
                                              compared=lambda window, held, oldest: list(window[oldest:][:held])),
    "a total without the newest": Way(summed=lambda window, held, oldest: records(window, held, oldest)[:-1]),
    "the oldest not compared": Way(compared=lambda window, held, oldest: (
        records(window, held, oldest)[1 if held > 1 else 0 :])),
    "least from 0 down": Way(least=lambda numbers: min(0, *numbers)),
    "greatest from 0 up": Way(greatest=lambda numbers: max(0, *numbers)),
    "least and greatest by size": Way(least=lambda numbers: min(numbers, key=abs),
                                      greatest=lambda numbers: max(numbers, key=abs)),
    "the newest for the greatest": Way(greatest=lambda numbers: numbers[-1]),
    "missing told as 0": Way(none=("ok", 0, 0, 0)),
    "missing where the total is 0": Way(missing=lambda numbers: sum(numbers) == 0),
    "missing with one held": Way(missing=lambda numbers: len(numbers) < 2),
    "22 with none held": Way(figures_judged=lambda places, held, oldest: not held or no_window(places, held, oldest)),
    "stored records judged": Way(stored_cause=lambda numbers: None if small(numbers) == numbers else 23),
    "large ones that are stored left out": Way(summed=lambda window, held, oldest: small(
        records(window, held, oldest))),
    "places not held cleared": Way(cleared=True),
}

# Ways that are right too: places by remainders, and figures in the order of places.
ALSO_RIGHT = {
    "places by remainders": Way(place=lambda places, held, oldest: (oldest + held) % places, after=with_room(
        lambda places, held, oldest: (held, (oldest + 1) % places))),
    "figures in the order of places": Way(
        summed=lambda window, held, oldest: [number for place, number in enumerate(window) if (
            (place - oldest) % len(window) < held)],
        compared=lambda window, held, oldest: sorted(records(window, held, oldest))),
}


def add_by(way: Way, window: Sequence[int], held: int, oldest: int, watts: int) -> Outcome:
    places, lent = len(window), {"window": list(window), "held": [held], "oldest": [oldest]}
    causes = [22 if way.judged(places, held, oldest) else None, 23 if way.past(watts) else None]
    cause = next((one for one in causes[:: -1 if way.past_first else 1] if one is not None), None)
    # What is no window has no place for a record, and is wrong to be taken.
    if no_window(places, held, oldest):
        return Outcome(("ok",) if cause is None else refused(cause), lent)
    if cause is None or (way.refused_written and cause == 23):
        lent["window"][way.place(places, held, oldest)] = way.stored(watts)
    after = (way.after if cause is None else way.refused_after)(places, held, oldest)
    lent.update(held=[after[0]], oldest=[after[1]])
    return Outcome(("ok",) if cause is None else refused(cause), lent)


def figures_by(way: Way, window: Sequence[int], held: int, oldest: int, given: List[int]) -> Outcome:
    lent = {"window": list(window)}
    if way.figures_judged(len(window), held, oldest):
        return Outcome(refused(22), lent)
    if no_window(len(window), held, oldest):
        return Outcome(way.none, lent)
    numbers = way.compared(window, held, oldest)
    cause = way.stored_cause(numbers)
    if cause is not None:
        return Outcome(refused(cause), lent)
    if way.cleared:
        free = windows.once_around(len(window), oldest)[held:]
        lent["window"] = [0 if place in free else number for place, number in enumerate(window)]
    if way.missing(numbers):
        return Outcome(way.none, lent)
    total = way.total(way.summed(window, held, oldest), given)
    return Outcome(("ok", total, way.least(numbers), way.greatest(numbers)), lent)


# Whether document 02's words hold of a run by a way: the figures after each record, and in the end places not held.
def run_holds(way: Way, run: Run) -> bool:
    window, held, oldest = run.window, 0, run.oldest
    accepted: List[int] = []
    for k, watts in enumerate(run.records):
        window, [held], [oldest] = add_by(way, window, held, oldest, watts).lent.values()
        accepted += small([watts])
        told = figures_by(way, window, held, oldest, run.records[: k + 1])
        if told != (figures_due(accepted, len(window)), {"window": window}):
            return False
    free = windows.once_around(len(window), run.oldest)[len(accepted) :]
    return all(window[place] == run.window[place] for place in free)


# Which groups of cases show a way, and whether runs do.
def shown_by(way: Way, runs: List[Run]) -> List[str]:
    right = {
        "records": all(add_by(way, *case[1:5]) == case.outcome() for case in window_cases.added()),
        "figures": all(figures_by(way, *case[1:4], []) == case.outcome() for case in window_cases.figured()),
        "refused records": all(add_by(way, *case[1:]) == case.outcome() for case in window_cases.refused_records()),
        "refused figures": all(figures_by(way, *given, []) == (refused(22), {"window": given[0]})
                               for given in window_cases.refused_figures()),
        "runs": all(run_holds(way, run) for run in runs),
    }
    return [name for name, good in right.items() if not good]


REFUSED = ["refused records", "refused figures"]
# On what each misreading is shown. A run has no state that is no window, and what it stores is small.
SHOWN_ON: Dict[str, List[str]] = {
    **{name: ["records", "runs"] for name in PLACE_MISREADINGS},
    **{name: ["refused records", "runs"] for name in JUDGED_MISREADINGS},
    **{name: ["figures", "runs"] for name in FIGURE_MISREADINGS},
    **{name: REFUSED for name in (
        "an oldest outside taken with none held", "an oldest one outside taken", "more held than places taken",
        "1,441 places taken", "any number of places taken", "places in 16 bits", "states in 32 bits")},
    **{name: ["refused figures"] for name in ("the same by the figures alone", "figures of 0 places")},
    **{name: ["records", "runs"] for name in ("32,000 refused", "-32,000 refused")},
    **{name: ["runs"] for name in ("a total of all handed over", "a total of all accepted")},
    **{name: ["figures"] for name in (
        "a total in 32 bits", "a total that stops at 32 bits", "stored records judged",
        "large ones that are stored left out")},
    "23 before 22": ["refused records"],
    # Where 22 is given too often, refused records of such windows give it for 23; no run here has 1,440 places.
    "22 for a full window": ["records", "refused records", "runs"],
    "22 for figures of a full window": ["figures", "runs"],
    "1,440 places refused": ["records", "figures", "refused records"],
    "records that go around refused": ["records", "figures", "refused records", "runs"],
}


# On which of them each misreading gives another outcome than document 02, and that reckoning around gives the same.
def window_misreadings(check: Check) -> None:
    runs = [run for run in drawn_runs(Random(84)) if len(run.window) < 60]
    check(len(runs) >= 50, "so many runs: %d" % len(runs))
    for name, way in {"as published": Way(), **ALSO_RIGHT}.items():
        check(shown_by(way, runs) == [], "windows, %s" % name)
    for name, way in {**PLACE_MISREADINGS, **JUDGED_MISREADINGS, **FIGURE_MISREADINGS}.items():
        shown = shown_by(way, runs)
        check(shown == SHOWN_ON[name], "%s shows on %s" % (name, shown))

"""Fixed cases of windows: those worked out by hand, each pair of causes that can meet, both sides of each limit, every
state of small windows, the ends of an i32 everywhere, and a run of a day and more.

What is due is worked by hand where it is written out, and else the unrelated evaluator's.
"""
from __future__ import annotations

from random import Random
from typing import Iterator, List

import recording
import window_cases
from library import ENDS_BEFORE, Library, counter, differ, window_of
from recording import add, figures, words
from window_cases import DAY, GREATEST_I32, LEAST_I32, NO_WINDOWS, PAST, TAKEN
from window_properties import Run, any_record, any_window, drawn_runs
from windows import linked


def by_hand(lib: Library) -> Iterator[str]:
    """Records and figures, with what is due of each, and each refusal of both calls."""
    for case in (*window_cases.added(), *window_cases.refused_records()):
        due = case.outcome()
        lent = window_of(case.window), counter(case.held), counter(case.oldest)
        got = lib.add_record(*lent, case.watts)
        yield differ(words("add_record", *case[1:5]), got, due.answer, *zip(lent, due.lent.values()))
    for case in window_cases.figured():
        got = lib.window_figures(window_of(case.window), case.held, case.oldest)
        yield differ(words("window_figures", *case[1:4]), got, linked(("ok", *case.due), *ENDS_BEFORE))
    for window, held, oldest in window_cases.refused_figures():
        got = lib.window_figures(window_of(window), held, oldest)
        yield differ(words("window_figures", window, held, oldest), got, ("refused", 22))


def run_by_hand(lib: Library) -> Iterator[str]:
    """The run by hand: the window, the state and the figures after each record."""
    window, held, oldest = window_cases.RUN_START
    for watts, *after, due in window_cases.RUN:
        lent, held_lent, oldest_lent = window_of(window), counter(held), counter(oldest)
        got = lib.add_record(lent, held_lent, oldest_lent, watts)
        want = ("refused", 23) if abs(watts) > 32_000 else ("ok",)
        window, held, oldest = after
        yield differ(f"add_record, {watts} in the run by hand", got, want, (lent, window), (held_lent, [held]),
                     (oldest_lent, [oldest]))
        got = lib.window_figures(window_of(window), held, oldest)
        yield differ(f"window_figures after {watts} in the run by hand", got, linked(("ok", *due), *ENDS_BEFORE))


def every_state(rng: Random, lib: Library) -> Iterator[str]:
    """Every state of windows of one to five places, one more held and the oldest one outside too, with records on both
    sides of their limit."""
    for places in range(1, 6):
        window = any_window(rng, places)
        for held in range(places + 2):
            for oldest in range(places + 1):
                yield figures(lib, window, held, oldest)
                for watts in (5, -32_000, 32_001):
                    yield add(lib, window, held, oldest, watts)[0]


def two_causes(lib: Library) -> Iterator[str]:
    """22 before 23: each window that is none with each record beyond; and each record on both sides of its limit."""
    for places, held, oldest in NO_WINDOWS:
        if places <= 2 * DAY:
            yield from (add(lib, [9] * places, held, oldest, watts)[0] for watts in PAST)
    for watts in (*TAKEN, *PAST):
        for places, held, oldest in ((1, 0, 0), (1, 1, 0), (3, 1, 2), (DAY, 0, 1_439), (DAY, DAY, 1_439)):
            yield add(lib, [7] * places, held, oldest, watts)[0]


def lengths(rng: Random, lib: Library) -> Iterator[str]:
    """Windows of lengths beside 0 and 1,440, held to the last place or not, the oldest at both ends and between."""
    for places in (0, 1, 2, 255, 256, 257, DAY - 1, DAY, DAY + 1):
        window = any_window(rng, places)
        for held in sorted({0, 1, places // 2, max(0, places - 1), places, places + 1}):
            for oldest in sorted({0, places // 2, max(0, places - 1), places}):
                yield figures(lib, window, held, oldest)
                yield add(lib, window, held, oldest, any_record(rng, past=0))[0]


def ends(lib: Library) -> Iterator[str]:
    """The least or the greatest i32 alone at each place of a small window and at some of the greatest, so that it is
    held or not; and everywhere, so that the total is the greatest that there is."""
    for end in (LEAST_I32, GREATEST_I32):
        for places, at in (*((6, at) for at in range(6)), *((DAY, at) for at in (0, 1, 719, 720, 721, 1_438, 1_439))):
            window = [-5 if end > 0 else 5] * places
            window[at] = end
            for held in (1, places // 2, places - 1, places):
                yield from (figures(lib, window, held, oldest) for oldest in (0, places // 2, places - 1))
        for held in (1, 2, 3, 719, 1_439, DAY):
            yield from (figures(lib, [end] * DAY, held, oldest) for oldest in (0, 1, 720, 1_439))


def runs(rng: Random, lib: Library) -> Iterator[str]:
    """Runs into small windows, and one of more than two days into the greatest."""
    for one in drawn_runs(rng):
        if len(one.window) < 24:
            yield from recording.run(lib, one)
    yield from recording.run(lib, Run(any_window(rng, DAY), 720, [any_record(rng) for _ in range(3_500)]), 101)


def fixed(lib: Library) -> List[str]:
    rng = Random(41)  # the same windows in every run, whatever the seed of generated calls is
    parts = (by_hand(lib), run_by_hand(lib), every_state(rng, lib), two_causes(lib), lengths(rng, lib), ends(lib),
             runs(rng, lib))
    return [fault for part in parts for fault in part if fault]

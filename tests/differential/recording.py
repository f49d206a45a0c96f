"""Records into windows and figures of windows, held to the unrelated evaluator: single calls with states good and
damaged over any numbers of an i32; and runs, each call handed what the one before left, refused records among them,
held to the list of accepted records too.
"""
from __future__ import annotations

from random import Random
from typing import Callable, Dict, Iterator, List, Sequence, Tuple

import cases
import windows
from library import ENDS_BEFORE, Library, counter, differ, window_of
from window_cases import DAY
from window_properties import Run, any_record, any_state, any_window, figures_due

# What a run leaves: the window, how many it holds and the place of the oldest.
State = Tuple[List[int], int, int]
# Places of a window, few and many; and such as no window has, or as 16 bits would take for one.
PLACES = (1, 2, 3, 5, 7, 24, 60, 719, 1_439, DAY)
NO_PLACES = (0, 0, DAY + 1, DAY + 1, 2 * DAY, cases.LONGER, cases.LONGER + 3)


def words(name: str, window: Sequence[int], held: int, oldest: int, *more: int) -> str:
    """A call, in words that it can be made from where the window is small."""
    shown = list(window) if len(window) <= 24 else f"{len(window)} places"
    return f"{' '.join(map(str, (name, *more)))} with {held} held, the oldest at {oldest}, in {shown}"


def add(lib: Library, window: Sequence[int], held: int, oldest: int, watts: int) -> Tuple[str, State]:
    """A record: what is not as it should be, and what the call left."""
    lent, held_lent, oldest_lent = window_of(window), counter(held), counter(oldest)
    want = windows.add_record(window, held, oldest, watts)
    got = lib.add_record(lent, held_lent, oldest_lent, watts)
    fault = differ(words("add_record", window, held, oldest, watts), got, want.answer, (lent, want.lent["window"]),
                   (held_lent, want.lent["held"]), (oldest_lent, want.lent["oldest"]))
    return fault, (lent.values(), held_lent.values()[0], oldest_lent.values()[0])


def figures(lib: Library, window: Sequence[int], held: int, oldest: int, *due: windows.Answer) -> str:
    """The figures: what is not as the evaluator has it, or not as further answers that are due."""
    got, told = lib.window_figures(window_of(window), held, oldest), words("window_figures", window, held, oldest)
    wanted = windows.window_figures(window, held, oldest).answer, *due
    return max(differ(told, got, windows.linked(want, *ENDS_BEFORE)) for want in wanted)


def run(lib: Library, given: Run, every: int = 1) -> Iterator[str]:
    """A run, with the figures after every so many records and after the last; and in the end places not held."""
    window, held, oldest = list(given.window), 0, given.oldest
    places, accepted = len(window), []
    for k, watts in enumerate(given.records, 1):
        fault, (window, held, oldest) = add(lib, window, held, oldest, watts)
        yield fault
        accepted += [watts] if abs(watts) <= windows.GREATEST_RECORD else []
        if k % every == 0 or k == len(given.records):
            yield figures(lib, window, held, oldest, figures_due(accepted, places))
    reached = {place % places for place in range(given.oldest, given.oldest + len(accepted))}
    moved = [place for place in range(places) if window[place] != given.window[place] and place not in reached]
    yield f"{given.records} into {given.window} from {given.oldest}: places {moved} were changed" if moved else ""


def damaged_state(rng: Random, places: int, held: int, oldest: int) -> Tuple[int, int, int]:
    """A window that is none: another number of places, more held, or the oldest outside, by one or by far; none held
    too, and two faults at once."""
    for _ in range(rng.choice((1, 1, 2))):
        kind = rng.randrange(3)
        if kind == 0:
            places = rng.choice(NO_PLACES)
        elif kind == 1:
            far = 2**32 + held % 2**32, 2**63, 2**64 - 1, 2**64 - 1 - oldest % DAY
            held = rng.choice((places + 1,) * 2 + far)
        else:
            held = rng.choice((0, held))
            far = 2**32 + oldest % 2**32, 2**63, 2**64 - 1, 2**64 - 1 - held % DAY
            oldest = rng.choice((places,) * 2 + far)
    return places, held, oldest


def any_call(rng: Random, damage: float) -> State:
    """A window with what may lie in it and a state, one in so many damaged."""
    places = rng.choice(PLACES)
    held, oldest = any_state(rng, places)
    if rng.random() < damage:
        places, held, oldest = damaged_state(rng, places, held, oldest)
    return any_window(rng, places), held, oldest


def add_record(rng: Random, lib: Library) -> Iterator[str]:
    """Records into windows of any state, one after the other into none of them."""
    for _ in range(16):
        window, held, oldest = any_call(rng, 0.25)
        yield add(lib, window, held, oldest, any_record(rng))[0]


def window_figures(rng: Random, lib: Library) -> Iterator[str]:
    """Figures of windows of any state and any contents."""
    for _ in range(12):
        yield figures(lib, *any_call(rng, 0.3))


def window_run(rng: Random, lib: Library) -> Iterator[str]:
    """A run into a window that may be overwritten several times; before it records and figures of a state that is no
    window's, which each leaves to the next."""
    window, held, oldest = any_call(rng, 0)
    places, held, oldest = damaged_state(rng, len(window), held, oldest)
    state = any_window(rng, places), held, oldest
    for _ in range(3):
        fault, state = add(lib, *state, any_record(rng))
        yield fault
    yield figures(lib, *state)
    places = rng.choice((1, 1, 2, 2, 3, 3, 4, 5, 7, 12, 24))
    records = [any_record(rng) for _ in range(rng.choice((places, 2 * places, 9, places + rng.randint(0, 30))))]
    yield from run(lib, Run(any_window(rng, places), any_state(rng, places)[1], records), rng.choice((1, 2, 5)))


KINDS: Dict[str, Callable[[Random, Library], Iterator[str]]] = {
    "add_record": add_record, "window_figures": window_figures, "window_run": window_run}

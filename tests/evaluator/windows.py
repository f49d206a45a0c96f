"""Document 02, Eleven: both calls of a window as pure functions of what the caller lends.

'Keep a window over a long run of minute records, each whole watts, in a lent slice of i32 whose length is the
window's.' Outcomes are those of calls.py. 'Beside the slice the state is the number held and the place of the oldest':
where a call may change it, it is lent too.
"""
from __future__ import annotations

from typing import List, Optional, Sequence

from calls import Answer, Outcome, refused

NO_WINDOW, PAST_RECORD = 22, 23
GREATEST_WINDOW = 1_440
GREATEST_RECORD = 32_000


# '22, a window of 0 or above 1,440 places, or more held than places, or the oldest outside them', also where none is
# held.
def no_window(places: int, held: int, oldest: int) -> bool:
    return not 1 <= places <= GREATEST_WINDOW or held > places or oldest not in range(places)


# '23, a new record beyond 32,000 in size, after 22.'
def judge_record(places: int, held: int, oldest: int, watts: int) -> Optional[int]:
    if no_window(places, held, oldest):
        return NO_WINDOW
    return PAST_RECORD if abs(watts) > GREATEST_RECORD else None


# Every place once, from the oldest's on, 'place 0 following the last place'.
def once_around(places: int, oldest: int) -> List[int]:
    return [*range(oldest, places), *range(oldest)]


# 'A new record takes the place after the newest held, ... and the first goes to the place named as the oldest's. When
# the window is full it overwrites the oldest, and the next place becomes the oldest's.' Answer ('ok',); lent window,
# held and oldest.
def add_record(window: Sequence[int], held: int, oldest: int, watts: int) -> Outcome:
    lent = {"window": list(window), "held": [held], "oldest": [oldest]}
    cause = judge_record(len(window), held, oldest, watts)
    if cause is not None:
        return Outcome(refused(cause), lent)
    around = once_around(len(window), oldest)
    free = around[held:]
    if free:
        place, lent["held"] = free[0], [held + 1]
    else:
        place, following = around[0], around[1:] + around[:1]
        lent["oldest"] = [following[0]]
    lent["window"][place] = watts
    return Outcome(("ok",), lent)


# The records held, the oldest first.
def records(window: Sequence[int], held: int, oldest: int) -> List[int]:
    return [window[place] for place in once_around(len(window), oldest)[:held]]


# 'A second call, which writes nothing, takes slice and state and gives the total, least and greatest of the records
# held.' 'With none held the total is 0 and the other two are marked missing': None. Answer ('ok', total, least,
# greatest); lent window.
def window_figures(window: Sequence[int], held: int, oldest: int) -> Outcome:
    lent = {"window": list(window)}
    if no_window(len(window), held, oldest):
        return Outcome(refused(NO_WINDOW), lent)
    numbers = records(window, held, oldest)
    return Outcome(("ok", sum(numbers), min(numbers, default=None), max(numbers, default=None)), lent)


# The answer of the linked call, which gives a mark of its own and, where the two are missing, leaves what lay there.
def linked(answer: Answer, least_before: int, greatest_before: int) -> Answer:
    if answer[0] == "refused":
        return answer
    total, least, greatest = answer[1:]
    return ("ok", total, 1, least_before, greatest_before) if least is None else ("ok", total, 0, least, greatest)

"""Holds examples/window.c, or rust/examples/window.rs, as each of the given programs, to the evaluator: its text, its
errors and its exit status. The whole watts of each minute are the evaluator's, and what a window holds is found here
from a plain list of them.

Run as: python3 tests/hands/check_window.py [--rust] PROGRAM...
"""
from __future__ import annotations

import sys
import tempfile
from collections import Counter
from functools import lru_cache
from pathlib import Path
from random import Random
from typing import List, Sequence, Set, Tuple

from check_dot import files, off
from expected import ROOT
from runs import GREATEST_SIZE, Run, differing, in_rust, misused, unwritten
from rust_words import NO_WORDS, refusal_words

import calls
import samples
import tablefile

# Document 02, Eleven: '22, a window of 0 or above 1,440 places'.
MOST_PLACES = 1_440
NEEDED = """window: two arguments are needed, and two for each minute: TABLE PLACES [U V]...
  TABLE    a table file
  PLACES   how many minutes the window holds, 1 to 1440
  U, V     a minute's point, in steps of 1/128 cell: U along temperature, V along climb rate
"""
NEEDED_IN_RUST = 'Error: "needs a table file, the places of the window, and u and v for each minute"\n'
# What the runs must show: windows that hold nothing, some, as many as they have places, and the last of more, also
# after several rounds; one place and as many as there may be; a least and a greatest record that is no longer held;
# totals of either sign, of 0 with records held, of whole watt hours, of less than one and of neither; a refusal at the
# first minute and at a later one, and 22 before 6.
SHOWN = ("none held", "some held", "just full", "gone round", "several rounds", "one place", "most places",
         "least lost", "greatest lost", "above 0", "below 0", "nothing in all", "whole hours", "below an hour",
         "hours and minutes", "refused at once", "refused later", "22 before 6")

Point = Tuple[int, int]


@lru_cache(maxsize=None)
def watts_at(file: bytes, u: int, v: int) -> Tuple[str, int]:
    return calls.display(*tablefile.judge(file), u, v).answer[:2]


# Watt minutes as watt hours: whole ones, and the rest in sixtieths.
def in_hours(total: int) -> str:
    whole, part = divmod(abs(total), 60)
    words = [str(whole)] if whole or not part else []
    return ("-" if total < 0 else "") + " ".join(words + ([f"{part}/60"] if part else []))


# What a run shows that is not refused.
def shown(records: Sequence[int], places: int) -> Set[str]:
    last = records[-places:]
    total, rest = sum(last), abs(sum(last)) % 60
    parts = {
        "none held": not records, "some held": 0 < len(records) < places, "just full": len(records) == places,
        "gone round": len(records) > places, "several rounds": len(records) > 3 * places, "one place": places == 1,
        "most places": places == MOST_PLACES < len(records), "above 0": total > 0, "below 0": total < 0,
        "least lost": bool(records) and min(records) < min(last),
        "greatest lost": bool(records) and max(records) > max(last),
        "nothing in all": bool(records) and total == 0, "whole hours": total != 0 and rest == 0,
        "below an hour": 0 < abs(total) < 60, "hours and minutes": abs(total) > 60 and rest > 0,
    }
    return {part for part, here in parts.items() if here}


# What the program must print and its exit status, and what the run shows.
def expected(file: bytes, places: int, points: Sequence[Point]) -> Tuple[List[str], int, Set[str]]:
    def refused(number: int, *parts: str) -> Tuple[List[str], int, Set[str]]:
        return lines + [f"refused {number}: {refusal_words()[number]}"], number, set(parts)

    lines: List[str] = []
    content = tablefile.judge(file)
    if isinstance(content, int):
        return refused(content)
    w, h = content.w, content.h
    lines = [f"sheet:    {w} by {h} cells, u 0 to {128 * w}, v 0 to {128 * h}", f"places:   {places}"]
    if not 1 <= places <= MOST_PLACES:
        six = any(watts_at(file, u, v) == ("refused", 6) for u, v in points[:1])
        return refused(22, *(["22 before 6"] if six else []))
    records: List[int] = []
    for minute, (u, v) in enumerate(points, 1):
        answer, watts = watts_at(file, u, v)
        if answer == "refused":
            return refused(watts, "refused later" if records else "refused at once")
        records.append(watts)
        lines.append(f"minute {minute}: u {u}, v {v}: {watts} watts")
    # 'the last ones accepted, as many as the window has places, or all if fewer'
    last = records[-places:]
    lines += [f"held:     {len(last)} of {places}",
              f"total:    {sum(last)} watt minutes = {in_hours(sum(last))} watt hours"]
    # 'With none held the total is 0 and the other two are marked missing.'
    lines += [f"least:    {min(last)} watts", f"greatest: {max(last)} watts"] if last else ["no record is held"]
    return lines, 0, shown(records, places)


# Places and points of a table: none, one, fewer than the places, as many, more, and more than several rounds.
def taken(rng: Random, w: int, h: int) -> List[Tuple[int, List[Point]]]:
    drawn = samples.random_points(rng, w, h, 40)
    places = rng.randint(2, 9)
    return [(places, []), (1, drawn[: rng.randint(1, 5)]), (places + 1, drawn[:places]), (places, drawn[:places]),
            (places, drawn[: places + rng.randint(1, places)]), (places, drawn), (rng.randint(10, 60), drawn)]


# Windows of no places and of too many, with points on the sheet and off it, and points off it, the first and a later.
def not_taken(rng: Random, w: int, h: int) -> List[Tuple[int, List[Point]]]:
    on = samples.random_points(rng, w, h, 3)
    made = [(places, points) for places in (0, MOST_PLACES + 1, GREATEST_SIZE) for points in ([], on, off(w, h)[:1])]
    return made + [(2, before + [past] + on) for past in off(w, h) for before in ([], on)]


# Tables on which a total is 0, below 0 and below an hour, as they are made: the same watts throughout.
def flat_tables() -> List[Tuple[str, bytes, List[Tuple[int, List[Point]]]]]:
    many = [(k % 129, 7 * k % 129) for k in range(MOST_PLACES + 70)]
    windows = {0: [(4, many[:3])], 1: [(3, many[:2]), (60, many[:90])], -1: [(90, many[:59]), (61, many[:61])],
               32_000: [(MOST_PLACES, many), (MOST_PLACES, many[:MOST_PLACES]), (1, many[:5])],
               -32_000: [(MOST_PLACES, many[: MOST_PLACES + 1])]}
    return [(f"flat{watts}", tablefile.write_file(*samples.fresh_table(1, 1, watts)), chosen)
            for watts, chosen in windows.items()]


# The runs on each table, refused ones on the first of each size, and those whose arguments are no such thing; and how
# often each thing was shown.
def runs(room: Path) -> Tuple[List[Run], "Counter[str]"]:
    made, among, rng, sheets = [], Counter(), Random(61), set()
    tables = flat_tables()
    for name, file in files().items():
        content = tablefile.judge(file)
        chosen: List[Tuple[int, List[Point]]] = [(3, [(0, 0)]), (0, [])]
        if not isinstance(content, int):
            w, h = content.w, content.h
            chosen = taken(rng, w, h) + (not_taken(rng, w, h) if (w, h) not in sheets else [])
            sheets.add((w, h))
        tables.append((name, file, chosen))
    for name, file, chosen in tables:
        (room / name).write_bytes(file)
        for places, points in chosen:
            lines, status, parts = expected(file, places, points)
            among.update(parts)
            given = [str(room / name), str(places), *(str(number) for point in points for number in point)]
            made.append(Run(given, "\n".join(lines) + "\n", "", status))
    return made + misused("window", NEEDED, str(room / "bench-s"), ("PLACES", "U", "V"), room), among


def main(programs: List[str]) -> int:
    rust = programs[:1] == ["--rust"]
    programs = programs[rust:]
    with tempfile.TemporaryDirectory() as room:
        due, among = runs(Path(room))
        numbers = {run.status for run in due}
        if rust:
            # It says of itself that it has no words for 22.
            due = [run._replace(text=run.text.replace(refusal_words()[255], NO_WORDS)) for run in due]
            due = [same for run in due for same in in_rust(run, NEEDED, NEEDED_IN_RUST)]
        wrong = differing(programs, due)
        wrong += 0 if rust else unwritten(programs, "window", str(ROOT / "tables/bench-s.table"), "2", "1", "1")
    lacking = [part for part in SHOWN if not among[part]]
    if lacking or not numbers >= {0, 1, 2, 6, 12, 13, 14, 15, 20, 22, 255}:
        wrong += 1
        print(f"the runs lack {lacking}, or one of the refusals: {sorted(numbers)}")
    print(f"the window as expected in {len(due)} runs" if not wrong else f"{wrong} wrong")
    return 1 if wrong or not programs else 0


if __name__ == "__main__":
    sys.exit(main(sys.argv[1:]))

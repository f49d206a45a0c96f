"""Holds the compiled library to the answers that a revision before it gave, bit for bit (answers.txt).

Run as: python3 tests/answers/check_answers.py; or with --write REVISION, in a clone whose crates are those of the
revision, to write its answers. A change that is to move an answer writes them anew and says so in its note. The costs
kept are held to the evaluator too, by the exact readings kept.
"""
from __future__ import annotations

import subprocess
import sys
from argparse import ArgumentParser
from collections import Counter
from fractions import Fraction
from itertools import count, zip_longest
from re import compile as pattern
from typing import Iterator, List, Sequence

sys.dont_write_bytecode = True

from answered_tables import ROOT, accepted, drawn, points, steps_at
from answers import PRICED_AT, TARIFF, answers, answers_about
from calls import cost_of, watts_at
from library import GUARD, Inside, Lent, Library, shared
from measure import CALLS
from surface import D, STEPS_PER_CELL

KEPT = ROOT / "tests/answers/answers.txt"
# So many faults are shown; so many readings must be made by each step of subdivision; and so many bits be turned.
MOST, STEPS, TURNED = 10, 20, 150
WORDS = """# Answers of the library at revision %s, to which check_answers.py holds it: of each call the number that it
# returned, what its scalars then hold, an f64 by its bits, and each slice that is not as it was lent, by its place,
# with its length and a digest; "lent" is as it was lent. At a point: exact reading, f64, display and cost; and by
# itself the record of watts and slopes, three f64."""
# A cost that was given: of a table at a tariff, and at a point after the exact reading, the f64 and the display. At
# least so many must be there.
PRICED, READ = pattern(r"(.+), cost (\d+): 0 (\d+)"), pattern(r".+ \(\d+, \d+\): 0 (-?\d+), .*, 0 (\d+)")
COSTS = 3_000


class Off(Inside):
    """Makes calls, and after those of a name that were accepted, or refused, turns one bit of one thing lent."""

    def __init__(self, inside: Inside, name: str, which: int, at: int, refused: bool) -> None:
        super().__init__(inside.lib, inside.prefix)
        self.name, self.which, self.at, self.refused, self.turned = name, which, at, refused, 0

    def __call__(self, name: str, given: Sequence) -> int:
        cause, lent = super().__call__(name, given), [one for one in given if isinstance(one, Lent)]
        if ((name, cause != 0) == (self.name, self.refused) and self.which < len(lent)
                and (lent[self.which].n > 0 or self.at == 0)):
            whole = lent[self.which].whole
            whole[self.at] = bytes([whole.raw[self.at] ^ 1])
            self.turned += 1
        return cause


def differences(kept: Sequence[str], given: Sequence[str]) -> Iterator[str]:
    """The lines that differ, each as it was and as it is."""
    for number, (was, now) in enumerate(zip_longest(kept, given, fillvalue="nothing"), start=1):
        if was != now:
            yield f"answer {number} was\n  {was}\nand is\n  {now}"


def untold(inside: Inside) -> List[str]:
    """Bits that may be turned without a difference, in what an accepted or a refused call leaves or beside it, on one
    table; and answers too few or too many."""
    told, t, tried = [], drawn(0), 0
    kept = list(answers_about(Library(inside), "drawn 0", t, True))
    for name in CALLS:
        for which in count():
            off = [Off(inside, name, which, at, refused) for at in (GUARD, 0) for refused in (False, True)]
            for one in off:
                lines = list(answers_about(Library(one), "drawn 0", t, True))
                if one.turned and len(list(differences(kept, lines))) == 0:
                    told.append(f"{name}: a bit turned in slice or scalar {which} at {one.at} is not told")
            tried += sum(one.turned > 0 for one in off)
            if not any(one.turned for one in off):
                break
    others = {"one less": kept[:-1], "one more": [*kept, "more"], "another": ["another", *kept[1:]]}
    told += [f"{what}: not told once" for what, lines in others.items() if len(list(differences(kept, lines))) != 1]
    return told + ([] if tried >= TURNED else [f"only {tried} bits were turned"])


def mispriced(kept: Sequence[str]) -> List[str]:
    """Costs that are not those of the exact readings kept, or of the evaluator's at the one point where each table is
    asked at several tariffs."""
    watts = {name: watts_at(*t, *PRICED_AT) for name, t in accepted().items()}
    due = [(line, cost_of(watts[m[1]], int(m[2])), int(m[3])) for line in kept if (m := PRICED.fullmatch(line))]
    due += [(line, cost_of(Fraction(int(m[1]), D), TARIFF), int(m[2])) for line in kept if (m := READ.fullmatch(line))]
    told = [f"the cost kept is not {cost}:\n  {line}" for line, cost, told in due if cost != told]
    return told + ([] if len(due) >= COSTS else [f"only {len(due)} costs are kept"])


def thin(lib: Library) -> List[str]:
    """Calls that were never accepted or never refused, and steps of subdivision that few readings are made by."""
    made = {kind.rpartition(", ")[2]: given for kind, given in lib.counts.items()}
    read = Counter(step for t in accepted().values() for u, v in points(t)
                   if u <= STEPS_PER_CELL * t.w and v <= STEPS_PER_CELL * t.h for step in steps_at(t, u, v))
    steps = [(level, g, h) for level in (1, 2, 3) for g in (0, 1) for h in (0, 1)]
    return [f"kiln_{call}: {counts} answers kept, accepted and refused" for call, counts in made.items()
            if 0 in counts] + [
        f"level {level}, halves {g} and {h}: read {read[level, g, h]} times" for level, g, h in steps
        if read[level, g, h] < STEPS]


def main() -> int:
    parser = ArgumentParser()
    parser.add_argument("--write", metavar="REVISION")
    revision = parser.parse_args().write
    inside = Inside(shared(), "kiln_")
    lib = Library(inside)
    given = list(answers(lib))
    if revision:
        subprocess.run(["git", "diff", "--quiet", revision, "--", "crates", "crates.txt"], cwd=ROOT, check=True)
        KEPT.write_text("\n".join([WORDS % revision, *given, ""]), encoding="utf-8")
        return 0
    kept = [line for line in KEPT.read_text(encoding="utf-8").splitlines() if not line.startswith("#")]
    faults = [*mispriced(kept), *untold(inside), *thin(lib), *differences(kept, given)]
    print("\n".join(faults[:MOST] + [f"answers: {len(given)} compared with those kept, {len(faults)} faults"]))
    return 1 if faults else 0


if __name__ == "__main__":
    sys.exit(main())

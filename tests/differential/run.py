"""Holds the compiled library to the unrelated evaluator: every answer and every element of all that is lent.

Run as: python3 tests/differential/run.py [CALLS [SEED]] [--from NUMBER] [--counts], or with --case NUMBER [--seed SEED]
"""
from __future__ import annotations

import sys

sys.dont_write_bytecode = True

import os
from argparse import ArgumentParser, Namespace
from itertools import count
from mmap import mmap
from pathlib import Path
from random import Random
from signal import SIGKILL
from struct import pack, unpack
from time import monotonic, sleep
from traceback import print_exc
from typing import Callable, Dict, Iterator, List, Tuple

import converting
import costs
import demands
import files
import fixed
import insertions
import recording
import same_regions
import saving
import tables
from library import ROOT, Inside, Library, Seen, shared

# Each landing raises this number by one, so that it draws other calls than those before it.
SEED = int((ROOT / "tests/differential/seed.txt").read_text(encoding="utf-8"))
TOTAL = 3_000
# From so many calls on, each kind of call must have been accepted and refused; so many faults are enough; and after so
# many calls a line is printed.
ENOUGH, GREATEST_FAULTS, STEP = 2_000, 5, 10_000
# What the fixed cases have for a number, and how long they or one generated case may take.
FIXED, LIMIT_SECONDS = -1, 600

Begun = Callable[[int], None]

KINDS: Dict[str, Callable[[Random, Library], Iterator[str]]] = {
    **tables.KINDS, **costs.KINDS, **insertions.KINDS, **same_regions.KINDS, **files.KINDS, **saving.KINDS,
    **converting.KINDS, **recording.KINDS, **demands.KINDS}
# Kinds that hold readings to each other, to a range or to the coefficients, or tables to each other, do not count.
UNCOUNTED = {*same_regions.KINDS, *demands.KINDS}


def one_case(lib: Library, number: int, seed: int) -> Iterator[str]:
    """Makes the calls of the generated case of this number: for each what is not as it should be, or nothing. Then
    saves and loads all that was seen in it, and gives what is not as it should be there."""
    lib.kind, lib.seen = list(KINDS)[number % len(KINDS)], Seen()
    yield from KINDS[lib.kind](Random(seed * 1_000_003 + number), lib)
    yield from saving.again(lib)


def one_sided(counts: Dict[str, List[int]]) -> List[str]:
    """A line for each kind of call that was never made, accepted or refused, so that the run shows little of it.
    What demands.py has is of readings of acceptable tables, and what is saved again is acceptable: none is refused."""
    made, acceptable = {kind.split(",")[0] for kind in counts}, (*demands.KINDS, saving.AGAIN)
    return [f"{kind}: never made" for kind in (*KINDS, saving.AGAIN) if kind not in made] + [
        f"{kind}: never {word}" for kind, given in counts.items()
        for word, count in zip(("accepted", "refused"), given)
        if count == 0 and (word == "accepted" or kind.split(",")[0] not in acceptable)]


def generated(lib: Library, words: str, command: str, asked: Namespace, begun: Begun) -> Tuple[int, int]:
    """Makes generated cases until so many calls are held to the evaluator, and returns the calls and the faults."""
    made, faults, told = 0, 0, 0
    for k in count(asked.first):
        if made >= asked.calls:
            break
        begun(k)
        for fault in one_case(lib, k, asked.seed):
            made += lib.kind not in UNCOUNTED
            if fault:
                faults += 1
                print(f"case {k} of seed {asked.seed}: {fault[:2000]}\nalone: {alone(command, asked, k)}", flush=True)
                break
        if faults >= GREATEST_FAULTS:
            print(f"{words}: stopped after case {k}")
            break
        if made >= told + STEP:
            told = made - made % STEP
            print(f"{words}: {made} of {asked.calls} calls", flush=True)
    if faults == 0 and asked.calls >= ENOUGH:
        for fault in one_sided(lib.counts):
            faults += 1
            print(f"in {made} calls of seed {asked.seed}: {fault}")
    return made, faults


def alone(command: str, asked: Namespace, case: int) -> str:
    """The command that makes one generated case, or the fixed cases, alone."""
    return f"{command} --case {case} --seed {asked.seed}" if case >= 0 else f"{command} 0 {asked.seed}"


def work(lib: Library, words: str, command: str, asked: Namespace, grids: bool, begun: Begun) -> int:
    """Makes the case that is asked for, or the fixed cases and generated calls, and returns the exit code."""
    if asked.case is not None:
        begun(asked.case)
        made = list(one_case(lib, asked.case, asked.seed))
        found = [fault for fault in made if fault]
        told = f"case {asked.case} of seed {asked.seed} ({lib.kind}), {len(made)} calls"
        print("\n".join(found) or f"{words}: {told}, has no fault")
        faults = len(found)
    else:
        begun(FIXED)
        lib.seen = Seen()
        wrong = fixed.faults(lib, asked.seed, grids) if asked.first == 0 else []
        for fault in wrong:
            print(f"fixed case: {fault[:2000]}\nalone: {alone(command, asked, FIXED)}", flush=True)
        lib.counts.clear()
        calls, faults = generated(lib, words, command, asked, begun)
        faults += len(wrong)
        cases = "the fixed cases and" if asked.first == 0 else f"from case {asked.first} on"
        print(f"{words}: {cases} {calls} generated calls of seed {asked.seed}, {faults} faults")
    if asked.counts:
        for kind, (accepted, refused) in lib.counts.items():
            print(f"{kind}: {accepted} accepted, {refused} refused")
    return 1 if faults else 0


def hold(lib: Library, words: str, command: str, asked: Namespace, grids: bool = True) -> int:
    """Does the work in a process of its own, so that a case in which a call crashes or never ends is told too."""
    at = mmap(-1, 8)
    sys.stdout.flush()
    child = os.fork()
    if child == 0:
        code = 2
        try:
            code = work(lib, words, command, asked, grids, lambda k: at.__setitem__(slice(0, 8), pack("=q", k)))
        except BaseException:
            print_exc()
        sys.stdout.flush()
        os._exit(code)
    seen, since = at[:], monotonic()
    while True:
        ended, status = os.waitpid(child, os.WNOHANG)
        if at[:] != seen:
            seen, since = at[:], monotonic()
        late = monotonic() - since > LIMIT_SECONDS
        if ended and os.waitstatus_to_exitcode(status) in (0, 1):
            return os.waitstatus_to_exitcode(status)
        if ended or late:
            how = "has not ended" if late else f"ended with {os.waitstatus_to_exitcode(status)}"
            case = unpack("=q", seen)[0]
            named = f"case {case} of seed {asked.seed}" if case >= 0 else "a fixed case"
            print(f"{words}: {named} {how}; alone: {alone(command, asked, case)}", flush=True)
            if not ended:
                os.kill(child, SIGKILL)
                os.waitpid(child, 0)
            return 1
        sleep(0.05)


def asked_for(script: str, seed: int = SEED) -> Namespace:
    """What the command line asks for: calls, seed (this one where none is named), case (None for all) and counts."""
    parser = ArgumentParser(prog=script)
    parser.add_argument("calls", nargs="?", type=int, metavar="CALLS", help=f"generated calls, or {TOTAL}")
    parser.add_argument("drawn_from", nargs="?", type=int, metavar="SEED", help=f"seed of all cases, or {seed}")
    parser.add_argument("--seed", type=int, help="the same as SEED")
    parser.add_argument("--from", type=int, default=0, dest="first", metavar="NUMBER",
                        help="begin with this generated case, and leave the fixed cases to the run that begins with 0")
    parser.add_argument("--case", type=int, metavar="NUMBER", help="make this generated case alone")
    parser.add_argument("--counts", action="store_true", help="print how many calls were accepted and refused")
    asked = parser.parse_intermixed_args()
    if asked.case is not None and asked.calls is not None:
        parser.error("a case is made alone: name it without CALLS")
    if asked.seed is not None and asked.drawn_from is not None:
        parser.error("the seed is given twice")
    if min(asked.calls or 0, asked.case or 0, asked.first) < 0:
        parser.error("calls and cases are counted from 0")
    asked.calls = TOTAL if asked.calls is None else asked.calls
    asked.seed = next((one for one in (asked.seed, asked.drawn_from) if one is not None), seed)
    return asked


def main() -> int:
    script = Path(__file__).resolve().relative_to(ROOT)
    asked = asked_for(script.name)
    return hold(Library(Inside(shared(), "kiln_")), "differential", f"python3 {script}", asked)


if __name__ == "__main__":
    sys.exit(main())

"""Runs of an example that takes a table file and numbers: what it must give, and whether each program gives it."""
from __future__ import annotations

import subprocess
from pathlib import Path
from typing import List, NamedTuple, Sequence

GREATEST_SIZE = 2**64 - 1
NEEDED_IN_RUST = 'Error: "needs a table file, u and v"\n'
NO_NUMBERS = ("", "-1", "+1", " 1", "1 ", "7.5", "1e2", "0x10", "seven", str(GREATEST_SIZE + 1), "9" * 40)


class Run(NamedTuple):
    """The arguments, and what the program must give; texts that serve in place of the first, as bounds allow."""

    arguments: List[str]
    text: str
    errors: str
    status: int
    others: Sequence[str] = ()


def misused(program: str, needed: str, table: str, names: Sequence[str], room: Path) -> List[Run]:
    """Runs of an example whose arguments are no numbers, too few or too many, or name no file that can be read."""
    made, good = [], [table] + ["1"] * len(names)
    for place, name in enumerate(names, 1):
        for text in NO_NUMBERS:
            told = f"{program}: {name} is '{text}', not a whole number from 0 to {GREATEST_SIZE}\n"
            made.append(Run(good[:place] + [text] + good[place + 1 :], "", told, 255))
    made += [Run(arguments, "", needed, 255) for arguments in ([], good[:1], good[:-1], good + ["1"])]
    for path, why in ((room / "none", "No such file or directory"), (room, "Is a directory")):
        told = f"{program}: the table file '{path}' can't be read: {why}\n"
        made.append(Run([str(path)] + good[1:], "", told, 255))
    return made


def in_rust(run: Run, needed: str, in_its_words: str = NEEDED_IN_RUST) -> List[Run]:
    """The same run of the Rust example, which says in its words what is needed: main shows that, or a refusal, as an
    error, and ends with 1. None where an argument is no number or no file, which the standard library words."""
    if run.status == 0:
        return [run]
    if run.status == 255:
        return [Run(run.arguments, "", in_its_words, 1)] if run.errors == needed else []
    *lines, refusal = run.text.splitlines(keepends=True)
    return [Run(run.arguments, "".join(lines), f"Error: {refusal}", 1)]


def differing(programs: Sequence[str], due: Sequence[Run]) -> int:
    """How many runs gave something else, each of them shown."""
    wrong = 0
    for program in programs:
        for run in due:
            got = subprocess.run([program, *run.arguments], capture_output=True, text=True, env={"LC_ALL": "C"})
            if got.stdout not in (run.text, *run.others) or (got.stderr, got.returncode) != (run.errors, run.status):
                wrong += 1
                print(f"{program} {run.arguments}: expected {run[1:]}, got {got}")
    return wrong


def unwritten(programs: Sequence[str], name: str, *arguments: str) -> int:
    """How many programs do not tell that their output can't be written."""
    wrong, told = 0, f"{name}: the output can't be written\n"
    for program in programs:
        with open("/dev/full", "w", encoding="utf-8") as full:
            got = subprocess.run([program, *arguments], stdout=full, stderr=subprocess.PIPE, text=True)
        if (got.stderr, got.returncode) != (told, 255):
            wrong += 1
            print(f"{program} {arguments} with a full output: expected {told!r} and 255, got {got}")
    return wrong

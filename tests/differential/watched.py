"""Holds the compiled library to the unrelated evaluator under valgrind, which sees each byte read or written amiss.

Run as: python3 tests/differential/watched.py [CALLS [SEED]] [--counts], or with --case NUMBER [--seed SEED]
"""
from __future__ import annotations

import struct
import subprocess
import sys
import tempfile
from pathlib import Path
from typing import Sequence

sys.dont_write_bytecode = True

import run
from library import GUARD, MASK, ROOT, Lent, Library, archive

# Other calls than those of run.py, at every landing.
SEED = run.SEED + 1_000_000
VALGRIND = ("valgrind", "--quiet", "--exit-on-first-error=yes", "--error-exitcode=9")
FLAGS = ("-O2", "-std=c11", "-Wall", "-Wextra", "-Werror")


class Watched:
    """Makes calls in a process under valgrind, which ends at the first error that it sees."""

    def __init__(self, program: str) -> None:
        pipe = subprocess.PIPE
        self.process = subprocess.Popen([*VALGRIND, program], stdin=pipe, stdout=pipe)

    def _read(self, n: int) -> bytes:
        got = self.process.stdout.read(n)
        if len(got) < n:
            raise RuntimeError(f"the process under valgrind ended with {self.process.wait()}")
        return got

    def __call__(self, name: str, given: Sequence) -> int:
        told = [name.encode().ljust(16, b"\0"), struct.pack("=Q", len(given))]
        lent = [one for one in given if isinstance(one, Lent)]
        for one in given:
            if isinstance(one, Lent):
                contents = one.contents()
                told += [struct.pack("=QQ", len(contents) // one.n if one.n else 1, one.n), contents]
            else:
                told.append(struct.pack("=QQ", 0, one.value & MASK))
        self.process.stdin.write(b"".join(told))
        self.process.stdin.flush()
        cause = self._read(1)[0]
        for one in lent:
            contents = self._read(len(one.contents()))
            one.whole[GUARD:GUARD + len(contents)] = contents
        return cause

    def ended(self) -> int:
        """Ends the process and gives its exit code, which is not 0 where valgrind saw an error."""
        self.process.stdin.close()
        return self.process.wait()


def main() -> int:
    script = Path(__file__).resolve().relative_to(ROOT)
    asked = run.asked_for(script.name, SEED)
    with tempfile.TemporaryDirectory() as room:
        program = f"{room}/watched"
        source = str(ROOT / "tests/differential/watched.c")
        include = f"-I{ROOT / 'include'}"
        subprocess.run(["gcc", *FLAGS, include, "-o", program, source, str(archive())], check=True)
        make = Watched(program)
        faults = run.hold(Library(make), "under valgrind", f"python3 {script}", asked, grids=False)
        return make.ended() or faults


if __name__ == "__main__":
    sys.exit(main())

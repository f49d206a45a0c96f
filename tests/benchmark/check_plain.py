"""Holds the plain C program to the unrelated evaluator, so that the library is compared with a correct program.

Run as: python3 tests/benchmark/check_plain.py [CALLS [SEED]] [--counts], or with --case NUMBER [--seed SEED]
"""
from __future__ import annotations

import ctypes
import subprocess
import sys
import tempfile
from pathlib import Path

sys.dont_write_bytecode = True
HERE = Path(__file__).resolve().parent
sys.path.insert(0, str(HERE.parent / "differential"))

import run as differential
from library import ROOT, Inside, Library


def main() -> int:
    script = Path(__file__).resolve().relative_to(ROOT)
    asked = differential.asked_for(script.name)
    with tempfile.TemporaryDirectory() as room:
        shared = f"{room}/libplain.so"
        flags = ["-O2", "-Wall", "-Wextra", "-Werror", "-shared", "-fPIC"]
        subprocess.run(["gcc", *flags, "-o", shared, *map(str, HERE.glob("plain_*.c"))], check=True)
        lib = Library(Inside(ctypes.CDLL(shared), "plain_"))
        return differential.hold(lib, "plain C", f"python3 {script}", asked)


if __name__ == "__main__":
    sys.exit(main())

"""The compiled library through its C calls. All that is lent to a call, scalars too, lies between guard bytes."""
from __future__ import annotations

import ctypes
import struct
import subprocess
import sys
import tempfile
from array import array
from pathlib import Path
from typing import Callable, Dict, List, NamedTuple, Optional, Sequence, Tuple

ROOT = Path(__file__).resolve().parents[2]
sys.path.insert(0, str(ROOT / "tests/evaluator"))

from enquiries import Slip
from surface import Box

MASK = (1 << 64) - 1
# A table: its sides, its tree, and its numbers as they lie in memory.
Held = Tuple[int, int, bytes, bytes]
# The least number that a commit may refuse with and no enquiry does.
OF_COMMITS = 16
GUARD = 64
EDGE = b"\x5A" * GUARD
# What a scalar holds before a call: every byte is set, and no call gives that value.
LEAST_BEFORE, GREATEST_BEFORE, NOTED_BEFORE, MISSING_BEFORE = 0xEE, 0xEC, 0xED, 0xEB
SIZE_BEFORE = 0xE1E2_E3E4_E5E6_E7E8
NUMBER_BEFORE = SIZE_BEFORE - 2**64
# Before the least and the greatest of a window, which may be any i32: they are two others.
ENDS_BEFORE = 0xE1E2_E3E4 - 2**32, 0xD1D2_D3D4 - 2**32
FOUR_BEFORE = [SIZE_BEFORE - level for level in range(4)]
# Below zero, no number, with a payload, and signalling: arithmetic on it or another "no number" in its place is seen.
WATTS_BEFORE = 0xFFF2_3456_789A_BCDE


def built(made: Path, *command: str) -> Path:
    """A file that the command makes; it is proved and compiled where the sources are newer."""
    crates = ROOT / "crates"
    newest = max(one.stat().st_mtime for one in crates.rglob("*") if "out" not in one.relative_to(crates).parts)
    if not made.exists() or made.stat().st_mtime < newest:
        subprocess.run(command, cwd=ROOT, check=True, stdout=subprocess.DEVNULL)
    return made


def archive() -> Path:
    """The compiled library."""
    return built(ROOT / "target/staticlib/libkiln.a", "tools/archive.sh")


def corner_program() -> Path:
    """The compiled corner program."""
    return built(ROOT / "target/bin/corners", "tools/corners.sh")


def shared() -> ctypes.CDLL:
    """The compiled library as a shared one."""
    with tempfile.TemporaryDirectory() as room:
        linked = f"{room}/libkiln.so"
        whole = ["-Wl,--whole-archive", str(archive()), "-Wl,--no-whole-archive"]
        subprocess.run(["gcc", "-shared", "-o", linked, *whole], check=True)
        return ctypes.CDLL(linked)


class Lent:
    """A slice lent to a call: its elements (array's type code) between guard bytes, which no call may change. They are
    given as numbers or as the bytes in memory."""

    def __init__(self, code: str, values: Sequence[int]) -> None:
        held = array(code, values)
        self.code, self.n, self.given = code, len(held), held.tobytes()
        self.before = EDGE + self.given + EDGE
        self.whole = ctypes.create_string_buffer(self.before, len(self.before))

    def passed(self) -> Tuple:
        return self.pointer(), size(self.n)

    def pointer(self) -> ctypes.c_void_p:
        return ctypes.c_void_p(ctypes.addressof(self.whole) + GUARD)

    def contents(self) -> bytes:
        return self.whole.raw[GUARD:-GUARD]

    def values(self) -> List[int]:
        return array(self.code, self.contents()).tolist()

    def holds(self, values: Sequence[int]) -> bool:
        return self.contents() == array(self.code, values).tobytes()

    def guarded(self) -> bool:
        now = self.whole.raw
        return now[:GUARD] == EDGE and now[-GUARD:] == EDGE

    def unchanged(self) -> bool:
        return self.whole.raw == self.before


class Known(Lent):
    """A slice whose length a call knows; it passes as a pointer alone."""

    def passed(self) -> Tuple:
        return (self.pointer(),)


class Scalar(Known):
    """One element that a call gives its answer in."""

    def __init__(self, code: str, before: int) -> None:
        super().__init__(code, [before])

    def told(self):
        return self.values()[0]


class Four(Scalar):
    """Four sizes that a call gives in one, a level's each."""

    def __init__(self) -> None:
        Known.__init__(self, "Q", FOUR_BEFORE)

    def told(self) -> Tuple[int, ...]:
        return tuple(self.values())


class Float(Scalar):
    """An f64, kept as its bits."""

    def __init__(self) -> None:
        super().__init__("Q", WATTS_BEFORE)

    def told(self) -> float:
        return struct.unpack("=d", struct.pack("=Q", self.values()[0]))[0]


def size(x: int) -> ctypes.c_size_t:
    return ctypes.c_size_t(x & MASK)


def octet(x: int) -> ctypes.c_uint8:
    return ctypes.c_uint8(x)


def number(x: int) -> ctypes.c_int64:
    return ctypes.c_int64(x)


def octets(values: Sequence[int]) -> Lent:
    return Lent("B", values)


def numbers(values: Sequence[int]) -> Lent:
    return Lent("q", values)


def window_of(values: Sequence[int]) -> Lent:
    return Lent("i", values)


def counter(value: int) -> Known:
    """A size that is lent and may be changed."""
    return Known("Q", [value & MASK])


class Answer(NamedTuple):
    """The number that a call returned, 0 where it accepts, and all that was lent to it."""

    cause: int
    lent: List[Lent]

    def said(self) -> Tuple:
        """The answer in the evaluator's words."""
        if self.cause:
            return ("refused", self.cause)
        return ("ok", *(one.told() for one in self.lent if isinstance(one, Scalar)))


def differ(words: str, got: Answer, want: Tuple, *after: Tuple[Lent, Sequence[int]]) -> str:
    """Empty where the answer, the guards and all that was lent are as they should be.

    A slice that is not named with its contents after the call must be as it was lent; so must a scalar if refused.
    """
    if got.said() != want:
        return f"{words}: answers {got.said()}, should be {want}"
    should = {id(lent): values for lent, values in after}
    for at, lent in enumerate(got.lent):
        if id(lent) not in should and lent.unchanged():
            continue
        what = f"{'scalar' if isinstance(lent, Scalar) else 'slice'} {at} of those lent"
        if not lent.guarded():
            return f"{words}: wrote beside {what}"
        if id(lent) in should:
            if not lent.holds(should[id(lent)]):
                return f"{words}: {what} is not as it should be"
        elif got.cause or not isinstance(lent, Scalar):
            return f"{words}: {what} was changed"
    return ""


class Inserted(NamedTuple):
    """An enquiry and the commit of its slip, which together are document 01's insertion."""

    enquiry: Answer
    commit: Answer


def insertion_differs(words: str, got: Inserted, want: Tuple, *after: Tuple[Lent, Sequence[int]]) -> str:
    """The same of an insertion: the commit's answer is wanted, and the enquiry, which writes nothing, refuses with the
    same number where it is one of the table, the box or the level, and else accepts."""
    early = want[0] == "refused" and want[1] < OF_COMMITS
    asked = differ(f"{words}: the enquiry", got.enquiry, want if early else ("ok", *got.enquiry.said()[1:]))
    return asked or differ(f"{words}: the commit", got.commit, want, *after)


class Inside:
    """Makes calls in this process, of functions whose names start with a prefix."""

    def __init__(self, lib: ctypes.CDLL, prefix: str) -> None:
        self.lib, self.prefix = lib, prefix

    def __call__(self, name: str, given: Sequence) -> int:
        function = getattr(self.lib, self.prefix + name)
        function.restype = ctypes.c_uint8
        return function(*(x for one in given for x in (one.passed() if isinstance(one, Lent) else (one,))))


class Seen:
    """Tables that were drawn or that accepted calls took or made; files that loaded, each with its table. All once."""

    def __init__(self) -> None:
        self.tables: Dict[Held, None] = {}
        self.files: Dict[bytes, Held] = {}


class Library:
    """The calls, made in one way, and how many were accepted and refused by kind; what was seen, where that is asked
    for."""

    def __init__(self, make: Callable[[str, Sequence], int]) -> None:
        self.make = make
        self.kind = ""
        self.counts: Dict[str, List[int]] = {}
        self.seen: Optional[Seen] = None

    def made(self) -> int:
        return sum(map(sum, self.counts.values()))

    def _call(self, name: str, *given) -> Answer:
        cause = self.make(name, given)
        kind = name if self.kind == name else f"{self.kind}, {name}"
        self.counts.setdefault(kind, [0, 0])[cause != 0] += 1
        return Answer(cause, [one for one in given if isinstance(one, Lent)])

    def see(self, w: int, h: int, tree: bytes, values: bytes) -> None:
        if self.seen is not None:
            self.seen.tables[w, h, tree, values] = None

    def _taken(self, name: str, w: int, h: int, tree: Lent, values: Lent, *given) -> Answer:
        """A call that takes a table."""
        got = self._call(name, size(w), size(h), tree, values, *given)
        if not got.cause:
            self.see(w, h, tree.given, values.given)
        return got

    def _made(self, got: Answer, w: int, h: int, tree_out: Lent, numbers_out: Lent) -> Answer:
        """A call that made a table where it was accepted; its first scalar then has the tree's length."""
        if not got.cause:
            self.see(w, h, tree_out.contents()[:got.said()[1]], numbers_out.contents())
        return got

    def least_level(self, w: int, h: int, tree: Lent, box: Box) -> Answer:
        """The scalars receive the least level, the greatest and the nodes visited."""
        return self._call("least_level", size(w), size(h), tree, *map(size, box), Scalar("B", LEAST_BEFORE),
                          Scalar("B", GREATEST_BEFORE), Scalar("Q", SIZE_BEFORE))

    def activity(self, w: int, h: int, tree: Lent, level: int, out: Lent) -> Answer:
        return self._call("activity", size(w), size(h), tree, size(level), out)

    def fresh(self, w: int, h: int, value: int, tree_out: Lent, numbers_out: Lent) -> Answer:
        got = self._call("fresh", size(w), size(h), number(value), tree_out, numbers_out, Scalar("Q", SIZE_BEFORE))
        return self._made(got, w, h, tree_out, numbers_out)

    def enquire(self, w: int, h: int, tree: Lent, values: Lent, box: Box, level: int) -> Answer:
        """The scalars receive the new tree's length, the active functions of each level, and the nodes visited."""
        return self._taken("enquire", w, h, tree, values, *map(size, box), size(level), Scalar("Q", SIZE_BEFORE),
                           Four(), Scalar("Q", SIZE_BEFORE))

    def commit(self, w: int, h: int, tree: Lent, values: Lent, slip: Slip, tree_out: Lent, numbers_out: Lent) -> Answer:
        """The slip's active functions are lent; the scalar receives the new tree's length."""
        active = Known("Q", [count & MASK for count in slip.active])
        got = self._taken("commit", w, h, tree, values, *map(size, slip.box), size(slip.level), size(slip.length),
                          active, size(slip.visited), tree_out, numbers_out, Scalar("Q", SIZE_BEFORE))
        return self._made(got, w, h, tree_out, numbers_out)

    def insert(self, w: int, h: int, tree: Lent, values: Lent, box: Box, level: int, tree_out: Lent,
               numbers_out: Lent) -> Inserted:
        """An enquiry, and the commit of the slip that it gives; of one with no numbers where it gives none."""
        enquiry = self.enquire(w, h, tree, values, box, level)
        told = (0, (0,) * 4, 0) if enquiry.cause else enquiry.said()[1:]
        return Inserted(enquiry, self.commit(w, h, tree, values, Slip(box, level, *told), tree_out, numbers_out))

    def set_coefficient(self, w: int, h: int, tree: Lent, values: Lent, level: int, i: int, j: int,
                        value: int) -> Answer:
        got = self._taken("set", w, h, tree, values, size(level), number(i), number(j), number(value))
        if not got.cause:
            self.see(w, h, tree.given, values.contents())
        return got

    def table_cause(self, w: int, h: int, tree: Lent, values: Lent) -> Answer:
        return self._taken("table_cause", w, h, tree, values)

    def exact(self, w: int, h: int, tree: Lent, values: Lent, u: int, v: int) -> Answer:
        return self._taken("exact", w, h, tree, values, size(u), size(v), Scalar("q", NUMBER_BEFORE))

    def watts(self, w: int, h: int, tree: Lent, values: Lent, u: int, v: int) -> Answer:
        return self._taken("watts", w, h, tree, values, size(u), size(v), Float())

    def slopes(self, w: int, h: int, tree: Lent, values: Lent, u: int, v: int) -> Answer:
        """The scalars receive the watts, the slope along u and that along v."""
        return self._taken("slopes", w, h, tree, values, size(u), size(v), *(Float() for _ in range(3)))

    def display(self, w: int, h: int, tree: Lent, values: Lent, u: int, v: int) -> Answer:
        return self._taken("display", w, h, tree, values, size(u), size(v), Scalar("q", NUMBER_BEFORE))

    def cost(self, w: int, h: int, tree: Lent, values: Lent, u: int, v: int, tariff: int) -> Answer:
        return self._taken("cost", w, h, tree, values, size(u), size(v), size(tariff), Scalar("Q", SIZE_BEFORE))

    def _loaded(self, got: Answer, file: Lent, tree_out: Lent, numbers_out: Lent) -> Answer:
        """A call that loaded a file where it was accepted; its first scalars then have the tree's length and the
        sides."""
        if not got.cause and self.seen is not None:
            length, w, h = got.said()[1:4]
            self.seen.files[file.given] = w, h, tree_out.contents()[:length], numbers_out.contents()
        return got

    def read_file(self, file: Lent, tree_out: Lent, numbers_out: Lent) -> Answer:
        """The scalars receive the tree's length and the sides."""
        got = self._call("read_file", file, tree_out, numbers_out, *(Scalar("Q", SIZE_BEFORE) for _ in range(3)))
        return self._loaded(got, file, tree_out, numbers_out)

    def read_bench(self, file: Lent, tree_out: Lent, numbers_out: Lent) -> Answer:
        """The scalars receive the tree's length, the sides, whether a note stands there, and its place and length."""
        sizes = [Scalar("Q", SIZE_BEFORE) for _ in range(5)]
        got = self._call("read_bench", file, tree_out, numbers_out, *sizes[:3], Scalar("B", NOTED_BEFORE), *sizes[3:])
        return self._loaded(got, file, tree_out, numbers_out)

    def write_file(self, w: int, h: int, tree: Lent, values: Lent, file_out: Lent, noted: int = 0,
                   note: Optional[Lent] = None) -> Answer:
        """Where noted is 0 the note is none, whatever is lent in its place. The scalar receives the file's length."""
        return self._taken("write_file", w, h, tree, values, octet(noted), octets([]) if note is None else note,
                           file_out, Scalar("Q", SIZE_BEFORE))

    def write_grid(self, w: int, h: int, tree: Lent, values: Lent, grid_out: Lent) -> Answer:
        """The scalar receives the grid's length."""
        return self._taken("write_grid", w, h, tree, values, grid_out, Scalar("Q", SIZE_BEFORE))

    def read_grid(self, grid: Lent, tree: Lent, numbers_out: Lent) -> Answer:
        """The scalars receive the sides; a grid that is accepted makes a table over the tree that was lent."""
        got = self._call("read_grid", grid, tree, numbers_out, *(Scalar("Q", SIZE_BEFORE) for _ in range(2)))
        if not got.cause:
            self.see(*got.said()[1:], tree.given, numbers_out.contents())
        return got

    def add_record(self, window: Lent, held: Known, oldest: Known, watts: int) -> Answer:
        """The number held and the place of the oldest are lent as the window is."""
        return self._call("add_record", window, held, oldest, number(watts))

    def window_figures(self, window: Lent, held: int, oldest: int) -> Answer:
        """The scalars receive the total, whether the other two are missing, the least and the greatest."""
        return self._call("window_figures", window, size(held), size(oldest), Scalar("q", NUMBER_BEFORE),
                          Scalar("B", MISSING_BEFORE), *(Scalar("i", before) for before in ENDS_BEFORE))

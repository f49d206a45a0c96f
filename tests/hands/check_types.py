"""Checks that C, Rust, the library's source and its archive have the same calls, and that the first three agree on the
type, the name and the place of each parameter and on what is returned. Then changes one type at a time in a copy of
each declaration, and sees that each change is told.

Run as: python3 tests/hands/check_types.py ARCHIVE
"""
from __future__ import annotations

import re
import subprocess
import sys
from pathlib import Path
from typing import Callable, Dict, List, NamedTuple, Tuple

ROOT = Path(__file__).resolve().parents[2]
# A parameter as C and Rust pass it: its name, and its type in Rust's words.
Parameter = Tuple[str, str]
C_TYPES = {"uint8_t": "u8", "size_t": "usize", "int32_t": "i32", "int64_t": "i64", "double": "f64"}
TYPE = "|".join(C_TYPES.values())
# The library's parameters that C and Rust have under another name.
RENAMED = {"tree_length": "length"}


class Call(NamedTuple):
    """What a call returns and takes."""

    returns: str
    takes: List[Parameter]


def c_parameter(text: str) -> List[Parameter]:
    found = re.fullmatch(r"(const )?(\w+) (\*?)(\w+)", text)
    if not found or found[2] not in C_TYPES or (found[1] and not found[3]):
        return [(text, "no type of the calls in C")]
    kind = C_TYPES[found[2]]
    return [(found[4], f"*{'const' if found[1] else 'mut'} {kind}" if found[3] else kind)]


def rust_parameter(text: str) -> List[Parameter]:
    found = re.fullmatch(rf"(\w+): ((?:\*const |\*mut )?(?:{TYPE}))", text)
    return [(found[1], found[2])] if found else [(text, "no type of the calls in Rust")]


def library_parameter(text: str) -> List[Parameter]:
    """A slice is a pointer and a length after it, const unless it is lent for writing. Four numbers are a pointer
    alone, as the header says; so is `&mut`."""
    found = re.fullmatch(rf"(\w+): (?:({TYPE})|(&|&mut )\[({TYPE})(; 4)?\]|&mut ({TYPE}))", text)
    if not found:
        return [(text, "no type of the calls in the library")]
    name = RENAMED.get(found[1], found[1])
    if found[2]:
        return [(name, found[2])]
    if found[6]:
        return [(name, f"*mut {found[6]}")]
    pointer = (name, f"*{'const' if found[3] == '&' else 'mut'} {found[4]}")
    return [pointer] if found[5] else [pointer, (f"{name}_len", "usize")]


class Language(NamedTuple):
    """How calls are declared: what returns, name and parameters are, and the changes of one type to try."""

    declaration: "re.Pattern[str]"
    comment: "re.Pattern[str]"
    parameter: Callable[[str], List[Parameter]]
    returns: Dict[str, str]
    changes: List[Tuple[str, str]]

    def bare(self, source: str) -> str:
        return self.comment.sub(" ", source)

    def calls(self, bare: str) -> Dict[str, Call]:
        made: Dict[str, Call] = {}
        for found in self.declaration.finditer(bare):
            name = found["name"] if found["name"] not in made else f"{found['name']}, a second time"
            parts = [" ".join(part.split()) for part in found["takes"].split(",")]
            takes = [one for part in parts if part for one in self.parameter(part)]
            made[name] = Call(self.returns.get(found["returns"], found["returns"]), takes)
        return made


C = Language(
    re.compile(r"^(?P<returns>\w+) (?P<name>kiln_\w+)\((?P<takes>[^()]*)\);", re.M), re.compile(r"/\*.*?\*/", re.S),
    c_parameter, C_TYPES,
    [(r"\bsize_t\b", "int64_t"), (r"\bint64_t\b", "size_t"), (r"\bint64_t\b", "int32_t"), (r"\buint8_t\b", "int8_t"),
     (r"\bint32_t\b", "int64_t"), (r"\bint32_t\b", "uint32_t"), (r"\bdouble\b", "float"), (r"\bdouble\b", "int64_t"),
     (r"\bconst ", ""), (r"(?<!const )\b(?=\w+ \*)", "const "), (r"\*", ""),
     (r"\bsize_t w,\s*size_t h\b", "size_t h, size_t w"),
     (r"\bsize_t u,\s*size_t v\b", "size_t v, size_t u"), (r"\*w,\s*size_t \*h\b", "*h, size_t *w"),
     (r"\*note_offset,\s*size_t \*note_length\b", "*note_length, size_t *note_offset"),
     (r"\*least,\s*uint8_t \*greatest\b", "*greatest, uint8_t *least"),
     (r"\*least,\s*int32_t \*greatest\b", "*greatest, int32_t *least"),
     (r"\bheld,\s*size_t oldest\b", "oldest, size_t held"), (r"\*held,\s*size_t \*oldest\b", "*oldest, size_t *held"),
     (r"\*along_u,\s*double \*along_v\b", "*along_v, double *along_u"),
     (r"\*slip_length,\s*size_t \*slip_active\b", "*slip_active, size_t *slip_length"),
     (r"\*slip_active,\s*size_t \*slip_visited\b", "*slip_visited, size_t *slip_active"),
     (r"\bslip_length,\s*const size_t \*slip_active,\s*size_t slip_visited\b",
      "slip_visited, const size_t *slip_active, size_t slip_length"),
     (r"\*slip_active(?=,)", "*slip_active, size_t slip_active_len")])
RUST = Language(
    re.compile(r"\bfn (?P<name>kiln_\w+)\((?P<takes>[^()]*)\) -> (?P<returns>\w+);"), re.compile(r"//[^\n]*"),
    rust_parameter, {},
    [(r"\busize\b", "i64"), (r"\bi64\b", "usize"), (r"\bi64\b", "i32"), (r"\bi32\b", "i64"), (r"\bi32\b", "u32"),
     (r"\bu8\b", "i8"), (r"\bf64\b", "f32"), (r"\bf64\b", "i64"), (r"\*const\b", "*mut"), (r"\*mut\b", "*const"),
     (r"\*(?:const|mut) ", ""),
     (r"\bw: usize, h: usize\b", "h: usize, w: usize"), (r"\bu: usize,\s*v: usize\b", "v: usize, u: usize"),
     (r"\bw: \*mut usize,\s*h\b", "h: *mut usize, w"),
     (r"\bnote_offset: \*mut usize,\s*note_length\b", "note_length: *mut usize, note_offset"),
     (r"\bleast: \*mut u8,\s*greatest\b", "greatest: *mut u8, least"),
     (r"\bleast: \*mut i32,\s*greatest\b", "greatest: *mut i32, least"),
     (r"\bheld: usize,\s*oldest\b", "oldest: usize, held"),
     (r"\bheld: \*mut usize,\s*oldest\b", "oldest: *mut usize, held"),
     (r"\balong_u: \*mut f64,\s*along_v\b", "along_v: *mut f64, along_u"),
     (r"\bslip_length: \*mut usize,\s*slip_active\b", "slip_active: *mut usize, slip_length"),
     (r"\bslip_active: \*mut usize,\s*slip_visited\b", "slip_visited: *mut usize, slip_active"),
     (r"\bslip_length: usize,\s*slip_active: \*const usize,\s*slip_visited\b",
      "slip_visited: usize, slip_active: *const usize, slip_length"),
     (r"(?<=slip_active: \*const usize)|(?<=slip_active: \*mut usize)", ", slip_active_len: usize")])
LIBRARY = Language(
    re.compile(r'#\[unsafe\(no_mangle\)\]\s*'
               r'pub extern "C" fn (?P<name>kiln_\w+)\((?P<takes>[^()]*)\) -> (?P<returns>\w+)'),
    re.compile(r"//[^\n]*"), library_parameter, {},
    [(r"\busize\b", "i64"), (r"\bi64\b", "usize"), (r"\bi64\b", "i32"), (r"\bi32\b", "i64"), (r"\bi32\b", "u32"),
     (r"\bu8\b", "i8"), (r"\bf64\b", "i64"), (r"&mut ", "&"), (r"&(?=\[)", "&mut "),
     (r"\[(?=\w+\])|(?<=\w)\]", ""), (r"; 4", ""), (r"; 4", "; 5"),
     (r"\bw: usize,\s*h: usize\b", "h: usize, w: usize"),
     (r"\bu: usize,\s*v: usize\b", "v: usize, u: usize"), (r"\bw: &mut usize,\s*h\b", "h: &mut usize, w"),
     (r"\bnote_offset: &mut usize,\s*note_length\b", "note_length: &mut usize, note_offset"),
     (r"\bleast: &mut u8,\s*greatest\b", "greatest: &mut u8, least"),
     (r"\bleast: &mut i32,\s*greatest\b", "greatest: &mut i32, least"),
     (r"\bheld: usize,\s*oldest\b", "oldest: usize, held"),
     (r"\bheld: &mut usize,\s*oldest\b", "oldest: &mut usize, held"),
     (r"\balong_u: &mut f64,\s*along_v\b", "along_v: &mut f64, along_u"),
     (r"\bslip_length: &mut usize,\s*slip_active: &mut \[usize; 4\],\s*slip_visited\b",
      "slip_visited: &mut usize, slip_active: &mut [usize; 4], slip_length"),
     (r"\bslip_length: usize,\s*slip_active: &\[usize; 4\],\s*slip_visited\b",
      "slip_visited: usize, slip_active: &[usize; 4], slip_length")])


def rust_source() -> Path:
    """The file of the Rust crate that declares the calls."""
    found = [one for one in sorted((ROOT / "rust/src").rglob("*.rs")) if "fn kiln_" in one.read_text(encoding="utf-8")]
    if len(found) != 1:
        raise SystemExit(f"types: {len(found)} files of the Rust crate declare the calls")
    return found[0]


def told(name: str, call: Call) -> str:
    return f"{name}({', '.join(': '.join(one) for one in call.takes)}) -> {call.returns}"


def differences(library: Dict[str, Call], other: Dict[str, Call], whose: str) -> Dict[str, str]:
    """What another language has otherwise than the library, by call."""
    faults = {name: f"{whose} lacks {name}" for name in library if name not in other}
    faults.update({name: f"the library lacks {name} of {whose}" for name in other if name not in library})
    faults.update({name: f"the library has {told(name, library[name])}\n{whose} has {told(name, other[name])}"
                   for name in library if name in other and library[name] != other[name]})
    return faults


def changed_types(language: Language, bare: str, others: List[Dict[str, Call]]) -> Tuple[int, List[str]]:
    """How many changes were tried, each of one type in one declaration, and those that were not told of that call."""
    tried, unseen = 0, []
    for old, new in language.changes:
        before = tried
        for declared in language.declaration.finditer(bare):
            for place in re.compile(old).finditer(bare, declared.start(), declared.end()):
                calls = language.calls(bare[: place.start()] + new + bare[place.end() :])
                tried += 1
                if any(list(differences(other, calls, "the copy")) != [declared["name"]] for other in others):
                    unseen.append(f"{declared['name']}: '{place[0]}' for '{new}' is not told")
        if tried == before:
            unseen.append(f"no call has '{old}', for '{new}'")
    return tried, unseen


def exported(archive: str) -> List[str]:
    """The names that the archive defines for its callers."""
    listed = subprocess.run(["nm", "-g", "--defined-only", "-P", archive], check=True, capture_output=True, text=True)
    return sorted(line.split()[0] for line in listed.stdout.splitlines() if len(line.split()) > 1)


def main(archive: str) -> int:
    sources = [("include/", C, sorted((ROOT / "include").glob("*.h"))), ("the Rust crate", RUST, [rust_source()]),
               ("the library", LIBRARY, sorted((ROOT / "crates/kiln/src").glob("*.rt")))]
    bare = {whose: "\n".join(language.bare(path.read_text(encoding="utf-8")) for path in paths)
            for whose, language, paths in sources}
    calls = {whose: language.calls(bare[whose]) for whose, language, _ in sources}
    library = calls["the library"]
    faults = [fault for whose in calls for fault in differences(library, calls[whose], whose).values()]
    if exported(archive) != sorted(library):
        faults.append(f"the archive exports {exported(archive)}\nthe library has {sorted(library)}")
    if not library:
        faults.append("the library has no calls")
    tried = 0
    for whose, language, _ in sources if not faults else []:
        count, unseen = changed_types(language, bare[whose], [calls[other] for other in calls if other != whose])
        tried += count
        # Each call returns a type and takes some: that many changes at least are there to be made.
        if count < sum(1 + len(call.takes) for call in library.values()):
            faults.append(f"{whose}: only {count} changes were tried")
        faults += [f"{whose}: {one}" for one in unseen]
    for fault in faults:
        print(fault)
    print(f"types: {len(faults)} faults" if faults else
          f"{len(library)} calls of the same types in C, Rust and the library, {tried} changed types told")
    return 1 if faults else 0


if __name__ == "__main__":
    sys.exit(main(*sys.argv[1:]))

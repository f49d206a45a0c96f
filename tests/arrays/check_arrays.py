"""Counts the arrays of the step that subdivides a patch, in the MIR of it and of all that it calls, as a check of the
crate writes it (`rt check --generated`).

The step takes a patch and two halves and gives a patch. Beside these two patches it may have one local of an array
type, of which the result is a copy. What it calls may have none, passed, returned or worked in: each local there is a
number, a bool, a unit or a reference. Whole arrays are copied twice, into that local and out of it, and none is written
out.

Run as: python3 tests/arrays/check_arrays.py; a line for each array too many, exit code 1 then. First the count itself
is tried: on the MIR of a step that passes arrays by value, with an array in the place of each other local, and with
statements that write out, copy or pass an array, put into what the check wrote.
"""
from __future__ import annotations

import re
import subprocess
import sys
import tempfile
from collections import Counter
from pathlib import Path
from typing import Dict, Iterator, List, NamedTuple, Set, Union

sys.dont_write_bytecode = True
ROOT = Path(__file__).resolve().parents[2]
CRATE, STEP = "patch", "patch::subdivide"
BY_VALUE = ROOT / "tests/arrays/step_by_value.mir"
# What other crates call of this one: a second step would be another name.
CALLED = {"subdivide", "even", "odd"}
# The types of locals that hold one number, nothing, or where something stands.
SINGLE = ("tyInt", "tyBool", "tyUnit", "tyPtr", "tyRef")
NUMBER = "(tyInt 64)"
PATCH = f"(tyArray (tyArray {NUMBER} (lenLit 4)) (lenLit 4))"
# The words that are counted by, each after that of the modules that a check writes; all others are the same. An array
# as long as a parameter says is a repeated one too.
WORDS = {
    "◌∷◌": "lcons",
    "[]": "lnil",
    "ty_array": "tyArray",
    "ty_bool": "tyBool",
    "ty_int": "tyInt",
    "ty_ptr": "tyPtr",
    "ty_ref": "tyRef",
    "ty_unit": "tyUnit",
    "repeat_p": "repeat",
    "rv_opd": "rvOpd",
}
# The modules whose words MIR is written in.
SPELLING = ("mir.Syntax", "mathlib.Core.List")
# Statements as such a module spells them, put into each function {}, and how the line starts that is to tell them. The
# function beside those of the crate gives an array, and is called by its name and by the module that holds it.
BESIDE, HOLDS = "by_value", f"Rattle.{CRATE}.proofs.by_value.Symbol"
AT, ARRAY = "(Syntax.place 1 List.[])", "(Syntax.ty_array Syntax.ty_unit 4)"
LENT = f"(Syntax.place 1 (List.◌∷◌ (Syntax.deref {ARRAY}) List.[]))"
TRIED = {
    f"Syntax.assign {AT} (Syntax.aggregate List.[])": "{}: writes out (aggregate ",
    f"Syntax.assign {AT} (Syntax.repeat Syntax.opd_unit 4)": "{}: writes out (repeat ",
    f"Syntax.lend_static {AT} {ARRAY} (Syntax.c_repeat Syntax.c_unit 4)": "{}: writes out (lend_static ",
    f"Syntax.assign {AT} (Syntax.rv_opd (Syntax.copy {LENT}))": "{}: copies ",
    f'Syntax.call (Syntax.fn₀ "{BESIDE}") List.[] {AT}': f"{BESIDE}: ",
    f"Syntax.call Beside.name List.[] {AT}": f"{BESIDE}: ",
}

Term = Union[str, List["Term"]]


class Function(NamedTuple):
    """The types of its locals, the result's first and then the parameters', the number of these, and its body."""

    locals: List[str]
    parameters: int
    body: Term


class Generated(NamedTuple):
    """What a check wrote of a crate: the text of each function's MIR, and its name by the module that holds it."""

    texts: Dict[str, str]
    names: Dict[str, str]


def parsed(text: str) -> Term:
    """The terms of a text: words, commas, and lists in parentheses."""
    inside: List[List[Term]] = [[]]
    for word in re.findall(r'"[^"]*"|[(),]|[^\s(),"]+', text):
        if word == "(":
            inside.append([])
        elif word == ")":
            ended = inside.pop()
            inside[-1].append(ended)
        else:
            inside[-1].append(word.strip('"'))
    if len(inside) != 1:
        raise ValueError("parentheses that do not close")
    return inside[0]


def shown(term: Term) -> str:
    return term if isinstance(term, str) else f"({' '.join(map(shown, term))})"


def each(cells: Term) -> Iterator[Term]:
    """The elements of a list that is written as cells: (lcons FIRST REST), the last rest lnil."""
    while cells != "lnil":
        word, first, cells = cells
        if word != "lcons":
            raise ValueError(f"{word}: not a list")
        yield first


def terms(term: Term, word: str) -> Iterator[List[Term]]:
    """The terms that start with a word, within a term."""
    if isinstance(term, list):
        if term and term[0] == word:
            yield term
        for part in term:
            yield from terms(part, word)


def functions_of(text: str) -> Dict[str, Function]:
    """The functions of a program by name: (fn-def NAME (fnItem _ _ PARAMETERS LOCALS BODY))."""
    found: Dict[str, Function] = {}
    for term in terms(parsed(text), "fn-def"):
        name, (_, _, _, parameters, locals_, body, *_) = shown(term[1]), term[2]
        if name in found:
            raise ValueError(f"{name}: defined twice")
        found[name] = Function([shown(one[1]) for one in each(locals_)], int(shown(parameters)), body)
    return found


def parts_of(term: List[Term]) -> List[Term]:
    """The parts of an application, or, after a comma, those of a tuple."""
    if "," not in term:
        return term
    parts: List[List[Term]] = [[]]
    for one in term:
        if one == ",":
            parts.append([])
        else:
            parts[-1].append(one)
    return [",", *(part[0] if len(part) == 1 else part for part in parts if part)]


def function_of(text: str, names: Dict[str, str]) -> Function:
    """The function of a module of antt: a record, of types by name where it has both. Each name that is defined there
    is replaced by what it stands for, until only words of MIR, numbers and functions are left; a name that is none of
    these raises ValueError."""
    uses = re.findall(r"^use (\S+?)(?: as (\S+))?$", text, re.M)
    modules = {alias or path.split(".")[-1]: path for path, alias in uses}
    defined = dict(re.findall(r"^(\S+) =\s(.*?)(?=\n\n|\Z)", text, re.M | re.S))

    def word_of(word: str) -> Term:
        module, _, own = word.partition(".")
        if word in defined:
            return read(defined[word])
        if module in modules and modules[module] in SPELLING:
            return WORDS.get(own, own[1:] if re.fullmatch(r"w\d+", own) else own)
        if module in modules:
            return ["fnRef", names.get(modules[module], modules[module])]
        if not (word.isdigit() or word == ","):
            raise ValueError(f"{word}: not a name of this module")
        return word

    def term_of(term: Term) -> Term:
        if isinstance(term, str):
            return word_of(term)
        if term[0] == "fnRef":
            return term
        word, *rest = map(term_of, parts_of(term))
        if word == "fn₀":
            return rest[0]
        return ["tyArray", rest[0], ["lenLit", rest[1]]] if word == "tyArray" else [word, *rest]

    def read(words: str) -> Term:
        # All that stands in quotes is the name of a function.
        term = parsed(re.sub(r'"([^"]*)"', r"(fnRef \1)", words))
        return term_of(term[0] if len(term) == 1 else term)

    record = defined["by_name" if "by_name" in defined else "function"]
    fields = dict(re.findall(r"^  (\w+) = ([^;]*);$", record, re.M))
    kinds = [shown(kind) for _, kind, _ in each(read(fields["locals"]))]
    return Function(kinds, int(fields["params"]), read(fields["body"]))


def functions_in(told: Generated) -> Dict[str, Function]:
    return {name: function_of(text, told.names) for name, text in told.texts.items()}


def reached(functions: Dict[str, Function], name: str) -> List[str]:
    """A function and all that it calls, each once; one that is not there raises KeyError."""
    found, left = [], [name]
    while left:
        one = left.pop()
        if one not in found:
            found.append(one)
            left += [shown(called) for _, called in terms(functions[one].body, "fnRef")]
    return found


def single(kind: str) -> bool:
    return kind.strip("(").split()[0].strip(")") in SINGLE


def copied(function: Function) -> List[str]:
    """The types of the arrays, or of whatever is not single, that a function copies whole; fields are not looked into,
    since what has fields is no local of a function that is allowed."""
    kinds = []
    for _, (_, local, steps) in terms(function.body, "copy"):
        last = ([None, function.locals[int(local)]], *each(steps))[-1]
        kinds.append(shown(last[1]) if last[0] in (None, "deref") else NUMBER)
    return [kind for kind in kinds if not single(kind)]


def written_out(function: Function) -> List[str]:
    """A line for each array, struct or enum that a function writes out, a constant that it lends included."""
    made = [term for word in ("aggregate", "repeat") for term in terms(function.body, word)]
    lent = [term for term in terms(function.body, "lend_static") if not single(shown(term[2]))]
    return [f"writes out {shown(term)}" for term in (*made, *lent)]


def faults(functions: Dict[str, Function]) -> List[str]:
    """A line for each array that the step or what it calls has beyond those allowed, starting with the function."""
    step, *called = reached(functions, STEP)
    own, told = functions[step], []
    if own.locals[: own.parameters + 1] != [PATCH, PATCH, NUMBER, NUMBER]:
        told.append("takes or gives something else than a patch and two halves")
    made = [at for at, kind in enumerate(own.locals) if at > own.parameters and not single(kind)]
    if [own.locals[at] for at in made] != [PATCH]:
        told.append(f"makes {len(made)} arrays, {', '.join(own.locals[at] for at in made)}")
    given = [shown(value) for _, place, value in terms(own.body, "assign") if shown(place) == "(place 0 lnil)"]
    if given != [f"(rvOpd (copy (place {at} lnil)))" for at in made]:
        told.append(f"gives {', '.join(given) or 'what a call writes'}")
    if copied(own) != [PATCH, PATCH]:
        told.append(f"copies {len(copied(own))} arrays")
    told += written_out(own)
    lines = [f"{STEP}: {words}" for words in told]
    for name in called:
        one = functions[name]
        lines += [f"{name}: local {at} is {kind}" for at, kind in enumerate(one.locals) if not single(kind)]
        lines += [f"{name}: {words}" for words in (*(f"copies {kind}" for kind in copied(one)), *written_out(one))]
    return lines


def trials(generated: Generated) -> List[str]:
    """What the count does not tell: arrays of the step by value, an array in the place of a single local of this step
    or of what it calls, and a statement of those tried, put before the others of one of these."""
    lines = faults(functions_of(BY_VALUE.read_text(encoding="utf-8")))
    by_value = Counter(line.split(": ")[0] for line in lines)
    due = {f"{CRATE}::{name}": n for name, n in (("subdivide", 1), ("along", 15), ("column", 4), ("children", 5))}
    told = [] if by_value == due else [f"of the step by value is told {dict(by_value)}, should be {due}"]
    functions = functions_in(generated)
    for name in reached(functions, STEP):
        one = functions[name]
        for at in (at for at, kind in enumerate(one.locals) if single(kind)):
            other = one._replace(locals=[*one.locals[:at], PATCH, *one.locals[at + 1 :]])
            if not any(line.startswith(f"{name}: ") for line in faults({**functions, name: other})):
                told.append(f"{name}: an array in the place of local {at} is not told")
        for statement, start in TRIED.items():
            body = rf"  body = Syntax.seq ({statement}) \1;"
            text = f"use {HOLDS} as Beside\n" + re.sub(r"(?m)^  body = (\S+);$", body, generated.texts[name])
            other = function_of(text, {**generated.names, HOLDS: BESIDE})
            lines = faults({**functions, name: other, BESIDE: Function([PATCH], 0, "return")})
            if not any(line.startswith(start.format(name)) for line in lines):
                told.append(f"{name}: {statement} is not told")
    return told


def called_elsewhere() -> Set[str]:
    """The functions of the crate that the others call."""
    sources = (file for file in ROOT.glob("crates/*/src/**/*.rt") if file.relative_to(ROOT).parts[1] != CRATE)
    return {name for file in sources for name in re.findall(rf"\b{CRATE}::(\w+)\(", file.read_text(encoding="utf-8"))}


def generated_in(folder: Path) -> Generated:
    """The MIR that a check wrote into a folder: that of a function, and its name, each in a module of its own."""
    told = Generated({}, {})
    proofs, contracts = folder / f"Rattle-{CRATE}-proofs", folder / f"Rattle-{CRATE}-specs/contracts"
    for file in sorted(proofs.glob("**/Code/Mir.antt")):
        own = file.parents[1].relative_to(proofs)
        key = (contracts / own / "Key.antt").read_text(encoding="utf-8")
        (name,) = re.findall(r'^symbol = "([^"]+)"$', key, re.M)
        if name in told.texts:
            raise ValueError(f"{name}: defined twice")
        told.texts[name] = file.read_text(encoding="utf-8")
        told.names[".".join(("Rattle", CRATE, "proofs", *own.parts, "Symbol"))] = name
    return told


def main() -> int:
    with tempfile.TemporaryDirectory() as folder:
        check = ["rt", "check", "--generated", folder]
        ran = subprocess.run(
            check, cwd=ROOT / "crates" / CRATE, stdout=subprocess.PIPE, stderr=subprocess.STDOUT, text=True
        )
        generated = generated_in(Path(folder))
    if STEP not in generated.texts:
        sys.exit(f"{ran.stdout}{' '.join(check)}, in crates/{CRATE}, wrote no MIR of {STEP}")
    functions = functions_in(generated)
    lines = [*trials(generated), *faults(functions)]
    if ran.returncode:
        lines.append(f"rt check of {CRATE} ended with status {ran.returncode}")
    if called_elsewhere() != CALLED:
        lines.append(f"other crates call {', '.join(sorted(called_elsewhere()))} of {CRATE}, not those in CALLED alone")
    found = reached(functions, STEP)
    print("\n".join([*lines, f"arrays: {STEP} and {len(found) - 1} functions that it calls, {len(lines)} faults"]))
    return 1 if lines else 0


if __name__ == "__main__":
    sys.exit(main())

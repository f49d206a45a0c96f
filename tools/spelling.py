#!/usr/bin/env python3
"""Brings the repository's own definitions and lemmas to the spelling of today's Rattle: words in snake case.

usage: tools/spelling.py [FOLDER]      rewrites crates/*/{src,specs,proofs} below FOLDER (or here) in place

A name that a file of specs/ or proofs/ declares and that begins with a small letter, or an operator of words, gets
its words in snake case: `levelsOf` becomes `levels_of`, and `levelAt-join` becomes `level_at-join`. Dashes stay:
they join the words of a lemma's name, and keep it apart from the definition that it speaks of. A name stays in a
file that imports it from the toolchain's library. A lemma whose name the new form of a definition would meet gets
dashes. Names that meet all the same are told.
"""

import os
import re
import sys

NAME = r"[^\W\d][\w'-]*"
# A word as antt's text cuts words, not behind a letter, a dash or a dot.
WORD = re.compile(rf"(?<![\w'.·-])(?:◌)?({NAME})(?:◌)?(?![\w'-])")
BEHIND_DOT = re.compile(rf"(?<=\.)({NAME})(?![\w'-])")
DECLARED = re.compile(
    rf"(?m)^[ \t]*(?:(?:unfoldable|abbrev|pub|data|record|opaque|instance) )*"
    rf"(◌?{NAME}◌?)((?: \{{[^}}\n]*\}})*) :(?!=)"
)
USE = re.compile(r"\buse ([^\s;{]+)(\{[^;}]*\})?", re.M)
ARGUMENT = re.compile(r"(?<![\w'·.-])([a-z]{3,}(?:[A-Z][a-z]+)+[₀-₉]?)(?![\w'-])")
OWN = re.compile(r"Rattle\.(?!std\b|core\b|std_)\w+|package\b|Rattle$")


def texts(top):
    for folder, dirs, files in os.walk(os.path.join(top, "crates")):
        dirs[:] = sorted(d for d in dirs if d not in ("out", ".git", "must-fail"))
        for name in sorted(files):
            if name.endswith((".antt", ".rt")):
                yield os.path.join(folder, name)


def quiet(text, path):
    """The text without comments, and of a .rt file the ghost parts alone."""
    if path.endswith(".antt"):
        return re.sub(r"--[^\n]*", "", text)
    return re.sub(r"//[^\n]*", "", text)


def snake(name):
    """The name with its words in snake case."""
    operator = name.startswith("◌") and name.endswith("◌")
    bare = name.strip("◌")
    parts = bare.split("-")
    for k, part in enumerate(parts):
        if part[:1].islower():
            part = re.sub(r"(?<=[a-z0-9])([A-Z])", lambda m: "_" + m[1].lower(), part)
            parts[k] = part
    out = "-".join(parts)
    return f"◌{out}◌" if operator else out


def main(top):
    paths = list(texts(top))
    text = {p: open(p, encoding="utf-8").read() for p in paths}
    code = {p: quiet(text[p], p) for p in paths}
    declared = set()
    for p in paths:
        if p.endswith(".antt"):
            for m in DECLARED.finditer(code[p]):
                name = m.group(1)
                declared.add(name)
    # Arguments of such words too.
    brought = {p: set() for p in paths}
    for p in paths:
        for path, items in USE.findall(code[p]):
            names = re.findall(rf"◌?{NAME}◌?", items or path.rsplit(".", 1)[-1])
            if not OWN.match(path):
                brought[p].update(names)
        if p.endswith(".antt"):
            declared.update(set(ARGUMENT.findall(code[p])) - brought[p])
    table = {n: snake(n) for n in declared if n.strip("◌")[:1].islower()}
    table = {old: new for old, new in table.items() if old != new}
    # A lemma of the same words gets dashes.
    for new in set(table.values()) & declared:
        table[new] = new.replace("_", "-")
    lemmas = {new for new in table if "_" in new}
    # An operator's bare form is what its use reads as.
    for old, new in list(table.items()):
        if old.startswith("◌"):
            table[old.strip("◌")] = new.strip("◌")
    for p in paths:
        # A Rust function may be called as a definition is: a clause cannot name it.
        called = re.sub(r"\bfn \w+|\b\w+\(|::\w+|\.\w+", " ", code[p]) if p.endswith(".rt") else code[p]
        words = set(re.findall(rf"(?<![\w'·.-])({NAME})(?![\w'-])", called))
        for old in sorted(words & set(table) - brought[p]):
            if table[old] in words:
                print(f"look: {p}: {old} and {table[old]} both stand here")
    news = {}
    for old, new in table.items():
        news.setdefault(new, set()).add(old)
    for new, olds in news.items():
        if len(olds) > 1:
            print(f"look: {sorted(olds)} all become {new}")
        if new in declared:
            print(f"look: {sorted(olds)} become {new}, which is declared elsewhere")
    count = 0
    for p in paths:
        theirs = brought[p] & set(table)
        if theirs:
            print(f"look: {p}: keeps the library's {sorted(theirs)}")

        def turn(m):
            word = m.group(1)
            if word not in table or word in theirs or word in lemmas and p.endswith(".rt"):
                return m.group(0)
            return m.group(0).replace(word, table[word])

        new = WORD.sub(turn, text[p])
        new = BEHIND_DOT.sub(lambda m: m.group(0) if m.group(1) in lemmas else turn(m), new)
        if new != text[p]:
            count += 1
            with open(p, "w", encoding="utf-8") as f:
                f.write(new)
    print(f"{len(table)} names respelled in {count} files")


if __name__ == "__main__":
    main(sys.argv[1] if len(sys.argv) > 1 else ".")

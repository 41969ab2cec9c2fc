#!/usr/bin/env python3
"""Brings the repository's own definitions and lemmas to today's spelling: words in snake case, where they were in camel case or joined by dashes.

usage: tools/spell_names.py [--list]     at the top, once, right after the toolchain's port.py
The crate hex, whose name is now a library's, becomes hexadecimal.
A name is the repository's own where a file of specs/, or one in proofs/ itself, declares it. It is turned wherever it stands: in specs/ and proofs/,
in the clauses and imports of src/, in must-fail edits, and between backticks in pages. Strings and the names of functions, files and edits stay.
"""

import glob
import os
import re
import sys

WORD = re.compile(r"[A-Za-z_][A-Za-z0-9_'₀-₉]*(?:-[A-Za-z0-9_'₀-₉]+)*")
DECLARED = re.compile(r"^\s*(?:(?:pub|abbrev|unfoldable|ruleset) )*([^\s:=(){};,]+(?: [^\s:=(){};,]+)*) ?(?::|=)(?!=)")

CRATE, CRATE_NOW = "hex", "hexadecimal"

# A lemma of word takes the ending there, and the field of that name in other crates does not.
IN_ONE_CRATE = {"in-range": "word"}


def lemma_files():
    return sorted(glob.glob("crates/*/specs/**/*.antt", recursive=True)) + sorted(glob.glob("crates/*/proofs/*.antt"))


def snake(name):
    parts = re.sub(r"([a-z0-9])([A-Z])", r"\1_\2", name)
    return parts.replace("-", "_").lower()


def is_old(name):
    return name[0].islower() and bool(re.search(r"[A-Z-]", name))


def code(path):
    """The text of a file without its comments."""
    with open(path, encoding="utf-8") as f:
        return "\n".join(l.split("--" if path.endswith(".antt") else "//")[0] for l in f.read().split("\n"))


def declared():
    """What the files declare, the names that an import takes here, and a word of an operator."""
    names = {"orElse"}
    for path in lemma_files():
        for line in code(path).split("\n"):
            m = DECLARED.match(line)
            if re.match(r"\s*(pub )?use ", line):
                names |= {n for n in re.findall(r" as ([^\s,}]+)", line) if WORD.fullmatch(n)}
            elif m and not re.match(r"\s*(pub )?mod ", line) and (":" in line or "ruleset" in line):
                names |= {n for n in m.group(1).split() if WORD.fullmatch(n)}
    return names


def own_names():
    """Each declared name in an older spelling, with its new one. A lemma that stands beside the function that it would share the name with ends in _lem."""
    names = declared()
    plain = {n: snake(n) for n in names if is_old(n)}
    words = [set(WORD.findall(code(p))) for p in sorted(glob.glob("crates/*/specs/**/*.antt", recursive=True) + glob.glob("crates/*/proofs/**/*.antt", recursive=True))]
    other = {}
    for name in names:
        camel = {n for n in plain if "-" not in n and plain[n] == plain.get(name, name) and n != name}
        rivals = camel | ({plain[name]} & names if "-" in name else set())
        if ("-" in name or name not in plain) and any(name in w and rivals & w for w in words):
            other[name] = plain.get(name, name) + "_lem"
    return plain | other


def names_in(path, names):
    crate = path.split(os.sep)[1]
    return names | {n: snake(n) for n, c in IN_ONE_CRATE.items() if c != crate}


def turned(text, names):
    text = WORD.sub(lambda m: names.get(m.group(), m.group()), text)
    return re.sub(rf"\b{CRATE}::|(?<=\bRattle\.){CRATE}(?=\.)", lambda m: CRATE_NOW + m.group()[len(CRATE):], text)


def turned_source(text, names):
    """A .rt file: all but its strings."""
    parts = re.split(r'("(?:[^"\\\n]|\\.)*")', text)
    return "".join(p if i % 2 else turned(p, names) for i, p in enumerate(parts))


def turned_page(text, names):
    parts = re.split(r"(`[^`\n]*`)", text)
    return "".join(re.sub(rf"^`{CRATE}(?=[`/])", f"`{CRATE_NOW}", turned(p, names)) if i % 2 else p for i, p in enumerate(parts))


def turned_edit(text, names):
    return "".join(turned(l, names) if l.startswith(("old: ", "new: ")) else l for l in text.splitlines(keepends=True))


def places():
    for path in sorted(glob.glob("crates/*/specs/**/*.antt", recursive=True) + glob.glob("crates/*/proofs/**/*.antt", recursive=True)):
        yield path, turned
    for path in sorted(glob.glob("crates/*/src/**/*.rt", recursive=True)):
        yield path, turned_source
    for path in sorted(glob.glob("crates/*/must-fail/*.edit")):
        yield path, turned_edit
    for path in sorted(glob.glob("docs/*.md")):
        yield path, turned_page


def main():
    names = own_names()
    if "--list" in sys.argv[1:]:
        for old, new in sorted(names.items()):
            print(old, new)
        return
    os.rename(f"crates/{CRATE}", f"crates/{CRATE_NOW}")
    with open("crates.txt", encoding="utf-8") as f:
        listed = f.read()
    with open("crates.txt", "w", encoding="utf-8") as f:
        f.write(re.sub(rf"\b{CRATE}\b", CRATE_NOW, listed))
    for path, turn in places():
        with open(path, encoding="utf-8") as f:
            before = f.read()
        after = turn(before, names_in(path, names))
        if after != before:
            with open(path, "w", encoding="utf-8") as f:
                f.write(after)


if __name__ == "__main__":
    os.chdir(os.path.join(os.path.dirname(os.path.realpath(__file__)), ".."))
    main()

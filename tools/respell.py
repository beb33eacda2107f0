#!/usr/bin/env python3
"""Brings the repository's own definitions and lemmas to the spelling of today's Rattle: words in snake case.

usage: python3 tools/respell.py        once, at the top of the repository, after the kit's port.py

Turns the names in specs/, proofs/, the clauses and comments of src/, and the texts of must-fail/. Functions of src/, exported
C names and strings keep theirs: none of them has a capital behind a small letter, and strings are passed over.

The choice of octets/specs/Choice.antt has another first word too: `if a then b else c` is the library's own, which always opens,
and ours stays shut until a proof opens it.
"""

import os
import re

# Lemmas that would fall together with the definition that they speak of, as (folder of the crate, lemma, its new name).
LEMMAS = [
    ("centre", "own_same", "own_same_lem"),
    ("centre", "table_fits", "table_fits_lem"),
    ("properties", "own_same", "own_same_lem"),
    ("properties", "table_fits", "table_fits_lem"),
    ("properties", "kept_step", "kept_step_lem"),
    ("wellformed", "is_field", "is_field_lem"),
]
# A statement, not a word: types are in upper camel case.
STATEMENTS = {"wellFormed": "WellFormed"}

WORD = re.compile(r"(?<![\w'\\])[a-z][A-Za-z0-9_']*")
CAMEL = re.compile(r"(?<=[a-z0-9])([A-Z])")
STRING = re.compile(r'b?"(?:[^"\\]|\\.)*"')
NUMBER = re.compile(r"x[0-9A-F_]+$")
# The choice in a definition, a lemma or a clause: not a step of a proof (`c.if-x`), nor Rust's `if`.
CHOICE = re.compile(r"(?<![\w.'-])if(?=◌then◌else◌|\s|$)")
OF_RUST = re.compile(r"\s*(ensures|requires|ghost use)\b")


def word(m):
    w = m.group(0)
    if w in STATEMENTS:
        return STATEMENTS[w]
    if NUMBER.match(w):
        return w
    return CAMEL.sub(lambda c: "_" + c.group(1).lower(), w)


def respelled(text):
    out, at = [], 0
    for s in STRING.finditer(text):
        out += [WORD.sub(word, text[at : s.start()]), s.group(0)]
        at = s.end()
    return "".join(out) + WORD.sub(word, text[at:])


def chosen(path, text):
    """The text with our choice in it. In an edit only what stands below `file: specs/` is of a definition."""
    lines, of_specs = [], path.endswith(".antt")
    for line in text.split("\n"):
        if path.endswith(".edit") and line.startswith("file: "):
            of_specs = line.startswith("file: specs/")
        is_comment = line.lstrip().startswith(("--", "#"))
        if not is_comment and (of_specs or path.endswith(".rt") and OF_RUST.match(line)):
            line = CHOICE.sub("when", line)
        lines.append(line)
    return "\n".join(lines)


def is_older(path):
    """Whether the file has a name of the older spelling."""
    with open(path, encoding="utf-8") as f:
        return any(CAMEL.search(w) and not NUMBER.match(w) for w in WORD.findall(f.read()))


def turn(path, crate, older):
    with open(path, encoding="utf-8") as f:
        old = f.read()
    new = old
    if older and path.endswith(".antt"):
        for where, lemma, to in LEMMAS:
            if where == crate:
                new = re.sub(r"(?<![\w'-])" + lemma + r"(?![\w'-])", to, new)
    new = chosen(path, "\n".join(respelled(line) for line in new.split("\n")))
    if new != old:
        with open(path, "w", encoding="utf-8") as f:
            f.write(new)
    return new != old


def main():
    files = []
    for crate in sorted(os.listdir("crates")):
        for folder, dirs, names in os.walk(os.path.join("crates", crate)):
            dirs[:] = sorted(d for d in dirs if d != "out")
            files += [(os.path.join(folder, name), crate) for name in sorted(names) if name.endswith((".rt", ".antt", ".edit"))]
    # A second run finds the definitions under the names that the lemmas had before the first.
    older = any(is_older(path) for path, _ in files if path.endswith(".antt"))
    print(f"respell: {sum(turn(path, crate, older) for path, crate in files)} files")


main()

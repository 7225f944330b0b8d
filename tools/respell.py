#!/usr/bin/env python3
"""Respells the repository's own definitions, lemmas and fields as the library spells its own: types in camel case, all
else in snake case, a dash only between two names. respell.txt has a line for each: old, new. Only names in specs/,
proofs/, must-fail/ and the clauses of src/ change; comments, strings and Rust names stay.

usage: python3 tools/respell.py   at the top of the repository, once, right after the kit's port.py
"""

import pathlib
import re

TABLE = dict(l.split() for l in (pathlib.Path(__file__).parent / "respell.txt").read_text().splitlines())
NAME = re.compile(r"[A-Za-zℕ_][\w'ℕ]*(?:-[\w'*<≤ℕ]+)*")
# Text that stays: comments (Rattle's and antt's) and strings.
KEPT = re.compile(r'"(?:[^"\\\n]|\\.)*"|//[^\n]*|(?<!\S)--[^\n]*')


def respelled(text):
    done, at = [], 0
    for kept in KEPT.finditer(text):
        done += [NAME.sub(lambda m: TABLE.get(m[0], m[0]), text[at : kept.start()]), kept[0]]
        at = kept.end()
    return "".join(done) + NAME.sub(lambda m: TABLE.get(m[0], m[0]), text[at:])


def main():
    changed = 0
    for path in sorted(pathlib.Path("crates").rglob("*")):
        if path.suffix not in (".rt", ".antt", ".edit") or "out" in path.parts or "target" in path.parts:
            continue
        text = path.read_text()
        new = respelled(text)
        if new != text:
            path.write_text(new)
            changed += 1
    print(f"respelled: {changed} files")


main()

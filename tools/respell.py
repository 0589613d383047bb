#!/usr/bin/env python3
"""Brings the names of definitions and lemmas to snake case: parts in camel case, and what then falls together.

usage: python3 tools/respell.py     at the top of the repository, once

Definitions and lemmas are respelled in specs/, proofs/, clauses and must-fail edits. Functions of src/, constructors, types, strings, inputs and
outputs keep their names. It was run once, right after the kit's own port.py; docs/PORT.md has the commits.
"""

import os
import re

# Lemmas whose name the definition that they speak of takes: the lemma gets the ending `_lem`.
TAKEN = """count_at all_in first_marks join_by kept_in left_in line_taken one_more read_at read_number read_taken row_closes told_in
too_long too_many turn_by""".split()
PART = re.compile(r"(?<![\w'₀-₉])[a-z][a-z0-9_]*(?:[A-Z][a-z0-9_]*)+(?![\w'])")


def snake(match):
    word = match.group(0)
    if word == "getD":
        return "get_or"
    return re.sub(r"(?<=[a-z0-9])([A-Z])", lambda m: "_" + m.group(1).lower(), word)


def respell(path):
    with open(path, encoding="utf-8") as f:
        text = f.read()
    new = text
    if path.endswith(".antt") and "/proofs/" in path:
        for name in TAKEN:
            new = re.sub(r"(?<![\w.'-])" + name + r"(?![\w'.-])", name + "_lem", new)
    new = PART.sub(snake, new)
    if new != text:
        with open(path, "w", encoding="utf-8") as f:
            f.write(new)


def main():
    for root, folders, files in os.walk("crates"):
        folders[:] = sorted(x for x in folders if x not in ("out", "data"))
        for name in sorted(files):
            if name.endswith((".antt", ".rt", ".edit")):
                respell(os.path.join(root, name))


main()

#!/usr/bin/env python3
"""Brings the repository's own definitions and lemmas to snake case, after the kit's port.py.

usage: python3 tools/spelling.py [FOLDER]

In each .antt file below crates/, and in the clauses and comments of each .rt file, a name in
lower camel case becomes one in snake case: netFor is net_for, cutLeg-rows is cut_leg-rows.
Names of Rust are in snake case already and stay. Where the new name was that of a lemma or a
local already, that one gets the name in FALLS_TOGETHER first.
"""

import os
import re
import sys

NAME = re.compile(r"(?<![\w'\-])[^\W\d][\w'\-]*", re.U)
CAMEL = re.compile(r"^[a-z]\w*[a-z0-9][A-Z]|^[a-z][A-Z]")

# Names that stood in snake case, and that a name in camel case comes to as well.
FALLS_TOGETHER = {
    "best_of": "best_of_lem",
    "by_number": "by_number_lem",
    "fit_at": "fit_at_lem",
    "give_at": "give_at_lem",
    "held_by": "sizes_held",
    "meets_at": "meets_at_lem",
    "not_found": "not_found_lem",
    "order_row": "order_row_lem",
    "passes_none": "passes_none_lem",
    "put_entries": "put_entries_lem",
    "row_read": "row_read_lem",
    "same_at": "same_at_lem",
    "second_group": "second_group_lem",
    "starts_by": "starts_by_lem",
    "turn_in": "turn_in_lem",
    "units_of": "units_of_lem",
}


def is_camel(part):
    return bool(re.match(r"[a-z]", part) and re.search(r"[a-z0-9][A-Z]", part))


def snake(word):
    parts = []
    for part in word.split("-"):
        if is_camel(part):
            part = re.sub(r"(?<=[a-z0-9])([A-Z])", r"_\1", part).lower()
        parts.append(part)
    return "-".join(parts)


def turned(text, proofs):
    def one(m):
        word = m.group()
        before = text[m.start() - 1 : m.start()]
        if proofs and before != "." and word in FALLS_TOGETHER:
            return FALLS_TOGETHER[word]
        return snake(word)

    return NAME.sub(one, text)


def main():
    root = sys.argv[1] if len(sys.argv) > 1 else "."
    changed = 0
    for folder, dirs, files in os.walk(os.path.join(root, "crates")):
        dirs[:] = sorted(d for d in dirs if d not in ("out", "must-fail"))
        for name in sorted(files):
            if not name.endswith((".antt", ".rt")):
                continue
            path = os.path.join(folder, name)
            with open(path, encoding="utf-8") as f:
                old = f.read()
            new = turned(old, name.endswith(".antt"))
            if new != old:
                changed += 1
                with open(path, "w", encoding="utf-8") as f:
                    f.write(new)
    print(f"spelling: {changed} files")


main()

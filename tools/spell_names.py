#!/usr/bin/env python3
"""Spells the repository's own definitions and lemmas in snake case, as Rattle's library does (once, after port.py).

usage: tools/spell_names.py FOLDER    rewrites FOLDER/crates: .antt, .rt and must-fail edits

A camelCase name, also as a part of a longer one, becomes its words with underscores; types, modules and Occam's keywords (SKIP, VAR, ..)
keep their spelling. Names of functions in src/ are in snake case already. Where two names would fall together, LEMMAS says how the lemma is
called from now on.
"""
import os
import re
import sys

CAMEL = re.compile(r"(?<![\w'])([a-z][a-z0-9]*[A-Z][\w']*)")
# lemmas whose name is a definition's from now on; and `first_of`, which is a tactic's name
LEMMAS = {
    "all_near": "all_near_lem",
    "both_code": "both_code_lem",
    "cut_word": "cut_word_lem",
    "goes_on": "goes_on_lem",
    "is_true": "is_true_lem",
    "left_in": "left_in_lem",
    "no_names": "no_names_lem",
    "none_yet": "none_yet_lem",
    "part_in": "part_in_lem",
    "whole_code": "whole_code_lem",
    "first_of": "first_among",
}
WHOLE = re.compile(r"(?<![\w'\-])(" + "|".join(LEMMAS) + r")(?![\w'\-])")
OTHER = {"firstOf": "first_among", "getElem": "get_elem", "getD": "get_or"}


def snake(m):
    name = m.group(1)
    if name in OTHER:
        return OTHER[name]
    return re.sub(r"([A-Z])", lambda c: "_" + c.group(1).lower(), name)


def spell(text, ghost):
    text = WHOLE.sub(lambda m: LEMMAS[m.group(1)] if ghost or m.group(1) == "first_of" else m.group(1), text)
    return CAMEL.sub(snake, text)


def main(root):
    for folder, dirs, files in os.walk(os.path.join(root, "crates")):
        dirs[:] = sorted(d for d in dirs if d != "out")
        for f in sorted(files):
            if not f.endswith((".antt", ".rt", ".edit")):
                continue
            path = os.path.join(folder, f)
            with open(path, encoding="utf-8") as it:
                old = it.read()
            new = spell(old, f.endswith(".antt"))
            if new != old:
                with open(path, "w", encoding="utf-8") as it:
                    it.write(new)


if __name__ == "__main__":
    if len(sys.argv) != 2:
        sys.exit(__doc__)
    main(sys.argv[1])

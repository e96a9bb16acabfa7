#!/usr/bin/env python3
"""Spells the names that the pages cite as tools/spell_names.py spelled them in the crates (once, after it).

usage: tools/spell_pages.py PAGE..    rewrites what stands between backticks
"""
import re
import sys

import spell_names


def main(pages):
    for page in pages:
        with open(page, encoding="utf-8") as it:
            old = it.read()
        new = re.sub(r"`[^`\n]*`", lambda m: spell_names.CAMEL.sub(spell_names.snake, m.group(0)), old)
        if new != old:
            with open(page, "w", encoding="utf-8") as it:
                it.write(new)


if __name__ == "__main__":
    main(sys.argv[1:])

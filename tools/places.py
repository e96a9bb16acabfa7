"""Counts, in crates/*/src of the working tree, the places that docs/DESIGN-PASS.md speaks of.

    python3 tools/places.py         a line for each count
    python3 tools/places.py NAME    the places of one count

The patterns find signs of a form, not the form itself: each place that is left stands in the page with a reason.
"""
import glob
import re
import sys

SIGNS = {
    # 1: own Option and Result, numbers in place of names
    "own-enum": r"^(pub )?enum ",
    "handed-on": r"(Fault|Refused|Bad|Nothing)(\([a-z, ]+\))? => .*::(Fault|Refused|Bad|Nothing)(\([a-z, ]+\))?",
    "refusal-number": r"Refused\([0-9]+, |refusing\([0-9]+,",
    "kind-number": r"kind: u64|kind == [0-9]|kind > [0-9]",
    "code-number": r"^pub const [A-Z]+: u(8|32) = 0x",
    # 3: loops
    "loop": r"^\s*(while|loop)\b|= loop",
    "counted-by-hand": r"(\+= 1|-= 1);",
    # 4: copied, compared and printed by hand
    "field-again": r"^\s*(\w+): \1,$",
    "field-copied": r"^\s*(\w+): \w+\.\1,$",
    # 5 and 6: memory and its size
    "size-beside": r"size: u64",
    "size-required": r"size ≤ length memory",
}


def files():
    return sorted(glob.glob("crates/*/src/**/*.rt", recursive=True))


def places(pattern):
    for path in files():
        with open(path) as file:
            for number, line in enumerate(file, 1):
                if not line.lstrip().startswith("//") and re.search(pattern, line):
                    yield f"{path}:{number}: {line.strip()}"


def many_parameters(least=6):
    for path in files():
        with open(path) as file:
            text = file.read()
        for found in re.finditer(r"\bfn (\w+)(?:<[^>]*>)?\(([^()]*(?:\([^()]*\)[^()]*)*)\)", text):
            count = sum(1 for part in found.group(2).split(",") if ":" in part or "self" in part)
            if count >= least:
                yield f"{path}: {found.group(1)} {count}"


def main():
    if len(sys.argv) > 1:
        name = sys.argv[1]
        found = many_parameters() if name == "six-parameters" else places(SIGNS[name])
        print("\n".join(found))
        return
    for name, pattern in SIGNS.items():
        print(f"{name:16} {len(list(places(pattern)))}")
    print(f"{'six-parameters':16} {len(list(many_parameters()))}")


main()

#!/usr/bin/env python3
"""Tries occam.py on a directory of given tables and lists of calls, and prints how many agree and the first that does not.

    judge.py DIRECTORY [LAST_STATEMENT LAST_GUARD]

DIRECTORY/KIND/*.bin are tables, the .out beside each what the bench program prints. A file DIRECTORY/lists/*.txt has, one to a line, a
table, a slice, calls with their answers, and at the end the live variables' words. The largest kinds that the reader takes are those of
order 4, 13 and 2, unless they are given. Exits with 0 where all agree.
"""
import sys
from pathlib import Path

import occam
from expect import bench


class List:
    """A list's machine, and what it answers to a line."""

    def __init__(self, table, q):
        self.program = p = occam.Compiled(table)
        if not p.fits:
            raise occam.Refused(10, 0)
        self.memory = [0] * p.words
        self.machine = occam.start(p.code, self.memory, p.base, p.inputs, p.outputs, q)[0]

    def run(self, budget, clock):
        try:
            return "%s %d" % self.machine.run(self.program.code, self.memory, budget, clock % occam.WORD)
        except occam.Backwards:
            return "refused 16"

    def offer(self, k, value):
        answer = self.machine.offer(self.memory, k, value % occam.WORD)
        return {"offered": "taken in", "14": "refused 14"}.get(answer, answer)

    def take(self, k):
        answer = self.machine.take(self.memory, k)
        return str(occam.signed(answer)) if isinstance(answer, int) else answer

    def line(self, asked):
        name, *numbers = asked.split()
        if name == "variable":
            at = int(numbers[-1])
            return str(occam.signed(self.memory[at])) if at < len(self.memory) else "outside"
        return {"run": self.run, "offer": self.offer, "take": self.take}[name](*map(int, numbers))


def judge_list(path):
    """The lines behind table and slice, as they are and as they should be."""
    table, q, *lines = path.read_text().splitlines()
    try:
        calls = List(bytes.fromhex(table.removeprefix("table")), int(q.removeprefix("slice")))
    except occam.Refused as r:
        return ["refused %d at %d" % (r.number, r.place)], lines
    asked = [line.split(":")[0] for line in lines]
    return ["%s: %s" % (a, calls.line(a)) for a in asked], lines


def judge_table(path):
    return bench(path.read_bytes()), path.with_suffix(".out").read_text().splitlines()


def difference(got, expected):
    """The first line that is not as expected."""
    if got == expected:
        return None
    at = next((i for i, (g, e) in enumerate(zip(got, expected)) if g != e), min(len(got), len(expected)))
    return "line %d is %s, expected %s" % (at, got[at:at + 1], expected[at:at + 1])


def report(what, paths, judge):
    """Prints how many agree, and gives whether all do."""
    found = [(path, difference(*judge(path))) for path in sorted(paths)]
    wrong = [f for f in found if f[1]]
    print("%s: %d of %d agree" % (what, len(found) - len(wrong), len(found)))
    if wrong:
        print("%s: %s" % wrong[0])
    return not wrong


def main(directory, last_statement=13, last_guard=2):
    occam.LAST_STATEMENT, occam.LAST_GUARD = int(last_statement), int(last_guard)
    tables = report("tables", Path(directory).glob("*/*.bin"), judge_table)
    lists = report("lists", Path(directory).glob("lists/*.txt"), judge_list)
    return 0 if tables and lists else 1


if __name__ == "__main__":
    sys.exit(main(*sys.argv[1:]))

#!/usr/bin/env python3
"""What the test programs and the bench program should print.

    expect.py table_test|program_test|report_test|call_test|run_test < crates/NAME/stdin > crates/NAME/stdout
    expect.py bench < TABLE
"""
import re
import sys

from occam import REGISTERS, TIMER, WORD, Backwards, Compiled, Fault, Machine, Refused, Short, read, signed, start


def lines(text, digits):
    """The numbers of each line, and whether it begins with a comment. A number has at most so many digits."""
    for line in text.removesuffix("\n").split("\n"):
        numbers = re.findall("[0-9a-fA-F]{1,%d}" % digits, line.split("#")[0])
        yield [int(n, 16) for n in numbers], line.startswith("#")


def bench(table):
    try:
        program = Compiled(table)
        if not program.fits:
            raise Refused(10, 0)
    except Refused as r:
        return ["refused %d at %d" % (r.number, r.place)]
    out = ["bytes %d" % len(program.code), "words %d" % program.words, " ".join(["code"] + ["%02x" % b for b in program.code])]
    memory = [0] * program.words
    machine, _, _ = start(program.code, memory, program.base, program.inputs, program.outputs, 32)
    total = 0
    while True:
        kind, done = machine.run(program.code, memory, 65536 - total, 0)
        total += done
        taken = [(k, machine.take(memory, k)) for k in range(program.outputs)] if kind == "waiting" else []
        taken = [(k, v) for k, v in taken if v != "none"]
        out += ["out %d %d" % (k, signed(v)) for k, v in taken]
        if not taken:
            return out + ["%s %d" % (kind, total)]


def table_lines(table):
    try:
        read(table)
    except Refused as r:
        return ["refused %d at %d" % (r.number, r.place)]
    p = Compiled(table)
    facts = "words %d in %d out %d processes %d" % (p.words, p.inputs, p.outputs, p.processes)
    return [facts, " ".join(["code"] + [p.code.hex()] * bool(p.code)) if p.fits else "refused 10 at 0"]


def total(words):
    value = 0
    for w in words:
        value = (value * 31 + w) % (1 << 32)
    return value


def program_line(table):
    try:
        p = Compiled(table)
        if not p.fits:
            raise Refused(10, 0)
    except Refused as r:
        return "refused %d at %d" % (r.number, r.place)
    memory = [7] * 4100
    machine, _, _ = start(p.code, memory, p.base, p.inputs, p.outputs, 32)
    kind, count = machine.run(p.code, memory, 65536, 0)
    return "bytes %d words %d %s %d sum %08x" % (len(p.code), p.words, kind, count, total(memory))


class Calls:
    """A list of calls; crates/call_test/src/main.rt tells the format."""

    def __init__(self, numbers):
        self.numbers, self.next, self.answers = numbers, 0, []
        self.code, self.memory = [0x99] * 16640, [0x7700 + i for i in range(4200)]
        self.bytes, self.words, self.machine = 0, 4200, Machine()

    def number(self):
        self.next += 1
        return self.numbers[self.next - 1] if self.next <= len(self.numbers) else 0

    def row(self):
        count = self.number()
        row = self.numbers[self.next:self.next + count]
        self.next += len(row)
        return row

    def lent(self, act):
        memory = self.memory[:self.words]
        answer = act(memory)
        self.memory[:self.words] = memory
        return answer

    def fault(self):
        return "%s %x" % (self.machine.fault.kind, self.machine.fault.number)

    def start(self, code, w, inputs, outputs, q):
        self.machine, answer, value = self.lent(lambda memory: start(code, memory, w, inputs, outputs, q))
        return answer if value is None else "%s %x" % (answer, value)

    def table(self):
        q, table = self.number(), bytes(self.row())
        try:
            program = Compiled(table)
            if not program.fits:
                raise Refused(10, 0)
        except Refused as r:
            return "refused %d at %x" % (r.number, r.place)
        self.bytes = len(program.code)
        self.code[:self.bytes] = program.code
        return self.start(program.code, program.base, program.inputs, program.outputs, q)

    def run(self):
        budget, clock = self.number(), self.number() % WORD
        kind, count = self.lent(lambda memory: self.machine.run(self.code[:self.bytes], memory, budget, clock))
        return "%s %x%s" % (kind, count, " " + self.fault() if kind == "fault" else "")

    def offer(self):
        k, value = self.number(), self.number()
        answer = self.lent(lambda memory: self.machine.offer(memory, k, value))
        return answer + (" " + self.fault() if answer == "fault" else "")

    def take(self):
        k = self.number()
        answer = self.lent(lambda memory: self.machine.take(memory, k))
        if isinstance(answer, int):
            return "taken %x" % answer
        return answer + (" " + self.fault() if answer == "fault" else "")

    def call(self):
        kind = self.number()
        if kind == 0:
            row = self.row()
            self.code[:len(row)], self.bytes = row, len(row)
        elif kind == 1:
            self.bytes, self.words = min(self.number(), 16640), min(self.number(), 4200)
        elif kind > 6:
            self.next += len(self.numbers)
        else:
            calls = {2: lambda: self.start(self.code[:self.bytes], *[self.number() for _ in range(4)]), 3: self.table, 4: self.run,
                     5: self.offer, 6: self.take}
            try:
                self.answers.append(calls[kind]())
            except Short as short:
                self.answers.append("11 %x" % short.size)
            except Backwards:
                self.answers.append("16")

    def line(self):
        while self.next < len(self.numbers):
            self.call()
        m = self.machine
        registers, timer = [" ".join("%x" % getattr(m, name) for name in names) for names in (REGISTERS, TIMER)]
        held = "".join(" %x=%x" % (k, m.held[k]) for k in range(8) if m.held.get(k) is not None)
        fault = self.fault() if m.fault else "none"
        return "%s / %s / %s /%s / %s / %x" % (", ".join(self.answers), registers, timer, held, fault, total(self.memory))


def built(n):
    """A machine that a caller built; crates/run_test/src/main.rt tells the format."""
    m = Machine()
    for name, value in zip(REGISTERS, n):
        setattr(m, name, value)
    m.running, m.queued = int(m.running != 0), int(m.queued != 0)
    m.length, m.base, m.inputs, m.outputs, m.slice = n[11:16]
    m.clock, m.given, m.timer = n[16], int(n[17] != 0), n[18]
    m.held = {k: n[19 + k] for k in range(8) if n[27 + k]}
    kinds = {1: "function", 2: "operation", 3: "count", 4: "word", 5: "place"}
    m.fault = Fault(kinds[n[35]], n[36]) if n[35] in kinds else None
    return m


def run_line(n):
    m, budget, clock, words, size = built(n), n[37], n[38] % (1 << 32), n[39], n[40]
    code, named = n[41:41 + size], n[41 + size:]
    memory = [0x7700 + i for i in range(words)]
    for address, value in zip(named[::2], named[1::2]):
        if address < words:
            memory[address] = value
    before = list(memory)
    try:
        kind, count = m.run(code, memory, budget, clock)
        answer = "%s %x" % (kind, count) + (" %s %x" % (m.fault.kind, m.fault.number) if kind == "fault" else "")
    except Short as short:
        answer = "11 %x" % short.size
    except Backwards:
        answer = "16"
    setup = [m.length, m.base, m.inputs, m.outputs, m.slice]
    parts = [[getattr(m, name) for name in REGISTERS], setup, [getattr(m, name) for name in TIMER]]
    held = "".join(" %x=%x" % (k, m.held[k]) for k in range(8) if m.held.get(k) is not None)
    fault = "%s %x" % (m.fault.kind, m.fault.number) if m.fault else "none"
    changes = "".join(" %x=%x" % (i, v) for i, v in enumerate(memory) if v != before[i])
    return "%s / %s /%s / %s /%s" % (answer, " / ".join(" ".join("%x" % v for v in part) for part in parts), held, fault, changes)


def main(name):
    if name == "bench":
        print("\n".join(bench(sys.stdin.buffer.read())))
        return
    text = sys.stdin.read()
    if name == "table_test":
        for numbers, remark in lines(text, 2):
            if not remark:
                print("\n".join(table_lines(bytes(numbers))))
    elif name in ("program_test", "report_test"):
        for numbers, _ in lines(text, 2):
            if numbers:
                print(program_line(bytes(numbers)) if name == "program_test" else "\n".join(bench(bytes(numbers))))
    else:
        for numbers, _ in lines(text, 16):
            if numbers:
                print(Calls(numbers).line() if name == "call_test" else run_line(numbers))


if __name__ == "__main__":
    main(sys.argv[1])

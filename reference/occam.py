"""Document 01 and the orders of document 02 that apply, in Python: the reader of tables, the compiler and the machine. It has no code in
common with the Rattle side, and gives the test programs' expected output (expect.py); docs/DECISIONS.md, 65, says how far that goes. Names
in brackets are places in the documents."""

# The largest kind of a statement and of a guard that the reader takes: those of order 4 of document 02.
LAST_STATEMENT, LAST_GUARD = 13, 2

WORD = 1 << 32
NOT_PROCESS = 0x80000000
ENABLING, WAITING, READY = 0x80000001, 0x80000002, 0x80000003
TIME_SET, TIME_NOT_SET = 0x80000001, 0x80000002
NONE_SELECTED = WORD - 1

J, LDLP, PFIX, LDC, NFIX, LDL, CJ, AJW, EQC, STL, OPR = 0, 1, 2, 4, 6, 7, 10, 11, 12, 13, 15
REV, ENDP, DIFF, IN, PROD, GT, STARTP, OUTWORD, STOPP, LDPI = 0x00, 0x03, 0x04, 0x07, 0x08, 0x09, 0x0D, 0x0F, 0x15, 0x1B
DISC, DISS, XOR, MINT, ALT, ALTWT, ALTEND, AND, ENBC, ENBS, OR, SUM = (
    0x2F, 0x30, 0x33, 0x42, 0x43, 0x44, 0x45, 0x46, 0x48, 0x49, 0x4B, 0x52)
LDTIMER, TIN, DIST, ENBT, TALT, TALTWT = 0x22, 0x2B, 0x2E, 0x47, 0x4E, 0x51  # [02, order 4]


def signed(v):
    return v - WORD if v >> 31 else v


def after(x, y):
    """[02, order 4] One time is after another."""
    return signed((x - y) % WORD) > 0


class Refused(Exception):
    def __init__(self, number, place):
        Exception.__init__(self, number, place)
        self.number, self.place = number, place


# [The program table] A node is a tuple with its kind first. A name is its declaration's object, so scoping is done by the reader.

class Name:
    def __init__(self, way=None):
        self.way, self.word = way, None


class Reader:
    def __init__(self, table):
        self.table, self.at = table, 0
        if not 0 < len(table) <= 16384:
            raise Refused(1, 0)

    def number(self):
        first, value, shift = self.at, 0, 0
        if first >= len(self.table):
            raise Refused(2, len(self.table))
        while True:
            if self.at >= len(self.table):
                raise Refused(2, first)
            byte = self.table[self.at]
            self.at += 1
            value |= (byte & 127) << shift
            shift += 7
            if byte < 128:
                break
        if value >= WORD or (byte == 0 and shift > 7):
            raise Refused(2, first)
        return value, first

    def ranged(self, low, high):
        value, first = self.number()
        if not low <= value <= high:
            raise Refused(3, first)
        return value

    def part(self, depth, last):
        """The kind of a statement or an expression: at one byte 2, 4, 3."""
        kind, first = self.number()
        if depth > 32:
            raise Refused(4, first)
        if kind > last:
            raise Refused(3, first)
        return kind, first

    def name(self, scope, wrong=None):
        value, first = self.number()
        if value >= len(scope) or (wrong and scope[value].way == wrong):
            raise Refused(5, first)
        return scope[value]

    def expression(self, depth, vs):
        kind, first = self.part(depth, 3)
        if kind == 0:
            return "constant", self.number()[0]
        if kind == 1:
            return "variable", self.name(vs)
        if kind == 2:
            return "not", self.expression(depth + 1, vs)
        operator = self.ranged(0, 7)
        left = self.expression(depth + 1, vs)
        return "binary", operator, left, self.expression(depth + 1, vs)

    def guard(self, depth, vs, cs):
        kind = self.ranged(0, LAST_GUARD)
        condition = self.expression(depth, vs)
        if kind == 1:
            return "skip", condition, self.statement(depth, vs, cs)
        if kind == 2:  # [02, order 4] time and condition as the sides of an operator that is not there
            sides = "sides", None, self.expression(depth, vs), condition
            return "time", sides, self.statement(depth, vs, cs)
        channel = self.name(cs, "out")
        variable = self.name(vs)
        return "input", condition, channel, variable, self.statement(depth, vs, cs)

    def statement(self, depth, vs, cs):
        kind, place = self.part(depth, LAST_STATEMENT)
        inner = depth + 1
        if kind == 0:
            return ("SKIP",)
        if kind == 1:
            return ("STOP",)
        if kind == 2:
            return "assign", self.name(vs), self.expression(inner, vs)
        if kind == 3:
            return "input", self.name(cs, "out"), self.name(vs)
        if kind == 4:
            return "output", self.name(cs, "in"), self.expression(inner, vs)
        if kind in (5, 6):
            names = [Name() for _ in range(self.ranged(1, 32))]
            if kind == 5:
                return "VAR", names, self.statement(inner, vs + names, cs)
            return "CHAN", names, self.statement(inner, vs, cs + names)
        if kind == 7:
            return "SEQ", [self.statement(inner, vs, cs) for _ in range(self.ranged(0, 32))]
        if kind == 8:
            return "PAR", [self.statement(inner, vs, cs) for _ in range(self.ranged(0, 16))], place
        if kind == 9:
            return "IF", [(self.expression(inner, vs), self.statement(inner, vs, cs)) for _ in range(self.ranged(0, 32))]
        if kind == 10:
            condition = self.expression(inner, vs)
            return "WHILE", condition, self.statement(inner, vs, cs)
        if kind == 11:
            return "ALT", [self.guard(inner, vs, cs) for _ in range(self.ranged(0, 32))]
        if kind == 12:
            return "TIME", self.name(vs)
        return "delay", self.expression(inner, vs)

    def program(self):
        inputs = self.ranged(0, 8)
        outputs = self.ranged(0, 8)
        channels = [Name("in") for _ in range(inputs)] + [Name("out") for _ in range(outputs)]
        body = self.statement(1, [], channels)
        if self.at < len(self.table):
            raise Refused(6, self.at)
        return inputs, outputs, channels, body


def parts(s):
    """The statements directly inside one."""
    if s[0] in ("VAR", "CHAN", "WHILE"):
        return [s[2]]
    if s[0] in ("SEQ", "PAR"):
        return s[1]
    if s[0] == "IF":
        return [body for _, body in s[1]]
    if s[0] == "ALT":
        return [g[-1] for g in s[1]]
    return []


def wholes(s):
    """The expressions directly inside a statement."""
    if s[0] in ("assign", "output"):
        return [s[2]]
    if s[0] == "IF":
        return [condition for condition, _ in s[1]]
    if s[0] in ("WHILE", "delay"):
        return [s[1]]
    if s[0] == "ALT":
        return [g[1] for g in s[1]]
    return []


def inside(s):
    """A statement and all that it holds, in table order."""
    yield s
    for p in parts(s):
        yield from inside(p)


def variables(e):
    if e[0] == "variable":
        yield e[1]
    for p in e[1:]:
        if isinstance(p, tuple):
            yield from variables(p)


def usage(s):
    """Names that a branch changes, uses, inputs from and outputs to. Names that it declares are objects of no other branch."""
    changes, uses, inputs, outputs = set(), set(), set(), set()
    for p in inside(s):
        for e in wholes(p):
            uses.update(variables(e))
        if p[0] in ("assign", "TIME"):
            changes.add(p[1])
        if p[0] == "output":
            outputs.add(p[1])
        for c, x in [p[1:]] if p[0] == "input" else [g[2:4] for g in p[1] if g[0] == "input"] if p[0] == "ALT" else []:
            inputs.add(c)
            changes.add(x)
    return changes, uses | changes, inputs, outputs


def clash(branches):
    seen = [usage(b) for b in branches]
    return any(a[0] & b[1] or b[0] & a[1] or a[2] & b[2] or a[3] & b[3]
               for i, a in enumerate(seen) for b in seen[i + 1:])


def registers(e):
    """[02, order 2] What an expression needs, never over 3."""
    if e[0] in ("constant", "variable"):
        return 1
    if e[0] == "not":
        return registers(e[1])
    left, right = registers(e[2]), registers(e[3])
    return min(3, left + 1 if left == right else max(left, right))


def stores(left, right):
    """[02, order 2] The right value is stored where both sides need 3 registers."""
    return registers(left) == registers(right) == 3


def stored(e):
    """[02, order 2] The values that an expression holds together at most."""
    if e[0] in ("constant", "variable"):
        return 0
    if e[0] == "not":
        return stored(e[1])
    return max(stored(e[2]) + (1 if stores(e[2], e[3]) else 0), stored(e[3]))


def processes(s):
    inner = [processes(p) for p in parts(s)]
    return max(1, sum(inner) if s[0] == "PAR" else max(inner, default=1))


def timed(guards):
    """[02, order 4] An ALT with a time guard."""
    return any(g[0] == "time" for g in guards)


def need(s):
    """[Workspace and code] Words a statement needs."""
    inner = [need(p) for p in parts(s)]
    if s[0] in ("VAR", "CHAN"):
        return len(s[1]) + inner[0]
    if s[0] == "PAR":
        return 2 + sum(inner)
    least = {"input": 3, "output": 4, "ALT": 4, "delay": 5}.get(s[0], 2)
    if s[0] == "ALT" and timed(s[1]):  # [02, order 4]
        least = 6
    held = max([stored(e) for e in wholes(s)], default=0)
    if held:  # [02, order 2]
        least = max(least, held + {"output": 3, "ALT": 8}.get(s[0], 2))
    return max(inner + [least])


def read(table):
    """A program, or the refusals 1 to 7 and 9."""
    inputs, outputs, channels, body = program = Reader(table).program()
    for s in inside(body):
        if s[0] == "PAR" and clash(s[1]):
            raise Refused(7, s[2])
    if processes(body) > 64:
        raise Refused(9, 0)
    return program


# [Workspace and code] An instruction is [function, operand], or for a distance [function, reached, counted from], two labels.

class Label:
    def __init__(self):
        self.place = None


class Generator:
    def __init__(self):
        self.items = []

    def put(self, function, operand):
        self.items.append((function, operand))

    def op(self, *codes):
        for code in codes:
            self.put(OPR, code)

    def distance(self, function, reached, user=None):
        """The distance counts from the byte after its user: this instruction, where no other is named."""
        own = user or Label()
        self.items.append((function, reached, own))
        if user is None:
            self.mark(own)

    def mark(self, label):
        self.items.append(label)

    def expression(self, e, w, held):
        """`held` values are stored before it."""
        if e[0] == "constant":
            self.put(LDC, signed(e[1]))
        elif e[0] == "variable":
            self.put(LDL, e[1].word - w)
        elif e[0] == "not":
            self.expression(e[1], w, held)
            self.put(EQC, 0)
        else:
            self.sides(e[2], e[3], w, held)
            if e[0] == "sides":
                return
            self.op((SUM, DIFF, PROD, GT, DIFF, AND, OR, XOR)[e[1]])
            if e[1] == 4:
                self.put(EQC, 0)

    def sides(self, left, right, w, held):
        """[02, order 2] Right first where it needs more, or where it is stored."""
        if stores(left, right):
            self.expression(right, w, held)
            self.put(STL, held)
            self.expression(left, w, held + 1)
            self.put(LDL, held)
        elif registers(left) < registers(right):
            self.expression(right, w, held)
            self.expression(left, w, held)
            self.op(REV)
        else:
            self.expression(left, w, held)
            self.expression(right, w, held)

    def whole(self, e, w, below=0):
        """[02, order 2] An expression that stands in no other: wrapped where it stores, in a guard below the ALT's words."""
        t = stored(e)
        n = t + below if t else 0
        if n:
            self.put(AJW, -n)
        self.expression(e, w - n, 0)
        if n:
            self.put(AJW, n)

    def input(self, channel, variable, w):
        self.put(LDLP, variable.word - w)
        self.put(LDLP, channel.word - w)
        self.put(LDC, 4)
        self.op(IN)

    def declare(self, s, w):
        n = len(s[1])
        self.put(AJW, -n)
        for j, name in enumerate(s[1]):
            name.word = w - n + j
            if s[0] == "VAR":
                self.put(LDC, 0)
            else:
                self.op(MINT)
            self.put(STL, j)
        self.statement(s[2], w - n)
        self.put(AJW, n)

    def conditional(self, pairs, w):
        end = Label()
        for condition, body in pairs:
            after = Label()
            self.whole(condition, w)
            self.distance(CJ, after)
            self.statement(body, w)
            self.distance(J, end)
            self.mark(after)
        self.op(STOPP)  # [02, order 1]
        self.mark(end)

    def loop(self, s, w):
        start, end = Label(), Label()
        self.mark(start)
        self.whole(s[1], w)
        self.distance(CJ, end)
        self.statement(s[2], w)
        self.distance(J, start)
        self.mark(end)

    def par(self, branches, w):
        if not branches:
            return
        end, user = Label(), Label()
        starts = [Label() for _ in branches]
        below = [sum(need(b) for b in branches[:i]) for i in range(len(branches))]
        self.put(AJW, -2)
        self.distance(LDC, end, user)
        self.op(LDPI)
        self.mark(user)
        self.put(STL, 0)
        self.put(LDC, len(branches))
        self.put(STL, 1)
        for start, d in list(zip(starts, below))[1:]:
            user = Label()
            self.distance(LDC, start, user)
            self.put(LDLP, -d)
            self.op(STARTP)
            self.mark(user)
        for branch, start, d in zip(branches, starts, below):
            self.mark(start)
            self.statement(branch, w - 2 - d)
            self.put(LDLP, d)
            self.op(ENDP)
        self.mark(end)
        self.put(AJW, 2)

    def alternative(self, guards, w):
        end, choice = Label(), Label()
        branches = [Label() for _ in guards]
        self.put(AJW, -1)
        self.op(TALT if timed(guards) else ALT)
        for g in guards:
            self.whole(g[1], w - 1, 5)
            if g[0] == "input":
                self.put(LDLP, g[2].word - (w - 1))
                self.op(REV)
            self.op({"input": ENBC, "skip": ENBS, "time": ENBT}[g[0]])
        self.op(TALTWT if timed(guards) else ALTWT)
        for g, branch in zip(guards, branches):
            self.whole(g[1], w - 1, 5)
            if g[0] == "input":
                self.put(LDLP, g[2].word - (w - 1))
                self.op(REV)
            self.distance(LDC, branch, choice)
            self.op({"input": DISC, "skip": DISS, "time": DIST}[g[0]])
        self.op(ALTEND)
        self.mark(choice)
        for g, branch in zip(guards, branches):
            self.mark(branch)
            self.put(AJW, 1)
            if g[0] == "input":
                self.input(g[2], g[3], w)
            self.statement(g[-1], w)
            self.distance(J, end)
        self.mark(end)

    def output(self, s, w):
        self.whole(s[2], w)
        self.put(LDLP, s[1].word - w)
        self.op(REV)
        self.put(AJW, -1)
        self.op(OUTWORD)
        self.put(AJW, 1)

    def statement(self, s, w):
        kind = s[0]
        if kind == "STOP":
            self.op(STOPP)
        elif kind == "assign":
            self.whole(s[2], w)
            self.put(STL, s[1].word - w)
        elif kind == "input":
            self.input(s[1], s[2], w)
        elif kind == "output":
            self.output(s, w)
        elif kind in ("VAR", "CHAN"):
            self.declare(s, w)
        elif kind == "SEQ":
            for p in s[1]:
                self.statement(p, w)
        elif kind == "PAR":
            self.par(s[1], w)
        elif kind == "IF":
            self.conditional(s[1], w)
        elif kind == "WHILE":
            self.loop(s, w)
        elif kind == "ALT":
            self.alternative(s[1], w)
        elif kind == "TIME":
            self.op(LDTIMER)
            self.put(STL, s[1].word - w)
        elif kind == "delay":
            self.whole(s[1], w)
            self.op(TIN)

    def code(self):
        place = 0
        for item in self.items:
            if isinstance(item, Label):
                item.place = place
            else:
                place += 4 if len(item) == 3 else prefixes(item[1]) + 1
        out = bytearray()
        for item in self.items:
            if isinstance(item, Label):
                continue
            if len(item) == 3:
                out += coded(item[0], item[1].place - item[2].place, 3)
            else:
                out += coded(item[0], item[1], prefixes(item[1]))
        return bytes(out)


def prefixes(v):
    """The fewest prefixes: one at least below 0."""
    count = 0 if v >= 0 else 1
    while not -16 <= v >> 4 * count < 16:
        count += 1
    return count


def coded(function, v, count):
    """Below 0 the first prefix is NFIX, all others are PFIX."""
    out = []
    for i in range(count, 0, -1):
        if i == count and v < 0:
            out.append(NFIX << 4 | ~(v >> 4 * i) & 15)
        else:
            out.append(PFIX << 4 | v >> 4 * i & 15)
    return bytes(out + [function << 4 | v & 15])


class Compiled:
    """A program's facts and code, or the refusals 1 to 7, 9 and 10."""

    def __init__(self, table):
        self.inputs, self.outputs, channels, body = read(table)
        self.base = need(body)
        self.words = self.base + self.inputs + self.outputs
        self.processes = processes(body)
        self.code = None
        for k, c in enumerate(channels):
            c.word = self.base + k
        generator = Generator()
        generator.statement(body, self.base)
        code = generator.code()
        self.fits = self.words <= 4096 and len(code) <= 16384
        if self.fits:
            self.code = code


# [The machine]

class Fault(Exception):
    def __init__(self, kind, number):
        Exception.__init__(self, kind, number)
        self.kind, self.number = kind, number


class Short(Exception):
    def __init__(self, size):
        Exception.__init__(self, size)
        self.size = size


class Backwards(Exception):
    """[02, order 4] Refusal 16: the last clock given is after this one."""


REGISTERS = "front back operand a b c workspace count place running queued".split()
TIMER = "clock given timer".split()  # [02, order 4] the last clock given, whether one was, and the front of the timer queue
FUNCTIONS = (J, LDLP, PFIX, LDC, NFIX, LDL, CJ, AJW, EQC, STL, OPR)


class Machine:
    def __init__(self):
        for name in REGISTERS:
            setattr(self, name, 0)
        self.clock, self.given, self.timer = 0, 0, NOT_PROCESS
        self.length = self.base = self.inputs = self.outputs = self.slice = 0
        self.held, self.fault = {}, None
        self.memory, self.writes = [], {}

    def words(self):
        return self.base + self.inputs + self.outputs

    # words, each tested when it is touched; writes count once nothing has failed
    def load(self, at):
        at %= WORD
        if at >= self.words():
            raise Fault("word", at)
        return self.writes[at] if at in self.writes else self.memory[at]

    def store(self, at, value):
        at %= WORD
        if at >= self.words():
            raise Fault("word", at)
        self.writes[at] = value

    def push(self, v):
        self.c, self.b, self.a = self.b, self.a, v % WORD

    def pop(self):
        self.a, self.b = self.b, self.c

    def binary(self, v):
        self.a, self.b = v % WORD, self.c

    # [Processes]
    def join(self, w):
        if self.queued:
            self.store(self.back - 2, w)
        else:
            self.front, self.queued = w, 1
        self.back = w

    def free(self):
        """The processor is free, and takes the front of the queue."""
        if not self.queued:
            self.running = 0
            return
        w = self.front
        if self.front == self.back:
            self.queued = 0
        else:
            self.front = self.load(self.front - 2)
        self.place = self.load(w - 1)
        self.workspace, self.running, self.operand, self.count = w, 1, 0, 0

    def wait(self, channel, message):
        self.store(channel, self.workspace)
        self.store(self.workspace - 1, self.place)
        self.store(self.workspace - 3, message)
        self.free()

    def offer_at(self, address):
        k = address - self.base
        return k if 0 <= k < min(self.inputs, 8) and self.held.get(k) is not None else None

    def input(self):
        if self.a != 4:
            raise Fault("count", self.a)
        k = self.offer_at(self.b)
        if k is not None:
            self.store(self.c, self.held[k])
            self.held[k] = None
            return
        p = self.load(self.b)
        if p == NOT_PROCESS:
            self.wait(self.b, self.c)
            return
        self.store(self.c, self.load(self.load(p - 3)))
        self.store(self.b, NOT_PROCESS)
        self.join(p)

    def outword(self):
        self.store(self.workspace, self.a)
        p = self.load(self.b)
        if p == NOT_PROCESS:
            self.wait(self.b, self.workspace)
            return
        state = self.load(p - 3)
        if state not in (ENABLING, WAITING, READY):
            self.store(state, self.a)
            self.store(self.b, NOT_PROCESS)
            self.join(p)
            return
        self.store(self.b, self.workspace)
        self.store(self.workspace - 1, self.place)
        self.store(self.workspace - 3, self.workspace)
        self.store(p - 3, READY)
        if state == WAITING:
            self.join(p)
        self.free()

    def endp(self):
        top = self.a
        left = self.load(top + 1)
        if left == 1:
            self.place, self.workspace = self.load(top), top
        else:
            self.store(top + 1, (left - 1) % WORD)
            self.free()

    # [ALT]
    def enbc(self):
        if self.a:
            if self.offer_at(self.b) is not None:
                self.store(self.workspace - 3, READY)
            else:
                p = self.load(self.b)
                if p == NOT_PROCESS:
                    self.store(self.b, self.workspace)
                elif p != self.workspace:
                    self.store(self.workspace - 3, READY)
        self.b = self.c

    def altwt(self):
        self.store(self.workspace, NONE_SELECTED)
        if self.load(self.workspace - 3) != READY:
            self.store(self.workspace - 3, WAITING)
            self.store(self.workspace - 1, self.place)
            self.free()

    def select(self):
        if self.load(self.workspace) == NONE_SELECTED:
            self.store(self.workspace, self.a)
            return 1
        return 0

    def disc(self):
        chosen = 0
        if self.b:
            p = self.load(self.c)
            if self.offer_at(self.c) is not None:
                chosen = self.select()
                self.store(self.c, NOT_PROCESS)
            elif p == self.workspace and p != NOT_PROCESS:
                self.store(self.c, NOT_PROCESS)
            elif p != NOT_PROCESS:
                chosen = self.select()
        self.a = chosen

    def diss(self):
        self.a = self.select() if self.b else 0
        self.b = self.c

    # [02, order 4] The timer queue goes from its front by the words W-4; W-5 is a time. A walk along it keeps whom it came to.
    def come(self, p, seen):
        """The walk comes to a process. Where it was there before, the queue comes back on itself: a fault, its front's."""
        if p in seen:
            raise Fault("word", seen[0])
        seen.append(p)

    def link(self, before, p):
        """The link of one process, or the front where there is none before."""
        if before is None:
            self.timer = p
        else:
            self.store(before - 4, p)

    def sleep(self, time):
        """Into the timer queue, behind all whose time is not after this one; the processor is free."""
        before, p, seen = None, self.timer, []
        while p != NOT_PROCESS:
            self.come(p, seen)
            if after(self.load(p - 5), time):
                break
            before, p = p, self.load(p - 4)
        self.store(self.workspace - 4, p)
        self.link(before, self.workspace)
        self.free()

    def leave(self, link):
        """Out of the timer queue; one that is not in it only gets its word."""
        before, p, seen = None, self.timer, []
        while p not in (self.workspace, NOT_PROCESS):
            self.come(p, seen)
            before, p = p, self.load(p - 4)
        if p == self.workspace:
            self.link(before, link)
        self.store(self.workspace - 4, TIME_NOT_SET)

    def wake(self):
        """Those whose time has come leave the timer queue and join the other one, but for ALTs that are there already."""
        p, seen = self.timer, []
        while p != NOT_PROCESS:
            self.come(p, seen)
            if not after(self.clock, self.load(p - 5)):
                break
            if self.words() > 4096:  # no start makes such a machine: the fault of a queue that comes back on itself
                raise Fault("word", p)
            link = self.load(p - 4)
            self.store(p - 4, TIME_SET)
            self.store(p - 5, self.clock)
            if self.load(p - 3) == WAITING:
                self.store(p - 3, READY)
                self.join(p)
            p = link
        self.timer = p

    def tin(self):
        if not after(self.clock, self.a):
            self.store(self.workspace - 1, self.place)
            self.store(self.workspace - 3, WAITING)
            self.store(self.workspace - 5, self.a)
            self.sleep(self.a)

    def talt(self):
        self.store(self.workspace - 3, ENABLING)
        self.store(self.workspace - 4, TIME_NOT_SET)

    def enbt(self):
        w = self.workspace
        if self.a:
            if self.load(w - 4) == TIME_NOT_SET:
                self.store(w - 4, TIME_SET)
                self.store(w - 5, self.b)
            elif after(self.load(w - 5), self.b):
                self.store(w - 5, self.b)
        self.b = self.c

    def taltwt(self):
        w = self.workspace
        self.store(w, NONE_SELECTED)
        if self.load(w - 3) == READY:
            self.store(w - 5, self.clock)
            return
        time = self.load(w - 5) if self.load(w - 4) == TIME_SET else None
        if time is not None and after(self.clock, time):
            self.store(w - 3, READY)
            self.store(w - 5, self.clock)
            return
        self.store(w - 3, WAITING)
        self.store(w - 1, self.place)
        if time is None:
            self.free()
        else:
            self.sleep(time)

    def dist(self):
        chosen = 0
        if self.b:
            link = self.load(self.workspace - 4)
            if link == TIME_SET:
                if after(self.load(self.workspace - 5), self.c):
                    chosen = self.select()
            elif link != TIME_NOT_SET:
                self.leave(link)
        self.a = chosen

    def operation(self, code):
        a, b = self.a, self.b
        if code == REV:
            self.a, self.b = b, a
        elif code in (SUM, DIFF, PROD):
            self.binary(b + a if code == SUM else b - a if code == DIFF else b * a)
        elif code == GT:
            self.binary(1 if signed(b) > signed(a) else 0)
        elif code in (AND, OR, XOR):
            self.binary(b & a if code == AND else b | a if code == OR else b ^ a)
        elif code == MINT:
            self.push(NOT_PROCESS)
        elif code == LDTIMER:
            self.push(self.clock)
        elif code == LDPI:
            self.a = (self.place + a) % WORD
        elif code == STARTP:
            self.store(a - 1, (self.place + b) % WORD)
            self.join(a)
        elif code == STOPP:
            self.store(self.workspace - 1, self.place)
            self.free()
        elif code == ALT:
            self.store(self.workspace - 3, ENABLING)
        elif code == ENBS:
            if a:
                self.store(self.workspace - 3, READY)
        elif code == ALTEND:
            self.place = (self.place + self.load(self.workspace)) % WORD
        else:
            others = {ENDP: self.endp, IN: self.input, OUTWORD: self.outword, ENBC: self.enbc, ALTWT: self.altwt, DISC: self.disc,
                      DISS: self.diss, TIN: self.tin, TALT: self.talt, ENBT: self.enbt, TALTWT: self.taltwt, DIST: self.dist}
            if code not in others:
                raise Fault("operation", code)
            others[code]()

    def jump(self, n):
        """The only place where a slice can end. Gives the places to be tested, in order."""
        target = (self.place + n) % WORD
        self.place = target
        if self.count < self.slice:
            return [target]
        self.store(self.workspace - 1, target)
        self.join(self.workspace)
        self.free()
        return [target, self.place]

    def function(self, f, n):
        w = self.workspace
        if f == J:
            return self.jump(n)
        if f == LDLP:
            self.push(w + n)
        elif f == LDC:
            self.push(n)
        elif f == LDL:
            self.push(self.load(w + n))
        elif f == STL:
            self.store(w + n, self.a)
            self.pop()
        elif f == CJ:
            if self.a == 0:
                self.place = (self.place + n) % WORD
            else:
                self.pop()
        elif f == AJW:
            self.workspace = (w + n) % WORD
        elif f == EQC:
            self.a = 1 if self.a == n else 0
        else:
            self.operation(n)
        return [self.place] if self.running else []

    def byte(self, byte):
        f = byte >> 4
        if f not in FUNCTIONS:
            raise Fault("function", f)
        self.place += 1
        self.count = min(self.count + 1, 65535)
        self.operand = (self.operand & ~15 | byte & 15) % WORD
        if f == PFIX:
            self.operand = self.operand << 4 & WORD - 1
        elif f == NFIX:
            self.operand = ~self.operand << 4 & WORD - 1
        else:
            n, self.operand = self.operand, 0
            for place in self.function(f, n):
                self.test_place(place)

    def test_place(self, place):
        if place > self.length:
            raise Fault("place", place)

    def attempt(self, act):
        """Does something, or, where it would fault, leaves all as before and keeps the fault."""
        before = [getattr(self, name) for name in REGISTERS + TIMER], dict(self.held)
        self.writes = {}
        try:
            answer = act()
        except Fault as fault:
            for name, value in zip(REGISTERS + TIMER, before[0]):
                setattr(self, name, value)
            self.held, self.fault = before[1], fault
            return None
        for at, value in self.writes.items():
            self.memory[at] = value
        return answer

    # the calls; memory and code are those lent
    def lent(self, memory, code=None):
        if code is not None and len(code) < self.length:
            raise Short(self.length)
        if len(memory) < self.words():
            raise Short(self.words())
        self.memory = memory

    def begin(self, clock):
        """[02, order 4] A run's beginning: the clock, waking, and a free processor takes the front of the queue."""
        self.clock, self.given = clock, 1
        self.wake()
        if not self.running:
            self.free()
            if self.running:
                self.test_place(self.place)

    def next_byte(self, code):
        self.test_place(self.place)  # of machines that no start makes; all others are where a place was tested
        self.byte(code[self.place])

    def run(self, code, memory, budget, clock):
        """How it stood, and the instructions."""
        if self.given and after(self.clock, clock):
            raise Backwards()
        self.lent(memory, code)
        if not self.fault:
            self.attempt(lambda: self.begin(clock))
        if self.fault:
            return "fault", 0
        done = 0
        while True:
            if self.running and self.place == self.length:
                return "ended", done
            if not self.running:
                return "waiting", done
            if done == budget:
                return "spent", done
            self.attempt(lambda: self.next_byte(code))
            if self.fault:
                return "fault", done
            done += 1

    def woken(self, p):
        """A process joins the queue; a free processor takes it."""
        self.join(p)
        if not self.running:
            self.free()
            self.test_place(self.place)

    def pass_in(self, k, value):
        channel = self.base + k
        p = self.load(channel)
        if p == NOT_PROCESS:
            self.held[k] = value
            return
        state = self.load(p - 3)
        if state in (ENABLING, WAITING, READY):
            self.store(p - 3, READY)
            self.held[k] = value
            if state == WAITING:
                self.woken(p)
            return
        self.store(state, value)
        self.store(channel, NOT_PROCESS)
        self.woken(p)

    def offer(self, memory, k, value):
        self.lent(memory)
        if self.fault:
            return "fault"
        if k >= min(self.inputs, 8):
            return "13"
        if self.held.get(k) is not None:
            return "14"
        self.attempt(lambda: self.pass_in(k, value))
        return "fault" if self.fault else "offered"

    def pass_out(self, k):
        channel = self.base + self.inputs + k
        p = self.load(channel)
        if p == NOT_PROCESS:
            return "none"
        value = self.load(self.load(p - 3))
        self.store(channel, NOT_PROCESS)
        self.woken(p)
        return value

    def take(self, memory, k):
        self.lent(memory)
        if self.fault:
            return "fault"
        if k >= self.outputs:
            return "13"
        answer = self.attempt(lambda: self.pass_out(k))
        return "fault" if self.fault else answer


def start(code, memory, w, inputs, outputs, q):
    """A machine, or one with nothing in it and the refusal."""
    if not 1 <= q <= 65535:
        return Machine(), "15", None
    if inputs > 8 or outputs > 8:
        return Machine(), "3", 0
    words = w + inputs + outputs
    if words > 4096 or len(code) > 16384:
        return Machine(), "10", 0
    if len(memory) < words:
        return Machine(), "11", words
    machine = Machine()
    machine.length, machine.base, machine.inputs, machine.outputs, machine.slice = len(code), w, inputs, outputs, q
    machine.workspace, machine.running = w, 1
    memory[:words] = [0] * w + [NOT_PROCESS] * (inputs + outputs)
    return machine, "started", None

"""Small designs that a seed determines, of the whole language, whose processes race.

A design has two to four processes over a few registers, and each has one of the roles below, so that each kind of race comes often: blocking
assignments of one register, lines of two processes, a stimulus at the edge of a clock, nonblocking assignments of one register, strobes beside
displays, delays of zero, values taken before a wait and assigned behind it, and now and then a loop without an end. Every always construct waits once in
its body at least.

A part of the designs are synchronous: a clock, processes that assign at its edge, and combinational ones that react to what these assign. Some of their
processes are then made a little otherwise, so that a race is near.

Register-transfer designs are made where they are asked for: registers that are assigned at an edge without blocking, combinational processes in an order
behind them, each of which waits for all that it reads, and a stimulus. One in five has one thing in it that is otherwise. Of combinational processes
some have their wait behind their statements, or between them.
"""
from ordering.tree import Module, Process

WIDTHS = (1, 1, 2, 3, 4, 6)
BINARY = ("||", "&&", "|", "^", "&", "==", "!=", "===", "!==", "<", "<=", ">", ">=", "<<", ">>", "+", "-", "+", "^", "&")
UNARY = ("!", "~", "~", "&", "|", "^")
# The time units of a delay.
DELAYS = (0, 1, 1, 2, 3)


class Generator:
    """Makes one design. `random` is a generator of the library `random`."""

    def __init__(self, random):
        self.random = random
        self.lines = 0

    def chance(self, part):
        return self.random.random() < part

    def pick(self, of):
        return self.random.choice(of)

    def module(self):
        return self.synchronous() if self.chance(0.4) else self.mixed()

    def mixed(self):
        self.tops = {"a": None, "b": None}
        for name in "cd"[: self.random.randint(0, 2)]:
            width = self.pick(WIDTHS)
            self.tops[name] = None if width == 1 and self.chance(0.5) else width - 1
        self.names = list(self.tops)
        roles = [self.stimulus, self.stimulus, self.clock, self.reacting, self.reacting, self.sampling, self.straight]
        processes = [self.pick((self.stimulus, self.straight))(), self.pick((self.sampling, self.reacting))()]
        processes += [self.pick(roles)() for _ in range(self.pick((0, 1, 1, 2)))]
        if len(processes) < 4 and self.chance(0.7):
            processes.append(self.last())
        if self.chance(0.12):
            processes.append(self.endless())
        self.random.shuffle(processes)
        return Module("t", tuple(self.tops.items()), tuple(processes))

    # Roles of processes

    def endless(self):
        """Goes round at one time for ever, where a register has a value."""
        name = self.pick(self.names)
        digits = "".join(self.pick("01") for _ in range((self.tops[name] or 0) + 1))
        loop = ("while", ("literal", "1"), (("delay", 0, ("empty",)),))
        once = ("if", ("binary", "===", ("name", name), ("literal", digits)), (loop,), None)
        return Process(False, ("delay", self.pick((0, 1, 2)), once) if self.chance(0.5) else ("block", (once,)))

    def stimulus(self):
        """Gives values to registers, with delays between them."""
        statements = [("assign", name, None, self.constant()) for name in self.names if self.chance(0.6)]
        for _ in range(self.random.randint(0, 2)):
            statements.append(("delay", self.pick(DELAYS), self.assignment(self.constant)))
        return Process(False, ("block", tuple(statements)))

    def clock(self):
        """Turns a register again and again, from 0 where it isn't known."""
        name = self.pick("ab")
        turned = ("assign", name, None, ("binary", "===", ("name", name), ("literal", "0")))
        return Process(True, ("delay", self.pick((1, 2, 2, 3)), turned))

    def reacting(self):
        """Waits for a change again and again."""
        return Process(True, ("await", self.triggers(), self.body(2)))

    def sampling(self):
        """Prints what it sees, at an edge or at a time."""
        shown = self.printing()
        if self.chance(0.6):
            return Process(True, ("await", self.triggers(), shown))
        return Process(False, ("delay", self.pick(DELAYS), shown))

    def last(self):
        """Prints all registers at one time."""
        text = " ".join(["end", *("%b" for _ in self.names)])
        shown = (self.pick(("display", "strobe")), text, tuple(("name", it) for it in self.names))
        return Process(False, ("delay", self.pick((0, 1, 2, 3, 4)), shown))

    def straight(self):
        """Statements of every kind, once."""
        return Process(False, self.body(3))

    # Synchronous designs

    def synchronous(self):
        """A clock and what follows it."""
        width = self.pick((1, 2, 3))
        self.tops = {"a": None, **{name: None if width == 1 else width - 1 for name in "bcde"[: self.random.randint(2, 4)]}}
        self.names = list(self.tops)
        values = self.names[1:]
        assigned = values[: self.random.randint(1, 2)]
        known = tuple(("assign", name, None, self.constant()) for name in values if self.chance(0.8))
        processes = [Process(False, ("block", (("assign", "a", None, ("literal", "0")), *known)))]
        if self.chance(0.3):
            processes[0] = Process(False, ("delay", 1, processes[0].body))
        processes.append(Process(True, ("delay", self.pick((1, 2, 2)), ("assign", "a", None, ("unary", "~", ("name", "a"))))))
        processes += [self.clocked(name, values) for name in assigned]
        processes += [self.combinational(name, values) for name in values[len(assigned) :]]
        if self.chance(0.7):
            processes.append(Process(True, ("await", ((self.pick(("negedge", "negedge", "posedge", "")), "a"),), self.printing())))
        if self.chance(0.3):
            processes.append(self.stimulus())
        self.random.shuffle(processes)
        return Module("t", tuple(self.tops.items()), tuple(processes))

    def clocked(self, name, values):
        """Assigns a register at the edge of the clock."""
        value = ("binary", self.pick(("+", "^", "-")), ("name", name), ("name", self.pick(values)))
        change = "negedge" if self.chance(0.1) else "posedge"
        assigned = ("assign" if self.chance(0.15) else "later", name, self.pick((0, 1)) if self.chance(0.15) else None, value)
        if self.chance(0.2):
            assigned = ("if", ("select", "b", 0) if self.tops["b"] else ("name", "b"), (assigned,), None)
        if self.chance(0.15):
            assigned = ("block", (assigned, self.printing()))
        return Process(True, ("await", ((change, "a"),), assigned))

    def combinational(self, name, values):
        """Assigns a register what some others make, whenever they change."""
        read = [self.pick(values) for _ in range(self.random.randint(1, 2))] if self.chance(0.2) else [it for it in values if it < name][-2:]
        value = ("name", read[0]) if len(read) == 1 else ("binary", self.pick(("^", "+", "&", "|")), ("name", read[0]), ("name", read[1]))
        waited = [it for it in read if not self.chance(0.1)] or read
        kind = "later" if self.chance(0.1) else "assign"
        assigned = (kind, self.pick(values) if self.chance(0.1) else name, 0 if self.chance(0.05) else None, value)
        if self.chance(0.2):
            other = None if self.chance(0.3) else (("assign", name, None, ("unary", "~", value)),)
            assigned = ("if", ("name", self.pick(read)), (assigned,), other)
        if self.chance(0.1):
            assigned = ("block", (assigned, ("assign", name, None, ("unary", "~", ("name", name)))))
        return self.waiting(tuple(("posedge" if self.chance(0.05) else "", it) for it in waited), assigned)

    def waiting(self, triggers, statement):
        """A process that runs statements at each of these changes: they stand behind its wait, before it, or on both sides."""
        draw = self.random.random()
        if draw < 0.6:
            return Process(True, ("await", triggers, statement))
        parts = statement[1] if statement[0] == "block" else (statement,)
        split = len(parts) if draw < 0.85 else self.random.randrange(len(parts) + 1)
        behind = ("block", parts[split:]) if parts[split:] else ("empty",)
        return Process(True, ("block", (*parts[:split], ("await", triggers, behind))))

    # Register-transfer designs

    def register_transfer(self):
        """Registers at the edge of a clock, and logic between them."""
        width = self.pick((1, 1, 2, 3))
        registers, logic = "bcd"[: self.random.randint(1, 3)], "efgh"[: self.random.randint(1, 4)]
        self.tops = {"a": None, **{name: None if width == 1 else width - 1 for name in registers + logic}}
        self.names = list(self.tops)
        known = tuple(("later" if self.chance(0.5) else "assign", name, None, self.constant()) for name in registers if self.chance(0.9))
        processes = [Process(False, ("block", (("assign", "a", None, ("literal", "0")), *known)))]
        processes.append(Process(True, ("delay", 1, ("assign", "a", None, ("unary", "~", ("name", "a"))))))
        processes += [self.register(name, registers + logic) for name in registers]
        processes += [self.logic(name, registers + logic[:at]) for at, name in enumerate(logic)]
        if self.chance(0.6):
            shown = (self.pick(("display", "strobe")), " ".join(["n", *("%b" for _ in self.names)]), tuple(("name", it) for it in self.names))
            processes.append(Process(True, ("await", (("negedge", "a"),), shown)))
        if self.chance(0.5):
            processes.append(self.input(registers[0]))
        if self.chance(0.2):
            at = self.random.randrange(len(processes))
            processes[at] = self.pick((self.reacting, self.stimulus, lambda: self.logic(self.pick(logic), registers), lambda: self.clocked(registers[0], logic)))()
        self.random.shuffle(processes)
        return Module("t", tuple(self.tops.items()), tuple(processes))

    def register(self, name, read):
        """A register that takes a value at the edge of the clock, some on a condition."""
        value = ("binary", self.pick(("+", "^", "-")), ("name", self.pick(read)), ("name", self.pick(read)))
        assigned = ("later", name, None, value)
        if self.chance(0.3):
            other = (("later", name, None, self.constant()),) if self.chance(0.5) else None
            assigned = ("if", ("name", self.pick(read)), (assigned,), other)
        if self.chance(0.2):
            assigned = ("block", (assigned, self.printing()))
        return Process(True, ("await", (("posedge", "a"),), assigned))

    def logic(self, name, read):
        """A combinational process, which waits for each register that it reads before it writes it."""
        used = sorted({self.pick(read) for _ in range(self.random.randint(1, 3))})
        operand = lambda: ("name", self.pick(used))
        assigned = ("assign", name, None, ("binary", self.pick(("^", "+", "&", "|")), operand(), operand()))
        if self.chance(0.4):
            assigned = ("if", operand(), (assigned,), (("assign", name, None, ("unary", "~", operand())),))
        if self.chance(0.3):
            assigned = ("block", (assigned, ("assign", name, None, ("binary", "^", ("name", name), operand()))))
        return self.waiting(tuple(("", it) for it in used), assigned)

    def input(self, name):
        """A stimulus without blocking, at the times of edges and between them."""
        given = tuple(("delay", self.pick((1, 1, 2)), ("later", name, None, self.constant())) for _ in range(self.random.randint(1, 3)))
        return Process(False, ("block", given))

    # Statements

    def body(self, most):
        statements = tuple(self.statement(1) for _ in range(self.random.randint(1, most)))
        return statements[0] if len(statements) == 1 else ("block", statements)

    def statement(self, depth):
        draw = self.random.random()
        if draw < 0.42:
            return self.assignment(lambda: self.expression(2))
        if draw < 0.58:
            return self.printing()
        if draw < 0.61:
            return ("empty",)
        if draw < 0.62:
            return self.pick((("finish",), ("while", ("literal", "1"), (("empty",),))))
        if depth == 0:
            return self.assignment(self.constant)
        if draw < 0.75:
            return ("delay", self.pick(DELAYS), self.statement(depth - 1))
        if draw < 0.82:
            return ("await", self.triggers(), self.statement(depth - 1))
        if draw < 0.93:
            other = (self.statement(depth - 1),) if self.chance(0.6) else None
            return ("if", self.expression(2), (self.statement(depth - 1),), other)
        if draw < 0.98:
            return self.loop(depth)
        return ("block", (self.statement(depth - 1), ("finish",)))

    def loop(self, depth):
        """Counts a register up to a bound; a value that isn't known ends it."""
        name = self.pick(self.names)
        bound = ("literal", format(self.random.randint(1, 2), "02b"))
        counted = ("assign", name, self.pick((None, None, 0, 1)), ("binary", "+", ("name", name), ("literal", "01")))
        return ("block", (("assign", name, None, self.constant()), ("while", ("binary", "<", ("name", name), bound), (self.statement(depth - 1), counted))))

    def assignment(self, value):
        kind = self.pick(("assign", "assign", "later"))
        delay = None if self.chance(0.7) else self.pick(DELAYS)
        return (kind, self.pick(self.names), delay, value())

    def printing(self):
        self.lines += 1
        arguments = tuple(self.expression(1) if self.chance(0.3) else ("name", self.pick(self.names)) for _ in range(self.random.randint(0, 2)))
        text = " ".join([f"p{self.lines}", *(self.pick(("%b", "%b", "%h", "%0d")) for _ in arguments)])
        return (self.pick(("display", "display", "strobe")), text + self.pick(("", "", "", "%%", "\t\\", '\n"')), arguments)

    def triggers(self):
        return tuple((self.pick(("", "posedge", "negedge")), self.pick(self.names)) for _ in range(self.pick((1, 1, 2))))

    # Expressions

    def constant(self):
        width = self.pick(WIDTHS)
        return ("literal", "".join(self.pick("00001111xz" if self.chance(0.3) else "01") for _ in range(width)))

    def leaf(self):
        draw = self.random.random()
        ranged = [name for name in self.names if self.tops[name] is not None]
        if draw < 0.15 and ranged:
            name = self.pick(ranged)
            return ("select", name, self.random.randint(0, self.tops[name]))
        return ("name", self.pick(self.names)) if draw < 0.7 else self.constant()

    def expression(self, depth):
        draw = self.random.random()
        if depth == 0 or draw < 0.25:
            return self.leaf()
        part = lambda: self.expression(depth - 1)
        if draw < 0.45:
            return ("unary", self.pick(UNARY), part())
        if draw < 0.85:
            return ("binary", self.pick(BINARY), part(), part())
        if draw < 0.93:
            return ("conditional", part(), part(), part())
        return ("concat", tuple(part() for _ in range(self.random.randint(1, 3))))

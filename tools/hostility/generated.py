"""Designs that a seed determines, of the whole language, whose processes race."""

WIDTHS = (1, 1, 2, 5, 8, 31, 32, 33, 63, 64, 65, 127, 128)
BINARY = ("||", "&&", "|", "^", "&", "==", "!=", "===", "!==", "<", "<=", ">", ">=", "<<", ">>", "+", "-")
UNARY = ("!", "~", "&", "|", "^")


class Writer:
    """Writes one design. `random` is a generator of the library `random`."""

    def __init__(self, random):
        self.random = random
        self.widths = {}

    def chance(self, part):
        return self.random.random() < part

    def pick(self, of):
        return self.random.choice(of)

    def literal(self, room):
        width = self.random.randint(1, min(room, self.pick((1, 4, 8, 64, 128))))
        kind = self.pick("bbhd")
        if kind == "d":
            return f"{width}'d{self.random.randrange(min(1 << width, 1 << self.pick((2, 8, 64, 128))))}"
        if kind == "h":
            digits = (width + 3) // 4
            top = self.random.randrange(1 << (width - 4 * (digits - 1)))
            rest = "".join(self.pick("0123456789abcdef" + "xz" * self.chance(0.3)) for _ in range(digits - 1))
            return f"{width}'h{top:x}{rest}"
        return f"{width}'b" + "".join(self.pick("0011" + "xz" * self.chance(0.2)) for _ in range(width))

    def leaf(self, room):
        """A name, a select or a literal of at most so many digits."""
        fitting = [name for name, width in self.widths.items() if width <= room]
        ranged = [name for name in self.widths if self.is_ranged[name]]
        draw = self.random.random()
        if draw < 0.55 and fitting:
            return self.pick(fitting)
        if draw < 0.7 and ranged:
            name = self.pick(ranged)
            return f"{name}[{self.random.randrange(self.widths[name])}]"
        return self.literal(room)

    def expression(self, depth, room=128):
        if depth == 0 or self.chance(0.2):
            return self.leaf(room)
        part = lambda most=room: self.expression(depth - 1, most)
        draw = self.random.random()
        if draw < 0.15:
            return f"{self.pick(UNARY)}({part()})"
        if draw < 0.25:
            return f"({part(128)} ? {part()} : {part()})"
        if draw < 0.33 and room >= 4:
            parts = self.random.randint(1, min(4, room))
            return "{" + ", ".join(self.expression(depth - 1, room // parts) for _ in range(parts)) + "}"
        return f"({part()} {self.pick(BINARY)} {part()})"

    def register(self):
        return self.pick(list(self.widths))

    def event(self):
        return self.pick(("", "", "posedge ", "negedge ")) + self.register()

    def delay(self):
        return self.pick(("0", "0", "1", "1", "1", "2", "3", "7", "100", "4294967295" if self.chance(0.02) else "2"))

    def shown(self):
        """A format with its arguments."""
        parts = self.random.randint(0, 3)
        text = "".join(self.pick(("", "s ", "%%", "\\n", "\\\"", "\\t-", "\\\\")) + self.pick(("%b", "%h", "%0d")) for _ in range(parts))
        arguments = "".join(f", {self.expression(self.random.randint(0, 3))}" for _ in range(parts))
        return f'("{text}{self.pick(("", ".", "100%%"))}"{arguments});'

    def simple(self):
        draw = self.random.random()
        if draw < 0.05:
            return ";"
        if draw < 0.4:
            wait = f"#{self.delay()} " if self.chance(0.15) else ""
            return f"{self.register()} = {wait}{self.expression(self.random.randint(0, 3))};"
        if draw < 0.7:
            wait = f"#{self.delay()} " if self.chance(0.4) else ""
            return f"{self.register()} <= {wait}{self.expression(self.random.randint(0, 3))};"
        if draw < 0.9:
            return f"$display{self.shown()}"
        if draw < 0.99:
            return f"$strobe{self.shown()}"
        return "$finish;"

    def block(self, depth, most=4):
        return "begin " + " ".join(self.statement(depth) for _ in range(self.random.randint(0, most))) + " end"

    def loop(self, depth):
        """A loop that ends soon where nobody else writes what it counts; now and then one of which nothing is known."""
        if self.chance(0.1):
            return f"while ({self.expression(2)}) {self.block(depth)}"
        count = self.register()
        body = f"{self.statement(depth)} {count} = {count} + 1'b1;"
        return f"begin {count} = 1'b0; while ({count} < 3'd{self.random.randint(0, 5)}) begin {body} end end"

    def statement(self, depth):
        if depth == 0 or self.chance(0.45):
            return self.simple()
        draw = self.random.random()
        if draw < 0.2:
            return f"#{self.delay()} {self.statement(depth - 1)}"
        if draw < 0.35:
            events = self.pick((" or ", ", ")).join(self.event() for _ in range(self.random.randint(1, 3)))
            return f"@({events}) {self.statement(depth - 1)}"
        if draw < 0.6:
            other = f" else {self.block(depth - 1)}" if self.chance(0.5) else ""
            return f"if ({self.expression(2)}) {self.block(depth - 1)}{other}"
        if draw < 0.8:
            return self.loop(depth - 1)
        return self.block(depth - 1)

    def process(self):
        """An initial process, or one that begins again, which mostly waits."""
        depth = self.random.randint(0, 4)
        if self.chance(0.6):
            return f"initial {self.block(depth, 6)}"
        wait = self.pick((f"#{self.delay()} ", f"@({self.event()}) ", f"@({self.event()} or {self.event()}) ", "" if self.chance(0.1) else "#1 "))
        return f"always {wait}{self.block(depth)}"

    def module(self):
        """The text of a design."""
        count = self.random.randint(1, self.pick((2, 4, 12)))
        self.widths = {f"r{number}": self.pick(WIDTHS) for number in range(count)}
        self.is_ranged = {name: width > 1 or self.chance(0.3) for name, width in self.widths.items()}
        items = [f"reg {f'[{width - 1}:0] ' if self.is_ranged[name] else ''}{name};" for name, width in self.widths.items()]
        items += [self.process() for _ in range(self.random.randint(1, self.pick((2, 4, 8, 20))))]
        if self.chance(0.3):
            self.random.shuffle(items)
        return ("module t; " + "\n".join(items) + "\nendmodule\n").encode()

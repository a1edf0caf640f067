"""From the text of a module to its tree: read anew from docs/formats.md, Tokens and Grammar. Of a text with a fault it says only that it has one."""
import re

from ordering.tree import LEVELS, UNARY, Module, Process

RESERVED = set("module endmodule reg initial always begin end if else while posedge negedge or".split())
SPACE = re.compile(r"(?:[ \t\n\r]|//[^\n]*(?:\n|\Z)|/\*.*?\*/)+", re.DOTALL)
TOKEN = re.compile(
    r"(?P<name>[A-Za-z_][A-Za-z0-9_$]*)"
    r"|(?P<system>\$[A-Za-z_][A-Za-z0-9_$]*)"
    r"|(?P<sized>[0-9]+'[A-Za-z0-9_$?]*)"
    r"|(?P<plain>[0-9]+)"
    r'|(?P<string>"(?:[ !#-\[\]-~]|\\[nt\\"])*")'
    r"|(?P<mark>===|!==|<<|>>|<=|>=|==|!=|&&|\|\||[!~&|^+\-<>?:=#@()\[\]{},;])"
)
ESCAPES = {"n": "\n", "t": "\t", "\\": "\\", '"': '"'}


class Fault(Exception):
    """The text is no module."""


def literal_digits(text):
    """The digits of a sized literal."""
    size, rest = text.split("'")
    size, base, digits = int(size), rest[:1], rest[1:]
    if not (1 <= size <= 128 and digits):
        raise Fault(f"literal {text}")
    if base == "d" and digits.isdecimal():
        bits = format(int(digits), "b")
    elif base == "b" and set(digits) <= set("01xz"):
        bits = digits
    elif base == "h" and set(digits) <= set("0123456789abcdefxz"):
        bits = "".join(4 * it if it in "xz" else format(int(it, 16), "04b") for it in digits)
    else:
        raise Fault(f"literal {text}")
    if len(bits) > size and set(bits[: len(bits) - size]) != {"0"}:
        raise Fault(f"literal {text}")
    return bits[-size:].rjust(size, bits[0] if bits[0] in "xz" else "0")


def cut(text):
    """The tokens, as pairs of a kind and what the token is; a reserved word and a mark are their own kind."""
    at, tokens = 0, []
    while True:
        space = SPACE.match(text, at)
        at = space.end() if space else at
        if at == len(text):
            return tokens + [("end of text", "")]
        token = TOKEN.match(text, at)
        if not token:
            raise Fault(f"byte {at}")
        at, kind, word = token.end(), token.lastgroup, token.group()
        tokens.append((word if kind == "mark" or word in RESERVED else kind, word))


class Parser:
    """Reads tokens from left to right."""

    def __init__(self, text):
        self.tokens, self.at = cut(text), 0

    def sees(self, *kinds):
        return self.tokens[self.at][0] in kinds

    def take(self, *kinds):
        kind, word = self.tokens[self.at]
        if kind not in kinds:
            raise Fault(f"token {self.at + 1}: {word!r}, not {' or '.join(kinds)}")
        self.at += 1
        return word

    def takes(self, *kinds):
        """Whether such a token comes, which is then taken."""
        there = self.sees(*kinds)
        self.at += there
        return there

    def listed(self, part, *between):
        parts = [part()]
        while self.takes(*between):
            parts.append(part())
        return tuple(parts)

    def name(self):
        return self.take("name")

    def module(self):
        self.take("module")
        name, registers, processes = self.name(), [], []
        self.take(";")
        while not self.takes("endmodule"):
            if self.takes("reg"):
                registers += self.declaration()
            else:
                repeats = self.take("initial", "always") == "always"
                processes.append(Process(repeats, self.statement()))
        self.take("end of text")
        return Module(name, tuple(registers), tuple(processes))

    def declaration(self):
        top = None
        if self.takes("["):
            top = int(self.take("plain"))
            self.take(":")
            if int(self.take("plain")) or top > 127:
                raise Fault("a range")
            self.take("]")
        names = self.listed(self.name, ",")
        self.take(";")
        return [(name, top) for name in names]

    def block(self):
        self.take("begin")
        statements = []
        while not self.takes("end"):
            statements.append(self.statement())
        return tuple(statements)

    def condition(self):
        self.take("(")
        e = self.expression()
        self.take(")")
        return e

    def statement(self):
        if self.takes(";"):
            return ("empty",)
        if self.sees("begin"):
            return ("block", self.block())
        if self.sees("name"):
            return self.assignment()
        if self.takes("#"):
            return ("delay", int(self.take("plain")), self.statement())
        if self.takes("@"):
            self.take("(")
            triggers = self.listed(self.trigger, "or", ",")
            self.take(")")
            return ("await", triggers, self.statement())
        if self.takes("if"):
            condition, body = self.condition(), self.block()
            return ("if", condition, body, self.block() if self.takes("else") else None)
        if self.takes("while"):
            return ("while", self.condition(), self.block())
        return self.task()

    def assignment(self):
        name = self.name()
        kind = "assign" if self.take("=", "<=") == "=" else "later"
        delay = int(self.take("plain")) if self.takes("#") else None
        value = self.expression()
        self.take(";")
        return (kind, name, delay, value)

    def trigger(self):
        change = self.take("posedge", "negedge") if self.sees("posedge", "negedge") else ""
        return (change, self.name())

    def task(self):
        task = self.take("system")
        if task == "$finish":
            self.take(";")
            return ("finish",)
        if task not in ("$display", "$strobe"):
            raise Fault(task)
        self.take("(")
        text = re.sub(r"\\(.)", lambda it: ESCAPES[it[1]], self.take("string")[1:-1])
        arguments = self.listed(self.expression, ",") if self.takes(",") else ()
        self.take(")")
        self.take(";")
        return (task[1:], text, arguments)

    def expression(self):
        condition = self.binary(0)
        if not self.takes("?"):
            return condition
        first = self.expression()
        self.take(":")
        return ("conditional", condition, first, self.expression())

    def binary(self, level):
        if level == len(LEVELS):
            return ("unary", self.take(*UNARY), self.primary()) if self.sees(*UNARY) else self.primary()
        left = self.binary(level + 1)
        while self.sees(*LEVELS[level]):
            operator = self.take(*LEVELS[level])
            left = ("binary", operator, left, self.binary(level + 1))
        return left

    def primary(self):
        if self.takes("("):
            e = self.expression()
            self.take(")")
            return e
        if self.takes("{"):
            parts = self.listed(self.expression, ",")
            self.take("}")
            return ("concat", parts)
        if self.sees("sized"):
            return ("literal", literal_digits(self.take("sized")))
        name = self.name()
        if not self.takes("["):
            return ("name", name)
        index = int(self.take("plain"))
        self.take("]")
        return ("select", name, index)


def parsed(text):
    """The tree of a module's text."""
    return Parser(text).module()

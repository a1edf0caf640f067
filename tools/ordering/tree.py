"""Modules as trees, and their text (docs/formats.md, Grammar).

An expression is a tuple whose first part is its kind:

  ("name", name)  ("select", name, index)  ("literal", digits)  ("concat", parts)
  ("unary", operator, operand)  ("binary", operator, left, right)  ("conditional", condition, first, second)

and so is a statement; a delay is None where none is written, `other` where there is no else:

  ("empty",)  ("block", statements)  ("assign", name, delay, value)  ("later", name, delay, value)  ("delay", delay, statement)
  ("await", triggers, statement)  ("if", condition, statements, other)  ("while", condition, statements)
  ("display", format, arguments)  ("strobe", format, arguments)  ("finish",)

Literals are their digits, the most significant first. A trigger is a change ("", "posedge" or "negedge") and a name. All lists are tuples.
"""
from collections import namedtuple

# `registers` are pairs of a name and the highest index, which is None where no range is written.
Module = namedtuple("Module", "name registers processes")
Process = namedtuple("Process", "repeats body")

# The binary operators, those that bind most loosely first.
LEVELS = (("||",), ("&&",), ("|",), ("^",), ("&",), ("==", "!=", "===", "!=="), ("<", "<=", ">", ">="), ("<<", ">>"), ("+", "-"))
LEVEL_OF = {op: level for level, ops in enumerate(LEVELS) for op in ops}
UNARY = ("!", "~", "&", "|", "^")
UNARY_LEVEL = len(LEVELS)
PRIMARY_LEVEL = UNARY_LEVEL + 1


def literal_text(digits):
    """The literal of these digits, in decimal or hexadecimal where it has no x or z and a size that makes that short."""
    if set(digits) <= {"0", "1"} and len(digits) > 3:
        return f"{len(digits)}'d{int(digits, 2)}" if len(digits) % 2 else f"{len(digits)}'h{int(digits, 2):x}"
    return f"{len(digits)}'b{digits}"


def expression_text(e, level=-1):
    """An expression that stands where one of this level may, in parentheses where it binds more loosely."""
    own, text = expression_parts(e)
    return f"({text})" if own < level else text


def expression_parts(e):
    kind = e[0]
    if kind == "name":
        return PRIMARY_LEVEL, e[1]
    if kind == "select":
        return PRIMARY_LEVEL, f"{e[1]}[{e[2]}]"
    if kind == "literal":
        return PRIMARY_LEVEL, literal_text(e[1])
    if kind == "concat":
        return PRIMARY_LEVEL, "{" + ", ".join(expression_text(it) for it in e[1]) + "}"
    if kind == "unary":
        return UNARY_LEVEL, e[1] + expression_text(e[2], PRIMARY_LEVEL)
    if kind == "binary":
        level = LEVEL_OF[e[1]]
        return level, f"{expression_text(e[2], level)} {e[1]} {expression_text(e[3], level + 1)}"
    return -1, f"{expression_text(e[1], 0)} ? {expression_text(e[2])} : {expression_text(e[3])}"


def string_text(text):
    for plain, escape in (("\\", "\\\\"), ("\n", "\\n"), ("\t", "\\t"), ('"', '\\"')):
        text = text.replace(plain, escape)
    return f'"{text}"'


def block_text(statements):
    return " ".join(["begin", *(statement_text(it) for it in statements), "end"])


def delay_text(delay):
    return "" if delay is None else f"#{delay} "


def statement_text(s):
    kind = s[0]
    if kind == "empty":
        return ";"
    if kind == "block":
        return block_text(s[1])
    if kind in ("assign", "later"):
        return f"{s[1]} {'=' if kind == 'assign' else '<='} {delay_text(s[2])}{expression_text(s[3])};"
    if kind == "delay":
        return f"#{s[1]} {statement_text(s[2])}"
    if kind == "await":
        return f"@({' or '.join(f'{change} {name}'.strip() for change, name in s[1])}) {statement_text(s[2])}"
    if kind == "if":
        other = "" if s[3] is None else f" else {block_text(s[3])}"
        return f"if ({expression_text(s[1])}) {block_text(s[2])}{other}"
    if kind == "while":
        return f"while ({expression_text(s[1])}) {block_text(s[2])}"
    if kind in ("display", "strobe"):
        return f"${kind}({', '.join([string_text(s[1]), *(expression_text(it) for it in s[2])])});"
    return "$finish;"


def module_text(module):
    """The module's text, each declaration and each process in a line."""
    lines = [f"module {module.name};"]
    lines += [f"  reg {'' if top is None else f'[{top}:0] '}{name};" for name, top in module.registers]
    lines += [f"  {'always' if it.repeats else 'initial'} {statement_text(it.body)}" for it in module.processes]
    return "\n".join([*lines, "endmodule"]) + "\n"

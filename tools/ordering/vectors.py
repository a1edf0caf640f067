"""Vectors of the digits 0, 1, x and z, their operators and how they are shown: read anew from docs/formats.md (4.1, 5.1, 17.1).

A vector is a text of its digits, the most significant first, as %b shows it.
"""


def is_known(v):
    return "x" not in v and "z" not in v


def number(v):
    return int(v, 2)


def vector(width, n):
    """A whole number modulo 2 to the width."""
    return format(n % (1 << width), f"0{width}b")


def resize(width, v):
    """Extended with 0, or cut."""
    return v[-width:] if len(v) > width else v.rjust(width, "0")


def complement(v):
    return "".join({"0": "1", "1": "0"}.get(d, "x") for d in v)


def digit_and(a, b):
    return "0" if "0" in (a, b) else "1" if a == b == "1" else "x"


def digit_or(a, b):
    return "1" if "1" in (a, b) else "0" if a == b == "0" else "x"


def digit_xor(a, b):
    return "x" if a in "xz" or b in "xz" else "1" if a != b else "0"


DIGITWISE = {"&": digit_and, "|": digit_or, "^": digit_xor}


def reduced(op, v):
    """The digit operator between all digits; one x or z alone gives x."""
    result = {"&": "1", "|": "0", "^": "0"}[op]
    for d in v:
        result = DIGITWISE[op](result, d)
    return result


def truth(v):
    """1, 0 or x: whether a condition is true, false or unknown."""
    return "1" if "1" in v else "x" if "x" in v or "z" in v else "0"


def equal(v, w):
    """0 where two known digits differ, else x where a digit is unknown, else 1."""
    pairs = list(zip(v, w))
    if any(a in "01" and b in "01" and a != b for a, b in pairs):
        return "0"
    return "1" if all(a in "01" and b in "01" for a, b in pairs) else "x"


def compared(op, v, w):
    if op in ("===", "!=="):
        return "01"[(v == w) == (op == "===")]
    if op == "==":
        return equal(v, w)
    if op == "!=":
        return complement(equal(v, w))
    if not (is_known(v) and is_known(w)):
        return "x"
    m, n = number(v), number(w)
    return "01"[{"<": m < n, "<=": m <= n, ">": m > n, ">=": m >= n}[op]]


def summed(op, v, w):
    if not (is_known(v) and is_known(w)):
        return "x" * len(v)
    return vector(len(v), number(v) + number(w) if op == "+" else number(v) - number(w))


def shifted(op, v, w):
    """Filled with 0; all x where the right side is unknown."""
    if not is_known(w):
        return "x" * len(v)
    by = min(number(w), len(v))
    return v[by:] + "0" * by if op == "<<" else "0" * by + v[: len(v) - by]


def merged(v, w):
    """The arms of an unknown condition, digit by digit."""
    return "".join(a if a == b and a in "01" else "x" for a, b in zip(v, w))


def edge(old, new):
    """None where nothing changed; else pos, neg or other, by the least significant digits (9.7.2)."""
    if old == new:
        return None
    a, b = old[-1], new[-1]
    if a == b:
        return "other"
    if a == "0" or b == "1":
        return "pos"
    if a == "1" or b == "0":
        return "neg"
    return "other"


def letter(v):
    """One letter for digits that aren't all known."""
    if set(v) == {"x"}:
        return "x"
    if set(v) == {"z"}:
        return "z"
    return "X" if "x" in v else "Z"


def shown(conversion, v):
    """The text of a vector by %b, %h or %0d."""
    if conversion == "b":
        return v
    if conversion == "d":
        return str(number(v)) if is_known(v) else letter(v)
    top = len(v) % 4
    groups = ([v[:top]] if top else []) + [v[i : i + 4] for i in range(top, len(v), 4)]
    return "".join(f"{number(it):x}" if is_known(it) else letter(it) for it in groups)

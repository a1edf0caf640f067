"""whole: whole designs, cut at each length and with bytes changed, and great ones: includes and macros without end, generate loops, parameters of a
million, names of 10,000 characters, deep nesting, a megabyte of each form.

Each answer is a run, or faults with their places, within a minute and in 400 MB."""
import glob
import os
import random
import re
from collections import Counter

from hostility.answers import TOP, called, shown

ROWS = f"{TOP}/crates/shown/data/rows/whole"
SECONDS = 60
ROOM = 400_000_000
SIGNS = b"();,:.#@=<>{}[]+-*/&|^~!?'\"`\\ \n01xzab$_"
# A fault: where it stands, what it is, its line, and a caret; or a fault without a place.
FAULT = rb"(?:[^\n]*:\d+:\d+: [^\n]+\n(?:[^\n]*\n[ \t]*\^\n)?)"
UNPLACED = rb"(?:the files have no module|no module [^\n]*|no top module [^\n]*|what -P [^\n]*|the [^\n]*|a delay over 4294967295)\n"
TOLD = re.compile(rb"(?:" + FAULT + rb")+|" + UNPLACED)


def times(before, part, after, count):
    return before + part * count + after


def macros(count):
    """Macros each of which uses the one before twice."""
    lines = [b"`define A0 ; ; ; ;\n", *(b"`define A%d `A%d `A%d\n" % (i, i - 1, i - 1) for i in range(1, count))]
    return b"".join(lines) + b"module t; initial begin `A%d end endmodule\n" % (count - 1)


def modules(count):
    """Modules each of which has two instances of the one before."""
    inner = b"".join(b"module m%d; m%d a(); m%d b(); endmodule\n" % (i, i - 1, i - 1) for i in range(1, count))
    return b"module m0; reg x; endmodule\n" + inner + b"module top; m%d z(); endmodule\n" % (count - 1)


NAME = b"a" * 10_000
IN_A_MODULE = b"module t; reg x; initial "
GREAT = {
    "macros that double": macros(30),
    "macros in a chain": b"`define A0 x\n" + b"".join(b"`define A%d `A%d\n" % (i, i - 1) for i in range(1, 400)) + b"module t; reg `A399; endmodule\n",
    "macros in arguments": b"`define M(a) a\n" + times(IN_A_MODULE + b"x = ", b"`M(", b"1" + b")" * 100_000 + b"; endmodule\n", 100_000),
    "a long macro, often": b"`define X " + b"a " * 400_000 + b"\nmodule t; initial begin " + b"`X " * 40 + b"end endmodule\n",
    "conditions": b"`ifdef A\n" * 60_000 + b"`endif\n" * 60_000 + b"module t; endmodule\n",
    "definitions": b"".join(b"`define N%d %d\n" % (i, i) for i in range(60_000)) + b"module t; endmodule\n",
    "a loop without end": b"module t; genvar i; generate for (i = 0; i >= 0; i = i + 1) begin : g reg x; end endgenerate endmodule\n",
    "a loop that stands": b"module t; genvar i; generate for (i = 0; i < 9; i = i) begin : g reg x; end endgenerate endmodule\n",
    "a module in itself": b"module t; t x(); endmodule module top; t a(); endmodule\n",
    "modules that double": modules(40),
    "a million turns": b"module t; parameter N = 1000000; genvar i; for (i = 0; i < N; i = i + 1) begin : g reg x; end endmodule\n",
    "a million digits": b"module t; parameter N = 1000000; reg [N-1:0] x; endmodule\n",
    "a million parts": b"module t; parameter N = 1000000; reg x; initial x = {N{1'b1}}; endmodule\n",
    "a million instances": b"module s; endmodule module t; parameter N = 1000000; s u[N:1](); endmodule\n",
    "a long name": b"module %s; reg %s; initial %s = 1; endmodule\n" % (NAME, NAME, NAME),
    "a long name of a macro": b"`define %s 1\nmodule t; reg x; initial x = `%s; endmodule\n" % (NAME, NAME),
    "a long path": b"module t; initial " + b".".join([b"a"] * 100_000) + b" = 1; endmodule\n",
    "parentheses": times(IN_A_MODULE + b"x = ", b"(", b"1" + b")" * 400_000 + b"; endmodule\n", 400_000),
    "braces": times(IN_A_MODULE + b"x = ", b"{", b"x" + b"}" * 400_000 + b"; endmodule\n", 400_000),
    "blocks": times(IN_A_MODULE, b"begin ", b"end " * 90_000 + b"endmodule\n", 90_000),
    "branches": times(IN_A_MODULE, b"if (x) x = 0; else ", b"x = 1; endmodule\n", 50_000),
    "items": IN_A_MODULE + b"case (x) " + b"".join(b"%d: x = 1;\n" % i for i in range(60_000)) + b"endcase endmodule\n",
    "labels": IN_A_MODULE + b"case (x) " + b",".join(b"%d" % i for i in range(60_000)) + b": x = 1; endcase endmodule\n",
    "sums": times(IN_A_MODULE + b"x = ", b"x + ", b"x; endmodule\n", 250_000),
    "delays": times(IN_A_MODULE, b"#1 ", b"; endmodule\n", 300_000),
    "statements": times(IN_A_MODULE + b"begin ", b"x = 1; ", b"end endmodule\n", 140_000),
    "processes": times(b"module t; reg x; ", b"initial x = 1;\n", b"endmodule\n", 60_000),
    "registers": b"module t; " + b"".join(b"reg r%d;\n" % i for i in range(80_000)) + b"endmodule\n",
    "nets": times(b"module t; ", b"wire x;\n", b"endmodule\n", 100_000),
    "conditions of generates": times(b"module t; generate ", b"if (1) ", b"reg x; endgenerate endmodule\n", 150_000),
    "a long comment": b"/*" + b"x" * 1_000_000,
    "a long string": b'"' + b"x" * 1_000_000,
    "zeros": b"\0" * 1_000_000,
    "nothing": b"",
}


def changed(text, chance):
    """A text with some bytes dropped, replaced or doubled."""
    some = bytearray(text)
    for _ in range(chance.randint(1, 4)):
        place = chance.randrange(len(some))
        kind = chance.randrange(3)
        if kind == 0:
            del some[place]
        elif kind == 1:
            some[place] = chance.choice(SIGNS)
        else:
            other = chance.randrange(len(some))
            some[place:place] = some[other : other + chance.randint(1, 20)]
        if not some:
            break
    return bytes(some)


def fault_of(answer):
    """What is wrong with an answer to a whole design."""
    status, out, err = answer
    if status == 0 and not err:
        return None
    if status == 4 and err.startswith(b"vsimtx: stopped: "):
        return None
    if status == 3 and not out and TOLD.fullmatch(err):
        return None
    return "no run, and no faults with their places"


def run(hostile):
    came, tried, wrong = Counter(), 0, 0
    source = f"{hostile.room}/source.v"

    def want(named, text):
        nonlocal tried, wrong
        with open(source, "wb") as file:
            file.write(text)
        answer = called(
            hostile.program, "run", "--verilog", source, "-I", ROWS, "--seed", "1", "--max-entries", "20000", room=ROOM, seconds=SECONDS
        )
        tried += 1
        came[f"{answer.status}"] += 1
        fault = fault_of(answer)
        if fault:
            wrong += 1
            hostile.tell(f"{named}: {shown(answer)}: {fault}")

    for named, text in GREAT.items():
        want(named, text)
    chance = random.Random(1)
    for path in sorted(glob.glob(f"{ROWS}/*.v")):
        with open(path, "rb") as file:
            text = file.read()
        if len(text) > 10_000:
            continue
        named = os.path.basename(path)
        for length in range(0, len(text), 7):
            want(f"{named}, cut at {length}", text[:length])
        for number in range(60):
            want(f"{named}, change {number}", changed(text, chance))
    hostile.say("whole", came)
    return tried, wrong

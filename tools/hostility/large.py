"""large: a journal of 100 MB, and sources of 10 MB, at each limit. Each case has one answer; its seconds and its memory are said.

A stop is a stop: a source of ten million statements in one process is accepted, and its turn is too long."""
import os
import resource
import time
from collections import Counter

from hostility.answers import Answer, called, fault_of, journal_of, kind_of, shown

JOURNAL = 100 << 20
SOURCE = 10 << 20
SECONDS = 1800


def told(status, line, out=b""):
    return Answer(status, out, b"vsimtx: " + line + b"\n")


def filled(before, part, after, size=SOURCE):
    """Texts of about this size: one part as often as it fits."""
    return before + part * ((size - len(before) - len(after)) // len(part)) + after


def many(before, part, after, size=SOURCE):
    """The same, where each part has its number."""
    parts, length, number = [], len(before) + len(after), 0
    while length < size:
        parts.append(part(number))
        length += len(parts[-1])
        number += 1
    return before + b"".join(parts) + after


HEAD = b"module t; reg a; "
TAIL = b" endmodule\n"
QUIET = Answer(0, b"", b"")
TOO_LONG = told(4, b"stopped: process 0 too long")


def sources():
    """By name: a source, its one answer, and whether it makes a run."""
    name = b"n" * (SOURCE - 100)
    yield "a comment", HEAD + b"/*" + b"*" * SOURCE + b"*/" + TAIL, QUIET
    yield "an unfinished comment", HEAD + b"/*" + b"*" * SOURCE, told(3, b"P1 byte not allowed at 17")
    yield "an unfinished string", HEAD + b'initial $display("' + b"s" * SOURCE, told(3, b"P1 byte not allowed at 34")
    yield "a string", HEAD + b'initial $display("' + b"s" * SOURCE + b'");' + TAIL, Answer(0, b"s" * SOURCE + b"\n", b"")
    yield "space", filled(HEAD, b" \t\n\r", TAIL), QUIET
    yield "a name", b"module t; reg " + name + b"; initial " + name[: 1 << 20] + b"=1'b0;" + TAIL, told(3, b"E1 undeclared " + name[: 1 << 20])
    yield "a name declared twice", b"module t; reg " + name + b"," + name + b";" + TAIL, told(3, b"E2 declared twice " + name)
    yield "1,024 names", b"module t;" + b"".join(b" reg %s%d;" % (b"n" * (SOURCE // 1024 - 12), n) for n in range(1024)) + TAIL, QUIET
    yield "a million names", many(b"module t; ", lambda n: b"reg r%d;" % n, TAIL), told(3, b"E4 more than 1024 registers")
    yield "a million processes", filled(HEAD, b"initial ;", TAIL), told(3, b"E5 more than 256 processes")
    yield "a decimal", HEAD + b"initial #" + b"9" * SOURCE + b" ;" + TAIL, told(3, b"P3 literal at 26")
    yield "digits of a literal", HEAD + b"initial a=1'b" + b"0" * SOURCE + b"1;" + TAIL, QUIET
    yield "digits past a literal", HEAD + b"initial a=1'b1" + b"0" * SOURCE + b";" + TAIL, told(3, b"P3 literal at 27")
    yield "a size of a literal", HEAD + b"initial a=" + b"1" * SOURCE + b"'b0;" + TAIL, told(3, b"P3 literal at 27")
    yield "empty statements", filled(HEAD + b"initial begin ", b";", b" end" + TAIL), TOO_LONG
    yield "assignments", filled(HEAD + b"initial begin ", b"a=1'b1;", b" end" + TAIL), TOO_LONG
    yield "empty blocks", filled(HEAD + b"initial begin ", b"begin end ", b" end" + TAIL), QUIET
    yield "lines", filled(HEAD + b"initial begin ", b'#0 $display("x");', b" end" + TAIL), None
    yield "256 processes", HEAD + b"".join(b"initial begin " + b";" * 40000 + b" end " for _ in range(256)) + TAIL, QUIET
    yield "events", filled(HEAD + b"initial @(a", b" or a", b") ;" + TAIL), QUIET
    yield "a sum", filled(HEAD + b"initial a=1'b0", b"+1'b0", b";" + TAIL), told(3, b"P4 nesting at token 139")
    yield "a concatenation", filled(HEAD + b"initial a={a", b",a", b"};" + TAIL), told(3, b"E7 concatenation over 128 bits")
    yield "arguments", filled(HEAD + b'initial $display("x"', b",a", b");" + TAIL), told(3, b"E6 format and arguments")
    yield "conversions", HEAD + b'initial $display("' + b"%b" * (SOURCE // 4) + b'"' + b",a" * (SOURCE // 4) + b");" + TAIL, Answer(0, b"x" * (SOURCE // 4) + b"\n", b"")
    yield "bytes that begin nothing", HEAD + b"\xff" * SOURCE, told(3, b"P1 byte not allowed at 17")
    yield "zeros", b"\0" * SOURCE, told(3, b"P1 byte not allowed at 0")
    yield "modules", filled(b"", b"module t; endmodule ", b""), told(3, b"P2 syntax at token 5")


def journals():
    """By name: a journal of `always #0 ;`, or what should be one, and its one answer."""
    lines, size, number = [], 0, 0
    while size < JOURNAL:
        lines += [b"T %d" % number, b"I"]
        size += len(lines[-2]) + 3
        number += 1
    yield "a lawful journal", journal_of(lines), QUIET
    yield "one with a last entry that isn't lawful", journal_of([*lines, b"N"]), told(5, b"entry %d: J3 region change not due" % (len(lines) + 1))
    yield "one with an entry too early", journal_of([b"I", *lines]), told(5, b"entry 1: J3 region change not due")
    text = journal_of(lines)
    yield "one that is cut", text[:-1], told(5, b"Q3 journal ends without newline")
    yield "one twice", text + text, told(5, b"Q2 journal line %d" % (text.count(b"\n") + 1))
    head = b"vsimtx-journal 2\n"
    yield "one line", head + b"T " + b"1" * JOURNAL + b"\n", told(5, b"Q2 journal line 2")
    yield "one line without its end", head + b"T " + b"1" * JOURNAL, told(5, b"Q3 journal ends without newline")
    yield "empty lines", head + b"\n" * JOURNAL, told(5, b"Q2 journal line 2")
    yield "zeros", b"\0" * JOURNAL, told(5, b"Q1 journal header")


def run(hostile):
    came, tried, wrong = Counter(), 0, 0
    source, journal = f"{hostile.room}/source", f"{hostile.room}/journal"

    def want(named, size, wanted, *words):
        nonlocal tried, wrong
        began = time.monotonic()
        answer = called(hostile.program, *words, seconds=SECONDS)
        took = time.monotonic() - began
        most = resource.getrusage(resource.RUSAGE_CHILDREN).ru_maxrss >> 10
        print(f"  {named}, {size >> 20} MB: {kind_of(answer)}, {took:.1f} s, the greatest memory so far {most} MB", flush=True)
        tried += 1
        came[kind_of(answer)] += 1
        if (answer != wanted if wanted else fault_of(answer)):
            wrong += 1
            hostile.tell(f"{named}: {shown(answer)}{f', and not {shown(wanted)}' if wanted else ''}")

    for named, text, wanted in sources():
        with open(source, "wb") as file:
            file.write(text)
        want(f"a source: {named}", len(text), wanted, "run", source, "--workers", "2")
    with open(source, "wb") as file:
        file.write(b"module t; always #0 ; endmodule\n")
    for named, text, wanted in journals():
        with open(journal, "wb") as file:
            file.write(text)
        want(f"a journal: {named}", len(text), wanted, "replay", source, journal)
    os.remove(journal)
    hostile.say("sources of 10 MB, journals of 100 MB", came)
    return tried, wrong

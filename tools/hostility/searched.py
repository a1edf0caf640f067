"""searched: searches for races whose allocations are refused, each in turn, alone and with all after it, and searches in little memory.

A search that wants memory tells no race, no text and no status that it doesn't tell with enough: its races are among those of the whole search, and so are
the texts of its journals; `every lawful run` is said where the whole search says it of the same texts; and the status is that of the whole search, or 6.
Where it prints anything else than the whole search, it says that memory was refused."""
import glob
import os
import re
from collections import Counter

from hostility.answers import called, kind_of, shown
from hostility.refused import built
from hostility.short import PAGE, floor, is_loaded

# By name: a source, and the words besides.
SEARCHED = {
    "two writers": (b"module t; reg a; initial a=1'b0; initial a=1'b1; initial #0 $display(\"%b\",a); endmodule\n", ()),
    "a process without effect": (
        b"module t; reg clk, en, x, y; always @(posedge clk) x <= en; always @(posedge clk) y <= en; always @(posedge clk) en = ~en;\n"
        b"initial begin #1 en = 1'b0; clk = 1'b0; #5 clk = 1'b1; #1 $display(\"y=%b\", y); end endmodule\n",
        (),
    ),
    "a run without an end": (
        b"module t; reg a, b; initial begin if (a === 1'b1 && b === 1'b1) begin $display(\"bad\"); while (1'b1) begin #0 ; end end\n"
        b"else begin $display(\"good\"); end end initial a = 1'b1; initial b = 1'b1; endmodule\n",
        (),
    ),
    "a finish at a print": (b'module m; initial begin #5 $display("a"); end initial begin #5 $finish; end endmodule\n', ()),
    "no race": (b"module t; reg a, b; initial begin a=1'b0; b=1'b1; #1 a<=b; b<=a; #1 $display(\"%b %b\",a,b); end endmodule\n", ()),
    "a clock that never stops": (b"module t; reg c; initial c = 1'b0; always #5 c = ~c; always @(posedge c) $display(\"tick\"); endmodule\n", ("--max-entries", "60")),
    "a long run": (
        b"module t; reg f; reg [31:0] n; initial begin n = 32'd0; if (f === 1'b1) begin $display(\"x\"); $finish; end else begin\n"
        b"while (n < 32'd1000) begin #1 n = n + 32'd1; end $display(\"x\"); $finish; end end initial f = 1'b1; endmodule\n",
        (),
    ),
    "random orders": (b'module t; initial $display("x"); initial $display("y"); endmodule\n', ("--samples", "4")),
}
# The steps of memory in which each source is searched.
LEVELS = 100
# So many allocations of a source are refused at most, and no more where it makes more.
MOST = 4000
VERDICT = re.compile(rb"^(?:no|one|\d+) texts?\b.*", re.MULTILINE)


def races_of(out):
    """The races: the line of each, but for its number, and of both of its processes, in either order, what it does and what comes of it where it is first."""
    races = []
    for line in out.split(b"\n"):
        if re.match(rb"race \d+: ", line):
            races.append([re.sub(rb"^race \d+", b"race", line)])
        elif races and line.startswith(b"  ") and len(races[-1]) < 5:
            races[-1].append(re.sub(rb" \(\S+\.journal\)", b"", line))
    return {either_way(it) for it in races}


def either_way(lines):
    """A race as it is told whichever of its two processes is named first."""
    if len(lines) < 5:
        return tuple(lines)
    title, one, other, one_first, other_first = lines
    return title, frozenset([(one, one_first.partition(b": ")[2]), (other, other_first.partition(b": ")[2])])


def read(path):
    with open(path, "rb") as file:
        return file.read()


class Search:
    """A search with enough memory, and what one that wants memory is compared with."""

    def __init__(self, hostile, name, source, words):
        self.program, self.name, self.words = hostile.program, name, words
        self.source = f"{hostile.room}/{name.replace(' ', '_')}.v"
        with open(self.source, "wb") as file:
            file.write(source)
        self.own = self.call(hostile.room)
        self.races, self.texts = races_of(self.own.out), self.texts_in(hostile.room)
        self.every = [it for it in VERDICT.findall(self.own.out) if b"every lawful run" in it or b"no lawful run" in it]

    def call(self, folder, **how):
        """Searches in a folder, where the journals are left."""
        for path in glob.glob(f"{folder}/out.*"):
            os.remove(path)
        return called(self.program, "races", self.source, *self.words, "--journals", "out", cwd=folder, **how)

    def texts_in(self, room):
        """What the journals print that a search left, by replays of their own."""
        return {called(self.program, "replay", self.source, path).out for path in glob.glob(f"{room}/out.*.journal")}

    def fault(self, room, answer):
        """What is wrong with an answer of a search that may want memory."""
        if answer == self.own:
            return None
        if answer.status == 6 and not answer.err.startswith(b"vsimtx: "):
            return "status 6 without a line"
        if answer.status not in (6, self.own.status):
            return "a status that isn't the search's own"
        if answer.status != 6 and answer.err:
            return "a line on standard error"
        if not races_of(answer.out) <= self.races:
            return f"a race of its own: {sorted(races_of(answer.out) - self.races)!r}"
        if not self.texts_in(room) <= self.texts:
            return "a text of its own"
        told = [it for it in VERDICT.findall(answer.out) if b"every lawful run" in it or b"no lawful run" in it]
        if told not in ([], self.every):
            return f"another verdict: {told!r}"
        is_told = answer.status == 6 or b"memory was refused" in answer.out
        return None if is_told or answer.out == self.own.out else "other lines, and no word of memory"


def refused(hostile, search, library, how):
    """Refuses each allocation in turn until nothing is refused; gives the number of calls and of those that went wrong."""
    came, tried, wrong = Counter(), 0, 0
    for first in range(1, MOST, 64):

        def one(number, room):
            count = f"{room}/count"
            if os.path.exists(count):
                os.remove(count)
            answer = search.call(room, env={"LD_PRELOAD": library, "REFUSE_COUNT": count, f"REFUSE_{how.upper()}": str(number)})
            asked = int(read(count).split()[0]) if os.path.exists(count) else None
            return answer, asked, search.fault(room, answer)

        for number, (answer, asked, fault) in hostile.over(range(first, first + 64), one):
            tried += 1
            came[kind_of(answer)] += 1
            if asked is None or asked < number and answer != search.own:
                fault = fault or "it left no count, or was refused nothing and answers otherwise"
            wrong += bool(fault and hostile.tell(f"{search.name}, {how} {number}: {shown(answer)}: {fault}"))
        if asked is not None and asked < number:
            break
    hostile.say(f"{search.name}, {how} 1 to {tried}", came)
    return tried, wrong


def in_little(hostile, search):
    """Searches with each of some levels of memory, from what the program starts in to twice as far as it needs; gives the number of calls and of those that went wrong."""
    least = floor(hostile.program, "races", search.source, *search.words, "--journals", f"{hostile.room}/out")
    step = PAGE
    while search.call(hostile.room, room=least + LEVELS // 2 * step) != search.own:
        step *= 2
    came, wrong = Counter(), 0

    def one(level, room):
        answer = search.call(room, room=least + level * step)
        return answer, search.fault(room, answer) if is_loaded(answer) else None

    for level, (answer, fault) in hostile.over(range(LEVELS), one):
        came[kind_of(answer)] += 1
        wrong += bool(fault and hostile.tell(f"{search.name}, {level} times {step} bytes: {shown(answer)}: {fault}"))
    hostile.say(f"{search.name}, {LEVELS} levels of {step} bytes", came)
    return LEVELS, wrong


def run(hostile):
    library = built(hostile.room)
    tried = wrong = 0
    for name, (source, words) in SEARCHED.items():
        search = Search(hostile, name, source, words)
        for made, failed in (refused(hostile, search, library, "at"), refused(hostile, search, library, "from"), in_little(hostile, search)):
            tried, wrong = tried + made, wrong + failed
    return tried, wrong

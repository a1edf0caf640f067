"""nested: each form of nesting at its limit of 64 and one past it, and far past it.

At the limit the deepest texts run, on 2 workers and on the main thread alone, and their journals replay. Past it the answer is P4 at the token
that the grammar names, however far the nesting goes on."""
from collections import Counter

from hostility.answers import Answer, called, fault_of, kind_of, shown

FAR = 20000


OPENING, CLOSING = (b"begin", b"(", b"{"), (b"end", b")", b"}")
SIGNS = b"# @ ? ! ~ & | ^ + - << >> < <= > >= == != === !== && ||".split()


def deep_token(text):
    """The first token, counted from 1, of a text whose tokens stand apart at which a count of nesting passes 64."""
    is_open = signs = 0
    for number, token in enumerate(text.split(), 1):
        is_open += (token in OPENING) - (token in CLOSING)
        signs = 0 if token in (b";", b"begin", b"end") else signs + (token in SIGNS)
        if is_open > 64 or signs > 64:
            return number
    return None


class Form:
    """A text that nests: what is before it, what is repeated, what stands inside, what closes each, and what is behind it."""

    def __init__(self, name, before, opens, inside, closes, after, within=64, lines=b""):
        self.name, self.before, self.opens, self.inside, self.closes, self.after = name, before, opens, inside, closes, after
        self.within, self.lines = within, lines

    def text(self, times):
        return b"module t ; reg a ; " + self.before + self.opens * times + self.inside + self.closes * times + self.after + b"endmodule\n"


FORMS = [
    Form("blocks", b"initial ", b"begin ", b"", b"end ", b""),
    Form("ifs", b"initial ", b"if ( 1'b1 ) begin ", b"", b"end ", b""),
    Form("whiles", b"initial ", b"while ( 1'b0 ) begin ", b"", b"end ", b""),
    Form("parentheses", b"initial a = ", b"( ", b"1'b1 ", b") ", b"; "),
    Form("braces", b"initial a = ", b"{ ", b"1'b1 ", b"} ", b"; "),
    Form("both", b"initial a = ", b"{ ( ", b"1'b1 ", b") } ", b"; ", within=32),
    Form("display", b'initial $display ( "%b" , ', b"( ", b"1'b1 ", b") ", b") ; ", within=63, lines=b"1\n"),
    Form("sums", b"initial a = 1'b0 ", b"+ 1'b0 ", b"", b"", b"; "),
    Form("not", b"initial a = ", b"! ( ", b"1'b1 ", b") ", b"; "),
    Form("choices", b"initial a = ", b"1'b1 ? ", b"1'b1 ", b": 1'b0 ", b"; "),
    Form("delays", b"initial ", b"# 0 ", b"; ", b"", b""),
    Form("waits", b"initial ", b"@ ( a ) ", b"; ", b"", b""),
    Form("blocks of delays", b"initial ", b"# 0 " * 64 + b"begin ", b"# 0 " * 64 + b"; ", b"end ", b""),
    Form("blocks of waits", b"initial ", b"@ ( a ) " * 64 + b"begin ", b"@ ( a ) " * 64 + b"; ", b"end ", b"", within=63),
    Form("assigned", b"initial a <= 1'b0 ", b"+ 1'b0 ", b"", b"", b"; ", within=63),
    Form("shifts", b"initial a = 1'b1 ", b"<< 1'b0 ", b"", b"", b"; "),
    Form("equalities", b"initial a = 1'b1 ", b"=== 1'b1 ", b"", b"", b"; "),
    Form("ands", b"initial a = 1'b1 ", b"&& 1'b1 ", b"", b"", b"; "),
]
def run(hostile):
    came, tried, wrong = Counter(), 0, 0
    source, journal = f"{hostile.room}/source", f"{hostile.room}/journal"

    def want(named, text, check):
        nonlocal tried, wrong
        with open(source, "wb") as file:
            file.write(text)
        for workers in ("1", "2"):
            answer = called(hostile.program, "run", source, "--workers", workers, "--journal", journal)
            tried += 1
            came[kind_of(answer)] += 1
            fault = fault_of(answer) or check(answer)
            if fault:
                wrong += 1
                hostile.tell(f"{named}, {workers} workers: {shown(answer)}: {fault}")

    def runs(form):
        def check(answer):
            if answer != Answer(0, form.lines, b""):
                return "it doesn't run"
            again = called(hostile.program, "replay", source, journal)
            return None if again == answer else f"its journal is replayed otherwise: {shown(again)}"

        return check

    def refused(text):
        told = Answer(3, b"", b"vsimtx: P4 nesting at token %d\n" % deep_token(text))
        return lambda answer: None if answer == told else f"and not {shown(told)}"

    for form in FORMS:
        want(f"{form.name} {form.within} times", form.text(form.within), runs(form))
        for times in (form.within + 1, FAR):
            want(f"{form.name} {times} times", form.text(times), refused(form.text(times)))
    # Both counts at their limits at once, in a statement that is itself as deep as it may be.
    inner = b"a = ( 1'b0 " + b"+ 1'b0 " * 64 + b") ;"
    deep = b"module t ; reg a ; initial " + b"begin " * 63 + inner + b" end" * 63 + b" endmodule\n"
    want("both counts at their limits", deep, runs(Form("deep", b"", b"", b"", b"", b"")))
    hostile.say(f"{len(FORMS)} forms of nesting", came)
    return tried, wrong

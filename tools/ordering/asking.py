"""What the program is asked of a design whose lawful journals are all known, and how its answers are compared.

Each function is given the program, the design, what was found (the journal of each pair of a text and an end, and whether a state was found from which no
end is reached), the last time, a folder that has the source, and a generator of the library `random`. What the program says otherwise is a `Difference`.
"""
import glob
import os
import re

from hostility.answers import Answer, called, shown
from ordering.model import Design, Fault, journal_of, journal_text, replayed, start, step
from ordering.parser import parsed
from ordering.search import key_of, merging, search, wave_of, waves

# So many journals of a design are replayed, and so many seeds tried.
MOST_REPLAYS = 16
SEEDS = 6
# The line of each reason against an entry.
REASONS = {
    "J1": "J1 event not active", "J2": "J2 earlier update active", "J3": "J3 region change not due", "J4": "J4 wrong time", "J5": "J5 time limit", "J6": "J6 finished",
    "turn too long": "turn too long",
}
# The ends that nothing is told of.
SILENT = ("quiet", "finish")
# Designs of which each text comes where enough seeds are tried, and how many are.
ALL_TEXTS = {
    "two lines": 'module t; initial $display("x"); initial $display("y"); endmodule',
    "three lines": 'module t; initial $display("x"); initial $display("y"); initial #0 $display("z"); initial $display("w"); endmodule',
    "a race of two copies": """module t; reg a, b; initial begin a = 1'b0; b = 1'b1; end
initial #1 a = b; initial #1 b = a; initial #2 $display("%b %b", a, b); endmodule""",
    "a stimulus at an edge": """module t; reg clk, d; initial begin clk = 1'b0; d = 1'b0; #2 d = 1'b1; end
initial #2 clk = 1'b1; always @(posedge clk) $display("%b", d); endmodule""",
    "nonblocking assignments": """module t; reg [1:0] a; initial #1 a <= 2'd1; initial #1 a <= 2'd2; initial #1 a <= 2'd3;
initial #1 $strobe("%0d", a); endmodule""",
}
MOST_SEEDS = 600


class Difference(Exception):
    """What the program says and the model doesn't."""


def write(path, text):
    with open(path, "w", encoding="ascii") as file:
        file.write(text)


def read(path):
    with open(path, encoding="ascii") as file:
        return file.read()


def answer_of(text):
    return Answer(0, text.encode(), b"")


def expect(answer, wanted, what):
    if answer != wanted:
        raise Difference(f"{what}: {shown(answer)}, and the model has {shown(wanted)}")


def taken(design, path, until, what):
    """The text of the journal in a file, and the ends after it, by the model."""
    text = read(path)
    entries = journal_of(text)
    if journal_text(entries) != text:
        raise Difference(f"{what}: its journal has another text than its entries")
    if any(it[0] == "A" and it[1] > until for it in entries):
        raise Difference(f"{what}: its journal goes past the time {until}")
    try:
        return replayed(design, entries, until)
    except Fault as fault:
        raise Difference(f"{what}: its journal isn't lawful: {fault}") from None


def changed(entries, random):
    """A journal with an entry dropped, doubled, exchanged or changed."""
    entries, at = list(entries), random.randrange(len(entries))
    way = random.randrange(4)
    if way == 0:
        del entries[at]
    elif way == 1:
        entries.insert(at, entries[at])
    elif way == 2:
        other = random.randrange(len(entries))
        entries[at], entries[other] = entries[other], entries[at]
    else:
        kind = random.choice("TUINMA")
        entries[at] = (kind,) if kind in "INM" else (kind, random.randrange(12))
    return entries


def ask_replays(program, design, found, until, room, random):
    """Lawful journals print their texts, and others are refused where the model refuses them, for the same reason."""
    pairs = list(found.found)
    for pair in random.sample(pairs, min(MOST_REPLAYS, len(pairs))):
        write(f"{room}/journal", journal_text(found.found[pair]))
        expect(called(program, "replay", f"{room}/source.v", f"{room}/journal"), answer_of(pair[0]), "replay")
        if not found.found[pair]:
            continue
        other = changed(found.found[pair], random)
        write(f"{room}/journal", journal_text(other))
        try:
            wanted = answer_of(replayed(design, other, until)[0])
        except Fault as fault:
            entry, reason = str(fault).split(": ")
            wanted = Answer(5, b"", f"vsimtx: {entry}: {REASONS[reason]}\n".encode())
        expect(called(program, "replay", f"{room}/source.v", f"{room}/journal"), wanted, "replay of a changed journal")


def run_once(program, design, found, until, room, *words):
    """A run, whose journal has to be lawful and to have its text and end; gives its journal."""
    what, path = f"run {' '.join(words)}", f"{room}/journal"
    answer = called(program, "run", f"{room}/source.v", "--until", str(until), "--journal", path, *words)
    if answer.status not in (0, 4):
        raise Difference(f"{what}: {shown(answer)}")
    text, ends = taken(design, path, until, what)
    lines = {"" if it in SILENT else f"vsimtx: stopped: {it}\n": it for it in ends}
    end = lines.get(answer.err.decode())
    if end is None or answer.status != (4 if answer.err else 0) or answer.out.decode() != text:
        raise Difference(f"{what}: {shown(answer)}, and its journal has {text!r} and ends by {ends}")
    if (text, end) not in found.found:
        raise Difference(f"{what}: {shown(answer)}, which no lawful journal that was made has")
    return read(path)


def ask_runs(program, design, found, until, room, random):
    for workers in ("1", "3"):
        run_once(program, design, found, until, room, "--workers", workers)


def ask_seeds(program, design, found, until, room, random):
    for _ in range(SEEDS):
        seed = str(random.randrange(2 ** random.choice((4, 32, 63))))
        journal = run_once(program, design, found, until, room, "--seed", seed)
        if run_once(program, design, found, until, room, "--seed", seed) != journal:
            raise Difference(f"run --seed {seed}: another journal the second time")


def try_all_texts(program, room):
    """Each text of some designs comes where enough seeds are tried."""
    for name, source in ALL_TEXTS.items():
        write(f"{room}/source.v", source)
        design = Design(parsed(source))
        found = merging(design, 10)
        missing, seeds = {text for text, end in found.found}, 0
        while missing and seeds < MOST_SEEDS:
            run_once(program, design, found, 10, room, "--seed", str(seeds))
            missing.discard(replayed(design, journal_of(read(f"{room}/journal")), 10)[0])
            seeds += 1
        print(f"{name}: {len(found.found) - len(missing)} of {len(found.found)} texts in {seeds} seeds", flush=True)
        if missing:
            raise Difference(f"{name}: no seed up to {seeds} has the text {min(missing)!r}")


def short_stops(found):
    """How many of these, each with its end, are of runs that stop short: by a turn that is too long, or where the time would pass the last one."""
    return sum(end == "time" or end.startswith("process ") for _, end in found)


def wanted_status(found, endless):
    """The status of `races` where these texts or waves with their ends are all that there are."""
    return {0: 4, 1: 4 if endless or short_stops(found) else 0}.get(len(found), 7)


def verdict_fault(out, found, until):
    """What is wrong with the verdict that `races` prints, if anything is."""
    told = re.search(
        rb"^(no|one|\d+) texts?( and ends)?: (?:every|no) lawful run up to time (\d+) (that )?comes to an end(, and every one that stops short| or stops short)?",
        out,
        re.MULTILINE,
    )
    if not told:
        return "there is no verdict of every lawful run"
    count, stops = {b"no": 0, b"one": 1}.get(told[1]), short_stops(found)
    if (int(told[1]) if count is None else count) != len(found) or int(told[3]) != until or bool(told[5]) != bool(stops):
        return f"the verdict is {told[0]!r}"
    if bool(told[4]) != bool(found and not (len(found) == 1 and stops)):
        return f"the verdict is {told[0]!r}"
    if len(re.findall(rb"^text \d+ .*stops short: entry \d+ would ", out, re.MULTILINE)) != stops:
        return f"it doesn't tell of {stops} runs that stop short"
    if bool(told[2]) != (len({end for text, end in found}) > 1):
        return f"the verdict is {told[0]!r}, and the ends are {sorted({end for text, end in found})}"
    return None if len(found) != 1 or out.endswith(next(iter(found))[0].encode()) else "the only text isn't shown"


def endless_of(program, design, out, until, room):
    """The journal that leads to where no end is reached, if one is told of; no end is reached from there."""
    told = re.search(rb"^(?:some lawful runs don't come|no (?:text|wave): no lawful run up to time \d+ comes) to an end \((\S+)\)$", out, re.MULTILINE)
    if not told:
        if b"some lawful runs don't" in out:
            raise Difference(f"races: it tells of runs without an end in other words: {out!r}")
        return None
    path = told[1].decode()
    what = f"races, {os.path.basename(path)}"
    text, _ = taken(design, path, until, what)
    expect(called(program, "replay", f"{room}/source.v", path), answer_of(text), f"replay of {what}")
    s = start(design)
    for entry in journal_of(read(path)):
        s, _ = step(design, s, entry)
    left = search(design, until, 60000, 1000, key_of, s)
    if left is None or left.found:
        raise Difference(f"{what}: runs come to an end behind it: {left and list(left.found)}")
    return path


def ask_races(program, design, found, until, room, random):
    """The texts and ends of `races` are those of the lawful journals, and it tells of runs that come to no end where there are any."""
    endless, found = found.endless, found.found
    answer = called(program, "races", f"{room}/source.v", "--until", str(until), "--max-texts", "1000000", "--journals", f"{room}/shown")
    own_endless = endless_of(program, design, answer.out, until, room)
    if bool(own_endless) != endless:
        raise Difference(f"races: {shown(answer)}: {'some' if endless else 'no'} states come to no end")
    paths = [it for it in glob.glob(f"{room}/shown.*.journal") if os.path.getsize(it) and it != own_endless]
    pairs = set()
    for path in paths:
        what = f"races, {os.path.basename(path)}"
        text, ends = taken(design, path, until, what)
        expect(called(program, "replay", f"{room}/source.v", path), answer_of(text), f"replay of {what}")
        own = {(text, end) for end in ends} & found.keys()
        if not own:
            raise Difference(f"{what}: it has the text {text!r} and the ends {ends}, which no lawful journal that was made has")
        pairs |= own
    left = found.keys() - pairs
    if left:
        raise Difference(f"races: {shown(answer)}: {len(pairs)} texts and ends of {len(found)}; not {min(left)}")
    if len(paths) != len(found):
        raise Difference(f"races: {shown(answer)}: {len(paths)} journals for {len(found)} texts and ends")
    if answer.err or answer.status != wanted_status(found, endless):
        raise Difference(f"races: {shown(answer)}, and there are {len(found)} texts and ends")
    fault = verdict_fault(answer.out, found, until)
    if fault:
        raise Difference(f"races: {shown(answer)}: {fault}, and there are {len(found)} texts and ends")


def wave_count(out, until):
    """How many waves the verdict tells of every lawful run, or None where it says something else."""
    told = re.search(rb"^(no|one) wave: (?:in every|no) lawful run up to time (\d+) (?:that )?comes to an end", out, re.MULTILINE)
    told = told or re.search(rb"^(\d+) waves: every lawful run up to time (\d+) that comes to an end(?: or stops short)? has one of them$", out, re.MULTILINE)
    if not told or int(told[2]) != until:
        return None
    return {b"no": 0, b"one": 1}.get(told[1]) if not told[1].isdigit() else int(told[1])


def ask_observed(program, design, words, until, room, registers):
    """The waves of `races --observe` are those of the lawful journals, where these registers are observed. False where these are too many."""
    searched = waves(design, until, registers)
    if searched is None:
        return False
    found, endless = searched
    what = f"races --observe {words}"
    for path in glob.glob(f"{room}/wave.*"):
        os.remove(path)
    answer = called(program, "races", f"{room}/source.v", "--until", str(until), "--max-texts", "1000000", "--observe", words, "--journals", f"{room}/wave")
    own_endless = endless_of(program, design, answer.out, until, room)
    if bool(own_endless) != endless:
        raise Difference(f"{what}: {shown(answer)}: {'some' if endless else 'no'} states come to no end")
    paths = [it for it in glob.glob(f"{room}/wave.*.journal") if os.path.getsize(it) and it != own_endless]
    pairs = set()
    for path in paths:
        _, ends = taken(design, path, until, f"{what}, {os.path.basename(path)}")
        own = {(wave_of(design, journal_of(read(path)), registers), end) for end in ends} & found
        if not own:
            raise Difference(f"{what}, {os.path.basename(path)}: it has a wave and ends {ends} that no lawful journal that was made has")
        pairs |= own
    if pairs != found or len(paths) != len(found):
        raise Difference(f"{what}: {shown(answer)}: {len(pairs)} waves and ends of {len(found)}, in {len(paths)} journals")
    if answer.err or answer.status != wanted_status(found, endless) or wave_count(answer.out, until) != len(found):
        raise Difference(f"{what}: {shown(answer)}, and there are {len(found)} waves and ends")
    return True


def ask_waves(program, design, found, until, room, random):
    """Each way to observe runs has the waves of the lawful journals: no registers, all of them, and some."""
    names = list(design.numbers)
    some = random.sample(names, random.randint(1, len(names))) if names else []
    asked = {"lines-at-times": [], "registers": list(range(len(names)))}
    if some:
        asked["registers=" + ",".join(some)] = [design.numbers[it] for it in some]
    return all(ask_observed(program, design, words, until, room, registers) for words, registers in asked.items())


ASKED = {"waves": ask_waves, "races": ask_races, "replays": ask_replays, "runs": ask_runs, "seeds": ask_seeds}

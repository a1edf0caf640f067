"""forged: journals of generated designs, as they are and with their lines dropped, doubled, exchanged or changed.

Each journal of a run is lawful, and so is each beginning of it; a replay prints the lines of the run, and for a beginning a beginning of them.
A forged one is refused by its text as the plain reader of this folder says it, or it is lawful, or it has a first entry that isn't. Then it is
lawful up to that entry and refused for the same reason where it ends there."""
import random
import re
from collections import Counter

from hostility.answers import Answer, called, entries_of, fault_of, journal_of, kind_of, shown, text_fault
from hostility.generated import Writer

DESIGNS = 120
FORGERIES = 20
# Generated expressions nest too deep now and then.
REFUSED = rb"vsimtx: (P4 nesting at token \d+|E7 concatenation over \d+ bits)\n"
NUMBERS = (b"0", b"1", b"2", b"4294967295", b"4294967296", b"281474976710655", b"281474976710656", b"281474976710657", b"18446744073709551615")
WRONG = (b"", b"M", b"E 0", b"X 1", b"T", b"T 01", b"A 18446744073709551616", b"i", b"I ", b"vsimtx-journal 1", b"vsimtx-journal 2", b"T 1\r")


def write(path, text):
    with open(path, "wb") as file:
        file.write(text)


def changed(entries, numbers):
    """Entries with something done to them, once or twice."""
    entries = list(entries)
    for _ in range(numbers.randint(1, 2)):
        place, other = numbers.randrange(len(entries) + 1), numbers.randrange(len(entries) + 1)
        at = entries[place : place + 1]
        what = numbers.randrange(8)
        if what == 0:
            del entries[place : place + numbers.randint(1, 3)]
        elif what == 1:
            entries[other:other] = at
        elif what == 2 and place < len(entries) and other < len(entries):
            entries[place], entries[other] = entries[other], entries[place]
        elif what == 3 and at and at[0][2:].isdigit():
            near = max(0, int(at[0][2:]) + numbers.randint(-3, 3))
            entries[place] = at[0][:2] + numbers.choice((b"%d" % near, numbers.choice(NUMBERS)))
        elif what == 4 and at and at[0][2:]:
            entries[place] = numbers.choice((b"T", b"U", b"A")) + at[0][1:]
        elif what == 5:
            entries.insert(place, numbers.choice((b"I", b"N", b"T 0", b"U 0", b"A 1", b"A 281474976710656")))
        elif what == 6:
            del entries[place:]
        elif numbers.random() < 0.3:
            entries.insert(place, numbers.choice(WRONG))
    return entries


def replayed_fault(hostile, room, text, version):
    """Replays a journal on the design of a room; gives the answer and what was wrong."""
    source, journal = f"{room}/source", f"{room}/forged"
    write(journal, text)
    answer = called(hostile.program, "replay", source, journal)
    told = text_fault(text)
    if told is not None:
        return answer, None if answer == Answer(5, b"", b"vsimtx: " + told + b"\n") else f"the plain reader says {told!r}"
    wrong = fault_of(answer)
    if wrong or answer.status == 0:
        return answer, wrong
    found = re.fullmatch(rb"vsimtx: entry (\d+): .*\n", answer.err)
    if not found:
        return answer, "no entry is named"
    entry = int(found[1])
    before, with_it = entries_of(text)[: entry - 1], entries_of(text)[:entry]
    write(journal, journal_of(before, version))
    if called(hostile.program, "replay", source, journal).status != 0:
        return answer, "an earlier entry isn't lawful"
    write(journal, journal_of(with_it, version))
    again = called(hostile.program, "replay", source, journal)
    return answer, None if again == answer else f"the same entry at the end is told otherwise: {shown(again)}"


def design_fault(hostile, seed, room):
    """Runs a generated design, and replays its journal and what is forged of it; gives the answers and what was wrong."""
    numbers = random.Random(seed)
    source, journal = f"{room}/source", f"{room}/journal"
    write(source, Writer(numbers).module())
    run = called(hostile.program, "run", source, "--workers", "2", "--max-entries", "60", "--journal", journal)
    if run.status == 3:
        return [run], None if re.fullmatch(REFUSED, run.err) else "a generated source is refused"
    if fault_of(run):
        return [run], fault_of(run)
    with open(journal, "rb") as file:
        text = file.read()
    answers, entries = [run], entries_of(text)
    whole = called(hostile.program, "replay", source, journal)
    if whole != Answer(0, run.out, b""):
        return [run, whole], "its journal is replayed otherwise"
    cut = numbers.randrange(len(entries) + 1)
    write(journal, journal_of(entries[:cut]))
    begun = called(hostile.program, "replay", source, journal)
    if begun.status != 0 or not run.out.startswith(begun.out):
        return [run, begun], f"cut to {cut} entries it isn't lawful"
    for _ in range(FORGERIES):
        forged = changed(entries, numbers)
        version = 2 if numbers.random() < 0.9 else 1
        answer, wrong = replayed_fault(hostile, room, journal_of(forged, version), version)
        answers.append(answer)
        if wrong:
            return answers, f"{wrong}: {journal_of(forged, version)!r}"
    return answers, None


def run(hostile):
    came, tried, wrong = Counter(), 0, 0
    for seed, (answers, fault) in hostile.over(range(DESIGNS), lambda seed, room: design_fault(hostile, seed, room)):
        came.update(map(kind_of, answers))
        tried += len(answers)
        if fault:
            wrong += 1
            hostile.tell(f"the design of seed {seed}: {shown(answers[-1])}: {fault}")
    hostile.say(f"{DESIGNS} generated designs, with forged journals", came)
    return tried, wrong

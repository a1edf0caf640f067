"""bytes: each byte of the swap's source and of its journal is replaced by each of the 256 values, and both are cut at each length.

Each answer has to be one that docs/formats.md names. A source that is still accepted runs on 2 workers, and its journal replays to the lines
that were printed. A journal that is malformed is told as the plain reader of this folder tells it, and one that isn't is replayed or has
an entry that isn't lawful, and then it is lawful up to that entry."""
import itertools
import os
import re
from collections import Counter

from hostility.answers import Answer, called, entries_of, fault_of, journal_of, kind_of, shown, text_fault
from hostility.sources import SWAP, SWAP_LINES


def variants(text):
    """Each text that differs from this one in a byte, this one itself, and each beginning of it."""
    for place in range(len(text)):
        for value in range(256):
            yield text[:place] + bytes([value]) + text[place + 1 :]
    for length in range(len(text)):
        yield text[:length]


def write(path, text):
    with open(path, "wb") as file:
        file.write(text)


def source_fault(program, text, room):
    """Runs a source, and replays what it left where it was accepted; gives the answer and what was wrong with it."""
    source, journal = f"{room}/source", f"{room}/journal"
    write(source, text)
    if os.path.exists(journal):
        os.remove(journal)
    answer = called(program, "run", source, "--workers", "2", "--journal", journal)
    wrong = fault_of(answer)
    if wrong or answer.status not in (0, 4):
        return answer, wrong or (None if answer.status == 3 else "neither run nor refused")
    again = called(program, "replay", source, journal)
    if again != Answer(0, answer.out, b""):
        return answer, f"its journal is replayed otherwise: {shown(again)}"
    return answer, None


def journal_fault(hostile, text, room):
    """Replays a journal of the swap; gives the answer and what was wrong with it."""
    source, journal = f"{room}/swap", f"{room}/forged"
    write(journal, text)
    answer = called(hostile.program, "replay", source, journal)
    told = text_fault(text)
    if told is not None:
        wanted = Answer(5, b"", b"vsimtx: " + told + b"\n")
        return answer, None if answer == wanted else f"the plain reader says {told!r}"
    wrong = fault_of(answer)
    if wrong:
        return answer, wrong
    if answer.status == 0:
        return answer, None if answer.out in (b"", SWAP_LINES) else "other lines"
    found = re.fullmatch(rb"vsimtx: entry (\d+): .*\n", answer.err)
    if not found:
        return answer, "no entry is named"
    # Up to the entry that is named the journal is lawful.
    before = entries_of(text)[: int(found[1]) - 1]
    write(journal, journal_of(before))
    again = called(hostile.program, "replay", source, journal)
    return answer, None if again.status == 0 else f"an earlier entry isn't lawful: {shown(again)}"


def run(hostile):
    program = hostile.program

    def each(named, texts, try_one):
        """Tries all texts, a room for each lane; counts the kinds of answers."""
        came, wrong = Counter(), 0
        for text, (answer, fault) in hostile.over(texts, try_one):
            came[kind_of(answer)] += 1
            if fault:
                wrong += 1
                hostile.tell(f"{named} {text!r}: {shown(answer)}: {fault}")
        hostile.say(named, came)
        return sum(came.values()), wrong

    for room in hostile.rooms:
        write(f"{room}/swap", SWAP)
    answer, fault = source_fault(program, SWAP, hostile.rooms[0])
    if fault or answer != Answer(0, SWAP_LINES, b""):
        return 1, 1 + bool(hostile.tell(f"the swap itself: {shown(answer)}"))
    with open(f"{hostile.rooms[0]}/journal", "rb") as file:
        journal = file.read()
    counts = [
        each("a source with a byte replaced or cut", variants(SWAP), lambda text, room: source_fault(program, text, room)),
        each("a journal with a byte replaced or cut", variants(journal), lambda text, room: journal_fault(hostile, text, room)),
    ]
    return tuple(map(sum, itertools.zip_longest(*counts)))

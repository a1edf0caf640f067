"""short: runs and replays in little memory, by the limit that the system sets to a process (RLIMIT_AS).

The least memory in which the program tells that it has too little is looked for first: below it the system can't load it. From there on the limit
grows by steps until the program ends as it does without one, many times over. Each answer is its own, or tells of memory or of a worker that
can't be started. Where a run was stopped for memory, its journal replays to the lines that were printed."""
import os
from collections import Counter

from hostility.answers import Answer, called, fault_of, kind_of, shown
from hostility.sources import BUSY, SWAP

PAGE = 4096
STEP = 4 * PAGE
WIDE = 1 << 20
# After so many answers of its own, one after another, more memory changes nothing.
ENOUGH = 40
MOST = 4 << 30


def is_loaded(answer):
    """Whether the answer is the program's, and not the system's."""
    return answer.status not in (None, 127) and answer.status >= 0


def floor(program, *words):
    """The least limit from which on the program itself answers."""
    low, high = 0, MOST
    while high - low > PAGE:
        middle = (low + high) // 2 // PAGE * PAGE
        if is_loaded(called(program, *words, room=middle)):
            high = middle
        else:
            low = middle
    return high


def swept(hostile, named, source, words, lines, step):
    """Raises the limit by steps until nothing changes any more; gives the number of calls and of those that went wrong. `lines` are those of each
    call that ends, or None where they are those that its journal replays to."""
    came, tried, wrong, enough = Counter(), 0, 0, 0
    least = floor(hostile.program, *words("/dev/null"))
    first = least
    while enough < ENOUGH and first < MOST:
        rooms = [first + step * count for count in range(32)]
        first = rooms[-1] + step

        def one(room, lane):
            out = f"{lane}/out"
            if os.path.exists(out):
                os.remove(out)
            answer = called(hostile.program, *words(out), room=room)
            fault = fault_of(answer)
            if fault or answer.status not in (0, 6):
                return answer, fault or "neither its own answer nor one of memory"
            if answer.status == 0 and lines is not None:
                return answer, None if answer.out == lines else "other lines"
            if answer.status == 6 and answer.err != b"vsimtx: stopped: memory\n":
                return answer, "lines beside a refusal" if answer.out else None
            again = called(hostile.program, "replay", source, out)
            return answer, None if again == Answer(0, answer.out, b"") else f"its journal is replayed otherwise: {shown(again)}"

        for room, (answer, fault) in hostile.over(rooms, one):
            tried += 1
            came[kind_of(answer)] += 1
            enough = enough + 1 if answer.status == 0 else 0
            if fault:
                wrong += 1
                hostile.tell(f"{named} in {room} bytes, {room - least} above the least: {shown(answer)}: {fault}")
    hostile.say(f"{named}, from {least >> 10} KB by {step >> 10} KB", came)
    return tried, wrong


def run(hostile):
    tried = wrong = 0
    for name, text in (("swap", SWAP), ("busy", BUSY)):
        source, journal = f"{hostile.room}/{name}", f"{hostile.room}/{name}.journal"
        with open(source, "wb") as file:
            file.write(text)
        own = called(hostile.program, "run", source, "--workers", "1", "--journal", journal)
        for workers in (1, 2, 16):
            words = lambda out: ["run", source, "--workers", str(workers), "--journal", out]
            made, failed = swept(hostile, f"{name} on {workers} workers", source, words, None, STEP if workers == 1 else WIDE)
            tried, wrong = tried + made, wrong + failed
        made, failed = swept(hostile, f"a replay of {name}", source, lambda out: ["replay", source, journal], own.out, STEP)
        tried, wrong = tried + made, wrong + failed
    return tried, wrong

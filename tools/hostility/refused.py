"""refused: each allocation of a run and of a replay is refused in turn, alone and with all after it; so is the start of each thread.

An allocator of this folder (refuse.c, built with `cc`) is put before the program's own. A run on one worker asks for the same memory each time, so
the sweep goes on until a run is refused nothing. Its answer is the run's own, or tells of memory. Where it was stopped for memory, its
journal is a beginning of the whole one, and replays to the lines that were printed. With all later allocations refused too, the journal may be cut
where no memory was left to write it. Runs on more workers are refused at every place of the run on one. A run that has no end of its own ends where
a thread is refused: the workers that had begun are stopped."""
import os
import shutil
import subprocess
from collections import Counter

from hostility.answers import Answer, called, entries_of, fault_of, kind_of, shown
from hostility.sources import BUSY, ENDLESS, SMALL, STROBES

# A run that was stopped for memory.
STOPPED = b"vsimtx: stopped: memory\n"
# What a run or a replay tells that was refused memory, or a thread, and printed nothing.
TOLD = {
    "run": {b"vsimtx: memory\n", b"vsimtx: P6 memory\n", b"vsimtx: E10 memory\n", b"vsimtx: cannot start worker\n"},
    "replay": {b"vsimtx: memory\n", b"vsimtx: P6 memory\n", b"vsimtx: E10 memory\n", b"vsimtx: Q5 memory\n"},
}
# More runs than any of the sources has allocations.
MOST = 20000
NO_WORKER = Answer(6, b"", b"vsimtx: cannot start worker\n")
# A stopped worker ends with its turn, in some thousandths of a second. A run that isn't stopped goes on for days.
SOON = 60


def built(room):
    """The allocator that refuses."""
    source = os.path.join(os.path.dirname(os.path.realpath(__file__)), "refuse.c")
    library = f"{room}/refuse.so"
    compiler = shutil.which("cc") or shutil.which("clang") or shutil.which("gcc")
    if not compiler:
        raise SystemExit("hostile: no C compiler is found for tools/hostility/refuse.c")
    subprocess.run([compiler, "-shared", "-fPIC", "-O1", "-o", library, source, "-ldl"], check=True)
    return library


def read(path):
    if not os.path.exists(path):
        return None
    with open(path, "rb") as file:
        return file.read()


def remove(path):
    if os.path.exists(path):
        os.remove(path)


class Sweep:
    """One command of the program under the allocator that refuses, with the files that it reads and leaves."""

    def __init__(self, hostile, library, name, source, workers):
        self.hostile, self.library, self.name, self.workers = hostile, library, name, workers
        self.source = f"{hostile.room}/{name.replace(' ', '_')}.v"
        with open(self.source, "wb") as file:
            file.write(source)
        self.journal = f"{self.source}.journal"
        run = called(hostile.program, "run", self.source, "--workers", "1", "--journal", self.journal)
        # A version of the journal's text that has no line for the monitor region leaves no journal.
        self.has_journal = run.status == 0
        self.whole = entries_of(read(self.journal)) if self.has_journal else None
        self.own = run if self.has_journal else called(hostile.program, "run", self.source, "--workers", "1")

    def words(self, verb, room):
        if verb == "replay":
            return ["replay", self.source, self.journal]
        out = ["--journal", f"{room}/out"] if self.has_journal else []
        return ["run", self.source, "--workers", str(self.workers), *out]

    def call(self, verb, room, **refusals):
        """Calls the program with these refusals; gives its answer, and how many allocations and threads it asked for."""
        remove(f"{room}/out")
        remove(f"{room}/count")
        env = {"LD_PRELOAD": self.library, "REFUSE_COUNT": f"{room}/count"}
        env.update((f"REFUSE_{name.upper()}", str(number)) for name, number in refusals.items())
        answer = called(self.hostile.program, *self.words(verb, room), env=env)
        counts = read(f"{room}/count")
        return answer, list(map(int, counts.split())) if counts else None

    def replay_fault(self, room, lines):
        """What is wrong with the journal of a run that printed these lines."""
        again = called(self.hostile.program, "replay", self.source, f"{room}/out")
        return None if again == Answer(0, lines, b"") else f"its journal is replayed otherwise: {shown(again)}"

    def fault(self, verb, room, answer, is_one_journal):
        """What is wrong with an answer under refusals."""
        wrong = fault_of(answer)
        if wrong:
            return wrong
        if answer.status == 0:
            if verb == "run" and self.has_journal:
                return self.replay_fault(room, answer.out)
            return None if answer.out == self.own.out else "other lines"
        if answer.status != 6:
            return "neither its own answer nor one of memory"
        if verb == "run" and answer.err == STOPPED:
            return self.stopped_fault(room, answer, is_one_journal)
        if answer.out:
            return "lines beside a refusal"
        is_told = answer.err in TOLD[verb] or verb == "replay" and answer.err.startswith(b"vsimtx: entry ")
        return None if is_told else "a line of memory that isn't this command's"

    def stopped_fault(self, room, answer, is_one_journal):
        """What is wrong with a run that was stopped for memory."""
        if not self.has_journal:
            return None
        journal = read(f"{room}/out")
        if journal is None:
            return "a stopped run left no journal"
        entries = entries_of(journal)
        if is_one_journal and entries != self.whole[: len(entries)]:
            return f"its journal is no beginning of the whole one: {journal!r}"
        return self.replay_fault(room, answer.out)


def swept(sweep, verb, how, is_one_journal):
    """Refuses each place in turn until nothing is refused; gives the number of calls and of those that went wrong."""
    hostile, came, wrong, tried = sweep.hostile, Counter(), 0, 0
    place = 1 if how == "thread" else 0
    for first in range(1, MOST, 64):
        numbers = range(first, first + 64)

        def one(number, room):
            answer, counts = sweep.call(verb, room, **{how: number})
            return answer, counts, sweep.fault(verb, room, answer, is_one_journal)

        is_over = False
        for number, (answer, counts, fault) in hostile.over(numbers, one):
            if is_over:
                continue
            tried += 1
            came[kind_of(answer)] += 1
            if counts is None:
                fault = fault or "it left no count"
            elif counts[place] < number:
                is_over = True
                if answer.status != 0:
                    fault = fault or "refused nothing, and yet it fails"
            if fault:
                wrong += 1
                hostile.tell(f"{sweep.name}, {verb}, {sweep.workers} workers, {how} {number}: {shown(answer)}: {fault}")
        if is_over:
            hostile.say(f"{sweep.name}, {verb}, {sweep.workers} workers, {how} 1 to {tried}", came)
            return tried, wrong
    return tried + 1, wrong + 1


def stopped(hostile, library):
    """Refuses each thread of runs without end; gives the number of calls and of those that went wrong."""
    came, wrong, source = Counter(), 0, f"{hostile.room}/endless.v"
    with open(source, "wb") as file:
        file.write(ENDLESS)
    cases = [(workers, thread) for workers in (2, 3, 4, 16) for thread in range(1, workers)]

    def one(case, room):
        words = ["run", source, "--max-entries", str(2**32 - 1), "--workers", str(case[0])]
        env = {"LD_PRELOAD": library, "REFUSE_THREAD": str(case[1])}
        return called(hostile.program, *words, env=env, seconds=SOON)

    for (workers, thread), answer in hostile.over(cases, one):
        came[kind_of(answer)] += 1
        if answer != NO_WORKER:
            wrong += 1
            hostile.tell(f"a run without end, {workers} workers, thread {thread}: {shown(answer)}: the workers that had begun weren't stopped")
    hostile.say("a run without end, 2 to 16 workers, each thread", came)
    return len(cases), wrong


def run(hostile):
    library = built(hostile.room)
    sources = {**{name: source for name, (source, _) in SMALL.items()}, "strobes": STROBES, "busy": BUSY}
    tried, wrong = stopped(hostile, library)
    for name, source in sources.items():
        for workers in (1, 2, 4):
            sweep = Sweep(hostile, library, name, source, workers)
            kinds = [("run", "at"), ("run", "from")]
            if workers == 1 and sweep.has_journal:
                kinds += [("replay", "at"), ("replay", "from")]
            if workers > 1:
                kinds.append(("run", "thread"))
            for verb, how in kinds:
                made, failed = swept(sweep, verb, how, workers == 1)
                tried, wrong = tried + made, wrong + failed
    return tried, wrong

"""workers: 1 to 16 workers on each small design and on a busy one, and numbers of workers that aren't in range.

Each run ends with status 0 and leaves a journal that replays to its lines. A swap prints the same on any number."""
from collections import Counter

from hostility.answers import Answer, called, fault_of, kind_of, shown
from hostility.sources import BUSY, SMALL

RUNS = 10
WRONG = ("0", "17", "-1", "+1x", "", " ", "1.0", "0x2", "4294967297", "99999999999999999999")


def run(hostile):
    came, wrong = Counter(), 0
    sources = {**SMALL, "busy": (BUSY, None)}
    for room in hostile.rooms:
        for name, (source, _) in sources.items():
            with open(f"{room}/{name}", "wb") as file:
                file.write(source)
    cases = [(name, workers) for name in sources for workers in range(1, 17) for _ in range(RUNS)]

    def one(case, room):
        name, workers = case
        journal = f"{room}/journal"
        answer = called(hostile.program, "run", f"{room}/{name}", "--workers", str(workers), "--journal", journal)
        lines = sources[name][1]
        fault = fault_of(answer) or (None if answer.status == 0 and lines in (None, answer.out) else "it doesn't end as it has to")
        if not fault:
            again = called(hostile.program, "replay", f"{room}/{name}", journal)
            fault = None if again == answer else f"its journal is replayed otherwise: {shown(again)}"
        return answer, fault

    for (name, workers), (answer, fault) in hostile.over(cases, one):
        came[kind_of(answer)] += 1
        if fault:
            wrong += 1
            hostile.tell(f"{name}, {workers} workers: {shown(answer)}: {fault}")
    for workers in WRONG:
        answer = called(hostile.program, "run", f"{hostile.rooms[0]}/swap", f"--workers={workers}")
        came[kind_of(answer)] += 1
        if fault_of(answer) or answer.status != 2:
            wrong += 1
            hostile.tell(f"{workers!r} workers: {shown(answer)}")
    hostile.say("1 to 16 workers, and numbers out of range", came)
    return sum(came.values()), wrong

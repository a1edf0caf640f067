"""calls: each allocation of calls of the libraries is refused in turn, alone and with all after it.

The calls are made by tests, whose programs `rt test` leaves, under the allocator of refuse.c. A test passes all the same, or it stops and says `memory`, as it
does wherever a call answers want of memory: what a call answers in place of that, and what a refusal leaves changed behind it, is told otherwise. TESTS has
those in which no thread races and none holds memory itself, with the calls that they make."""
import os
import re
import subprocess
from collections import Counter

from hostility.answers import TOP, called
from hostility.refused import built

TESTS = {
    "tests_sequential": [
        # parse, elaborate, run_turn and fill_turn
        "language::parsing::reads_each_form",
        "language::tasks::refuses_bytes_that_are_not_ascii",
        "behaviour::turns::first_turns",
        "behaviour::turns::knows_nothing_of_the_turn_before",
        "behaviour::turns::waits_and_assigns_later",
        "behaviour::too_long::reads_before_it_is_too_long",
        # read_journal, write_journal and replay_bytes
        "behaviour::journal_text::each_kind_of_entry_is_read",
        "behaviour::journal_text::written::each_kind_of_entry_is_written",
        "behaviour::journal_text::written::a_journal_of_version_1_is_written_in_version_2",
        "behaviour::journal_text::failing::a_reader_may_give_one_byte_a_call",
        "behaviour::replays::a_failed_write_is_told",
    ],
    "tests_concurrent": [
        # a gate's opening, commit, too_long, commit_held, update, update_all, rest, stop, snapshot and close; turns that are committed
        # at once, a test in the gate refuses memory to
        "examples::each_call_answers_as_it_stands",
        "examples::a_stop_after_any_entry_leaves_what_was_committed",
        # drive, beside replay: a swap, a glitch, two writers and two copies among others
        "driven::worked::leads_along_a_lawful_journal",
        "driven::worked::names_the_first_entry_that_is_not_lawful",
        # a pool's opening, put, take, steal and close
        "deques::a_pool_of_two",
    ],
}
TOLD = re.compile(rb"(.*\W)?memory( \d+)?|.*: Alloc(Error|Failed .*)", re.IGNORECASE)


def program_of(hostile, crate):
    """The program of a crate's tests. It is built where it isn't there."""
    path = f"{hostile.tests or f'{TOP}/crates/{crate}/out'}/{crate}_tests"
    if not os.access(path, os.X_OK) and not hostile.tests:
        subprocess.run([f"{TOP}/tools/libraries", crate], check=True)
        subprocess.run(["rt", "test"], cwd=f"{TOP}/crates/{crate}", stdout=subprocess.DEVNULL, check=True)
    if not os.access(path, os.X_OK):
        raise SystemExit(f"hostile: {path} can't be run")
    return path


def call(program, test, library, room, **refusals):
    """Runs a test with these refusals; gives its answer, and how many allocations it asked for."""
    count = f"{room}/count"
    if os.path.exists(count):
        os.remove(count)
    env = {"LD_PRELOAD": library, "REFUSE_COUNT": count}
    env.update((f"REFUSE_{name.upper()}", str(number)) for name, number in refusals.items())
    answer = called(program, test, env=env, stderr=subprocess.STDOUT)
    if not os.path.exists(count):
        return answer, None
    with open(count, encoding="ascii") as file:
        return answer, int(file.read().split()[0])


def first_line(answer):
    """What a test that stopped says."""
    return answer.out.strip().split(b"\n")[0]


def swept(hostile, program, test, library, how, count):
    """Refuses each allocation of a test in turn; gives the number of calls that went wrong."""
    came, wrong = Counter(), 0

    def one(number, room):
        return call(program, test, library, room, **{how: number})[0]

    for number, answer in hostile.over(range(1, count + 1), one):
        is_told = answer.status not in (0, None) and TOLD.fullmatch(first_line(answer))
        came["passed" if answer.status == 0 else "memory" if is_told else "else"] += 1
        if answer.status != 0 and not is_told:
            wrong += 1
            hostile.tell(f"{test}, {how} {number}: status {answer.status}: {answer.out[:200]!r}")
    hostile.say(f"{test}, {how} 1 to {count}", came)
    return wrong


def run(hostile):
    library = built(hostile.room)
    tried = wrong = 0
    for crate, tests in TESTS.items():
        program = program_of(hostile, crate)
        for test in tests:
            answer, count = call(program, test, library, hostile.room)
            if answer.status != 0 or not count:
                hostile.tell(f"{test} asks for {count} allocations, and ends with status {answer.status}: {answer.out[:200]!r}")
                tried, wrong = tried + 1, wrong + 1
                continue
            for how in ("at", "from"):
                tried, wrong = tried + count, wrong + swept(hostile, program, test, library, how, count)
    return tried, wrong

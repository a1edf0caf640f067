"""devices: files and outputs that fail, and paths that lead nowhere. Each case has one answer."""
import os
import resource
import signal
import stat
import subprocess
from collections import Counter

from hostility.answers import Answer, called, fault_of, kind_of, shown
from hostility.sources import SWAP, SWAP_LINES

CANNOT_WRITE = Answer(1, b"", b"vsimtx: cannot write\n")
REFUSED = b"module t; initial a=1'b0; endmodule\n"
REFUSED_TOLD = b"vsimtx: E1 undeclared a\n"
OLD = b"an old OUT\n"


def most(size):
    """Lets the new process write so many bytes into a file, and then fails, as a full disk does."""

    def prepare():
        signal.signal(signal.SIGXFSZ, signal.SIG_IGN)
        resource.setrlimit(resource.RLIMIT_FSIZE, (size, size))

    return prepare


def read(path):
    if not os.path.exists(path):
        return None
    with open(path, "rb") as file:
        return file.read()


def put(path, text, mode=0o644):
    with open(path, "wb") as file:
        file.write(text)
    os.chmod(path, mode)


def parts(room):
    """The files that were begun and are still there."""
    return [it for it in os.listdir(room) if it.startswith(".vsimtx-")]


class Cases:
    """What was tried, and how often which answer came."""

    def __init__(self, hostile):
        self.hostile, self.came, self.tried, self.wrong = hostile, Counter(), 0, 0

    def want(self, named, answer, wanted, also=True):
        """An answer has to be this one, and something else has to hold."""
        self.tried += 1
        self.came[kind_of(answer)] += 1
        if fault_of(answer) or answer != wanted or not also:
            self.wrong += 1
            self.hostile.tell(f"{named}: {shown(answer)}, and not {shown(wanted)}{'' if also else ', or what it left is wrong'}")


def paths(cases, program, room, source, journal):
    """Paths that lead nowhere, or to what can't be read or written."""
    run = lambda *words: called(program, "run", *words)
    replay = lambda *words: called(program, "replay", *words)
    for out in (f"{room}/none/out", room, "", "/", f"{room}/" + 300 * "n", "/proc/none"):
        cases.want(f"OUT {out!r}", run(source, "--journal", out), CANNOT_WRITE)
    cases.want("OUT /dev/full", run(source, "--journal", "/dev/full"), CANNOT_WRITE)
    cases.want("OUT /dev/null", run(source, "--journal", "/dev/null"), Answer(0, SWAP_LINES, b""))
    for file in (f"{room}/none", room, "", f"{source}/none", f"{room}/" + 300 * "n", "/proc/self/mem"):
        told = Answer(1, b"", b"vsimtx: cannot read %s\n" % file.encode())
        cases.want(f"FILE {file!r}", run(file), told)
        cases.want(f"FILE {file!r} of a replay", replay(file, journal), told)
    for file in (f"{room}/none", ""):
        cases.want(f"JOURNAL {file!r}", replay(source, file), Answer(1, b"", b"vsimtx: cannot read %s\n" % file.encode()))
    for file in (room, "/proc/self/mem"):
        cases.want(f"JOURNAL {file!r}", replay(source, file), Answer(1, b"", b"vsimtx: Q4 journal read error\n"))
    cases.want("FILE /dev/null", run("/dev/null"), Answer(3, b"", b"vsimtx: P2 syntax at token 1\n"))
    cases.want("JOURNAL /dev/null", replay(source, "/dev/null"), Answer(5, b"", b"vsimtx: Q1 journal header\n"))


def outputs(cases, program, room, source, journal):
    """Standard output and standard error that are full, or that nobody reads."""
    out = f"{room}/out"
    for words in (["run", source, "--journal", out], ["replay", source, journal]):
        with open("/dev/full", "wb") as full:
            cases.want(f"{words[0]} onto a full device", called(program, *words, stdout=full), CANNOT_WRITE)
        reader, writer = os.pipe()
        os.close(reader)
        cases.want(f"{words[0]} into a closed pipe", called(program, *words, stdout=writer), CANNOT_WRITE)
        os.close(writer)
    written = read(out)
    cases.want("the journal stands before the lines", Answer(0, b"", b""), Answer(0, b"", b""), written == read(journal))
    refused = f"{room}/refused"
    with open(refused, "wb") as file:
        file.write(REFUSED)
    with open("/dev/full", "wb") as full:
        cases.want("a fault told on a full device", called(program, "run", refused, stderr=full)._replace(err=REFUSED_TOLD), Answer(3, b"", REFUSED_TOLD))
    reader, writer = os.pipe()
    os.close(reader)
    cases.want("a fault told into a closed pipe", called(program, "run", refused, stderr=writer)._replace(err=REFUSED_TOLD), Answer(3, b"", REFUSED_TOLD))
    os.close(writer)


def lengths(cases, program, room, source, journal):
    """Files that take so many bytes: OUT is as it was and no line is printed, and output has the beginning of the lines."""
    whole, out, lines = read(journal), f"{room}/out", f"{room}/lines"
    for size in range(len(whole) + 1):
        put(out, OLD, 0o640)
        answer = called(program, "run", source, "--journal", out, before=most(size))
        is_short = size < len(whole)
        wanted = CANNOT_WRITE if is_short else Answer(0, SWAP_LINES, b"")
        left = read(out) == (OLD if is_short else whole) and stat.S_IMODE(os.stat(out).st_mode) == 0o640
        cases.want(f"OUT of {size} bytes", answer, wanted, left and not parts(room))
    for words in (["run", source], ["replay", source, journal]):
        for size in range(len(SWAP_LINES) + 1):
            with open(lines, "wb") as file:
                answer = called(program, *words, before=most(size), stdout=file)
            wanted = CANNOT_WRITE if size < len(SWAP_LINES) else Answer(0, b"", b"")
            cases.want(f"{words[0]} onto {size} bytes", answer, wanted, read(lines) == SWAP_LINES[:size])


def spared(cases, program, room, source, journal):
    """An OUT that is FILE is refused, by each path and link; a link is followed, and what it leads to is replaced."""
    hard, soft, far, out = (f"{room}/{it}" for it in ("hard", "soft", "far", "out"))
    os.link(source, hard)
    os.symlink("swap", soft)
    os.symlink("soft", far)
    for path in (source, f"{room}/./swap", f"{room}/../{os.path.basename(room)}/swap", hard, soft, far):
        for file in (source, hard, far):
            answer = called(program, "run", file, "--journal", path)
            cases.want(f"OUT {path!r} of FILE {file!r}", answer, CANNOT_WRITE, read(source) == SWAP)
    os.symlink("swap", f"{room}/all.1.journal")
    cases.want("the first journal of a search is FILE", called(program, "races", source, "--journals", f"{room}/all"), CANNOT_WRITE, read(source) == SWAP)
    put(out, OLD, 0o444)
    if os.getuid():
        cases.want("OUT that may not be written", called(program, "run", source, "--journal", out), CANNOT_WRITE, read(out) == OLD)
    put(out, OLD, 0o604)
    os.symlink("out", f"{room}/to_out")
    answer = called(program, "run", source, "--workers", "1", "--journal", f"{room}/to_out")
    left = os.path.islink(f"{room}/to_out") and read(out) == read(journal) and stat.S_IMODE(os.stat(out).st_mode) == 0o604
    cases.want("OUT by a link", answer, Answer(0, SWAP_LINES, b""), left)
    os.symlink("nowhere", f"{room}/to_nowhere")
    answer = called(program, "run", source, "--workers", "1", "--journal", f"{room}/to_nowhere")
    cases.want("OUT by a link that leads nowhere", answer, Answer(0, SWAP_LINES, b""), read(f"{room}/nowhere") == read(journal))
    for path in ("/dev/stdout", f"{room}/lines"):
        with open(f"{room}/lines", "wb") as file:
            answer = called(program, "run", source, "--workers", "1", "--journal", path, stdout=file)
        cases.want(f"OUT {path!r} that is standard output", answer, Answer(0, b"", b""), read(f"{room}/lines") == read(journal) + SWAP_LINES)
    with open(source, "rb") as file:
        answer = called(program, "run", "-", "--journal", source, stdin=file)
    cases.want("OUT that is standard input", answer, CANNOT_WRITE, read(source) == SWAP)
    with open(source, "rb") as file:
        cases.want("FILE that is standard input", called(program, "run", "-", stdin=file), Answer(0, SWAP_LINES, b""))
    cases.want("nothing is left of what was begun", Answer(0, b"", b""), Answer(0, b"", b""), not parts(room))


def pipes(cases, program, room, source, journal):
    """FILE and JOURNAL that are pipes, and give a byte at a time or end early."""
    for name, path, words in (
        ("FILE", source, lambda it: ["run", it]),
        ("JOURNAL", journal, lambda it: ["replay", source, it]),
    ):
        text = read(path)
        pipe = f"{room}/pipe"
        os.mkfifo(pipe)
        feeding = subprocess.Popen(["sh", "-c", f'while IFS= read -r line; do printf "%s\\n" "$line"; done < "{path}" > "{pipe}"'])
        cases.want(f"{name} by lines of a pipe of {len(text)} bytes", called(program, *words(pipe)), Answer(0, SWAP_LINES, b""))
        feeding.wait()
        os.remove(pipe)


def run(hostile):
    cases, room, program = Cases(hostile), hostile.room, hostile.program
    source, journal = f"{room}/swap", f"{room}/journal"
    with open(source, "wb") as file:
        file.write(SWAP)
    cases.want("the swap", called(program, "run", source, "--workers", "1", "--journal", journal), Answer(0, SWAP_LINES, b""))
    for part in (paths, outputs, lengths, spared, pipes):
        part(cases, program, room, source, journal)
    hostile.say("failing files and outputs", cases.came)
    return cases.tried, cases.wrong

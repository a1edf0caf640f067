"""What `races` names, compared with the journals that it names beside the orders, and with processes that can't matter.

A journal beside `the first before the second` has that order, and one beside `the second before the first` the other: `vsimtx explain` tells the turns of
both processes in it. A process that reads a register and does nothing with it is put into a design; it is named in no race.
"""
import os
import re

from hostility.answers import called, shown
from ordering.asking import Difference, write
from ordering.tree import Module, Process, module_text

# Each process of a design that is made here stands in one line, and so does all that it does.
ROLE = r"  process (\d+), (?:initial|always) at line (\d+), ([a-z ]+?)(?: at line (\d+))?\n"
ORDER = r"  the {} before the {}(?: \((\S+)\))?: .*\n"
RACE = re.compile(r"race \d+: (.*), time (\d+)\n" + ROLE + ROLE + ORDER.format("first", "second") + ORDER.format("second", "first"))
PRINTERS = re.compile(r"^at time \d+ the lines of processes (.*) come in another order in another run(?: \(\S+\))?$", re.MULTILINE)
PRINTER = re.compile(r"(\d+) \(line \d+\)")
LINE = re.compile(r"\d+  time (\d+)  (?:\S+  )?(.*)")
TURN = re.compile(r"turn of process (\d+), ")
# A journal takes so many entries at most, so that designs without an end are asked too.
MOST_ENTRIES = 2000


class Race:
    """A race, as it is told: its time, the numbers of its two processes, what each does, where each begins and does so, and the journals that are named."""

    def __init__(self, found):
        self.site, self.time = found[1], int(found[2])
        self.first, self.second = (int(found[3]), found[5]), (int(found[7]), found[9])
        self.lines = (found[5], found[4], found[6]), (found[9], found[8], found[10])
        self.journals = found[11], found[12]


def races_of(out):
    """The races that a report tells; each race's lines have to be known."""
    text = out.decode()
    races = [Race(it) for it in RACE.finditer(text)]
    if len(races) != len(re.findall(r"^race \d+: ", text, re.MULTILINE)):
        raise Difference(f"races: lines on a race that aren't known: {text!r}")
    for does, begins, line in (role for race in races for role in race.lines):
        if line != (None if does == "takes a turn" else begins):
            raise Difference(f"races: a process in line {begins} {does} in line {line}: {text!r}")
    return races


def printers_of(out):
    """The processes whose lines come in another order in another run, as a report tells them; each such line has to be known."""
    text = out.decode()
    told = PRINTERS.findall(text)
    if len(told) != len(re.findall(r"^at time ", text, re.MULTILINE)):
        raise Difference(f"races: a line on the order of lines that isn't known: {text!r}")
    return {int(number) for it in told for number in PRINTER.findall(it)}


def stretches(program, source, journal):
    """The entries of a journal in words, parted at the changes of the regions: the time of each part, and its entries."""
    answer = called(program, "explain", source, journal)
    if answer.status != 0:
        raise Difference(f"explain of {os.path.basename(journal)}: {shown(answer)}")
    parts = [[0, []]]
    for line in answer.out.decode().splitlines():
        found = LINE.fullmatch(line)
        if not found:
            continue
        time, what = int(found[1]), found[2]
        if what.startswith(("activates", "advances", "makes the lines")):
            parts.append([time, []])
        else:
            parts[-1][0] = time
            parts[-1][1].append(what)
    return parts


def is_of(entry, site, role):
    """Whether an entry may be that of a process that is told to do this: a turn of it, or an update of the register."""
    process, does = role
    if does == "updates it":
        return entry.startswith(f"update of {site.removeprefix('register ')} to ")
    turn = TURN.match(entry)
    return bool(turn and int(turn[1]) == process)


def has_order(parts, race, one, other):
    """Whether one part of a journal, at the time of a race, has an entry of one role before one of the other. Behind one that finishes the run none comes."""
    for time, entries in parts:
        if time != race.time:
            continue
        for at, entry in enumerate(entries):
            if not is_of(entry, race.site, one):
                continue
            if any(is_of(it, race.site, other) for it in entries[at + 1 :]):
                return True
            if one[1] == "finishes the run" and at == len(entries) - 1:
                return True
    return False


def check_orders(program, source, races):
    """Each journal that is named beside an order has it. Gives how many were named."""
    parts = {}
    named = 0
    for race in races:
        for journal, one, other in ((race.journals[0], race.first, race.second), (race.journals[1], race.second, race.first)):
            if journal is None:
                continue
            named += 1
            if journal not in parts:
                parts[journal] = stretches(program, source, journal)
            if not has_order(parts[journal], race, one, other):
                raise Difference(f"races: {os.path.basename(journal)} is named where process {one[0]} comes before process {other[0]} at time {race.time} ({race.site}), and it doesn't")
    return named


def bystander(module, random):
    """The module with one more process, which reads a register and does nothing with what it reads, and the number of that process."""
    names = [name for name, _ in module.registers]
    read = random.choice(names)
    registers = (*module.registers, ("unread", None))
    reads = ("assign" if random.random() < 0.6 else "later", "unread", None, ("unary", "|", ("name", read)))
    if random.random() < 0.2:
        reads = ("if", ("name", read), (), None)
    way = random.random()
    if way < 0.6:
        process = Process(True, ("await", ((random.choice(("posedge", "negedge", "")), random.choice(names)),), reads))
    elif way < 0.8:
        process = Process(True, ("await", (("", read),), reads))
    else:
        process = Process(False, ("delay", random.choice((0, 1, 2, 3)), reads))
    at = random.randint(0, len(module.processes))
    return Module(module.name, registers, (*module.processes[:at], process, *module.processes[at:])), at


def ask_names(program, module, until, room, random):
    """No race names the process that does nothing, and each journal named has its order. Gives how many races and journals were named."""
    module, number = bystander(module, random)
    source = f"{room}/source.v"
    write(source, module_text(module))
    words = ("--until", str(until), "--max-entries", str(MOST_ENTRIES), "--max-states", "2000", "--max-texts", "1000", "--journals", f"{room}/shown")
    answer = called(program, "races", source, *words)
    if answer.status not in (0, 4, 7):
        raise Difference(f"races: {shown(answer)}")
    races = races_of(answer.out)
    for race in races:
        if number in (race.first[0], race.second[0]):
            raise Difference(f"races: process {number}, which does nothing, is named: {race.site}, time {race.time}")
    if number in printers_of(answer.out):
        raise Difference(f"races: process {number}, which does nothing, is named for the order of lines")
    return len(races), check_orders(program, source, races)

"""All lawful orders of a design: one journal after another, and with states merged that differ only in the numbers of events."""
from collections import namedtuple

from ordering.model import ends, entries, is_evaluation, start, step

# `found` has a journal for each pair of a text and an end; `steps` counts the entries that were taken; `states` those that were kept; `endless` says
# whether a state was kept from which no end is reached, where states are merged.
Found = namedtuple("Found", "found steps states endless")


def journal_to(way):
    """The journal that a way leads back on."""
    entries = []
    while way:
        way, entry = way
        entries.append(entry)
    return entries[::-1]


def has_endless(ended, before):
    """Whether one of these states comes to no end: `ended` are those at which a run may end, `before` has those that lead to each one."""
    reached, waiting = set(ended), list(ended)
    while waiting:
        for key in before.get(waiting.pop(), ()):
            if key not in reached:
                reached.add(key)
                waiting.append(key)
    return any(key not in reached for key in before)


def search(design, until, most_steps, most_entries, key_of=None, first=None):
    """Every lawful journal in time, from the start or from a state, but for those that come to a state with a key that was there, with the same text.
    None where there are more steps than these, or a journal has more entries."""
    first = first or start(design)
    found, steps, seen = {}, 0, {(key_of(first), "")} if key_of else set()
    ended, before = set(), {key_of(first): set()} if key_of else {}
    waiting = [(first, "", None, 0)]
    while waiting:
        s, text, way, length = waiting.pop()
        for end in ends(design, s, until):
            found.setdefault((text, end), way)
            if key_of:
                ended.add(key_of(s))
        for entry in entries(design, s, until):
            steps += 1
            if steps > most_steps or length == most_entries:
                return None
            after, more = step(design, s, entry)
            if key_of:
                key = (key_of(after), text + more)
                before.setdefault(key[0], set()).add(key_of(s))
                if key in seen:
                    continue
                seen.add(key)
            waiting.append((after, text + more, (way, entry), length + 1))
    return Found({pair: journal_to(way) for pair, way in found.items()}, steps, len(seen), has_endless(ended, before))


def updates_of(events):
    return tuple(it for number, it in sorted(events, key=lambda event: event[0]) if not is_evaluation(it))


def processes_of(events):
    return frozenset(it for number, it in events if is_evaluation(it))


def key_of(s):
    """A state without the numbers of its events: evaluations as sets, updates in order."""
    if s.finished:
        return "finished"
    return (
        s.time, s.store, s.rests, s.triggers, processes_of(s.active), updates_of(s.active), processes_of(s.inactive), updates_of(s.nonblocking), s.monitor,
        frozenset((time, event[1]) for time, event in s.future_inactive), tuple((time, event[1]) for time, event in s.future_nonblocking),
    )


def brute(design, until, most_steps=15000, most_entries=400):
    """Every lawful journal in time, each on its own."""
    return search(design, until, most_steps, most_entries)


def merging(design, until, most_steps=60000, most_entries=1000):
    """The same with equal states taken once."""
    return search(design, until, most_steps, most_entries, key_of)


def waves(design, until, registers, most_steps=60000, most_entries=1000):
    """Each wave of a lawful journal in time, with its end, where these registers are observed; and whether a state was kept from which no end is reached. Equal
    states with one wave are taken once. None where there are more steps than these, or a journal has more entries.

    A wave has a tuple for each advance: the time that passes, the lines that were printed since the last one in the order of their bytes, and the values of
    the registers. Behind these it has the lines since the last advance, and the time and the values at the end, but for `$finish`."""
    first, none = start(design), ()
    found, steps, seen = set(), 0, {(key_of(start(design)), none, none)}
    ended, before = set(), {key_of(first): set()}
    waiting = [(first, none, none, 0)]
    while waiting:
        s, passed, lines, length = waiting.pop()
        values = tuple(s.store[it] for it in registers)
        for end in ends(design, s, until):
            found.add(((passed, lines, None if s.finished else (s.time, values)), end))
            ended.add(key_of(s))
        for entry in entries(design, s, until):
            steps += 1
            if steps > most_steps or length == most_entries:
                return None
            after, more = step(design, s, entry)
            told = tuple(more.splitlines(keepends=True))
            if entry[0] == "A":
                key = (key_of(after), (*passed, (s.time, lines, values)), tuple(sorted(told)))
            else:
                key = (key_of(after), passed, tuple(sorted(lines + told)))
            before.setdefault(key[0], set()).add(key_of(s))
            if key not in seen:
                seen.add(key)
                waiting.append((after, *key[1:], length + 1))
    return found, has_endless(ended, before)


def wave_of(design, journal, registers):
    """The wave of a journal, and the state that it leads to."""
    s, passed, lines = start(design), (), ()
    for entry in journal:
        values = tuple(s.store[it] for it in registers)
        if entry[0] == "A":
            passed, lines = (*passed, (s.time, lines, values)), ()
        s, more = step(design, s, entry)
        lines = tuple(sorted(lines + tuple(more.splitlines(keepends=True))))
    return (passed, lines, None if s.finished else (s.time, tuple(s.store[it] for it in registers)))

"""The small list of calls that crates/driver_calls is run on by `rt ci`, chosen from the cases, and what must come back."""

import os
import random
from collections import Counter
from itertools import islice

import calls
import programs
import wanted

FOLDER = os.path.join(programs.ROOT, "crates", "driver_calls")
# How many cases of a call are chosen at most, by the bytes of the call: of cards, of watches, and of racks.
MOST = [(1000, 5), (5000, 2), (25000, 1)]


def first_number(due):
    """The number with which an answer begins."""
    while isinstance(due, tuple):
        due = due[0] if due else 0
    return due


# The calls whose answers begin with a verdict.
WITH_VERDICT = {
    "begin", "push", "finish", "write card", "read card", "make", "make record", "start", "stroke", "stroke in place",
    "strokes", "park", "park behind", "park narrow", "park narrow behind", "resume", "scan", "stroke shared",
    "begin rack", "put in", "take out", "stroke rack", "midi", "report begin", "report feed", "check head"}


def refusal_of(name, number):
    """The refusal with which an answer begins, 0 where it has none or begins with another number."""
    return number if name in WITH_VERDICT else 0


def looked_at(groups):
    """Of the first group all cases in their order; of each other the first thousand and then every ninth, at random."""
    for place, (_, cases) in enumerate(groups):
        some = [case for i, case in enumerate(islice(cases(), 9000)) if i < 1000 or i % 9 == 0]
        if place:
            random.Random(place).shuffle(some)
        for _, name, parts, *_ in some:
            yield name, parts


def chosen(groups):
    """A few cases of each call, in which its answers begin with different numbers, a 0 among them; each refusal; and at
    least one case of each call."""
    taken, refusals, seen, others = Counter(), {0}, set(), {}
    for name, parts in looked_at(groups):
        if wanted.leaves_free(name, parts):
            continue
        number, size = first_number(wanted.wanted(name, parts)), len(calls.encode(name, *parts))
        most = next((most for bytes_, most in MOST if size < bytes_), 0)
        free = taken[name] + (number != 0 and (name, 0) not in seen) < most     # a place is kept for the 0
        if most and (refusal_of(name, number) not in refusals or free and (name, number) not in seen):
            taken[name] += 1
            refusals.add(refusal_of(name, number))
            seen.add((name, number))
            yield name, parts
        others.setdefault(name, parts)
    for name in calls.CALLS:
        if not taken[name]:
            yield name, others[name]


def write(groups):
    """Writes the calls and what must come back of them where `rt ci` looks for them; how many they are."""
    cases = list(chosen(groups))
    sent = b"".join(calls.encode(name, *parts) for name, parts in cases)
    due = b"".join(calls.encode_answer(name, wanted.wanted(name, parts)) for name, parts in cases)
    os.makedirs(FOLDER, exist_ok=True)
    for name, data in (("stdin", sent), ("stdout", due)):
        with open(os.path.join(FOLDER, name), "wb") as file:
            file.write(data)
    return len(cases)

#!/usr/bin/env python3
"""The cases of the trial program (crate `trials`), and what it must write of them.

A case is a key, a pattern and a stream. The program takes the stream several times
over, cut by parking and resuming in other places, and prints counts. What they must
come to is worked out without the crates: answers by the ladder with unlimited lists
(reference.py), occurrences and demand 3 by a search over the bytes (search.py). No cut
may change an answer, so every pass must answer as the ladder does.

    trials.py --write       writes crates/trials/stdin and crates/trials/stdout
    trials.py FILE          what must be written of the cases in a file
"""

import os
import random
import sys
from collections import namedtuple

sys.dont_write_bytecode = True

import inputs
import search
from card import LARGEST_KEY, card_record, field, make_card, number
from reference import Ladder, listing

CRATE = os.path.join(os.path.dirname(os.path.dirname(os.path.abspath(__file__))), "crates", "trials")

Case = namedtuple("Case", "key pattern stream")


# ---- Patterns and streams ----------------------------------------------------

# Keys: three under which collisions are easily made, and two large ones.
KEYS = [2, 3, 5, 1000003, LARGEST_KEY]
LETTERS = [1, 2, 3, 256]

# Flavours of patterns: drawn throughout; with a short period; the same twisted, with
# a long period; one letter throughout, twisted. A twisted pattern holds a collision
# with its own prefixes if its key allows one.
FLAVOURS = DRAWN, PERIODIC, TWISTED, LONG_PERIOD, ONE_TWISTED = tuple(range(5))


def drawn(rng, letters, n):
    """n bytes out of some letters."""
    return bytes(rng.choice(letters) for _ in range(n))


def twin(pattern, turn, key):
    """The pattern with one less at the turn and the key more behind it, which leaves the
    fingerprint as it was; as it was where these are no bytes."""
    upper = pattern[turn]
    lower = pattern[turn + 1] if turn + 1 < len(pattern) else 0
    if upper == 0 or lower + key > 255:
        return pattern
    return (pattern[:turn] + bytes([upper - 1, lower + key]) + pattern[turn + 2:])[:len(pattern)]


def any_pattern(rng, m, flavour, letters, key):
    """A pattern of m bytes, and its period before it was twisted."""
    period = {DRAWN: m, LONG_PERIOD: m // 2 + 1}.get(flavour, rng.randint(1, 9))
    pattern = (drawn(rng, letters, min(period, m)) * m)[:m]
    if flavour in (TWISTED, ONE_TWISTED):
        pattern = twin(pattern, rng.randrange(m), key)
    return pattern, period


def any_piece(rng, pattern, period, letters, key):
    """A piece of a stream: the pattern more often than anything else."""
    kind, turn = rng.randrange(9), rng.randrange(len(pattern))
    if kind == 1:                       # a near miss
        return pattern[:turn] + bytes([(pattern[turn] + 1) % 256]) + pattern[turn + 1:]
    if kind == 2:
        return twin(pattern, turn, key)
    if kind == 3:
        return pattern[:turn + 1]
    if kind == 4:
        return pattern[turn:]
    if kind == 5:
        return drawn(rng, letters, turn % 40 + 1)
    if kind == 6:
        return pattern[-period:]
    return pattern


def any_case(rng, m, n, flavour, key, many):
    """A pattern of m bytes out of so many letters and a stream of n bytes."""
    least = rng.randrange(3)
    letters = [(least + i) % 256 for i in range(1 if flavour == ONE_TWISTED else many)]
    pattern, period = any_pattern(rng, m, flavour, letters, key)
    stream = b""
    while len(stream) < n:
        stream += any_piece(rng, pattern, period, letters, key)
    return Case(key, pattern, stream[:n])


def of_input(one):
    """The case of an input of the printing program."""
    return Case(one.key, one.passage, one.stream)


# ---- The cases -----------------------------------------------------------------

SHORT = 64                      # the longest stream that is cut before each byte alone
LONGEST_PATTERN, LONGEST_STREAM = 4096, 9000
LENGTHS = [1, 2, 3, 4, 5, 7, 8, 9, 15, 16, 17, 31, 32, 33, 63, 64, 65, 100]
LONG_LENGTHS = [2047, 2048, 2049]

# Document 01: case L; M9 and M10, "a phantom"; M11 and M12, "both 15".
CASE_L = Case(2, bytes([1] * 8), bytes([1, 1, 1, 1, 1, 0, 3]))
PHANTOMS = [Case(2, bytes([1, 1, 1, 0]), bytes([1, 1, 0, 2])), Case(2, bytes([1, 1, 1, 1]), bytes([1, 1, 0, 3]))]


def fixed_cases():
    """The cases of crates/trials/stdin. Each length has each flavour with two keys, in a
    stream that is cut before each byte alone too, and in a longer one."""
    yield from [CASE_L, *PHANTOMS, Case(2, b"ding", b"")]
    rng, i = random.Random(1), 0
    for m in LENGTHS:
        for flavour in FLAVOURS * 2:
            key, many = KEYS[i % (3 if flavour in (TWISTED, ONE_TWISTED) else 5)], LETTERS[i // 5 % 4]
            yield any_case(rng, m, SHORT if m < SHORT else 2 * m + SHORT, flavour, key, many)
            yield any_case(rng, m, 400, flavour, key, many)
            i += 1
    for m in LONG_LENGTHS:
        for flavour in FLAVOURS:
            yield any_case(rng, m, 6000, flavour, KEYS[i % 3], LETTERS[i % 4])
            i += 1
    yield any_case(rng, LONGEST_PATTERN, LONGEST_STREAM, TWISTED, 2, 2)
    for kind in (inputs.uneven, inputs.few_prints, inputs.phantoms, inputs.own_phantoms) * 6:
        yield of_input(kind(rng))


def random_cases(seed, count):
    """Cases of every sort, few of them long."""
    rng = random.Random(seed)
    for i in range(count):
        if i % 5 == 0:
            yield of_input(rng.choice([inputs.uneven, inputs.few_prints, inputs.phantoms, inputs.own_phantoms])(rng))
            continue
        m = rng.choice([rng.randint(1, 9), rng.randint(1, 70), rng.choice(LENGTHS), rng.randint(1, 300)])
        n = rng.choice([rng.randint(0, SHORT), rng.randint(0, SHORT), rng.randint(0, 3 * m + 9), 600])
        if rng.random() < 0.01:
            m, n = rng.randint(1, LONGEST_PATTERN), rng.randint(0, LONGEST_STREAM)
        key = rng.choice([*KEYS, rng.randint(2, 20), rng.randint(2, LARGEST_KEY)])
        yield any_case(rng, m, n, rng.choice(FLAVOURS), key, rng.choice(LETTERS))


def written(cases):
    """The program's standard input."""
    return b"".join(number(case.key) + number(len(case.pattern)) + number(len(case.stream)) + case.pattern + case.stream
                    for case in cases)


def read(data):
    """The cases that these bytes are."""
    at = 0
    while at < len(data):
        key, m, n = field(data, at), field(data, at + 4), field(data, at + 8)
        end = at + 12 + m + n
        assert end <= len(data), "cut short"
        yield Case(key, data[at + 12:at + 12 + m], data[at + 12 + m:end])
        at = end


# ---- What must be printed --------------------------------------------------------

def mixed(digest, value):
    """A digest with one number more."""
    return (digest * 65599 + value) % 4294967291


def digest_of(answers):
    """The numbers of all answers, mixed in their order."""
    digest = 0
    for rung, sets, comparisons in answers:
        # a ring is 0, or one more than its start
        for value in (comparisons, len(sets), 0 if rung is None else rung + 1, *(n for one in sets for n in one)):
            digest = mixed(digest, value)
    return digest


def passes_and_cuts(n):
    """How often a stream of n bytes is taken, and how often it is cut in all."""
    # uncut; before each byte; and before each byte alone
    return (2 + n, 2 * n) if n <= SHORT else (2, n)


def line(case):
    """The line of a case. Counts are those of all passes, each of which must answer alike."""
    ladder = Ladder(make_card(case.pattern, case.key))
    answers = [ladder.take(byte) for byte in case.stream]
    faults = search.faults(case.pattern, case.key, case.stream,
                           listing(card_record(case.pattern, case.key) + case.stream))
    assert not faults, "the reference does not meet demand 3: %s" % faults
    rung = [start for start, _, _ in answers if start is not None]
    sets = [one for _, ones, _ in answers for one in ones]
    aside = {first + step * j for first, step, many in sets for j in range(many)}
    found = search.true_occurrences(case.pattern, case.stream)
    passes, cuts = passes_and_cuts(len(case.stream))
    counts = [len(found), len(aside.intersection(found)), len(rung), len(set(rung).difference(found)), len(sets),
              sum(many for _, _, many in sets), sum(comparisons for _, _, comparisons in answers)]
    numbers = [len(case.pattern), len(case.stream), passes, cuts, *(passes * count for count in counts),
               digest_of(answers), 0]
    return b" ".join(b"%d" % n for n in numbers) + b"\n"


COLUMNS = b"pattern stream passes cuts occurrences missed rings false sets aside comparisons digest failures\n"


def lines(cases, end=b"failures 0\n"):
    """What the program must write of these cases."""
    return COLUMNS + b"".join(map(line, cases)) + end


# ---- Runs for differential/gate --------------------------------------------------

def runs():
    """Runs of the program: a name, its standard input, and what it must write."""
    with open(os.path.join(CRATE, "stdin"), "rb") as file:
        data = file.read()
    yield "the crate's cases", data, lines(read(data))
    for seed in range(12):
        cases = list(random_cases(seed, 50))
        yield "50 cases at random, seed %d" % seed, written(cases), lines(cases)
    yield "no case", b"", lines([])
    whole = written([CASE_L, *PHANTOMS])
    spoilt = {"a head cut short": bytes(11), "a pattern cut short": number(2) + number(5) + number(0) + b"ding",
              "a stream cut short": written([CASE_L])[:-1],
              "a long pattern": written([Case(2, bytes(LONGEST_PATTERN + 1), b"")]),
              "a long stream": written([Case(2, b"x", bytes(LONGEST_STREAM + 1))])}
    for name, data in spoilt.items():
        yield name, whole + data, lines([CASE_L, *PHANTOMS], b"a case is cut short or too long\nfailures 1\n")


def main():
    if len(sys.argv) != 2:
        sys.exit(__doc__)
    if sys.argv[1] != "--write":
        with open(sys.argv[1], "rb") as file:
            sys.stdout.buffer.write(lines(read(file.read())))
        return
    cases = list(fixed_cases())
    for name, data in (("stdin", written(cases)), ("stdout", lines(cases))):
        with open(os.path.join(CRATE, name), "wb") as file:
            file.write(data)


if __name__ == "__main__":
    main()

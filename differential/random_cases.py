"""Seeded random cases, (words, call, values): lists of calls as the callers make them, watches and half-made cards that
no history produces, and values and records with numbers replaced."""

import random

from calls import PRINTS
from card import LONGEST_PASSAGE, P, number
from card_cases import card_calls, half_calls
from parked import LAST_NARROW_T, NARROW, WIDE
from records import can_say, card_record, parked_behind, resume, stage_count, watch_record
from reference import LAST_T
from samples import TOP, fed, filled, list_of, listing_nothing, replaced
from values import (FIRST_STAGE, NO_STAGE, NOTE_ROOM, STAGE, T, alone, begin, card_of, finish, gap, joined, make, push,
                    pushed, strokes, tested_lengths, watch_misfits, with_numbers, with_stage)
from watch_cases import PARKING, resumptions

KEYS = [2, 3, 5, 7, 257, 65599, 1234567890, P - 2, P - 1]
LENGTHS = [1, 2, 3, 4, 5, 7, 8, 9, 15, 16, 17, 31, 32, 33, 64, 100, 255, 1000]


def key_of(rng):
    return rng.choice(KEYS[:rng.choice([3, 9])]) if rng.random() < 0.8 else rng.randrange(2, P)


# ---- Passages and streams ------------------------------------------------------------------------

def passage_of(rng, m):
    """m bytes of few letters that repeat themselves after a period, now and then with a wrong one."""
    letters, least = rng.choice([1, 1, 2, 3, 256]), rng.choice([0, 1, 1, 2])
    period = rng.choice([1, 1, 2, 3, 5, 8, m, m // 2 + 1])
    block = [(rng.randrange(letters) + least) % 256 for _ in range(min(period, m))]
    passage = bytearray(block[i % len(block)] for i in range(m))
    if rng.random() < 0.3:
        passage[rng.randrange(m)] = rng.randrange(256)
    return bytes(passage)


def twin(data, at, key):
    """One less at a place and the key more behind it, where these are bytes: the print of the whole is the same."""
    if data[at] and at + 1 < len(data) and data[at + 1] + key < 256:
        return data[:at] + bytes([data[at] - 1, data[at + 1] + key]) + data[at + 2:]
    return data


def stream_of(rng, passage, key, least):
    """Pieces of the passage, of twins of it, and single wrong bytes."""
    stream = b""
    while len(stream) < least:
        kind, at, piece = rng.randrange(7), rng.randrange(len(passage)), passage
        if kind < 3:
            piece = twin(passage, at, key)
        elif kind == 3:
            piece = passage[:at + 1]
        elif kind == 4:
            piece = passage[at:]
        elif kind == 5:
            piece = passage[:at] + bytes([rng.randrange(256)]) + passage[at + 1:]
        stream += piece[:2 * least]
    return stream


# ---- Lists of calls --------------------------------------------------------------------------------

def making(rng, passage, key):
    """The maker's calls, refused ones among them."""
    refusal, half = begin(len(passage), key)
    yield "making a card", "begin", (len(passage), key)
    for at, byte in enumerate(passage[:100]):
        if rng.random() < 0.1:
            yield "making a card, %d bytes in" % at, "finish", (half,)
        yield "making a card, %d bytes in" % at, "push", (half, byte)
        half = push(half, byte)[1]
    yield "making a card", "finish", (half,)
    yield "making a card", "push", (half, 7)
    if not finish(half)[0]:
        yield from card_calls("a card made", finish(half)[1])
        yield "a card made", "read card", (card_record(finish(half)[1]) + filled(rng.randrange(9)),)
    yield "a passage", "make", (passage, key)
    yield "a passage", "make record", (passage, key, filled(rng.randrange(120)))


class Line:
    """A watch under a list of calls, the bytes still to come, and a buffer of records."""

    def __init__(self, rng, card, stream, t):
        self.rng, self.card, self.stream, self.words = rng, card, stream, "list of calls"
        self.watch = listing_nothing(card, t)
        self.buffer, self.used, self.places = filled(rng.randrange(3000)), 0, []

    def byte(self):
        byte, self.stream = self.stream[0], self.stream[1:]
        return byte

    def stroke(self):
        byte = self.byte()
        yield self.words, self.rng.choice(["stroke", "stroke in place"]), (self.watch, byte)
        yield self.words, "stroke shared", (self.watch, self.card[1], self.rng.randrange(self.watch[T] + 1), byte)
        self.watch = strokes(self.watch, bytes([byte]))[0][2]

    def strokes(self):
        data = bytes(self.byte() for _ in range(self.rng.randrange(1, 9)))
        yield self.words, "strokes", (self.watch, data)
        self.watch = strokes(self.watch, data)[-1][2]

    def run(self):
        """A scan, and the same bytes for the printing program."""
        data = bytes(self.byte() for _ in range(self.rng.randrange(60)))
        at = self.rng.choice([0, 0, 0, len(data) // 2, len(data), len(data) + 1])
        size = self.rng.choice([NOTE_ROOM - 1, NOTE_ROOM, 150]) + self.rng.choice([0, 5, 12, 300])
        yield self.words, "scan", (self.watch, at, data, list_of(size))
        yield self.words, "report feed", (self.watch, self.rng.choice([0, 21 * self.watch[T]]), data,
                                          filled(self.rng.choice([2047, 2048, 2060, 2500, 5000])))
        self.watch = ([self.watch] + [one[2] for one in strokes(self.watch, data)])[-1]

    def park(self):
        form, call = self.rng.choice(list(PARKING.items()))
        yield self.words, call, (self.watch, filled(self.rng.randrange(60 + 40 * stage_count(self.card[0]))))
        yield self.words, call + " behind", (self.watch, self.used, self.buffer)
        refusal, used, self.buffer = parked_behind(form, self.watch, self.used, self.buffer)
        if not refusal:
            self.places.append(self.used)
            self.used = used

    def resume(self):
        at = self.rng.choice([*self.places, self.rng.randrange(len(self.buffer) + 1)])
        yield self.words, "resume", (self.card, self.buffer[at:])
        refusal, _, watch = resume(self.card, self.buffer[at:])
        self.watch = self.watch if refusal else watch


def lists_of_calls():
    for seed in range(150):
        rng = random.Random(seed)
        m, key = rng.choice(LENGTHS), key_of(rng)
        passage = passage_of(rng, m)
        yield from making(rng, passage, key)
        t = rng.choice([0, 0, 0, LAST_NARROW_T - 200, LAST_T - 150, LAST_T - 1000000])
        line = Line(rng, make(passage, key)[1], stream_of(rng, passage, key, 3000), t)
        kinds = [line.stroke, line.strokes, line.run, line.park, line.resume]
        for turn in range(60):
            line.words = "list of calls %d, turn %d" % (seed, turn)
            yield from rng.choices(kinds, [10, 5, 3, 3, 2])[0]()


# ---- Watches that no history produces ----------------------------------------------------------------

def random_card(rng):
    m = rng.choice([*LENGTHS, rng.randrange(1, LONGEST_PASSAGE + 1), LONGEST_PASSAGE])
    count = len(tested_lengths(m))
    prints = [rng.randrange(1, 257)] + [rng.choice([0, P - 1, rng.randrange(P)]) for _ in range(count - 1)]
    return (m, key_of(rng), *prints) + (0,) * (PRINTS - count)


def joined_back(f, back, block, times):
    """The print from which f comes by so many joins of a block, where `back` undoes the power of one."""
    if back == 1:
        return (f - times * block) % P
    whole = pow(back, times, P)
    return (f * whole - block * back * (whole - 1) * pow(back - 1, -1, P)) % P


def random_stage(rng, key, t, youngest, oldest, newcomer):
    """A stage that fits at t; now and then one that the newcomer, a start and its print, can join."""
    oldest = min(oldest, t)
    if oldest < youngest or rng.random() < 0.2:
        return NO_STAGE
    first = t - rng.choice([youngest, oldest, oldest, rng.randrange(youngest, oldest + 1)])
    f = rng.choice([0, P - 1, rng.randrange(P)])
    span = t - youngest - first
    if span == 0 or rng.random() < 0.25:
        return alone(first, f)
    step = rng.choice([1, span, rng.randrange(1, span + 1)])
    most = span // step + 1
    held = rng.choice([2, most, rng.randrange(2, most + 1)])
    step_print = rng.choice([0, P - 1, rng.randrange(P)])
    stage = (held, first, f, first + (held - 1) * step, joined(f, key, step_print, step, held - 1), step, step_print)
    return joinable(rng, key, stage, t, youngest, newcomer) if newcomer and rng.random() < 0.6 else stage


def joinable(rng, key, stage, t, youngest, newcomer):
    """The stage moved so that the newcomer stands one step behind its last start, and its gap has the step print; now
    and then the gap is another, or its print is."""
    start_then, f_then = newcomer
    held, first, step = stage[0], stage[1], stage[5]
    last = start_then - step - rng.choice([0, 0, 0, 0, 1, -1])
    if last - (held - 1) * step < first or last > t - youngest:
        return stage
    f_last = rng.randrange(P)
    step_print = (gap(key, last, f_last, start_then, f_then)[1] + rng.choice([0, 0, 0, 1])) % P
    f_first = joined_back(f_last, pow(pow(key, step, P), -1, P), step_print, held - 1)
    return held, last - (held - 1) * step, f_first, last, f_last, step, step_print


def random_watch(rng):
    """A watch that is no misfit, of any numbers, and a byte; ripe starts often match, newcomers often join."""
    card = random_card(rng)
    m, key = card[:2]
    t = rng.choice([1, 2, m - 1, m, 2 * m, rng.randrange(4 * m), rng.randrange(LAST_T), LAST_NARROW_T - 1,
                    LAST_NARROW_T, LAST_NARROW_T + 1, LAST_T - 1, LAST_T])
    watch = listing_nothing(card, t)
    if t:
        watch = with_numbers(watch, [(T + 1, rng.choice([0, P - 1, rng.randrange(P)]))])
    byte = card[2] - 1 if rng.random() < 0.6 else rng.randrange(256)
    f_now, lengths = pushed(watch[T + 1], key, byte), tested_lengths(m)
    newcomer = (t, watch[T + 1])
    for i in range(len(lengths) - 1):
        stage = random_stage(rng, key, t, lengths[i], lengths[i + 1] - 1, newcomer)
        watch, newcomer = with_stage(watch, i, stage), None
        if stage[0] and stage[1] == t + 1 - lengths[i + 1]:
            newcomer = stage[1], stage[2]
            if rng.random() < 0.7:
                watch = with_numbers(watch, [(3 + i, gap(key, *newcomer, t + 1, f_now)[1])])
    return watch, byte


def watch_calls(rng, words, watch, byte):
    yield words, "stroke", (watch, byte)
    yield words, "stroke in place", (watch, byte)
    yield words, "watch fits", (watch,)
    yield words, "strokes", (watch, bytes([byte, rng.randrange(256), byte]))
    yield words, "scan", (watch, 0, bytes([byte]) * 3 + rng.randbytes(8), list_of(rng.choice([104, 105, 110, 200])))
    yield words, "stroke shared", (watch, rng.choice([watch[1]] * 9 + [2]), since_of(rng, watch), byte)
    yield words, "report feed", (watch, rng.choice([0, min(21 * watch[T], TOP)]), bytes([byte]) * 3, filled(2100))
    form, call = rng.choice(list(PARKING.items()))
    yield words, call, (watch, filled(rng.choice([800, 400, 100, 30])))
    yield words, call + " behind", (watch, rng.randrange(50), filled(rng.choice([800, 400, 100, 30])))


def since_of(rng, watch):
    """A count: 0, t, or near a start that a stage lists."""
    starts = [watch[at + 1] for at in range(FIRST_STAGE, len(watch), STAGE) if watch[at]] or [watch[T]]
    least = min(starts)
    return rng.choice([0, watch[T], least, max(least - 1, 0), min(least + 1, TOP), rng.choice(starts)])


def no_histories():
    for seed in range(2500):
        rng = random.Random(seed)
        watch, byte = random_watch(rng)
        assert not watch_misfits(watch)
        words = "watch that no history produces, seed %d" % seed
        yield from watch_calls(rng, words, watch, byte)
        yield from resumptions(words, watch)


# ---- Damaged values --------------------------------------------------------------------------------

NEAR = [0, 1, 2, 3, 255, 256, 257, LONGEST_PASSAGE, LONGEST_PASSAGE + 1, P - 1, P, P + 1, 2 ** 31, 2 ** 32 - 1]
NEAR_WIDE = [2 ** 32, 2 ** 32 + 1, LAST_T - 1, LAST_T, LAST_T + 1, 2 ** 63, TOP]
# t, and first and last of each stage, have 64 bits; all else has 32.
WIDE_PLACES = {T} | {at + place for at in range(FIRST_STAGE, FIRST_STAGE + 20 * STAGE, STAGE) for place in (1, 3)}


def damaged(rng, value, wide_places=frozenset()):
    """The value with one to three numbers replaced by others, near limits or near themselves."""
    used = [place for place, what in enumerate(value) if what] or [0]
    numbers = list(value)
    for _ in range(rng.choice([1, 1, 1, 2, 3])):
        place = rng.choice(used) if rng.random() < 0.8 else rng.randrange(len(value))
        was, bits = numbers[place], 64 if place in wide_places else 32
        near = [was + 1, was - 1, 2 * was, was ^ 1 << rng.randrange(bits), rng.randrange(2 ** bits)]
        near = near + NEAR + (NEAR_WIDE + [was + 2 ** 32] if bits == 64 else [])
        numbers[place] = rng.choice(near) % 2 ** bits
    return tuple(numbers)


def histories(rng):
    """A watch that a history produces, early or late."""
    m, key = rng.choice(LENGTHS), key_of(rng)
    passage = passage_of(rng, m)
    watch = listing_nothing(make(passage, key)[1], rng.choice([0, 0, LAST_NARROW_T - m // 2, LAST_T - 3 * m]))
    return fed(watch, stream_of(rng, passage, key, m)[:rng.randrange(m + m // 2 + 1)])


def damaged_watches():
    for seed in range(2500):
        rng = random.Random(seed)
        watch = damaged(rng, histories(rng) if seed % 2 else random_watch(rng)[0], WIDE_PLACES)
        byte = rng.choice([rng.randrange(256), (watch[2] - 1) % 256])
        yield from watch_calls(rng, "damaged watch, seed %d" % seed, watch, byte)


def random_half(rng):
    """A half-made card that is no misfit."""
    card = random_card(rng)
    m, key, prints = card[0], card[1], card[2:]
    count = rng.choice([0, 1, m - 1, m, rng.randrange(m + 1), rng.choice(tested_lengths(m)) - 1])
    reached = sum(length <= count for length in tested_lengths(m))
    running = rng.choice([0, P - 1, rng.randrange(P)]) if count else 0
    return (m, key, count, running, *prints[:reached]) + (0,) * (PRINTS - reached)


def damaged_cards():
    for seed in range(3000):
        rng = random.Random(seed)
        card, half = random_card(rng), random_half(rng)
        yield from card_calls("card, seed %d" % seed, card)
        yield from half_calls("half-made card, seed %d" % seed, half, rng.randrange(256))
        yield from card_calls("damaged card, seed %d" % seed, damaged(rng, card))
        yield from half_calls("damaged half-made card, seed %d" % seed, damaged(rng, half), rng.randrange(256))


# ---- Damaged records -------------------------------------------------------------------------------

def damaged_record(rng, record):
    """A number or a bit replaced, the length or the kind, bytes put in or left out, or the end cut off."""
    kind, at = rng.randrange(6), rng.randrange(len(record))
    if kind == 0:
        return replaced(record, at, number(rng.choice(NEAR)))[:len(record)]
    if kind == 1:
        return replaced(record, at, bytes([record[at] ^ 1 << rng.randrange(8)]))
    if kind == 2:
        others = [len(record) - 4 + more for more in (-36, -28, -4, -1, 1, 4, 28, 36)]
        return replaced(record, 0, number(max(rng.choice(others + [0, 1, 2, 9, 10, 21, 22, 25, 26]), 0)))
    if kind == 3:
        return replaced(record, 4, number(rng.choice([0, 1, 2, 3, 4, 5, 6, 7, 256 + 4, 1280]), 2))
    if kind == 4:
        more = rng.choice([b"", bytes(4), bytes(8), rng.randbytes(4)])
        return record[:at] + more + record[at + rng.choice([0, 1, 4, 8]):]
    return record[:at]


def damaged_records():
    for seed in range(6000):
        rng = random.Random(seed)
        watch = histories(rng) if seed % 2 else random_watch(rng)[0]
        form = WIDE if watch[T] > LAST_NARROW_T or rng.random() < 0.5 else NARROW
        words, card = "damaged record, seed %d" % seed, card_of(watch)
        other = card + damaged(rng, watch, WIDE_PLACES)[T:]
        if can_say(form, other):
            yield words, "resume", (card, watch_record(form, other))
        record = watch_record(form, watch)
        for _ in range(rng.randrange(1, 3)):
            record = damaged_record(rng, record) or bytes(1)
        rest = filled(rng.choice([0, 0, 3, 60]))
        yield words, "resume", (card, record + rest)
        yield words, "resume", (damaged(rng, card), watch_record(form, watch) + rest)
        yield words, "read card", (damaged_record(rng, card_record(card)) + rest,)
        yield words, "report begin", (damaged_record(rng, card_record(card)) + rest,)


CASES = [("random lists of calls", lists_of_calls), ("watches that no history produces", no_histories),
         ("damaged watches", damaged_watches), ("cards and half-made cards, damaged", damaged_cards),
         ("damaged records", damaged_records)]

"""Cases of the library's parts that write and read, and of its plain search, (words, call, values): fields and heads of
records in buffers of every size at every place, decimal numbers, notes and lines, blocks in streams."""

import random
from itertools import product

from calls import SIZE, STAGES
from card import LARGEST_KEY, P
from card_cases import CARD_RECORDS, record_with
from inputs import phantom
from parked import NARROW, WIDE
from record_cases import KINDS, NARROW_RECORDS, WIDE_RECORDS
from records import card_record, watch_record
from random_cases import NEAR, NEAR_WIDE, WIDE_PLACES, damaged, passage_of, random_watch, stream_of
from reference import LAST_T
from samples import TOP, change_words, changed, filled, list_of, ones, plain_card
from step_cases import KEYS, PRINTS
from steps import LINES_ROOM
from values import NO_ANSWER, NOTE, NOTE_ROOM, T, numbers_of, taken
from watch_cases import FRESH, WATCHES
from written_parts import LONGEST_LINE

NUMBERS = sorted({*NEAR, *NEAR_WIDE})
WIDTHS = [2, 4, 8, 0, 3, TOP]
# Places far past a buffer's end, also such that a sum with them is too large for a place.
FAR = [1000, 2 ** 32, 2 ** 63, TOP - 8, TOP - 7, TOP - 3, TOP - 1, TOP]
SOME_BYTES = bytes([1, 2, 3, 4, 250, 251, 252, 253, 254, 255, 0, 128, 127])


# ---- Fields and heads ----------------------------------------------------------------------------

def places():
    """Every size of a small buffer with every place."""
    return [(SOME_BYTES[:size], at) for size in range(len(SOME_BYTES) + 1) for at in [*range(size + 2), *FAR]]


def fields_read():
    for buffer, at in places():
        words = "at %d of %d bytes" % (at, len(buffer))
        for width in WIDTHS:
            yield "%s, width %d" % (words, width), "field at", (at, width, buffer)
            yield "%s, width %d" % (words, width), "number at", (at, width, buffer)
        for call in ("word at", "key at", "print at"):
            yield words, call, (at, buffer)
    for byte, call in product((0, 127, 128, 255), ("word at", "key at", "print at")):
        yield "bytes of %d" % byte, call, (1, bytes([byte]) * 6)
        yield "bytes of %d" % byte, "number at", (1, 8, bytes([byte]) * 9)


def fields_written():
    for buffer, at in places():
        for value in (0, 1, 0x0123456789ABCDEF, TOP):
            words = "%d at %d of %d bytes" % (value, at, len(buffer))
            for width in WIDTHS:
                yield "%s, width %d" % (words, width), "put field", (at, width, value, buffer)
            for call in ("put word", "put key", "put print"):
                yield words, call, (at, value % 2 ** 32, buffer)
    for value in NUMBERS:
        for width in WIDTHS:
            yield "%d, width %d" % (value, width), "put field", (3, width, value, filled(12))
        for call in ("put word", "put key", "put print"):
            yield "number %d" % value, call, (3, value % 2 ** 32, filled(12))


# Kind and least length: of a card and of both parked records, and such as no record has.
WANTED_KINDS = [(3, 10), (4, 22), (5, 26), (3, 0), (3, 2), (3, 11), (0, 10), (3, TOP), (2 ** 16 + 3, 10), (TOP, 0),
                (2 ** 32 + 4, 22), (2 ** 64 - 2 ** 16 + 5, 26)]


def heads_of_records():
    for size, length, kind in product(range(10), (0, 1, 2 ** 31, 2 ** 32 - 1), (0, 3, 5, 256, 65535, 65536 + 4, TOP)):
        yield "length %d, kind %d, in %d bytes" % (length, kind, size), "put head", (length, kind, filled(size))
    rows = [(card_record(plain_card(5)), CARD_RECORDS), (watch_record(NARROW, ones(5, 0, 3)), NARROW_RECORDS),
            (watch_record(WIDE, ones(5, 0, 3)), WIDE_RECORDS)]
    for record, cases in rows:
        for case, wanted in product(cases, WANTED_KINDS):
            yield "record %s, wanted %s" % (case, wanted), "check head", (*wanted, record_with(record, *case))
    for length, kind, least in product((0, 1, 2, 3, 9, 10, 11, 22, 26), KINDS, (0, 2, 10, 22, 26)):
        for size in {0, 3, 4, 5, 6, length + 3, length + 4, length + 5}:
            buffer = (length.to_bytes(4, "little") + kind.to_bytes(2, "little") + filled(40))[:size]
            for wanted in (3, 4, 5):
                yield ("length %d, kind %d, %d bytes; wanted %d from %d on" % (length, kind, size, wanted, least),
                       "check head", (wanted, least, buffer))


def formats():
    ts = {0, 1, *NEAR_WIDE, 2 ** 32 - 1, LAST_T}
    for wide, t, k in product((0, 1), sorted(ts), (*range(23), 2 ** 31, 2 ** 32 - 1)):
        yield "%s record at %d, %d stages" % ("narrow wide".split()[wide], t, k), "format", (wide, t, k)


# ---- Decimal numbers ---------------------------------------------------------------------------

def texts():
    """Digits of every number, and with each other byte in each place."""
    for byte in range(256):
        yield "byte %d" % byte, "decimal read", (bytes([byte]),)
        for at in range(3):
            text = b"12"[:at] + bytes([byte]) + b"12"[at:]
            yield "text %r" % text, "decimal read", (text,)
    for size in range(14):
        for digit in b"0189":
            yield "%d digits of %d" % (size, digit - 48), "decimal read", (bytes([digit]) * size,)
        for at, wrong in product(range(size), b"/: -+a\0\x80\xb5"):
            text = b"1234567890123"[:size]
            text = text[:at] + bytes([wrong]) + text[at + 1:]
            yield "text %r" % text, "decimal read", (text,)
    for n in NUMBERS:
        for text in (b"%d" % n, b"0%d" % n, b"%010d" % n, b"%d " % n):
            yield "text %r" % text, "decimal read", (text,)
    yield "4096 digits", "decimal read", (b"1" * 4096,)


def digits():
    """Numbers of every length at every place of a buffer."""
    numbers = {0, 1, 9, *(10 ** i + more for i in range(1, 20) for more in (-1, 0, 1)), *NUMBERS}
    for n in sorted(numbers):
        for size in range(24):
            yield "%d into %d bytes" % (n, size), "decimal put", (0, n, filled(size))
    for n, size in product((0, 7, 10, 65535, TOP), range(24)):
        for at in (*range(1, size + 2), *FAR):
            yield "%d at %d of %d bytes" % (n, at, size), "decimal put", (at, n, filled(size))


# ---- Answers and notes ---------------------------------------------------------------------------

SETS = tuple(range(1000, 1000 + SIZE["answer"] - 4))


def answers():
    """Whether one rang, how many sets there are, and what stands past them."""
    for rung, asides in product(((0, 0), (0, 5), (1, 0), (1, 5), (1, TOP), (2, 7)), (0, 1, 2, 19, 20, 21, 2 ** 32 - 1)):
        for comparisons, sets in product((0, 1, 21, 2 ** 32 - 1), (SETS, NO_ANSWER[4:])):
            yield (*rung, asides, comparisons, *sets)
    limit = (TOP, 2 ** 32 - 1, 2 ** 32 - 1)
    yield (1, TOP, 20, 2 ** 32 - 1) + limit * STAGES


def answers_noted():
    for answer in answers():
        words = "rung %d at %d, %d sets, %d comparisons" % (answer[0], answer[1], answer[2], answer[3])
        yield words, "silent", (answer,)
        for name, otherwise in ((0, 0), (300, 5), (65535, TOP)):
            yield words, "report start", (name, answer, otherwise)
        for size in (0, NOTE, NOTE_ROOM - 1, NOTE_ROOM, NOTE_ROOM + 1, NOTE_ROOM + 9):
            for at in {0, 1, max(size - NOTE_ROOM, 0), size - NOTE_ROOM + 1, size, size + 1, TOP - NOTE_ROOM, TOP}:
                if at >= 0:
                    yield ("%s, at %d of %d" % (words, at, size), "put answer", (at, TOP - 3, answer, list_of(size)))
    rng = random.Random(1)
    for seed in range(400):
        watch, byte = random_watch(rng)
        if watch[T] < LAST_T:
            answer = taken(watch, byte)[0]
            yield "answer, seed %d" % seed, "silent", (answer,)
            yield "answer, seed %d" % seed, "report start", (seed, answer, rng.getrandbits(64))
            yield "answer, seed %d" % seed, "put answer", (rng.randrange(30), watch[T] + 1, answer, list_of(120))


# ---- Lines ---------------------------------------------------------------------------------------

LINE_NOTES = [(0, 7, 5, 0, 0), (1, 7, 0, 1, 1), (0, TOP, TOP, TOP, TOP), (1, TOP, TOP, TOP, TOP), (2, 10, 9, 99, 100),
              (TOP, 0, 0, 0, 0), (1, LAST_T, LAST_T, 2 ** 32 - 1, 2 ** 32 - 1)]


def lines():
    for count in range(4 * NOTE):
        notes = numbers_of(LINE_NOTES)[:count]
        room = LONGEST_LINE * (count // NOTE)
        for at in (0, 1, 50):
            for size in {0, max(at + room - 1, 0), at + room, at + room + 1}:
                yield "%d numbers at %d of %d bytes" % (count, at, size), "lines of notes", (at, notes, filled(size))
    for note, other in product(LINE_NOTES, repeat=2):
        yield "notes %s and %s" % (note, other), "lines of notes", (3, note + other, filled(400))
    for at, size in product(FAR, (0, 10, 400)):
        yield "no note at %d of %d bytes" % (at, size), "lines of notes", (at, (), filled(size))
        yield "a note at %d of %d bytes" % (at, size), "lines of notes", (at, LINE_NOTES[0], filled(size))
    for size in (0, 2, LINES_ROOM - 1, LINES_ROOM, LINES_ROOM + 1, LINES_ROOM + 5):
        for at in {0, 1, max(size - LINES_ROOM, 0), max(size - LINES_ROOM, 0) + 1, size, *FAR}:
            for n in (0, 9, 10, 18, 2 ** 32 - 1):
                yield "X %d at %d of %d bytes" % (n, at, size), "line of refusal", (at, n, filled(size))
            for t, total in ((0, 0), (7, 16), (LAST_T, 21 * LAST_T), (TOP, TOP), (TOP, 0), (0, TOP)):
                yield "E %d %d at %d of %d bytes" % (t, total, at, size), "line of end", (at, t, total, filled(size))


def last_lines():
    for verdict, size in product((*range(21), 255, 256, 2 ** 32, 2 ** 32 + 3, TOP),
                                 (0, 100, LINES_ROOM, 2 * LINES_ROOM - 1, 2 * LINES_ROOM, 2 * LINES_ROOM + 1)):
        for t, total in ((0, 0), (7, 16), (LAST_T, 21 * LAST_T), (TOP, TOP)):
            yield ("verdict %d, t %d, total %d, into %d bytes" % (verdict, t, total, size), "report finish",
                   (verdict, t, total, filled(size)))


def totals():
    """Watches that just fit and such as don't, with totals at the most that t bytes can have."""
    for count, rows in ((6, WATCHES), (0, FRESH)):
        for changes in rows:
            watch = changed("watch", ones(16, 0, count), changes)
            for total in {0, 1, 21 * watch[T], 21 * watch[T] + 1, 22 * watch[T], TOP}:
                yield ("watch at %d%s, total %d" % (count, change_words(changes), total), "report fits",
                       (watch, min(total, TOP)))
    rng = random.Random(2)
    for seed in range(500):
        watch = random_watch(rng)[0]
        watch = damaged(rng, watch, WIDE_PLACES) if seed % 3 == 0 else watch
        most = min((STAGES + 1) * watch[T], TOP)
        for total in {most, min(most + 1, TOP), rng.randrange(most + 1)}:
            yield "watch, seed %d, total %d" % (seed, total), "report fits", (watch, total)


# ---- The plain search ------------------------------------------------------------------------------

def blocks():
    """Every block of up to three bytes of two letters at every start of every stream of up to five."""
    words = [bytes(word) for size in range(6) for word in product((0, 1), repeat=size)]
    for stream, block in product(words, words[:15]):
        for start in (*range(len(stream) + 2), TOP):
            yield "%r at %d of %r" % (block, start, stream), "occurs", (start, stream, block)
        for key in (2, P - 1):
            yield "%r in %r, key %d" % (block, stream, key), "collides", (key, stream, block)
    for start in FAR:
        yield "nothing at %d" % start, "occurs", (start, b"ding", b"")
        yield "a byte at %d" % start, "occurs", (start, b"ding", b"d")


def searched():
    """Streams with twins of a passage and without, and the prints of both."""
    for f, key, byte in product(PRINTS, KEYS, (0, 1, 127, 128, 254, 255)):
        yield "print %d, key %d, byte %d" % (f, key, byte), "more", (f, key, byte)
    for key, block in product(KEYS, (b"", b"\0", b"\xff", bytes(9), bytes(range(256)), b"\xff" * 1000)):
        yield "%d bytes, key %d" % (len(block), key), "print of", (key, block)
    # M9 and M10, M11 and M12.
    for key, (one, other) in product((2, 3), ((b"\1\1\1\0", b"\1\1\0\2"), (b"\1\1\1\1", b"\1\1\0\3"))):
        for stream in (one, other, b"\7" + other, other + b"\7", one + other, one[:3], other[:3], one + one):
            yield "%r in %r, key %d" % (one, stream, key), "collides", (key, stream, one)
    for seed in range(900):
        rng = random.Random(seed)
        key = rng.choice([2, 3, 5, rng.choice(KEYS), rng.randrange(2, LARGEST_KEY)])
        passage = passage_of(rng, rng.choice([1, 2, 3, 4, 5, 8, 9, 16, 17, 33]))
        kind = seed % 3
        stream = stream_of(rng, passage, key, 60)[:90] if kind else passage * rng.randrange(4)
        if kind == 2:
            stream = passage + phantom(rng, passage, key, 2) + stream[:10]
        yield "stream, seed %d" % seed, "collides", (key, stream, passage)
        start = rng.randrange(len(stream) + 1)
        yield "stream, seed %d" % seed, "occurs", (start, stream, passage)
        yield "stream, seed %d" % seed, "occurs", (start, stream, stream[start:start + rng.randrange(9)])
        yield "stream, seed %d" % seed, "print of", (key, stream)


CASES = [
    ("parts, fields of records read", fields_read), ("parts, fields of records written", fields_written),
    ("parts, heads of records", heads_of_records), ("parts, formats of records", formats),
    ("parts, decimal numbers read", texts), ("parts, decimal numbers written", digits),
    ("parts, answers and notes", answers_noted), ("parts, lines", lines), ("parts, last lines", last_lines),
    ("parts, totals", totals), ("parts, blocks in streams", blocks), ("parts, streams searched", searched),
]

"""Cases of the steps below and above a watch, (words, call, values): fingerprints, stages, the printing program."""

from card import P
from parked import WIDE
from reference import LAST_T
from records import card_record, watch_record
from samples import PAST_NARROW, TOP, filled, in_room, ones, plain_card
from steps import LINES_ROOM, MOST
from values import T

# ---- Fingerprints ------------------------------------------------------------------------------

PRINTS = [0, 1, 2, 255, 256, 257, 65536, P - 1, P, P + 1, 2 ** 31, 2 ** 32 - 1]
KEYS = [0, 1, 2, 3, 65599, P - 1, P, P + 1, 2 ** 32 - 1]
LENGTHS = [0, 1, 2, 3, 7, 8, 255, 1048576, 2 ** 31 - 2, 2 ** 31 - 1, 2 ** 32 - 1, 2 ** 32, LAST_T, 2 ** 63, TOP]


def fingerprints():
    for f in PRINTS:
        for g in PRINTS:
            yield "prints %d and %d" % (f, g), "print tests", (f, g)
        for key in KEYS:
            for byte in (0, 1, 127, 128, 255):
                yield "print %d, key %d, byte %d" % (f, key, byte), "print push", (f, key, byte)
            for n in LENGTHS:
                words = "print %d, key %d, length %d" % (f, key, n)
                yield words, "key power", (key, n, f)
                for other in PRINTS:
                    yield words, "print join", (f, key, other, n)
                    yield words, "print cut", (f, key, other, n)


# ---- Stages ----------------------------------------------------------------------------------

HELDS = [0, 1, 2, 3, 4, 1000, MOST - 1, MOST]
# First, last, step: in order, exchanged, and at the limits of a place.
PLACES = [(0, 0, 0), (5, 5, 0), (10, 12, 1), (10, 12, 2), (12, 10, 2), (PAST_NARROW - 1, PAST_NARROW + 1, 1),
          (LAST_T - 7, LAST_T, 7), (LAST_T - 6, LAST_T, 7), (LAST_T - MOST, LAST_T, MOST), (LAST_T + 1, LAST_T + 1, 0),
          (LAST_T, LAST_T, 0), (LAST_T, 0, 1), (TOP, TOP, MOST), (TOP, 0, 0), (0, TOP, MOST)]
STAGE_PRINTS = [(0, 0, 0), (1, 2, 3), (P - 1, P - 1, P - 1), (P, P + 1, 2 ** 32 - 1)]


def stages():
    """Any numbers for a stage; its first start is taken off, a newcomer enters."""
    for held in HELDS:
        for first, last, step in PLACES:
            for f_first, f_last, step_print in STAGE_PRINTS:
                stage = (held, first, f_first, last, f_last, step, step_print)
                for key in (0, 2, P - 1, 2 ** 32 - 1):
                    yield "stage %s, key %d" % (stage, key), "take off", (stage, key)
                for newcomer in {0, last, min(last + step, TOP), min(last + MOST, TOP), min(last + MOST + 1, TOP), TOP}:
                    for f in (0, (f_last * pow(3, step, P) + step_print) % P, 2 ** 32 - 1):
                        yield "stage %s, newcomer %d, %d" % (stage, newcomer, f), "enter", (stage, 3, newcomer, f)


# ---- The printing program ------------------------------------------------------------------------

def beginnings():
    """The input's front: cards of every length, cut, with bytes behind, and what is no card."""
    for m in (1, 2, 5, 64, 1048576):
        record = card_record(plain_card(m))
        for size in range(len(record) + 3):
            yield "card of %d, %d bytes" % (m, size), "report begin", (in_room(record)[:size],)
        for size in (97, 98, 99, 800):
            yield "card of %d, %d bytes" % (m, size), "report begin", (in_room(record)[:size],)
    # The longest card's record has 98 bytes; a longer one is cut there, whatever its length says.
    record = card_record(plain_card(1048576))
    for length in (93, 94, 95, 96, 98):
        yield "length %d" % length, "report begin", (bytes([length]) + record[1:] + filled(20),)
    yield "a parked record", "report begin", (watch_record(WIDE, ones(16, 0, 6)),)


# Length, t at which nothing was listed, ones since then.
FED = [(1, 0, 0), (1, 0, 6), (2, 0, 3), (16, 0, 6), (1, PAST_NARROW - 3, 0), (1, LAST_T - 3, 0), (2, LAST_T - 20, 3),
       (16, LAST_T - 7, 6), (1, LAST_T, 0), (1, LAST_T + 1, 0)]
OUTS = [0, 1, LINES_ROOM - 1, LINES_ROOM, LINES_ROOM + 1, LINES_ROOM + 50, LINES_ROOM + 500, 8192]


def feeding():
    """Bytes into buffers of every kind of size, with totals at the most that t bytes can have."""
    for m, t, count in FED:
        watch = ones(m, t, count)
        for out in OUTS:
            for size in (0, 1, 40):
                for total in (0, 5, 21 * watch[T], 21 * watch[T] + 1):
                    yield ("watch of %d at %d, total %d, %d ones into %d" % (m, watch[T], total, size, out),
                           "report feed", (watch, min(total, TOP), bytes([1]) * size, filled(out)))


CASES = [("fingerprints", fingerprints), ("stages", stages), ("the printing program's card", beginnings),
         ("the printing program's bytes", feeding)]

"""Cases of watches handed in: (words, call, values). Each misfit alone beside a value that just fits, t at its limits,
starts of every age, and runs of strokes."""

from card import P
from calls import STAGE_FIELDS
from parked import NARROW, WIDE
from records import can_say, watch_record
from reference import LAST_T
from samples import (PAST_NARROW, ROOM, TOP, change_words, changed, filled, in_room, list_of, listing_nothing, ones,
                     plain_card)
from values import NOTE, NOTE_ROOM, T, card_of, make, start, taken, with_stage

BEHIND = 9
TOO_FEW = {WIDE: 29, NARROW: 25}
PARKING = {WIDE: "park", NARROW: "park narrow"}


def parkings(words, watch):
    """Into a buffer, behind used bytes, and into too few; wide, and then narrow."""
    for form, call in PARKING.items():
        yield words, call, (watch, filled(ROOM))
        yield words, call + " behind", (watch, BEHIND, filled(ROOM))
        yield words, call, (watch, filled(TOO_FEW[form]))


def resumptions(words, watch):
    """From a wide record, and from a narrow one if it can say the watch."""
    for form in PARKING:
        if can_say(form, watch):
            yield words, "resume", (card_of(watch), in_room(watch_record(form, watch)))


def strikes(words, watch, byte=1):
    """A stroke of the core, of the thin entry, of many in one call, of a printing program, and among others."""
    yield words, "stroke", (watch, byte)
    yield words, "stroke in place", (watch, byte)
    yield words, "strokes", (watch, bytes([byte, 0, byte]))
    yield words, "scan", (watch, 0, bytes([byte, 1, 0, 1]), list_of(NOTE_ROOM + 3 * NOTE))
    yield words, "stroke shared", (watch, watch[1], 0, byte)
    yield words, "watch fits", (watch,)


def value_calls(words, watch):
    for byte in (1, 0):
        yield from strikes(words, watch, byte)
    yield from parkings(words, watch)


# ---- Numbers replaced ----------------------------------------------------------------------

# Sixteen ones, of which six were taken: stage 0 lists 5, stage 1 lists 3 and 4, stage 2
# lists 0, 1 and 2, stage 3 none.
WATCHES = [
    (), (("t", 0),), (("t", 5),), (("t", 7),), (("t", 4294967295),),
    (("t", PAST_NARROW + 6),), (("t", LAST_T + 7),), (("t", 2 ** 63 + 6),), (("t", TOP),),
    (("F_t", 0),), (("F_t", P - 1),), (("F_t", P),), (("F_t", 4294967295),),
    *[(("stage 3 " + name, 1),) for name in STAGE_FIELDS],
    (("stage 3 first", PAST_NARROW),), (("stage 3 last", PAST_NARROW),),
    (("stage 3 first", PAST_NARROW), ("stage 3 last", PAST_NARROW)),
    (("stage 0 held", 0),), (("stage 0 held", 2),), (("stage 0 first", 4),),
    (("stage 0 F_first", 0),), (("stage 0 last", 4),), (("stage 0 F_last", 0),),
    (("stage 0 step", 1),), (("stage 0 step print", 1),),
    (("stage 0 F_first", P - 1), ("stage 0 F_last", P - 1)),
    (("stage 0 F_first", P), ("stage 0 F_last", P)),
    (("stage 0 first", PAST_NARROW + 5),), (("stage 0 last", PAST_NARROW + 5),),
    (("stage 0 first", PAST_NARROW + 5), ("stage 0 last", PAST_NARROW + 5)),
    (("stage 0 first", TOP), ("stage 0 last", TOP)),
    (("stage 2 held", 0),), (("stage 2 held", 1),), (("stage 2 held", 2),),
    (("stage 2 held", 4),), (("stage 2 first", 1),), (("stage 2 last", 1),),
    (("stage 2 step", 0),), (("stage 2 step", 2),),
    (("stage 2 held", 2), ("stage 2 step", 2)), (("stage 2 held", 2), ("stage 2 last", 1)),
    (("stage 2 F_first", P - 1),), (("stage 2 F_first", P),), (("stage 2 F_last", P - 1),),
    (("stage 2 F_last", P),), (("stage 2 step print", P - 1),), (("stage 2 step print", P),),
    # The same prints, with which F_last follows: twice doubled and 2 added under key 2, or thrice
    # the step print.
    (("stage 2 F_first", P - 1), ("stage 2 F_last", 2)),
    (("stage 2 F_first", (P - 7) * pow(4, -1, P) % P), ("stage 2 F_last", P - 1)),
    (("stage 2 step print", P - 1), ("stage 2 F_last", P - 3)),
    (("stage 2 held", 4), ("stage 2 last", 3)), (("stage 1 held", 3), ("stage 1 first", 2)),
    (("stage 1 last", 3), ("stage 1 step", 0)),
    (("stage 2 held", 2147483650), ("stage 2 step", 2)),
    (("stage 1 held", 2863311532), ("stage 1 step", 3)),
    (("stage 1 held", 4294967295), ("stage 1 step", 4294967295)),
    (("stage 2 first", PAST_NARROW), ("stage 2 last", PAST_NARROW + 2)),
    (("stage 2 last", PAST_NARROW + 2),), (("stage 2 held", 4), ("stage 2 first", TOP)),
    (("stage 2 first", TOP), ("stage 2 last", TOP)),
]
FRESH = [(), (("F_t", 1),), (("t", 1),), (("t", 1), ("F_t", 1)), (("stage 0 held", 1),),
         *[(("t", t),) for t in (PAST_NARROW - 2, PAST_NARROW - 1, PAST_NARROW, PAST_NARROW + 1,
                                 LAST_T - 2, LAST_T - 1, LAST_T, LAST_T + 1, 2 ** 63, TOP)],
         *[(("t", t), ("F_t", P)) for t in (PAST_NARROW, LAST_T, LAST_T + 1)]]
PAST = [*[(16, "stage %d %s" % (i, name)) for i in range(4, 20) for name in STAGE_FIELDS],
        *[(1, "stage %d %s" % (i, name)) for i in (0, 10, 19) for name in STAGE_FIELDS]]
WATCH_CARDS = [("length", 0), ("length", 8), ("length", 9), ("length", 17),
               ("length", 1048577), ("key", 1), ("key", P - 1), ("key", P), ("print 0", 0),
               ("print 0", 1), ("print 0", 256), ("print 0", 257), ("print 4", P), ("print 5", 1)]


def numbers_replaced():
    for count, rows in ((6, WATCHES), (0, FRESH)):
        for changes in rows:
            words = "watch of 16 at %d%s" % (count, change_words(changes))
            watch = changed("watch", ones(16, 0, count), changes)
            yield from value_calls(words, watch)
            yield from resumptions(words, watch)
    for m, name in PAST:
        yield from value_calls("watch of %d at 6, %s is 1" % (m, name), changed("watch", ones(m, 0, 6), [(name, 1)]))
    for change in WATCH_CARDS:
        yield from value_calls("watch of 16 at 6, its card%s" % change_words([change]),
                               changed("watch", ones(16, 0, 6), [change]))


# ---- Starts of every age ---------------------------------------------------------------------

# Length, stage, t, first, last.
AGES = [
    (16, 3, 100, 84, 84), (16, 3, 100, 85, 85), (16, 3, 100, 92, 92), (16, 3, 100, 93, 93),
    (16, 3, 100, 100, 100), (16, 3, 100, 101, 101), (16, 3, 100, 4294967295, 4294967295),
    (5, 2, 100, 95, 95), (5, 2, 100, 96, 96), (5, 2, 100, 97, 97), (5, 0, 100, 98, 98),
    (5, 0, 100, 99, 99), (5, 0, 100, 100, 100), (1, 0, 100, 99, 99), (16, 3, 100, 84, 92),
    (16, 3, 100, 85, 92), (16, 3, 100, 85, 93), (16, 3, 100, 0, 92),
    (16, 3, 100, 85, 4294967295),
    (1048576, 19, 2000000, 951424, 951424), (1048576, 19, 2000000, 951425, 951425),
    (1048576, 19, 2000000, 951425, 1475712), (1048576, 19, 2000000, 1475712, 1475712),
    (1048576, 19, 2000000, 1475713, 1475713),
    *[(1048576, 19, t, t - 1048576, t - 1048576) for t in (4294967294, LAST_T - 1)],
    *[(1048576, 19, t, t - 1048575, t - 524288) for t in (4294967294, LAST_T - 1)],
    *[(1048576, 19, t, t - 524287, t - 524287) for t in (4294967294, LAST_T - 1)],
    # Around 2^32, and where a start or t is right only modulo 2^32.
    *[(16, 3, PAST_NARROW + 4, PAST_NARROW - back, PAST_NARROW - back) for back in (12, 11, 4, 3)],
    (16, 3, PAST_NARROW + 4, PAST_NARROW - 11, PAST_NARROW - 4),
    (16, 3, PAST_NARROW + 12, PAST_NARROW - 3, PAST_NARROW + 4),
    (16, 3, PAST_NARROW + 100, PAST_NARROW + 85, PAST_NARROW + 85),
    (16, 3, PAST_NARROW + 100, 85, 85), (16, 3, 100, PAST_NARROW + 85, PAST_NARROW + 85),
    (16, 3, 100, 85, PAST_NARROW + 92), (16, 3, PAST_NARROW + 100, 85, PAST_NARROW + 92),
    # Around the last t, and where a start or t is right only modulo 2^64.
    (16, 3, LAST_T, LAST_T - 15, LAST_T - 8), (16, 3, LAST_T + 1, LAST_T - 14, LAST_T - 7),
    (16, 3, 2 ** 63, 2 ** 63 - 15, 2 ** 63 - 8), (16, 3, TOP, TOP - 15, TOP - 8),
    (16, 3, TOP, TOP, TOP), (16, 3, 7, TOP - 7, TOP - 7), (16, 3, 7, TOP - 7, TOP),
]
# Length, stage, t, held, first, last, step.
SPANS = [
    *[(m, i, t, 1 if first == last else 2, first, last, (last - first) % 2 ** 32) for m, i, t, first, last in AGES],
    # Every age of a lone start in every stage of 13 ones, and of two.
    *[(13, i, 100, 1, 100 - age, 100 - age, 0) for i in range(4) for age in range(15)],
    *[(13, i, 100, 2, 100 - age, 100 - age + step, step) for i in range(4) for age in range(15) for step in (1, 3)],
    (16, 3, PAST_NARROW + 4, 8, PAST_NARROW - 11, PAST_NARROW - 4, 1),
    (16, 3, PAST_NARROW + 4, 2, PAST_NARROW - 11, PAST_NARROW - 4, 7),
    (16, 3, PAST_NARROW + 4, 4294967295, PAST_NARROW - 11, PAST_NARROW - 4, 1),
    (16, 3, PAST_NARROW + 4, 2, PAST_NARROW - 11, PAST_NARROW - 4, 4294967295),
    (16, 3, PAST_NARROW + 4, 4294967295, PAST_NARROW - 11, PAST_NARROW - 4, 4294967295),
    (16, 3, PAST_NARROW + 4, 2, PAST_NARROW - 4, PAST_NARROW - 11, 4294967289),
    (16, 3, PAST_NARROW + 4, 0, PAST_NARROW, PAST_NARROW, 0),
    # (held - 1) × step is last - first only modulo 2^32.
    *[(16, 3, 100, reach * pow(step, -1, 2 ** 32) % 2 ** 32 + 1, 85, 85 + reach, step)
      for reach in (4, 6, 7) for step in (3, 5, 4294967295)],
    *[(16, 3, 100, 2 ** 31 + reach // 2 + 1, 85, 85 + reach, 2) for reach in (0, 4, 6)],
    *[(16, 3, 100, 3, 85, 85 + reach, 2 ** 31 + reach // 2) for reach in (0, 4, 6)],
    (1048576, 19, LAST_T, 2, LAST_T - 1048575, LAST_T - 524288, 524287),
    (1048576, 19, LAST_T, 524288, LAST_T - 1048575, LAST_T - 524288, 1),
    (1048576, 19, LAST_T, 4294967295, LAST_T - 1048575, LAST_T - 524288, 4294967295),
    (16, 3, 2 ** 63, 4294967295, 2 ** 63 - 15, TOP, 4294967295),
    (16, 3, TOP, 4294967295, 1, 18446744060824649731, 4294967295),
    (16, 3, TOP, 2, TOP - 15, TOP - 8, 7), (16, 3, 7, 2, TOP - 7, TOP, 7),
    (16, 3, 7, 4294967295, TOP - 7, TOP, 4294967295),
]


def ages():
    for m, i, t, held, first, last, step in SPANS:
        # Prints of 0, so that F_last follows whatever is held.
        watch = with_stage(listing_nothing(plain_card(m), t), i, (held, first, 0, last, 0, step, 0))
        words = "watch of %d at %d, stage %d lists %d from %d to %d by %d" % (m, t, i, held, first, last, step)
        yield from value_calls(words, watch)


# ---- Watches among others ----------------------------------------------------------------------

def shared():
    """A.1: another key, a count above t, a start below the count."""
    for t in (0, PAST_NARROW - 3, LAST_T - 6):
        for m, count in ((16, 6), (1, 3), (5, 5)):
            watch = ones(m, t, count)
            for key in (2, 3, 1, 0, P + 2):
                yield "watch of %d at %d beside key %d" % (m, watch[T], key), "stroke shared", (watch, key, t, 1)
            for since in (*range(t, t + count + 3), PAST_NARROW, LAST_T, LAST_T + 1, TOP):
                for byte in (0, 1):
                    yield ("watch of %d at %d since %d" % (m, watch[T], since), "stroke shared",
                           (watch, 2, since, byte))


# ---- t at its limits -----------------------------------------------------------------------------

LIMITS = [PAST_NARROW - 2, PAST_NARROW - 1, PAST_NARROW, PAST_NARROW + 1, LAST_T - 2, LAST_T - 1,
          LAST_T, LAST_T + 1, LAST_T + PAST_NARROW, 2 ** 63, TOP]


def limits():
    for m in (1, 5, 1048576):
        for t in LIMITS:
            words, watch = "watch of %d at %d" % (m, t), ones(m, t, 0)
            yield from value_calls(words, watch)
            yield from resumptions(words, watch)


# ---- Runs ------------------------------------------------------------------------------------------

SCANNED = 12
LISTS = [0, NOTE_ROOM - 1, NOTE_ROOM, NOTE_ROOM + 4, NOTE_ROOM + NOTE, NOTE_ROOM + 12 * NOTE]


def scans():
    """Bytes in one call: until the list is full, none is left or one is refused."""
    for m in (1, 2, 16):
        for t in (0, PAST_NARROW - 6, PAST_NARROW - 1, LAST_T - 6, LAST_T - 1, LAST_T, LAST_T + 1):
            for byte in (0, 1):
                for size in LISTS:
                    for at in (0, 5, SCANNED, SCANNED + 1, TOP):
                        yield ("scan of %d bytes %d from %d into %d numbers, watch of %d at %d"
                               % (SCANNED, byte, at, size, m, t), "scan",
                               (ones(m, t, 0), at, bytes([byte]) * SCANNED, list_of(size)))


# Length, t, how many ones.
LAST_BYTES = [(1, LAST_T - 1, 2), (1, LAST_T, 1), (2, LAST_T - 2, 3), (3, LAST_T - 3, 4), (16, LAST_T - 25, 26),
              (16, LAST_T, 1), (1048576, LAST_T - 1, 2), (1048576, LAST_T, 1)]
# From a narrow record over the last t that it can say.
CROSSED = [(1, PAST_NARROW - 3, 6), (2, PAST_NARROW - 4, 7), (5, PAST_NARROW - 8, 14),
           (16, PAST_NARROW - 20, 30), (1048576, PAST_NARROW - 3, 5)]


def runs():
    """Ones from a late t on; before each the watch is parked in both ways and resumed."""
    for m, t, count in CROSSED + LAST_BYTES:
        watch = ones(m, t, 0)
        for _ in range(count):
            words = "watch of %d since %d, at %d" % (m, t, watch[T])
            yield from value_calls(words, watch)
            yield from resumptions(words, watch)
            if watch[T] < LAST_T:
                watch = taken(watch, 1)[1]


# Case L's stream, which goes on; M9 as passage, M10 as stream.
STREAM_L, M9, M10 = bytes([1, 1, 1, 1, 1, 0, 3, 1, 1, 1]), bytes([1, 1, 1, 0]), bytes([1, 1, 0, 2])
LATE_TS = [0, PAST_NARROW - 7, PAST_NARROW - 6, PAST_NARROW - 3, PAST_NARROW, LAST_T - 10, LAST_T - 7, LAST_T - 6]


def short_streams():
    """Case L at early and late t, and the phantom."""
    for t in LATE_TS:
        watch = listing_nothing(plain_card(8), t)       # "eight bytes of 1, key 2"
        yield "case L at %d" % t, "strokes", (watch, STREAM_L)
        yield "case L at %d" % t, "report feed", (watch, 0, STREAM_L, filled(2200))
        yield "case L at %d" % t, "scan", (watch, 0, STREAM_L, list_of(130))
    for key in (2, 3):
        yield "M9 as passage, key %d" % key, "make", (M9, key)
        watch = start(make(M9, key)[1])[1]
        yield "M10 as stream, key %d" % key, "strokes", (watch, M10)
        yield "M10 as stream, key %d" % key, "report feed", (watch, 0, M10, filled(2200))


CASES = [("watches with numbers replaced", numbers_replaced), ("starts of every age", ages),
         ("watches among others", shared), ("t at its limits", limits), ("scans", scans), ("late runs", runs),
         ("case L and the phantom", short_streams)]

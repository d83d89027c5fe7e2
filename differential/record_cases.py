"""Cases of parked records, (words, call, values): heads, every front, every byte replaced by every other value, buffers
of every size, and several records in one buffer."""

from card import P, number
from card_cases import every_byte, every_front, record_with, record_words
from parked import FORMS, NARROW, WIDE, whole_size
from records import can_say, parked_behind, stage_count, watch_record
from reference import LAST_T
from samples import PAST_NARROW, TOP, filled, in_room, ones, plain_card, replaced
from values import T, card_of
from watch_cases import PARKING

FORM_WORDS = {NARROW: "narrow", WIDE: "wide"}

# ---- Heads -------------------------------------------------------------------------------

# Length, kind, how many bytes; a byte, the number there.
NARROW_RECORDS = [
    (106, 4, 0, 6, 5), (106, 4, 3, 6, 5), (106, 4, 109, 6, 5), (106, 4, 110, 6, 5),
    (106, 4, 111, 6, 5), (106, 3, 109, 6, 6), (106, 2, 109, 6, 5), (106, 1, 109, 6, 5),
    (4294967295, 3, 600, 6, 5), (4294967292, 4, 600, 6, 6), (4294967295, 2, 600, 6, 5),
    (0, 4, 4, 6, 5), (0, 2, 4, 6, 5), (1, 3, 600, 6, 6), (1, 2, 600, 6, 5), (1, 1, 600, 6, 5),
    (2, 3, 600, 6, 6), (2, 4, 6, 6, 5), (2, 2, 6, 6, 5), (2, 1, 6, 6, 5), (21, 3, 600, 6, 6),
    (21, 4, 25, 6, 6), (21, 2, 25, 6, 6), (22, 4, 26, 6, 6), (22, 4, 26, 6, 5),
    (22, 2, 26, 6, 6), (106, 3, 600, 6, 6), (106, 3, 600, 6, 5), (106, 2, 600, 6, 5),
    (106, 2, 600, 6, 6), (106, 1, 600, 6, 5), (106, 0, 600, 6, 5), (106, 260, 600, 6, 5),
    (106, 1024, 600, 6, 5),
    (78, 4, 600, 6, 5), (105, 4, 600, 6, 5), (105, 2, 600, 6, 5), (107, 4, 600, 6, 5),
    (134, 4, 600, 6, 5), (134, 4, 600, 6, 9), (107, 4, 600, 10, 3),
    (106, 4, 600, 6, 6), (106, 4, 600, 6, 0), (106, 4, 600, 6, 1048577), (106, 4, 600, 10, 3),
    (106, 4, 600, 10, 0), (106, 4, 600, 14, 61), (106, 4, 600, 14, 4294967295),
]
WIDE_RECORDS = [
    *[(134, 5, n, 6, 5) for n in (0, 3, 137, 138, 139)], (134, 3, 137, 6, 6), (134, 4, 137, 6, 5),
    (4294967295, 4, 600, 6, 5), (4294967292, 5, 600, 6, 6), (0, 5, 4, 6, 5), (1, 5, 5, 6, 5),
    (2, 5, 6, 6, 5), *[(n, 5, n + 4, 6, 6) for n in (21, 22, 25, 26)], (26, 5, 30, 6, 5),
    (25, 4, 29, 6, 6), (26, 4, 30, 6, 6), *[(n, 5, 600, 6, 5) for n in (98, 133, 135, 170)],
    (170, 5, 600, 6, 9), (135, 5, 600, 10, 3), *[(134, 5, 600, 6, m) for m in (6, 0, 1048577)],
    (134, 5, 600, 10, 3), (134, 5, 600, 10, 0), (134, 5, 600, 14, 61), (134, 5, 600, 14, 4294967295),
    # t is at 18, stage 0's first at 34 and last at 46, stage 1's at 70 and 82; their high bytes are
    # the second four.
    *[(134, 5, 600, at, what) for at in (22, 38, 50, 74, 86) for what in (1, 256, 2 ** 31, 2 ** 32 - 1)],
]
# Length, m; each with every kind.
KINDS = [*range(8), 256 + 4, 256 + 5, 1024, 1280]
KIND_ROWS = [(length, m) for length in (0, 1, 2, 21, 22, 25, 26, 106, 134) for m in (5, 6)]
MISFIT_RECORDS = [(2, 14), (2, P), (3, P), (3, 14)]


def heads():
    card, watch = plain_card(5), ones(5, 0, 3)
    for form, rows, at in ((NARROW, NARROW_RECORDS, 22), (WIDE, WIDE_RECORDS, 26)):
        words, record = FORM_WORDS[form], watch_record(form, watch)
        for case in rows:
            yield record_words(words, *case), "resume", (card, record_with(record, *case))
        for key, f in MISFIT_RECORDS:
            buffer = replaced(replaced(in_room(record), 10, number(key)), at, number(f))
            yield "%s record, key %d, F_t %d" % (words, key, f), "resume", (card, buffer)
        for length, m in KIND_ROWS:
            buffer = replaced(replaced(in_room(record), 0, number(length)), 6, number(m))
            for kind in KINDS:
                yield ("%s record, length %d, m %d, kind %d" % (words, length, m, kind), "resume",
                       (card, replaced(buffer, 4, number(kind, 2))))


# ---- Every front, and every byte replaced -----------------------------------------------------

# Length, t at which nothing was listed, ones since then.
SWEPT = [(1, 0, 0), (1, 0, 6), (5, 0, 3), (16, 0, 6), (64, 0, 50), (1, PAST_NARROW - 7, 6),
         (16, PAST_NARROW - 3, 6), (1, LAST_T - 6, 6), (5, LAST_T - 3, 3)]
LONGEST = [(1048576, 0, 40)]


def swept(rows, forms=(NARROW, WIDE)):
    """Each swept watch, in those of the forms that can say it: words, card and record."""
    for m, t, count in rows:
        watch = ones(m, t, count)
        for form in forms:
            if can_say(form, watch):
                words = "%s record of %d at %d" % (FORM_WORDS[form], m, watch[T])
                yield words, card_of(watch), watch_record(form, watch)


def fronts():
    for words, card, record in swept(SWEPT + LONGEST):
        yield from every_front(words, record, "resume", card)


def replaced_in(*records):
    for words, card, record in swept(*records):
        yield from every_byte(words, record, "resume", card)


def bytes_replaced():
    yield from replaced_in(SWEPT)


def bytes_of_longest_narrow():
    yield from replaced_in(LONGEST, [NARROW])


def bytes_of_longest_wide():
    yield from replaced_in(LONGEST, [WIDE])


# ---- Buffers of every size ---------------------------------------------------------------------

# Length, t at which nothing was listed, ones since then, used bytes.
SPACES = [(1, 0, 6, 0), (1, 0, 6, 31), (5, 0, 6, 0), (5, 0, 3, 1), (16, 0, 6, 5), (1048576, 0, 6, 0),
          (5, PAST_NARROW - 1, 0, 0), (5, PAST_NARROW - 2, 2, 0), (5, LAST_T, 0, 11), (5, LAST_T + 1, 0, 0)]


def edges(size):
    """Sizes of a buffer and used lengths, for a record of so many bytes."""
    return [(0, 0), (size - 1, 0), (size, 0), (size + 1, 0), (2 * size - 1, size), (2 * size, size),
            (size, size), (size, size + 1), (size, 4294967295), (size, TOP)]


def sizes():
    for form, call in PARKING.items():
        watch = ones(1, 0, 6)
        for size, used in edges(whole_size(form, 0)):
            yield ("watch of 1 in %d bytes, used %d" % (size, used), call + " behind", (watch, used, filled(size)))
        for m, t, count, used in SPACES:
            watch = ones(m, t, count)
            for size in range(used + whole_size(form, stage_count(m)) + 4):
                words = "watch of %d at %d in %d bytes" % (m, watch[T], size)
                yield words, call, (watch, filled(size))
                yield "%s, used %d" % (words, used), call + " behind", (watch, used, filled(size))


# ---- Both kinds in one buffer --------------------------------------------------------------------

# Length, t at which nothing was listed, ones since then, kind.
ROWS = [(5, 0, 3, 4), (5, 0, 3, 5), (16, PAST_NARROW - 4, 3, 4), (16, PAST_NARROW - 4, 4, 4),
        (16, PAST_NARROW - 4, 4, 5), (1, PAST_NARROW - 1, 0, 4), (1, LAST_T, 0, 4), (1, LAST_T, 0, 5),
        (5, LAST_T + 1, 0, 5), (5, LAST_T + 1, 0, 4), (2, 0, 2, 4)]
BEFORE = 7


def one_behind_another(size):
    """Parked behind used bytes, each behind the one before, into a buffer of so many; then resumed one by one."""
    buffer, used, written = filled(size), BEFORE, []
    for m, t, count, kind in ROWS:
        watch, form = ones(m, t, count), FORMS[kind]
        yield ("watch of %d at %d behind %d of %d" % (m, watch[T], used, size), PARKING[form] + " behind",
               (watch, used, buffer))
        refusal, after, buffer = parked_behind(form, watch, used, buffer)
        if not refusal:
            written.append((used, watch))
        used = after
    for at, watch in written:
        yield "resumed from %d of %d" % (at, size), "resume", (card_of(watch), buffer[at:])


def both_kinds():
    whole = BEFORE + sum(whole_size(FORMS[kind], stage_count(m)) for m, _, _, kind in ROWS)
    for size in range(BEFORE - 1, whole + 3, 7):
        yield from one_behind_another(size)


CASES = [("heads of parked records", heads), ("fronts of parked records", fronts), ("buffers of every size", sizes),
         ("records one behind another", both_kinds), ("bytes of parked records replaced", bytes_replaced),
         ("bytes of the longest narrow record replaced", bytes_of_longest_narrow),
         ("bytes of the longest wide record replaced", bytes_of_longest_wide)]

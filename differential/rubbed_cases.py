"""Cases of request A.7, (words, call, values): stages whose F_last comes out of F_first by held - 1 joins of the step
print, and stages where it does not, as values and in both records."""

from card import P, make_card
from parked import LAST_NARROW_T, NARROW, WIDE
from records import watch_record
from reference import LAST_T
from samples import fed, filled, list_of, listing_nothing, plain_card
from values import NOTE_ROOM, T, card_of, card_value, joined, pushed, stage_of, tested_lengths, with_numbers, with_stage

# The places of a stage's numbers.
HELD, F_FIRST, F_LAST, STEP, STEP_PRINT = 0, 2, 4, 5, 6
PRINT_WORDS = {F_FIRST: "F_first", F_LAST: "F_last", STEP_PRINT: "step print"}


def byte_at(period, i):
    return i % period % 251


# ---- Prints ----------------------------------------------------------------------------------

def following(stage, key):
    """The stage with the F_last that comes out of its other prints."""
    times = max(stage[HELD] - 1, 0)
    return with_numbers(stage, [(F_LAST, joined(stage[F_FIRST], key, stage[STEP_PRINT], stage[STEP], times))])


def every_other(stage, step_print):
    """Every other start of a stage that holds an odd number, with some step print."""
    return with_numbers(stage, [(HELD, stage[HELD] // 2 + 1), (STEP, 2 * stage[STEP]), (STEP_PRINT, step_print)])


def byte_raised(number, byte, by):
    parts = bytearray(number.to_bytes(4, "little"))
    parts[byte] = (parts[byte] + by) % 256
    return int.from_bytes(parts, "little")


def replaced(stage, place, every):
    """Each byte of a print replaced by all others, or by five: words, the stage, whether it is tried in every call."""
    for byte in range(4):
        for more in range(1, 256):
            if every or more % 51 == 0:
                f = byte_raised(stage[place], byte, more)
                yield "%s is %d" % (PRINT_WORDS[place], f), with_numbers(stage, [(place, f)]), more % 17 == 0


def follows(stage, key):
    """Other prints, from which F_last comes out."""
    for f in (0, 1, P - 1):
        yield "other F_first, F_last follows", following(with_numbers(stage, [(F_FIRST, f)]), key), True
    if stage[HELD] > 1:
        for f in (0, P - 1):
            yield "other step print, F_last follows", following(with_numbers(stage, [(STEP_PRINT, f)]), key), True
        if stage[HELD] % 2:
            twice = joined(stage[STEP_PRINT], key, stage[STEP_PRINT], stage[STEP], 1)
            yield "every other start, F_last follows", every_other(stage, twice), True


def amiss(stage, key):
    """One join too many, one too few; first and last exchanged; a step print of half the step."""
    for times in (stage[HELD], stage[HELD] - 2):
        wrong = joined(stage[F_FIRST], key, stage[STEP_PRINT], stage[STEP], times)
        yield "F_last by %d joins" % times, with_numbers(stage, [(F_LAST, wrong)]), True
    yield "prints exchanged", with_numbers(stage, [(F_FIRST, stage[F_LAST]), (F_LAST, stage[F_FIRST])]), True
    if stage[HELD] % 2:
        yield "every other start, half a step print", every_other(stage, stage[STEP_PRINT]), True


def rubbed_stages(stage, key):
    yield "untouched", stage, True
    for place in PRINT_WORDS:
        yield from replaced(stage, place, place == F_LAST and stage[HELD] > 1)
    if stage[HELD] > 0:
        yield from follows(stage, key)
    if stage[HELD] > 1:
        yield from amiss(stage, key)


# ---- Watches reached by strokes ------------------------------------------------------------------

# Period and length of the passage, key, t at which the watch begins, bytes taken.
WATCHES = [
    (1, 8, 2, 0, 7), (1, 16, 3, 0, 15), (2, 16, 5, 0, 15), (3, 64, P - 1, 0, 60),
    (7, 64, 1234567890, 0, 63), (1, 1000, 7, 0, 999), (7, 1000, 65599, 0, 985),
    (2, 64, 2, LAST_NARROW_T - 5, 63), (3, 64, 46337, LAST_T - 62, 62),
]


def rubbed_watches():
    """Words, a watch, and whether it is tried in every call."""
    for period, m, key, t, count in WATCHES:
        passage = bytes(byte_at(period, i) for i in range(m))
        watch = fed(listing_nothing(card_value(make_card(passage, key)), t), passage[:count])
        words = "period %d, length %d, key %d, from %d at %d" % (period, m, key, t, watch[T])
        for i in range(len(tested_lengths(m)) - 1):
            stage = stage_of(watch, i)
            for rubbed, then, often in rubbed_stages(stage, key):
                yield "%s, stage %d holds %d, %s" % (words, i, stage[HELD], rubbed), with_stage(watch, i, then), often


# ---- The longest passage ---------------------------------------------------------------------------

LATE_TS = [2000000, LAST_NARROW_T, LAST_T - 1]
SOME_PRINT, LONGEST = 12345, 1048576
# Held, last - first, step; the bytes of the last print behind the first, and what is added to it; the bytes of the step
# print.
FULL = [
    (524288, 524287, 1, 524287, 0, 1), (524288, 524287, 1, 524287, 1, 1),
    (524288, 524287, 1, 524288, 0, 1), (524288, 524287, 1, 524286, 0, 1),
    (524289, 524287, 1, 524287, 0, 1), (524289, 524287, 1, 524288, 0, 1),
    (524287, 524287, 1, 524287, 0, 1), (4294967295, 524287, 1, 524287, 0, 1),
    (2147483649, 524287, 1, 524287, 0, 1), (74899, 524286, 7, 524286, 0, 7),
    (74899, 524286, 7, 524279, 0, 7), (74899, 524286, 7, 524286, 1, 7),
    (2, 524287, 524287, 524287, 0, 524287), (2, 524287, 524287, 524287, 1, 524287),
    (2, 524287, 524287, 524287, 0, 524286),
]


def prints_at(f, period, counts):
    """The prints with so many bytes of a stream of this period behind f, byte after byte."""
    key, prints = plain_card(LONGEST)[1], {}
    for i in range(max(counts) + 1):
        if i in counts:
            prints[i] = f
        f = pushed(f, key, byte_at(period, i))
    return prints


def longest_prints():
    """For each row of FULL F_last and the step print."""
    steps = {step for _, _, step, *_ in FULL}
    lasts = {step: prints_at(SOME_PRINT, step, {row[3] for row in FULL if row[2] == step}) for step in steps}
    blocks = {step: prints_at(0, step, {row[5] for row in FULL if row[2] == step}) for step in steps}
    return [(lasts[step][count] + more, blocks[step][step_count]) for _, _, step, count, more, step_count in FULL]


def longest_watches():
    for (held, span, step, *_), (f_last, step_print) in zip(FULL, longest_prints()):
        for t in LATE_TS:
            first = t - (LONGEST - 1)
            stage = (held, first, SOME_PRINT, first + span, f_last, step, step_print)
            yield ("longest at %d, stage 19 is %s" % (t, stage),
                   with_stage(listing_nothing(plain_card(LONGEST), t), 19, stage), True)


# ---- Calls ---------------------------------------------------------------------------------------

def calls_of(words, watch, often):
    """Resumed from both records, and struck; the other calls on it if it is tried in all."""
    for form in (WIDE, NARROW):
        if form == WIDE or watch[T] <= LAST_NARROW_T:
            yield words, "resume", (card_of(watch), watch_record(form, watch) + filled(2))
    yield words, "stroke", (watch, 1)
    if often:
        yield words, "stroke in place", (watch, 0)
        yield words, "park", (watch, filled(800))
        yield words, "park narrow", (watch, filled(800))
        yield words, "watch fits", (watch,)
        yield words, "stroke shared", (watch, watch[1], 0, 1)
        yield words, "scan", (watch, 0, bytes([0, 1, 2]), list_of(NOTE_ROOM + 20))
        yield words, "report feed", (watch, 0, bytes([0, 1, 2]), filled(2200))


def rubbed():
    for one in rubbed_watches():
        yield from calls_of(*one)


def longest():
    for one in longest_watches():
        yield from calls_of(*one)


CASES = [("rubbed records and values", rubbed), ("the longest passage, full stages", longest)]

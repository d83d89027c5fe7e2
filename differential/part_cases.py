"""Cases of the library's parts, (words, call, values): lengths and keys, fingerprints and powers, stages, one byte's
walk over them, places and names of a rack. Limits one beside another, each condition failing alone, and seeded random
values."""

import random
from itertools import product

from calls import PLACES
from card import LONGEST_PASSAGE, P
from card_cases import CARDS
from parts import climb, length_of
from rack_cases import FILLED, ONES, RACKS, drawn_rack
from rack_values import FREE, NAME, SINCE, places_of, with_place
from random_cases import NEAR, NEAR_WIDE, WIDE_PLACES, damaged, random_watch
from reference import LAST_T
from rubbed_cases import following, rubbed_stages
from samples import PAST_NARROW, TOP, changed, ones, plain_card
from step_cases import HELDS, KEYS, LENGTHS, STAGE_PRINTS
from step_cases import PLACES as STARTS
from step_cases import PRINTS as SOME_PRINTS
from steps import MOST
from values import (F_T, FIRST_STAGE, NO_STAGE, NO_STAGES, T, alone, card_of, one_byte, pushed, stages_of,
                    tested_lengths, with_numbers)

WIDE_LIMITS = sorted({0, 1, 2, 5, *NEAR_WIDE, PAST_NARROW - 1, TOP - 1})
# Lengths of passages, inside their limits and not.
SIZES = sorted({*range(70), *(2 ** i + more for i in range(33) for more in (-1, 0, 1))} - {2 ** 32, 2 ** 32 + 1})
NUMBERS = [0, 1, 2, 3, 19, 20, 21, 31, 32, 33, 2 ** 32 - 1]


# ---- Lengths and keys ------------------------------------------------------------------------

def lengths_and_keys():
    yield "nothing", "nothing", ()
    for m in SIZES:
        yield "length %d" % m, "levels", (m,)
        yield "length %d" % m, "search stages", (m,)
        for i in sorted({*range(6), *NUMBERS}):
            yield "length %d, beginning %d" % (m, i), "prefix length", (m, i)
    for m in (2 ** 32, 2 ** 32 + 1, LAST_T, 2 ** 63 - 1, 2 ** 63, 2 ** 63 + 1, TOP):
        yield "length %d" % m, "search stages", (m,)
    for taken, f in product((0, 1, 2, LONGEST_PASSAGE, *NEAR_WIDE), SOME_PRINTS):
        yield "print %d at %d bytes" % (f, taken), "running fits", (taken, f)
        yield "print %d at %d bytes" % (f, taken), "mark fits", (taken, f)
        for key in KEYS:
            yield "key %d, print %d at %d bytes" % (key, f, taken), "begun fits", (key, taken, f)
    for n in (*KEYS, P - 2, *NEAR_WIDE, 2 ** 32 + 2, 2 ** 32 + P):
        yield "number %d" % n, "key of", (n,)
    for r, s in product((*KEYS, P - 2), repeat=2):
        yield "keys %d and %d" % (r, s), "key tests", (r, s)
    for key, most in product(KEYS, (0, 1, LONGEST_PASSAGE, 2 ** 32 - 1)):
        yield "key %d, up to %d bytes" % (key, most), "powers key", (key, most)
    for start, end in product(WIDE_LIMITS, repeat=2):
        yield "from %d to %d" % (start, end), "distance", (start, end)


# ---- Fingerprints and powers -------------------------------------------------------------------

TIMES = [0, 1, 2, 3, 4, 7, 1000, 2 ** 31 - 1, 2 ** 31, 2 ** 32 - 2, 2 ** 32 - 1]
# The most bytes that powers are found for.
MOSTS = [0, 1, 2, 3, 4, 5, 16, 1000, LONGEST_PASSAGE - 1, LONGEST_PASSAGE, LONGEST_PASSAGE + 1, 2 ** 32 - 1]
RAISED = [0, 1, 2, 3, 5, 16, 17, 1000, 524287, LONGEST_PASSAGE - 1, LONGEST_PASSAGE, LONGEST_PASSAGE + 1, 2 ** 32 - 1]


def joins():
    for byte in range(256):
        yield "byte %d" % byte, "print of byte", (byte,)
    for f, other, key, n in product(SOME_PRINTS, SOME_PRINTS, KEYS, LENGTHS):
        words = "prints %d and %d, key %d, length %d" % (f, other, key, n)
        yield words, "print join by", (f, other, key, n)
        yield words, "print cut by", (f, other, key, n)
    few = [0, 1, 256, P - 1, P, 2 ** 32 - 1]
    for f, other, key, n, times in product(few, few, KEYS, LENGTHS[::3], TIMES):
        yield ("print %d, %d of length %d joined %d times, key %d" % (f, other, n, times, key), "print join times",
               (f, other, key, n, times))


def powers():
    for r, n in product(KEYS, LENGTHS):
        for f in SOME_PRINTS:
            yield "key %d, length %d, print %d" % (r, n, f), "power squared", (r, n, f)
        for s, l in product(KEYS[1:6], LENGTHS[::4]):
            yield "keys %d and %d, lengths %d and %d" % (r, s, n, l), "power times", (r, n, s, l, P - 1)
            yield "keys %d and %d, lengths %d and %d" % (r, s, n, l), "power times", (s, l, r, n, 2 ** 32 - 1)
    for r, most, f in product(KEYS, MOSTS, (0, 1, P - 1, P, 2 ** 32 - 1)):
        for n in {*RAISED, most, max(most - 1, 0), min(most + 1, 2 ** 32 - 1)}:
            words = "key %d, up to %d bytes, length %d, print %d" % (r, most, n, f)
            yield words, "powers raise", (r, most, n, f)
            if n <= min(most, LONGEST_PASSAGE):         # what stands there else is promised by no one
                yield words, "powers shifts", (r, most, n, f)


def random_prints():
    rng = random.Random(1)
    for seed in range(3000):
        words, f, other = "seed %d" % seed, rng.randrange(2 ** 32), rng.randrange(2 ** 32)
        r, s = rng.choice(KEYS + [rng.randrange(2 ** 32)] * 9), rng.randrange(2 ** 32)
        n, l, times = (rng.getrandbits(rng.randrange(bits)) for bits in (65, 65, 33))
        most = rng.getrandbits(rng.randrange(33))
        m = rng.randrange(min(most, LONGEST_PASSAGE) + 1)
        yield words, "print join by", (f, other, r, n)
        yield words, "print cut by", (f, other, r, n)
        yield words, "print join times", (f, other, r, n, times)
        yield words, "power times", (r, n, s, l, f)
        yield words, "power squared", (r, n, f)
        yield words, "powers raise", (r, most, rng.choice([m, times]), f)
        yield words, "powers shifts", (r, most, m, f)
        yield words, "levels", (times,)
        yield words, "prefix length", (times, rng.randrange(40))
        yield words, "search stages", (n,)
        yield words, "distance", (n, l)
        yield words, "mark fits", (n, f)


# ---- Stages ----------------------------------------------------------------------------------

# m, i and t, and a stage that just fits there: of none, one, two and many starts.
FITTING = [
    (16, 3, 100, NO_STAGE), (16, 3, 100, alone(85, 7)), (16, 3, 100, alone(92, P - 1)), (2, 0, 9, alone(8, 0)),
    (16, 3, 100, (2, 85, 7, 92, 9, 7, 5)), (16, 3, 100, (8, 85, 7, 92, 9, 1, 5)), (5, 2, 100, alone(96, 3)),
    (16, 3, PAST_NARROW + 4, (8, PAST_NARROW - 11, 7, PAST_NARROW - 4, 9, 1, 5)),
    (LONGEST_PASSAGE, 19, LAST_T, (524288, LAST_T - 1048575, P - 1, LAST_T - 524288, P - 1, 1, P - 1)),
    (LONGEST_PASSAGE, 19, LAST_T, (2, LAST_T - 1048575, 0, LAST_T - 524288, 0, 524287, 0)),
    (2 ** 32 - 1, 31, TOP, (2, TOP - 2 ** 32 + 2, 1, TOP - 2 ** 31, 1, 2 ** 31 - 2, 1)),
]


# First and last, F_first and F_last.
FELLOWS = {1: (3,), 3: (1,), 2: (4,), 4: (2,)}


def tests_of(words, stage, m, i, t):
    yield words, "stage tests", (stage, m, i, t)
    yield words, "quiet until", (stage, m, i, t)


def near(number, wide):
    """Other numbers for one of a stage's: beside it, and at limits."""
    others = {number + 1, number - 1, number + PAST_NARROW, *NEAR, *NEAR_WIDE} - {number}
    return sorted(other for other in others if 0 <= other <= (TOP if wide else PAST_NARROW - 1))


def stage_limits():
    """Each number of a stage that fits replaced, and m, i and t; then every age, of one start and of two."""
    for m, i, t, stage in FITTING:
        words = "length %d, stage %d at %d is %s" % (m, i, t, stage)
        yield from tests_of(words, stage, m, i, t)
        for place, number in enumerate(stage):
            for other in near(number, place in (1, 3)):
                for places in sorted({(place,), (place, *FELLOWS.get(place, ()))}):
                    then = with_numbers(stage, [(one, other) for one in places])
                    yield from tests_of("%s, numbers %s are %d" % (words, places, other), then, m, i, t)
        for other in near(t, True) + [max(t - 8, 0), min(t + 7, TOP), min(t + 16, TOP)]:
            yield from tests_of("%s, t is %d" % (words, other), stage, m, i, other)
        for other in sorted({*NUMBERS, i + 1, max(i - 1, 0)}):
            yield from tests_of("%s, stage %d" % (words, other), stage, m, other, t)
        for other in (0, 1, 2, 3, 8, 9, 15, 16, 17, 2 ** 31, 2 ** 32 - 1):
            yield from tests_of("%s, length %d" % (words, other), stage, other, i, t)
    for m, i, age in product(range(1, 18), range(6), range(19)):
        yield from tests_of("length %d, stage %d, age %d" % (m, i, age), alone(50 - age, 1), m, i, 50)
        for step in (1, 2):
            pair = (2, 50 - age, 1, 50 - age + step, 1, step, 1)
            yield from tests_of("length %d, stage %d, age %d, step %d" % (m, i, age, step), pair, m, i, 50)


def any_stages():
    """Any numbers for a stage, in all calls on it that only look."""
    for held, (first, last, step), prints in product(HELDS, STARTS, STAGE_PRINTS):
        f_first, f_last, step_print = prints
        stage = (held, first, f_first, last, f_last, step, step_print)
        words = "stage %s" % (stage,)
        for since in {0, first, last, min(first + 1, TOP), min(last + 1, TOP), TOP}:
            yield words, "listed from", (stage, since)
        for key in (0, 1, 2, 65599, P - 1, P, P + 2, 2 ** 32 - 1):
            yield words, "last fits", (stage, key)
            yield words + ", F_last follows", "last fits", (following(stage, key), key)
            f = following(stage, key)[4] + P        # right only modulo p
            if f < 2 ** 32:
                yield words + ", F_last is past p", "last fits", (with_numbers(stage, [(4, f)]), key)
        for m, i in ((0, 0), (1, 0), (16, 3), (LONGEST_PASSAGE, 20), (2 ** 32 - 1, 32), (2 ** 32 - 1, 2 ** 32 - 1)):
            ripe = first + length_of(m, i)
            for t in {0, 1, *(t for t in (ripe - 1, ripe, ripe + 1) if 0 <= t <= TOP), TOP}:
                yield from tests_of("%s, length %d, number %d, t %d" % (words, m, i, t), stage, m, i, t)


def rubbed_last():
    """A.7: F_last and the prints beside it, each byte replaced."""
    for key, step, held in ((2, 1, 2), (3, 1, 3), (65599, 7, 9), (P - 1, 524287, 2), (7, 2 ** 31 - 1, MOST)):
        first = LAST_T - (held - 1) * step if held < MOST else 0
        stage = following((held, first, 12345, first + (held - 1) * step, 0, step, 54321), key)
        for words, rubbed, _ in rubbed_stages(stage, key):
            yield "held %d, step %d, key %d, %s" % (held, step, key, words), "last fits", (rubbed, key)


# ---- One byte's walk -----------------------------------------------------------------------------

def walk_of(words, watch, byte):
    """The walk that a watch which is no misfit makes of a byte: that of a stroke."""
    card, t, f, stages = card_of(watch), watch[T], watch[F_T], stages_of(watch)
    values = (card, t + 1, pushed(f, card[1], byte), card[1], t, f, stages)
    assert climb(*values) == one_byte(card, t, f, stages, byte), words
    return words, "climb", values


def full_walk(t, step, matches):
    """Every stage ripe and listing five starts. Where P_1 to P_20 match, each start enters a stage that has no place
    for it, and all that can be set aside is."""
    key, f_now, lengths = 5, 123456, tested_lengths(LONGEST_PASSAGE)
    prints, stages = [7], []
    for i, length in enumerate(lengths[1:]):
        f_first = 1000 + i
        prints.append((f_now - f_first * pow(key, length, P)) % P if matches >> i & 1 else 0)
        stages += [5, t - length, f_first, t - length + 4 * step, 11, step, 13]
    f_start = (f_now - 7) * pow(key, -1, P) % P
    return (LONGEST_PASSAGE, key, *prints), t, f_now, key, t - 1, f_start, tuple(stages)


def walks():
    for count, byte in product(range(40), (0, 1)):
        for m in (1, 2, 3, 5, 8, 16, 64):
            yield walk_of("ones of %d, %d ones" % (m, count), ones(m, 0, count), byte)
    for t, step in product((2 ** 21, PAST_NARROW + 3, LAST_T, LAST_T + 2), (0, 1, 1000, MOST)):
        for matches in (2 ** 20 - 1, 0, *(2 ** i for i in range(20)), *(2 ** 20 - 1 - 2 ** i for i in range(20))):
            yield "full stages at %d, step %d, matches %x" % (t, step, matches), "climb", full_walk(t, step, matches)


def random_walks():
    """Of watches that fit, with numbers of stages and marks replaced, with other cards, powers and starts."""
    for seed in range(2500):
        rng = random.Random(seed)
        watch, byte = random_watch(rng)
        words = "walk, seed %d" % seed
        yield walk_of(words, watch, byte)
        other = damaged(rng, watch, WIDE_PLACES)
        card, t, f_now, key, start, f, _ = walk_of(words, watch, byte)[2]
        key = rng.choice([key, key, rng.choice(KEYS)])
        start = rng.choice([start, start, 0, rng.choice(NEAR_WIDE), rng.getrandbits(64)])
        yield words + ", other stages", "climb", (card, t, f_now, card[1], t - 1, f, other[FIRST_STAGE:])
        yield words + ", other powers", "climb", (card, t, f_now, key, start, f, stages_of(watch))
        if 1 <= other[0] <= LONGEST_PASSAGE:
            yield words + ", another watch", "climb", (card_of(other), t, f_now, key, start, f, stages_of(other))
        yield words, "moved", (watch, other[T], other[F_T], other[FIRST_STAGE:])
        yield words, "moved", (other, start, f_now, stages_of(watch))


# ---- Places and names of a rack ------------------------------------------------------------------

SOME_NAMES = [0, 1, 7, 300, 65534, 65535]
CARD_PLACE = (300, 3) + ONES + stages_of(ones(16, 3, 6))


def single_places():
    for (m, *changes), name, since in product(CARDS[:12], SOME_NAMES[::2], (0, PAST_NARROW, LAST_T + 1, TOP)):
        yield "name %d since %d" % (name, since), "place with", (name, since, changed("card", plain_card(m), changes))
    fresh = (7, 0) + ONES + NO_STAGES
    for words, place in (("free place", FREE), ("place with a card", CARD_PLACE), ("fresh place", fresh)):
        for name in SOME_NAMES:
            yield words, "place tests", (place, name)
        for at, number in enumerate(place):
            for other in {0, 1, number + 1, 65535 if at == NAME else TOP if at == SINCE else 2 ** 32 - 1} - {number}:
                for name in {number, place[NAME], other & 65535}:
                    yield ("%s, number %d is %d, name %d" % (words, at, other, name & 65535), "place tests",
                           (with_numbers(place, [(at, other)]), name & 65535))


def places_of_racks():
    for words, rack in RACKS.items():
        for name in {*SOME_NAMES, *(place[NAME] for place in places_of(rack))}:
            yield "%s, name %d" % (words, name), "places", (rack, name)
    rack = RACKS[FILLED]
    for i in range(PLACES):
        name = places_of(rack)[i][NAME]
        yield "sixteen cards, place %d free" % i, "places", (with_place(rack, i, FREE), name)
        # A free place has no name, whatever stands there; only its card's length says that it is free.
        spoilt = with_place(rack, i, with_numbers(CARD_PLACE, [(NAME, name), (2, 0)]))
        yield "sixteen cards, place %d has no length" % i, "places", (spoilt, name)
        for j in range(PLACES):
            twice = with_place(rack, j, CARD_PLACE)
            yield "name in places %d and %d" % (i, j), "places", (with_place(twice, i, CARD_PLACE), 300)
            yield "places %d and %d free" % (i, j), "places", (with_place(with_place(rack, i, FREE), j, FREE), name)
    rng = random.Random(5)
    for n in range(60):
        rack = drawn_rack(rng, 1)
        yield "rack %d at random" % n, "places", (rack, rng.choice(places_of(rack))[NAME])


def cards_and_keys():
    """A card that fits under its key and under others, and cards that don't."""
    for m, *changes in CARDS:
        card = changed("card", plain_card(m), changes)
        for key in {card[1], card[1] ^ 1, 2, 0, 2 ** 32 - 1}:
            yield "card of %d, %s, key %d" % (m, changes, key), "card fits key", (card, key)
    for key in KEYS:
        card = changed("card", plain_card(5), [("key", key)])
        for other in KEYS:
            yield "keys %d and %d" % (key, other), "card fits key", (card, other)


def labels():
    rng = random.Random(6)
    apart = tuple(rng.sample(range(1, 65537), PLACES))
    rows = [(0,) * PLACES, apart, (1,) * PLACES, (0,) * 15 + (7,), (7,) + (0,) * 14 + (7,), (2 ** 32 - 1,) + (0,) * 15]
    rows += [with_numbers(apart, [(i, apart[j])]) for i in range(PLACES) for j in range(i)]
    rows += [with_numbers(apart, [(i, 0), (j, 0)]) for i in range(PLACES) for j in range(i)]
    rows += [with_numbers(apart, [(i, new)]) for i in range(PLACES) for new in (0, 1, 65536, 65537, 2 ** 32 - 1)]
    for _ in range(500):
        pool = rng.choice([range(3), range(40), range(65537), range(2 ** 32)])
        rows.append(tuple(rng.choice(pool) for _ in range(PLACES)))
    for row in rows:
        for well in (0, 1, 2, TOP):
            yield "labels %s, %d so far" % (row, well), "labels apart", (well, row)
        for bound in {0, 1, min(row), max(row), max(max(row) - 1, 0), rng.choice(row), 65536, 2 ** 32 - 1}:
            yield "labels %s above %d" % (row, bound), "lowest label", (row, bound)


CASES = [
    ("parts, lengths and keys", lengths_and_keys), ("parts, joins and cuts", joins), ("parts, powers", powers),
    ("parts, fingerprints at random", random_prints), ("parts, limits of a stage", stage_limits),
    ("parts, any stages", any_stages), ("parts, rubbed stages", rubbed_last), ("parts, walks", walks),
    ("parts, walks at random", random_walks), ("parts, places of a rack", single_places),
    ("parts, places found in a rack", places_of_racks), ("parts, cards and keys of a rack", cards_and_keys),
    ("parts, names of a rack", labels),
]

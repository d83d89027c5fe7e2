"""Inputs for the printing program: made cards, damaged cards and streams.

An input is made from a random number generator alone, so that a seed gives
the same inputs again. Small alphabets and small keys make real collisions
happen; document 01's M9 to M12 and case L are of that sort.
"""

import random
from collections import namedtuple

from card import (CARD_KIND, DAMAGES, LARGEST_KEY, LONGEST_PASSAGE, PARKED_KINDS, P, Card,
                  card_record, cut_off, fingerprint, number, tested_lengths, write_card)

# data is the whole standard input. passage, key and stream are given if the
# card was made from that passage. pieces tells how to cut the data on the way.
Input = namedtuple("Input", "kind data passage key stream pieces",
                   defaults=(None, None, None, None))


def made(kind, passage, key, stream, pieces=None):
    """An input whose card was made from the passage."""
    passage, stream = bytes(passage), bytes(stream)
    return Input(kind, card_record(passage, key) + stream, passage, key, stream, pieces)


# ---- Keys, and changes that keep a fingerprint -------------------------------

# A change is added to bytes standing together and keeps the fingerprint under
# its key: -1 × 2 + 2 = 0, and 65536² = 2 mod p, and so on.
CHANGES = {r: [-1, r] for r in (2, 3, 4, 5, 7, 16, 100)}
CHANGES.update({P - r: [1, r] for r in (1, 2, 3, 5)})
CHANGES[65536] = [-1, 0, 2]
CHANGES[2 ** 30] = [-2, 1]


# Keys some small power of which is 1 (7 is a primitive root of p): under them
# a block has only few fingerprints, so that blocks collide everywhere.
KEYS_OF_SMALL_ORDER = [pow(7, (P - 1) // order, P) for order in (2, 3, 6, 7, 31)]


def any_key(rng):
    """A key, more often than not one that has a small change."""
    return rng.choice([2, 2, 3, 5, rng.choice(list(CHANGES)), LARGEST_KEY,
                       rng.randint(2, LARGEST_KEY)])


def phantom(rng, block, key, changes):
    """The block with up to so many changes that keep its fingerprint."""
    block = bytearray(block)
    change = CHANGES.get(key, [])
    for _ in range(changes if 0 < len(change) <= len(block) else 0):
        at = rng.randrange(len(block) - len(change) + 1)
        sign = rng.choice([1, -1])
        new = [b + sign * c for b, c in zip(block[at:], change)]
        if all(0 <= b <= 255 for b in new):
            block[at:at + len(change)] = bytes(new)
    return bytes(block)


# ---- Passages --------------------------------------------------------------

ALPHABETS = [[0, 1], [1, 2], [0, 1, 2, 3], list(range(8)), [254, 255], list(range(256))]
SHORT_LENGTHS = [1, 2, 3, 4, 5, 6, 7, 8, 9, 10, 12, 15, 16, 17, 31, 32, 33]
MIDDLE_LENGTHS = [20, 48, 63, 64, 65, 100, 127, 128, 129, 200, 255, 256, 257, 300]
LONG_LENGTHS = [511, 512, 513, 1000, 1023, 1024, 1025, 2047, 2048, 2049, 3000,
                4095, 4096, 4097, 5000]


def letters(rng, alphabet, n):
    """n bytes, each any letter of the alphabet."""
    return bytes(rng.choices(alphabet, k=n))


def periodic(rng, alphabet, n, most=None):
    """n bytes with a period, sometimes with one byte gone wrong."""
    period = rng.randint(1, max(1, min(n, most or rng.choice([2, 3, 7, n // 2]))))
    unit = letters(rng, alphabet, period)
    block = bytearray((unit * (n // period + 1))[:n])
    if rng.random() < 0.2:
        block[rng.choice([-1, rng.randrange(n)])] = rng.choice(alphabet)
    return bytes(block)


def fibonacci(rng, alphabet, n):
    """n bytes of the Fibonacci word, which has many periods at once."""
    a, b = letters(rng, alphabet, 1), letters(rng, alphabet, 2)
    while len(b) < n:
        a, b = b, b + a
    return b[:n]


def any_passage(rng, alphabet, n):
    """A passage of n bytes of one of these shapes."""
    return rng.choice([letters, periodic, periodic, fibonacci])(rng, alphabet, n)


# ---- Streams ---------------------------------------------------------------

def near_miss(rng, block, alphabet):
    """The block with one byte changed."""
    block = bytearray(block)
    block[rng.choice([0, -1, rng.randrange(len(block))])] = rng.choice(alphabet)
    return bytes(block)


def overlapped(rng, passage):
    """The passage, begun anew before its end; if it has a period, then often
    so that both occur."""
    m = len(passage)
    fits = [d for d in range(1, min(m, 40)) if passage[d:] == passage[:m - d]]
    shift = rng.choice(fits) if fits else rng.randint(1, m)
    return passage[:shift] * rng.randint(1, 4) + passage


def some_beginning(rng, passage):
    """A beginning of the passage, often a tested one give or take a byte."""
    near = rng.choice(tested_lengths(len(passage))) + rng.choice([-1, 0, 1])
    return passage[:rng.choice([near, rng.randint(0, len(passage))])]


def part(rng, passage, key, alphabet):
    """One part of a stream."""
    shape = rng.randrange(8)
    if shape == 0:
        return letters(rng, alphabet, rng.randint(1, 2 * min(len(passage), 100) + 4))
    if shape == 1:
        return passage
    if shape == 2:
        return near_miss(rng, passage, alphabet)
    if shape == 3:
        return overlapped(rng, passage)
    if shape == 4:
        return some_beginning(rng, passage)
    if shape == 5:
        return phantom(rng, passage, key, rng.randint(1, 4))
    if shape == 6:
        return phantom(rng, overlapped(rng, passage), key, rng.randint(1, 6))
    return periodic(rng, alphabet, rng.randint(1, 2 * len(passage)))


def any_stream(rng, passage, key, alphabet, most):
    """A stream of parts, of most so many bytes."""
    stream, goal = b"", rng.randint(0, most)
    while len(stream) < goal:
        stream += part(rng, passage, key, alphabet)
    return stream[:most]


# ---- Kinds of input with a made card -----------------------------------------

def small(rng):
    """Short passages, small alphabets, small keys, streams of any letters."""
    alphabet, key = rng.choice(ALPHABETS[:4]), rng.choice([2, 3, 5])
    passage = letters(rng, alphabet, rng.choice(SHORT_LENGTHS[:9]))
    return made("small", passage, key, letters(rng, alphabet, rng.randint(0, 200)))


def mixed(rng, kind="mixed", lengths=SHORT_LENGTHS):
    """Any alphabet, any key, streams of parts."""
    alphabet, key = rng.choice(ALPHABETS), any_key(rng)
    passage = any_passage(rng, alphabet, rng.choice(lengths))
    stream = any_stream(rng, passage, key, alphabet, 6 * len(passage) + 40)
    return made(kind, passage, key, stream)


def middle(rng):
    return mixed(rng, "middle", MIDDLE_LENGTHS)


def long(rng):
    return mixed(rng, "long", LONG_LENGTHS)


def phantoms(rng):
    """Passages with a short period under keys that have a change: the stream
    goes on with the period, with changes in between, so that stages hold many
    starts, set them aside and ring falsely."""
    key = rng.choice(list(CHANGES))
    m = rng.choice(SHORT_LENGTHS[3:] + MIDDLE_LENGTHS)
    alphabet = rng.choice([[100, 101], [100], [0]])
    unit = letters(rng, alphabet, rng.randint(1, 3))
    passage = (unit * m)[:m]
    stream = (unit * m * 4)[:rng.randint(m, 4 * m)]
    stream = phantom(rng, stream, key, rng.randint(1, 8))
    return made("phantoms", passage, key, stream)


def own_phantoms(rng):
    """Passages that hold phantoms of their own beginnings: a start set aside
    can be that of a true occurrence, which must not ring then."""
    key = rng.choice(list(CHANGES))
    m = rng.choice(SHORT_LENGTHS[6:] + MIDDLE_LENGTHS)
    unit = letters(rng, rng.choice([[100, 101], [100]]), rng.randint(1, 3))
    passage = phantom(rng, (unit * m)[:m], key, rng.randint(1, 6))
    stream = letters(rng, unit, rng.randint(0, 5)) + passage + unit * rng.randint(0, m)
    return made("own phantoms", passage, key, stream + passage[:rng.randint(0, m)] + passage)


def few_prints(rng):
    """Keys of small order, letters 0 and 1: collisions of every sort, also
    between the gaps of a stage."""
    key = rng.choice(KEYS_OF_SMALL_ORDER[:rng.choice([1, 3, 5])])
    passage = any_passage(rng, [0, 1], rng.choice(SHORT_LENGTHS[3:] + MIDDLE_LENGTHS[:5]))
    stream = letters(rng, rng.choice([[0, 1], [0, 0, 0, 0, 1]]), rng.randint(0, 500))
    return made("few prints", passage, key, stream)


def uneven(rng):
    """Three starts that pass the same tests, with gaps of one length but of two
    fingerprints: the third finds the right step and the wrong step print."""
    gap, length = rng.choice([(5, 16), (9, 32), (10, 32), (11, 32), (13, 32)])
    key = rng.choice(KEYS_OF_SMALL_ORDER[:3 if gap in (10, 11) else 1])
    alphabet = rng.choice([[0, 1], [0, 1, 2]])
    block = three_starts(rng, gap, length, key, alphabet) or letters(rng, alphabet, 60)
    rest = rng.randint(1, 40) + 2 * gap
    passage = block[:length] + letters(rng, alphabet, rest)
    stream = letters(rng, alphabet, rng.randint(0, 9)) + block + block[:rest]
    return made("uneven gaps", passage, key, stream)


def three_starts(rng, gap, length, key, alphabet):
    """A block in which starts 0, gap and 2 × gap pass the same tests up to this
    length, but whose first two gaps differ in print; None if none is found soon."""
    block, tries = bytearray(), iter(range(3000))

    def fits():
        t = len(block)
        if t == 2 * gap and fingerprint(block[:gap], key) == fingerprint(block[gap:], key):
            return False
        return all(fingerprint(block[s:], key) == fingerprint(block[:t - s], key)
                   for s in (gap, 2 * gap) if t - s in tested_lengths(length))

    def grow():
        if len(block) == 2 * gap + length:
            return True
        for b in rng.sample(alphabet, len(alphabet)):
            block.append(b)
            if next(tries, None) is None or (fits() and grow()):
                return True
            block.pop()
        return False

    return bytes(block) if grow() and len(block) == 2 * gap + length else None


def in_pieces(rng):
    """The input comes in pieces, some of them less than a card."""
    one = mixed(rng, "in pieces")
    cuts = sorted(rng.randint(0, len(one.data)) for _ in range(rng.randint(1, 4)))
    cuts = [rng.randint(0, 20)] + cuts
    return one._replace(pieces=sorted(cuts))


def at_buffer_edge(rng):
    """Inputs of about as many bytes as the program's buffer, or two of them,
    with the passage across the edge."""
    key, alphabet = any_key(rng), rng.choice(ALPHABETS)
    passage = letters(rng, alphabet, rng.choice(SHORT_LENGTHS[5:]))
    card = len(card_record(passage, key))
    edge = 65536 * rng.choice([1, 2]) - card
    stream = bytes(edge - rng.randint(1, len(passage)) + 1) + passage
    stream = (stream + passage * 9)[:edge + rng.choice([-1, 0, 1, 100])]
    return made("at buffer edge", passage, key, stream)


# ---- Kinds of input with another card ----------------------------------------

def invented(rng):
    """A card within all limits, made from no passage: each fingerprint is that
    of another block, or any number."""
    key, alphabet = any_key(rng), rng.choice(ALPHABETS[:3])
    m = rng.choice(SHORT_LENGTHS[1:])
    prints = [fingerprint(letters(rng, alphabet, n), key) for n in tested_lengths(m)]
    if rng.random() < 0.2:
        prints[-1] = rng.choice([0, P - 1, rng.randrange(P)])
    stream = letters(rng, alphabet, rng.randint(0, 300))
    return Input("invented card", write_card(Card(m, key, prints)) + stream)


def largest(rng):
    """An invented card of 98 bytes or nearly, with few bytes behind it."""
    m = rng.choice([2 ** 18, 2 ** 19 + 1, LONGEST_PASSAGE - 1, LONGEST_PASSAGE])
    prints = [fingerprint(bytes([1]) * min(n, 300), 2) for n in tested_lengths(m)]
    stream = phantom(rng, bytes([1]) * rng.choice([0, 1, 2, 50, 600]), 2, 3)
    return Input("largest card", write_card(Card(m, 2, prints)) + stream)


def damaged(rng, kind):
    """A made card with one damage of this kind, and a stream behind it."""
    one = mixed(rng)
    record = DAMAGES[kind](rng, card_record(one.passage, one.key))
    return Input(kind, record + one.stream[:rng.choice([0, 1, 3, 100, 1000])])


def twice_damaged(rng):
    """Two damages, so that the order of the refusals counts."""
    one = mixed(rng)
    record = card_record(one.passage, one.key)
    for kind in rng.sample(list(DAMAGES), 2):
        if len(record) >= 10:
            record = DAMAGES[kind](rng, record)
    if rng.random() < 0.3:
        return Input("damaged twice", cut_off(rng, record))
    return Input("damaged twice", record + one.stream[:200])


def cut_short(rng):
    """Less than a card."""
    one = mixed(rng)
    return Input("cut short", cut_off(rng, card_record(one.passage, one.key)))


def noise(rng):
    """Any bytes, often few, often behind a small length or the right kind."""
    data = rng.randbytes(rng.choice([0, 1, 2, 3, 4, 5, 6, 7, 20, 97, 98, 99, 200]))
    if rng.random() < 0.7:
        data = number(rng.randint(0, 100)) + data
        if rng.random() < 0.5:
            data = data[:4] + number(CARD_KIND, 2) + data[6:]
    return Input("noise", data)


def damage_of(kind):
    return lambda rng: damaged(rng, kind)


# The kinds, and how many of a hundred inputs are of each, or nearly.
KINDS = [(small, 18), (mixed, 17), (middle, 8), (long, 2), (phantoms, 8),
         (own_phantoms, 6), (few_prints, 6), (uneven, 3), (in_pieces, 2),
         (at_buffer_edge, 1), (invented, 6), (largest, 2), (twice_damaged, 5),
         (cut_short, 3), (noise, 4)]
KINDS += [(damage_of(kind), 5 if kind == "wrong field" else 1) for kind in DAMAGES]


def any_input(rng):
    """One input of any kind."""
    makers, weights = zip(*KINDS)
    return rng.choices(makers, weights)[0](rng)


# ---- Fixed inputs ------------------------------------------------------------

# A.4: "Case L keeps its output; its card holds 2, 6, 30, 510."
CASE_L = bytes.fromhex("1A000000 0300 08000000 02000000 02000000 06000000"
                       "1E000000 FE010000 01010101010003")
CASE_L_LISTING = b"A 7 0 1 1\nE 7 16\n"
# As document 01 has it, before A.4.
CASE_L_BEFORE = bytes.fromhex("1A000000 0100 08000000 02000000 01000000 03000000"
                              "0F000000 FF000000 01010101010003")

# M9 to M12, each with its fingerprint under key 2. A.4: "M9 and M10 become 29, M11 and
# M12 become 30".
M9_TO_M12 = [([1, 1, 1, 0], 29), ([1, 1, 0, 2], 29), ([1, 1, 1, 1], 30), ([1, 1, 0, 3], 30)]


def fixed_inputs():
    """Case L, the edges of document 01, and cards at every limit."""
    ones = bytes([1])
    yield Input("case L", CASE_L)
    yield made("case L", ones * 8, 2, [1, 1, 1, 1, 1, 0, 3])
    for m in range(1, 41):
        passage = bytes(range(1, m + 1))
        yield made("each length", passage, 2, passage + passage)
        yield made("each length", ones * m, 3, ones * (3 * m))
    for passage, of_it in M9_TO_M12:
        for stream, of_stream in M9_TO_M12:
            assert fingerprint(passage, 2) == of_it
            if of_stream == of_it and stream != passage:
                yield made("M9 to M12", passage, 2, stream)
    yield from cards_at_limits()
    yield from short_inputs()


def silent_inputs():
    """Passages and streams with silent strokes, bytes of 0, which counted nothing before A.4."""
    for key in (2, 3, 48271, LARGEST_KEY):
        for m in SHORT_LENGTHS:
            zeros, one = bytes(m), bytes([1])
            yield made("silent", zeros, key, bytes(3 * m + 5))
            yield made("silent", zeros, key, one + zeros + one + bytes(2 * m) + one)
            yield made("silent", zeros[1:] + one, key, (zeros + one) * 3)
            yield made("silent", one + zeros[1:], key, (one + zeros) * 3)
    for n in range(1, 5):               # M9's phantom, and one with the loudest stroke, among silent ones
        zeros = bytes(n)
        yield made("silent", zeros + bytes([1, 1, 1, 0]) + zeros, 2, zeros + bytes([1, 1, 0, 2]) + bytes(9))
        yield made("silent", zeros + bytes([1, 1, 1]) + zeros, 2, (zeros + bytes([1, 1, 0, 2]) + zeros) * 4)
        yield made("silent", zeros + bytes([1, 253]) + zeros, 2, (zeros + bytes([0, 255]) + zeros) * 4)
        yield made("silent", zeros + bytes([0, 255]) + zeros, 2, (zeros + bytes([1, 253]) + zeros) * 4)


def cards_at_limits():
    """Cards just inside and just outside each limit, with a few bytes behind."""
    stream = bytes([1, 1, 1, 255, 255, 0])
    for key in (0, 1, 2, LARGEST_KEY, P, P + 1, 2 ** 32 - 1):
        yield Input("limits", write_card(Card(2, key, [1, 2])) + stream)
    for m in (0, 1, 2, 3, 5, 2 ** 19, 2 ** 19 + 1, LONGEST_PASSAGE, LONGEST_PASSAGE + 1,
              2 ** 21, 2 ** 31, 2 ** 32 - 1):
        for prints in (len(tested_lengths(m)) + d for d in (-1, 0, 1)):
            yield Input("limits", write_card(Card(m, 2, [1] * prints)) + stream * 20)
    for first in (0, 1, 2, 255, 256, 257, P - 1, P):
        yield Input("limits", write_card(Card(1, 2, [first])) + stream)
    for last in (P - 1, P, 2 ** 31, 2 ** 32 - 1):
        yield Input("limits", write_card(Card(3, 2, [1, 3, last])) + stream)


def short_inputs():
    """Every beginning of case L's card, and the least of inputs."""
    for n in range(31):
        yield Input("beginnings", CASE_L[:n])
    for length in list(range(12)) + [94, 95, 2 ** 32 - 4, 2 ** 32 - 1]:
        for behind in range(0, 13):
            for kind in (1, 2, CARD_KIND, *PARKED_KINDS):
                body = (number(kind, 2) + bytes(11))[:behind]
                yield Input("beginnings", number(length) + body)


# ---- A million bytes ---------------------------------------------------------

def million_inputs(rng):
    """Passages of a million bytes. Also says whether the reference can take
    them in reasonable time."""
    passage = rng.randbytes(1000000)
    key = rng.randint(2, LARGEST_KEY)
    stream = (rng.randbytes(1000) + passage[:524289] + passage[:-1] + b"?"
              + passage + rng.randbytes(5))
    yield made("million, any bytes", passage, key, stream), True

    unit = bytes([100, 101, 100, 102, 103, 100, 104])
    passage, stream = (unit * 142858)[:1000000], bytearray(unit * 200000)
    yield made("million, period 7", passage, 3, stream), True
    for at in (1100000, 1250000, 1250003):      # -1 and +3 keep the fingerprint
        stream[at] -= 1
        stream[at + 1] += 3
    yield made("million, phantoms", passage, 3, stream), True

    passage = bytes([9]) * LONGEST_PASSAGE
    yield made("million, all equal", passage, LARGEST_KEY, passage + passage[:50000]), False


def seeded(seed):
    """A generator of random numbers of this seed."""
    return random.Random(seed)

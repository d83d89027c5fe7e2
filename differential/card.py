"""Fingerprints, cards and card records, written from document 01 and request A.4 of
document 02 alone.

Used to read cards (reference.py), to make inputs and to damage them (inputs.py).
"""

from collections import namedtuple

P = 2147483647                  # "p = 2147483647."
SMALLEST_KEY = 2                # "The key r is from 2 to 2147483646."
LARGEST_KEY = 2147483646
LONGEST_PASSAGE = 1048576       # "A passage has m bytes, 1 to 1048576."
LONGEST_CARD_RECORD = 98        # "the first 98 bytes, the longest card record"
CARD_KIND = 3                   # A.4: "Cards become kind 3 and parked watches kind 4"
PARKED_KINDS = (4, 5)           # and A.5: "The wide parked record is kind 5"

SHORT, KIND, MISFIT, SPENT = 8, 9, 10, 6

Card = namedtuple("Card", "m key prints")


class Refusal(Exception):
    """A refusal; it has its number only."""

    def __init__(self, number):
        super().__init__(number)
        self.number = number


# ---- The value of a byte -----------------------------------------------------

def value(byte):
    """What a byte counts in a fingerprint."""
    # A.4: "The office's planning sheets give byte b the value b + 1, so that stroke 0
    # isn't nothing."
    return byte + 1


# The value of a byte, and what follows from it: the kind of a card record, and the first
# fingerprints that are no misfit.
Rule = namedtuple("Rule", "value card_kind first_prints")

# A.4: "A card's first fingerprint, once reached, is then 1 to 256, and any other a
# misfit."
NOW = Rule(value, CARD_KIND, range(1, 257))

# Before A.4, as document 01 has it: "(f × r + b) mod p", "Card, kind 1", "a first
# fingerprint over 255". Only what must be the same under both values is worked out so
# (before_a4 in reference.py).
BEFORE_A4 = Rule(lambda byte: byte, 1, range(256))


# ---- Fingerprints and tested beginnings ------------------------------------

def fingerprint(data, key, rule=NOW):
    """The fingerprint of these bytes."""
    # "The fingerprint of no bytes is 0." A.4: "f becomes (f × r + b + 1) mod p"
    f = 0
    for b in data:
        f = (f * key + rule.value(b)) % P
    return f


def tested_lengths(m):
    """The lengths of the tested beginnings of a passage of m bytes."""
    # "k is the least number with 2^k ≥ m. Tested beginnings P_0 .. P_k have
    # lengths 1, 2, 4 .. 2^(k-1), and last m."
    k = 0
    while 2 ** k < m:
        k += 1
    return [2 ** i for i in range(k)] + [m]


# ---- Making cards ----------------------------------------------------------

def make_card(passage, key, rule=NOW):
    """The card of this passage and key."""
    # "The card holds m, r and the k + 1 fingerprints."
    prints, f, done = [], 0, 0
    for length in tested_lengths(len(passage)):
        for b in passage[done:length]:
            f = (f * key + rule.value(b)) % P
        done = length
        prints.append(f)
    return Card(len(passage), key, prints)


def number(value, size=4):
    """A number as it stands in a record: little-endian."""
    return value.to_bytes(size, "little")


def write_card(card, rule=NOW):
    """The record of this card."""
    # "Length (4 bytes) of what follows it, kind (2 bytes), then fields of
    # 4 bytes. Card [...]: m, r, the k + 1 fingerprints."
    body = number(rule.card_kind, 2) + number(card.m) + number(card.key)
    body += b"".join(number(f) for f in card.prints)
    return number(len(body)) + body


def card_record(passage, key, rule=NOW):
    """The record of the card of this passage and key."""
    return write_card(make_card(passage, key, rule), rule)


# ---- Reading cards ---------------------------------------------------------

def read_card(buffer, rule=NOW):
    """The card at the front of the buffer and how many bytes it took."""
    # "Reading: 8, length under 2 (10), 9, length too small (10), 11, other 10."
    # (11 is no refusal of a card.)
    if len(buffer) < 4:
        raise Refusal(SHORT)                    # "under 4 bytes,
    length = field(buffer, 0)
    if len(buffer) < length + 4:
        raise Refusal(SHORT)                    # or fewer than length + 4"
    if length < 2:
        raise Refusal(MISFIT)
    if int.from_bytes(buffer[4:6], "little") != rule.card_kind:
        raise Refusal(KIND)                     # A.4: "kinds 1 and 2 are refused with 9"
    if length < 10:
        raise Refusal(MISFIT)
    m, key = field(buffer, 6), field(buffer, 10)
    prints = [field(buffer, at) for at in range(14, length + 1, 4)]
    if misfits(length, m, key, prints, rule):
        raise Refusal(MISFIT)
    return Card(m, key, prints), length + 4


def field(buffer, at, size=4):
    """The field of so many bytes that stands at this place."""
    return int.from_bytes(buffer[at:at + size], "little")


def misfits(length, m, key, prints, rule):
    """Whether a card of these fields is refused as a misfit."""
    # "a length that doesn't suit k; m or r outside limits; a fingerprint not
    # below p"; and A.4's first fingerprint
    if not 1 <= m <= LONGEST_PASSAGE:
        return True
    if not SMALLEST_KEY <= key <= LARGEST_KEY:
        return True
    if length != 10 + 4 * len(tested_lengths(m)):
        return True
    return any(f >= P for f in prints) or prints[0] not in rule.first_prints


# ---- Damaging records ------------------------------------------------------

def wrong_length(rng, record):
    """Another length field, the rest as it was."""
    true = field(record, 0)
    near = [true + d for d in (-8, -5, -4, -3, -2, -1, 1, 2, 3, 4, 5, 8)]
    small = list(range(14))
    large = [90, 94, 95, 96, 98, 1000, 65536, 2 ** 31 - 1, 2 ** 31]
    wrapping = [2 ** 32 - d for d in (1, 2, 3, 4, 5, 6)]
    wrong = rng.choice(rng.choice([near, small, large, wrapping]))
    return number(wrong % 2 ** 32) + record[4:]


def wrong_kind(rng, record):
    """Another kind, the rest as it was."""
    wrong = rng.choice([0, 1, 2, *PARKED_KINDS, 256, 259, 260, 768, 65535, rng.randrange(65536)])
    return record[:4] + number(wrong, 2) + record[6:]


def wrong_field(rng, record):
    """One of m, r and the fingerprints becomes a number at some limit."""
    at = 6 + 4 * rng.randrange((len(record) - 6) // 4)
    limits = [0, 1, 2, 3, 255, 256, 257, 1048575, 1048576, 1048577, P - 1, P, P + 1,
              2 ** 31, 2 ** 32 - 1, field(record, at) - 1, field(record, at) + 1,
              2 * field(record, at), rng.randrange(2 ** 32)]
    return record[:at] + number(rng.choice(limits) % 2 ** 32) + record[at + 4:]


def wrong_bit(rng, record):
    """One bit turned over."""
    at = rng.randrange(len(record))
    return record[:at] + bytes([record[at] ^ 1 << rng.randrange(8)]) + record[at + 1:]


def missing_number(rng, record):
    """One field left out; the length field sometimes tells of it."""
    at = 6 + 4 * rng.randrange((len(record) - 6) // 4)
    less = record[:at] + record[at + 4:]
    return number(len(less) - 4) + less[4:] if rng.random() < 0.5 else less


def surplus_number(rng, record):
    """One field put in; the length field sometimes tells of it."""
    at = 6 + 4 * rng.randrange((len(record) - 6) // 4 + 1)
    more = record[:at] + number(rng.choice([0, 1, 255, P - 1])) + record[at:]
    return number(len(more) - 4) + more[4:] if rng.random() < 0.5 else more


def cut_off(rng, record):
    """Only a beginning of it."""
    return record[:rng.randrange(len(record))]


DAMAGES = {
    "wrong length": wrong_length,
    "wrong kind": wrong_kind,
    "wrong field": wrong_field,
    "wrong bit": wrong_bit,
    "missing number": missing_number,
    "surplus number": surplus_number,
}

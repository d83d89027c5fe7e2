"""Values that cases begin with: cards, half-made cards and watches of ones, early and late; and numbers replaced."""

from functools import lru_cache

from calls import FIELDS, PRINTS
from card import LONGEST_PASSAGE, fingerprint, make_card
from reference import LATE_PRINT
from values import NO_STAGES, card_value, start, taken, tested_lengths, with_numbers

# The first number that a field of 4 bytes cannot hold, and the largest of 8 bytes.
PAST_NARROW, TOP = 2 ** 32, 2 ** 64 - 1
FILLER, ROOM = 170, 800
PLACE = {kind: {name: place for place, name in enumerate(names)} for kind, names in FIELDS.items()}


def changed(kind, value, changes):
    """The value with the numbers of some names replaced."""
    return with_numbers(value, [(PLACE[kind][name], number) for name, number in changes])


def change_words(changes):
    return "".join(", %s is %d" % change for change in changes)


def plain_card(m):
    """So many ones under key 2; else an invented card of the longest passage."""
    if m > 64:
        return (LONGEST_PASSAGE, 5) + (2,) * PRINTS
    return card_value(make_card(bytes([1]) * m, 2))


def half_made(m, count):
    """So many bytes of 100 under key 7, of a passage of m bytes."""
    prints = [fingerprint(bytes([100]) * n, 7) if n <= count else 0 for n in tested_lengths(m)]
    return (m, 7, count, fingerprint(bytes([100]) * count, 7), *prints) + (0,) * (PRINTS - len(prints))


def listing_nothing(card, t):
    """The fresh watch of a card; or the one that has taken t bytes, with some print, and lists nothing."""
    return start(card)[1] if t == 0 else card + (t, LATE_PRINT) + NO_STAGES


@lru_cache(maxsize=None)
def ones(m, t, count):
    """The watch of so many ones that listed nothing at t, so many ones later."""
    watch = listing_nothing(plain_card(m), t)
    for _ in range(count):
        watch = taken(watch, 1)[1]
    return watch


def fed(watch, data):
    """The watch behind these bytes."""
    for byte in data:
        watch = taken(watch, byte)[1]
    return watch


def filled(size):
    """A buffer of so many bytes that are none of a record's."""
    return bytes([FILLER]) * size


def in_room(record):
    return record + filled(ROOM - len(record))


def replaced(data, at, new):
    return data[:at] + new + data[at + len(new):]


def list_of(size):
    """A list of so many numbers, none of which is a note's."""
    return tuple(range(TOP - size, TOP))

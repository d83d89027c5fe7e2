"""Cases of the maker, half-made cards, cards and card records: (words, call, values)."""

from card import LONGEST_PASSAGE, P, number
from records import card_record
from samples import change_words, changed, filled, half_made, in_room, plain_card, replaced, ROOM

# ---- The maker ---------------------------------------------------------------------------

# Length, key.
BEGINNINGS = [(0, 2), (0, 1), (1, 2), (1, 1), (1048575, 2), (1048576, 2), (1048576, 0), (1048577, 2), (1048577, 0),
              (4294967295, 0), (5, 0), (5, 1), (5, 2), (5, 3), (5, P - 2), (5, P - 1), (5, P), (5, P + 1),
              (5, 4294967295), (1, P - 1), (524288, 7), (524289, 7)]

# Length, bytes taken, numbers replaced.
HALVES = [
    (1, 0), (1, 1), (5, 0), (5, 4), (5, 5), (1048576, 1, ("taken", 1048575)),
    (1048576, 1, ("taken", 1048576)), (1048576, 1, ("taken", 1048577)),
    (5, 0, ("length", 0)), (5, 0, ("length", 1048576)), (5, 0, ("length", 1048577)),
    (5, 3, ("key", 0)), (5, 3, ("key", 1)), (5, 3, ("key", 2)), (5, 3, ("key", P - 1)),
    (5, 3, ("key", P)), (5, 5, ("key", 1)), (5, 5, ("key", P - 1)), (5, 3, ("length", 2)),
    (5, 3, ("length", 3)), (5, 3, ("length", 4)), (5, 5, ("taken", 6)),
    (5, 5, ("taken", 4294967295)), (5, 3, ("running print", P - 1)),
    (5, 3, ("running print", P)), (5, 0, ("print 0", 0)), (5, 0, ("print 0", 1)),
    *[(5, count, ("print 0", first)) for count in (1, 3, 5) for first in (0, 1, 256, 257)],
    (5, 0, ("taken", 1)), (5, 3, ("print 1", P - 1)), (5, 3, ("print 1", P)), (5, 5, ("print 3", P - 1)),
    (5, 5, ("print 3", P)), (5, 0, ("running print", 1)), (5, 1, ("running print", 0)),
    (5, 3, ("print 2", 1)), (5, 4, ("print 2", 1)), (5, 4, ("print 3", 1)), (5, 5, ("print 4", 1)),
    (5, 5, ("print 20", 1)), (5, 3, ("taken", 2)), (5, 3, ("taken", 1)),
]


def half_calls(words, half, byte):
    yield words, "push", (half, byte)
    yield words, "finish", (half,)
    yield words, "half fits", (half,)


def maker():
    for m, key in BEGINNINGS:
        yield "begin, length %d, key %d" % (m, key), "begin", (m, key)
    for m, count, *changes in HALVES:
        half = changed("half", half_made(m, count), changes)
        words = "half-made card for %d after %d%s" % (m, count, change_words(changes))
        for byte in (0, 100, 255):
            yield from half_calls(words, half, byte)
    for m in (*range(1, 34), 63, 64, 65, 100):          # "takes the bytes singly"
        for count in range(m + 1):
            yield from half_calls("half-made card for %d after %d" % (m, count), half_made(m, count), 100)


# Passages, keys, and how many bytes the record's buffer has.
PASSAGES = [b"", bytes([1]) * 5, bytes([0]), bytes([255]), bytes(3), bytes([1]) * 8, bytes(range(256)) * 4,
            bytes(1023), bytes(1024), bytes(1025), bytes(i * i % 251 for i in range(70000))]
KEYS = [0, 1, 2, 3, 65599, P - 1, P, 4294967295]
SPACES = [0, 13, 14, 17, 18, 29, 30, 98, 120]


def making():
    """Cards from whole passages, and their records."""
    for passage in PASSAGES:
        for key in KEYS if len(passage) < 2000 else (3, P):
            words = "passage of %d bytes, key %d" % (len(passage), key)
            yield words, "make", (passage, key)
            for space in SPACES:
                yield "%s into %d bytes" % (words, space), "make record", (passage, key, filled(space))


# ---- Cards -------------------------------------------------------------------------------

# Length, numbers replaced.
CARDS = [
    (5,), (5, ("length", 0)), (5, ("length", 4)), (5, ("length", 8)), (1048576,),
    (1048576, ("length", 524288)), (1048576, ("length", 524289)),
    (1048576, ("length", 1048577)), (1048576, ("length", 4294967295)), (5, ("key", 0)),
    (5, ("key", 1)), (5, ("key", 2)), (5, ("key", P - 2)), (5, ("key", P - 1)), (5, ("key", P)),
    (5, ("key", 4294967295)),
    *[(m, ("print 0", first)) for m in (1, 5, 1048576) for first in (0, 1, 256, 257)],
    (5, ("print 1", P - 1)), (5, ("print 1", P)), (5, ("print 3", P - 1)), (5, ("print 3", P)),
    (1048576, ("print 20", P - 1)), (1048576, ("print 20", P)), (1, ("print 1", 1)), (1, ("print 20", 1)),
    (5, ("print 4", 1)), (5, ("print 20", 1)),
    *[(1048576, ("print %d" % i, P)) for i in range(21)], *[(1, ("print %d" % i, 1)) for i in range(21)],
]


def card_calls(words, card):
    yield words, "start", (card,)
    yield words, "card fits", (card,)
    for size in (ROOM, 3, 0):
        yield words, "write card", (card, filled(size))
    yield words, "resume", (card, b"abc")


def card_values():
    for m, *changes in CARDS:
        yield from card_calls("card of %d%s" % (m, change_words(changes)), changed("card", plain_card(m), changes))
    for m in (*range(1, 65), LONGEST_PASSAGE):
        yield from card_calls("card of %d" % m, plain_card(m))
        record = card_record(plain_card(m))
        yield "record of %d" % m, "read card", (record,)
        for space in range(len(record) + 4):
            yield "card of %d in %d bytes" % (m, space), "write card", (plain_card(m), filled(space))


# ---- Card records ------------------------------------------------------------------------

# Length, kind, how many bytes; a byte, the number there.
CARD_RECORDS = [
    (26, 3, 0, 6, 5), (26, 3, 3, 6, 5), (26, 3, 4, 6, 5), (26, 3, 29, 6, 5), (26, 3, 30, 6, 5),
    (26, 3, 31, 6, 5), (0, 3, 3, 6, 5), (26, 4, 29, 6, 0), (26, 1, 29, 6, 5), (26, 2, 29, 6, 5),
    (4294967295, 4, 600, 6, 5), (4294967292, 3, 600, 6, 5), (4294967295, 1, 600, 6, 5),
    (0, 3, 4, 6, 5), (0, 4, 600, 6, 5), (0, 1, 600, 6, 5), (1, 4, 5, 6, 5), (1, 1, 5, 6, 5),
    (1, 2, 5, 6, 5), (2, 4, 6, 6, 5), (2, 3, 6, 6, 5), (2, 1, 6, 6, 5), (2, 2, 6, 6, 5),
    (9, 4, 13, 6, 5), (9, 3, 13, 6, 5), (9, 1, 13, 6, 5), (10, 3, 14, 6, 5), (10, 4, 14, 6, 5),
    (10, 1, 14, 6, 5),
    (26, 0, 600, 6, 5), (26, 1, 600, 6, 5), (26, 2, 600, 6, 5), (26, 4, 600, 6, 5),
    (26, 259, 600, 6, 5), (26, 256, 600, 6, 5), (26, 768, 600, 6, 5), (26, 4, 600, 6, 0),
    (26, 1, 600, 6, 0), (26, 1, 600, 14, 257), (27, 4, 600, 6, 5), (27, 1, 600, 6, 5),
    (14, 3, 600, 6, 5), (22, 3, 600, 6, 5), (25, 3, 600, 6, 5), (27, 3, 600, 6, 5),
    (30, 3, 600, 6, 5), (26, 3, 600, 6, 4), (26, 3, 600, 6, 9),
    (26, 3, 600, 6, 0), (26, 3, 600, 6, 1048577), (26, 3, 600, 6, 4294967295),
    (26, 3, 600, 10, 1), (26, 3, 600, 10, P - 1), (26, 3, 600, 10, P), (26, 3, 600, 14, 0),
    (26, 3, 600, 14, 1), (26, 3, 600, 14, 256), (26, 3, 600, 14, 257), (26, 3, 600, 26, P - 1),
    (26, 3, 600, 26, P),
]


def record_with(record, length, kind, size, at, what):
    """So many bytes that begin with the record, its length, kind and one number replaced."""
    buffer = replaced(in_room(record), 0, number(length) + number(kind, 2))
    return replaced(buffer, at, number(what))[:size]


def record_words(kind_word, length, kind, size, at, what):
    return "%s record, length %d, kind %d, bytes %d, at %d is %d" % (kind_word, length, kind, size, at, what)


def every_front(words, record, call, *before):
    buffer = in_room(record)
    for size in range(len(record) + 4):
        yield "%s, its first %d bytes" % (words, size), call, (*before, buffer[:size])


def every_byte(words, record, call, *before):
    """Each byte replaced by every other; there is room for what the length may say."""
    for at, was in enumerate(record):
        buffer = in_room(record) if at < 4 else record + filled(3)
        for byte in range(256):
            if byte != was:
                yield "%s, byte %d is %d" % (words, at, byte), call, (*before, replaced(buffer, at, bytes([byte])))


def card_records():
    record = card_record(plain_card(5))
    for case in CARD_RECORDS:
        yield record_words("card", *case), "read card", (record_with(record, *case),)
        yield record_words("card", *case), "report begin", (record_with(record, *case),)
    for m in (1, 5, 1048576):
        words, record = "card record of %d" % m, card_record(plain_card(m))
        yield from every_front(words, record, "read card")
        yield from every_byte(words, record, "read card")


CASES = [("the maker", maker), ("cards from passages", making), ("cards", card_values), ("card records", card_records)]

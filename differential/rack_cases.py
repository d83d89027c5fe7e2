"""Cases of the calls on racks (request A.1 of document 02): lists of calls, written out and drawn at random, and racks
handed in, such as just fit and such as don't.

What must come back on every field is worked out by rack_values.py. In a list of calls, what the rack says of each name
is besides held against a ladder with unlimited lists of its own (reference.py) and a search over the bytes. Each call
is made on the rack that must have come back of the call before it.

CASES has the groups of cases: (words, call, values). A case of a list of calls has a judgement besides, which is asked
in place of what must come back: a function of what came back, in the order of the calls, that says what is amiss with
it, None for nothing.
"""

import random
from itertools import product

import inputs
import values
from calls import FIELDS, PLACES, SIZE, STAGES, STAGE_FIELDS, difference
from card import LARGEST_KEY, LONGEST_PASSAGE, MISFIT, P, SMALLEST_KEY, SPENT, make_card
from rack_values import ABSENT, FREE, FULL, HEAD, PLACE, RULES, TAKEN, card_of, with_place
from reference import LAST_T, Ladder
from rubbed_cases import F_FIRST, following, longest_watches, rubbed_watches
from samples import LATE_PRINT, PAST_NARROW, TOP, change_words, changed


def card_for(passage, key):
    return values.card_value(make_card(passage, key))


def begun(key, t):
    """A rack with no card; where it has come to a t, with some print."""
    rack = RULES["begin rack"](key)[1]
    return changed("rack", rack, [("t", t), ("F_t", LATE_PRINT)]) if t else rack


# ---- What the hammer desk sees -------------------------------------------------------

def said(report):
    """What a report says: the start that rang or None, the sets and the comparisons."""
    rung, start, asides, comparisons = report[1:5]
    numbers = report[5:5 + 3 * min(asides, STAGES)]
    return start if rung else None, list(zip(*[iter(numbers)] * 3)), comparisons


class Name:
    """A card in the rack: "what a watch of its own, begun at c, would say of the bytes since, its starts raised by c"
    """

    def __init__(self, passage, key, c):
        self.passage, self.c = passage, c
        self.ladder, self.bytes, self.aside = Ladder(make_card(passage, key)), b"", set()
        self.collided = False

    def hear(self, byte, heard):
        """What is amiss with what was said of a byte."""
        self.bytes += bytes([byte])
        rung, sets, comparisons = self.ladder.take(byte)
        raised = [(first + self.c, step, many) for first, step, many in sets]
        own = (None if rung is None else rung + self.c, raised, comparisons)
        if heard != own:
            return "a watch of its own says %r, the rack %r" % (own, heard)
        # "each name giving at most 1 + the number of its stages"
        if not 1 <= comparisons <= 1 + self.ladder.k:
            return "%d comparisons" % comparisons
        return self.search(rung, sets)

    def search(self, rung, sets):
        """The same by a search over the bytes since c, as demand 3 has it."""
        start = len(self.bytes) - len(self.passage)
        occurs = start >= 0 and self.bytes.endswith(self.passage)
        new = {first + step * i for first, step, many in sets for i in range(many)}
        amiss = None
        if rung not in (None, start) or new & self.aside or new and min(new) <= start:
            amiss = "a start is rung that does not end here, or set aside twice or past its end"
        if occurs and (rung == start) == (start in self.aside):
            amiss = "an occurrence is neither rung nor set aside, or both"
        if (sets or rung is not None and not occurs) and not self.collides():
            amiss = "a false ring or a set without a collision"
        self.aside |= new
        return amiss

    def collides(self):
        """Whether a block of the bytes differs from a tested beginning of its length and has its fingerprint."""
        self.collided = self.collided or any(
            self.ladder.print_of(start, length) == wanted and not self.bytes.startswith(self.passage[:length], start)
            for length, wanted in zip(self.ladder.lengths, self.ladder.card.prints)
            for start in range(len(self.bytes) - length + 1))
        return self.collided


class Desk:
    """The names that are in, by what came back of the calls so far. Each method says what is amiss with what came back.
    """

    def __init__(self, key, t):
        self.key, self.t, self.names = key, t, {}

    def put_in(self, given, name, passage, own_key):
        # "A card with another key is a misfit"; "10 comes first, then 13 before 12."
        due = values.first_of((not own_key, MISFIT), (name in self.names, TAKEN), (len(self.names) == PLACES, FULL))
        if given[0] == 0:
            self.names[name] = Name(passage, self.key, self.t)
        return None if given[0] == due else "verdict %d, due is %d" % (given[0], due)

    def take_out(self, given, name):
        due = 0 if name in self.names else ABSENT
        if given[0] == 0:
            self.names.pop(name, None)
        return None if given[0] == due else "verdict %d, due is %d" % (given[0], due)

    def stroke(self, given, byte):
        # "until the card is taken out or the rack's own count is spent"
        verdict, reports = given[:2]
        due = SPENT if self.t == LAST_T else 0
        if verdict != due or verdict:
            return None if verdict == due else "verdict %d, due is %d" % (verdict, due)
        self.t += 1
        many, comparisons = reports[:2]
        size = 1 + SIZE["answer"]
        reports = [reports[at:at + size] for at in range(2, len(reports), size)][:many]
        heard = [(report[0], said(report)) for report in reports]
        # "Reports at one byte go by rising name. The comparisons at one byte are the sum over the names"
        if [name for name, _ in heard] != sorted(self.names):
            return "reports of %r, in are %r" % ([name for name, _ in heard], sorted(self.names))
        amiss = [self.names[name].hear(byte, what) for name, what in heard]
        if comparisons != sum(what[2] for _, what in heard):
            return "%d comparisons in all" % comparisons
        return next(("name %d: %s" % (name, words) for (name, _), words in zip(heard, amiss) if words), None)


# ---- Lists of calls --------------------------------------------------------------------

def judgement(call, wanted, law, *parts):
    """That of the desk, and that all is as it must be."""
    def amiss(given):
        if given is None:
            return "no answer"
        return law(given, *parts) or (None if given == wanted else difference(call, wanted, given))
    return amiss


def play(words, key, t, acts):
    """The calls of a list on a rack that has come to t with no card in it. "+" puts in a passage under a name, "*" does
    so with another key, "-" takes the name out, "=" is a byte."""
    yield "%s, begin with key %d" % (words, key), "begin rack", (key,)
    rack, desk = begun(key, t), Desk(key, t)
    for i, (kind, *act) in enumerate(acts):
        if kind in "+*":
            name, passage = act
            call, parts = "put in", (rack, name, card_for(passage, key if kind == "+" else other_key(key)))
            law, act = desk.put_in, (name, passage, kind == "+")
        elif kind == "-":
            call, parts, law = "take out", (rack, *act), desk.take_out
        else:
            call, parts, law = "stroke rack", (rack, *act), desk.stroke
        wanted = RULES[call](*parts)
        title = "%s, call %d: %s %s at %d" % (words, i, call, act[0], rack[1])
        yield title, call, parts, judgement(call, wanted, law, *act)
        rack = wanted[-1]


def other_key(key):
    return key + 1 if key < LARGEST_KEY else SMALLEST_KEY


NAMES = [65535, 0, 300, 7, 1, 256, 65534, 255, 32768, 2, 40000, 12, 65280, 3, 513, 1000, 9]
PASSAGES = [bytes(int(digit) for digit in word) for word in
            "1 11 11111111 101 1110 12121 000 1101101 212121212121 11111031111103 0 303 1103 "
            "1111111111111111".split()]

# +Ab puts in passage b under name A, *Ab does so with another key, -A takes it out, and a digit is a byte.
SCRIPTS = [
    ("no card", "1103"),
    ("one card", "+Ac111110311111111103"),
    ("an occurrence set aside", "+Aj11111031111103"),
    ("two cards", "+Cd+De111011010"),
    ("names unsorted", "+Aa+Bb+Ca+Db110311"),
    ("one card under two names", "+Bd1+Ad0101-B0101"),
    ("sixteen cards and one more",
     "+Aa+Bb+Cc+Dd+Ee+Ff+Gg+Hh+Ii+Jj+Kk+Ll+Mm+Nn+Oa+Pb+Qa+Aa*Qa*Aa-Q103-H-Q+Aa+Qb+Hb+Qa11"
     "-B-B+Bb+Hh-Q+Hh0"),
    ("put in amid an occurrence", "111+Cc1111111111"),
    ("taken out amid an occurrence and put in again", "+Cc1111-C+Cc111111111"),
    ("taken out before a set aside and put in again", "+Cc11111-C03+Cc111110311111111"),
    ("refused calls", "-B*Ba+Ba+Ba*Ba-A-B-B1+Bb-A+Aa1*Cc+Cg-A-A1"),
]
# From each of these t on; the last script up to the last t.
LATE_SCRIPTS = [SCRIPTS[1], SCRIPTS[3], SCRIPTS[7], SCRIPTS[9]]
LATE_FROM = [PAST_NARROW - 8, PAST_NARROW, LAST_T - 25]
SPENT_SCRIPT = ("the count spent", "+Aa+Bc11111111111111+Db-A10-B-C", LAST_T - 12)


def acts_of(script):
    i = 0
    while i < len(script):
        kind = script[i]
        if kind.isdigit():
            yield "=", int(kind)
            i += 1
            continue
        name = NAMES[ord(script[i + 1]) - ord("A")]
        if kind == "-":
            yield "-", name
            i += 2
        else:
            yield kind, name, PASSAGES[ord(script[i + 2]) - ord("a")]
            i += 3


def scripts():
    late = [(title, script, t) for t in LATE_FROM for title, script in LATE_SCRIPTS]
    for title, script, t in [(*one, 0) for one in SCRIPTS] + late + [SPENT_SCRIPT]:
        yield from play("%s, from %d" % (title, t), 2, t, acts_of(script))


# ---- Lists drawn at random -------------------------------------------------------------

class Draw:
    """Calls drawn at random: cards go in and out amid the bytes, which are often those of a passage or nearly so."""

    def __init__(self, rng, key, names, passages):
        self.rng, self.key, self.names, self.passages = rng, key, names, passages
        self.past, self.source = bytes(2), b""

    def acts(self, cards, count):
        """So many cards first."""
        for name in self.names[:cards]:
            yield "+", name, self.rng.choice(self.passages)
        for _ in range(count):
            kind = self.rng.choice("-++*" + 26 * "=")
            if kind == "=":
                yield kind, self.byte()
            elif kind == "-":
                yield kind, self.rng.choice(self.names)
            else:
                yield kind, self.rng.choice(self.names), self.rng.choice(self.passages)

    def byte(self):
        if not self.source or self.rng.random() < 0.05:
            self.source = self.piece()
        byte, self.source = self.source[0], self.source[1:]
        self.past += bytes([byte])
        return byte

    def piece(self):
        """A passage, or one with its fingerprint; the last bytes again; a front of a passage; any byte."""
        rng, passage = self.rng, self.rng.choice(self.passages)
        kind = rng.randrange(8)
        if kind < 2:
            return passage
        if kind < 4:
            return inputs.phantom(rng, passage, self.key, 2)
        if kind < 6:
            return self.past[-rng.randint(1, 4):] * rng.randint(1, 8)
        if kind == 6:
            return passage[:rng.randint(1, len(passage))]
        return bytes([rng.choice([0, 1, 2, 3, 255])])


KEYS = [2, 3, P - 1]


def drawn_lists():
    """The passages and names of the scripts; 0 to 17 cards first."""
    rng = random.Random(1)
    for key, t in [*product(KEYS, [0]), (2, PAST_NARROW - 100)]:
        for cards in range(18):
            acts = Draw(rng, key, NAMES, PASSAGES).acts(cards, 272)
            yield from play("%d cards first, key %d, from %d" % (cards, key, t), key, t, acts)


def drawn_passage(rng):
    """Some bytes again and again, one of them often another."""
    m = rng.choice([1, 2, 3, 4, 5, 8, 9, 16, 17, 31, 40, 64, 65, 130])
    period = bytes(rng.choice([0, 1, 2, 254, 255]) for _ in range(rng.choice([1, 1, 2, 3, 7, m])))
    passage = bytearray((period * m)[:m])
    if rng.random() < 0.4:
        passage[rng.randrange(m)] = rng.randrange(256)
    return bytes(passage)


def longer_lists():
    """Longer passages, any names and keys, also such under which blocks collide everywhere; from any t on, also such
    that the count is spent amid the calls."""
    rng = random.Random(2)
    for n in range(18):
        key = rng.choice([2, 3, inputs.any_key(rng), rng.choice(inputs.KEYS_OF_SMALL_ORDER)])
        t = rng.choice([0, 0, 1, PAST_NARROW - 60, PAST_NARROW, LAST_T - 250])
        names = rng.sample(range(65536), rng.choice([2, 4, 9, 17]))
        draw = Draw(rng, key, names, [drawn_passage(rng) for _ in range(6)])
        cards = rng.randint(1, len(names))
        yield from play("list %d, key %d, from %d" % (n, key, t), key, t, draw.acts(cards, 420))


# ---- Racks handed in --------------------------------------------------------------------

ONES = card_for(bytes([1]) * 16, 2)


def rack_of(t, *cards):
    """A rack with key 2 that began at t; cards of sixteen ones, each a name and so many ones behind it."""
    rack = begun(2, t)
    for name, ones in cards:
        rack = RULES["put in"](rack, name, ONES)[-1]
        for _ in range(ones):
            rack = RULES["stroke rack"](rack, 1)[-1]
    return rack


RACKS = {
    "no card": rack_of(0),
    "cards 300 since 0, 7 since 3 and 65535 since 6 at 6": rack_of(0, (300, 3), (7, 3), (65535, 0)),
    "card 300": rack_of(0, (300, 0)),
    "sixteen cards": rack_of(0, *[(4369 * i, 0) for i in range(PLACES)]),
    "late cards 300, 7 and 65535": rack_of(PAST_NARROW - 3, (300, 3), (7, 3), (65535, 0)),
}
EMPTY, THREE, ONE, FILLED, LATE = RACKS

# A rack, and the numbers replaced in it: of a place, or of the rack itself (None). All with name 300.
RACK_CASES = [
    (EMPTY,), *[(EMPTY, (None, "key", key)) for key in (0, 1, 3, P - 1, P)],
    (EMPTY, (None, "F_t", 1)), (EMPTY, (None, "t", 1)),
    (THREE,), (THREE, (None, "key", 3)), *[(THREE, (None, "F_t", f)) for f in (0, P - 1, P)],
    (THREE, (None, "t", 5)), (THREE, (None, "t", 7)), (FILLED,),
    (EMPTY, (None, "t", 1), (None, "F_t", 1)),
    *[(rack, (None, "t", t)) for rack in (EMPTY, ONE, FILLED) for t in (LAST_T - 1, LAST_T)],
    (ONE, (None, "t", LAST_T - 1), (0, "since", LAST_T - 1)),
    (ONE, (None, "t", LAST_T - 1), (0, "since", LAST_T)),
    (ONE, (None, "t", LAST_T), (0, "since", LAST_T)),
    (ONE, (None, "t", LAST_T), (None, "F_t", P)),
    *[(rack, (None, "t", t)) for rack in (EMPTY, ONE, FILLED)
      for t in (PAST_NARROW - 1, PAST_NARROW, LAST_T + 1, 2 ** 63, TOP)],
    *[(ONE, (None, "t", t), (0, "since", c)) for t, c in (
        (PAST_NARROW, PAST_NARROW), (PAST_NARROW, PAST_NARROW + 1), (PAST_NARROW + 6, 6),
        (PAST_NARROW + 6, PAST_NARROW + 7), (6, PAST_NARROW + 6), (6, PAST_NARROW),
        (LAST_T, PAST_NARROW), (LAST_T, 2 ** 63), (LAST_T + 1, LAST_T + 1), (TOP, TOP))],
    (THREE, (3, "since", PAST_NARROW)), (EMPTY, (0, "since", PAST_NARROW)),
    (THREE, (2, "since", PAST_NARROW + 6)),
    *[(ONE, (None, "t", t), (None, "F_t", P)) for t in (PAST_NARROW, LAST_T + 1)],
    (LATE,), *[(LATE, (None, "t", t)) for t in (3, PAST_NARROW + 2, PAST_NARROW + 4,
                                               2 * PAST_NARROW + 3, LAST_T)],
    *[(LATE, (place, "since", c)) for place, c in (
        (0, PAST_NARROW - 2), (0, PAST_NARROW - 3), (0, 0), (1, PAST_NARROW - 1),
        (1, PAST_NARROW + 1), (1, 0), (2, PAST_NARROW + 4), (2, 3), (2, 2 * PAST_NARROW + 3),
        (2, TOP))],
    *[(LATE, (place, "stage 0 first", start), (place, "stage 0 last", start)) for place, start in (
        (0, 2), (0, PAST_NARROW + 1), (0, PAST_NARROW + 3), (0, 2 * PAST_NARROW + 2), (0, TOP),
        (1, PAST_NARROW + 2))],
    *[(LATE, (0, "stage 2 first", first), (0, "stage 2 last", last)) for first, last in (
        (PAST_NARROW - 3, PAST_NARROW - 1), (PAST_NARROW - 2, PAST_NARROW - 1),
        (PAST_NARROW - 3, 2 * PAST_NARROW - 1), (TOP, 1))],
    *[(THREE, (0, "length", m)) for m in (8, 9, 17)],
    *[(THREE, (2, "length", m)) for m in (1048576, 1048577)],
    (THREE, (2, "key", 1)), (THREE, (2, "key", 3)),
    *[(THREE, (place, "print 0", first)) for place in (0, 2) for first in (0, 1, 256, 257)],
    (THREE, (0, "print 4", P - 1)), (THREE, (0, "print 4", P)),
    (THREE, (0, "print 5", 1)), (FILLED, (15, "print 4", P)), (FILLED, (15, "print 0", 0)),
    (FILLED, (15, "print 0", 1)), (ONE, (None, "t", LAST_T), (0, "print 0", 0)),
    (THREE, (0, "name", 7)), (THREE, (0, "name", 8)), (THREE, (1, "name", 300)),
    (THREE, (2, "name", 300)), (THREE, (2, "name", 0)), (FILLED, (15, "name", 0)),
    (FILLED, (15, "name", 65534)), (THREE, (0, "since", 1)), (THREE, (1, "since", 2)),
    (THREE, (1, "since", 4)), *[(THREE, (2, "since", c)) for c in (0, 7, 4294967295)],
    (THREE, (0, "stage 0 held", 0)), (THREE, (0, "stage 0 first", 4), (0, "stage 0 last", 4)),
    (THREE, (0, "stage 0 first", 6), (0, "stage 0 last", 6)), (THREE, (0, "stage 0 F_first", 7)),
    (THREE, (0, "stage 0 F_first", 7), (0, "stage 0 F_last", 7)),
    (THREE, (1, "stage 1 held", 3)), (THREE, (1, "stage 1 step", 2)),
    (THREE, (0, "stage 2 held", 2), (0, "stage 2 step", 2)),
    (THREE, (0, "stage 2 held", 4), (0, "stage 2 last", 3)),
    (THREE, (0, "stage 2 step print", P - 1)), (THREE, (0, "stage 2 step print", P)),
    (THREE, (0, "stage 2 step print", P - 1), (0, "stage 2 F_last", P - 3)),
    (THREE, (0, "stage 2 F_first", P - 1), (0, "stage 2 F_last", 2)),
    (THREE, (2, "stage 3 held", 1)), (THREE, (2, "stage 4 held", 1)),
    (THREE, (2, "stage 4 F_last", 1)),
    (THREE, (3, "name", 1)), (THREE, (3, "since", 1)), (THREE, (3, "length", 1)),
    (THREE, (3, "key", 2)), (THREE, (3, "print 0", 1)), (THREE, (3, "print 20", 1)),
    *[(THREE, (3, "stage 0 " + name, 1)) for name in STAGE_FIELDS], (THREE, (15, "name", 1)),
    (EMPTY, (0, "name", 300)), (EMPTY, (15, "stage 19 step print", 1)),
]
# A rack, a name, and the numbers replaced in the card that is put in under it.
CARD_CASES = [
    (EMPTY, 0, ("key", 3)), (EMPTY, 0, ("key", 1)),
    *[(EMPTY, 0, ("length", m)) for m in (0, 1048576, 1048577)],
    *[(EMPTY, 0, ("print 0", first)) for first in (0, 1, 256, 257)],
    (EMPTY, 0, ("print 4", P - 1)), (EMPTY, 0, ("print 4", P)),
    (EMPTY, 0, ("print 5", 1)), (EMPTY, 0), (EMPTY, 65535), (THREE, 0), (THREE, 300),
    (THREE, 65535), (THREE, 300, ("key", 3)),
    *[(THREE, 300, ("print 0", first)) for first in (0, 1, 256, 257)], (FILLED, 9),
    (FILLED, 65535), (FILLED, 0), (FILLED, 9, ("key", 3)), (FILLED, 9, ("print 0", 0)),
    (FILLED, 9, ("print 0", 1)), (FILLED, 0, ("length", 0)),
    (THREE, 7), (THREE, 65534), (ONE, 300),
]
BEGINNINGS = [0, 1, 2, 3, P - 2, P - 1, P, P + 1, 4294967295]


def field_changes(changes):
    """Changes by the names of a rack's numbers."""
    return [(name if place is None else "place %d %s" % (place, name), value) for place, name, value in changes]


def every_call(words, rack, name, card, byte=1):
    yield words + ", name %d" % name, "put in", (rack, name, card)
    yield words + ", name %d" % name, "take out", (rack, name)
    yield words + ", byte %d" % byte, "stroke rack", (rack, byte)
    yield words, "rack fits", (rack,)


def refusals():
    """Each misfit alone beside a rack that just fits; names there and absent; which refusal comes first."""
    for key in BEGINNINGS:
        yield "key %d" % key, "begin rack", (key,)
    for words, *changes in RACK_CASES:
        changes = field_changes(changes)
        rack = changed("rack", RACKS[words], changes)
        card = changed("card", ONES, [("key", rack[0])])
        yield from every_call(words + change_words(changes), rack, 300, card)
    for words, name, *changes in CARD_CASES:
        card = changed("card", ONES, changes)
        yield from every_call(words + ", the card" + change_words(changes), RACKS[words], name, card)


def one_call(n, *parts):
    """One of the calls on a rack, in turn."""
    return list(every_call(*parts))[n % 4]


def each_number():
    """Each number of a place with a card and of a free one, raised by one and 0."""
    names = [name for name in FIELDS["rack"] if name.startswith(("place 0 ", "place 3 "))]
    for n, name in enumerate(names):
        was = RACKS[THREE][FIELDS["rack"].index(name)]
        for other in sorted({was + 1, 0} - {was}):
            rack = changed("rack", RACKS[THREE], [(name, other)])
            yield one_call(n, "%s, %s is %d" % (THREE, name, other), rack, 300, ONES)


# ---- F_last in racks (A.7) -----------------------------------------------------------------

RUBBED_NAME, OTHER_NAME, RUBBED_PLACE = 300, 7, 9


def in_rack(watch):
    """A rack with the card of a watch, at its t."""
    card, t, f = values.card_of(watch), watch[values.T], watch[values.F_T]
    rack = (card[1], t, f) + FREE * PLACES
    return with_place(rack, RUBBED_PLACE, (RUBBED_NAME, 0) + card + values.stages_of(watch))


def rubbed_racks():
    """The watches that are tried in every call, each in all calls on a rack."""
    often = [(words, watch) for words, watch, often in rubbed_watches() if often]
    for n, (words, watch) in enumerate(often):
        yield from every_call(words, in_rack(watch), (RUBBED_NAME, OTHER_NAME)[n % 2], values.card_of(watch))


def longest_racks():
    for words, watch, _ in longest_watches():
        yield from every_call(words, in_rack(watch), OTHER_NAME, values.card_of(watch))


# ---- Racks drawn at random -----------------------------------------------------------------

LENGTHS = [1, 2, 3, 4, 5, 8, 9, 16, 33, 64, 1000, 65536, LONGEST_PASSAGE - 1, LONGEST_PASSAGE]
TIMES = [0, 1, 2, 7, 64, 3000, 2000000, PAST_NARROW - 1, PAST_NARROW, PAST_NARROW + 5, LAST_T - 1, LAST_T - 1, LAST_T]


def drawn_stage(rng, key, t, c, youngest, oldest):
    """A stage that is no misfit: its last often one step before the next newcomer, its first often ripe."""
    low, high = max(c, t - oldest), t - youngest
    if high < low or rng.random() < 0.2:
        return values.NO_STAGE
    step = rng.choice([1, 1, 2, rng.randint(1, high - low + 1)])
    last = max(low, rng.choice([high, high + 1 - step, rng.randint(low, high)]))
    most = (last - low) // step
    more, f = rng.choice([0, most, most, rng.randint(0, most)]), rng.randrange(P)
    if more == 0:
        return values.alone(last, f)
    step_print = rng.randrange(P)
    return more + 1, last - more * step, f, last, values.joined(f, key, step_print, step, more), step, step_print


def following_print(rng, key, newcomer, above):
    """A print for a start that enters the stage above: often such that the gap has the step print."""
    if above[0] > 1 and newcomer - above[3] == above[5] and rng.random() < 0.7:
        return values.joined(above[4], key, above[6], above[5], 1)
    return rng.randrange(P)


def drawn_place(rng, name, key, t, f, byte):
    """A card whose stages list starts at random; the next byte often matches what is ripe."""
    lengths = values.tested_lengths(rng.choice(LENGTHS))
    k, f_now = len(lengths) - 1, values.pushed(f, key, byte)
    c = rng.choice([0, max(0, t - lengths[-1] // 2), max(0, t - lengths[-1]), t])
    prints = [rng.choice([values.value(byte), values.value(byte), rng.randint(1, 256)])]
    prints += [rng.randrange(P) for _ in range(k)]
    stages = [values.NO_STAGE] * STAGES
    for i in range(k - 1, -1, -1):
        stage = drawn_stage(rng, key, t, c, lengths[i], lengths[i + 1] - 1)
        ripe = t + 1 - lengths[i + 1]
        if stage[0] and stage[1] == ripe:
            front = following_print(rng, key, ripe, stages[i + 1]) if i + 1 < k else stage[F_FIRST]
            stage = following(values.with_numbers(stage, [(F_FIRST, front)]), key)
            if rng.random() < 0.8:
                prints[i + 1] = values.gap(key, ripe, front, t + 1, f_now)[1]
        stages[i] = stage
    card = (lengths[-1], key, *prints) + (0,) * (values.PRINTS - 1 - k)
    return (name, c) + card + values.numbers_of(stages)


def drawn_rack(rng, byte):
    """A rack that is no misfit, its cards in any places."""
    key, t = inputs.any_key(rng), rng.choice(TIMES)
    f = rng.randrange(P) if t else 0
    names = rng.sample(rng.choice([range(65536), range(17), range(65519, 65536)]), PLACES)
    cards = set(rng.sample(range(PLACES), rng.choice([0, 1, 2, 5, 15, 16])))
    places = [drawn_place(rng, names[i], key, t, f, byte) if i in cards else FREE for i in range(PLACES)]
    return (key, t, f) + values.numbers_of(places)


def name_for(rng, rack):
    """A name that is in, or any."""
    return rng.choice([rack[HEAD + PLACE * rng.randrange(PLACES)], rng.randrange(65536)])


def random_racks():
    rng = random.Random(3)
    for n in range(220):
        byte = rng.randrange(256)
        rack = drawn_rack(rng, byte)
        card = card_of(drawn_place(rng, 0, rng.choice([rack[0], rack[0], other_key(rack[0])]), 0, 0, byte))
        yield from every_call("rack %d at random" % n, rack, name_for(rng, rack), card, byte)


# ---- Racks damaged at random -----------------------------------------------------------------

WIDE = ("t", "since", "first", "last")
LIMITS = [0, 1, 2, 255, 256, 257, LONGEST_PASSAGE, LONGEST_PASSAGE + 1, P - 1, P, P + 1, PAST_NARROW - 1]
WIDE_LIMITS = [0, 1, PAST_NARROW - 1, PAST_NARROW, LAST_T - 1, LAST_T, LAST_T + 1, 2 ** 63, TOP]


def other_number(rng, name, number):
    """Another number for a field: beside its own, at some limit, or any; no larger than the field holds."""
    last = name.split()[-1]
    most = 65535 if last == "name" else TOP if last in WIDE else PAST_NARROW - 1
    limits = WIDE_LIMITS if last in WIDE else LIMITS
    other = rng.choice([number + 1, number - 1, rng.choice(limits), number + PAST_NARROW, rng.randrange(most + 1)])
    return min(max(other, 0), most)


def damaged_racks():
    """One or two numbers replaced: of the rack itself, of a place with a card, of any place."""
    rng = random.Random(4)
    for n in range(600):
        byte = rng.randrange(256)
        rack = drawn_rack(rng, byte)
        listed = [i for i, number in enumerate(rack) if number and i >= HEAD] or [0]
        changes = []
        for _ in range(rng.choice([1, 1, 1, 2])):
            at = rng.choice([rng.randrange(HEAD), rng.choice(listed), rng.choice(listed), rng.randrange(len(rack))])
            changes.append((FIELDS["rack"][at], other_number(rng, FIELDS["rack"][at], rack[at])))
        other = changed("rack", rack, changes)
        words = "damaged rack %d%s" % (n, change_words(changes))
        yield one_call(n, words, other, name_for(rng, rack), card_for(b"\1\2\3", max(2, rack[0])), byte)


CASES = [
    ("racks, scripts", scripts),
    ("racks, lists of calls", drawn_lists),
    ("racks, longer passages", longer_lists),
    ("racks handed in", refusals),
    ("racks, each number", each_number),
    ("racks, F_last", rubbed_racks),
    ("racks, the longest passage", longest_racks),
    ("racks at random", random_racks),
    ("racks damaged", damaged_racks),
]

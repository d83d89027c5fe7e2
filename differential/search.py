#!/usr/bin/env python3
"""What demand 3 says of a listing, looked up by an independent search.

The search knows the passage, the key, the stream and the printed lines. It
knows nothing of stages: it looks for the passage in the stream byte by byte,
and for collisions by the fingerprints of all blocks.

    search.py PASSAGE KEY STREAM LISTING        (files, but for the key)
"""

import re
import sys
from collections import Counter, namedtuple

sys.dont_write_bytecode = True

from card import P, fingerprint, tested_lengths, value

# "Printed numbers are decimal without leading zeros, one space parts the
# items, and each line ends in one line feed."
LINE = re.compile(rb"([ARXE])((?: (?:0|[1-9][0-9]*))+)")
ITEMS = {b"A": 4, b"R": 2, b"X": 1, b"E": 2}

Ring = namedtuple("Ring", "t start")
Set = namedtuple("Set", "t first step many")
Listing = namedtuple("Listing", "rings sets refusals t total")


# ---- Reading a listing -----------------------------------------------------

def parse(printed):
    """The listing that these bytes print; ValueError if they print none."""
    rows = [row(line) for line in split_lines(printed)]
    letters = b"".join(letter for letter, _ in rows)
    if not re.fullmatch(rb"[AR]*X?E", letters):
        raise ValueError("lines out of place: X and E stand last")
    rings = [Ring(*items) for letter, items in rows if letter == b"R"]
    sets = [Set(*items) for letter, items in rows if letter == b"A"]
    refusals = [items[0] for letter, items in rows if letter == b"X"]
    # "At one byte, R stands before A." A ring is one per byte.
    order = [(items[0], letter != b"R") for letter, items in rows if letter in b"AR"]
    if order != sorted(order) or len({r.t for r in rings}) != len(rings):
        raise ValueError("lines out of order")
    if any(s.step < 1 or s.many < 1 or s.first + (s.many - 1) * s.step >= s.t for s in sets):
        raise ValueError("a set of no starts, or of starts still to come")
    return Listing(rings, sets, refusals, *rows[-1][1])


def split_lines(printed):
    """The lines, each of which ended in a line feed."""
    if not printed.endswith(b"\n"):
        raise ValueError("no line feed at the end")
    return printed[:-1].split(b"\n")


def row(line):
    """A line's letter and its numbers."""
    match = LINE.fullmatch(line)
    if not match:
        raise ValueError("not a line: %r" % line[:80])
    letter, items = match[1], [int(item) for item in match[2].split()]
    if len(items) != ITEMS[letter]:
        raise ValueError("wrong number of items: %r" % line[:80])
    return letter, items


# ---- The passage in the stream ---------------------------------------------

def true_occurrences(passage, stream):
    """The starts of all true occurrences."""
    # "A true occurrence is a start behind which at least m bytes stand, the
    # first m being the passage"
    return [s for s in range(len(stream)) if stream.startswith(passage, s)]


def set_aside(listing):
    """All starts set aside, each with its byte."""
    return [(s, one.t) for one in listing.sets for s in starts_of(one)]


def starts_of(one):
    """The starts of a set."""
    # "A set (first, step, how many) sets aside first, first + step and so on,
    # that many starts."
    return range(one.first, one.first + one.many * one.step, one.step)


def is_true(passage, stream, ring):
    """Whether this ring is no false one."""
    # "A ring is false if its start is no true occurrence with its last byte
    # there." "its last byte is number start + m, counted from 1"
    return (ring.t == ring.start + len(passage)
            and stream.startswith(passage, ring.start))


# ---- Collisions ------------------------------------------------------------

def has_collision(passage, key, history):
    """Whether a block of the history collides with a tested beginning."""
    return any(collides(passage[:n], key, history)
               for n in tested_lengths(len(passage)))


def collides(beginning, key, history):
    """Whether some block "differs from a tested beginning of the passage that
    has the same length and fingerprint"."""
    n = len(beginning)
    wanted = fingerprint(beginning, key)
    return any(found == wanted and not history.startswith(beginning, start)
               for start, found in enumerate(prints_of_blocks(history, n, key)))


def prints_of_blocks(stream, n, key):
    """The fingerprints of all blocks of n bytes, from left to right: each from
    its own bytes where that is cheap, else the window is slid along."""
    if n * len(stream) <= 20000:
        for s in range(len(stream) - n + 1):
            yield fingerprint(stream[s:s + n], key)
        return
    if n > len(stream):
        return
    f = fingerprint(stream[:n], key)
    yield f
    leaving = pow(key, n, P)
    for gone, come in zip(stream, stream[n:]):
        f = (f * key + value(come) - value(gone) * leaving) % P
        yield f


# ---- Demand 3 --------------------------------------------------------------

def faults(passage, key, stream, printed):
    """All that demand 3 finds wrong in the bytes printed for this stream."""
    try:
        listing = parse(printed)
    except ValueError as error:
        return [str(error)]
    found = []
    if listing.refusals or listing.t != len(stream):
        found.append("the stream was not taken to its end")
    found += missed_or_doubled(passage, stream, listing)
    found += without_collision(passage, key, stream, listing)
    found += miscounted(len(passage), listing)
    return found


def missed_or_doubled(passage, stream, listing):
    """True occurrences let by or reported in both ways, starts reported twice."""
    rung = [(ring.start, ring.t) for ring in listing.rings]
    aside = set_aside(listing)
    reports = Counter(s for s, _ in rung + aside)
    found = ["start %d reported twice" % s for s, n in reports.items() if n > 1]
    rung, aside = dict(rung), dict(aside)
    # "each true occurrence was rung at its last byte or set aside at an earlier
    # one, never both"
    for s in true_occurrences(passage, stream):
        last = s + len(passage)
        at_last, earlier = rung.get(s) == last, aside.get(s, last) < last
        if at_last == earlier:
            found.append("true occurrence %d: %s" % (s, "both" if at_last else "let by"))
    return found


def without_collision(passage, key, stream, listing):
    """False rings and sets that no collision explains."""
    # "A false ring was given, or a set was set aside, only if some block of the
    # history up to that byte differs from a tested beginning [...]"
    events = [(s.t, "set") for s in listing.sets]
    events += [(r.t, "false ring") for r in listing.rings
               if not is_true(passage, stream, r)]
    # A collision that explains the earliest explains the later ones too.
    t, name = min(events, default=(0, None))
    if name is None or has_collision(passage, key, stream[:t]):
        return []
    return ["%s at byte %d without a collision" % (name, t)]


def miscounted(m, listing):
    """A total that cannot be: stage i gives up a start only once |P_(i+1)|
    bytes were taken, and a start that rang was taken off every stage."""
    # "No byte [...] has more comparisons in its answer than 1 + the number of
    # the watch's stages."
    lengths = tested_lengths(m)
    most = listing.t + sum(max(0, listing.t - n + 1) for n in lengths[1:])
    least = listing.t + len(listing.rings) * (len(lengths) - 1)
    if least <= listing.total <= most:
        return []
    return ["total %d not within %d .. %d" % (listing.total, least, most)]


def miscounted_prefixes(m, listings):
    """The same byte by byte: listings holds the bytes printed for the stream's
    first 0, 1, 2 .. bytes, so that totals differ by one byte's comparisons."""
    stages = len(tested_lengths(m)) - 1
    totals = [parse(printed).total for printed in listings]
    found = ["%d comparisons at byte %d" % (b - a, t)
             for t, (a, b) in enumerate(zip(totals, totals[1:]), 1)
             if not 1 <= b - a <= 1 + stages]
    reports = [printed[:printed.rindex(b"E")] for printed in listings]
    found += ["reports changed at byte %d" % t
              for t, (a, b) in enumerate(zip(reports, reports[1:]), 1)
              if not b.startswith(a)]
    return found


def main():
    if len(sys.argv) != 5:
        sys.exit(__doc__)
    passage, stream, printed = (open(sys.argv[i], "rb").read() for i in (1, 3, 4))
    found = faults(passage, int(sys.argv[2]), stream, printed)
    print("\n".join(found) or "nothing wrong")
    sys.exit(1 if found else 0)


if __name__ == "__main__":
    main()

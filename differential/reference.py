#!/usr/bin/env python3
"""The printing program of document 01, with unlimited lists.

Each stage is a real list of all its starts, the whole history of running
fingerprints is kept, and the sentences of "Ladder" are followed one by one.
Nothing here stores a stage as first, last and step.

    reference.py < input                a card record, then the stream to its end
    reference.py --before-a4 < input    the same with the value that bytes had before
                                        request A.4; the card is of kind 1
"""

import sys
from collections import deque
from itertools import islice

sys.dont_write_bytecode = True

from card import (BEFORE_A4, LONGEST_CARD_RECORD, NOW, P, SPENT, Refusal, card_record,
                  fingerprint, read_card, tested_lengths)

# "a stream byte when t = 4294967295"; A.5: "the stream run to 1099511627775 bytes", "Refusal 6
# moves to the new limit"
LAST_T = 1099511627775


class Ladder:
    """A fresh ladder of one card: "t = 0, F_t = 0 and nothing listed"."""

    def __init__(self, card, rule=NOW):
        self.card = card
        self.rule = rule
        self.lengths = tested_lengths(card.m)
        self.k = len(self.lengths) - 1
        self.t = 0              # "t is the number of bytes taken"
        self.F = [0]            # "F_x is the fingerprint of the first x bytes"
        # "Stage i, for i = 0 .. k-1, lists starts found to match P_i and not
        # yet tried against P_(i+1)." (A deque is a list quick at both ends.)
        self.stages = [deque() for _ in range(self.k)]
        self.powers = {}

    def take(self, byte):
        """One byte. Hands back the start that rang or None, the sets set
        aside, highest stage first, and the number of comparisons."""
        if self.t == LAST_T:
            raise Refusal(SPENT)
        self.t += 1             # "At each byte, t rises by one."
        self.F.append((self.F[-1] * self.card.key + self.rule.value(byte)) % P)
        rung, sets = None, []
        comparisons = 1         # "which is 1 plus the starts taken off"

        # "Stages are visited from k-1 down to 0."
        for i in range(self.k - 1, -1, -1):
            # "If stage i lists the start t - |P_(i+1)|, it is taken off"
            start = self.t - self.lengths[i + 1]
            if not lists(self.stages[i], start):
                continue
            self.stages[i].remove(start)
            comparisons += 1
            # "and the last |P_(i+1)| bytes are compared by fingerprint with
            # P_(i+1). [...] Without a match it is dropped."
            if not self.matches(start, i + 1):
                continue
            # "On a match it is rung if i+1 = k, else it enters stage i+1."
            if i + 1 == self.k:
                rung = start
            else:
                self.enter(i + 1, start, sets)

        # "Start t-1 is compared with P_0. On a match it is rung if k = 0, else
        # it enters stage 0."
        if self.matches(self.t - 1, 0):
            if self.k == 0:
                rung = self.t - 1
            else:
                self.enter(0, self.t - 1, sets)
        return rung, sets, comparisons

    def matches(self, start, j):
        """Whether the bytes behind start have the fingerprint of P_j."""
        return self.print_of(start, self.lengths[j]) == self.card.prints[j]

    def enter(self, i, newcomer, sets):
        """The newcomer enters stage i; what is set aside joins the sets."""
        stage = self.stages[i]
        # "into a stage that lists none or one, the start is added."
        if len(stage) < 2:
            stage.append(newcomer)
            return
        # "With two or more, the step is the gap of the listed starts, and the
        # step print is the fingerprint of the bytes from one listed start to
        # the next."
        step = stage[1] - stage[0]
        step_print = self.print_of(stage[0], step)
        # "The newcomer is added if its gap to the last start equals the step
        # and the bytes of that gap have the step print."
        last = stage[-1]
        if newcomer - last == step and self.print_of(last, step) == step_print:
            stage.append(newcomer)
            return
        # "Otherwise all listed starts but the last are set aside, as (first,
        # step, how many); the last and the newcomer remain."
        aside = list(islice(stage, len(stage) - 1))
        assert aside == list(range(aside[0], last, step)), "uneven gaps"
        sets.append((aside[0], step, len(aside)))
        self.stages[i] = deque([last, newcomer])

    def print_of(self, start, length):
        """The fingerprint of the block of this length behind start."""
        # "So fp(v) comes from fp(uv), fp(u) and |v|."
        power = self.powers.get(length)
        if power is None:
            power = self.powers[length] = pow(self.card.key, length, P)
        return (self.F[start + length] - self.F[start] * power) % P


def lists(stage, start):
    """Whether the stage lists the start. Newcomers are younger than all that
    is listed, so an older start than the first needs no search."""
    return len(stage) > 0 and start >= stage[0] and start in stage


LATE_PRINT = 12345              # the F_t of a late ladder: some print


class Late:
    """The running fingerprints from a late t on."""

    def __init__(self, t, f):
        self.t, self.prints = t, {t: f}

    def __getitem__(self, x):
        return self.prints[self.t if x == -1 else x]

    def append(self, f):
        self.t += 1
        self.prints[self.t] = f


def late_ladder(card, t):
    """A ladder that has taken t bytes of which nothing is listed; fresh at t = 0."""
    ladder = Ladder(card)
    if t:
        ladder.t, ladder.F = t, Late(t, LATE_PRINT)
    return ladder


class CarefulLadder(Ladder):
    """The same ladder. It keeps the bytes too, computes every fingerprint of
    a block from its bytes, and after each byte checks what document 01 lets a
    reader of a parked watch rely on."""

    def __init__(self, card, rule=NOW):
        super().__init__(card, rule)
        self.bytes = bytearray()

    def take(self, byte):
        self.bytes.append(byte)
        answer = super().take(byte)
        for i, stage in enumerate(self.stages):
            self.check(i, list(stage))
        assert 1 <= answer[2] <= 1 + self.k, "too many comparisons"
        return answer

    def print_of(self, start, length):
        quick = super().print_of(start, length)
        slow = fingerprint(self.bytes[start:start + length], self.card.key, self.rule)
        assert quick == slow, "fp(v) from fp(uv), fp(u) and |v|"
        return slow

    def check(self, i, stage):
        """Ages within |P_i| .. |P_(i+1)| - 1, equal gaps with equal prints."""
        oldest, youngest = self.lengths[i + 1] - 1, self.lengths[i]
        assert all(youngest <= self.t - s <= oldest for s in stage), "age"
        gaps = [(y - x, self.print_of(x, y - x)) for x, y in zip(stage, stage[1:])]
        assert len(set(gaps)) <= 1 and all(d > 0 for d, _ in gaps), "gaps"


def listing(data, ladder_class=Ladder, rule=NOW):
    """The lines printed for a whole standard input, as bytes."""
    lines = []
    try:
        # "The card is judged on the first 98 bytes, the longest card record,
        # or on all the input if that is less."
        card, taken = read_card(data[:LONGEST_CARD_RECORD], rule)
    except Refusal as refusal:
        # "After a refused card the last line is `E 0 0`."
        return b"X %d\nE 0 0\n" % refusal.number
    ladder, total = ladder_class(card, rule), 0
    for byte in memoryview(data)[taken:]:
        try:
            rung, sets, comparisons = ladder.take(byte)
        except Refusal as refusal:
            lines.append(b"X %d\n" % refusal.number)    # "which ends reading"
            break
        total += comparisons
        # "At one byte, R stands before A."
        if rung is not None:
            lines.append(b"R %d %d\n" % (ladder.t, rung))
        for first, step, many in sets:
            lines.append(b"A %d %d %d %d\n" % (ladder.t, first, step, many))
    # "and last `E t total`, total being all comparisons."
    lines.append(b"E %d %d\n" % (ladder.t, total))
    return b"".join(lines)


def before_a4(passage, key, stream, ladder_class=Ladder):
    """The lines that this passage, key and stream gave before A.4, the card made under the
    old value too."""
    # A.4: "every ring, set and count for every passage, key and stream is the same under
    # both values"
    return listing(card_record(passage, key, BEFORE_A4) + stream, ladder_class, BEFORE_A4)


if __name__ == "__main__":
    if sys.argv[1:] not in ([], ["--before-a4"]):
        sys.exit(__doc__)
    sys.stdout.buffer.write(listing(sys.stdin.buffer.read(), rule=BEFORE_A4 if sys.argv[1:] else NOW))

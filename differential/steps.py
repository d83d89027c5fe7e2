"""What the steps below a watch must hand back, fingerprints and stages, and those above it, the printing program's:
whatever they are handed, by document 01 ("Fingerprints", "Ladder", "The printing program") and A.4, A.5.
"""

from calls import STAGES
from card import LONGEST_CARD_RECORD, MISFIT, P, SPENT
from records import read
from reference import LAST_T
from values import (NO_SPACE, NO_STAGE, NO_WATCH, T, entered, first_of, notes_of, pushed, start, taken, taken_off,
                    watch_misfits)


# ---- Fingerprints --------------------------------------------------------------------------

def print_push(f, key, byte):
    return (pushed(f, key, byte),)


def print_join(f, key, other, length):
    # "fp(uv) = (fp(u) × r^|v| + fp(v)) mod p"
    return ((f * pow(key, length, P) + other) % P,)


def print_cut(f, key, front, length):
    # "So fp(v) comes from fp(uv), fp(u) and |v|."
    return ((f - front * pow(key, length, P)) % P,)


def print_tests(f, g):
    # "a fingerprint not below p"; A.4: "1 to 256"
    return int(f == g), int(f < P), int(1 <= f <= 256)


def key_power(key, n, f):
    return print_join(f, key, 0, n)


# ---- Stages --------------------------------------------------------------------------------
# The two calls answer for any stage. One that lists none, whose second start is past the last t, that holds as many as
# can be counted, or whose last start is farther from the newcomer than a step can say, leaves nothing listed
# (docs/DECISIONS.md, statement 13).

MOST = 4294967295


def take_off(stage, key):
    held, first, step = stage[0], stage[1], stage[5]
    return (NO_STAGE if held == 0 or first + step > LAST_T else taken_off(stage, key),)


def enter(stage, key, newcomer, f):
    held, last = stage[0], stage[3]
    if held and (held == MOST or newcomer - last > MOST):
        return NO_STAGE, 0, 0, 0, 0
    after, aside = entered(stage, key, newcomer, f)
    return (after, 1, *aside) if aside else (after, 0, 0, 0, 0)


# ---- The printing program ----------------------------------------------------------------------

# The room that the lines of one byte need (docs/DECISIONS.md, statement 7).
LINES_ROOM = 2048


def report_begin(data):
    # "The card is judged on the first 98 bytes, the longest card record, or on all the input if that is less."
    refusal, used, card = read(data[:LONGEST_CARD_RECORD])
    return refusal, used, 0, NO_WATCH if refusal else start(card)[1]


def lines_of(t, answer):
    # "`A t first step many` for a set aside, `R t start` for a ring"; "At one byte, R stands before A."
    notes, lines = notes_of(t, answer), b""
    for at in range(0, len(notes), 5):
        kind, t, first, step, many = notes[at:at + 5]
        lines += b"A %d %d %d %d\n" % (t, first, step, many) if kind else b"R %d %d\n" % (t, first)
    return lines


def report_feed(watch, total, data, out):
    """Bytes, as long as the buffer has room for the lines of one more."""
    # No byte brings more than 1 + the number of stages comparisons, so no larger total is one of t bytes.
    refusal = first_of((watch_misfits(watch) or total > (STAGES + 1) * watch[T], MISFIT),
                       (len(out) < LINES_ROOM, NO_SPACE))
    lines, at = b"", 0
    while not refusal and at < len(data) and len(lines) + LINES_ROOM <= len(out):
        if watch[T] == LAST_T:
            refusal = SPENT
            break
        answer, watch = taken(watch, data[at])
        lines += lines_of(watch[T], answer)
        total += answer[3]
        at += 1
    return refusal, at, len(lines), total, watch, lines + out[len(lines):]

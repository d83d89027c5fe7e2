"""What the calls that write and read records must hand back, whatever cards, watches and buffers they are handed: by
document 01 ("Records", "The board's refusals") and requests A.4, A.5 and A.7 of document 02.
"""

from card import CARD_KIND, KIND, MISFIT, SHORT, Card, field, write_card
from calls import PRINTS
from parked import FORMS, LAST_NARROW_T, NARROW, WIDE, read_parked, whole_size, write_parked
from values import (FIRST_STAGE, NO_CARD, NO_SPACE, NO_STAGES, NO_WATCH, STAGE, T, card_misfits, first_of,
                    limits_misfit, make, tested_lengths, watch_misfits)

OTHER, TOO_WIDE = 11, 18


# ---- Writing -----------------------------------------------------------------------------

def put(refusal, record, buffer):
    """What a writer hands back that may write this record into the buffer's front."""
    # "7 | no space | buffer shorter than the record"
    refusal = refusal or first_of((len(buffer) < len(record), NO_SPACE))
    if refusal:
        return refusal, 0, buffer
    # "A writer fills the front of the part lent to it and touches nothing behind."
    return 0, len(record), record + buffer[len(record):]


def card_record(card):
    """The record of a card that is no misfit."""
    return write_card(Card(card[0], card[1], card[2:2 + len(tested_lengths(card[0]))]))


def write(card, buffer):
    return (MISFIT, 0, buffer) if card_misfits(card) else put(0, card_record(card), buffer)


def make_record(passage, key, buffer):
    refusal, card = make(passage, key)
    return (refusal, 0, buffer) if refusal else put(0, card_record(card), buffer)


def stage_count(m):
    return len(tested_lengths(m)) - 1


def watch_record(form, watch):
    """The record that says the numbers of this watch, whatever they are, as far as its card's length fits."""
    # "m, r, fingerprint of P_k, t, F_t, then stages 0 .. k-1, seven fields each in the order above."
    k = stage_count(watch[0])
    return write_parked(form, (*watch[:2], watch[2 + k], *watch[T:FIRST_STAGE + STAGE * k]))


def can_say(form, watch):
    """Whether each number of the watch has room in its field of the record."""
    starts = [watch[at + place] for at in range(FIRST_STAGE, len(watch), STAGE) for place in (1, 3)]
    return max(watch[T], *starts) < 256 ** form.place


def parked(form, watch, buffer):
    # "Order: value handed in (10), then [...] 7."; A.5: "18 when a narrow record is wanted above that t, before 7."
    if watch_misfits(watch):
        return MISFIT, 0, buffer
    if form == NARROW and watch[T] > LAST_NARROW_T:
        return TOO_WIDE, 0, buffer
    return put(0, watch_record(form, watch), buffer)


def parked_behind(form, watch, used, buffer):
    # "Several watches park one behind another, each written into the rest of the same buffer." (A used length past the
    # buffer's end leaves an empty rest: docs/DECISIONS.md, reading 8.)
    refusal, more, rest = parked(form, watch, buffer[used:])
    return refusal, used + more, buffer[:used] + rest


def park(watch, buffer):
    return parked(WIDE, watch, buffer)


def park_behind(watch, used, buffer):
    return parked_behind(WIDE, watch, used, buffer)


def park_narrow(watch, buffer):
    return parked(NARROW, watch, buffer)


def park_narrow_behind(watch, used, buffer):
    return parked_behind(NARROW, watch, used, buffer)


# ---- Reading -----------------------------------------------------------------------------
# "Reading: 8, length under 2 (10), 9, length too small (10), 11, other 10."

def head_refusal(buffer, leasts):
    """The refusal of a record's head; the wanted kinds, each with its least length."""
    # "under 4 bytes, or fewer than length + 4"
    if len(buffer) < 4 or len(buffer) < field(buffer, 0) + 4:
        return SHORT
    length, kind = field(buffer, 0), field(buffer, 4, 2)
    # "9 | kind | another kind than wanted"; "length under 2, or under 10 for a card and 22 for a watch"
    return first_of((length < 2, MISFIT), (kind not in leasts, KIND), (length < leasts.get(kind, 0), MISFIT))


def read(buffer):
    """A card's record."""
    refusal = head_refusal(buffer, {CARD_KIND: 10})
    if refusal:
        return refusal, 0, NO_CARD
    # "a length that doesn't suit k; m or r outside limits"
    m, key, length = field(buffer, 6), field(buffer, 10), field(buffer, 0)
    if limits_misfit(m, key) or length != 10 + 4 * len(tested_lengths(m)):
        return MISFIT, 0, NO_CARD
    prints = tuple(field(buffer, at) for at in range(14, length + 4, 4))
    card = (m, key, *prints) + (0,) * (PRINTS - len(prints))
    # "A reader says how many bytes it took; bytes behind are not its business."
    return (MISFIT, 0, NO_CARD) if card_misfits(card) else (0, length + 4, card)


# A.5: "Kind 4 is still read"; "its length is 26 + 36k, and under 26 is too small"
LEASTS = {form.kind: form.least for form in FORMS.values()}


def resume_refusal(card, buffer):
    """The refusal of a parked watch's record under a card, as far as its head, passage and length."""
    if card_misfits(card):
        return MISFIT
    refusal = head_refusal(buffer, LEASTS)
    if refusal:
        return refusal
    # "11 | other passage | m, r or last fingerprint differs from the card"
    k = stage_count(card[0])
    if (field(buffer, 6), field(buffer, 10), field(buffer, 14)) != (card[0], card[1], card[2 + k]):
        return OTHER
    # "a length that doesn't suit k"
    return first_of((field(buffer, 0) + 4 != whole_size(FORMS[field(buffer, 4, 2)], k), MISFIT))


def resume(card, buffer):
    """A parked watch's record, under a card."""
    refusal = resume_refusal(card, buffer)
    if refusal:
        return refusal, 0, NO_WATCH
    k, form = stage_count(card[0]), FORMS[field(buffer, 4, 2)]
    numbers = read_parked(form, buffer, k)[3:]
    watch = card + numbers + NO_STAGES[STAGE * k:]
    return (MISFIT, 0, NO_WATCH) if watch_misfits(watch) else (0, whole_size(form, k), watch)

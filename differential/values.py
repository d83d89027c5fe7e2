"""Values as tuples of numbers in the order of calls.FIELDS, when they misfit, and what the calls on cards, half-made
cards and watches must hand back, whatever values they are handed: by the sentences of document 01 and of requests
A.1, A.4, A.5 and A.7 of document 02. (Records are in records.py, the steps below and above watches in steps.py.)
"""

from functools import lru_cache
from itertools import chain

import card as cards
from card import LARGEST_KEY, LONGEST_PASSAGE, MISFIT, P, SMALLEST_KEY, SPENT, value
from calls import PRINTS, SIZE, STAGES
from reference import LAST_T

EMPTY, OVERLONG, KEY, UNFINISHED, SURPLUS, NO_SPACE = 1, 2, 3, 4, 5, 7

# The places of a card's numbers, of a watch's and of a half-made card's.
CARD = SIZE["card"]
T, F_T, FIRST_STAGE = CARD, CARD + 1, CARD + 2
TAKEN, RUNNING, FIRST_PRINT = 2, 3, 4
STAGE = SIZE["stage"]

# "A refusal returns its number only": in the place of a value the driver writes all 0, or the value handed in, which
# stays what it was.
NO_HALF, NO_CARD, NO_WATCH = (0,) * SIZE["half"], (0,) * CARD, (0,) * SIZE["watch"]
NO_ANSWER, NO_STAGE, NO_STAGES = (0,) * SIZE["answer"], (0,) * STAGE, (0,) * SIZE["stages"]


@lru_cache(maxsize=None)
def tested_lengths(m):
    """The lengths of P_0 .. P_k."""
    return tuple(cards.tested_lengths(m))


def first_of(*judgements):
    """The number of the first judgement that holds, 0 for none."""
    return next((refusal for holds, refusal in judgements if holds), 0)


# ---- Parts of values -----------------------------------------------------------------

def card_of(watch):
    return watch[:CARD]


def stages_of(watch):
    return watch[FIRST_STAGE:]


def stage_of(watch, i):
    at = FIRST_STAGE + STAGE * i
    return watch[at:at + STAGE]


def with_stage(watch, i, stage):
    at = FIRST_STAGE + STAGE * i
    return watch[:at] + tuple(stage) + watch[at + STAGE:]


def numbers_of(parts):
    """The numbers of parts, one behind another."""
    return tuple(chain.from_iterable(parts))


def with_numbers(tuple_, places):
    """The value with the numbers at some places replaced."""
    numbers = list(tuple_)
    for place, number in places:
        numbers[place] = number
    return tuple(numbers)


# ---- Misfits ---------------------------------------------------------------------------

def key_fits(key):
    # "The key r is from 2 to 2147483646."
    return SMALLEST_KEY <= key <= LARGEST_KEY


def limits_misfit(m, key):
    # "m or r outside limits"
    return not 1 <= m <= LONGEST_PASSAGE or not key_fits(key)


def prints_misfit(m, taken, prints):
    """The prints after so many of m bytes."""
    # "a fingerprint not below p"; A.4: "A card's first fingerprint, once reached, is then 1 to 256, and any other a
    # misfit."
    if max(prints) >= P or taken > 0 and not 1 <= prints[0] <= 256:
        return True
    # "a print past P_k [...] that isn't all 0"; of a half-made card "a print not yet reached is not 0"
    lengths = tested_lengths(m)
    reached = len(lengths) if taken >= m else sum(length <= taken for length in lengths)
    return any(prints[reached:])


@lru_cache(maxsize=1000)
def card_misfits(card):
    return limits_misfit(card[0], card[1]) or prints_misfit(card[0], card[0], card[2:])


def half_misfits(half):
    # "A half-made card misfits when it has more than m bytes or its prints are not below p, or a print not yet reached
    # is not 0, or its running print is not 0 at 0 bytes." Besides, "the same holds for values handed in".
    m, key, taken, running = half[:FIRST_PRINT]
    if limits_misfit(m, key) or taken > m or running >= P or taken == 0 and running != 0:
        return True
    return prints_misfit(m, taken, half[FIRST_PRINT:])


def now_misfits(t, f):
    """t with F_t."""
    # A.5: "the new limit, above which t is a misfit"; "a fingerprint not below p"; "F_t not 0 at t = 0"
    return t > LAST_T or f >= P or t == 0 and f != 0


@lru_cache(maxsize=10000)
def joined(f, key, block, length, times):
    """A print with a block of this print and length joined to it so many times."""
    # "fp(uv) = (fp(u) × r^|v| + fp(v)) mod p"; each time f becomes f × q + block.
    q = pow(key, length, P)
    if q == 1:
        return (f + times * block) % P
    whole = pow(q, times, P)
    return (f * whole + block * (whole - 1) * pow(q - 1, -1, P)) % P


def shape_misfits(stage, t, youngest, oldest):
    """A stage of which a listed start is from `youngest` to `oldest` bytes back, by document 01's rules."""
    held, first, f_first, last, f_last, step, step_print = stage
    # "Held 0: the other six are 0."
    if held == 0:
        return any(stage)
    # "a fingerprint not below p"
    if f_first >= P or f_last >= P or step_print >= P:
        return True
    # "Held 1: last = first, F_last = F_first, step and step print 0."
    if held == 1 and (last != first or f_last != f_first or step or step_print):
        return True
    # "held of 2 or more with step 0 or last not first + (held-1) × step"
    if held > 1 and (step == 0 or last != first + (held - 1) * step):
        return True
    # "a listed first or last with t - start outside |P_i| .. |P_(i+1)| - 1"
    return not (youngest <= t - first <= oldest and youngest <= t - last <= oldest)


def last_misfits(stage, key):
    """A stage whose F_last is another than follows."""
    # A.7: "a stage with two or more held starts must have the F_last that comes out of F_first by held - 1 joins of the
    # step print, else it is a misfit (10), in values handed in too."
    held, _, f_first, _, f_last, step, step_print = stage
    return held > 1 and f_last != joined(f_first, key, step_print, step, held - 1)


def stage_misfits(stage, key, t, youngest, oldest):
    return shape_misfits(stage, t, youngest, oldest) or last_misfits(stage, key)


def stages_misfit(m, key, t, stages):
    """The stages of a watch over m bytes, at t."""
    lengths = tested_lengths(m)
    k = len(lengths) - 1
    # "a stage past k-1 that isn't all 0"
    if any(stages[STAGE * k:]):
        return True
    return any(stage_misfits(stages[STAGE * i:STAGE * i + STAGE], key, t, lengths[i], lengths[i + 1] - 1)
               for i in range(k))


def watch_misfits(watch):
    return (card_misfits(card_of(watch)) or now_misfits(watch[T], watch[F_T])
            or stages_misfit(watch[0], watch[1], watch[T], stages_of(watch)))


def lists_below(stages, count):
    """Whether a start below a count is listed."""
    return any(stages[at] and min(stages[at + 1], stages[at + 3]) < count for at in range(0, len(stages), STAGE))


def half_fits(half):
    return (int(not half_misfits(half)),)


def card_fits(card):
    return (int(not card_misfits(card)),)


def watch_fits(watch):
    return (int(not watch_misfits(watch)),)


# ---- The maker -------------------------------------------------------------------------
# "Order: value handed in (10), then 1, 2, 3; 5; 4; 6; 7."

def pushed(f, key, byte):
    # A.4: "f becomes (f × r + b + 1) mod p"
    return (f * key + value(byte)) % P


def begin_refusal(m, key):
    return first_of((m == 0, EMPTY), (m > LONGEST_PASSAGE, OVERLONG), (not key_fits(key), KEY))


def begin(m, key):
    # "The maker is told m and r first"
    refusal = begin_refusal(m, key)
    return refusal, NO_HALF if refusal else (m, key) + NO_HALF[2:]


def push(half, byte):
    refusal = MISFIT if half_misfits(half) else first_of((half[TAKEN] >= half[0], SURPLUS))
    if refusal:
        return refusal, half
    # ".. then takes the bytes singly."
    m, key, taken = half[0], half[1], half[TAKEN] + 1
    f = pushed(half[RUNNING], key, byte)
    prints = list(half[FIRST_PRINT:])
    for i, length in enumerate(tested_lengths(m)):
        if length == taken:
            prints[i] = f
    return 0, (m, key, taken, f, *prints)


def finish(half):
    refusal = MISFIT if half_misfits(half) else first_of((half[TAKEN] < half[0], UNFINISHED))
    # "The card holds m, r and the k + 1 fingerprints."
    return refusal, NO_CARD if refusal else half[:2] + half[FIRST_PRINT:]


def card_value(card):
    """The value of a card of card.py."""
    return (card.m, card.key, *card.prints) + (0,) * (PRINTS - len(card.prints))


def make(passage, key):
    """A card from a whole passage, which its maker is told the length of."""
    refusal = begin_refusal(len(passage), key)
    return refusal, NO_CARD if refusal else card_value(cards.make_card(passage, key))


# ---- Entering and taking off -------------------------------------------------------------

def alone(start, f):
    # "Held 1: last = first, F_last = F_first, step and step print 0."
    return (1, start, f, start, f, 0, 0)


def taken_off(stage, key):
    """A stage that lists a start, without its first."""
    held, first, f_first, last, f_last, step, step_print = stage
    if held == 1:
        return NO_STAGE
    # "when one is left, last and F_last become first and F_first, and step and step print 0"
    if held == 2:
        return alone(last, f_last)
    # "Taking off the first of several adds the step to first and joins the step print to F_first"
    return (held - 1, first + step, joined(f_first, key, step_print, step, 1), last, f_last, step, step_print)


def gap(key, start, f, later, f_later):
    """The length and print of the bytes from one start to a later one; to none that is later there are no bytes."""
    # "So fp(v) comes from fp(uv), fp(u) and |v|."
    length = max(later - start, 0)
    return length, (f_later - f * pow(key, length, P)) % P


def entered(stage, key, start, f):
    """A stage with a newcomer, and the set set aside, or None."""
    held, first, f_first, last, f_last, step, step_print = stage
    # "into a stage that lists none or one, the start is added."
    if held == 0:
        return alone(start, f), None
    # "The print of a gap comes from F_last and the newcomer's F."
    to_newcomer = gap(key, last, f_last, start, f)
    # "A last kept at a setting aside becomes first with its F_last as F_first."
    pair = (2, last, f_last, start, f, *to_newcomer)
    if held == 1:
        return pair, None
    # "The newcomer is added if its gap to the last start equals the step and the bytes of that gap have the step
    # print."
    if to_newcomer == (step, step_print):
        return (held + 1, first, f_first, start, f, step, step_print), None
    # "Otherwise all listed starts but the last are set aside, as (first, step, how many); the last and the newcomer
    # remain."
    return pair, (first, step, held - 1)


# ---- Strokes ---------------------------------------------------------------------------

def matches(card, i, now, f_now, start, f):
    """Whether the bytes from a start to now have the fingerprint of P_i."""
    return gap(card[1], start, f, now, f_now)[1] == card[2 + i]


def answer_of(rung, sets, comparisons):
    # "The answer to a byte: whether a start rang, and which; the sets set aside, highest stage first; the number of
    # comparisons". Behind the last set all is 0 (docs/DECISIONS.md, reading 10).
    numbers = numbers_of(sets)
    head = (0, 0) if rung is None else (1, rung)
    return (*head, len(sets), comparisons) + numbers + NO_ANSWER[4 + len(numbers):]


def one_byte(card, t, f, stages, byte):
    """A byte for a card whose stages are no misfit at t, with F_t: the answer, and the stages then."""
    lengths, key = tested_lengths(card[0]), card[1]
    k = len(lengths) - 1
    now, f_now = t + 1, pushed(f, key, byte)            # "At each byte, t rises by one."
    after = [stages[STAGE * i:STAGE * i + STAGE] for i in range(k)]
    rung, sets, comparisons = None, [], 1

    def enter(i, start, f_start):
        after[i], aside = entered(after[i], key, start, f_start)
        if aside:
            sets.append(aside)

    # "Stages are visited from k-1 down to 0. If stage i lists the start t - |P_(i+1)|, it is taken off and the last
    # |P_(i+1)| bytes are compared by fingerprint with P_(i+1)." (Of a stage that is no misfit only the first can be
    # it.)
    for i in range(k - 1, -1, -1):
        held, first, f_first = after[i][:3]
        if not held or first != now - lengths[i + 1]:
            continue
        after[i] = taken_off(after[i], key)
        comparisons += 1                                # "which is 1 plus the starts taken off"
        # "On a match it is rung if i+1 = k, else it enters stage i+1. Without a match it is dropped."
        if matches(card, i + 1, now, f_now, first, f_first):
            if i + 1 == k:
                rung = first
            else:
                enter(i + 1, first, f_first)
    # "Start t-1 is compared with P_0. On a match it is rung if k = 0, else it enters stage 0."
    if matches(card, 0, now, f_now, t, f):
        if k == 0:
            rung = t
        else:
            enter(0, t, f)
    listed = numbers_of(after)
    return answer_of(rung, sets, comparisons), listed + NO_STAGES[len(listed):]


def start(card):
    # "a fresh one has t = 0, F_t = 0 and nothing listed"
    refusal = first_of((card_misfits(card), MISFIT))
    return refusal, NO_WATCH if refusal else card + (0, 0) + NO_STAGES


def taken(watch, byte):
    """The answer of a watch that takes the byte, and the watch then."""
    card, t, f = card_of(watch), watch[T], watch[F_T]
    answer, stages = one_byte(card, t, f, stages_of(watch), byte)
    return answer, card + (t + 1, pushed(f, card[1], byte)) + stages


def stroke_refusal(watch):
    # "a stream byte when t = 4294967295"; A.5: "Refusal 6 moves to the new limit"
    return MISFIT if watch_misfits(watch) else first_of((watch[T] == LAST_T, SPENT))


def stroke(watch, byte):
    refusal = stroke_refusal(watch)
    return (refusal, NO_ANSWER, watch) if refusal else (0, *taken(watch, byte))


def strokes(watch, data):
    """Byte after byte, each for the watch that the one before handed back."""
    answers = []
    refusal = stroke_refusal(watch)
    for byte in data:
        if refusal:
            answers.append((refusal, NO_ANSWER, watch))
            continue
        answer, watch = taken(watch, byte)
        answers.append((0, answer, watch))
        refusal = first_of((watch[T] == LAST_T, SPENT))
    return tuple(answers)


def stroke_shared(watch, key, since, byte):
    """A byte for a watch that shares the key, t and F_t with others, put in at a count."""
    # A.1: "A card with another key is a misfit, as is a rack with a card or stage astray, [...] c above t, a start
    # below c"
    if watch[1] != key or since > watch[T] or watch_misfits(watch) or lists_below(stages_of(watch), since):
        return MISFIT, 0, NO_ANSWER, stages_of(watch)
    if watch[T] == LAST_T:
        return SPENT, 0, NO_ANSWER, stages_of(watch)
    answer, stages = one_byte(card_of(watch), watch[T], watch[F_T], stages_of(watch), byte)
    # Whether the stages were visited is left free: where it is 0 they must be as they were (wanted.py).
    visited = answer[3] > 1 or value(byte) == watch[2]
    return 0, int(visited), answer, stages


# ---- Scans -----------------------------------------------------------------------------

# A note is five numbers: 0, t and the start of a ring, and two zeros; or 1, t and the three numbers of a set. A byte is
# taken only where the list has room for a ring and twenty sets behind the notes before it (docs/DECISIONS.md,
# statement 6).
NOTE, NOTE_ROOM = 5, 5 * (STAGES + 1)


def notes_of(t, answer):
    rung, ring_start, asides = answer[:3]
    notes = [0, t, ring_start, 0, 0] if rung else []
    for at in range(4, 4 + 3 * asides, 3):
        notes += [1, t, *answer[at:at + 3]]
    return notes


def scan(watch, at, data, lent):
    """Bytes from a place on, in one call: until none is left, the list has no room or one is refused."""
    refusal = first_of((watch_misfits(watch), MISFIT), (len(lent) < NOTE_ROOM, NO_SPACE))
    notes, comparisons = [], 0
    while not refusal and at < len(data) and len(notes) + NOTE_ROOM <= len(lent):
        if watch[T] == LAST_T:
            refusal = SPENT
            break
        answer, watch = taken(watch, data[at])
        notes += notes_of(watch[T], answer)
        comparisons += answer[3]
        at += 1
    return refusal, len(notes), comparisons, at, watch, (*notes, *lent[len(notes):])

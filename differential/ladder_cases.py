"""Cases of whole histories, (words, call, values): streams from a watch that lists nothing, early and late. What
values.py says of each byte, the answer and all numbers of the watch, is here held against the ladder with unlimited
lists (reference.py), so that the driver is held against it too."""

import random

from card import make_card
from parked import LAST_NARROW_T
from random_cases import LENGTHS, key_of, passage_of, stream_of
from reference import LAST_T, late_ladder
from samples import listing_nothing
from values import NO_STAGES, answer_of, card_value, strokes


def stored(ladder):
    """The numbers of a watch that says what the ladder with unlimited lists does."""
    # "A watch holds its card, t, F_t and its stages"; "per stage: held, first, F_first, last, F_last, step, step print"
    numbers = []
    for stage in ladder.stages:
        step = stage[1] - stage[0] if len(stage) > 1 else 0
        step_print = ladder.print_of(stage[0], step) if step else 0
        ends = (stage[0], ladder.F[stage[0]], stage[-1], ladder.F[stage[-1]]) if stage else (0, 0, 0, 0)
        numbers += [len(stage), *ends, step, step_print]
    return card_value(ladder.card) + (ladder.t, ladder.F[-1], *numbers) + NO_STAGES[len(numbers):]


def held_against(ladder, watch, stream):
    """Whether each byte of the stream brings the watch what it brings the ladder."""
    for byte, (refusal, answer, after) in zip(stream, strokes(watch, stream)):
        if refusal or answer != answer_of(*ladder.take(byte)) or after != stored(ladder):
            return False
    return True


def histories():
    for seed in range(200):
        rng = random.Random(seed)
        m, key = rng.choice(LENGTHS[:-1]), key_of(rng)
        passage = passage_of(rng, m)
        card, stream = make_card(passage, key), stream_of(rng, passage, key, 150)[:300]
        t = rng.choice([0, 0, 0, LAST_NARROW_T - 100, LAST_T - 300])
        watch = listing_nothing(card_value(card), t)
        assert held_against(late_ladder(card, t), watch, stream), "seed %d" % seed
        yield "history %d, passage of %d bytes under key %d, from %d" % (seed, m, key, t), "strokes", (watch, stream)


CASES = [("histories, by unlimited lists", histories)]

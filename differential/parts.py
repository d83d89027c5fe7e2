"""What the parts of the library below the board's own calls must hand back, whatever they are handed: lengths, keys,
fingerprints and their powers, stages, one byte's walk, places and names of a rack. By the sentences of document 01 and
of requests A.1, A.4, A.5 and A.7 of document 02; where these leave something free, by what crates/*/specs defines.
(What is written and read is in written_parts.py.)
"""

from calls import PLACES, PRINTS
from card import P, value
from rack_values import FREE, NAME, NO_REPORTS, is_free, places_of
from steps import enter, print_cut, print_join, take_off
from values import (NO_ANSWER, NO_CARD, NO_STAGE, NO_STAGES, NO_WATCH, STAGE, answer_of, card_misfits, card_of, joined,
                    key_fits, last_misfits, lists_below, now_misfits, numbers_of, shape_misfits, tested_lengths)

# ---- Lengths and keys ------------------------------------------------------------------------


def levels(m):
    # "k is the least number with 2^k ≥ m."
    return (len(tested_lengths(m)) - 1,)


def length_of(m, i):
    """|P_i|; a passage has no beginning past P_k, which is all of it."""
    # "Tested beginnings P_0 .. P_k have lengths 1, 2, 4 .. 2^(k-1), and last m."
    lengths = tested_lengths(m)
    return lengths[min(i, len(lengths) - 1)]


def prefix_length(m, i):
    return (length_of(m, i),)


def running_fits(taken, f):
    # "its running print is not 0 at 0 bytes"
    return (int(taken > 0 or f == 0),)


def key_of(n):
    """A number as a key: all that have no room in its field are refused as the largest that has."""
    return (min(n, 2 ** 32 - 1),)


def key_tests(r, s):
    return int(key_fits(r)), int(r == s)


# ---- Fingerprints and powers -------------------------------------------------------------------

def print_of_byte(byte):
    # "One byte b more"; A.4: "byte b the value b + 1"
    return (value(byte),)


def print_join_by(f, other, key, n):
    return print_join(f, key, other, n)


def print_join_times(f, other, key, n, times):
    # With no block joined it is the print that it was, below p or not.
    return (joined(f, key, other, n, times) if times else f,)


def print_cut_by(f, front, key, n):
    return print_cut(f, key, front, n)


def power_times(r, n, s, l, f):
    return (f * pow(r, n, P) * pow(s, l, P) % P,)


def power_squared(r, n, f):
    return (f * pow(r, 2 * n, P) % P,)


def powers_raise(r, most, n, f):
    return (f * pow(r, n, P) % P,)


def powers_shifts(r, most, m, f):
    """r to the lengths of P_0 .. P_k. What stands past P_k is left free (wanted.py), here it is 0."""
    shifts = tuple(f * pow(r, length, P) % P for length in tested_lengths(m))
    return (shifts + (0,) * (PRINTS - len(shifts)),)


def powers_key(r, most):
    return (r,)


# ---- Stages and marks ----------------------------------------------------------------------------

def mark_fits(t, f):
    return (int(not now_misfits(t, f)),)


def distance(start, end):
    return (max(end - start, 0),)


def is_ripe(stage, length, t):
    # "If stage i lists the start t - |P_(i+1)|": its first can be that.
    return stage[0] > 0 and t - stage[1] == length


def stage_tests(stage, m, i, t):
    """Whether document 01's rules hold of it as stage i, whether its first start is |P_i| bytes back, and whether all
    but held is 0."""
    lengths = tested_lengths(m)
    if i < len(lengths) - 1:
        fits = not shape_misfits(stage, t, lengths[i], lengths[i + 1] - 1)
    else:
        fits = not any(stage)           # "a stage past k-1 that isn't all 0"
    return int(fits), int(is_ripe(stage, length_of(m, i), t)), int(not any(stage[1:]))


def last_fits(stage, key):
    return (int(not last_misfits(stage, key)),)


def listed_from(stage, since):
    # A.1: "a start below c"
    return (int(not lists_below(stage, since)),)


def quiet_until(stage, m, i, until):
    """The last t up to `until` at which the first start is not |P_i| bytes back or more; 0 where there is none."""
    return (min(until, max(stage[1] + length_of(m, i) - 1, 0)) if stage[0] else until,)


# ---- Watches and answers ---------------------------------------------------------------------------

def moved(watch, t, f, stages):
    return (card_of(watch) + (t, f) + stages,)


def climb(card, t, f, key, start, f_start, stages):
    """One byte's walk over any stages, where t and F_t are those behind the byte and `key` is that of the powers."""
    lengths, own_key = tested_lengths(card[0]), card[1]
    k = len(lengths) - 1
    after = [stages[at:at + STAGE] for at in range(0, len(stages), STAGE)]
    rung, sets, comparisons = None, [], 1

    def tried(i, one, f_one):
        """The start that rang; on a match below P_k it enters stage i."""
        # "compared by fingerprint with P_(i+1). On a match it is rung if i+1 = k, else it enters stage i+1. Without a
        # match it is dropped."
        if print_cut(f, key, f_one, lengths[i])[0] != card[2 + i]:
            return None
        if i == k:
            return one
        after[i], aside, *one_set = enter(after[i], own_key, one, f_one)
        if aside:
            sets.append(tuple(one_set))
        return None

    # "Stages are visited from k-1 down to 0. If stage i lists the start t - |P_(i+1)|, it is taken off"
    for i in range(k - 1, -1, -1):
        stage = after[i]
        if is_ripe(stage, lengths[i + 1], t):
            after[i] = take_off(stage, own_key)[0]
            comparisons += 1
            found = tried(i + 1, stage[1], stage[2])
            rung = found if rung is None else rung
    # "Start t-1 is compared with P_0."
    found = tried(0, start, f_start)
    rung = found if rung is None else rung
    return answer_of(rung, sets, comparisons), numbers_of(after)


def silent(answer):
    rung, _, asides = answer[:3]
    return (int(not rung and not asides),)


# ---- Places and names of a rack ----------------------------------------------------------------------

def place_with(name, since, card):
    return ((name, since) + card + NO_STAGES,)


def has_name(place, name):
    return not is_free(place) and place[NAME] == name


def label_of(place):
    """What stands for a place in a list of names: one more than its name, 0 where it is free."""
    return 0 if is_free(place) else place[NAME] + 1


def place_tests(place, name):
    # "or a free place not all 0"
    free, clear = is_free(place), not any(place)
    return int(free), int(has_name(place, name)), label_of(place), int(clear), int(clear or not free)


def first_place(tests):
    """The first place that passes its test, or the one behind all."""
    return (list(tests) + [True]).index(True)


def places(rack, name):
    own = places_of(rack)
    return first_place(has_name(place, name) for place in own), first_place(map(is_free, own))


def begun_fits(key, t, f):
    return (int(key_fits(key) and not now_misfits(t, f)),)


def card_fits_key(card, key):
    # "A card with another key is a misfit"
    return (int(not card_misfits(card) and card[1] == key),)


def labels_apart(well, labels):
    # "a name twice"
    names = [label for label in labels if label]
    return (int(well > 0 and len(set(names)) == len(names)),)


def lowest_label(labels, bound):
    """The place of the least label above a bound, the first where several have it; 16 where none is above."""
    above = [label for label in labels if label > bound]
    return (labels.index(min(above)) if above else PLACES,)


def report_start(name, answer, otherwise):
    # "whether a start rang, and which"
    return (answer[1] if answer[0] else otherwise,)


def nothing():
    """Values that hold nothing; no name; no key; t and F_t of a fresh watch."""
    return NO_CARD, NO_WATCH, NO_STAGE, FREE, NO_ANSWER, NO_REPORTS, (0,) * PLACES, 0, 0, 0


RULES = {
    "levels": levels, "prefix length": prefix_length, "running fits": running_fits, "key of": key_of,
    "key tests": key_tests,
    "print of byte": print_of_byte, "print join by": print_join_by, "print join times": print_join_times,
    "print cut by": print_cut_by, "power times": power_times, "power squared": power_squared,
    "powers raise": powers_raise, "powers shifts": powers_shifts, "powers key": powers_key,
    "mark fits": mark_fits, "distance": distance, "stage tests": stage_tests, "last fits": last_fits,
    "listed from": listed_from, "quiet until": quiet_until,
    "moved": moved, "climb": climb, "silent": silent,
    "place with": place_with, "place tests": place_tests, "places": places, "begun fits": begun_fits,
    "card fits key": card_fits_key, "labels apart": labels_apart, "lowest label": lowest_label,
    "report start": report_start, "nothing": nothing,
}

"""Racks as tuples of numbers in the order of calls.FIELDS, when they misfit, and what the calls on racks must hand back
on every field, whatever rack they are handed: by the sentences of request A.1 of document 02, and of A.4, A.5 and A.7.

Cards and stages, and a byte for given stages, are those of values.py.
"""

import values
from calls import PLACES, SIZE
from card import MISFIT, SPENT
from reference import LAST_T
from values import CARD, KEY, NO_ANSWER, NO_STAGES, first_of

# "Checks: 12 for putting a card in when 16 are in, 13 when a name put in is already there, 14 when a name taken out is
# absent"
FULL, TAKEN, ABSENT = 12, 13, 14

# The places of a rack's numbers, and of those of a card's place in it.
HEAD, PLACE = 3, 2 + CARD + len(NO_STAGES)
NAME, SINCE, LENGTH, STAGES = 0, 1, 2, 2 + CARD

FREE = (0,) * PLACE
NO_REPORT = (0,) + NO_ANSWER
NO_REPORTS = (0,) * SIZE["reports"]


# ---- Parts of a rack -----------------------------------------------------------------

def places_of(rack):
    return [rack[at:at + PLACE] for at in range(HEAD, len(rack), PLACE)]


def card_of(place):
    return place[LENGTH:STAGES]


def is_free(place):
    """A card has at least one byte, so a place whose card has none is free (docs/DECISIONS.md, reading 12)."""
    return place[LENGTH] == 0


def names_in(rack):
    """The place of each name that is in."""
    return {place[NAME]: i for i, place in enumerate(places_of(rack)) if not is_free(place)}


def with_place(rack, i, place):
    """The rack with another place; all else as it was."""
    at = HEAD + PLACE * i
    return rack[:at] + place + rack[at + PLACE:]


# ---- Misfits -------------------------------------------------------------------------

def place_misfits(place, key, t):
    # "or a free place not all 0"
    if is_free(place):
        return any(place)
    card, stages = card_of(place), place[STAGES:]
    # "A card with another key is a misfit, as is a rack with a card or stage astray, [...] c above t, a start below c".
    # A.4's first fingerprint and A.7's F_last are judged with card and stage.
    return (card[1] != key or values.card_misfits(card) or values.stages_misfit(card[0], key, t, stages)
            or place[SINCE] > t or values.lists_below(stages, place[SINCE]))


def rack_misfits(rack):
    key, t, f = rack[:HEAD]
    # A rack misfits as a watch does where A.1's conditions shut in more: its key or F_t out of range, F_t not 0 at
    # t = 0 (docs/DECISIONS.md, reading 12). A.5: "the new limit, above which t is a misfit"
    if not values.key_fits(key) or values.now_misfits(t, f):
        return True
    names = [place[NAME] for place in places_of(rack) if not is_free(place)]
    # "a name twice"
    return len(set(names)) < len(names) or any(place_misfits(place, key, t) for place in places_of(rack))


def rack_fits(rack):
    return (int(not rack_misfits(rack)),)


# ---- Calls ---------------------------------------------------------------------------

def empty_rack(key):
    return (key,) + (0,) * (SIZE["rack"] - 1)


def begin_rack(key):
    # "A rack is begun with a key, which refusal 3 judges." For a refused begin the driver writes the rack with no card,
    # t = 0 and the key 0.
    refusal = first_of((not values.key_fits(key), KEY))
    return refusal, empty_rack(0 if refusal else key)


def put_in(rack, name, card):
    names = names_in(rack)
    # "A card with another key is a misfit"; "10 comes first, then 13 before 12."
    misfit = rack_misfits(rack) or values.card_misfits(card) or card[1] != rack[0]
    refusal = first_of((misfit, MISFIT), (name in names, TAKEN), (len(names) == PLACES, FULL))
    if refusal:
        # "A refusal returns its number only"; demand 1 covers it "for racks as for watches": the rack is what it was.
        return refusal, rack
    # "A freed place serves again." Which of the free ones serves the documents leave free: it is the first.
    free = next(i for i, place in enumerate(places_of(rack)) if is_free(place))
    # "A card put in at count c is matched only for starts from c on": c is the rack's t, and nothing is listed.
    return 0, with_place(rack, free, (name, rack[1]) + card + NO_STAGES)


def take_out(rack, name):
    names = names_in(rack)
    refusal = first_of((rack_misfits(rack), MISFIT), (name not in names, ABSENT))
    # "taking it out drops its starts without a report"; a free place is all 0
    return refusal, rack if refusal else with_place(rack, names[name], FREE)


def stroke_rack(rack, byte):
    # A.5: "Refusal 6 moves to the new limit"; 10 comes before it.
    refusal = first_of((rack_misfits(rack), MISFIT), (rack[1] == LAST_T, SPENT))
    if refusal:
        return refusal, NO_REPORTS, rack
    key, t, f = rack[:HEAD]
    reports, places = [], []
    for place in places_of(rack):
        if not is_free(place):
            # "It holds up to 16 cards [...] sharing t and F_t."
            answer, stages = values.one_byte(card_of(place), t, f, place[STAGES:], byte)
            reports.append((place[NAME],) + answer)
            place = place[:STAGES] + stages
        places.append(place)
    after = (key, t + 1, values.pushed(f, key, byte))
    return 0, reports_of(sorted(reports)), after + values.numbers_of(places)


def reports_of(reports):
    """One report for each name that is in, also where it has nothing to say (docs/DECISIONS.md, reading 13)."""
    # "Reports at one byte go by rising name. The comparisons at one byte are the sum over the names"
    comparisons = sum(report[4] for report in reports)
    # "The places past the last report are all 0" (reading 13).
    filled = reports + [NO_REPORT] * (PLACES - len(reports))
    return (len(reports), comparisons) + values.numbers_of(filled)


RULES = {"begin rack": begin_rack, "put in": put_in, "take out": take_out, "stroke rack": stroke_rack,
         "rack fits": rack_fits}

"""Parked records of both kinds, written from document 01 ("Records") and requests A.4 and A.5 of
document 02 alone.

Used to work out what parking must write (trials.py, records.py) and to read it (records.py).
"""

import struct
from collections import namedtuple
from functools import lru_cache

from card import number

# A kind of parked record: how many bytes t, first and last take; its least length; what a stage
# adds to it.
Form = namedtuple("Form", "kind place least stage")

# A.4: "parked watches kind 4". Document 01: "fields of 4 bytes", "Length 22 + 28k".
NARROW = Form(4, 4, 22, 28)
# A.5: "The wide parked record is kind 5, with t, first and last in 8 bytes and the other fields
# in 4; its length is 26 + 36k, and under 26 is too small"
WIDE = Form(5, 8, 26, 36)
FORMS = {form.kind: form for form in (NARROW, WIDE)}

# A.5: "A narrow record can be written from a wide watch while t is at most 4294967295"
LAST_NARROW_T = 4294967295


def sizes(form, k):
    """How many bytes each field behind the kind takes."""
    # "m, r, fingerprint of P_k, t, F_t, then stages 0 .. k-1, seven fields each": "held, first,
    # F_first, last, F_last, step, step print."
    return [4, 4, 4, form.place, 4] + [4, form.place, 4, form.place, 4, 4, 4] * k


@lru_cache(maxsize=None)
def layout(form, k):
    """The fields behind the kind, little-endian."""
    return struct.Struct("<" + "".join({4: "I", 8: "Q"}[size] for size in sizes(form, k)))


def whole_size(form, k):
    """The bytes of a record, its length field included."""
    return 4 + form.least + form.stage * k


def write_parked(form, fields):
    """The record of these fields."""
    k = (len(fields) - 5) // 7
    body = number(form.kind, 2) + layout(form, k).pack(*fields)
    assert len(body) + 4 == whole_size(form, k)
    return number(len(body)) + body


def read_parked(form, buffer, k):
    """The fields of a record of k stages, which the buffer holds whole."""
    return layout(form, k).unpack_from(buffer, 6)


# A.5: "at m = 1 the whole takes 30 bytes"; document 01: "at most 586 bytes with the length field"
assert whole_size(WIDE, 0) == 30 and whole_size(NARROW, 0) == 26
assert whole_size(WIDE, 20) == 750 and whole_size(NARROW, 20) == 586

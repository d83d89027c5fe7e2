"""What the parts of the library must hand back that write and read fields, decimal numbers, notes and lines, and its
plain search, whatever they are handed: by document 01 ("Records", "The printing program", "Whole runs") and requests
A.4 and A.5 of document 02; where these leave something free, by what crates/*/specs defines.
"""

import re

import search
from calls import STAGES
from card import field, fingerprint, number
from parked import NARROW, WIDE, whole_size
from parts import levels
from records import head_refusal
from steps import LINES_ROOM, print_push
from values import NOTE, NOTE_ROOM, T, notes_of, watch_misfits


def put_at(at, what, into):
    """A buffer or list with these bytes or numbers in place of those from a place on."""
    return into[:at] + what + into[at + len(what):]


# ---- Fields --------------------------------------------------------------------------------

PRINT = 4                       # "then fields of 4 bytes"


def width_of(n):
    # "Length (4 bytes) of what follows it, kind (2 bytes), then fields of 4 bytes"; A.5: "t, first and last in 8 bytes"
    return n if n in (2, 4) else 8


def field_at(at, width, buffer):
    """Whether the field's bytes are there, and its number, 0 where they are not."""
    size = width_of(width)
    return (1, field(buffer, at, size)) if at + size <= len(buffer) else (0, 0)


def number_at(at, width, buffer):
    return field_at(at, width, buffer)[1:]


def with_field(at, width, what, buffer):
    """The low bytes of the number at their place; the buffer as it was where there is no room for them."""
    size = width_of(width)
    return put_at(at, number(what % 256 ** size, size), buffer) if at + size <= len(buffer) else buffer


def put_field(at, width, what, buffer):
    return (with_field(at, width, what, buffer),)


def word_at(at, buffer):
    return number_at(at, 4, buffer)


def put_word(at, what, buffer):
    return put_field(at, 4, what, buffer)


def put_head(length, kind, buffer):
    # "Length (4 bytes) of what follows it, kind (2 bytes)": each where there is room for it.
    return (with_field(4, 2, kind, with_field(0, 4, length, buffer)),)


def check_head(kind, least, buffer):
    return (head_refusal(buffer, {kind: least}),)


def format_of(wide, t, k):
    """Of a parked record: the width of a place, the kind, the least length, whether it can say t; the bytes of a place
    with its print, of a stage, of all before the stages, and of the whole."""
    form = WIDE if wide else NARROW
    # "held, first, F_first, last, F_last, step, step print"
    stage = 4 + 2 * (form.place + PRINT) + 4 + PRINT
    assert stage == form.stage
    return (form.place, form.kind, form.least, int(t < 256 ** form.place), form.place + PRINT, stage,
            whole_size(form, 0), whole_size(form, k))


# ---- Decimal numbers -------------------------------------------------------------------------

def decimal_read(text):
    """A number of one to ten digits, and nothing else."""
    return (1, int(text)) if re.fullmatch(rb"[0-9]{1,10}", text) else (0, 0)


def decimal_put(at, n, buffer):
    # "Printed numbers are decimal without leading zeros"
    digits = b"%d" % n
    return (at + len(digits), put_at(at, digits, buffer)) if at + len(digits) <= len(buffer) else (at, buffer)


# ---- Notes and lines -------------------------------------------------------------------------

# A letter, four numbers of at most 20 digits, each behind a space, and a line feed.
LONGEST_LINE = 1 + 4 * (1 + 20) + 1


def put_answer(at, t, answer, lent):
    """The notes of an answer, in a list that has room for those of any byte; there are places for twenty sets."""
    counted = answer[:2] + (min(answer[2], STAGES),) + answer[3:]
    notes = tuple(notes_of(t, counted)) if at + NOTE_ROOM <= len(lent) else ()
    return at + len(notes), put_at(at, notes, lent)


def report_fits(watch, total):
    # No byte brings more than 1 + the number of stages comparisons.
    return (int(not watch_misfits(watch) and total <= (STAGES + 1) * watch[T]),)


def line_of(letter, *numbers):
    # "one space parts the items, and each line ends in one line feed"
    return letter + b"".join(b" %d" % n for n in numbers) + b"\n"


def put_lines(at, lines, room, buffer):
    """Lines at a place of a buffer that has so much room from there on."""
    return (1, at + len(lines), put_at(at, lines, buffer)) if at + room <= len(buffer) else (0, 0, buffer)


def lines_of_notes(at, notes, buffer):
    """Each whole note is a line: a ring's where it begins with 0, else that of a set."""
    whole = list(zip(*[iter(notes)] * NOTE))
    # "`A t first step many` for a set aside, `R t start` for a ring"
    lines = [line_of(b"A", *rest) if kind else line_of(b"R", *rest[:2]) for kind, *rest in whole]
    return put_lines(at, b"".join(lines), LONGEST_LINE * len(whole), buffer)


def line_of_refusal(at, refusal, buffer):
    # "`X number` for a refusal"
    return put_lines(at, line_of(b"X", refusal), LINES_ROOM, buffer)


def line_of_end(at, t, total, buffer):
    # "and last `E t total`"
    return put_lines(at, line_of(b"E", t, total), LINES_ROOM, buffer)


def report_finish(verdict, t, total, buffer):
    """The last lines, in a buffer with the room of two; the refusals have the numbers 1 to 18."""
    refused = line_of(b"X", verdict) if 1 <= verdict <= 18 else b""
    return put_lines(0, refused + line_of(b"E", t, total), 2 * LINES_ROOM, buffer)


# ---- The plain search --------------------------------------------------------------------------

def occurs(start, stream, block):
    # "A true occurrence is a start behind which at least m bytes stand, the first m being the passage"
    return (int(start + len(block) <= len(stream) and stream[start:].startswith(block)),)


def print_of(key, block):
    return (fingerprint(block, key),)


def collides(key, stream, pattern):
    # "some block of the history up to that byte differs from a tested beginning of the passage that has the same length
    # and fingerprint"
    return (int(search.has_collision(pattern, key, stream)),)


RULES = {
    "field at": field_at, "number at": number_at, "put field": put_field, "word at": word_at, "put word": put_word,
    "key at": word_at, "put key": put_word, "print at": word_at, "put print": put_word,
    "put head": put_head, "check head": check_head, "format": format_of,
    "decimal read": decimal_read, "decimal put": decimal_put,
    "put answer": put_answer, "report fits": report_fits, "report finish": report_finish,
    "lines of notes": lines_of_notes, "line of refusal": line_of_refusal, "line of end": line_of_end,
    "occurs": occurs, "more": print_push, "print of": print_of, "collides": collides, "search stages": levels,
}

"""Calls of the library as bytes, for the program `driver_calls`: what each call takes and hands back.

A call is its size, which is how many bytes stand behind it, its number, and its values; every number has 8 bytes,
little-endian. A buffer is its length and then its bytes, a list is its length and then its numbers. The driver answers
with what the call hands back, in the same form but with no size, and knows nothing else: which calls are made, and what
must come back, is said in Python. A number is cut to the width of what it is handed in as.

A value (a card, a watch ..) is a tuple of numbers, in the order of its names; FIELDS gives the names of each.
"""

import struct
from collections import namedtuple
from functools import lru_cache

import programs

PRINTS, STAGES, PLACES = 21, 20, 16
ROOM = 1 << 20                  # the most bytes of calls that one run of the driver takes
STAGE_FIELDS = ["held", "first", "F_first", "last", "F_last", "step", "step print"]

# ---- Values: the names of their numbers, in order ---------------------------------

_prints = ["print %d" % i for i in range(PRINTS)]
_stages = ["stage %d %s" % (i, name) for i in range(STAGES) for name in STAGE_FIELDS]
_card = ["length", "key"] + _prints
_answer = ["rung", "ring start", "asides", "comparisons"] + [
    "set %d %s" % (i, name) for i in range(STAGES) for name in ("first", "step", "many")]
_place = ["name", "since"] + _card + _stages
_labels = ["label %d" % i for i in range(PLACES)]

FIELDS = {
    "half": ["length", "key", "taken", "running print"] + _prints,
    "card": _card,
    "prints": _prints,
    "watch": _card + ["t", "F_t"] + _stages,
    "stages": _stages,
    "stage": STAGE_FIELDS,
    "answer": _answer,
    "place": _place,
    "labels": _labels,
    "rack": ["key", "t", "F_t"] + ["place %d %s" % (i, name) for i in range(PLACES) for name in _place],
    "reports": ["many", "comparisons"] + [
        "report %d %s" % (i, name) for i in range(PLACES) for name in ["name"] + _answer],
}
SIZE = {name: len(fields) for name, fields in FIELDS.items()}

# ---- The table of calls ------------------------------------------------------------

# A part is the name of a value, "number", "buffer" (bytes) or "list" (numbers); "strokes" stands for an answer of the
# call `stroke` for each byte of the last buffer.
Call = namedtuple("Call", "number takes gives")

CALLS = {
    # The maker, and cards.
    "begin": Call(1, ["number", "number"], ["number", "half"]),                 # m, r
    "push": Call(2, ["half", "number"], ["number", "half"]),                    # .., byte
    "finish": Call(3, ["half"], ["number", "card"]),
    "write card": Call(4, ["card", "buffer"], ["number", "number", "buffer"]),  # verdict, used, buffer
    "read card": Call(5, ["buffer"], ["number", "number", "card"]),             # verdict, taken, card
    "make": Call(6, ["buffer", "number"], ["number", "card"]),                  # passage, r
    "make record": Call(7, ["buffer", "number", "buffer"], ["number", "number", "buffer"]),
    "half fits": Call(8, ["half"], ["number"]),
    "card fits": Call(9, ["card"], ["number"]),
    "levels": Call(10, ["number"], ["number"]),                                 # m
    "prefix length": Call(11, ["number", "number"], ["number"]),                # m, i
    "running fits": Call(12, ["number", "number"], ["number"]),                 # taken, print
    "key of": Call(13, ["number"], ["number"]),
    # Watches, and their records.
    "start": Call(16, ["card"], ["number", "watch"]),
    "stroke": Call(17, ["watch", "number"], ["number", "answer", "watch"]),     # .., byte
    "stroke in place": Call(18, ["watch", "number"], ["number", "answer", "watch"]),
    "strokes": Call(19, ["watch", "buffer"], ["strokes"]),
    "park": Call(20, ["watch", "buffer"], ["number", "number", "buffer"]),      # verdict, used, buffer
    "park behind": Call(21, ["watch", "number", "buffer"], ["number", "number", "buffer"]),     # .., used, buffer
    "park narrow": Call(22, ["watch", "buffer"], ["number", "number", "buffer"]),
    "park narrow behind": Call(23, ["watch", "number", "buffer"], ["number", "number", "buffer"]),
    "resume": Call(24, ["card", "buffer"], ["number", "number", "watch"]),      # verdict, taken, watch
    "scan": Call(25, ["watch", "number", "buffer", "list"],                     # .., from, input, lent list
                 ["number", "number", "number", "number", "watch", "list"]),    # verdict, noted, comparisons, next
    "watch fits": Call(26, ["watch"], ["number"]),
    "stroke shared": Call(27, ["watch", "number", "number", "number"],          # .., key of the powers, since, byte
                          ["number", "number", "answer", "stages"]),            # verdict, moved
    "moved": Call(28, ["watch", "number", "number", "stages"], ["watch"]),      # .., t, F_t, stages
    "climb": Call(29, ["card", "number", "number", "number", "number", "number", "stages"],     # .., t, F_t, key of the
                  ["answer", "stages"]),                                        # powers, start, its F, stages
    "silent": Call(30, ["answer"], ["number"]),
    "put answer": Call(31, ["number", "number", "answer", "list"], ["number", "list"]),         # at, t; place behind
    # Racks.
    "begin rack": Call(32, ["number"], ["number", "rack"]),                     # r
    "put in": Call(33, ["rack", "number", "card"], ["number", "rack"]),         # .., name, card
    "take out": Call(34, ["rack", "number"], ["number", "rack"]),               # .., name
    "stroke rack": Call(35, ["rack", "number"], ["number", "reports", "rack"]), # .., byte
    "rack fits": Call(36, ["rack"], ["number"]),
    "place with": Call(37, ["number", "number", "card"], ["place"]),            # name, since
    "place tests": Call(38, ["place", "number"],                                # .., name: free, has it, its label,
                        ["number", "number", "number", "number", "number"]),    # all 0, all 0 if free
    "places": Call(39, ["rack", "number"], ["number", "number"]),               # .., name: its place, a free one
    "begun fits": Call(40, ["number", "number", "number"], ["number"]),         # r, t, F_t
    "card fits key": Call(41, ["card", "number"], ["number"]),
    "labels apart": Call(42, ["number", "labels"], ["number"]),                 # whether all was well so far
    "lowest label": Call(43, ["labels", "number"], ["number"]),                 # .., bound
    "report start": Call(44, ["number", "answer", "number"], ["number"]),       # name, .., the number if none rang
    # MIDI files, and decimal numbers.
    "midi": Call(48, ["number", "number", "buffer", "buffer"], ["number", "number", "buffer"]),     # bells, file, out
    "decimal read": Call(49, ["buffer"], ["number", "number"]),                         # found, number
    "decimal put": Call(50, ["number", "number", "buffer"], ["number", "buffer"]),      # at, n; place behind
    # The printing program's own steps. A line is put or not; then the place behind it, 0 where it is not.
    "report begin": Call(56, ["buffer"], ["number", "number", "number", "watch"]),      # verdict, taken, total, watch
    "report feed": Call(57, ["watch", "number", "buffer", "buffer"],                    # .., total, bytes, out
                        ["number", "number", "number", "number", "watch", "buffer"]),   # verdict, taken, used, total
    "report fits": Call(58, ["watch", "number"], ["number"]),                           # .., total
    "report finish": Call(59, ["number", "number", "number", "buffer"],                 # verdict, t, total
                          ["number", "number", "buffer"]),
    "lines of notes": Call(60, ["number", "list", "buffer"], ["number", "number", "buffer"]),       # at
    "line of refusal": Call(61, ["number", "number", "buffer"], ["number", "number", "buffer"]),    # at, number
    "line of end": Call(62, ["number", "number", "number", "buffer"], ["number", "number", "buffer"]),  # at, t, total
    # Fingerprints and keys. A power is seen by what it does to a fingerprint: f joined with 0 by it.
    "print push": Call(64, ["number", "number", "number"], ["number"]),                 # f, r, byte
    "print join": Call(65, ["number", "number", "number", "number"], ["number"]),       # f, r, other, |other|
    "print cut": Call(66, ["number", "number", "number", "number"], ["number"]),        # f, r, front, length behind
    "print tests": Call(67, ["number", "number"], ["number", "number", "number"]),      # f, g: equal, f fits, of a byte
    "key power": Call(68, ["number", "number", "number"], ["number"]),                  # r, n, f
    "print of byte": Call(69, ["number"], ["number"]),
    "print join by": Call(70, ["number", "number", "number", "number"], ["number"]),    # f, g, r, n: by r^n
    "print join times": Call(71, ["number", "number", "number", "number", "number"], ["number"]),   # .., times
    "print cut by": Call(72, ["number", "number", "number", "number"], ["number"]),     # f, front, r, n
    "power times": Call(73, ["number", "number", "number", "number", "number"], ["number"]),    # r, n, s, l, f: r^n s^l
    "power squared": Call(74, ["number", "number", "number"], ["number"]),              # r, n, f
    "powers raise": Call(75, ["number", "number", "number", "number"], ["number"]),     # r, most bytes, n, f
    "powers shifts": Call(76, ["number", "number", "number", "number"], ["prints"]),    # r, most bytes, m, f
    "powers key": Call(77, ["number", "number"], ["number"]),                           # r, most bytes
    "key tests": Call(78, ["number", "number"], ["number", "number"]),                  # r, s: r fits, equal
    # Stages.
    "take off": Call(80, ["stage", "number"], ["stage"]),                               # .., r
    "enter": Call(81, ["stage", "number", "number", "number"],                          # .., r, start, F
                  ["stage", "number", "number", "number", "number"]),                   # .., aside or not, the set
    "stage tests": Call(82, ["stage", "number", "number", "number"],                    # .., m, i, t
                        ["number", "number", "number"]),                                # shape fits, ripe, rest is 0
    "last fits": Call(83, ["stage", "number"], ["number"]),                             # .., r
    "listed from": Call(84, ["stage", "number"], ["number"]),                           # .., since
    "quiet until": Call(85, ["stage", "number", "number", "number"], ["number"]),       # .., m, i, until
    "distance": Call(86, ["number", "number"], ["number"]),                             # from, to
    "mark fits": Call(87, ["number", "number"], ["number"]),                            # t, F_t
    # What records are made of: fields of 2, 4 or 8 bytes.
    "field at": Call(96, ["number", "number", "buffer"], ["number", "number"]),         # at, width; found, number
    "number at": Call(97, ["number", "number", "buffer"], ["number"]),
    "put field": Call(98, ["number", "number", "number", "buffer"], ["buffer"]),        # at, width, value
    "word at": Call(99, ["number", "buffer"], ["number"]),
    "put word": Call(100, ["number", "number", "buffer"], ["buffer"]),                  # at, value
    "key at": Call(101, ["number", "buffer"], ["number"]),
    "put key": Call(102, ["number", "number", "buffer"], ["buffer"]),
    "print at": Call(103, ["number", "buffer"], ["number"]),
    "put print": Call(104, ["number", "number", "buffer"], ["buffer"]),
    "put head": Call(105, ["number", "number", "buffer"], ["buffer"]),                  # length, kind
    "check head": Call(106, ["number", "number", "buffer"], ["number"]),                # kind, least length; verdict
    "format": Call(107, ["number", "number", "number"],                                 # narrow or wide (0, 1), t, k
                   ["number", "number", "number", "number",                             # width, kind, least, can say t
                    "number", "number", "number", "number"]),                           # mark, stage, stages at, record
    # The plain search.
    "occurs": Call(112, ["number", "buffer", "buffer"], ["number"]),                    # start, stream, block
    "more": Call(113, ["number", "number", "number"], ["number"]),                      # print, key, byte
    "print of": Call(114, ["number", "buffer"], ["number"]),                            # key, block
    "collides": Call(115, ["number", "buffer", "buffer"], ["number"]),                  # key, stream, pattern
    "search stages": Call(116, ["number"], ["number"]),                                 # m
    # What stands where there is nothing; at last a key, t and F_t of no bytes.
    "nothing": Call(120, [], ["card", "watch", "stage", "place", "answer", "reports", "labels",
                              "number", "number", "number"]),
}


# ---- Bytes ---------------------------------------------------------------------------

@lru_cache(maxsize=None)
def _layout(many):
    return struct.Struct("<%dQ" % many)


def _numbers(numbers):
    return _layout(len(numbers)).pack(*numbers)


def _encode_part(kind, part):
    if kind == "number":
        return _numbers([part])
    if kind == "buffer":
        return _numbers([len(part)]) + bytes(part)
    if kind == "list":
        return _numbers([len(part), *part])
    assert len(part) == SIZE[kind], (kind, len(part))
    return _numbers(part)


def _encode_parts(kinds, parts):
    assert len(parts) == len(kinds), kinds
    return b"".join(map(_encode_part, kinds, parts))


def encode(name, *parts):
    """A call with its values, as the driver reads it."""
    values = _encode_parts(CALLS[name].takes, parts)
    return _numbers([8 + len(values), CALLS[name].number]) + values


def encode_answer(name, answer):
    """What comes back of a call, as the driver writes it."""
    if CALLS[name].gives != ["strokes"]:
        return _encode_parts(CALLS[name].gives, answer)
    return b"".join(encode_answer("stroke", one) for one in answer)


def _decode_part(kind, data, at):
    if kind in ("number", "buffer", "list"):
        (n,) = _layout(1).unpack_from(data, at)
        if kind == "number":
            return n, at + 8
        size = n if kind == "buffer" else 8 * n
        assert at + 8 + size <= len(data)
        part = data[at + 8:at + 8 + size]
        return (part if kind == "buffer" else _layout(n).unpack(part)), at + 8 + size
    return _layout(SIZE[kind]).unpack_from(data, at), at + 8 * SIZE[kind]


def _decode_parts(kinds, data, at):
    parts = []
    for kind in kinds:
        part, at = _decode_part(kind, data, at)
        parts.append(part)
    return tuple(parts), at


def decode(name, parts, data, at):
    """What came back of a call with these values, at a place of the driver's output; and the place behind it."""
    call = CALLS[name]
    if call.gives != ["strokes"]:
        return _decode_parts(call.gives, data, at)
    answers = []
    for _ in parts[-1]:
        answer, at = _decode_parts(CALLS["stroke"].gives, data, at)
        answers.append(answer)
    return tuple(answers), at


def answers(driver, calls):
    """What comes back of each of these calls, [(name, parts) ..]; None where the driver's output has ended before.
    Of a run that writes more than its calls hand back, the last call's answer is None."""
    batch, size = [], 0
    for name, parts in calls:
        data = encode(name, *parts)
        assert len(data) <= ROOM, name
        if batch and size + len(data) > ROOM:
            yield from _run(driver, batch)
            batch, size = [], 0
        batch.append((name, parts, data))
        size += len(data)
    if batch:
        yield from _run(driver, batch)


def _run(driver, batch):
    try:
        output = programs.run_in_memory(driver, b"".join(data for _, _, data in batch))
    except programs.Broken:
        output = b""            # every call of the run has no answer
    at, got = 0, []
    for name, parts, _ in batch:
        try:
            answer, at = decode(name, parts, output, at)
        except (struct.error, AssertionError):
            answer, at = None, len(output)
        got.append(answer)
    if at != len(output):
        got[-1] = None
    return got


def difference(name, wanted, given):
    """The first number, byte or length in which two answers differ, in words."""
    if given is None:
        return "no answer"
    kinds = CALLS[name].gives
    if kinds == ["strokes"]:
        for i, (one, other) in enumerate(zip(wanted, given)):
            if one != other:
                return "byte %d: %s" % (i, difference("stroke", one, other))
        return "%d answers wanted, %d given" % (len(wanted), len(given))
    for place, (kind, one, other) in enumerate(zip(kinds, wanted, given)):
        if one == other:
            continue
        if kind == "number":
            return "number %d: %d wanted, %d given" % (place, one, other)
        names = FIELDS.get(kind, range(max(len(one), len(other))))
        for which, a, b in zip(names, one, other):
            if a != b:
                return "%s, %s: %d wanted, %d given" % (kind, which, a, b)
        return "%s: length %d wanted, %d given" % (kind, len(one), len(other))
    return "nothing"

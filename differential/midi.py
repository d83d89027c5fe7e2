"""Passages from Standard MIDI Files of format 0: document 02's A.2 and A.6, sentence by sentence.

A file is taken apart by its grammar, as patterns of bytes. read() says what a call must
answer: the number of the refusal, or 0, and the strokes; call() what it must hand back.
"""

import re

# "Checks: 15 for no complete header [...] or for a file that ends at a chunk's end with no
# MTrk; 16 for a later chunk [...] or an event cut short [...]; 17 for a key outside the
# bells"; and 7 for a buffer that is too short.
NO_SPACE, NO_TRACK, BROKEN, OUTSIDE = 7, 15, 16, 17

HEADER, TRACK = b"MThd", b"MTrk"
FORMAT_0, ONE_TRACK = b"\0\0", b"\0\1"
END_OF_TRACK = 0x2F


class Refused(Exception):
    """The number of a refusal."""


def pattern(*parts):
    return re.compile(b"".join(parts), re.DOTALL)


# A quantity of at most four bytes: all but its last have the highest bit.
QUANTITY = rb"([\x80-\xFF]{0,3}[\0-\x7F])"
DATA = rb"([\0-\x7F])"

CHUNK = pattern(rb"(....)(....)")
TIME = pattern(QUANTITY)
STATUS = pattern(rb"[\x80-\xEF]")
ONE_BYTE = pattern(DATA)
TWO_BYTES = pattern(DATA, DATA)
EXCLUSIVE = pattern(rb"[\xF0\xF7]", QUANTITY)
META = pattern(rb"\xFF(.)", QUANTITY)


def value(quantity):
    """Seven bits of each byte."""
    return int("".join("{:07b}".format(byte % 128) for byte in quantity), 2)


# ---- Chunks ------------------------------------------------------------------

def chunks(file):
    """Each chunk's type and inside; None for one that is cut short, the last then."""
    at = 0
    while at < len(file):
        front = CHUNK.match(file, at)
        if not front or front.end() + int.from_bytes(front[2], "big") > len(file):
            yield None
            return
        at = front.end() + int.from_bytes(front[2], "big")
        yield front[1], file[front.end():at]


def track_of(file):
    """The inside of the track chunk."""
    every = chunks(file)
    header = next(every, None)
    # "15 for no complete header of at least six bytes, format 0 and one track, its skipped
    # bytes included"
    if (header is None or header[0] != HEADER or len(header[1]) < 6
            or header[1][:2] != FORMAT_0 or header[1][2:4] != ONE_TRACK):
        raise Refused(NO_TRACK)
    for chunk in every:
        if chunk is None:
            raise Refused(BROKEN)       # "a cut chunk before its inside"
        if chunk[0] == TRACK:
            return chunk[1]             # "Bytes behind the track chunk are ignored"
    raise Refused(NO_TRACK)             # "a file that ends at a chunk's end with no MTrk"


# ---- Events ------------------------------------------------------------------

def matched(wanted, track, at):
    """What stands at a place of the track."""
    found = wanted.match(track, at)
    if not found:
        raise Refused(BROKEN)
    return found


def behind_block(found, track):
    """The place behind so many bytes as the quantity says that was found last."""
    end = found.end() + value(found[found.lastindex])
    if end > len(track):
        raise Refused(BROKEN)
    return end


def messages(track):
    """Each channel message, its status and its data bytes, up to the end of the track."""
    at, running = 0, None
    while True:
        at = matched(TIME, track, at).end()
        meta, exclusive = META.match(track, at), EXCLUSIVE.match(track, at)
        if meta or exclusive:
            at, running = behind_block(meta or exclusive, track), None
            if meta and ord(meta[1]) == END_OF_TRACK:
                # "an end of track whose length isn't 0", "bytes behind end of track"
                if value(meta[2]) != 0 or at != len(track):
                    raise Refused(BROKEN)
                return
            continue
        status = STATUS.match(track, at)
        if status:
            at, running = status.end(), ord(status[0])
        if running is None:
            raise Refused(BROKEN)       # "a data byte with no status", and F1 to FE
        data = matched(ONE_BYTE if 0xC0 <= running <= 0xDF else TWO_BYTES, track, at)
        at = data.end()
        yield running, [ord(byte) for byte in data.groups()]


def outside(key, velocity, low, high):
    """Whether a Note On refuses the file: "velocity 0 gives no stroke" first, then "a key outside
    the lowest and highest bell given refuses the file"."""
    return velocity > 0 and not low <= key <= high


def outside_before_a6(key, velocity, low, high):
    """The same while the key's rule went first; for the comparison in midi_files alone."""
    return not low <= key <= high


def strokes_of(track, low, high, refuses):
    """The keys of the notes that sound."""
    for status, data in messages(track):
        if status >> 4 == 9:
            key, velocity = data
            if refuses(key, velocity, low, high):
                raise Refused(OUTSIDE)
            if velocity > 0:
                yield key


def read(file, low, high, room, refuses=outside):
    """The number of the refusal, or 0, and the strokes."""
    try:
        strokes = bytes(strokes_of(track_of(file), low, high, refuses))
    except Refused as refused:
        return refused.args[0], b""
    # "and 7 only after the whole file reads well"
    return (0, strokes) if len(strokes) <= room else (NO_SPACE, b"")


def call(low, high, file, buffer):
    """What the call must hand back: the verdict, how many strokes there are, and the buffer."""
    number, strokes = read(file, low, high, len(buffer))
    # "buffer bytes behind the strokes are untouched"; document 01: "A refusal returns its number
    # only; watch, half-made card and buffers are what they were"
    return number, len(strokes), strokes + buffer[len(strokes):]

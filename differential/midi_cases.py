"""Cases of the call `midi`, which reads a passage from a Standard MIDI File: files, bells and buffers.

What must come back is worked out by midi.py from document 02's A.2 and A.6: the number of the refusal, how many
strokes there are, and the whole buffer. Beside each case that is written out stands the number that these give it.

CASES has the groups of cases: (words, call, values).
"""

import random
import re

import midi

ROOM = 20                       # of the buffer, where a case has none of its own
LENT = 65536                    # the longest buffer that the driver lends


# ---- Files ---------------------------------------------------------------------

def chunk(letters, inside, length=None):
    return letters + (len(inside) if length is None else length).to_bytes(4, "big") + inside


def header(length=None, form=0, tracks=1, division=96, skipped=b"", letters=b"MThd"):
    numbers = [form, tracks, division]
    return chunk(letters, b"".join(n.to_bytes(2, "big") for n in numbers) + skipped, length)


def track(*events, length=None, letters=b"MTrk"):
    return chunk(letters, b"".join(events), length)


def of(*events):
    """The file of these events."""
    return header() + track(*events)


def message(status, *data, time=b"\0"):
    return time + bytes([status, *data])


def note(key=60, velocity=64, channel=0, time=b"\0"):
    return message(0x90 + channel, key, velocity, time=time)


def running(*data):
    return bytes([0, *data])


def quantity(value, size=1):
    """So many bytes, needed or not."""
    digits = [value >> 7 * i & 127 for i in reversed(range(size))]
    return bytes([128 + digit for digit in digits[:-1]] + digits[-1:])


def exclusive(status, inside=b"", length=None, size=1):
    length = len(inside) if length is None else length
    return bytes([0, status]) + quantity(length, size) + inside


def meta(kind, inside=b"", length=None, size=1, time=b"\0"):
    length = len(inside) if length is None else length
    return time + bytes([255, kind]) + quantity(length, size) + inside


NOTE, END = note(), meta(0x2F)
ENDED, NOTED = track(END), track(NOTE, END)
LARGEST = 2 ** 32 - 1


# ---- Files: the number, the name, the file; then bells and room, where they are tried ----

CHUNKS = [
    (0, "header of 6 bytes", header() + ENDED),
    (0, "header of 8", header(skipped=b"MT") + ENDED),
    (15, "header of 5", header(5)[:13] + ENDED),
    (15, "header of 0", header(0)[:8] + ENDED),
    (15, "header of 6, low byte first", header(6 << 24) + ENDED),
    (15, "header of 262", header(262) + ENDED),
    (15, "header of 4294967295", header(LARGEST) + ENDED),
    *[(15, "letters " + letters, header(letters=letters.encode()) + ENDED)
      for letters in ("mThd", "MRhd", "MTrd", "MThk")],
    (15, "a byte before", b"\0" + header() + ENDED),
    (15, "a track first", ENDED + header() + ENDED),
    (15, "no byte", b""),
    (15, "letters alone", header()[:4]),
    *[(15, "%d bytes of a header" % n, header()[:n]) for n in (7, 8)],
    (15, "header cut by one", header()[:-1]),
    (15, "skipped bytes cut by one", header(skipped=b"\0\0")[:-1]),
    (15, "header alone", header()),
    (15, "header of 8 alone", header(skipped=b"\0\0")),
    *[(15, "format %d" % form, header(form=form) + ENDED) for form in (1, 2, 256)],
    *[(15, "%d tracks" % many, header(tracks=many) + ENDED) for many in (0, 2, 257)],
    *[(0, "division %x" % division, header(division=division) + ENDED)
      for division in (0, 0xE728)],
    (16, "1 byte behind the header", header() + b"M"),
    *[(16, "%d bytes behind it" % n, header() + track()[:n]) for n in range(2, 8)],
    (16, "8 bytes behind it, a track", header() + track()),
    (15, "8 bytes behind it, another chunk", header() + chunk(b"XFIH", b"")),
    (0, "another chunk first", header() + chunk(b"XFIH", b"TTT") + NOTED),
    (0, "two others first", header() + chunk(b"MTrj", b"\0") + chunk(b"mTrk", b"") + NOTED),
    (0, "a second header, of format 1", header() + header(form=1, tracks=2) + NOTED),
    (0, "a second header, of 0 bytes", header() + chunk(b"MThd", b"") + NOTED),
    (15, "another chunk alone", header() + chunk(b"XFIH", b"TTT")),
    (16, "another chunk cut by one", header() + chunk(b"XFIH", b"TTT")[:-1]),
    (16, "another chunk of 4294967295", header() + chunk(b"XFIH", NOTED, LARGEST)),
    (15, "another chunk over all the rest", header() + chunk(b"XFIH", NOTED)),
    (16, "another chunk over one byte more", header() + chunk(b"XFIH", NOTED, len(NOTED) + 1)),
    (16, "another chunk and 7 bytes", header() + chunk(b"XFIH", b"TTT") + track()[:7]),
    (0, "track", header() + NOTED),
    (16, "track longer by one", header() + track(NOTE, END, length=9)),
    (16, "track shorter by one", header() + track(NOTE, END, length=7)),
    (16, "track of 4294967295", header() + track(NOTE, END, length=LARGEST)),
    (16, "track of 8, low byte first", header() + track(NOTE, END, length=8 << 24)),
    (0, "a byte behind the track", header() + NOTED + b"\0"),
    (0, "a second track", header() + NOTED + NOTED),
    (0, "a cut chunk behind the track", header() + NOTED + chunk(b"XFIH", b"T", 3)),
    (16, "a track of 0 before another", header() + track() + NOTED),
]

LENGTHS = [
    (0, "time of 1 byte", of(note(time=quantity(127)), END)),
    *[(0, "time of %d bytes" % n, of(note(time=quantity(2 ** (7 * n) - 1, n)), END))
      for n in (2, 3, 4)],
    (0, "time 0 of 4 bytes", of(note(time=quantity(0, 4)), END)),
    (16, "time of 5 bytes", of(note(time=quantity(2 ** 35 - 1, 5)), END)),
    (16, "time 0 of 5 bytes", of(note(time=quantity(0, 5)), END)),
    (16, "time cut behind a note", of(NOTE, quantity(0, 4)[:3])),
    (16, "time without event", of(NOTE, quantity(0))),
    (0, "meta event of 0 bytes", of(meta(1), NOTE, END)),
    (0, "meta event of 2", of(meta(1, b"\xFF\x2F"), NOTE, END)),
    (0, "meta event of 2, length of 2 bytes", of(meta(1, b"\xFF\x2F", size=2), NOTE, END)),
    *[(16 * (n > 4), "length of %d bytes" % n, of(meta(1, b"\xFF\x2F", size=n), NOTE, END))
      for n in (3, 4, 5)],
    *[(0, "meta type %d" % kind, of(meta(kind, b"\0"), NOTE, END)) for kind in (127, 128, 255)],
    (16, "meta event without type", of(NOTE, meta(1)[:2])),
    (16, "meta event without length", of(NOTE, meta(1)[:3])),
    (16, "its length cut", of(NOTE, meta(1, size=3)[:5])),
    (0, "meta event up to the end of track", of(NOTE, meta(1, bytes(4)), END)),
    (16, "meta event up to the track's end", of(NOTE, meta(1, END))),
    (16, "meta event one byte further", of(NOTE, meta(1, END, length=5))),
    (16, "meta event of 268435455", of(NOTE, meta(1, END, length=2 ** 28 - 1, size=4))),
    (0, "exclusive event f0", of(exclusive(0xF0, b"\x7E\xF7"), NOTE, END)),
    (0, "exclusive event f7", of(exclusive(0xF7, b"\xF1\x90"), NOTE, END)),
    (0, "f0 of 0 bytes", of(exclusive(0xF0), NOTE, END)),
    (0, "f7 of 0 bytes", of(exclusive(0xF7), NOTE, END)),
    (0, "f0, length of 4 bytes", of(exclusive(0xF0, b"\xF7", size=4), NOTE, END)),
    (16, "f0, length of 5 bytes", of(exclusive(0xF0, b"\xF7", size=5), NOTE, END)),
    (16, "f7, length of 5 bytes", of(exclusive(0xF7, b"\xF7", size=5), NOTE, END)),
    (16, "f0 without length", of(NOTE, exclusive(0xF0)[:2])),
    (16, "f7 without length", of(NOTE, exclusive(0xF7)[:2])),
    (16, "f0 up to the track's end", of(NOTE, exclusive(0xF0, END))),
    (16, "f0 one byte further", of(NOTE, exclusive(0xF0, END, length=5))),
    (16, "f7 one byte further", of(NOTE, exclusive(0xF7, END, length=5))),
    (0, "end of track alone", of(END)),
    (0, "end of track later", of(meta(0x2F, time=quantity(2 ** 28 - 1, 4)))),
    (0, "end of track, length of 2 bytes", of(NOTE, meta(0x2F, size=2))),
    *[(16 * (n > 4), "its length of %d bytes" % n, of(NOTE, meta(0x2F, size=n)))
      for n in (3, 4, 5)],
    (16, "end of track of 1 byte", of(NOTE, meta(0x2F, b"\0"))),
    (16, "end of track of 4 bytes", of(NOTE, meta(0x2F, END))),
    (16, "no event", of()),
    (16, "no end of track", of(NOTE)),
    (16, "end of track cut by one", of(NOTE, END[:-1])),
    (16, "a byte behind end of track", of(NOTE, END, b"\0")),
    (16, "two ends of track", of(NOTE, END, END)),
    (16, "a note behind end of track", of(NOTE, END, NOTE)),
    (0, "end of track as a meta event's bytes", of(NOTE, meta(6, END), END)),
]

EVENTS = [
    *[(16 * (key > 127), "key %d" % key, of(note(key), END)) for key in (127, 128, 0)],
    *[(16 * (v > 127), "velocity %d" % v, of(note(60, v), END)) for v in (127, 128, 1)],
    (0, "a note on each of 4 channels",
     of(note(60), note(61, channel=1), note(62, channel=14), note(63, channel=15), END)),
    (16, "note without key", of(NOTE, message(0x90))),
    (16, "note without velocity", of(NOTE, message(0x90, 60))),
]
for name, status in (("program", 0xC0), ("pressure", 0xDF)):
    EVENTS += [
        (0, name, of(message(status, 127), NOTE, END)),
        (16, name + " 128", of(message(status, 128), NOTE, END)),
        (16, name + " cut", of(NOTE, message(status))),
        (0, name + " with two bytes", of(message(status, 127, 127), NOTE, END)),
    ][:4 if name == "program" else 3]
EVENTS += [
    (0, "note off", of(message(0x80, 60, 64), NOTE, END)),
    (16, "note off 128", of(message(0x80, 60, 128), NOTE, END)),
    (16, "note off cut", of(NOTE, message(0x80, 60))),
    (0, "key pressure", of(message(0xA0, 127, 127), NOTE, END)),
    (16, "key pressure cut", of(NOTE, message(0xA0, 60))),
    (0, "control", of(message(0xBF, 127, 127), NOTE, END)),
    (16, "control cut", of(NOTE, message(0xBF, 60))),
    (0, "bend", of(message(0xE0, 127, 127), NOTE, END)),
    (16, "bend 128", of(message(0xE0, 127, 128), NOTE, END)),
    (16, "bend cut", of(NOTE, message(0xEF, 60))),
    (16, "bend with one byte", of(message(0xE0, 127), END)),
    (0, "running notes", of(NOTE, running(62, 64), running(64, 64), END)),
    (16, "running note, key cut", of(NOTE, running())),
    (16, "running note, velocity cut", of(NOTE, running(62))),
    (16, "running note, velocity 128", of(NOTE, running(62, 128), END)),
    (0, "running status of the last message",
     of(NOTE, message(0x80, 60, 64), running(62, 64), END)),
    (0, "running program", of(message(0xC0, 5), running(6), running(7), NOTE, END)),
    (0, "running pressure, then a note",
     of(message(0xD0, 5), running(6), NOTE, running(62, 64), END)),
    (0, "running bend", of(message(0xE0, 5, 64), running(6, 64), NOTE, END)),
    (16, "data byte with no status", of(running(60, 64), END)),
    (0, "status again", of(NOTE, NOTE, NOTE, END)),
    (16, "running status behind a meta event", of(NOTE, meta(1), running(62, 64), END)),
    *[(16, "behind %x" % status, of(NOTE, exclusive(status, b"\xF7"), running(62, 64), END))
      for status in (0xF0, 0xF7)],
    *[(0, "a status behind " + name, of(NOTE, event, note(62), running(64, 64), END))
      for name, event in (("a meta event", meta(1)), ("f0", exclusive(0xF0, b"\xF7")))],
    (0, "end of track behind running status", of(NOTE, running(62, 64), END)),
    *[(16, "status %x" % status, of(message(status, 0), NOTE, END))
      for status in range(0xF1, 0xFF) if status != 0xF7],
]

THREE = [NOTE, running(62, 64), running(64, 64)]

BELLS = [
    (0, "key at the lowest bell", of(NOTE, END), 60, 72),
    (17, "key below it", of(NOTE, END), 61, 72),
    (0, "key at the highest bell", of(NOTE, END), 48, 60),
    (17, "key above it", of(NOTE, END), 48, 59),
    (0, "one bell", of(NOTE, END), 60, 60),
    (17, "lowest above highest", of(NOTE, END), 61, 59),
    (17, "lowest above highest by one", of(NOTE, END), 61, 60),
    (0, "lowest above highest, no note", of(message(0x80, 60, 64), END), 61, 60),
    (0, "bells up to 255", of(note(127), END), 127, 255),
    (17, "bells from 128 on", of(note(127), END), 128, 255),
    (0, "velocity 0", of(NOTE, running(60, 0), END), 60, 60),
    (0, "velocity 0 below", of(NOTE, running(59, 0), END), 60, 60),
    (0, "velocity 0 above", of(NOTE, running(61, 0), END), 60, 60),
    (0, "velocity 0 alone", of(note(60, 0), END), 60, 60, 0),
    (0, "note off outside", of(NOTE, message(0x80, 61, 64), END), 60, 60),
    (0, "key pressure outside", of(NOTE, message(0xA0, 61, 64), END), 60, 60),
    (17, "a note outside on channel 16", of(NOTE, note(61, channel=15), END), 60, 60),
    (17, "outside, then broken", of(note(61), message(0xF1)), 60, 60),
    (16, "broken, then outside", of(message(0xF1), note(61), END), 60, 60),
    (17, "outside, without end", of(note(61)), 60, 60),
    (17, "outside, a byte behind the end", of(note(61), END, b"\0"), 60, 60),
    (16, "outside behind end of track", of(NOTE, END, note(61)), 60, 60),
    (16, "outside, velocity 128", of(note(61, 128), END), 60, 60),
    (16, "outside, velocity cut", of(message(0x90, 61)), 60, 60),
    (17, "two strokes, then outside", of(NOTE, NOTE, note(61), END), 60, 60),
    (16, "outside in a cut track", header() + track(note(61), END, length=9), 60, 60),
    (16, "outside behind a cut chunk",
     header() + chunk(b"XFIH", track(note(61), END), 0x99), 60, 60),
    *[(7 * (room < 3), "3 strokes into %d bytes" % room, of(*THREE, END), 0, 127, room)
      for room in (3, 4, 2, 0)],
    (0, "no stroke into 0 bytes", of(END), 0, 127, 0),
    (16, "room for 2 of 3, then broken", of(*THREE, message(0xF1)), 0, 127, 2),
    (17, "room for 2 of 3, then outside", of(*THREE, running(65, 64), END), 60, 64, 2),
    (16, "room for 2 of 3, without end", of(*THREE), 0, 127, 2),
    (15, "no track and no room", header(), 0, 127, 0),
]

LIFT = note(65, 0)              # outside the bells 60 to 64

LIFTED = [
    (0, "lifted alone", of(LIFT, END), 60, 64),
    (0, "lifted alone, 0 bytes", of(LIFT, END), 60, 64, 0),
    (0, "lifted twice, at 0 and 127", of(note(0, 0), running(127, 0), END), 60, 64),
    (0, "lifted, lowest above highest", of(note(60, 0), END), 61, 60),
    (0, "lifted, then struck", of(LIFT, running(60, 64), END), 60, 64),
    (0, "struck, lifted, struck", of(NOTE, running(65, 0), running(62, 1), END), 60, 64),
    (0, "lifted on channel 16, then struck", of(NOTE, note(65, 0, channel=15), running(64, 64), END), 60, 64),
    (0, "lifted, a meta event, struck", of(LIFT, meta(1), NOTE, END), 60, 64),
    (16, "lifted, a meta event, no status", of(LIFT, meta(1), running(60, 64), END), 60, 64),
    (17, "velocity 1 outside", of(note(65, 1), END), 60, 64),
    (17, "lifted, then struck outside", of(LIFT, running(65, 64), END), 60, 64),
    (17, "lifted, struck, struck outside", of(LIFT, *THREE, running(59, 64), END), 60, 64),
    (17, "struck outside, then lifted", of(note(65), running(65, 0), END), 60, 64),
    (16, "lifted, then broken", of(LIFT, message(0xF1)), 60, 64),
    (16, "lifted, velocity 128", of(LIFT, running(65, 128), END), 60, 64),
    (16, "lifted, cut", of(LIFT, running(65)), 60, 64),
    (16, "lifted, broken, struck outside", of(LIFT, message(0xF1), note(65), END), 60, 64),
    (17, "lifted, struck outside, broken", of(LIFT, running(65, 64), message(0xF1)), 60, 64),
    (16, "lifted, without end", of(LIFT), 60, 64),
    (16, "lifted, a byte behind the end", of(LIFT, END, b"\0"), 60, 64),
    *[(7 * (room < 3), "lifted, 3 strokes into %d bytes" % room, of(LIFT, *THREE, END), 60, 64, room)
      for room in (3, 2, 0)],
    (7, "2 strokes, lifted, a third into 2 bytes", of(*THREE[:2], running(65, 0), THREE[2], END), 60, 64, 2),
    (17, "lifted, room for 2 of 3, then outside", of(LIFT, *THREE, running(65, 64), END), 60, 64, 2),
    (16, "lifted, room for 2 of 3, without end", of(LIFT, *THREE), 60, 64, 2),
]

FILES = CHUNKS + LENGTHS + EVENTS + BELLS + LIFTED

# Two other chunks, the second one letter from a track; notes 60, 62 with velocity 0, 67.
SMALL = (header() + chunk(b"XFIH", b"\x7F") + chunk(b"MTrK", b"")
         + track(NOTE, running(62, 0), meta(1), exclusive(0xF0, b"\xF7"),
                 note(67, 1, channel=9), END))
SMALL_CALL = 55, 70, 2          # the bells and the room


# ---- Damages -------------------------------------------------------------------

STRANGE = [0, 1, 0x2F, 0x3C, 0x40, 0x7F, 0x80, 0x90, 0x9F, 0xC0, 0xD0, 0xEF, 0xF0, 0xF1, 0xF7, 0xFE, 0xFF]


def replaced(rng, file, i):
    return file[:i] + bytes([rng.choice(STRANGE + [rng.randrange(256)])]) + file[i + 1:]


def inserted(rng, file, i):
    return file[:i] + bytes([rng.choice(STRANGE)]) + file[i:]


def removed(rng, file, i):
    return file[:i] + file[i + 1:]


def cut(rng, file, i):
    return file[:i]


def doubled(rng, file, i):
    return file[:i] + file[max(0, i - rng.randrange(1, 9)):]


def with_chunk(rng, file, i):
    """Another chunk before the track."""
    inside = rng.randbytes(rng.choice([0, 1, 7]))
    length = len(inside) + rng.choice([0, 0, 0, 1, 2 ** 31])
    return file[:14] + rng.choice([b"XFIH", b"MThd"]) + length.to_bytes(4, "big") + inside + file[14:]


def long_header(rng, file, i):
    """Bytes in the header past six, and behind the track."""
    return file[:4] + b"\0\0\0\x08" + file[8:14] + rng.randbytes(2) + file[14:] + rng.randbytes(3)


def long_end(rng, file, i):
    """The last byte, which is the length of the end of track, and so many bytes."""
    inside = rng.randbytes(rng.choice([1, 2, 4]))
    return file[:-1] + bytes([len(inside)]) + inside


def without_status(rng, file, i):
    """A status behind an event of another kind is left out."""
    places = [found.end() for found in re.finditer(rb"[\xF7\x00-\x7F][\x00-\x7F](?=[\x80-\xEF])", file)]
    return removed(rng, file, rng.choice(places)) if places else file


def of_length(rng, file, i):
    """The track's length is that of what stands there."""
    return file[:18] + max(0, len(file) - 22).to_bytes(4, "big") + file[22:]


DAMAGES = [replaced, replaced, replaced, inserted, removed, cut, doubled, with_chunk, long_header,
           long_end, without_status]


def damaged(rng, file):
    """Near the file's front, near its end, or anywhere."""
    for _ in range(rng.choice([1, 1, 1, 2, 4])):
        first, last = rng.choice([(0, 30), (len(file) - 8, len(file)), (0, len(file)), (22, len(file))])
        i = min(len(file), rng.randint(max(0, min(first, last)), last))
        file = rng.choice(DAMAGES)(rng, file, i)
    return of_length(rng, file, 0) if rng.random() < 0.4 else file


# ---- Calls ---------------------------------------------------------------------

def buffer_of(room):
    """A buffer of so many bytes, none of which is a key."""
    return bytes(255 - i % 128 for i in range(room))


def call(words, file, low=0, high=127, room=ROOM):
    return words, "midi", (low, high, file, buffer_of(room))


# ---- Groups --------------------------------------------------------------------

def written_out():
    for number, words, *rest in FILES:
        case = call(words, *rest)
        assert midi.call(*case[2])[0] == number, words      # what midi.py reads is what the case says
        yield case


def every_room():
    """Buffers of every size up to one more than the strokes need."""
    for _, words, file, *bells in FILES:
        bells = bells[:2] or [0, 127]
        needed = len(midi.read(file, *bells, ROOM)[1])
        for room in range(needed + 2):
            yield call("%s, into %d bytes" % (words, room), file, *bells, room)


def cut_short():
    """Every front of every file."""
    for _, words, file, *rest in FILES + [(0, "a small file", SMALL, *SMALL_CALL)]:
        for n in range(len(file) + 1):
            yield call("%s, the first %d bytes" % (words, n), file[:n], *rest)


def byte_replaced():
    """Each byte of a small file by all others, each of the other files by strange ones."""
    for i, byte in enumerate(SMALL):
        for more in range(1, 256):
            file = SMALL[:i] + bytes([(byte + more) % 256]) + SMALL[i + 1:]
            yield call("byte %d raised by %d" % (i, more), file, *SMALL_CALL)
    rng = random.Random(2)
    for _, words, file, *rest in FILES:
        for i in range(len(file)):
            yield call("%s, byte %d replaced" % (words, i), replaced(rng, file, i), *rest)


def every_bell():
    """Bells at each key and beside it, also the lowest above the highest, and above all keys."""
    limits = [0, 1, 58, 59, 60, 61, 62, 63, 64, 65, 66, 126, 127, 128, 129, 254, 255]
    struck = of(*THREE, END)
    lifted = of(NOTE, running(65, 0), running(58, 0), running(64, 1), END)
    ends = of(note(0), running(127, 1), END)
    for words, file in (("60 to 64", struck), ("60 and 64, others lifted", lifted), ("0 and 127", ends)):
        for low in limits:
            for high in limits:
                yield call("%s, bells %d to %d" % (words, low, high), file, low, high)


def large():
    """More strokes and longer events than two bytes can count."""
    for many, room in ((65535, 65535), (65536, 65536), (65536, 65535), (65537, LENT), (70000, LENT)):
        file = of(NOTE, *[running(62, 64)] * (many - 1), END)
        yield call("%d strokes into %d bytes" % (many, room), file, room=room)
    yield call("the last of 65536 strokes outside", of(*[NOTE] * 65535, note(62), END), 60, 60, LENT)
    for size in (65535, 65536, 300000):
        inside = bytes(size)
        for words, event in (("meta", meta(1, inside, size=4)), ("exclusive", exclusive(0xF0, inside, size=4))):
            yield call("%s event of %d bytes" % (words, size), of(NOTE, event, NOTE, END))
        yield call("another chunk of %d bytes" % size, header() + chunk(b"XFIH", inside) + NOTED)
        yield call("a header of %d bytes more" % size, header(skipped=inside) + NOTED)


# ---- Files drawn at random -------------------------------------------------------

DATA = [0, 1, 59, 60, 61, 64, 126, 127]
TIMES = [0, 0, 1, 127, 128, 16383, 16384, 2 ** 21 - 1, 2 ** 21, 2 ** 28 - 1]


def drawn_quantity(rng, value):
    """In as many bytes as it needs, or in more."""
    needed = max(1, -(-value.bit_length() // 7))
    return quantity(value, rng.choice([needed, needed, rng.randint(needed, 4)]))


def drawn_block(rng):
    """The inside of a meta or exclusive event, its length before it."""
    inside = rng.randbytes(rng.choice([0, 0, 1, 2, 5, 127, 128, 200]))
    return drawn_quantity(rng, len(inside)) + inside


def drawn_events(rng, count):
    """Events of every kind, half of them notes; a status is left out where it may be, more often than not."""
    running_status, track = None, b""
    for _ in range(count):
        track += drawn_quantity(rng, rng.choice(TIMES))
        kind = rng.choice([9, 9, 9, 9, 9, 9, 8, 10, 11, 12, 13, 14, 15, 16])
        if kind > 14:
            head = [255, rng.choice([0, 1, 3, 0x2E, 0x30, 0x51, 127, 128, 255])]
            track += bytes(head if kind == 15 else [rng.choice([0xF0, 0xF7])]) + drawn_block(rng)
            running_status = None
            continue
        status = running_status if running_status and rng.random() < 0.5 else 16 * kind + rng.choice([0, 1, 9, 15])
        if status != running_status or rng.random() < 0.3:
            track += bytes([status])
        running_status = status
        track += bytes(rng.choice(DATA) for _ in range(1 if 0xC0 <= status <= 0xDF else 2))
    return track


def drawn_file(rng):
    """A file that reads well, but for its bells."""
    others = [chunk(rng.choice([b"XFIH", b"MThd", b"mtrk", rng.randbytes(4)]), rng.randbytes(rng.choice([0, 1, 9])))
              for _ in range(rng.choice([0, 0, 0, 1, 2]))]
    front = header(division=rng.randrange(65536), skipped=rng.randbytes(rng.choice([0, 0, 0, 1, 7])))
    inside = drawn_events(rng, rng.choice([0, 1, 3, 10, 40]))
    return front + b"".join(others) + track(inside, END) + rng.randbytes(rng.choice([0, 0, 0, 1, 9]))


def at_random(seed=1, count=700, damages=9):
    """Files drawn at random and damaged; into buffers of some size, that may be too short."""
    rng = random.Random(seed)
    for n in range(count):
        file = drawn_file(rng)
        needed = len(midi.read(file, 0, 127, len(file))[1])
        for i in range(damages + 1):
            bells = rng.choice([(0, 127), (0, 127), (0, 255), (1, 126), (59, 64), (127, 0), (64, 60)])
            room = rng.choice([needed, needed, needed + 1, max(0, needed - 1), 0, len(file)])
            words = "file %d of seed %d%s" % (n, seed, ", damage %d" % i if i else "")
            yield call(words, damaged(rng, file) if i else file, *bells, room)


CASES = [
    ("MIDI files, written out", written_out),
    ("MIDI files, buffers of every size", every_room),
    ("MIDI files, every front", cut_short),
    ("MIDI files, bytes replaced", byte_replaced),
    ("MIDI files, bells", every_bell),
    ("MIDI files, large", large),
    ("MIDI files, at random", at_random),
]

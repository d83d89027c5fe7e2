"""Running a program on a file, on a pipe that brings its input piece by piece, or on descriptors that fail."""

import fcntl
import os
import resource
import select
import subprocess
import sys
import tempfile
import termios
import time
from collections import namedtuple
from subprocess import PIPE

CLOSED = object()               # a descriptor that the program does not have

# What a program wrote, and its exit status, or in words why it has none.
Ran = namedtuple("Ran", "printed errors status")

patience = 60                   # seconds in which a program must read, write or end


def start(words, stdin, stdout, room=None):
    """Starts a program; with a room it can write no file longer than that, and no signal says so."""
    closed = [fd for fd, given in enumerate((stdin, stdout)) if given is CLOSED]
    stdin, stdout = (None if given is CLOSED else given for given in (stdin, stdout))

    def prepare():
        for fd in closed:
            os.close(fd)
        if room is not None:
            resource.setrlimit(resource.RLIMIT_FSIZE, (room, room))

    return subprocess.Popen(words, stdin=stdin, stdout=stdout, stderr=PIPE, bufsize=0,
                            preexec_fn=prepare if closed or room is not None else None,
                            restore_signals=room is None)


def run(words, stdin, stdout=PIPE, data=None):
    """Runs a program to its end; data goes through a pipe."""
    with start(words, stdin, stdout) as process:
        return ended(process, data)


def on_file(words, data, stdout=PIPE):
    with tempfile.TemporaryFile() as file:
        file.write(data)
        file.seek(0)
        return run(words, file, stdout)


def with_room(words, data, room):
    """Runs a program that can write so many bytes to standard output, a file, and no more."""
    with tempfile.TemporaryFile() as out, start(words, PIPE, out, room) as process:
        ran = ended(process, data)
        out.seek(0)
        return ran._replace(printed=out.read())


def on_pipe(words, data):
    return run(words, PIPE, data=data)


def in_pieces(words, pieces):
    """Each piece comes with the number of bytes that must have been written once it is read. The next is
    sent then and not before, and the end of the input behind the last."""
    with tempfile.TemporaryFile() as out, start(words, PIPE, out) as process:
        wrong, pipe, sent = None, process.stdin.fileno(), 0
        os.set_blocking(pipe, False)
        for piece, due in pieces:
            sent += len(piece)
            if not (send(pipe, piece) and settled(process, pipe, out, due)):
                wrong = "%d bytes written, not %d, after %d" % (size(out), due, sent)
                hurry(process)
                break
        ran = ended(process)
        out.seek(0)
        return Ran(out.read(), ran.errors, wrong or ran.status)


def ended(process, data=None):
    """What a program wrote when it has ended; its input ends here."""
    try:
        printed, errors = process.communicate(data, timeout=patience)
        return Ran(printed or b"", errors, process.returncode)
    except subprocess.TimeoutExpired:
        hurry(process)
        printed, errors = process.communicate()
        return Ran(printed or b"", errors, "no end in time")


def hurry(process):
    """Ends a program that did not do its work in time; others get less from now on."""
    global patience
    process.kill()
    patience = 2


def send(pipe, piece):
    """Whether the program took the piece in time, or reads no more."""
    piece = memoryview(piece)
    while piece:
        if not select.select([], [pipe], [], patience)[1]:
            return False
        try:
            piece = piece[os.write(pipe, piece):]
        except BrokenPipeError:
            return True
    return True


def settled(process, pipe, out, due):
    """Whether the program soon has read all that was sent, or ended, and has written what is due."""
    end = time.monotonic() + patience
    while time.monotonic() < end:
        unread = int.from_bytes(fcntl.ioctl(pipe, termios.FIONREAD, bytes(4)), sys.byteorder)
        if (unread == 0 or process.poll() is not None) and size(out) >= due:
            return size(out) == due
        time.sleep(0.0005)
    return False


def size(file):
    return os.fstat(file.fileno()).st_size

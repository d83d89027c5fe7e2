"""Building the plain programs and running printing programs."""

import os
import subprocess
import time

HERE = os.path.dirname(os.path.abspath(__file__))
ROOT = os.path.dirname(HERE)
UNDER_TEST = os.path.join(ROOT, "target", "bin", "report")
MIDI = os.path.join(ROOT, "target", "bin", "midi")
PANIC = 101                     # the exit status of a Rust program that panics


class Broken(Exception):
    """A program that did not come to an orderly end."""


def build_plain(folder, name="plain"):
    """Builds plain.rs, or plain_midi.rs, into the folder; the path of the program."""
    program = os.path.join(folder, name)
    subprocess.run(["rustc", "--edition", "2021", "-C", "opt-level=3", "-o", program,
                    os.path.join(HERE, name + ".rs")], check=True)
    return program


def run(program, data, pieces=None, limit=120):
    """What the program prints for this standard input."""
    with start(program) as process:
        if pieces:
            feed(process.stdin, cut_up(data, pieces), pause=0.002)
            data = None
        try:
            printed, errors = process.communicate(data, timeout=limit)
        except subprocess.TimeoutExpired:
            process.kill()
            raise Broken("no end after %d seconds" % limit)
    return orderly(process, printed, errors)


def run_in_memory(program, data, limit=120):
    """The same with standard input and output in memory: a program that writes many times wakes no one at each."""
    with in_memory("input", data) as stdin, in_memory("output") as stdout:
        try:
            ran = subprocess.run([program], stdin=stdin, stdout=stdout, stderr=subprocess.PIPE, timeout=limit,
                                 close_fds=False)
        except subprocess.TimeoutExpired:
            raise Broken("no end after %d seconds" % limit)
        stdout.seek(0)
        return orderly(ran, stdout.read(), ran.stderr)


def in_memory(name, data=b""):
    """A file in memory that holds these bytes, at its begin."""
    file = open(os.memfd_create(name), "w+b", buffering=0)
    file.write(data)
    file.seek(0)
    return file


def run_long(program, blocks):
    """The same for a standard input too long to be held; few lines come back."""
    with start(program) as process:
        feed(process.stdin, blocks)
        printed, errors = process.communicate()
    return orderly(process, printed, errors)


def start(program):
    pipe = subprocess.PIPE
    return subprocess.Popen([program], stdin=pipe, stdout=pipe, stderr=pipe,
                            close_fds=False)


def cut_up(data, cuts):
    """The data in pieces, cut at these places."""
    ends = [0] + cuts + [len(data)]
    return [data[a:b] for a, b in zip(ends, ends[1:])]


def feed(pipe, blocks, pause=0):
    """Writes the blocks one by one, as long as the program reads them."""
    try:
        for block in blocks:
            pipe.write(block)
            pipe.flush()
            time.sleep(pause)
    except BrokenPipeError:
        pass


def orderly(process, printed, errors):
    """What was printed, if the program was not killed and did not panic.
    Document 01 fixes no exit status, so no other is held against it."""
    status = process.returncode
    if status < 0 or status == PANIC:
        raise Broken("exit status %d: %s" % (status, errors.decode(errors="replace")[-500:]))
    return printed

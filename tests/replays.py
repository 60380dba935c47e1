"""Runs of the replay program on logs, and their comparison with reference.py, byte by byte."""

import collections
import contextlib
import fcntl
import itertools
import os
import re
import signal
import struct
import subprocess
import tempfile
import termios
import threading
import time
import tty

import reference
from library import ROOT, Problem
from reference import READ, READ_NV

REPLAY = ROOT / "crates" / "replay" / "out" / "replay"
WRAPPER = ROOT / "replay"  # the script that builds the program and runs it
PATIENCE = 60  # seconds that a single run of the program may take

# ---- Running the program ---------------------------------------------------------------------

Run = collections.namedtuple("Run", "output errors status")


def runnable(program):
    """The program, if it is there to be run."""
    if not os.access(program, os.X_OK):
        raise Problem(f"there is no program {program}; build it first")
    return program


def run_on_file(program, log):
    """Runs the program with the log as a file, which it can read in pieces as large as it asks."""
    with tempfile.TemporaryFile() as given:
        given.write(log)
        given.seek(0)
        done = subprocess.run([program], stdin=given, capture_output=True, timeout=PATIENCE)
    return Run(done.stdout, done.stderr, done.returncode)


def bytes_waiting(pipe):
    """How many bytes lie in a pipe and haven't been read."""
    return struct.unpack("i", fcntl.ioctl(pipe, termios.FIONREAD, bytes(4)))[0]


def wait_until_taken(process):
    """Waits until the program has emptied the pipe, so that the next write is a separate read."""
    deadline = time.monotonic() + PATIENCE
    while bytes_waiting(process.stdin) > 0 and process.poll() is None:
        if time.monotonic() > deadline:
            raise subprocess.TimeoutExpired(process.args, PATIENCE)
        time.sleep(0)


def write_in_pieces(process, log, size):
    """Hands the log over in writes of the given size; the program may have ended before."""
    try:
        for start in range(0, len(log), size):
            process.stdin.write(log[start : start + size])
            wait_until_taken(process)
    except BrokenPipeError:
        pass  # the comparison tells what is missing in the output
    process.stdin.close()


def run_on_pieces(program, log, size):
    """Runs the program with the log through a pipe, in pieces that it has to take one by one."""
    with tempfile.TemporaryFile() as output, tempfile.TemporaryFile() as errors:
        process = subprocess.Popen(
            [program], stdin=subprocess.PIPE, stdout=output, stderr=errors, bufsize=0
        )
        try:
            write_in_pieces(process, log, size)
            status = process.wait(timeout=PATIENCE)
        finally:
            process.kill()
            process.wait()
        output.seek(0)
        errors.seek(0)
        return Run(output.read(), errors.read(), status)


def run_on_descriptors(program, given, output):
    """Runs the program on two open descriptors, and closes them; what came through the output is
    empty unless that is a pipe."""
    try:
        done = subprocess.run(
            [program], stdin=given, stdout=output, stderr=subprocess.PIPE, timeout=PATIENCE
        )
    finally:
        for descriptor in {given, output} - {subprocess.PIPE}:
            os.close(descriptor)
    return Run(done.stdout or b"", done.stderr, done.returncode)


def broken_input(log):
    """A descriptor that gives the log, and then an error and not its end: a terminal whose other
    side was closed."""
    terminal, other_side = os.openpty()
    tty.setraw(other_side)
    os.write(other_side, log)
    os.close(other_side)
    return terminal


@contextlib.contextmanager
def started(program, given=subprocess.PIPE):
    """A program that runs while the caller feeds it through pipes, or through the given descriptor. It is
    ended, with all that it has started, when the caller is done or has waited too long."""
    process = subprocess.Popen(
        [program],
        stdin=given,
        stdout=subprocess.PIPE,
        stderr=subprocess.PIPE,
        bufsize=0,
        start_new_session=True,
    )
    late = threading.Timer(PATIENCE, os.killpg, (process.pid, signal.SIGKILL))
    late.start()
    try:
        yield process
        process.wait()
        if late.finished.is_set():
            raise subprocess.TimeoutExpired(process.args, PATIENCE)
    finally:
        late.cancel()
        with contextlib.suppress(ProcessLookupError):
            os.killpg(process.pid, signal.SIGKILL)
        process.wait()
        for stream in (process.stdin, process.stdout, process.stderr):
            if stream:
                stream.close()


# ---- Comparing -------------------------------------------------------------------------------


def show(line):
    """A line as text on one line, a very long one cut."""
    if line is None:
        return "no line"
    text = f"{len(line)} bytes {line!r}"
    return text if len(text) <= 1000 else text[:1000] + " ... (cut)"


def first_difference(log, expected, output):
    """Number, input line, expected line and printed line where two outputs part.

    The lines keep their line feeds, so that a missing one is a difference too.
    """
    texts = (re.findall(rb"[^\n]*\n|[^\n]+", text) for text in (log, expected, output))
    for number, lines in enumerate(itertools.zip_longest(*texts), 1):
        if lines[1] != lines[2]:
            return number, *lines


def difference(name, log, expected, output):
    """What is said of a case whose output differs."""
    number, given, wanted, printed = first_difference(log, expected, output)
    return "\n".join(
        (
            f"difference in {name}, line {number}",
            f"  input:    {show(given)}",
            f"  expected: {show(wanted)}",
            f"  came:     {show(printed)}",
        )
    )


class Comparison:
    """Runs the program on logs, compares what it prints and counts what was seen."""

    def __init__(self, program):
        self.program = program
        self.lines = 0
        self.bytes = 0
        self.not_hex = 0
        self.refused = collections.Counter()  # by number
        self.accepted = collections.Counter()  # by command and item

    def log(self, name, log):
        """Compares one run on a log as a file."""
        self.compare(name, log, reference.replay(log), run_on_file(self.program, log))

    def pieces(self, name, log, sizes):
        """Compares a run on a log as a file with runs through a pipe, in pieces of each size."""
        expected = reference.replay(log)
        self.compare(f"{name}, as a file", log, expected, run_on_file(self.program, log))
        for size in sizes:
            run = run_on_pieces(self.program, log, size)
            self.compare(f"{name}, in pieces of {size}", log, expected, run)

    def literal(self, name, log, expected):
        """Compares one run with an output known from the paper, which the reference gives too."""
        by_reference = reference.replay(log)
        if by_reference != expected:
            raise Problem("the reference: " + difference(name, log, expected, by_reference))
        self.compare(name, log, expected, run_on_file(self.program, log))

    def failing(self, name, log, expected, run, what, error):
        """Compares one run in which a read or a write fails, and what is said of it."""
        message = f"replay: standard {what}: {os.strerror(error)}\n"
        self.compare(name, log, expected, run, message.encode("ascii"))

    def compare(self, name, log, expected, run, errors=b"", status=0):
        """Raises a Problem if a run differs in any respect; otherwise it counts."""
        if run.output != expected:
            raise Problem(difference(name, log, expected, run.output))
        if run.errors != errors:
            raise Problem(f"standard error in {name}: {show(run.errors)} for {show(errors)}")
        if run.status != status:
            raise Problem(f"exit status {run.status} in {name}, expected {status}")
        self.count(log, run.output)

    def count(self, log, output):
        """Counts lines and outcomes by what was printed: C1 and C2 come before the item, C0 and
        00 before the command and the item."""
        printed = output.decode("ascii").splitlines()
        self.lines += len(printed)
        self.bytes += len(log)
        for line in printed:
            words = line.split(" ")
            if words[0] == "refused":
                self.refused[int(words[1])] += 1
            elif words[0] == "not":
                self.not_hex += 1
            else:
                shown = words[3:] if words[3] in ("C1", "C2") else words[5:]
                code = {"C1": READ, "C2": READ_NV}.get(shown[0]) or int(shown[0], 16)
                item = int(shown[1], 16) if len(shown) > 1 else None
                self.accepted[code, item] += 1

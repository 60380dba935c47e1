#!/usr/bin/env python3
"""Compares what no entry of the C library shows with reference.py, call by call: lines of hex, the
lines of a log that are answered in a buffer, and an analog input's offset as a number.

Builds the crate `probe` as a shared library and calls its functions over the examples of document
01, over edges and over random inputs of a fixed seed. Every buffer that is handed over lies between
guard bytes; guards, inputs and all bytes of the outputs are compared too. The first difference ends
the run with exit status 1.
"""

import ctypes
import itertools
import sys

sys.dont_write_bytecode = True  # leaves no files beside the tests

import reference
from library import ANALOG_INPUT, BYTE, POINTER, SIZE, Calls, build, run_test, struct
from payloads import WRAPS, likely_payload
from states import STATE, any_state, packed, random_state, unpacked

SEED = 20240001

# ---- The library -----------------------------------------------------------------------------

# Each function's result and arguments.
SIGNATURES = {
    "probe_signed_offset": (ctypes.c_int16, (ANALOG_INPUT,)),
    "probe_read_line_at": (
        struct(answer=BYTE, length=SIZE, end=SIZE),
        (POINTER, SIZE, SIZE, POINTER, SIZE),
    ),
    "probe_write_block": (SIZE, (POINTER, SIZE, POINTER, SIZE)),
    "probe_write_refused": (SIZE, (BYTE, POINTER, SIZE)),
    "probe_write_not_hex": (SIZE, (POINTER, SIZE)),
    "probe_replay_lines": (
        struct(state=STATE, consumed=SIZE, written=SIZE),
        (STATE, POINTER, SIZE, POINTER, SIZE),
    ),
}

LONGEST_PRINTED = 66  # characters of the longest response's line: 22 bytes of three each


def replayed_lines(state, log, room):
    """State afterwards, consumed characters and text of the lines that a line feed ends, from the
    first on, each as long as there is room for any line."""
    consumed, text = 0, b""
    for line in log.split(b"\n")[:-1]:
        if room - len(text) < LONGEST_PRINTED:
            break
        state, printed = reference.replay_line(state, line)
        consumed += len(line) + 1
        text += printed.encode("ascii")
    return state, consumed, text


class Comparison(Calls):
    """A method for each function of the library: it calls the library and the reference, compares
    what came, and returns it."""

    def signed_offset(self, row):
        came = self.library.probe_signed_offset(ANALOG_INPUT.from_buffer_copy(row))
        expected = int.from_bytes(row[3:], "big", signed=True)
        return self.called("probe_signed_offset", expected, came, row=row)

    def read_line_at(self, text, start, buffer, after=b""):
        """The line that starts at a place of a text. What follows the text is no part of it."""
        line, end = reference.line_at(text, start)
        block = reference.parse_line(line)
        if block is None:
            expected = 1, 0, end, buffer
        elif len(block) > len(buffer):
            expected = 2, 0, end, buffer
        else:
            expected = 0, len(block), end, block + buffer[len(block) :]
        given = self.input.give(text + after)
        result = self.library.probe_read_line_at(
            given, len(text), start, self.output.give(buffer), len(buffer)
        )
        came = result.answer, result.length, result.end, self.output.content()
        inputs = {"text": text, "start": start, "buffer": buffer, "after": after}
        return self.called("probe_read_line_at", expected, came, **inputs)

    def written(self, function, arguments, text, out, **inputs):
        """A line that is printed: over the front of the buffer, or not at all for want of room."""
        line = text.encode("ascii")
        if len(line) > len(out):
            line = b""
        write = getattr(self.library, function)
        length = write(*arguments, self.output.give(out), len(out))
        came = length, self.output.content()
        return self.called(function, (len(line), line + out[len(line) :]), came, **inputs, out=out)

    def write_block(self, block, out):
        arguments = self.input.give(block), len(block)
        text = reference.format_block(block)
        return self.written("probe_write_block", arguments, text, out, block=block)

    def write_refused(self, refusal, out):
        text = reference.format_refused(refusal)
        return self.written("probe_write_refused", (refusal,), text, out, refusal=refusal)

    def write_not_hex(self, out):
        return self.written("probe_write_not_hex", (), reference.format_not_hex(), out)

    def replay_lines(self, state, log, out):
        after, consumed, text = replayed_lines(state, log, len(out))
        expected = packed(after), consumed, len(text), text + out[len(text) :]
        given = STATE.from_buffer_copy(packed(state))
        progress = self.library.probe_replay_lines(
            given, self.input.give(log), len(log), self.output.give(out), len(out)
        )
        counts = progress.consumed, progress.written
        came = bytes(progress.state), *counts, self.output.content()
        inputs = {"state": packed(state), "log": log, "out": out}
        self.called("probe_replay_lines", expected, came, **inputs)
        self.same("the state that was given", packed(state), bytes(given), **inputs)
        return came


# ---- Examples of document 01 -----------------------------------------------------------------

# The blocks among the examples, and of the replay program's input.
BLOCK_EXAMPLES = (
    "80 55 82 01 15",
    "80 FF FF 55 82 01 15",
    "80" + 16 * " FF" + " 55 82 01 15",
    "80" + 17 * " FF" + " 55 82 01 15",
    "80 55 83 04 15 06",
    "80 55 82 03 15",
    "80 55 83 02 15 07",
    "80 55 82 03 25",
    "80 55 83 02 13 EC",
    "80 55 83 02 13 EB",
    "80 55 83 02 13 0A",
    "80 55 83 02 13 0B",
    "80 55 81 82",
    "80 55 81 01",
    "80 55 88 04 18 27 01 02 03 04 05",
    "80 55 88 04 18 28 01 02 03 04 05",
    "80 55 88 04 18 27 00 00 00 00 01",
    "80 55 83 01 16 02",
    "80 55 83 01 16 00",
    "80 55 83 01 16 03",
    "80 55 82 01 18",
    "",
    "80",
    "81",
    "80 55 80",
    "80 55 82 01",
    "80 55 82 01 15 00",
    "80 55 82 05 15",
    "80 55 82 01 17",
    "80 55 83 02 15 03",
)

# The responses among the examples, as they are printed.
PRINTED_EXAMPLES = (
    "80 55 83 C1 15 00",
    "80 55 85 C0 00 04 15 06",
    "80 55 83 C2 15 06",
    "80 55 83 C0 00 82",
    "80 55 85 C0 00 02 15 03",
    "80 55 83 C1 15 03",
)
REFUSED_EXAMPLES = ((12, "refused 12\n"), (10, "refused 10\n"))


def check_example_lines(compare, rng):
    """The paper's example lines: read as the bytes they show, and printed as they are."""
    for text in BLOCK_EXAMPLES + PRINTED_EXAMPLES:
        line, block = text.encode("ascii"), bytes.fromhex(text)
        answer, length, end, buffer = compare.read_line_at(line, 0, rng.randbytes(40))
        came = answer, buffer[:length], end
        compare.same("a line read", (0, block, len(line)), came, line=line)
        length, out = compare.write_block(block, rng.randbytes(120))
        compare.same("a line printed", line + b"\n", out[:length], block=block)
    for refusal, text in REFUSED_EXAMPLES:
        length, out = compare.write_refused(refusal, rng.randbytes(40))
        compare.same("a line printed", text.encode("ascii"), out[:length], refusal=refusal)
    length, out = compare.write_not_hex(rng.randbytes(40))
    compare.same("a line printed", b"not hex\n", out[:length])


# ---- Offsets of analog inputs ----------------------------------------------------------------

OFFSETS = (
    ("00 00", 0),
    ("00 01", 1),
    ("00 FF", 255),
    ("01 00", 256),
    ("7F FF", 32767),
    ("80 00", -32768),
    ("80 01", -32767),
    ("FF 00", -256),
    ("FF FF", -1),
)


def check_offsets(compare, rng):
    """The edges, then every pair of bytes; the other bytes of the row don't matter."""
    for text, expected in OFFSETS:
        for others in (bytes(3), b"\xff\xff\xff", b"\x07\x10\x01"):
            row = others + bytes.fromhex(text)
            compare.same("an offset", expected, compare.signed_offset(row), row=row)
    for number in range(65536):
        compare.signed_offset(rng.randbytes(3) + number.to_bytes(2, "big"))


# ---- Lines of the replay program -------------------------------------------------------------


def line_of(block):
    return reference.format_block(block).rstrip("\n").encode("ascii")


def check_lines_of_blocks(compare, rng):
    """Random blocks of 0 to 205 bytes as lines, with a buffer too short, right and longer."""
    for size in range(206):
        for room in {0, max(size - 1, 0), size, size + 1, 200, 210}:
            compare.read_line_at(line_of(rng.randbytes(size)), 0, rng.randbytes(room))


def check_line_buffers(compare, rng):
    """Buffers of every size, with lines of a block, and lines that are wrong at the end alone."""
    lines = [line_of(rng.randbytes(size)) for size in (0, 1, 2, 22, 39, 40, 41, 199, 200, 201)]
    lines += [line + wrong for line in lines for wrong in (b" ", b"0", b" 0", b" 0g", b"\r")]
    for line, size in itertools.product(lines, (*range(41), 199, 200, 201)):
        compare.read_line_at(line, 0, rng.randbytes(size))


def check_long_lines(compare, rng):
    text = line_of(rng.randbytes(300))
    long_text = line_of(rng.randbytes(2**16 // 3 + 300))
    for size in (*range(590, 611), 2**8, 2**16):
        for line in (text[:size], text[:599].ljust(size), b" " * size, b"A" * size):
            for room in (199, 200, 201, 300):
                compare.read_line_at(line, 0, rng.randbytes(room))
    for size in range(2**16, 2**16 + 600):
        compare.read_line_at(long_text[:size], 0, rng.randbytes(200))


def check_changed_lines(compare, rng):
    """A good line with each character replaced by each byte, left out, doubled or with another
    before it; then every short line over a few characters."""
    good = b"80 55 8B 0F 9A"
    for place in range(len(good) + 1):
        before, here, after = good[:place], good[place : place + 1], good[place + 1 :]
        compare.read_line_at(before + after, 0, rng.randbytes(6))
        compare.read_line_at(before + here + here + after, 0, rng.randbytes(6))
        for byte in range(256):
            compare.read_line_at(before + bytes([byte]) + after, 0, rng.randbytes(6))
        for byte in b" 0Fa\r\n\t\x00":
            compare.read_line_at(before + bytes([byte]) + here + after, 0, rng.randbytes(6))
    for size in range(7):
        for letters in itertools.product(b"0A f", repeat=size):
            compare.read_line_at(bytes(letters), 0, rng.randbytes(3))
    for _ in range(5000):
        letters = rng.choices(b"0123456789ABCDEF    ag\r", k=rng.randrange(20))
        compare.read_line_at(bytes(letters), 0, rng.randbytes(rng.randrange(9)))


# Lines of which texts are made: blocks, and lines that are wrong at one place, mostly at the end.
TEXT_LINES = (
    b"",
    b"8",
    b"80",
    b"80 ",
    b"80 5",
    b"80 55 0F",
    b"80 55 0F ",
    b"80 55\r",
    b"\r",
    b" ",
    b" 80",
    b"80  55",
    b"80\r55",
    b"80 5f 0F",
    b"80 55 0F A",
    b"8055",
)

FAR_PLACES = (2**8, 2**16, 2**31, 2**32, 2**63, 2**64 - 1)


def check_lines_of_texts(compare, rng):
    """Texts of two lines, whose last one has a line feed or lacks it, read from every place: from
    a line's start, from within it, from its line feed, from the text's end and from past it."""
    for first, second in itertools.product(TEXT_LINES, repeat=2):
        for last in (b"", b"\n", b"\r\n", b" \n", b"\n\n"):
            text = first + b"\n" + second + last
            for start in (*range(len(text) + 4), *FAR_PLACES):
                compare.read_line_at(text, start, rng.randbytes(rng.choice((0, 1, 2, 3, 8))))


def check_short_texts(compare, rng):
    """Every short text over a few characters from every place; what would go on with a line
    follows some of them."""
    for size in range(7):
        for letters in itertools.product(b"A \n\r", repeat=size):
            text = bytes(letters)
            for start in range(size + 2):
                after = rng.choice((b"", b"A", b"AA", b" AA", b"\n", b"A\n"))
                compare.read_line_at(text, start, rng.randbytes(rng.randrange(4)), after)


def check_cut_texts(compare, rng):
    """Texts that end anywhere in a line, with the rest of it after them."""
    long_line, short_line = line_of(rng.randbytes(20)), line_of(rng.randbytes(3))
    whole = b"\n80 55 0F\n" + long_line + b"\r\n" + short_line + b" \n"
    for size in range(len(whole) + 1):
        for start in range(len(whole) + 2):
            compare.read_line_at(whole[:size], start, rng.randbytes(21), whole[size:])


def check_long_lines_of_texts(compare, rng):
    """Lines about the limit within a text: their characters are counted from their place on, to
    their line feed or to the text's end."""
    pairs = line_of(rng.randbytes(250))
    for front, size in itertools.product((b"", b"\n", b"80\n", pairs + b"\n"), range(590, 611)):
        for line in (pairs[:size], pairs[:599].ljust(size), b"A" * size):
            for last in (b"", b"\n", b"\n55", b"\r\n"):
                for skip in (0, 1, 2, 3, 6, 9):
                    room = rng.choice((0, 1, 196, 197, 198, 199, 200, 201, 204))
                    start = len(front) + skip
                    compare.read_line_at(front + line + last, start, rng.randbytes(room))


def check_written_blocks(compare, rng):
    for size in (*range(206), 300):
        text = 3 * size if size else 1
        rooms = range(text + 4) if size < 12 else {0, 1, *range(text - 4, text + 5)}
        for room in rooms:
            compare.write_block(rng.randbytes(size), rng.randbytes(room))
    for byte in range(256):
        compare.write_block(bytes([byte]), rng.randbytes(4))
    for wrap in WRAPS:
        compare.write_block(b"\x80", rng.randbytes(wrap))
        compare.write_block(bytes(wrap // 4), rng.randbytes(2))


def check_written_words(compare, rng):
    for room in (*range(20), *WRAPS):
        compare.write_not_hex(rng.randbytes(room))
        for refusal in range(256):
            compare.write_refused(refusal, rng.randbytes(room))


# ---- Logs ------------------------------------------------------------------------------------


def log_line(rng):
    """A line of a log without its line feed: mostly a command, also a damaged or a hostile one."""
    payload = likely_payload(rng)
    wake = rng.choice((0, 0, 0, 1, 16)) * b"\xff"
    block = b"\x80" + wake + b"\x55" + bytes([0x80 + len(payload)]) + payload
    hostile = (
        b"",
        line_of(block[: rng.randrange(len(block))]),
        line_of(rng.randbytes(rng.randrange(201))),
        line_of(block).lower(),
        line_of(block) + rng.choice((b" ", b"\r", b"\x00", b"\xff")),
        rng.randbytes(rng.randrange(30)).replace(b"\n", b"\r"),
        line_of(rng.randbytes(250))[: rng.choice((*range(595, 606), 700))],
    )
    return line_of(block) if rng.random() < 0.7 else rng.choice(hostile)


def log_of(rng, count):
    """A log of so many lines; the last one has its line feed, or lacks it, or is cut."""
    log = b"".join(log_line(rng) + b"\n" for _ in range(count))
    return rng.choice((log, log, log[:-1], log[: rng.randrange(len(log) + 1)]))


def check_lines_of_logs(compare, rng):
    """Logs read line by line, each from after the last one's line feed, and from any place."""
    for count in (0, 1, 2, 7, 40, 300):
        log = log_of(rng, count)
        start, lines = 0, 0
        while start <= len(log):
            _, _, end, _ = compare.read_line_at(log, start, rng.randbytes(rng.choice((9, 200))))
            start, lines = end + 1, lines + 1
        compare.same("the lines of a log", log.count(b"\n") + 1, lines, log=log)
        for _ in range(300):
            start, room = rng.randrange(len(log) + 3), rng.randrange(210)
            compare.read_line_at(log, start, rng.randbytes(room))


def check_log_rooms(compare, rng):
    """Buffers of every size up to that of some lines, on logs that fill them and that do not."""
    for room in range(400):
        for count in (0, 1, 2, 7, 40):
            compare.replay_lines(any_state(rng), log_of(rng, count), rng.randbytes(room))
    state = random_state(rng)
    whole = b"".join(line_of(b"\x80\x55\x82\x01\x01") + b"\n" for _ in range(6))
    for room, size in itertools.product(range(60, 140), range(0, len(whole) + 1, 5)):
        compare.replay_lines(state, whole[:size], rng.randbytes(room))


def check_log_bytes(compare, rng):
    """Logs of few bytes, with line feeds anywhere, and of random bytes."""
    for size in range(5):
        for letters in itertools.product(b"\n8\x00", repeat=size):
            compare.replay_lines(any_state(rng), bytes(letters), rng.randbytes(200))
    for _ in range(300):
        log = bytes(rng.choices(b"0123456789ABCDEF  \n\r\x00\xff", k=rng.randrange(400)))
        compare.replay_lines(any_state(rng), log, rng.randbytes(rng.randrange(600)))


def check_long_logs(compare, rng):
    """Logs that are answered in several buffers, each from the state that the last one left."""
    for room in (LONGEST_PRINTED - 1, LONGEST_PRINTED, 67, 131, 132, 133, 1000, 4096, 65536):
        state, rest = random_state(rng), log_of(rng, 300)
        while True:
            after, consumed, _, _ = compare.replay_lines(state, rest, rng.randbytes(room))
            state = unpacked(after)
            rest = rest[consumed:]
            if consumed == 0:
                break
        ended = b"\n" not in rest
        compare.same("whether all lines are answered", room >= LONGEST_PRINTED, ended, rest=rest)


# ---- The run ---------------------------------------------------------------------------------

CHECKS = (
    check_example_lines,
    check_offsets,
    check_lines_of_blocks,
    check_line_buffers,
    check_long_lines,
    check_changed_lines,
    check_lines_of_texts,
    check_short_texts,
    check_cut_texts,
    check_long_lines_of_texts,
    check_lines_of_logs,
    check_written_blocks,
    check_written_words,
    check_log_rooms,
    check_log_bytes,
    check_long_logs,
)


def main(checks, whole):
    compare = Comparison(build("probe", SIGNATURES))
    compare.run(checks, SEED)
    print(f"{compare.calls:,} calls agree")


if __name__ == "__main__":
    run_test(CHECKS, main)

"""Lines and logs that the tests feed the replay program: commands, lines of other forms, and lines at
the border of a read.
"""

from payloads import frame, likely_payload
from reference import PROGRAM, READ, READ_NV, WRITE

# ---- Lines -----------------------------------------------------------------------------------


def text_of(block):
    """A block as a line of a log, without its line feed."""
    return block.hex(" ").upper().encode("ascii")


def command(code, *parts, wake=0):
    """The line of a command; its parts are bytes or single byte values."""
    payload = bytes([code])
    for part in parts:
        payload += part if isinstance(part, bytes) else bytes([part])
    return text_of(frame(wake, payload))


def log_of(lines):
    """A log with a line feed after each line."""
    return b"".join(line + b"\n" for line in lines)


# ---- Cells -----------------------------------------------------------------------------------

ONE_BYTE_SETTINGS = (0x11, 0x12, 0x13, 0x14, 0x15, 0x25)
INPUTS = (1, 2)
SLOTS = range(40)


def dump():
    """Lines that show every cell that a command can show, with Read and with Read NV."""
    once = (0x01, 0x02, 0x03, 0x10, 0x11, 0x12, 0x13, 0x14, 0x15)
    lines = [command(READ, item) for item in (*once, 0x20, 0x21, 0x22, 0x23, 0x25, 0x26)]
    lines += [command(READ_NV, item) for item in once]
    for code in (READ, READ_NV):
        lines += [command(code, 0x16, number) for number in INPUTS]
        lines += [command(code, 0x18, index) for index in SLOTS]
    return lines


def slot_value(index, variant=0):
    """A slot's value that no other slot and no other variant has."""
    return bytes([index + 1, 0x40 + index, 0x80 + variant, 0xFF - index, 0xC0 + index])


def fill_cells():
    """Lines after which every cell that a command can store differs from its default and from its
    other copy."""
    lines = [command(PROGRAM, 0x10, b"\xa1\xa2\xa3\xa4")]
    pairs = ((0x91, 0x92), (0x93, 0x94), (0xEC, 0x0A), (0x1F, 0x19), (0x05, 0x03), (0x95, 0x96))
    for item, (nonvolatile, working) in zip(ONE_BYTE_SETTINGS, pairs):
        lines += [command(PROGRAM, item, nonvolatile), command(WRITE, item, working)]
    for number in INPUTS:
        lines.append(command(PROGRAM, 0x16, number, 0x03 + number, 0x0F, 0x01, 0x12, number))
        lines.append(command(WRITE, 0x16, number, 0x05 + number, 0x10, 0x00, 0x34, number))
    return lines + [command(PROGRAM, 0x18, index, slot_value(index)) for index in SLOTS]


def guarded(lines):
    """A log of lines that run on filled cells, and show afterwards what became of them."""
    return log_of(fill_cells() + list(lines) + dump())


# ---- Lines that are no block -----------------------------------------------------------------

HOSTILE_LINES = (
    *(b" ", b"  ", b"\t", b"\r", b"\x00", b"0", b"8", b"80 ", b" 80", b"80  55", b"80\t55"),
    *(b"80 5", b"8 55", b"805", b"8055", b"80 55 8", b"80 55 82 01 15 ", b" 80 55 82 01 15"),
    *(b"80 55 82 01 15\r", b"80 55 82 01 15\x00", b"80 55 82 01 15\t", b"\x0080 55 82 01 15"),
    *(b"\xef\xbb\xbf80 55 82 01 15", b"80 ff 55 82 01 15", b"80 55 83 c1 15 00", b"80 Ff 55"),
    *(b"80 fF 55", b"80 55 8G", b"80 55 G2", b"80 55 8@ 01", b"80 55 8: 01", b"80 55 8/ 01"),
    *(b"80 55 82 01 1\xb5", b"80 55 82 01 \xb115", b"80,55,82,01,15", b"80 55 82 01 15 #"),
    *(b"0x80 0x55", b"80-55", b"+8 55", b"-8 55", b"80 55 82 01 15 80 55 82 01 1"),
    *(b"refused 3", b"not hex", b"\\n", b"80\x0b55", b"80\x0c55", b"80\x8555", b"80\xa055"),
    *(b"\xff", b"\x80", b"\x80\x55\x82\x01\x15", b"80 55\x0082 01 15", b"80 55 82 01 15\x1a"),
    *(b"\x1a", b"\x04", b"80 55 82 01 15\r80 55 82 01 15", b"A", b"AB CD EF G0", b"\xc3\xa9"),
)


def hex_text(rng, size):
    """Characters of a line of that size: pairs parted by a space, the last one cut if need be."""
    return text_of(rng.choice((b"\x80\x55\xff", b"")) + rng.randbytes(size // 3 + 1))[:size]


def broken_text(rng, size):
    """The same with one character wrong: the first, the last or any."""
    text = bytearray(hex_text(rng, size))
    text[rng.choice((0, size - 1, rng.randrange(size)))] = rng.choice(b"g x\r\x00\xff")
    return bytes(text)


def random_line(rng):
    """A line of a long sequence: mostly a whole frame, now and then a damaged one or no block."""
    kind = rng.random()
    payload = likely_payload(rng)
    block = frame(rng.choice((0, 0, 0, 1, 2, 16)), payload)
    if kind < 0.85:
        return text_of(block)
    if kind < 0.93:
        place = rng.randrange(len(block))
        change = rng.choice((b"", b"\xff", b"\x00", rng.randbytes(1), rng.randbytes(2)))
        return text_of(block[:place] + change + block[place + rng.randrange(2) :])
    if kind < 0.96:
        return text_of(frame(0, rng.randbytes(rng.randrange(1, 12))))
    if kind < 0.98:
        return rng.choice((b"", b" ", text_of(block).lower(), text_of(block) + b" "))
    return hex_text(rng, rng.randrange(1, 640))


# ---- Borders of the input --------------------------------------------------------------------

BORDER = 65536


def padding(rng, size):
    """Lines of that many bytes altogether: commands, over-long lines, and a line that fits."""
    lines = b""
    while size - len(lines) > 5000:
        lines += rng.choice((b"0", b"G", b" ")) * rng.randrange(601, 3000) + b"\n"
        lines += log_of(random_line(rng) for _ in range(2))
    rest = size - len(lines)
    return lines + (rest - 1) * b"0" + b"\n" if rest else lines


def border_log(rng, placed):
    """A log in which each given line starts at a place counted from a border of its own."""
    log = bytearray()
    for number, (line, place) in enumerate(placed, 1):
        log += padding(rng, number * BORDER + place - len(log))
        log += line + b"\n"
    return bytes(log)

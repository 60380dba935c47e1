"""The logs that are measured. Each is the same on every run; a megabyte is 1,000,000 bytes."""

import random

MEGABYTE = 1_000_000
SEED = 20240003
REPEATED = 5000  # times eight lines, before they come again


def frame(*payload):
    return bytes([0x80, 0x55, 0x80 + len(payload), *payload])


def typical_blocks(chance):
    """Eight blocks of an evening's traffic: five reads, one of them of the stored copy; two Writes, of
    which the second is refused two times in nine; and a Program. In all one line in 36 is refused."""
    slot = chance.randrange(40)
    return (
        frame(0x01, 0x23),
        frame(0x01, 0x16, 1),
        frame(0x01, 0x18, slot),
        frame(0x03, 0x15),
        frame(0x02, 0x13, chance.choice((0xEC, 0x00, 0x0A))),
        frame(0x04, 0x18, slot, 1, 2, 3, slot, 0xFF),
        frame(0x02, 0x15, chance.randrange(9)),
        frame(0x01, 0x01),
    )


def text_of(block):
    return block.hex(" ").upper().encode()


def write_repeated(path, part, size):
    """The part over and over, `size` bytes in all."""
    with open(path, "wb") as log:
        for _ in range(size // len(part)):
            log.write(part)
        log.write(part[: size % len(part)])


def write_typical(path, megabytes):
    """Typical lines. The last one may be cut, as where a recording ends."""
    chance = random.Random(SEED)
    blocks = (block for _ in range(REPEATED) for block in typical_blocks(chance))
    part = b"".join(text_of(block) + b"\n" for block in blocks)
    write_repeated(path, part, megabytes * MEGABYTE)


def write_single_line(path, megabytes):
    """One line of hex pairs that is far too long, without a line feed."""
    write_repeated(path, text_of(frame(0x01, 0x15)) + b" ", megabytes * MEGABYTE)

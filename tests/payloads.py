"""Frames and payloads that several tests hand over: edges, and random ones near to commands."""

import itertools

import reference
from reference import ERASE_ALL_ADDRESSES, PROGRAM, READ, READ_NV, SET_DEFAULT, WRITE

# Added to a size, these leave its lowest one or two bytes as they were.
WRAPS = (2**8, 2**16)


def frame(wake, payload):
    """A frame by the paper's sentence, with any wake count and payload."""
    return b"\x80" + wake * b"\xff" + b"\x55" + bytes([0x80 + len(payload)]) + payload


COMMANDS = (0x00, 0x01, 0x02, 0x03, 0x04, 0x05, 0x80, 0x81, 0x82, 0x83, 0xC1, 0xFF)
UNSERVED_ITEMS = (0x00, 0x04, 0x17, 0x19, 0x1A, 0x24, 0x27, 0x28, 0x29, 0xFF)
INDEXES = (0x00, 0x01, 0x02, 0x03, 0x26, 0x27, 0x28, 0xFF)

# Values at both sides of each item's limits.
EDGE_VALUES = {
    0x13: ("EB", "EC", "0A", "0B", "80"),
    0x14: ("1F", "20", "40", "80"),
    0x15: ("06", "07"),
    0x16: (
        "FF 01 00 00 00",
        "04 10 01 80 00",
        "03 01 00 00 00",
        "08 01 00 00 00",
        "FD 01 00 00 00",
        "07 00 00 00 00",
        "07 11 00 00 00",
        "FE 01 02 00 00",
    ),
    0x18: ("00 00 00 00 01", "00 00 00 00 FF", "00 00 00 01 00", "01 00 00 00 00"),
}


def permitted_commands():
    """Every command with an item that permits it, and 81 and 82, which have none."""
    permitted = {(SET_DEFAULT, None), (ERASE_ALL_ADDRESSES, None)}
    for item, (code, letter) in itertools.product(
        reference.ITEMS.values(), reference.LETTERS.items()
    ):
        if letter in item.commands:
            permitted.add((code, item.code))
    return permitted


def edge_payloads():
    """Each command with each item, in every length up to two bytes over a whole Program, with
    every pair of a good or bad index and a good or bad value; each once, in a fixed order."""
    payloads = set()
    for code in [*reference.ITEMS, *UNSERVED_ITEMS]:
        item = reference.ITEMS.get(code, reference.Item(code, 1, False, ""))
        indexes = [bytes([index]) for index in INDEXES] if item.indexed else [b""]
        values = [bytes(item.value_bytes), item.value_bytes * b"\xff"]
        values += [bytes.fromhex(value) for value in EDGE_VALUES.get(code, ())]
        for command, index, value in itertools.product(COMMANDS, indexes, values):
            whole = bytes([command, code]) + index + value + b"\x00\x01"
            payloads.update(whole[:size] for size in range(len(whole) + 1))
    return sorted(payloads)


def swept_commands():
    """Every command byte, alone and before items; each of the four commands on items with every
    item byte and every index byte."""
    for byte in range(256):
        yield from (bytes([byte]), bytes([byte, 0x15]), bytes([byte, 0x15, 0x00]))
        for command in (READ, WRITE, READ_NV, PROGRAM):
            yield from (bytes([command, byte]), bytes([command, byte, 0x01]))
            for item, value in ((0x16, "07 02 01 80 00"), (0x18, "01 02 03 04 05")):
                sets_value = command in (WRITE, PROGRAM)
                yield bytes([command, item, byte]) + bytes.fromhex(value if sets_value else "")


def swept_values():
    """Write and Program of every value of each one-byte setting, and of rows of five bytes with
    every byte at each place."""
    for command, byte in itertools.product((WRITE, PROGRAM), range(256)):
        for item in reference.ONE_BYTE_SETTINGS:
            yield bytes([command, item, byte])
        for at in range(5):
            for number, row in ((1, "06 03 00 12 34"), (2, "FE 10 01 FF FF")):
                value = bytearray.fromhex(row)
                value[at] = byte
                yield bytes([command, 0x16, number]) + value
            for index, row in ((0, "00 00 00 00 00"), (39, "00 01 00 00 07")):
                value = bytearray.fromhex(row)
                value[at] = byte
                yield bytes([command, 0x18, index]) + value


def random_payload(rng):
    """A payload that is often near one that is accepted."""
    if rng.random() < 0.2:
        return rng.randbytes(rng.randrange(24))
    command = rng.choice(COMMANDS[1:5])
    item = reference.ITEMS[rng.choice(list(reference.ITEMS))]
    payload = bytes([command, item.code])
    if item.indexed:
        payload += bytes([rng.choice(INDEXES + (rng.randrange(256),))])
    if command in (0x02, 0x04):
        small = rng.random() < 0.7
        payload += bytes(rng.randrange(8 if small else 256) for _ in range(item.value_bytes))
    change = rng.randrange(10)
    return payload[:-1] if change == 0 else payload + b"\x01" if change == 1 else payload


def random_value(rng, item):
    """A value of the item, often accepted."""
    if item == 0x13:
        return bytes([rng.randrange(-22, 13) % 256])
    if item == 0x14:
        return bytes([rng.randrange(36)])
    if item == 0x15:
        return bytes([rng.randrange(8)])
    if item == 0x16:
        channel = rng.choice((0x04, 0x05, 0x06, 0x07, 0xFE, 0xFF, rng.randrange(256)))
        return bytes([channel, rng.randrange(1, 17), rng.randrange(2)]) + rng.randbytes(2)
    if item == 0x18 and rng.random() < 0.3:
        return bytes(4) + bytes([rng.choice((0, 0, 1))])
    known = reference.ITEMS.get(item)
    return rng.randbytes(known.value_bytes if known else 1)


def accepted_value(rng, item):
    while True:
        value = random_value(rng, item)
        if reference.accepts(item, value):
            return value


# The indexes that the indexed items have.
ALL_INDEXES = {0x16: (1, 2), 0x18: range(40)}


def accepted_payloads(rng, indexes=ALL_INDEXES):
    """Every permitted command, with every index that its item has, or some of them, and with an accepted
    value if it takes one."""
    for command, item in sorted(permitted_commands(), key=str):
        start = bytes([command]) if item is None else bytes([command, item])
        for index in indexes.get(item, (None,)):
            payload = start if index is None else start + bytes([index])
            yield payload + (accepted_value(rng, item) if command in (WRITE, PROGRAM) else b"")


def likely_payload(rng):
    """A payload that is mostly accepted and often concerns a cell that others concern too."""
    if rng.random() < 0.01:
        return bytes([rng.choice((SET_DEFAULT, ERASE_ALL_ADDRESSES))])
    code = rng.choice((READ, READ, READ_NV, WRITE, PROGRAM, PROGRAM))
    settings = (*reference.ONE_BYTE_SETTINGS, 0x16, 0x16, 0x10, 0x18, 0x18, 0x18, 0x23)
    item = rng.choice(settings) if rng.random() < 0.9 else rng.randrange(0x30)
    payload = bytes([code, item])
    if item == 0x16:
        payload += bytes([rng.choice((1, 2, 1, 2, 1, 2, 0, 3))])
    if item == 0x18:
        payload += bytes([rng.choice((rng.randrange(40), 0, 1, 38, 39, 40))])
    return payload + (random_value(rng, item) if code in (WRITE, PROGRAM) else b"")


def random_block(rng):
    """A block: mostly a whole frame, often of a command that is accepted, else a damaged one."""
    payload = likely_payload(rng) if rng.random() < 0.7 else random_payload(rng)
    block = frame(rng.choice((0, 0, 0, 1, 2, 16, 17)), payload)
    kind = rng.random()
    if kind < 0.8:
        return block
    if kind < 0.95:
        at = rng.randrange(len(block))
        change = rng.choice((b"", b"\xff", b"\x00", rng.randbytes(1), rng.randbytes(2)))
        return block[:at] + change + block[at + rng.randrange(2) :]
    return rng.choice((b"", rng.randbytes(rng.randrange(30)), block + bytes(rng.choice(WRAPS))))

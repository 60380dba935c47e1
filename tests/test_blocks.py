#!/usr/bin/env python3
"""Sweeps frames, payloads and values through the C library and compares each call with reference.py, as test_entries.py does: blocks
are executed on the factory state, payloads are written as frames. The first difference ends the run with exit status 1.
"""

import itertools
import sys

sys.dont_write_bytecode = True  # leaves no files beside the tests

import reference
from entries import FILLER, Comparison, load_entries
from library import run_test
from payloads import WRAPS, edge_payloads, frame, random_payload
from reference import FACTORY_STATE, PROGRAM, READ, WRITE

SEED = 20240001


class Sweep(Comparison):
    """A block, a payload or a value, each by the entry that shows what comes of it."""

    def block(self, block):
        self.execute(FACTORY_STATE, block, FILLER[:22])

    def payload(self, payload):
        self.encode(payload, 0, FILLER[:27])

    def value(self, code, value):
        """A value of an item, by each command that stores one; an indexed item's at index 1."""
        item = reference.ITEMS[code]
        index = b"\x01" if item.indexed else b""
        for letter, command in (("W", WRITE), ("P", PROGRAM)):
            if letter in item.commands:
                self.payload(bytes([command, code]) + index + value)


# ---- Frame -----------------------------------------------------------------------------------


def check_frame_lengths(sweep, rng):
    """Each wake count and length byte, with no payload, one byte too few, right, one too many."""
    for wake, length_byte in itertools.product(range(19), range(256)):
        start = b"\x80" + wake * b"\xff" + b"\x55" + bytes([length_byte])
        length = length_byte % 128
        for size in {0, max(length - 1, 0), length, length + 1}:
            sweep.block(start + rng.randbytes(size))


def check_frame_damage(sweep, rng):
    """Frames that are cut, lengthened, or changed at one place by each byte."""
    frames = [
        frame(wake, payload)
        for wake in (0, 1, 2, 15, 16, 17)
        for payload in (b"\x82", b"\x01\x15", b"\x04\x18\x27\x01\x02\x03\x04\x05")
    ]
    for whole in frames + [frame(0, rng.randbytes(127)), frame(16, rng.randbytes(127))]:
        sweep.block(whole)
        for size in (1, 2, 3, *WRAPS):
            sweep.block(whole + bytes(size))
        for place in range(len(whole)):
            sweep.block(whole[:place])
            sweep.block(whole[:place] + whole[place + 1 :])
            for byte in (b"\x00", b"\x55", b"\x80", b"\x82", b"\xff"):
                sweep.block(whole[:place] + byte + whole[place:])
    for whole in frames[3:6] + frames[12:15]:
        for place, byte in itertools.product(range(len(whole)), range(256)):
            sweep.block(whole[:place] + bytes([byte]) + whole[place + 1 :])


def check_frame_random(sweep, rng):
    likely = b"\x80\xff\xff\xff\x55\x55\x81\x82\x83\x88"
    for _ in range(8000):
        sweep.block(rng.randbytes(rng.randrange(30)))
        sweep.block(b"\x80" + bytes(rng.choices(likely, k=rng.randrange(12))))
        start = b"\x80" + rng.randrange(4) * b"\xff" + b"\x55"
        sweep.block(start + bytes([0x80 + rng.randrange(6)]) + rng.randbytes(rng.randrange(6)))


# ---- Payloads --------------------------------------------------------------------------------


def check_short_payloads(sweep, rng):
    """Every payload of no, one and two bytes: so every command on every item that takes no more."""
    for size in range(3):
        for payload in itertools.product(range(256), repeat=size):
            sweep.payload(bytes(payload))


def check_edge_payloads(sweep, rng):
    for payload in edge_payloads():
        sweep.payload(payload)


def check_random_payloads(sweep, rng):
    for _ in range(25_000):
        sweep.payload(random_payload(rng))
    for _ in range(200):
        payload = random_payload(rng)
        for wrap in WRAPS:
            sweep.payload(payload + bytes(wrap))
        sweep.payload(rng.randbytes(rng.randrange(24, 300)))


# ---- Items -----------------------------------------------------------------------------------


def check_indexes(sweep, rng):
    for code, index in itertools.product((0x16, 0x18), range(256)):
        sweep.payload(bytes([READ, code, index]))


def check_values(sweep, rng):
    """Every value of the one-byte items, and random values of all that have at most five bytes."""
    for item in reference.ITEMS.values():
        if item.value_bytes == 1:
            for byte in range(256):
                sweep.value(item.code, bytes([byte]))
        elif item.value_bytes <= 5:
            for _ in range(500):
                sweep.value(item.code, rng.randbytes(item.value_bytes))


def check_analog_input_values(sweep, rng):
    offsets = (b"\x00\x00", b"\x7f\xff", b"\x80\x00", b"\xff\xff")
    for parts in itertools.product(range(256), range(18), range(3)):
        sweep.value(0x16, bytes(parts) + rng.choice(offsets))
    for byte in range(256):
        sweep.value(0x16, bytes([0x04, byte, 0x00]) + rng.randbytes(2))
        sweep.value(0x16, bytes([0xFE, 0x10, byte]) + rng.randbytes(2))
        sweep.value(0x16, bytes([0xFF, 0x01, 0x01, byte, 0xFF - byte]))


def check_slot_values(sweep, rng):
    """The zero address, all ones, and addresses with one bit set, with each mask."""
    addresses = [bytes(4), b"\xff\xff\xff\xff"]
    addresses += [(1 << bit).to_bytes(4, "big") for bit in range(32)]
    for address, mask in itertools.product(addresses, range(256)):
        sweep.value(0x18, address + bytes([mask]))


# ---- The run ---------------------------------------------------------------------------------

CHECKS = (
    check_frame_lengths,
    check_frame_damage,
    check_frame_random,
    check_short_payloads,
    check_edge_payloads,
    check_random_payloads,
    check_indexes,
    check_values,
    check_analog_input_values,
    check_slot_values,
)


def main(checks, whole):
    sweep = Sweep(load_entries())
    sweep.run(checks, SEED)
    print(f"{sweep.calls:,} calls agree")


if __name__ == "__main__":
    run_test(CHECKS, main)

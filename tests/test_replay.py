#!/usr/bin/env python3
"""Compares the replay program with reference.py, byte by byte, on generated logs, and runs the script
./replay around it.

Each case starts the program again, from the factory state, with the log as a file or through a pipe. The
whole output, the exit status and standard error are compared. Standard error is empty unless a read or a
write fails. The program's exit status is 0; the script's is 1 where there was a message. The first
difference ends the run with exit status 1.
"""

import contextlib
import errno
import itertools
import os
import pathlib
import random
import shutil
import signal
import subprocess
import sys
import tempfile

sys.dont_write_bytecode = True  # leaves no files beside the tests

import reference
from library import ROOT, Problem, run_test
from logs import (
    BORDER,
    HOSTILE_LINES,
    INPUTS,
    ONE_BYTE_SETTINGS,
    border_log,
    broken_text,
    command,
    dump,
    fill_cells,
    guarded,
    hex_text,
    log_of,
    padding,
    random_line,
    slot_value,
    text_of,
)
from payloads import frame, permitted_commands
from reference import ERASE_ALL_ADDRESSES, PROGRAM, READ, READ_NV, SET_DEFAULT, WRITE
from refusals import OWN
from replays import (
    PATIENCE,
    REPLAY,
    WRAPPER,
    Comparison,
    Run,
    broken_input,
    run_on_descriptors,
    run_on_file,
    runnable,
    started,
)

SEED = 20240002

# ---- Examples of document 01 -----------------------------------------------------------------

# The block examples: from the factory state, what is handed in and what is printed.
EXAMPLES = (
    (("80 55 82 01 15", "80 55 83 C1 15 00"),),
    (("80 FF FF 55 82 01 15", "80 55 83 C1 15 00"),),
    (("80" + 16 * " FF" + " 55 82 01 15", "80 55 83 C1 15 00"),),
    (("80" + 17 * " FF" + " 55 82 01 15", "refused 4"),),
    (
        ("80 55 83 04 15 06", "80 55 85 C0 00 04 15 06"),
        ("80 55 82 03 15", "80 55 83 C2 15 06"),
        ("80 55 82 01 15", "80 55 83 C1 15 06"),
    ),
    (("80 55 83 02 15 07", "refused 12"),),
    (("80 55 82 03 25", "refused 10"),),
    (("80 55 83 02 13 EC", "80 55 85 C0 00 02 13 EC"),),
    (("80 55 83 02 13 EB", "refused 12"),),
    (("80 55 83 02 13 0A", "80 55 85 C0 00 02 13 0A"),),
    (("80 55 83 02 13 0B", "refused 12"),),
    (("80 55 81 82", "80 55 83 C0 00 82"),),
    (("80 55 81 01", "refused 8"),),
    (("80 55 88 04 18 27 01 02 03 04 05", "80 55 8A C0 00 04 18 27 01 02 03 04 05"),),
    (("80 55 88 04 18 28 01 02 03 04 05", "refused 11"),),
    (("80 55 88 04 18 27 00 00 00 00 01", "refused 12"),),
    (("80 55 83 01 16 02", "80 55 88 C1 16 02 FF 01 00 00 00"),),
    (("80 55 83 01 16 00", "refused 11"),),
    (("80 55 83 01 16 03", "refused 11"),),
    (("80 55 82 01 18", "refused 8"),),
    (("", "refused 3"),),
    (("80", "refused 3"),),
    (("81", "refused 4"),),
    (("80 55 80", "refused 5"),),
    (("80 55 82 01", "refused 3"),),
    (("80 55 82 01 15 00", "refused 6"),),
    (("80 55 82 05 15", "refused 7"),),
    (("80 55 82 01 17", "refused 9"),),
    (
        ("80 55 82 01 15", "80 55 83 C1 15 00"),
        ("80 55 83 02 15 03", "80 55 85 C0 00 02 15 03"),
        ("80 55 83 02 15 07", "refused 12"),
        ("80 55 82 01 15", "80 55 83 C1 15 03"),
        ("80 55 82 03 25", "refused 10"),
    ),
)

# What every item answers in the factory state.
FACTORY_READS = (
    ("80 55 82 01 01", "80 55 83 C1 01 00"),
    ("80 55 82 01 02", "80 55 85 C1 02 00 00 00"),
    ("80 55 82 01 03", "80 55 86 C1 03 00 00 00 00"),
    ("80 55 82 01 10", "80 55 86 C1 10 00 00 00 00"),
    ("80 55 82 01 11", "80 55 83 C1 11 00"),
    ("80 55 82 01 12", "80 55 83 C1 12 00"),
    ("80 55 82 01 13", "80 55 83 C1 13 00"),
    ("80 55 82 01 14", "80 55 83 C1 14 06"),
    ("80 55 82 01 15", "80 55 83 C1 15 00"),
    ("80 55 83 01 16 01", "80 55 88 C1 16 01 FF 01 00 00 00"),
    ("80 55 83 01 16 02", "80 55 88 C1 16 02 FF 01 00 00 00"),
    ("80 55 83 01 18 00", "80 55 88 C1 18 00 00 00 00 00 00"),
    ("80 55 83 01 18 27", "80 55 88 C1 18 27 00 00 00 00 00"),
    ("80 55 82 01 20", "80 55 84 C1 20 00 00"),
    ("80 55 82 01 21", "80 55 84 C1 21 80 80"),
    ("80 55 82 01 22", "80 55 83 C1 22 00"),
    ("80 55 82 01 23", "80 55 86 C1 23 00 00 00 00"),
    ("80 55 82 01 25", "80 55 83 C1 25 00"),
    ("80 55 82 01 26", "80 55 83 C1 26 00"),
    ("80 55 82 03 01", "80 55 83 C2 01 00"),
    ("80 55 82 03 02", "80 55 85 C2 02 00 00 00"),
    ("80 55 82 03 03", "80 55 86 C2 03 00 00 00 00"),
    ("80 55 82 03 10", "80 55 86 C2 10 00 00 00 00"),
    ("80 55 82 03 11", "80 55 83 C2 11 00"),
    ("80 55 82 03 12", "80 55 83 C2 12 00"),
    ("80 55 82 03 13", "80 55 83 C2 13 00"),
    ("80 55 82 03 14", "80 55 83 C2 14 06"),
    ("80 55 82 03 15", "80 55 83 C2 15 00"),
    ("80 55 83 03 16 01", "80 55 88 C2 16 01 FF 01 00 00 00"),
    ("80 55 83 03 16 02", "80 55 88 C2 16 02 FF 01 00 00 00"),
    ("80 55 83 03 18 00", "80 55 88 C2 18 00 00 00 00 00 00"),
    ("80 55 83 03 18 27", "80 55 88 C2 18 27 00 00 00 00 00"),
    ("80 55 82 03 20", "refused 10"),
    ("80 55 82 03 21", "refused 10"),
    ("80 55 82 03 22", "refused 10"),
    ("80 55 82 03 23", "refused 10"),
    ("80 55 82 03 25", "refused 10"),
    ("80 55 82 03 26", "refused 10"),
)

# Item 01 in the factory state has one byte, the 00; it can't be stored.
NAME_RUN = (
    ("80 55 82 01 01", "80 55 83 C1 01 00"),
    ("80 55 83 01 01 00", "refused 8"),
    ("80 55 83 02 01 41", "refused 10"),
    ("80 55 93 04 01" + 17 * " 41", "refused 10"),
    ("80 55 82 02 01", "refused 10"),
    ("80 55 82 03 01", "80 55 83 C2 01 00"),
    ("80 55 82 01 01", "80 55 83 C1 01 00"),
)

# Item 23: power, line mask and latch mask go by bits 0, 3 and 4 of the working control word.
STATUS_RUN = (
    ("80 55 83 02 13 F6", "80 55 85 C0 00 02 13 F6"),
    ("80 55 83 02 11 A5", "80 55 85 C0 00 02 11 A5"),
    ("80 55 83 02 12 5A", "80 55 85 C0 00 02 12 5A"),
    ("80 55 82 01 23", "80 55 86 C1 23 00 00 00 00"),
    ("80 55 83 02 14 01", "80 55 85 C0 00 02 14 01"),
    ("80 55 82 01 23", "80 55 86 C1 23 00 F6 00 00"),
    ("80 55 83 02 14 08", "80 55 85 C0 00 02 14 08"),
    ("80 55 82 01 23", "80 55 86 C1 23 00 00 A5 00"),
    ("80 55 83 02 14 10", "80 55 85 C0 00 02 14 10"),
    ("80 55 82 01 23", "80 55 86 C1 23 00 00 00 5A"),
    ("80 55 83 04 14 19", "80 55 85 C0 00 04 14 19"),
    ("80 55 82 01 23", "80 55 86 C1 23 00 F6 A5 5A"),
    ("80 55 83 02 25 FF", "80 55 85 C0 00 02 25 FF"),
    ("80 55 82 01 23", "80 55 86 C1 23 00 F6 A5 5A"),
    ("80 55 83 02 14 39", "refused 12"),
    ("80 55 83 01 23 00", "refused 8"),
    ("80 55 82 03 23", "refused 10"),
    ("80 55 83 04 11 11", "80 55 85 C0 00 04 11 11"),
    ("80 55 82 01 23", "80 55 86 C1 23 00 F6 11 5A"),
    ("80 55 83 02 14 06", "80 55 85 C0 00 02 14 06"),
    ("80 55 82 01 23", "80 55 86 C1 23 00 00 00 00"),
    ("80 55 81 81", "80 55 83 C0 00 81"),
    ("80 55 83 02 14 1F", "80 55 85 C0 00 02 14 1F"),
    ("80 55 82 01 23", "80 55 86 C1 23 00 00 00 00"),
)

# Write, Program, Set Default and Erase over the two copies, the rows and the slots.
STORE_RUN = (
    ("80 55 88 04 16 01 04 10 01 80 00", "80 55 8A C0 00 04 16 01 04 10 01 80 00"),
    ("80 55 88 02 16 02 FE 02 00 7F FF", "80 55 8A C0 00 02 16 02 FE 02 00 7F FF"),
    ("80 55 83 01 16 01", "80 55 88 C1 16 01 04 10 01 80 00"),
    ("80 55 83 03 16 01", "80 55 88 C2 16 01 04 10 01 80 00"),
    ("80 55 83 01 16 02", "80 55 88 C1 16 02 FE 02 00 7F FF"),
    ("80 55 83 03 16 02", "80 55 88 C2 16 02 FF 01 00 00 00"),
    ("80 55 86 04 10 FF FF FF FF", "80 55 88 C0 00 04 10 FF FF FF FF"),
    ("80 55 88 04 18 00 FF FF FF FF 00", "80 55 8A C0 00 04 18 00 FF FF FF FF 00"),
    ("80 55 88 04 18 27 01 02 03 04 05", "80 55 8A C0 00 04 18 27 01 02 03 04 05"),
    ("80 55 88 02 18 00 01 02 03 04 05", "refused 10"),
    ("80 55 83 03 18 00", "80 55 88 C2 18 00 FF FF FF FF 00"),
    ("80 55 88 04 18 00 00 00 00 00 00", "80 55 8A C0 00 04 18 00 00 00 00 00 00"),
    ("80 55 83 01 18 00", "80 55 88 C1 18 00 00 00 00 00 00"),
    ("80 55 83 04 25 21", "80 55 85 C0 00 04 25 21"),
    ("80 55 81 81", "80 55 83 C0 00 81"),
    ("80 55 83 03 16 01", "80 55 88 C2 16 01 FF 01 00 00 00"),
    ("80 55 83 01 16 02", "80 55 88 C1 16 02 FF 01 00 00 00"),
    ("80 55 82 01 25", "80 55 83 C1 25 00"),
    ("80 55 82 01 10", "80 55 86 C1 10 FF FF FF FF"),
    ("80 55 83 01 18 27", "80 55 88 C1 18 27 01 02 03 04 05"),
    ("80 55 82 82 00", "refused 8"),
    ("80 55 83 81 AB 7E", "refused 8"),
    ("80 55 83 01 18 27", "80 55 88 C1 18 27 01 02 03 04 05"),
    ("80 55 81 82", "80 55 83 C0 00 82"),
    ("80 55 83 03 18 27", "80 55 88 C2 18 27 00 00 00 00 00"),
    ("80 55 82 03 10", "80 55 86 C2 10 FF FF FF FF"),
)

# Lines and their line feeds; what is no line feed or space belongs to the line.
FORM_EXAMPLES = (
    ("", ""),
    ("\n", "refused 3\n"),
    ("\n\n", "refused 3\nrefused 3\n"),
    ("80", "refused 3\n"),
    ("80\n", "refused 3\n"),
    ("80\n\n", "refused 3\nrefused 3\n"),
    (" ", "not hex\n"),
    (" \n", "not hex\n"),
    ("80\r\n", "not hex\n"),
    ("80 ", "not hex\n"),
    ("80  55", "not hex\n"),
    ("8 0", "not hex\n"),
    ("8055", "not hex\n"),
    ("80 5a", "not hex\n"),
    ("00" + 199 * " 00", "refused 4\n"),  # 599 characters
    ("00" + 199 * " 00" + " ", "not hex\n"),
    ("00" + 200 * " 00", "not hex\n"),  # 602 characters
)


def check_examples(compare, rng):
    """The paper's examples, as the paper prints them, each in a run of its own."""
    for number, run in enumerate(EXAMPLES, 1):
        given = log_of(line.encode("ascii") for line, _ in run)
        printed = log_of(line.encode("ascii") for _, line in run)
        compare.literal(f"example {number}", given, printed)
        if given != b"\n":  # which is the blank line; without it there is none
            compare.literal(f"example {number} without last line feed", given[:-1], printed)


def check_closed_runs(compare, rng):
    """Runs whose output was worked out by hand."""
    runs = {
        "factory reads": FACTORY_READS,
        "name": NAME_RUN,
        "status": STATUS_RUN,
        "stores": STORE_RUN,
    }
    for name, run in runs.items():
        given = log_of(line.encode("ascii") for line, _ in run)
        compare.literal(name, given, log_of(line.encode("ascii") for _, line in run))
    for given, printed in FORM_EXAMPLES:
        compare.literal("forms of a line", given.encode("ascii"), printed.encode("ascii"))


# ---- Commands, items, indexes and values -----------------------------------------------------


def check_commands(compare, rng):
    """Each command code, alone and with more bytes: first those of a served item, then others."""
    tail = b"\x15\x03\x01\x02\x03\x04\x05\x06"
    for high in range(16):
        lines = []
        for code in range(16 * high, 16 * high + 16):
            lines += [command(code, tail[:size]) for size in range(len(tail) + 1)]
            lines += [command(code, rng.randbytes(size)) for size in (1, 2, 6, 7, 126)]
        compare.log(f"commands {high:X}0 to {high:X}F", guarded(lines))


def check_items(compare, rng):
    """Each item code with each command, in lengths around those that some command has."""
    for code in (READ, WRITE, READ_NV, PROGRAM):
        lines = []
        for item in range(256):
            known = reference.ITEMS.get(item)
            longest = 2 + known.indexed + known.value_bytes + 2 if known else 4
            payload = bytes([item, 0x01]) + bytes(rng.randrange(1, 6) for _ in range(longest))
            lines += [command(code, payload[:size]) for size in range(1, longest)]
        compare.log(f"items with command {code:02X}", guarded(lines))


# Items of each kind, each with a value that is accepted and one that isn't, if there are such.
GOOD_AND_BAD = {
    0x01: ("41 00",),
    0x10: ("00 00 00 00",),
    0x13: ("0A", "0B"),
    0x15: ("06", "07"),
    0x16: ("05 01 00 00 00", "05 00 00 00 00"),
    0x17: ("00",),
    0x18: ("01 00 00 00 00", "00 00 00 00 01"),
    0x25: ("FF",),
    0x26: ("00",),
}


def check_broken_rules(compare, rng):
    """Each command with good and bad items, indexes, values and lengths in every combination."""
    lines = []
    for (item, values), code in itertools.product(GOOD_AND_BAD.items(), range(6)):
        indexes = (b"",)
        if item in (0x16, 0x18):
            indexes = (b"\x00", b"\x01", b"\x02", b"\x03", b"\x27", b"\x28", b"\xff")
        for index, value in itertools.product(indexes, values):
            payload = bytes([item]) + index + bytes.fromhex(value) + b"\x01\x00"
            lines += [command(code, payload[:size]) for size in range(len(payload) + 1)]
    compare.log("broken rules", guarded(lines))


def check_indexes(compare, rng):
    """Each index byte of 16 and 18, with each command, up, down and in a random order."""
    orders = [range(256), range(255, -1, -1), rng.sample(range(256), 256)]
    for variant, order in enumerate(orders):
        lines = []
        for index in order:
            row = bytes([0x04 + index % 4, 0x10 - index % 16, 0x01, index, variant])
            for code in (WRITE, READ, READ_NV, PROGRAM, READ, READ_NV):
                value = code in (WRITE, PROGRAM)
                lines.append(command(code, 0x16, index, row if value else b""))
                slot = bytes([index, variant + 1, 0x55, 0xAA, 0xFF - index])
                lines.append(command(code, 0x18, index, slot if value else b""))
        compare.log(f"indexes, order {variant + 1}", guarded(lines))
        slots = [command(PROGRAM, 0x18, i, slot_value(i, variant)) for i in order if i < 40]
        compare.log(f"slots, order {variant + 1}", guarded(slots))


def check_neighbours(compare, rng):
    """Each cell that a command stores, alone, on otherwise untouched cells: all of them are shown
    afterwards."""
    for item in ONE_BYTE_SETTINGS:
        for code in (WRITE, PROGRAM):
            compare.log(f"item {item:02X} alone", log_of([command(code, item, 0x01)] + dump()))
    for number, code in itertools.product(INPUTS, (WRITE, PROGRAM)):
        line = command(code, 0x16, number, b"\x07\x10\x01\x12\x34")
        compare.log(f"row {number} alone", log_of([line] + dump()))
    for index in (0, 1, 2, 19, 38, 39):
        line = command(PROGRAM, 0x18, index, slot_value(index))
        compare.log(f"slot {index} alone", log_of([line] + dump()))
    compare.log("address alone", log_of([command(PROGRAM, 0x10, b"\x01\x02\x03\x04")] + dump()))
    for code in (SET_DEFAULT, ERASE_ALL_ADDRESSES):
        compare.log(f"command {code:02X} alone", guarded([command(code)]))


def check_one_byte_values(compare, rng):
    """Each value of each one-byte item, by Write and by Program, shown by Read and Read NV."""
    for item in ONE_BYTE_SETTINGS:
        lines = []
        for value in range(256):
            for code, given in ((WRITE, value), (PROGRAM, value), (WRITE, 255 - value)):
                lines += [command(code, item, given), command(READ, item), command(READ_NV, item)]
        compare.log(f"values of item {item:02X}", guarded(lines))


def analog_input_values():
    """Values of 16: each byte of channel, readings and reference by itself, then the edges of all
    of them together."""
    for byte in range(256):
        yield bytes([byte, 0x01, 0x00, 0x00, byte])
        yield bytes([0x04, byte, 0x01, byte, 0x00])
        yield bytes([0xFE, 0x10, byte, 0xFF, byte])
    channels = (0x00, 0x03, 0x04, 0x05, 0x06, 0x07, 0x08, 0xFD, 0xFE, 0xFF)
    for first_three in itertools.product(channels, (0, 1, 2, 15, 16, 17, 255), (0, 1, 2, 255)):
        for offset in (b"\x00\x00", b"\x7f\xff", b"\x80\x00", b"\xff\xff"):
            yield bytes(first_three) + offset


def check_analog_input_values(compare, rng):
    """Each of them stored in one row by Write or Program; the other row is looked at too."""
    lines = []
    for value in analog_input_values():
        number = rng.choice(INPUTS)
        lines.append(command(rng.choice((WRITE, PROGRAM)), 0x16, number, value))
        lines += [command(READ, 0x16, number), command(READ_NV, 0x16, number)]
        lines.append(command(rng.choice((READ, READ_NV)), 0x16, 3 - number))
    compare.log("values of analog inputs", guarded(lines))


def check_slot_values(compare, rng):
    """The zero address, all ones, and addresses with one byte set, with masks of each kind."""
    values = [bytes(4) + bytes([mask]) for mask in range(256)]
    values += [b"\xff\xff\xff\xff" + bytes([mask]) for mask in (0x00, 0x01, 0xFF)]
    for place, byte, mask in itertools.product(range(4), (0x01, 0x80, 0xFF), (0x00, 0x01, 0xFF)):
        values.append(bytes([byte if at == place else 0 for at in range(4)] + [mask]))
    lines = []
    for number, value in enumerate(values + values[::-1]):
        index = number % 40
        lines += [command(PROGRAM, 0x18, index, value), command(READ, 0x18, index)]
        lines.append(command(READ_NV, 0x18, index))
    compare.log("values of slots", guarded(lines))


def check_addresses(compare, rng):
    """Item 10 takes every address; its single cell is shown by both reads."""
    lines = []
    for place, byte in itertools.product(range(4), range(0, 256, 5)):
        value = bytes([byte if at == place else rng.randrange(256) for at in range(4)])
        lines += [command(PROGRAM, 0x10, value), command(READ, 0x10), command(READ_NV, 0x10)]
    compare.log("addresses", guarded(lines))


def check_status(compare, rng):
    """Item 23 after each control word, with values that differ from those of the hardware."""
    read = command(READ, 0x23)
    lines = []
    for control, code in itertools.product(range(32), (WRITE, PROGRAM)):
        values = [(0x11, 0x40 + control), (0x12, 0x80 + control), (0x13, 1 + control % 10)]
        values += [(0x25, 0xFF), (0x14, control)]
        lines += [command(code, item, value) for item, value in values]
        lines += [read, command(WRITE, 0x11, 0xE0 + control), read]
        lines += [command(PROGRAM, 0x13, 0xEC + control % 20), read]
        lines += [command(ERASE_ALL_ADDRESSES), read, command(READ, 0x14), command(READ_NV, 0x14)]
        lines += [command(SET_DEFAULT), read]
        lines += [command(code, 0x14, control), read, command(WRITE, 0x12, 0x77), read]
        lines.append(command(PROGRAM, 0x18, control, slot_value(control, 1)))
        if control % 8 == 7:
            lines += dump()
    compare.log("status", guarded(lines))


# ---- Frames ----------------------------------------------------------------------------------

FRAME_PAYLOADS = tuple(
    bytes.fromhex(text)
    for text in ("81", "01 15", "02 15 03", "04 18 27 01 02 03 04 05", "01 16 02", "05 15", "01 17")
)


def check_wakes(compare, rng):
    """Each number of wake bytes, alone, with the next byte, and with the rest of a frame."""
    lines = []
    for wake in range(20):
        start = b"\x80" + wake * b"\xff"
        blocks = [start, start + b"\x55", start + b"\x54", start + b"\x55\x80", start + b"\x55\x82"]
        blocks += [frame(wake, payload) for payload in FRAME_PAYLOADS]
        blocks += [start + byte + frame(0, b"\x01\x15") for byte in (b"\x00", b"\x55")]
        lines += map(text_of, blocks)
    compare.log("wake bytes", guarded(lines))


def check_damaged_frames(compare, rng):
    """Frames that are cut, lengthened, or lack or repeat one byte."""
    lines = []
    for payload, wake in itertools.product(FRAME_PAYLOADS, (0, 1, 2, 15, 16, 17)):
        whole = frame(wake, payload)
        blocks = [whole[:size] for size in range(len(whole) + 1)]
        blocks += [whole + bytes(size) for size in (1, 2, 100)] + [whole + whole, whole + b"\xff"]
        for place in range(len(whole)):
            blocks.append(whole[:place] + whole[place + 1 :])
            blocks.append(whole[:place] + whole[place : place + 1] + whole[place:])
        lines += map(text_of, blocks)
    compare.log("damaged frames", guarded(lines))


def check_frame_bytes(compare, rng):
    """Each byte in the place of the first, of a wake byte and of 55."""
    blocks = []
    for byte, wake in itertools.product(range(256), (0, 1, 15, 16)):
        whole = frame(wake, b"\x01\x15")
        for place in {0, 1, wake, wake + 1}:
            blocks.append(whole[:place] + bytes([byte]) + whole[place + 1 :])
        blocks.append(whole[: wake + 1] + bytes([byte]))
        blocks.append(bytes([byte]))
    compare.log("bytes of a frame's start", guarded(map(text_of, blocks)))


def check_length_bytes(compare, rng):
    """Each length byte with no payload, one byte too few, right, one too many."""
    blocks = []
    for byte, wake in itertools.product(range(256), (0, 16)):
        start = b"\x80" + wake * b"\xff" + b"\x55" + bytes([byte])
        length = byte % 128
        for size in sorted({0, max(length - 1, 0), length, length + 1}):
            blocks.append(start + (b"\x02\x15\x03" + rng.randbytes(size))[:size])
            blocks.append(start + rng.randbytes(size))
    compare.log("length bytes", guarded(map(text_of, blocks)))


def check_long_payloads(compare, rng):
    """Payloads of each length up to 127, with each served command and with items of each kind."""
    starts = ("01 15", "02 15 03", "03 01", "04 01", "04 18 05", "02 16 01", "81", "82", "01 24")
    lines = []
    for size, start in itertools.product(range(1, 128), map(bytes.fromhex, starts)):
        payload = start + bytes(rng.randrange(1, 5) for _ in range(size))
        lines.append(text_of(frame(size % 17, payload[:size])))
    compare.log("long payloads", guarded(lines))


# ---- Lines that are no block -----------------------------------------------------------------

def check_hostile_lines(compare, rng):
    """Lines of other forms, between commands that they must leave in peace."""
    lines = []
    for number, line in enumerate(HOSTILE_LINES):
        lines += [line, command(WRITE, 0x11, number), line, b"", command(READ, 0x11)]
    compare.log("hostile lines", guarded(lines))
    for ending in (*HOSTILE_LINES, b"80 55 82 01 15", b""):
        compare.log("a last line without line feed", log_of(fill_cells()) + ending)


def check_changed_lines(compare, rng):
    """A good line with each character replaced by each byte, left out, doubled or with another
    before it. A line feed among them makes two lines."""
    good = b"80 55 83 02 11 9A"
    lines = []
    for place in range(len(good) + 1):
        before, here, after = good[:place], good[place : place + 1], good[place + 1 :]
        lines += [before + after, before + here + here + after]
        lines += [before + bytes([byte]) + after for byte in range(256)]
        lines += [before + bytes([byte]) + here + after for byte in b" 0Fa\r\n\t\x00"]
        lines.append(command(READ, 0x11))
    compare.log("changed lines", guarded(lines))


def check_letters(compare, rng):
    """Every short line over a few characters, every single byte, and pairs with each byte."""
    lines = []
    for size in range(7):
        lines += map(bytes, itertools.product(b"0A f", repeat=size))
    lines += [bytes([byte]) for byte in range(256)]
    lines += [bytes([byte, other]) for byte in range(256) for other in b"0F\xff"]
    lines += [b"8" + bytes([byte]) for byte in range(256)]
    compare.log("short lines", guarded(lines))


def check_empty_input(compare, rng):
    """No line at all, blank lines alone, and blank lines enough for several reads and writes."""
    for count in (0, 1, 2, 3, 600, 601, 4096, 65537):
        compare.log(f"{count} line feeds", count * b"\n")
    compare.log("line feeds and a line", 6554 * b"\n" + command(READ, 0x15))


# ---- Borders of the input and of the output --------------------------------------------------


def places(size):
    """Starts of a line of that size for which it begins or ends at the border, or its line feed
    or its 600th character lies there, one before and one after."""
    edges = (0, -size, -size // 2, -599, -600)
    return sorted({edge + step for edge in edges for step in (-1, 0, 1)})


def check_border_lines(compare, rng):
    """Lines of about the longest size, with a border at each place that could matter."""
    for size in range(584, 612):
        for name, text in (("hex", hex_text), ("broken", broken_text)):
            placed = [(text(rng, size), place) for place in places(size)]
            log = border_log(rng, placed) + log_of(dump())
            compare.log(f"{name} lines of {size} characters at borders", log)


def check_border_commands(compare, rng):
    """Commands with a border at each of their characters: what they echo shows a lost one."""
    for wake in (0, 16):
        size = len(command(PROGRAM, 0x18, 0, slot_value(0), wake=wake))
        placed = []
        for place in range(-size - 2, 3):
            index = rng.randrange(40)
            value = slot_value(index, rng.randrange(64))
            placed.append((command(PROGRAM, 0x18, index, value, wake=wake), place))
        compare.log("commands at borders", border_log(rng, placed) + log_of(dump()))
    for ending in (b"", b"\n", b"\n\n", b"8", b"80 55 82 01 15"):
        for place in (-2, -1, 0, 1):
            log = padding(rng, BORDER + place) + ending
            compare.log("the end of the input at a border", log)
            compare.log("the end of the input at a border", log + command(READ, 0x23))


def check_very_long_lines(compare, rng):
    """Lines longer than one read or several, which end before, at or after a border. Some have
    a size that is short without its upper bits."""
    read = b"\n" + command(READ, 0x14)
    for size in (1000, 4096, 65535, 65536, 65550, 66135, 70_000, 131_086, 200_000):
        for text in (hex_text(rng, size), size * b" ", size * b"0", size * b"\x00"):
            log = log_of(fill_cells()) + text
            for ending in (b"", b"\n", read, read + b"\n"):
                compare.log(f"a line of {size} characters", log + ending)
    for size, place in itertools.product((601, 65000, 70_000, 200_000), (-2, -1, 0, 1)):
        start = 4 * BORDER - size + place
        log = padding(rng, start) + hex_text(rng, size) + read
        compare.log("an over-long line that ends at a border", log)
        compare.log("over-long lines one after the other", log + read + b"\n" + size * b"0" + read)


def check_output_sizes(compare, rng):
    """Outputs that end shortly before, at and after a round size."""
    program = command(PROGRAM, 0x18, 0x27, b"\x01\x02\x03\x04\x05") + b"\n"
    programmed = b"80 55 8A C0 00 04 18 27 01 02 03 04 05\n"
    read_nv = command(READ_NV, 0x25) + b"\n"
    steps = (*range(-130, -60, 6), *range(-66, -63), *range(-60, -2, 6), *range(-2, 3), 10, 66)
    for target in (size + step for size in (4096, 65536) for step in steps):
        whole = (target - 200) // len(programmed)
        rest = target - whole * len(programmed)
        # the rest in lines of 11 and of 10 bytes
        elevens = rest % 10
        tens = (rest - 11 * elevens) // 10
        log = whole * program + elevens * read_nv + tens * b"\n"
        expected = whole * programmed + elevens * b"refused 10\n" + tens * b"refused 3\n"
        compare.literal(f"{len(expected)} bytes of output", log, expected)


# ---- Long sequences --------------------------------------------------------------------------


def check_random_sequences(compare, rng):
    """Sequences in which most commands are accepted and meet what earlier ones have stored."""
    for number in range(8):
        lines = [random_line(rng) for _ in range(2500)]
        compare.log(f"random sequence {number + 1}", log_of(lines + dump()))


def check_pieces(compare, rng):
    """The same log as a file and through a pipe, in pieces that cut lines anywhere."""
    small = log_of([random_line(rng) for _ in range(40)] + list(HOSTILE_LINES))
    compare.pieces("a small log", small + command(READ, 0x15), (1, 2, 3, 7))
    compare.pieces("an empty log", b"", (1,))
    compare.pieces("a long line", hex_text(rng, 700) + b"\n" + command(READ, 0x15), (1, 599))
    middle = log_of([random_line(rng) for _ in range(400)] + dump())
    compare.pieces("a middle log", middle, (7, 61, 599, 600, 601, 4096))
    placed = [(hex_text(rng, size), -size // 2) for size in range(590, 606)]
    large = border_log(rng, placed) + log_of(dump())
    compare.pieces("a large log", large, (599, 4095, 4096, 65535, 65536))


# ---- Reads and writes that fail --------------------------------------------------------------


def check_failing_reads(compare, rng):
    """A read that fails ends the program: the lines before it are answered, and what is left after
    the last line feed is not taken for a last line."""
    what = "input cannot be read"
    folder = os.open("/", os.O_RDONLY)
    run = run_on_descriptors(compare.program, folder, subprocess.PIPE)
    compare.failing("a folder as the input", b"", b"", run, what, errno.EISDIR)
    whole = log_of([random_line(rng) for _ in range(20)])
    rests = (b"", b"8", command(READ, 0x15), b" ", hex_text(rng, 600), hex_text(rng, 700))
    for lines, rest in itertools.product((b"", b"\n", whole), rests):
        log = lines + rest
        run = run_on_descriptors(compare.program, broken_input(log), subprocess.PIPE)
        name = f"an input that breaks off after {len(log)} bytes"
        compare.failing(name, log, reference.replay(lines), run, what, errno.EIO)


def check_failing_writes(compare, rng):
    """A write that fails ends the program; without a line nothing is written."""
    what = "output cannot be written"
    large = log_of([random_line(rng) for _ in range(5000)])
    for path, flag, error in (
        ("/dev/full", os.O_WRONLY, errno.ENOSPC),
        ("/dev/null", os.O_RDONLY, errno.EBADF),
    ):
        for log in (b"\n", command(READ, 0x15), large):
            with tempfile.TemporaryFile() as given:
                given.write(log)
                given.seek(0)
                output = os.open(path, flag)
                run = run_on_descriptors(compare.program, os.dup(given.fileno()), output)
            compare.failing(f"{path} as the output", log, b"", run, what, error)
        output = os.open(path, flag)
        run = run_on_descriptors(compare.program, os.open("/dev/null", os.O_RDONLY), output)
        compare.compare(f"no line, and {path} as the output", b"", b"", run)


# ---- One line at a time ----------------------------------------------------------------------

MANY = 100_050  # lines, each of which is a read and a print of its own


def answered(process, line):
    """Hands a running program one line, and waits for what it prints."""
    with contextlib.suppress(BrokenPipeError):  # then nothing is printed
        process.stdin.write(line + b"\n")
    printed = b""
    while not printed.endswith(b"\n"):
        more = process.stdout.read(4096)
        if not more:
            break
        printed += more
    return printed


def check_many_reads(compare, rng):
    """Lines of which each is written only once the response to the one before was read."""
    lines = [command(WRITE, 0x11, value) for value in range(256)]
    wanted = reference.replay(log_of(lines)).splitlines(keepends=True)
    with started(compare.program) as process:
        for number in range(MANY):
            printed = answered(process, lines[number % 256])
            if printed != wanted[number % 256]:
                raise Problem(f"line {number + 1} of {MANY}, one at a time: {printed!r}")
        process.stdin.close()
        run = Run(process.stdout.read(), process.stderr.read(), process.wait())
    compare.compare("the end of many reads", b"", b"", run)
    compare.lines += MANY


TURNS = "const TURNS_MAX: u64 = u64::MAX;"
BOTH = "runners=2"  # `rt try` runs a program on an interpreter and compiled, and both gave the same


def program_with_turns(folder, turns):
    """The sources with a program that makes at most this many turns; returns the program's folder."""
    left_out = shutil.ignore_patterns("must-fail", "proofs", "specs", "out")
    shutil.copytree(ROOT / "crates", folder / "crates", ignore=left_out)
    shutil.copy(ROOT / "crates.txt", folder)
    crate = folder / "crates" / "replay"
    source = crate / "src" / "main.rt"
    text = source.read_text(encoding="utf-8")
    if text.count(TURNS) != 1:
        raise Problem(f"{source.name} does not have '{TURNS}' once")
    source.write_text(text.replace(TURNS, f"const TURNS_MAX: u64 = {turns};"), encoding="utf-8")
    return crate


def check_turns_used(compare, rng):
    """A program whose turns are used up says so. The prover refuses one with fewer turns, so it is run
    without proof. Its second turn answers the first line; the last one, without a line feed, needs a third.
    """
    line, answer = "80 55 82 01 15", "80 55 83 C1 15 00\n"
    with tempfile.TemporaryDirectory() as folder:
        crate = program_with_turns(pathlib.Path(folder), 2)
        words, log = ["rt", "try"], f"{line}\n{line}"
        done = subprocess.run(words, cwd=crate, input=log, capture_output=True, text=True, timeout=PATIENCE)
    message = "replay: stopped after 18446744073709551615 turns, with input left\n"
    if (done.returncode, done.stdout) != (0, answer) or not done.stderr.startswith(message) or BOTH not in done.stderr:
        raise Problem(f"two turns are used up, and `rt try` says:\n{done}")
    compare.lines += 1


# ---- The script ./replay ---------------------------------------------------------------------


def run_script(redirections, log):
    """Runs ./replay from a shell, with the log as its input and these redirections."""
    with tempfile.TemporaryFile() as given:
        given.write(log)
        given.seek(0)
        words = ["sh", "-c", f'exec "$0" {redirections}', WRAPPER]
        done = subprocess.run(words, stdin=given, capture_output=True, timeout=PATIENCE)
    return Run(done.stdout, done.stderr, done.returncode)


def check_script_status(compare, rng):
    """0 if the log was answered; 1 if there was a message, also where nobody can read it."""
    unread = f"replay: standard input cannot be read: {os.strerror(errno.EISDIR)}\n"
    closed = f"replay: standard output cannot be written: {os.strerror(errno.EBADF)}\n"
    full = f"replay: standard output cannot be written: {os.strerror(errno.ENOSPC)}\n"
    log = log_of([random_line(rng) for _ in range(200)])
    compare.compare("./replay", log, reference.replay(log), run_script("", log))
    for redirections, given, message, status in (
        ("</", log, unread, 1),
        ("</ 2>&-", log, "", 1),
        ("<&-", log, "replay: standard input is closed\n", 1),
        (">&-", log, closed, 1),
        (">&- 2>&-", log, "", 1),
        (">/dev/full", log, full, 1),
        (">&-", b"", "", 0),
        ("2>&-", b"", "", 0),
    ):
        name = f"./replay {redirections} on {len(given)} bytes"
        run = run_script(redirections, given)
        compare.compare(name, b"", b"", run, message.encode("ascii"), status)


def check_script_arguments(compare, rng):
    """Help is printed on demand. An argument is refused, since the log is standard input."""
    with tempfile.NamedTemporaryFile() as file:
        for words, status in (
            (("-h",), 0),
            (("--help",), 0),
            ((file.name,), 2),
            (("-",), 2),
            (("--version",), 2),
            (("",), 2),
            (("--help", "--help"), 2),
        ):
            done = subprocess.run([WRAPPER, *words], stdin=subprocess.DEVNULL, capture_output=True)
            said, silent = done.stdout, done.stderr
            if status != 0:
                said, silent = silent, said
            if done.returncode != status or not said.startswith(b"usage: ") or silent:
                raise Problem(f"./replay {words}: {done}")


def check_script_links(compare, rng):
    """The script is found through symbolic links, and from any folder."""
    log = log_of(fill_cells())
    with tempfile.TemporaryDirectory() as folder:
        os.makedirs(f"{folder}/a/b")
        os.symlink(WRAPPER, f"{folder}/a/absolute")
        os.symlink("../absolute", f"{folder}/a/b/relative")
        os.symlink(f"{folder}/a/b", f"{folder}/linked")
        os.symlink(ROOT, f"{folder}/repository")
        for path in ("a/absolute", "a/b/relative", "linked/relative", "repository/replay"):
            run = run_on_file(f"{folder}/{path}", log)
            compare.compare(f"./replay as {path}", log, reference.replay(log), run)
        write_program(f"{folder}/other/{BUILT}", "echo other")
        stand_in(f"{folder}/other")
        os.symlink("../../other/replay", f"{folder}/a/b/other")
        if run_on_file(f"{folder}/linked/other", b"") != Run(b"other\n", b"", 0):
            raise Problem("./replay is not found by a relative link in a linked folder")
        words = ["sh", "-c", 'cd "$0" && PATH=.:$PATH && absolute', f"{folder}/a"]
        done = subprocess.run(words, input=log, capture_output=True, timeout=PATIENCE)
        run = Run(done.stdout, done.stderr, done.returncode)
        compare.compare("./replay by the PATH", log, reference.replay(log), run)


def check_script_terminal(compare, rng):
    """At a terminal the script says what it waits for, which is no failure."""
    user, terminal = os.openpty()
    with started(WRAPPER, terminal) as process:
        os.close(terminal)
        said = process.stderr.read(4096)
        os.write(user, command(READ, 0x15) + b"\n")
        printed = process.stdout.read(4096)
        os.write(user, b"\x04")  # Ctrl-D
        run = Run(printed + process.stdout.read(), process.stderr.read(), process.wait())
    os.close(user)
    if not said.startswith(b"replay: waiting for command blocks") or said.count(b"\n") != 1:
        raise Problem(f"at a terminal ./replay says {said!r}")
    log = command(READ, 0x15)
    compare.compare("./replay at a terminal", log, reference.replay(log), run)


def check_script_signals(compare, rng):
    """Ctrl-C, which goes to all processes, and signals to the script alone end script and program. A
    reader that closes the output is a write that fails."""
    for send, number in (
        (os.killpg, signal.SIGINT),
        (os.kill, signal.SIGINT),
        (os.kill, signal.SIGTERM),
        (os.kill, signal.SIGHUP),
    ):
        with started(WRAPPER) as process:
            answered(process, command(READ, 0x15))
            send(process.pid, number)
            left = process.stdout.read()  # comes to an end once the program has ended
            if left or process.wait() != -number:
                raise Problem(f"./replay after signal {number}: {left!r}, {process.returncode}")
    with started(WRAPPER) as process:
        answered(process, command(READ, 0x15))
        process.stdout.close()
        process.stdin.write(command(READ, 0x15) + b"\n")
        message = f"replay: standard output cannot be written: {os.strerror(errno.EPIPE)}\n"
        if process.stderr.read() != message.encode("ascii") or process.wait() != 1:
            raise Problem(f"./replay after its reader has gone: {process.returncode}")


# ---- The script around another program -------------------------------------------------------


def write_program(path, text):
    """A shell script that can be run."""
    os.makedirs(os.path.dirname(path), exist_ok=True)
    with open(path, "w", encoding="ascii") as file:
        file.write(f"#!/bin/sh\n{text}\n")
    os.chmod(path, 0o755)


BUILT = "crates/replay/out/replay"


def stand_in(folder):
    """A copy of the script, with one old source; the program is to be written."""
    os.makedirs(f"{folder}/crates/replay", exist_ok=True)
    shutil.copy(WRAPPER, folder)
    for path in (f"{folder}/crates.txt", f"{folder}/crates/replay/source"):
        with open(path, "w", encoding="ascii"):
            pass
        os.utime(path, (1, 1))
    os.utime(f"{folder}/crates", (1, 1))
    return f"{folder}/replay"


def check_script_messages(compare, rng):
    """A message reaches standard error while the program still runs, also one without a line feed. A
    program that is killed is no success."""
    with tempfile.TemporaryDirectory() as folder:
        script, program = stand_in(folder), f"{folder}/{BUILT}"
        write_program(program, "echo 'replay: one' >&2\nread line\nprintf 'replay: \\\\ two' >&2")
        with started(script) as process:
            first = process.stderr.read(4096)
            process.stdin.close()
            came = first, process.stderr.read(), process.wait()
        if came != (b"replay: one\n", b"replay: \\ two\n", 1):
            raise Problem(f"./replay passes messages on as {came}")
        write_program(program, "kill -KILL $$")
        status = run_on_file(script, b"").status
        if status != 128 + signal.SIGKILL:
            raise Problem(f"./replay ends with {status} where its program is killed")


def check_script_builds(compare, rng):
    """The program is built where there is none or a source is newer; the log is named by its path."""
    with tempfile.TemporaryDirectory() as folder:
        script, log = stand_in(folder), f"{folder}/target/replay.log"
        build = "mkdir -p out && printf '#!/bin/sh\\ncat\\n' >out/replay"
        write_program(f"{folder}/bin/rt", f"[ \"$*\" = run ] && {build} && chmod +x out/replay")
        building = f"replay: proving and building the program, about two minutes; the log is {log}\n"
        failed = f"replay: the program could not be proved and built; see {log}\n"
        missing = "replay: 'rt' is not on the PATH; building needs the Rattle toolchain\n"
        path = {"PATH": f"{folder}/bin:{os.environ['PATH']}"}

        def expect(name, text, said, status, environment=path):
            words = [shutil.which("sh"), script]
            done = subprocess.run(words, input=b"text", capture_output=True, env=environment, timeout=PATIENCE)
            came = done.stdout, done.stderr.decode("ascii"), done.returncode
            if came != (text, said, status):
                raise Problem(f"./replay, {name}: {came}, expected {(text, said, status)}")

        expect("first use", b"text", building, 0)
        expect("second use", b"text", "", 0)
        os.utime(f"{folder}/crates/replay/source", (2**32, 2**32))
        expect("a newer source", b"text", building, 0)
        write_program(f"{folder}/bin/rt", "exit 1")
        expect("a build that fails", b"", building + failed, 1)
        os.remove(f"{folder}/bin/rt")
        for tool in ("dirname", "find"):
            os.symlink(shutil.which(tool), f"{folder}/bin/{tool}")
        expect("no toolchain", b"", missing, 1, {"PATH": f"{folder}/bin"})


# ---- The run ---------------------------------------------------------------------------------

CHECKS = (
    check_examples,
    check_closed_runs,
    check_commands,
    check_items,
    check_broken_rules,
    check_indexes,
    check_neighbours,
    check_one_byte_values,
    check_analog_input_values,
    check_slot_values,
    check_addresses,
    check_status,
    check_wakes,
    check_damaged_frames,
    check_frame_bytes,
    check_length_bytes,
    check_long_payloads,
    check_hostile_lines,
    check_changed_lines,
    check_letters,
    check_empty_input,
    check_border_lines,
    check_border_commands,
    check_very_long_lines,
    check_output_sizes,
    check_random_sequences,
    check_pieces,
    check_failing_reads,
    check_failing_writes,
    check_many_reads,
    check_turns_used,
    check_script_status,
    check_script_arguments,
    check_script_links,
    check_script_terminal,
    check_script_signals,
    check_script_messages,
    check_script_builds,
)

LEAST_SEEN = 100  # of each refusal
REFUSALS = sorted(OWN["replay"])


def check_coverage(compare):
    """Every refusal and every permitted command was seen; else the logs above are too thin."""
    for refusal in REFUSALS:
        if compare.refused[refusal] < LEAST_SEEN:
            raise Problem(f"refusal {refusal} was seen {compare.refused[refusal]} times only")
    never = permitted_commands() - set(compare.accepted)
    if never:
        raise Problem(f"commands and items never accepted: {never}")


def run_checks(compare, checks):
    for check in checks:
        before = compare.lines
        try:
            check(compare, random.Random(SEED))
        except subprocess.TimeoutExpired:
            raise Problem(f"the program doesn't come to an end in {check.__name__}") from None
        print(f"{check.__name__}: {compare.lines - before} lines")


def main(checks, whole):
    compare = Comparison(runnable(REPLAY))
    run_checks(compare, checks)
    if whole:
        check_coverage(compare)
    refused = ", ".join(f"{number}: {compare.refused[number]}" for number in REFUSALS)
    print(
        f"{compare.lines} lines of {compare.bytes} bytes agreed: "
        f"{sum(compare.accepted.values())} accepted by {len(compare.accepted)} commands and items, "
        f"{compare.not_hex} not hex, refused {refused}"
    )


if __name__ == "__main__":
    run_test(CHECKS, main)

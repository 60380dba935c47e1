#!/usr/bin/env python3
"""Compares every entry of the Freestar library with freestar_reference.py, call by call.

`./sdk` builds the library, target/sdk/lib/libfreestar.so. Its entries are called over the messages whose
checksum source document 004 prints and over cases whose outcome is written out by hand; over every type,
data length, length byte, PAN ID, channel and length of a buffer; over messages that are cut, lengthened or
damaged, and over several faults at once; and over random messages and sequences of a fixed seed. Every field
returned and every byte of the settings, of the inputs and of the buffers afterwards are compared; each of
them lies between guard bytes. What is written is read back, what is read is written again, and each answer is
read as the answer to its message. The first difference ends the run with exit status 1.
"""

import collections
import functools
import itertools
import operator
import sys

sys.dont_write_bytecode = True  # leaves no files beside the tests

from freestar_entries import (
    ANSWERS,
    SIGNATURES,
    Comparison,
    Message,
    load_entries,
    mended,
    packed,
    packet,
    unpacked,
)
from freestar_reference import (
    ACCEPTED,
    FRAME_BUFFER_SHORT,
    PACKET_CONTENT,
    PACKET_ENDS,
    PACKET_LENGTH,
    PACKET_SUM,
    PAN_ID_OVER,
)
from library import WRAPS, filler, run_test, with_byte
from refusals import OWN

SEED = 20240011

# The types that are served, with their data bytes: what the host sends, and what the radio sends.
HOST = {0x01: 2, 0x02: 0, 0x03: 10, 0x04: 0, 0x05: 1, 0x06: 0, 0x18: 0}
RADIO = {0x81: 0, 0x82: 2, 0x83: 0, 0x84: 10, 0x85: 0, 0x86: 1, 0x98: 0}
SERVED = {**HOST, **RADIO}

# What is set, and what asks for it.
SET_AND_QUERY = ((0x01, 0x02), (0x03, 0x04), (0x05, 0x06))
WITH_PAN_ID = (0x01, 0x82)

LONGEST = 15  # bytes: an address
LIMIT = 16384  # the least PAN ID that is refused

# Settings that are no reason to refuse, and PAN IDs that are, low byte first.
ZEROS = unpacked(bytes(13))
SETTINGS = unpacked(bytes.fromhex("34 12 A1 A2 A3 A4 A5 A6 A7 A8 51 52 1A"))
OVER = [bytes.fromhex(text) for text in ("00 40", "34 52", "FF 7F", "00 80", "34 92", "00 C0", "FF FF")]


def expect(compare, block, refusal):
    """A block with the number that the reader gives, or 0. The step gives the same, with settings and a
    buffer that are no reason to refuse, but 27 for a type that the radio sends."""
    from_radio = refusal in (ACCEPTED, PAN_ID_OVER) and block[2] in RADIO
    wanted = refusal, PACKET_CONTENT if from_radio else refusal
    came = compare.judge(SETTINGS, block, filler(20))
    compare.same("the refusals of reader and step", wanted, came, block=block)


# ---- The messages of 004 ---------------------------------------------------------------------

# Each message of 004 whose checksum is printed, by the heading of its section: the bytes as they are
# printed, and what the reader gives. These are all the messages without data.
DOCUMENT_004 = (
    ("Set PAN ID Acknowledged", "01 05 81 87 04", ACCEPTED),
    ("Query PAN ID", "01 05 02 08 04", ACCEPTED),
    ("Set Transceiver Address Acknowledged", "01 05 83 89 04", ACCEPTED),
    ("Query Transceiver Address", "01 05 04 0A 04", ACCEPTED),
    ("Set RF Channel Acknowledged", "01 05 85 8B 04", ACCEPTED),
    ("Query RF Channel", "01 05 06 0C 04", ACCEPTED),
    ("Enable Enable/Disable Receive All RF Messages Acknowledged", "01 05 87 8D 04", PACKET_CONTENT),
    ("Query Receive All RF Messages Status", "01 05 08 0E 04", PACKET_CONTENT),
    ("Enable/Disable RF Acknowledgements And Retries Acknowledged", "01 05 89 8F 04", PACKET_CONTENT),
    ("Query RF Acknowledgements And Retries Status", "01 05 0A 10 04", PACKET_CONTENT),
    ("Set Radio Features And Options Acknowledged", "01 05 8B 91 04", PACKET_CONTENT),
    ("Query Radio Features And Options", "01 05 0C 12 04", PACKET_CONTENT),
    ("Query Statistics", "01 05 0D 13 04", PACKET_CONTENT),
    ("Clear Statistics", "01 05 0E 14 04", PACKET_CONTENT),
    ("Clear Statistics Acknowledged", "01 05 8E 94 04", PACKET_CONTENT),
    ("Set Transmit Power Level Acknowledged", "01 05 8F 95 04", PACKET_CONTENT),
    ("Query Transmit Power Level", "01 05 10 16 04", PACKET_CONTENT),
    ("Save Configuration Values To Non-Volatile Memory", "01 05 11 17 04", PACKET_CONTENT),
    ("Save Configuration Values To Non-Volatile Memory Acknowledged", "01 05 91 97 04", PACKET_CONTENT),
    ("Query Firmware Version", "01 05 12 18 04", PACKET_CONTENT),
    ("Set Low Power Mode Acknowledged", "01 05 93 99 04", PACKET_CONTENT),
    ("Reset Request", "01 05 18 1E 04", ACCEPTED),
    ("Reset Request Acknowledged", "01 05 98 9E 04", ACCEPTED),
    ("Send Message To Application Acknowledged", "01 05 99 9F 04", PACKET_CONTENT),
    ("Set Digital Pin Configuration Acknowledged", "01 05 9E A4 04", PACKET_CONTENT),
    ("Query Digital Pin Configuration", "01 05 1F 25 04", PACKET_CONTENT),
    ("Set Digital Pin State Acknowledged", "01 05 A0 A6 04", PACKET_CONTENT),
    ("Query Digital Pin State", "01 05 21 27 04", PACKET_CONTENT),
    ("Query Analog Pin Values", "01 05 22 28 04", PACKET_CONTENT),
    ("Set Analog Pin Sleep State Acknowledged", "01 05 A3 A9 04", PACKET_CONTENT),
    ("Query Analog Pin Sleep State", "01 05 24 2A 04", PACKET_CONTENT),
    ("Set Digital Pin Sleep State Acknowledged", "01 05 A5 A9 04", PACKET_SUM),
    ("Query Digital Pin Sleep State", "01 05 26 2C 04", PACKET_CONTENT),
    ("Set Debug Mode Acknowledged", "01 05 A7 A6 04", PACKET_SUM),
    ("Set LED Functionality Acknowledged", "01 05 A8 A6 04", PACKET_SUM),
    ("Query Programmable Settings", "01 05 2B 31 04", PACKET_CONTENT),
)

# The three whose printed checksum is wrong by 004's own rule, with the right one. None of them is served.
RIGHT_SUMS = {
    "Set Digital Pin Sleep State Acknowledged": "01 05 A5 AB 04",  # A9 is printed
    "Set Debug Mode Acknowledged": "01 05 A7 AD 04",  # A6 is printed
    "Set LED Functionality Acknowledged": "01 05 A8 AE 04",  # A6 is printed
}


def check_document_004(compare, rng):
    """Each message of 004 whose checksum is printed is read, or refused."""
    outcomes = collections.Counter(refusal for _, _, refusal in DOCUMENT_004)
    compare.same("the messages of 004", {ACCEPTED: 8, PACKET_CONTENT: 25, PACKET_SUM: 3}, outcomes)
    for heading, text, refusal in DOCUMENT_004:
        block = bytes.fromhex(text)
        expect(compare, block, refusal)
        compare.reads(block, Message(block[2], b"") if refusal == ACCEPTED else refusal)
        compare.same("a wrong sum of 004", refusal == PACKET_SUM, heading in RIGHT_SUMS, block=block)
        written = block if refusal == ACCEPTED else PACKET_CONTENT
        compare.writes(Message(block[2], b""), written, filler(5))
    for block in map(bytes.fromhex, RIGHT_SUMS.values()):
        expect(compare, block, PACKET_CONTENT)


# ---- Cases written out by hand ---------------------------------------------------------------

# From settings of zeros: each message, the answer, and the settings afterwards.
ROW = (
    ("01 07 01 34 12 4F 04", "01 05 81 87 04", "34 12 00 00 00 00 00 00 00 00 00 00 00"),
    ("01 05 02 08 04", "01 07 82 34 12 D0 04", "34 12 00 00 00 00 00 00 00 00 00 00 00"),
    (
        "01 0F 03 01 02 03 04 05 06 07 08 09 0A 4A 04",
        "01 05 83 89 04",
        "34 12 01 02 03 04 05 06 07 08 09 0A 00",
    ),
    (
        "01 05 04 0A 04",
        "01 0F 84 01 02 03 04 05 06 07 08 09 0A CB 04",
        "34 12 01 02 03 04 05 06 07 08 09 0A 00",
    ),
    ("01 06 05 FF 0B 04", "01 05 85 8B 04", "34 12 01 02 03 04 05 06 07 08 09 0A FF"),
    ("01 05 06 0C 04", "01 06 86 FF 8C 04", "34 12 01 02 03 04 05 06 07 08 09 0A FF"),
    ("01 05 18 1E 04", "01 05 98 9E 04", "34 12 01 02 03 04 05 06 07 08 09 0A FF"),
)

# Messages with data, and what the writer is handed. (Those without data are in DOCUMENT_004.)
READ = (
    ("01 07 01 34 12 4F 04", 0x01, "34 12"),
    ("01 07 01 00 00 09 04", 0x01, "00 00"),
    ("01 07 01 FF 3F 47 04", 0x01, "FF 3F"),  # 16,383
    ("01 07 01 40 00 49 04", 0x01, "40 00"),  # 64: the low byte is first
    ("01 07 01 FF 00 08 04", 0x01, "FF 00"),
    ("01 07 82 34 12 D0 04", 0x82, "34 12"),
    ("01 07 82 FF 3F C8 04", 0x82, "FF 3F"),
    ("01 0F 03 01 02 03 04 05 06 07 08 09 0A 4A 04", 0x03, "01 02 03 04 05 06 07 08 09 0A"),
    ("01 0F 03 FF FF FF FF FF FF FF FF FF FF 09 04", 0x03, "FF FF FF FF FF FF FF FF FF FF"),
    ("01 0F 03 04 04 04 04 04 04 04 04 04 04 3B 04", 0x03, "04 04 04 04 04 04 04 04 04 04"),  # end bytes
    ("01 0F 84 01 02 03 04 05 06 07 08 09 0A CB 04", 0x84, "01 02 03 04 05 06 07 08 09 0A"),
    ("01 06 05 0B 17 04", 0x05, "0B"),  # 11 and 26, 004's least and greatest channel, and others
    ("01 06 05 1A 26 04", 0x05, "1A"),
    ("01 06 05 00 0C 04", 0x05, "00"),
    ("01 06 05 0A 16 04", 0x05, "0A"),
    ("01 06 05 1B 27 04", 0x05, "1B"),
    ("01 06 05 FF 0B 04", 0x05, "FF"),
    ("01 06 05 F4 00 04", 0x05, "F4"),  # the sum is 256
    ("01 06 05 F8 04 04", 0x05, "F8"),  # the sum looks as an end byte
    ("01 06 86 FF 8C 04", 0x86, "FF"),
    ("01 06 86 1A A7 04", 0x86, "1A"),
)

# Blocks by the number with which the reader refuses them.
NOT_READ = {
    PACKET_ENDS: (
        "",
        "01",
        "04",
        "00",
        "04 01",
        "01 01",
        "04 04",
        "00 05 02 07 04",
        "02 05 02 09 04",
        "01 05 02 08 03",
        "01 05 02 08 05",
        "AA 05 02 B1 55",
        "05 02 08 04",
        "01 05 02 08",
        "01 05 02 08 04 00",
        "00 01 05 02 08 04",
    ),
    PACKET_LENGTH: (
        "01 04",
        "01 03 04",  # the total is the block's length, but under 5
        "01 04 02 04",
        "01 04 05 04",  # so is this, and the sum is right
        "01 00 04",
        "01 05 04",
        "01 05 02 04",
        "01 05 06 04",
        "01 06 02 08 04",
        "01 06 02 09 04",
        "01 04 02 07 04",
        "01 00 02 03 04",
        "01 FF 02 02 04",
        "01 02 01 34 12 4A 04",  # the number of data bytes
        "01 05 01 34 12 4D 04",  # all but the data
        "01 06 01 34 12 4E 04",
        "01 08 01 34 12 50 04",
        "01 05 02 08 04 04",
        "01 05 02 08 04 01 05 02 08 04",
        "01 00 02" + 251 * " 00" + " 03 04",  # 256 bytes, and others whose length is right but for 256
        "01 05 02" + 256 * " 00" + " 08 04",
        "01 07 01 34 12" + 256 * " 00" + " 4F 04",
        "01 0F 03" + 266 * " 01" + " 1D 04",
    ),
    PACKET_SUM: (
        "01 05 02 07 04",  # without the start byte
        "01 05 02 02 04",  # without the length too
        "01 05 02 00 04",
        "01 05 02 09 04",
        "01 05 02 0C 04",  # with the end byte
        "01 05 02 F7 04",  # the complement
        "01 05 02 F8 04",  # the negative
        "01 07 01 34 12 4E 04",  # without the start byte
        "01 07 01 34 12 46 04",  # the data alone
        "01 07 01 34 12 09 04",  # without the data
        "01 07 01 35 12 4F 04",
        "01 06 05 FF 0A 04",  # without the start byte
        "01 06 05 FF 0C 04",  # the carry is added
        "01 05 81 86 04",
        "01 07 82 34 12 CF 04",
    ),
    PACKET_CONTENT: (
        # the type
        "01 05 00 06 04",
        "01 05 07 0D 04",
        "01 06 07 01 0F 04",  # 004's Enable/Disable Receive All RF Messages
        "01 05 17 1D 04",
        "01 05 19 1F 04",
        "01 05 80 86 04",
        "01 05 87 8D 04",
        "01 05 97 9D 04",
        "01 05 99 9F 04",
        "01 05 FF 05 04",
        # 004's heading has 9A sent by the host, its overview by the radio; it is not served
        "01 05 9A A0 04",
        "01 06 9A 00 A1 04",
        # 8F, the type in the field table of 004's 84, is another message's; 84 is in heading and overview
        "01 0F 8F 01 02 03 04 05 06 07 08 09 0A D6 04",
        # 2A, in which 004 has a PAN ID, addresses and a channel too
        "01 15 2A 34 12 01 02 03 04 05 06 07 08 09 0A 1A 00 00 00 D7 04",
        # the data's length
        "01 05 01 07 04",
        "01 06 01 34 3C 04",
        "01 08 01 34 12 00 50 04",
        "01 06 02 00 09 04",
        "01 07 02 34 12 50 04",
        "01 05 03 09 04",
        "01 0E 03 01 02 03 04 05 06 07 08 09 3F 04",
        "01 0D 03 01 02 03 04 05 06 07 08 35 04",  # no short address
        "01 10 03 01 02 03 04 05 06 07 08 09 0A 0B 56 04",
        "01 06 04 00 0B 04",
        "01 05 05 0B 04",
        "01 07 05 1A 00 27 04",
        "01 06 06 00 0D 04",
        "01 06 18 00 1F 04",
        "01 06 81 00 88 04",  # a status byte
        "01 05 82 88 04",
        "01 06 82 34 BD 04",
        "01 08 82 34 12 00 D1 04",
        "01 06 83 00 8A 04",
        "01 05 84 8A 04",
        "01 0E 84 01 02 03 04 05 06 07 08 09 C0 04",
        "01 06 85 00 8C 04",
        "01 05 86 8C 04",
        "01 06 98 00 9F 04",
    ),
    PAN_ID_OVER: (
        "01 07 01 00 40 49 04",
        "01 07 01 00 80 89 04",
        "01 07 01 00 C0 C9 04",
        "01 07 01 34 52 8F 04",  # 1234 with bit 14
        "01 07 01 34 92 CF 04",  # 1234 with bit 15
        "01 07 01 FF FF 07 04",
        "01 07 82 00 40 CA 04",
        "01 07 82 00 80 0A 04",
        "01 07 82 FF 7F 08 04",
        "01 07 82 FF FF 88 04",
    ),
}

# Blocks with two faults whose numbers are next to each other: the first is given.
TWO_FAULTS = {
    PACKET_ENDS: ("02 06 02 0A 04", "01 06 02 09 05", "00 03 04", "01 04 02 05"),  # and 25
    PACKET_LENGTH: ("01 06 02 08 04", "01 04 02 08 04", "01 04 02 04"),  # and 26
    PACKET_SUM: ("01 05 07 0C 04", "01 05 01 06 04", "01 06 02 00 08 04"),  # and 27
    PACKET_CONTENT: (  # and 28
        "01 08 01 00 40 00 4A 04",
        "01 08 82 00 40 00 CB 04",
        "01 07 07 00 40 4F 04",
        "01 06 01 40 48 04",
    ),
}

# What the writer refuses.
NOT_WRITTEN = {
    PACKET_CONTENT: (
        *((number, "") for number in (0x00, 0x07, 0x08, 0x17, 0x19, 0x7F)),
        *((number, "") for number in (0x80, 0x87, 0x8F, 0x97, 0x99, 0xFF)),
        (0x07, "01"),
        (0x8F, "01 02 03 04 05 06 07 08 09 0A"),
        (0x01, ""),
        (0x01, "34"),
        (0x01, "34 12 00"),
        (0x02, "00"),
        (0x02, "34 12"),
        (0x03, ""),
        (0x03, "01 02 03 04 05 06 07 08"),
        (0x03, "01 02 03 04 05 06 07 08 09"),
        (0x03, "01 02 03 04 05 06 07 08 09 0A 0B"),
        (0x04, "00"),
        (0x05, ""),
        (0x05, "1A 00"),
        (0x06, "1A"),
        (0x18, "00"),
        (0x81, "00"),
        (0x82, ""),
        (0x82, "34"),
        (0x82, "34 12 00"),
        (0x83, "00"),
        (0x84, "01 02 03 04 05 06 07 08 09"),
        (0x85, "00"),
        (0x86, ""),
        (0x86, "1A 00"),
        (0x98, "00"),
        # and 28
        (0x01, "00 40 00"),
        (0x01, "40"),
        (0x07, "00 40"),
        (0x02, "00 40"),
        (0x81, "00 40"),
        (0x82, "00 40 00"),
    ),
    PAN_ID_OVER: (
        (0x01, "00 40"),
        (0x01, "00 80"),
        (0x01, "34 52"),
        (0x01, "FF FF"),
        (0x82, "00 40"),
        (0x82, "00 80"),
        (0x82, "34 92"),
        (0x82, "FF 7F"),
    ),
}


def check_row(compare, rng):
    """Seven messages in a row, each in a buffer just long enough for the answer, or longer."""
    for more in (0, 1, 20):
        settings = ZEROS
        for text, answer, after in ROW:
            answer, after = bytes.fromhex(answer), unpacked(bytes.fromhex(after))
            buffer = filler(len(answer) + more)
            settings = compare.steps(settings, bytes.fromhex(text), answer, buffer, after)


def check_read_cases(compare, rng):
    """Blocks with what is read from them; the settings are used with those of the host."""
    for text, number, data in READ:
        block, message = bytes.fromhex(text), Message(number, bytes.fromhex(data))
        compare.reads(block, message)
        compare.writes(message, block, filler(len(block)))
        expect(compare, block, ACCEPTED)
    for number, texts in itertools.chain(NOT_READ.items(), TWO_FAULTS.items()):
        for block in map(bytes.fromhex, texts):
            compare.reads(block, number)
            expect(compare, block, number)


def check_write_cases(compare, rng):
    """What the writer refuses, in buffers that are too short as well: 27 and 28 come before 13."""
    for number, messages in NOT_WRITTEN.items():
        for (message_type, text), size in itertools.product(messages, (*range(21), 300)):
            compare.writes(Message(message_type, bytes.fromhex(text)), number, filler(size))


# Steps on the settings above: a block, the length of the buffer, and what is given or answered.
STEPS = (
    ("01 05 02 08 04", 7, "01 07 82 34 12 D0 04"),
    ("01 05 02 08 04", 6, FRAME_BUFFER_SHORT),
    ("01 05 02 08 04", 5, FRAME_BUFFER_SHORT),
    ("01 05 04 0A 04", 15, "01 0F 84 A1 A2 A3 A4 A5 A6 A7 A8 51 52 5B 04"),
    ("01 05 04 0A 04", 14, FRAME_BUFFER_SHORT),
    ("01 05 06 0C 04", 6, "01 06 86 1A A7 04"),
    ("01 05 06 0C 04", 5, FRAME_BUFFER_SHORT),
    ("01 05 18 1E 04", 5, "01 05 98 9E 04"),
    ("01 05 18 1E 04", 4, FRAME_BUFFER_SHORT),
    ("01 07 01 78 16 97 04", 4, FRAME_BUFFER_SHORT),
    ("01 0F 03 01 02 03 04 05 06 07 08 09 0A 4A 04", 4, FRAME_BUFFER_SHORT),
    ("01 06 05 0B 17 04", 4, FRAME_BUFFER_SHORT),
    ("01 06 05 0B 17 04", 0, FRAME_BUFFER_SHORT),
    ("01 07 01 00 40 49 04", 0, PAN_ID_OVER),
    ("01 07 01 00 80 89 04", 5, PAN_ID_OVER),
    # what the radio sends
    ("01 05 81 87 04", 15, PACKET_CONTENT),
    ("01 07 82 34 12 D0 04", 15, PACKET_CONTENT),
    ("01 07 82 00 40 CA 04", 15, PACKET_CONTENT),
    ("01 07 82 00 40 CA 04", 0, PACKET_CONTENT),
    ("01 05 83 89 04", 15, PACKET_CONTENT),
    ("01 0F 84 01 02 03 04 05 06 07 08 09 0A CB 04", 15, PACKET_CONTENT),
    ("01 05 85 8B 04", 15, PACKET_CONTENT),
    ("01 06 86 1A A7 04", 15, PACKET_CONTENT),
    ("01 05 98 9E 04", 15, PACKET_CONTENT),
    # with no buffer each other number is given as it is
    ("", 0, PACKET_ENDS),
    ("01 04", 0, PACKET_LENGTH),
    ("01 05 02 07 04", 0, PACKET_SUM),
    ("01 05 07 0D 04", 0, PACKET_CONTENT),
)

# Sets on the settings above, in a buffer of five bytes: the answer, and the settings afterwards.
SETS = (
    ("01 07 01 78 16 97 04", "01 05 81 87 04", "78 16 A1 A2 A3 A4 A5 A6 A7 A8 51 52 1A"),
    ("01 07 01 FF 3F 47 04", "01 05 81 87 04", "FF 3F A1 A2 A3 A4 A5 A6 A7 A8 51 52 1A"),
    (
        "01 0F 03 01 02 03 04 05 06 07 08 09 0A 4A 04",
        "01 05 83 89 04",
        "34 12 01 02 03 04 05 06 07 08 09 0A 1A",
    ),
    ("01 06 05 0B 17 04", "01 05 85 8B 04", "34 12 A1 A2 A3 A4 A5 A6 A7 A8 51 52 0B"),
    ("01 06 05 00 0C 04", "01 05 85 8B 04", "34 12 A1 A2 A3 A4 A5 A6 A7 A8 51 52 00"),
    ("01 06 05 FF 0B 04", "01 05 85 8B 04", "34 12 A1 A2 A3 A4 A5 A6 A7 A8 51 52 FF"),
)

# Blocks on settings whose PAN ID is over: every message of the host is refused, and others as elsewhere.
ON_OVER = (
    ("01 07 01 34 12 4F 04", PAN_ID_OVER),
    ("01 07 01 00 40 49 04", PAN_ID_OVER),
    ("01 05 02 08 04", PAN_ID_OVER),
    ("01 0F 03 01 02 03 04 05 06 07 08 09 0A 4A 04", PAN_ID_OVER),
    ("01 05 04 0A 04", PAN_ID_OVER),
    ("01 06 05 1A 26 04", PAN_ID_OVER),
    ("01 05 06 0C 04", PAN_ID_OVER),
    ("01 05 18 1E 04", PAN_ID_OVER),
    ("01 05 07 0D 04", PACKET_CONTENT),
    ("01 05 81 87 04", PACKET_CONTENT),
    ("01 07 82 00 40 CA 04", PACKET_CONTENT),
    ("01 06 02 00 09 04", PACKET_CONTENT),
    ("01 05 02 07 04", PACKET_SUM),
    ("01 06 02 08 04", PACKET_LENGTH),
    ("01 03 04", PACKET_LENGTH),
    ("01 05 02 08 05", PACKET_ENDS),
    ("", PACKET_ENDS),
)


def check_step_cases(compare, rng):
    """Steps whose outcome is written out; with a PAN ID over in the settings, in buffers of every length."""
    for text, room, expected in STEPS:
        wanted = expected if isinstance(expected, int) else bytes.fromhex(expected)
        compare.steps(SETTINGS, bytes.fromhex(text), wanted, filler(room))
    for text, answer, after in SETS:
        after = unpacked(bytes.fromhex(after))
        compare.steps(SETTINGS, bytes.fromhex(text), bytes.fromhex(answer), filler(5), after)
    for (text, number), pan_id, room in itertools.product(ON_OVER, OVER, range(21)):
        settings = SETTINGS._replace(pan_id=pan_id)
        compare.steps(settings, bytes.fromhex(text), number, filler(room))


# ---- Samples ---------------------------------------------------------------------------------

# All of the above that is written: what the writer is handed, and the packet.
READ_004 = [bytes.fromhex(text) for _, text, refusal in DOCUMENT_004 if refusal == ACCEPTED]
WRITTEN = (
    *((Message(block[2], b""), block) for block in READ_004),
    *((Message(number, bytes.fromhex(data)), bytes.fromhex(text)) for text, number, data in READ),
)
BLOCKS = tuple(block for _, block in WRITTEN)

# A packet of each type.
ONE_EACH = {block[2]: block for block in reversed(BLOCKS)}
HOST_BLOCKS = tuple(ONE_EACH[number] for number in HOST)


def plain(length):
    """Data of any length that are no PAN ID over 14 bits."""
    return bytes((7 * at + 1) % 64 for at in range(length))


def answer_to(settings, number):
    """The answer to a message of the host that is accepted."""
    address = settings.long_address + settings.short_address
    data = {0x02: settings.pan_id, 0x04: address, 0x06: settings.channel}
    return packet(ANSWERS[number], data.get(number, b""))


def after_set(settings, message):
    """The settings after a message that sets some of them."""
    number, data = message
    if number == 0x01:
        return settings._replace(pan_id=data)
    if number == 0x03:
        return settings._replace(long_address=data[:8], short_address=data[8:])
    return settings._replace(channel=data)


# ---- Types and data lengths ------------------------------------------------------------------

# Up to some over the longest, some at the limit of 255 bytes for a packet and over it, and some that are
# right but for 256 or 65,536; for the types that are served, all up to 300.
SOME_LENGTHS = (*range(17), 20, 50, 100, 127, 128, 200, *range(249, 270), 295, 507, 512, 522, 2**16 + 2)
ALL_LENGTHS = (*range(301), *(wrap + size for wrap in WRAPS for size in (0, 1, 2, 10)))


def check_types(compare, rng):
    """Every type with data of each length, for reader, writer and step."""
    others = [number for number in range(256) if number not in SERVED]
    cases = itertools.product(others, SOME_LENGTHS), itertools.product(SERVED, ALL_LENGTHS)
    for number, length in itertools.chain(*cases):
        message = Message(number, plain(length))
        block, fits = packet(*message), SERVED.get(number) == length
        if len(block) > 255:
            expect(compare, block, PACKET_LENGTH)
        else:
            expect(compare, block, ACCEPTED if fits else PACKET_CONTENT)
        compare.writes(message, block if fits else PACKET_CONTENT, filler(length + 8))


def check_answers(compare, rng):
    """Each message of the host is answered as 004 has it, from many settings."""
    for _ in range(2000):
        settings = random_settings(rng)
        for number, block in zip(HOST, HOST_BLOCKS, strict=True):
            executed = compare.step(settings, block, filler(LONGEST))
            came = executed.refusal, executed.response[: executed.length]
            compare.same("an answer", (0, answer_to(settings, number)), came, block=block)


# ---- Lengths ---------------------------------------------------------------------------------


def check_length_bytes(compare, rng):
    """Every value of the length byte, with a right sum, in messages and in blocks of other lengths: 25 for
    all but the block's length, and for that too under 5."""
    for block, byte in itertools.product(BLOCKS, range(256)):
        other = mended(with_byte(block, 1, byte))
        expect(compare, other, ACCEPTED if byte == len(block) else PACKET_LENGTH)
    sizes = (*range(4, 21), 100, *range(254, 272), 300, 511, 512, 517, 2**16 + 5)
    for size, byte in itertools.product(sizes, range(256)):
        block = mended(b"\x01" + bytes([byte]) + b"\x02" * (size - 4) + b"\x00\x04")
        if byte != size or size < 5:
            expect(compare, block, PACKET_LENGTH)
        else:
            expect(compare, block, ACCEPTED if size == 5 else PACKET_CONTENT)


def check_long_blocks(compare, rng):
    """Messages that are longer by 256 or more bytes, so that their length byte and sum are right but for
    that."""
    for block, wrap in itertools.product(BLOCKS, WRAPS):
        for at in (3, len(block) - 2):
            expect(compare, block[:at] + bytes(wrap) + block[at:], PACKET_LENGTH)
        expect(compare, block + bytes(wrap), PACKET_ENDS)


def check_short_blocks(compare, rng):
    """Every block of one byte and of two, and every one of three and four bytes between right ends."""
    for byte in range(256):
        expect(compare, bytes([byte]), PACKET_ENDS)
        expect(compare, bytes([0x01, byte, 0x04]), PACKET_LENGTH)
    for pair in itertools.product(range(256), repeat=2):
        ends, middle = bytes(pair), b"\x01" + bytes(pair) + b"\x04"
        wanted = PACKET_LENGTH if ends == b"\x01\x04" else PACKET_ENDS
        compare.same("two bytes", wanted, compare.decode(ends).refusal, block=ends)
        compare.same("four bytes", PACKET_LENGTH, compare.decode(middle).refusal, block=middle)
        if pair[0] in (0x01, 0x03, 0x04, 0x05) or pair[1] in (0x01, 0x04):
            expect(compare, ends, wanted)
            expect(compare, middle, PACKET_LENGTH)


# ---- Sums ------------------------------------------------------------------------------------


def check_every_sum(compare, rng):
    """Every sum with every type of a message without data."""
    for number, byte in itertools.product(range(256), repeat=2):
        block = bytes([0x01, 0x05, number, byte, 0x04])
        if byte != (6 + number) % 256:
            wanted = PACKET_SUM
        else:
            wanted = ACCEPTED if SERVED.get(number) == 0 else PACKET_CONTENT
        came = compare.decode(block).refusal
        compare.same("a sum", wanted, came, block=block)
        refusal = compare.execute(SETTINGS, block, filler(LONGEST)).refusal
        wanted = PACKET_CONTENT if wanted == ACCEPTED and number in RADIO else wanted
        compare.same("a sum", wanted, refusal, block=block)


def wrong_sums(block):
    """Sums of a block that are made otherwise: over fewer bytes or more, or by another rule."""
    summed, right = block[:-2], sum(block[:-2])
    yield from (sum(summed[start:]) for start in range(1, len(summed) + 1))
    yield from (sum(summed[:end]) for end in range(len(summed)))
    yield from (right + block[-1], ~right, -right, right + 1, right - 1, right + right // 256)
    yield functools.reduce(operator.xor, summed)
    yield sum(place * byte for place, byte in enumerate(summed, 1))


def check_sums(compare, rng):
    """Sums from another start byte, to another end and by other rules are refused; of random data too."""
    blocks = (*BLOCKS, *(packet(*random_right(rng, number)) for number in SERVED for _ in range(100)))
    for block in blocks:
        for number in {other % 256 for other in wrong_sums(block)} - {block[-2]}:
            expect(compare, with_byte(block, len(block) - 2, number), PACKET_SUM)
        expect(compare, block, ACCEPTED)


# ---- Damage ----------------------------------------------------------------------------------

SOME_BYTES = b"\x00\x01\x02\x03\x04\x05\x06\x07\x0f\x18\x3f\x40\x7f\x80\x81\x82\x84\x98\xc0\xff"


def check_damage(compare, rng):
    """Each byte of a message with each other value: no damage passes, and it is refused by its place. Then
    with the sum made right."""
    for block in ONE_EACH.values():
        refusals = PACKET_ENDS, PACKET_LENGTH, *(len(block) - 3) * (PACKET_SUM,), PACKET_ENDS
        for (at, refusal), byte in itertools.product(enumerate(refusals), range(256)):
            other = with_byte(block, at, byte)
            expect(compare, other, refusal if other != block else ACCEPTED)
            compare.judge(SETTINGS, mended(other), filler(LONGEST))


def check_two_damages(compare, rng):
    """Two bytes of a message at once, with the sum made right, or one up and one down so that it stays."""
    for block, _ in itertools.product(BLOCKS, range(400)):
        first, second = rng.sample(range(len(block) - 2), 2)
        other = with_byte(with_byte(block, first, rng.randrange(256)), second, rng.choice(SOME_BYTES))
        step = rng.randrange(256)
        moved = with_byte(block, first, (block[first] + step) % 256)
        moved = with_byte(moved, second, (block[second] - step) % 256)
        compare.judge(SETTINGS, mended(other), filler(LONGEST))
        compare.judge(SETTINGS, moved, filler(LONGEST))


def cut_refusal(part):
    """What the first bytes of a packet give: 24, unless they end in a 04."""
    return PACKET_LENGTH if len(part) > 1 and part[-1] == 0x04 else PACKET_ENDS


def check_cuts(compare, rng):
    """Messages that are cut at each place, or lose or gain a byte there, or have more after them."""
    for block in BLOCKS:
        for at in range(len(block)):
            expect(compare, block[:at], cut_refusal(block[:at]))
            others = [block[:at] + b"\x04", b"\x01" + block[at:], block[at:], block[:at] + block[at + 1 :]]
            others += [block[:at] + bytes([byte]) + block[at:] for byte in SOME_BYTES]
            for other in others:
                compare.judge(SETTINGS, other, filler(LONGEST))
        for more in (b"\x00", b"\x04", b"\x01", b"\x00\x04", block, bytes(250) + b"\x04"):
            expect(compare, block + more, cut_refusal(block + more))


def check_cut_data(compare, rng):
    """The same of data, with length byte and sum made right."""
    for (number, data), _ in WRITTEN:
        for at in range(len(data)):
            expect(compare, packet(number, data[:at]), PACKET_CONTENT)
            expect(compare, packet(number, data[at + 1 :]), PACKET_CONTENT)
        for more in (b"\x00", b"\x04", b"\x01\x00", bytes(100), bytes(240)):
            expect(compare, packet(number, data + more), PACKET_CONTENT)
            compare.writes(Message(number, data + more), PACKET_CONTENT, filler(LONGEST))


# ---- Buffers ---------------------------------------------------------------------------------

ROOMS = (*range(21), 40, 255, 256, 257, 300, 2**16, 2**16 + 4, 2**17 + 14)


def buffers(rng):
    """Buffers of each length, with several contents."""
    for room in ROOMS:
        yield from (filler(room), bytes(room), room * b"\xff", rng.randbytes(room))


def check_buffers_written(compare, rng):
    """The writer with buffers of each length: 13 if it is under the packet's; else the rest of it stays."""
    for (message, block), buffer in itertools.product(WRITTEN, buffers(rng)):
        compare.writes(message, block if len(buffer) >= len(block) else FRAME_BUFFER_SHORT, buffer)


def check_buffers_answered(compare, rng):
    """The same of the step: it goes by the length of this answer, and on 13 the settings stay."""
    for buffer, (number, block) in itertools.product(buffers(rng), zip(HOST, HOST_BLOCKS, strict=True)):
        settings = random_settings(rng)
        answer = answer_to(settings, number)
        executed = compare.step(settings, block, buffer)
        if len(buffer) < len(answer):
            wanted = settings, FRAME_BUFFER_SHORT, 0, buffer
        else:
            wanted = executed.after, ACCEPTED, len(answer), answer + buffer[len(answer) :]
        compare.same("an outcome", wanted, tuple(executed), block=block, room=len(buffer))


# ---- PAN IDs ---------------------------------------------------------------------------------


def check_pan_ids_in_messages(compare, rng):
    """Each of the 65,536 PAN IDs in 01 and 82, read and written, and set by 01."""
    buffer = filler(7)
    for number in range(65536):
        pan_id = number.to_bytes(2, "little")
        wanted = PAN_ID_OVER if number >= LIMIT else ACCEPTED
        for message_type in WITH_PAN_ID:
            block = packet(message_type, pan_id)
            compare.same("a PAN ID", wanted, compare.decode(block).refusal, block=block)
            came = compare.encode(Message(message_type, pan_id), buffer)
            whole = (ACCEPTED, 7, block) if wanted == ACCEPTED else (wanted, 0, buffer)
            compare.same("a PAN ID", whole, came, block=block)
        executed = compare.execute(SETTINGS, packet(0x01, pan_id), buffer)
        after = SETTINGS._replace(pan_id=pan_id) if wanted == ACCEPTED else SETTINGS
        compare.same("a PAN ID", (after, wanted), executed[:2], pan_id=pan_id)


def check_pan_ids_in_settings(compare, rng):
    """Each of them in the settings: with 02, and with one of the host's messages in turn."""
    buffer = filler(LONGEST)
    for number in range(65536):
        settings = SETTINGS._replace(pan_id=number.to_bytes(2, "little"))
        wanted = PAN_ID_OVER if number >= LIMIT else ACCEPTED
        came = compare.execute(settings, ONE_EACH[0x02], buffer)[1:]
        answer = packet(0x82, settings.pan_id) + buffer[7:]
        whole = (ACCEPTED, 7, answer) if wanted == ACCEPTED else (wanted, 0, buffer)
        compare.same("a PAN ID", whole, came, settings=settings)
        block = HOST_BLOCKS[number % len(HOST_BLOCKS)]
        refusal = compare.execute(settings, block, buffer).refusal
        compare.same("a PAN ID", wanted, refusal, settings=settings, block=block)


# ---- Channels, addresses and the bytes of the settings ---------------------------------------


def check_channels(compare, rng):
    """Each channel, read and written, set and asked for: any byte is one."""
    for byte in range(256):
        channel = bytes([byte])
        for number in (0x05, 0x86):
            compare.writes(Message(number, channel), packet(number, channel), filler(6))
        settings = random_settings(rng)
        after = settings._replace(channel=channel)
        compare.steps(settings, packet(0x05, channel), packet(0x85, b""), filler(5), after)
        compare.steps(after, packet(0x06, b""), packet(0x86, channel), filler(6))


def check_addresses(compare, rng):
    """Each value of each byte of an address, long and short, set and asked for."""
    for at, byte in itertools.product(range(10), range(256)):
        address = with_byte(plain(10), at, byte)
        for number in (0x03, 0x84):
            compare.writes(Message(number, address), packet(number, address), filler(LONGEST))
        after = SETTINGS._replace(long_address=address[:8], short_address=address[8:])
        compare.steps(SETTINGS, packet(0x03, address), packet(0x83, b""), filler(5), after)
        compare.steps(after, packet(0x04, b""), packet(0x84, address), filler(LONGEST))


def check_settings(compare, rng):
    """Each value of each byte of the settings, with each message of the host."""
    for at, byte in itertools.product(range(13), range(256)):
        settings = unpacked(with_byte(packed(SETTINGS), at, byte))
        over = at == 1 and byte >= 0x40
        for number, block in zip(HOST, HOST_BLOCKS, strict=True):
            executed = compare.step(settings, block, filler(LONGEST))
            came = executed.refusal, executed.response[: executed.length]
            wanted = (PAN_ID_OVER, b"") if over else (ACCEPTED, answer_to(settings, number))
            compare.same("an answer", wanted, came, settings=packed(settings), block=block)


# ---- Order -----------------------------------------------------------------------------------

# Types and data, and what the reader gives in a right frame.
ORDERED = (
    (0x01, "34 12", ACCEPTED),
    (0x02, "", ACCEPTED),
    (0x03, "01 02 03 04 05 06 07 08 09 0A", ACCEPTED),
    (0x04, "", ACCEPTED),
    (0x05, "1A", ACCEPTED),
    (0x18, "", ACCEPTED),
    (0x81, "", ACCEPTED),
    (0x82, "34 12", ACCEPTED),
    (0x84, "01 02 03 04 05 06 07 08 09 0A", ACCEPTED),
    (0x01, "00 40", PAN_ID_OVER),
    (0x01, "FF FF", PAN_ID_OVER),
    (0x82, "00 80", PAN_ID_OVER),
    (0x07, "", PACKET_CONTENT),
    (0x07, "00 40", PACKET_CONTENT),
    (0x01, "", PACKET_CONTENT),
    (0x01, "00 40 00", PACKET_CONTENT),
    (0x82, "00 40 00", PACKET_CONTENT),
    (0x02, "00", PACKET_CONTENT),
    (0x05, "", PACKET_CONTENT),
    (0x03, "01 02 03 04 05 06 07 08 09", PACKET_CONTENT),
)
ENDS = (b"\x01", b"\x04")
WRONG_ENDS = ((b"\x00", b"\x04"), (b"\x04", b"\x04"), (b"\x01", b"\x05"), (b"\x01", b"\x01"), ENDS[::-1])


def with_faults(block, refusal):
    """A block with each set of faults in its frame, and what is given then: the first fault in order."""
    totals = len(block), len(block) + 1, len(block) - 1, len(block) - 5, 4, 0, 255
    for total, sum_step, ends in itertools.product(totals, (0, 1, 255), (ENDS, *WRONG_ENDS)):
        other = mended(ends[0] + bytes([total]) + block[2:-1] + ends[1])
        other = with_byte(other, len(other) - 2, (other[-2] + sum_step) % 256)
        if ends != ENDS:
            yield other, PACKET_ENDS
        elif total != len(block):
            yield other, PACKET_LENGTH
        else:
            yield other, PACKET_SUM if sum_step else refusal


def check_order_read(compare, rng):
    """With several faults at once the reader gives 24 before 25 before 26 before 27 before 28."""
    for number, text, refusal in ORDERED:
        for block, first in with_faults(packet(number, bytes.fromhex(text)), refusal):
            compare.same("faults", first, compare.circle(block).refusal, block=block)


def check_order_written(compare, rng):
    """The writer gives 27 before 28 before 13."""
    for (number, text, refusal), room in itertools.product(ORDERED, range(20)):
        data = bytes.fromhex(text)
        wanted = refusal or (FRAME_BUFFER_SHORT if room < 5 + len(data) else packet(number, data))
        compare.writes(Message(number, data), wanted, filler(room))


def check_order_executed(compare, rng):
    """The step gives 24, 25, 26, 27, 28, 13 in this order; 28 is of the message or of the settings."""
    for (number, text, refusal), pan_id in itertools.product(ORDERED, (SETTINGS.pan_id, *OVER)):
        settings = SETTINGS._replace(pan_id=pan_id)
        if number in RADIO:
            refusal = PACKET_CONTENT
        if refusal == ACCEPTED and pan_id in OVER:
            refusal = PAN_ID_OVER
        size = len(answer_to(settings, number)) if number in HOST else 5
        for block, first in with_faults(packet(number, bytes.fromhex(text)), refusal):
            for room in (0, size - 1, size):
                wanted = first or (FRAME_BUFFER_SHORT if room < size else ACCEPTED)
                came = compare.execute(settings, block, filler(room)).refusal
                compare.same("faults", wanted, came, settings=settings, block=block, room=room)


# ---- Random messages -------------------------------------------------------------------------


def random_pan_id(rng, over=0.2):
    """Mostly one of 14 bits, often at the limit."""
    if rng.random() < over:
        number = rng.choice((LIMIT, 2 * LIMIT, 65535, rng.randrange(LIMIT, 65536)))
    else:
        number = rng.choice((0, LIMIT - 1, 0x40, 0xFF, *(rng.randrange(LIMIT) for _ in range(4))))
    return number.to_bytes(2, "little")


def random_settings(rng, over=0.0):
    """Settings whose PAN ID is over 14 bits as often as given."""
    return unpacked(random_pan_id(rng, over) + rng.randbytes(11))


def random_right(rng, number):
    """A message of a served type that is accepted."""
    data = random_pan_id(rng, 0) if number in WITH_PAN_ID else rng.randbytes(SERVED[number])
    return Message(number, data)


def random_message(rng):
    """Mostly a right message of the host; some that the radio sends, or with a PAN ID over, a wrong length
    or another type."""
    kind = rng.random()
    if kind < 0.7:
        return random_right(rng, rng.choice([*HOST]))
    if kind < 0.8:
        return random_right(rng, rng.choice([*RADIO]))
    if kind < 0.86:
        return Message(rng.choice(WITH_PAN_ID), random_pan_id(rng, 1))
    number = rng.choice([*SERVED]) if kind < 0.96 else rng.randrange(256)
    return Message(number, rng.randbytes(rng.choice((0, 1, 2, 3, 9, 10, 11, rng.randrange(30)))))


def changed(rng, block):
    """A block with one byte replaced, removed, added, or exchanged with another."""
    at, kind = rng.randrange(len(block)), rng.random()
    if kind < 0.5:
        return with_byte(block, at, rng.choice((rng.randrange(256), rng.choice(SOME_BYTES))))
    if kind < 0.7:
        return block[:at] + block[at + 1 :]
    if kind < 0.85:
        return block[:at] + rng.randbytes(1) + block[at:]
    to = rng.randrange(len(block))
    return with_byte(with_byte(block, at, block[to]), to, block[at])


def damaged(rng, block):
    """A packet with up to three changes; after some of them the whole frame or the sum is made right."""
    for _ in range(rng.choice((1, 1, 2, 3))):
        block = changed(rng, block)
        kind = rng.random()
        if kind < 0.3 and len(block) >= 5:
            block = packet(block[2], block[3:-2])
        elif kind < 0.6:
            block = mended(block)
    return block


def random_block(rng):
    """Mostly a message as it is; some are damaged, and some are any bytes."""
    block, kind = packet(*random_message(rng)), rng.random()
    if kind < 0.8:
        return block
    return damaged(rng, block) if kind < 0.97 else rng.randbytes(rng.randrange(20))


def random_buffer(rng):
    """Mostly long enough for every answer."""
    return rng.randbytes(rng.randrange(LONGEST, 21) if rng.random() < 0.8 else rng.randrange(LONGEST + 1))


def check_random_messages(compare, rng):
    """Messages in buffers that are long enough or not, and at the border."""
    for _ in range(15_000):
        message = random_message(rng)
        compare.reread(message, random_buffer(rng))
        size = 5 + len(message.data)
        compare.encode(message, rng.randbytes(size))
        compare.encode(message, rng.randbytes(size - 1))


def check_random_damage(compare, rng):
    """Damaged messages, read and executed."""
    for _ in range(15_000):
        block = damaged(rng, rng.choice(BLOCKS))
        compare.judge(random_settings(rng, 0.1), block, random_buffer(rng))


def check_random_blocks(compare, rng):
    """Random bytes: by themselves, between right ends, and as data."""
    for _ in range(10_000):
        size = rng.randrange(3, 18)
        whole = b"\x01" + bytes([size]) + rng.randbytes(size - 3) + b"\x04"
        data = bytes(rng.choices(SOME_BYTES, k=rng.choice((0, 1, 2, 10, rng.randrange(24)))))
        for block in (rng.randbytes(rng.randrange(24)), whole, packet(rng.choice([*SERVED]), data)):
            compare.judge(random_settings(rng, 0.1), block, random_buffer(rng))


# ---- Sequences -------------------------------------------------------------------------------


def check_sequences(compare, rng):
    """Random blocks, one after the other, from random settings that stay in their memory."""
    for _ in range(2000):
        settings = random_settings(rng, 0.15)
        compare.settings.give(packed(settings))
        for _ in range(rng.randrange(1, 40)):
            settings = compare.step(settings, random_block(rng), random_buffer(rng), in_place=True).after


def refused_set(rng, number):
    """A set that is refused, with a buffer: a wrong sum, data of a wrong length, a PAN ID over 14 bits, or
    no room for the answer."""
    data, kind, room = random_right(rng, number).data, rng.random(), rng.randbytes(20)
    block = packet(number, data)
    if kind < 0.25:
        return block, rng.randbytes(rng.randrange(5))
    if kind < 0.5:
        return with_byte(block, len(block) - 2, (block[-2] + rng.randrange(1, 256)) % 256), room
    if kind < 0.75 or number != 0x01:
        return packet(number, data[1:] if rng.random() < 0.5 else data + rng.randbytes(1)), room
    return packet(number, random_pan_id(rng, 1)), room


def random_other(rng, number):
    """A block and a buffer that do not set what messages of a type set."""
    if rng.random() < 0.4:
        return refused_set(rng, number)
    block, buffer = random_block(rng), random_buffer(rng)
    while block[2:3] == bytes([number]):
        block = random_block(rng)
    return block, buffer


def check_query_after_set(compare, rng):
    """A query gives back what was set, whatever came in between that does not set it."""
    for (number, query), _ in itertools.product(SET_AND_QUERY, range(1200)):
        message, given = random_right(rng, number), random_settings(rng)
        acknowledged, after = packet(ANSWERS[number], b""), after_set(given, message)
        settings = compare.steps(given, packet(*message), acknowledged, filler(5), after)
        for _ in range(rng.randrange(16)):
            settings = compare.step(settings, *random_other(rng, number), in_place=True).after
        executed = compare.step(settings, packet(query, b""), filler(LONGEST), in_place=True)
        wanted = 0, packet(ANSWERS[query], message.data)
        came = executed.refusal, executed.response[: executed.length]
        compare.same("a query after a set", wanted, came, message=message)


def check_conversations(compare, rng):
    """The host's writer, the step and the host's reader in turn: each query is answered with what was last
    set, and at first with what the settings were."""
    for _ in range(500):
        settings = random_settings(rng)
        known = {query: answer_to(settings, query)[3:-2] for _, query in SET_AND_QUERY}
        compare.settings.give(packed(settings))
        for _ in range(rng.randrange(1, 40)):
            message = random_right(rng, rng.choice([*HOST]))
            _, length, after = compare.encode(message, filler(LONGEST))
            executed = compare.step(settings, after[:length], filler(LONGEST), in_place=True)
            settings, answer = executed.after, executed.response[: executed.length]
            known |= {query: message.data for number, query in SET_AND_QUERY if number == message.type}
            wanted = packet(ANSWERS[message.type], known.get(message.type, b""))
            compare.same("an answer", wanted, answer, message=message)


# ---- The run ---------------------------------------------------------------------------------

CHECKS = (
    check_document_004,
    check_row,
    check_read_cases,
    check_write_cases,
    check_step_cases,
    check_types,
    check_answers,
    check_length_bytes,
    check_long_blocks,
    check_short_blocks,
    check_every_sum,
    check_sums,
    check_damage,
    check_two_damages,
    check_cuts,
    check_cut_data,
    check_buffers_written,
    check_buffers_answered,
    check_pan_ids_in_messages,
    check_pan_ids_in_settings,
    check_channels,
    check_addresses,
    check_settings,
    check_order_read,
    check_order_written,
    check_order_executed,
    check_random_messages,
    check_random_damage,
    check_random_blocks,
    check_sequences,
    check_query_after_set,
    check_conversations,
)

# The outcomes that each entry has, and the types that it accepts.
OUTCOMES = {entry: sorted({ACCEPTED, *OWN[entry]}) for entry in SIGNATURES}
TYPES = {"freestar_decode": SERVED, "freestar_encode": SERVED, "freestar_execute": HOST}


def main(checks, whole):
    Comparison(load_entries()).run_all(checks, whole, SEED, OUTCOMES, TYPES)


if __name__ == "__main__":
    run_test(CHECKS, main)

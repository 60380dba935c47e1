#!/usr/bin/env python3
"""Compares every entry of the Coyote library with coyote_reference.py, call by call.

`./sdk` builds the library, target/sdk/lib/libcoyote.so. Its entries are called over the packets of source
document 003 and over cases whose outcome is written out by hand; over every type, target count, data length,
length byte and readout; over packets that are cut, lengthened or damaged; and over random ones of a fixed
seed. Every field returned and every byte of the inputs and of the buffers afterwards are compared; each of
them lies between guard bytes. What is written is read back, and what is read is written again. The first
difference ends the run with exit status 1.
"""

import itertools
import sys

sys.dont_write_bytecode = True  # leaves no files beside the tests

from coyote_entries import (
    SIGNATURES,
    Addressed,
    Comparison,
    Export,
    Failure,
    ReadMemory,
    Success,
    counted,
    load_entries,
    mended,
    message_of,
    packet,
)
from coyote_reference import (
    ACCEPTED,
    FRAME_BUFFER_SHORT,
    PACKET_CONTENT,
    PACKET_ENDS,
    PACKET_LENGTH,
    PACKET_SUM,
)
from library import WRAPS, filler, run_test, with_byte
from refusals import OWN

SEED = 20240010

# The types that are served.
NO_ACK_DATA_TYPES = range(0x10, 0x20)
ACK_TYPES = range(0x20, 0x30)
DATA_TYPES = range(0x00, 0x20)  # AckData and NoAckData
ADDRESSED_TYPES = range(0x00, 0x30)
READ_MEM, SUCCESS, FAILURE = 0x80, 0x86, 0x87
SERVED_TYPES = (*ADDRESSED_TYPES, READ_MEM, SUCCESS, FAILURE)

# Locations as group and address, and what ends the targets.
SOURCE, TARGET = b"\x01\x02", b"\x01\x03"
END = b"\x80"

LONGEST = 1066  # bytes: sixteen targets and 1,023 of data


# ---- The packets of 003 ----------------------------------------------------------------------

FROM_1_2 = {"source_group": 1, "source_address": 2}
FROM_1_3 = {"source_group": 1, "source_address": 3}
ONE_BYTE = {"target_count": 1, "data_start": 11, "data_length": 1}
HELLO = "AA 00 0C 00 01 02 01 03 80 05 00 48 65 6C 6C 6F 8C 55"

# Each whole packet by the section that shows it, and what is read: the fields that are not 0, or 27.
DOCUMENT_003 = (
    (
        "Response: Ack, the AckData",
        HELLO,
        {**FROM_1_2, "target_count": 1, "data_start": 11, "data_length": 5},
    ),
    (
        "Response: Ack",
        "AA 20 08 00 01 03 01 02 80 01 00 04 B4 55",
        {"type": 0x20, **FROM_1_3, **ONE_BYTE},
    ),
    (
        "Response: SigStr, the QuerySigStr",
        "AA 30 0B 00 01 02 01 03 80 04 00 FF FF FF FF C2 55",
        PACKET_CONTENT,
    ),
    ("Response: SigStr", "AA 31 0B 00 01 03 01 02 80 04 00 09 03 F2 02 C7 55", PACKET_CONTENT),
    (
        "Packet: BounceBySerNum, sent",
        "AA 33 15 00 01 01 00 00 00 00 80 0C 00 FF FF FF FF E9 03 00 00 E8 03 00 00 A9 55",
        PACKET_CONTENT,
    ),
    (
        "Packet: BounceBySerNum, returned",
        "AA 33 15 00 01 01 7F 00 7F 00 80 0C 00 D0 02 D9 02 E9 03 00 00 E8 03 00 00 58 55",
        PACKET_CONTENT,
    ),
    (
        "Request: ReadMem",
        "AA 80 05 00 01 67 00 02 00 EF 55",
        {"type": 0x80, "memory_space": 1, "memory_address": 0x0067, "memory_length": 2},
    ),
    (
        "Request: ReadMem, returned",
        "AA 86 05 00 80 02 00 01 03 11 55",
        {"type": 0x86, "request_type": 0x80, "data_start": 7, "data_length": 2},
    ),
    ("Request: WriteMem", "AA 81 07 00 01 67 00 02 00 01 04 F7 55", PACKET_CONTENT),
    (
        "Request: WriteMem, returned",
        "AA 86 03 00 81 00 00 0A 55",
        {"type": 0x86, "request_type": 0x81, "data_start": 7},
    ),
    ("Request: SweepFreq", "AA 82 05 00 40 23 04 32 00 20 55", PACKET_CONTENT),
    ("Request: ReadModel", "AA 83 00 00 83 55", PACKET_CONTENT),
    (
        "Request: ReadModel, returned",
        "AA 86 0D 00 83 0A 00 43 44 52 2D 39 31 35 30 58 4C 99 55",
        {"type": 0x86, "request_type": 0x83, "data_start": 7, "data_length": 10},
    ),
    ("Request: SetMode", "AA 88 01 00 00 89 55", PACKET_CONTENT),
    (
        "Request: SetMode, returned",
        "AA 86 03 00 88 00 00 11 55",
        {"type": 0x86, "request_type": 0x88, "data_start": 7},
    ),
)

# What the writers are handed for the seven that are read, in the same order.
WRITTEN_003 = (
    Addressed(0x00, b"\x01\x02", b"\x01\x03", b"Hello"),
    Addressed(0x20, b"\x01\x03", b"\x01\x02", b"\x04"),
    ReadMemory(0x01, 0x0067, 2),
    Success(0x80, b"\x01\x03"),
    Success(0x81, b""),
    Success(0x83, b"CDR-9150XL"),
    Success(0x88, b""),
)
READ_003 = [bytes.fromhex(text) for _, text, fields in DOCUMENT_003 if fields != PACKET_CONTENT]

# The packet that 003 cuts with "...", its other 96 data bytes as 00.
SWEPT = "AA 86 67 00 82 64 00 E0 01 F3 01" + 96 * " 00" + " A8 55"
SWEPT_FIELDS = {"type": 0x86, "request_type": 0x82, "data_start": 7, "data_length": 100}


def check_document_003(compare, rng):
    """Each whole packet of 003 is read or refused, and what is read is written again as it was."""
    compare.same("the packets of 003", (15, 7), (len(DOCUMENT_003), len(READ_003)))
    for _, text, expected in DOCUMENT_003:
        compare.reads(bytes.fromhex(text), expected)
        compare.imports(bytes.fromhex(text), PACKET_CONTENT)
    for block, message in zip(READ_003, WRITTEN_003, strict=True):
        compare.same("what was read", message, message_of(block, compare.decode(block)), block=block)
        compare.writes(message, block, filler(len(block)))
    compare.reads(bytes.fromhex(SWEPT), SWEPT_FIELDS)


# ---- Cases written out by hand ---------------------------------------------------------------

# Packets, the fields that are not 0, and what the writer is handed.
READ = (
    (
        "AA 87 04 00 80 01 00 05 11 55",
        {"type": 0x87, "request_type": 0x80, "failure_code": 5},
        Failure(0x80, 0x05),
    ),
    ("AA 87 04 00 00 01 00 00 8C 55", {"type": 0x87}, Failure(0x00, 0x00)),
    (  # the target is 1:80
        "AA 0F 08 00 01 02 01 80 80 01 00 07 23 55",
        {"type": 0x0F, **FROM_1_2, **ONE_BYTE},
        Addressed(0x0F, SOURCE, b"\x01\x80", b"\x07"),
    ),
    (  # the source is 80:80
        "AA 1F 08 00 80 80 01 03 80 01 00 07 B3 55",
        {"type": 0x1F, "source_group": 0x80, "source_address": 0x80, **ONE_BYTE},
        Addressed(0x1F, b"\x80\x80", TARGET, b"\x07"),
    ),
    (  # two targets
        "AA 15 0A 00 01 02 01 03 01 04 80 01 00 07 B3 55",
        {"type": 0x15, **FROM_1_2, "target_count": 2, "data_start": 13, "data_length": 1},
        Addressed(0x15, SOURCE, b"\x01\x03\x01\x04", b"\x07"),
    ),
    (  # the data are an 80
        "AA 10 08 00 01 02 01 03 80 01 00 80 20 55",
        {"type": 0x10, **FROM_1_2, **ONE_BYTE},
        Addressed(0x10, SOURCE, TARGET, b"\x80"),
    ),
    (  # FF retries
        "AA 2F 08 00 01 02 01 03 80 01 00 FF BE 55",
        {"type": 0x2F, **FROM_1_2, **ONE_BYTE},
        Addressed(0x2F, SOURCE, TARGET, b"\xff"),
    ),
    (
        "AA 80 05 00 00 FF FF FF 03 85 55",
        {"type": 0x80, "memory_address": 0xFFFF, "memory_length": 1023},
        ReadMemory(0x00, 0xFFFF, 1023),
    ),
    (  # 512, which is 2 with the high byte first
        "AA 80 05 00 01 67 00 00 02 EF 55",
        {"type": 0x80, "memory_space": 1, "memory_address": 0x0067, "memory_length": 512},
        ReadMemory(0x01, 0x0067, 512),
    ),
    (  # sixteen targets
        "AA 00 26 00 01 02" + 16 * " 01 03" + " 80 01 00 07 F1 55",
        {**FROM_1_2, "target_count": 16, "data_start": 41, "data_length": 1},
        Addressed(0x00, SOURCE, 16 * TARGET, b"\x07"),
    ),
    (
        "AA 00 06 04 01 02 01 03 80 FF 03" + 1023 * " 5A" + " 39 55",
        {**FROM_1_2, "target_count": 1, "data_start": 11, "data_length": 1023},
        Addressed(0x00, SOURCE, TARGET, 1023 * b"\x5a"),
    ),
    (
        "AA 86 02 04 12 FF 03" + 1023 * " 5A" + " 46 55",
        {"type": 0x86, "request_type": 0x12, "data_start": 7, "data_length": 1023},
        Success(0x12, 1023 * b"\x5a"),
    ),
)

# Blocks by the number that refuses them.
NOT_READ = {
    PACKET_ENDS: (
        "",
        "AA",
        "55",
        "00",
        "55 AA",
        "AA AA",
        "55 55",
        "AA 00 0C 00 01 02 01 03 80 05 00 48 65 6C 6C 6F 8C 54",
        "A9 00 0C 00 01 02 01 03 80 05 00 48 65 6C 6C 6F 8C 55",
        "00 0C 00 01 02 01 03 80 05 00 48 65 6C 6C 6F 8C 55",
        "AA 00 0C 00 01 02 01 03 80 05 00 48 65 6C 6C 6F 8C",
        HELLO + " 00",
    ),
    PACKET_LENGTH: (
        "AA 55",
        "AA 00 55",
        "AA 00 00 55",
        "AA 00 00 00 55",
        "AA 83 00 00 55",
        "AA 83 FF FF 55",
        "AA 83 01 00 84 55",
        "AA 83 00 00 00 83 55",
        "AA 00 0D 00 01 02 01 03 80 05 00 48 65 6C 6C 6F 8D 55",
        "AA 00 0B 00 01 02 01 03 80 05 00 48 65 6C 6C 6F 8B 55",
        "AA 00 0C 01 01 02 01 03 80 05 00 48 65 6C 6C 6F 8D 55",
        "AA 00 00 0C 01 02 01 03 80 05 00 48 65 6C 6C 6F 8C 55",  # high byte first
        "AA 00 12 00 01 02 01 03 80 05 00 48 65 6C 6C 6F 92 55",  # the whole block's length
        HELLO + " 55",
        HELLO + " " + HELLO,
    ),
    PACKET_SUM: (
        "AA 00 0C 00 01 02 01 03 80 05 00 48 65 6C 6C 6F 36 55",  # AA is summed too
        "AA 00 0C 00 01 02 01 03 80 05 00 48 65 6C 6C 6F 80 55",  # the payload alone
        "AA 00 0C 00 01 02 01 03 80 05 00 48 65 6C 6C 6F 8B 55",
        "AA 00 0C 00 01 02 01 03 80 05 00 48 65 6C 6C 6F 8D 55",
        "AA 00 0C 00 01 02 01 03 80 05 00 48 65 6C 6C 6F 73 55",  # the complement
        "AA 00 0C 00 01 02 01 03 80 05 00 48 65 6C 6C 6F 74 55",  # the negative
        "AA 83 00 00 82 55",
        "AA 20 08 00 01 03 01 02 80 01 00 05 B4 55",
        "AA 87 04 00 80 01 00 05 10 55",
    ),
    PACKET_CONTENT: (
        # the type
        "AA 83 00 00 83 55",
        "AA 30 0B 00 01 02 01 03 80 04 00 FF FF FF FF C2 55",
        "AA 30 08 00 01 02 01 03 80 01 00 07 C7 55",
        # no payload, or next to none
        "AA 2F 00 00 2F 55",
        "AA 80 00 00 80 55",
        "AA 86 00 00 86 55",
        "AA 87 00 00 87 55",
        "AA 00 01 00 80 81 55",
        "AA 00 02 00 80 80 02 55",
        # the target count
        "AA 00 06 00 01 02 80 01 00 07 91 55",
        "AA 00 08 00 01 02 01 03 01 00 07 00 17 55",  # no 80
        "AA 00 08 00 01 02 01 80 01 80 07 80 94 55",  # no 80 but as an address
        "AA 00 28 00 01 02" + 17 * " 01 03" + " 80 01 00 07 F7 55",
        # the inner length of AckData, NoAckData and Ack
        "AA 00 05 00 01 02 01 03 80 8C 55",
        "AA 00 06 00 01 02 01 03 80 01 8E 55",
        "AA 00 07 00 01 02 01 03 80 00 00 8E 55",
        "AA 00 08 00 01 02 01 03 80 00 01 07 97 55",  # high byte first
        "AA 00 08 00 01 02 01 03 80 02 00 07 98 55",
        "AA 00 09 00 01 02 01 03 80 01 00 07 07 9F 55",
        "AA 00 07 04 01 02 01 03 80 00 04" + 1024 * " 5A" + " 96 55",
        "AA 10 07 04 01 02 01 03 80 00 04" + 1024 * " 5A" + " A6 55",
        "AA 20 09 00 01 03 01 02 80 02 00 04 04 BA 55",
        "AA 20 07 00 01 03 01 02 80 00 00 AE 55",
        # ReadMem: length, space, payload too long or too short
        "AA 80 05 00 01 67 00 00 00 ED 55",
        "AA 80 05 00 01 67 00 01 00 EE 55",
        "AA 80 05 00 00 00 00 00 04 89 55",
        "AA 80 05 00 02 67 00 02 00 F0 55",
        "AA 80 06 00 01 67 00 02 00 00 F0 55",
        "AA 80 04 00 01 67 00 02 EE 55",
        # the inner length of 86
        "AA 86 01 00 81 08 55",
        "AA 86 02 00 81 00 09 55",
        "AA 86 03 00 81 01 00 0B 55",
        "AA 86 04 00 81 00 00 00 0B 55",
        "AA 86 05 00 80 00 02 01 03 11 55",  # high byte first
        "AA 86 03 04 12 00 04" + 1024 * " 5A" + " A3 55",
        # code and inner length of 87
        "AA 87 04 00 80 01 00 06 12 55",
        "AA 87 03 00 80 00 00 0A 55",
        "AA 87 04 00 80 00 00 05 10 55",
        "AA 87 04 00 80 00 01 05 11 55",  # high byte first
        "AA 87 05 00 80 02 00 05 05 18 55",
    ),
}

# What a writer refuses with 27.
NOT_WRITTEN = (
    *(Addressed(number, SOURCE, TARGET, b"\x07") for number in (0x30, 0x31, 0x33, 0x3F, 0x80, 0x81)),
    *(Addressed(number, SOURCE, TARGET, b"\x07") for number in (0x86, 0x87, 0x88, 0x90, 0xA0, 0xFF)),
    Addressed(0x00, SOURCE, b"", b"\x07"),
    Addressed(0x00, SOURCE, 17 * TARGET, b"\x07"),
    Addressed(0x00, SOURCE, b"\x01", b"\x07"),
    Addressed(0x00, SOURCE, b"\x01\x03\x01", b"\x07"),
    Addressed(0x00, SOURCE, 16 * TARGET + b"\x01", b"\x07"),
    Addressed(0x00, SOURCE, b"\x80\x03", b"\x07"),
    Addressed(0x00, SOURCE, b"\x80\x80", b"\x07"),
    Addressed(0x00, SOURCE, TARGET + b"\x80\x03", b"\x07"),
    Addressed(0x00, SOURCE, 15 * TARGET + b"\x80\x03", b"\x07"),
    Addressed(0x00, SOURCE, TARGET, b""),
    Addressed(0x1F, SOURCE, TARGET, b""),
    Addressed(0x00, SOURCE, TARGET, bytes(1024)),
    Addressed(0x1F, SOURCE, TARGET, bytes(1024)),
    Addressed(0x20, SOURCE, TARGET, b""),
    Addressed(0x20, SOURCE, TARGET, b"\x04\x04"),
    Addressed(0x2F, SOURCE, TARGET, bytes(1023)),
    ReadMemory(0x02, 0x0067, 2),
    ReadMemory(0x80, 0x0067, 2),
    ReadMemory(0xFF, 0x0067, 2),
    ReadMemory(0x01, 0x0067, 0),
    ReadMemory(0x01, 0x0067, 1),
    ReadMemory(0x01, 0x0067, 1024),
    ReadMemory(0x01, 0x0067, 0x8002),
    ReadMemory(0x01, 0x0067, 0xFFFF),
    Success(0x80, bytes(1024)),
    Failure(0x80, 0x06),
    Failure(0x80, 0x80),
    Failure(0x80, 0xFF),
    Export(16, SOURCE, TARGET, 1, 57016),
    Export(0x20, SOURCE, TARGET, 1, 57016),
    Export(0xFF, SOURCE, TARGET, 1, 57016),
    Export(3, SOURCE, TARGET, 0, 57016),
    Export(3, SOURCE, TARGET, 3, 57016),
    Export(3, SOURCE, TARGET, 0xFF, 57016),
    Export(3, SOURCE, b"\x80\x03", 2, 57016),
    Export(3, SOURCE, TARGET + b"\x80\x03", 2, 57016),
    Export(3, SOURCE, b"", 2, 57016),
    Export(3, SOURCE, b"\x01\x03\x01", 2, 57016),
    Export(3, SOURCE, 17 * TARGET, 2, 57016),
)

# Charges, and their packets.
EXPORTED = (
    (Export(3, SOURCE, TARGET, 2, 57016), "AA 13 0A 00 01 02 01 03 80 03 00 02 DE B8 3F 55"),
    (Export(3, SOURCE, b"\x01\x80", 2, 57016), "AA 13 0A 00 01 02 01 80 80 03 00 02 DE B8 BC 55"),
    (Export(0, SOURCE, TARGET, 1, 0), "AA 10 0A 00 01 02 01 03 80 03 00 01 00 00 A5 55"),
    (Export(0, SOURCE, TARGET, 1, 1), "AA 10 0A 00 01 02 01 03 80 03 00 01 00 01 A6 55"),
    (
        Export(15, b"\x80\x80", b"\x01\x03\x02\x04", 1, 65535),
        "AA 1F 0C 00 80 80 01 03 02 04 80 03 00 01 FF FF B7 55",
    ),
    (
        Export(1, SOURCE, 16 * TARGET, 2, 0x8001),
        "AA 11 28 00 01 02" + 16 * " 01 03" + " 80 03 00 02 80 01 82 55",
    ),
)

# Packets that are no charge.
NOT_IMPORTED = (
    "AA 00 0A 00 01 02 01 03 80 03 00 01 DE B8 2B 55",  # AckData
    "AA 0F 0A 00 01 02 01 03 80 03 00 01 DE B8 3A 55",
    "AA 10 0A 00 01 02 01 03 80 03 00 00 DE B8 3A 55",  # the input number
    "AA 10 0A 00 01 02 01 03 80 03 00 03 DE B8 3D 55",
    "AA 10 0A 00 01 02 01 03 80 03 00 FF DE B8 39 55",
    "AA 10 08 00 01 02 01 03 80 01 00 01 A1 55",  # the data's length
    "AA 10 09 00 01 02 01 03 80 02 00 01 DE 81 55",
    "AA 10 0B 00 01 02 01 03 80 04 00 01 DE B8 00 3D 55",
    "AA 86 06 00 10 03 00 01 DE B8 36 55",  # the data of a charge in an 86
    "AA 86 06 00 01 03 00 02 DE B8 28 55",
)


def check_read_cases(compare, rng):
    """Blocks with what is read from them; none of them is a charge."""
    for text, expected, message in READ:
        block = bytes.fromhex(text)
        compare.reads(block, expected)
        compare.imports(block, PACKET_CONTENT)
        compare.writes(message, block, filler(len(block)))
    for number, texts in NOT_READ.items():
        for block in map(bytes.fromhex, texts):
            compare.reads(block, number)
            compare.imports(block, number)


def check_write_cases(compare, rng):
    """What a writer refuses with 27, in buffers that are too short as well: 27 comes before 13."""
    for message, size in itertools.product(NOT_WRITTEN, (*range(25), LONGEST, 1100)):
        compare.writes(message, PACKET_CONTENT, filler(size))


def check_charge_cases(compare, rng):
    """Charges as they are written out, exported and imported; 13 with a byte less of buffer."""
    for message, text in EXPORTED:
        block = bytes.fromhex(text)
        compare.writes(message, block, filler(len(block)))
        compare.writes(message, FRAME_BUFFER_SHORT, filler(len(block) - 1))
        compare.imports(block, (message.input, message.readout))
    for block in map(bytes.fromhex, NOT_IMPORTED):
        compare.imports(block, PACKET_CONTENT)
        compare.same("a packet, but no charge", ACCEPTED, compare.circle(block).refusal, block=block)


# ---- Samples ---------------------------------------------------------------------------------

# All of the above that is written: what the writer is handed, and the packet.
WRITTEN = (
    *zip(WRITTEN_003, READ_003),
    *((message, bytes.fromhex(text)) for text, _, message in READ),
    *((message, bytes.fromhex(text)) for message, text in EXPORTED),
)
BLOCKS = tuple(block for _, block in WRITTEN)
SHORT_BLOCKS = tuple(block for block in BLOCKS if len(block) <= 20)
CHARGE_BLOCK = bytes.fromhex(EXPORTED[0][1])

# A type of AckData, NoAckData and Ack, with the data lengths.
DATA_LENGTHS = ((0x00, range(1, 1024)), (0x1F, range(1, 1024)), (0x20, (1,)))


def addressed(packet_type, source, targets, data):
    """A packet with any targets and data."""
    return packet(packet_type, source + targets + END + counted(data))


def random_targets(rng, count):
    """So many groups and addresses; no group is 80."""
    groups = rng.choices([*range(0x00, 0x80), *range(0x81, 0x100)], k=count)
    return bytes(itertools.chain(*zip(groups, rng.randbytes(count))))


# ---- Types -----------------------------------------------------------------------------------

CHARGE_SHAPE = "01 02 01 03 80 03 00 02 DE B8"

# Payloads of each shape, and the types with which they are read.
SHAPES = (
    ("", ()),
    ("00", ()),
    ("01 02 01 03 80 01 00 07", ADDRESSED_TYPES),
    ("01 02 01 03 02 04 80 01 00 FF", ADDRESSED_TYPES),
    ("01 02 01 03 80 02 00 07 07", DATA_TYPES),
    (CHARGE_SHAPE, DATA_TYPES),
    ("01 02 01 03 80 04 00 FF FF FF FF", DATA_TYPES),  # 003's QuerySigStr
    ("01 02 01 03 80 05 00 48 65 6C 6C 6F", DATA_TYPES),
    ("01 02 01 03 80 00 00", ()),
    ("01 67 00 02 00", (READ_MEM,)),
    ("00 00 00 FF 03", (READ_MEM,)),
    ("01 67 00 02 00 01 04", ()),  # 003's WriteMem
    ("40 23 04 32 00", ()),  # 003's SweepFreq
    ("81 00 00", (SUCCESS,)),
    ("80 02 00 01 03", (SUCCESS,)),
    ("80 01 00 05", (SUCCESS, FAILURE)),
    ("80 01 00 06", (SUCCESS,)),
)


def check_types_read(compare, rng):
    """Every type with a payload of each shape; a charge has the types of NoAckData alone."""
    for (text, types), number in itertools.product(SHAPES, range(256)):
        block = packet(number, bytes.fromhex(text))
        wanted = ACCEPTED if number in types else PACKET_CONTENT
        compare.same("a type", wanted, compare.circle(block).refusal, block=block)
        charge = text == CHARGE_SHAPE and number in NO_ACK_DATA_TYPES
        compare.imports(block, (2, 57016) if charge else PACKET_CONTENT)


def check_types_written(compare, rng):
    """Every type, with no, one and more data bytes; and every type that an 86 or 87 answers."""
    for number in range(256):
        for data, types in ((b"", ()), (b"\x07", ADDRESSED_TYPES), (b"\x07\x07", DATA_TYPES)):
            wanted = addressed(number, SOURCE, TARGET, data) if number in types else PACKET_CONTENT
            compare.writes(Addressed(number, SOURCE, TARGET, data), wanted, filler(20))
        for data in (b"", b"\x07", b"\x01\x03"):
            block = packet(SUCCESS, bytes([number]) + counted(data))
            compare.writes(Success(number, data), block, filler(20))
        for code in range(6):
            block = packet(FAILURE, bytes([number, 1, 0, code]))
            compare.writes(Failure(number, code), block, filler(20))


def check_fields(compare, rng):
    """Each value of the fields that may have any, and of memory space and failure code, which may not."""
    for byte in range(256):
        free = bytes([byte])
        for message in (
            Addressed(0x00, free + b"\x02", TARGET, b"\x07"),
            Addressed(0x10, b"\x01" + free, TARGET, b"\x07"),
            Addressed(0x0F, SOURCE, b"\x01" + free, b"\x07"),
            Addressed(0x20, SOURCE, TARGET, free),
            Addressed(0x1F, SOURCE, TARGET, free),
            Addressed(0x05, SOURCE, TARGET, 9 * free),
        ):
            compare.writes(message, addressed(*message), filler(24))
        for space, code in ((0, 0), (1, 5), (byte, byte)):
            block = packet(READ_MEM, bytes([space]) + free + b"\x67\x02\x00")
            wanted = block if space < 2 else PACKET_CONTENT
            compare.writes(ReadMemory(space, 0x6700 + byte, 2), wanted, filler(11))
            compare.same("a space", wanted == block, compare.circle(block).refusal == 0, block=block)
            block = packet(FAILURE, free + b"\x01\x00" + bytes([code]))
            wanted = block if code < 6 else PACKET_CONTENT
            compare.writes(Failure(byte, code), wanted, filler(10))
            compare.same("a code", wanted == block, compare.circle(block).refusal == 0, block=block)


# ---- Targets ---------------------------------------------------------------------------------


def check_target_counts(compare, rng):
    """Each count, read and written, with several data; and counts that wrap to a small one."""
    counts = (*range(20), 31, 32, 33, 64, 127, 128, 129, 144, 257, 272)
    for count, data in itertools.product(counts, (b"\x07", b"\x80", 5 * b"\x80", bytes(1023))):
        targets = random_targets(rng, count)
        for number, permitted in DATA_LENGTHS:
            fits = 1 <= count <= 16 and len(data) in permitted
            block = addressed(number, SOURCE, targets, data)
            compare.same("a target count", fits, compare.judge(block).refusal == 0, block=block)
            wanted = block if fits else PACKET_CONTENT
            compare.writes(Addressed(number, SOURCE, targets, data), wanted, filler(1100))


def check_target_lengths(compare, rng):
    """Targets of every length up to 40 bytes and of lengths that wrap: a half address is no target."""
    sizes = (*range(41), *(wrap + more for wrap in WRAPS for more in (0, 1, 2, 3, 4, 32, 33)))
    for size in sizes:
        targets = random_targets(rng, size // 2 + 1)[:size]
        fits = size in range(2, 33, 2)
        for number in (0x00, 0x15, 0x2F):
            wanted = addressed(number, SOURCE, targets, b"\x07") if fits else PACKET_CONTENT
            compare.writes(Addressed(number, SOURCE, targets, b"\x07"), wanted, filler(60))
        wanted = addressed(0x15, SOURCE, targets, b"\x01\x00\x02") if fits else PACKET_CONTENT
        compare.writes(Export(5, SOURCE, targets, 1, 2), wanted, filler(60))


def check_target_groups(compare, rng):
    """An 80 in each group's place: the writers refuse it; to the reader the targets end there, and what
    follows is no inner length."""
    for count in range(1, 18):
        for at in range(count):
            targets = random_targets(rng, count)
            # EE and the byte after it are more than the bytes that follow
            targets = targets[: 2 * at] + b"\x80\xee" + targets[2 * at + 2 :]
            for number in (0x00, 0x12, 0x20):
                message = Addressed(number, SOURCE, targets, b"\x07")
                compare.writes(message, PACKET_CONTENT, filler(60))
                compare.reads(addressed(*message), PACKET_CONTENT)
            compare.writes(Export(2, SOURCE, targets, 1, 2), PACKET_CONTENT, filler(60))


def check_target_addresses(compare, rng):
    """An 80 in each address's place, in all of them, and in the source: a byte as any other."""
    for count in range(1, 17):
        places = [(at,) for at in range(count)] + [range(count)]
        for chosen, source in itertools.product(places, (SOURCE, b"\x80\x02", b"\x01\x80", b"\x80\x80")):
            targets = random_targets(rng, count)
            for at in chosen:
                targets = with_byte(targets, 2 * at + 1, 0x80)
            message = Addressed(0x07, source, targets, b"\x07")
            compare.writes(message, addressed(*message), filler(60))
            block = addressed(0x17, source, targets, b"\x01\x02\x03")
            compare.writes(Export(7, source, targets, 1, 0x0203), block, filler(60))


def check_first_end(compare, rng):
    """The first 80 in a group's place is the end, also where the data have a later one that would fit."""
    for count, more in itertools.product(range(1, 17), range(40)):
        # the data's second byte is in a group's place
        data = b"\x05" + random_targets(rng, more) + b"\x80\x01\x00\x07"
        block = addressed(0x0A, SOURCE, random_targets(rng, count), data)
        fields = {"target_count": count, "data_start": 9 + 2 * count, "data_length": len(data)}
        compare.reads(block, {"type": 0x0A, **FROM_1_2, **fields})


def check_no_end(compare, rng):
    """Payloads of every length that have no 80 in a group's place, or have one as the last byte."""
    for size, number in itertools.product(range(80), (0x00, 0x10, 0x20)):
        payload = (SOURCE + random_targets(rng, 39))[:size]
        compare.reads(packet(number, payload), PACKET_CONTENT)
        plain = (b"\x01\x80" * 40)[:size]  # every address is 80
        compare.reads(packet(number, plain), PACKET_CONTENT)
        compare.reads(packet(number, plain + END), PACKET_CONTENT)
        if size > 1:  # the sum, which is in a group's place if the size is even, is 80
            byte = (payload[1] + 0x80 - packet(number, payload)[-2]) % 256
            compare.reads(packet(number, with_byte(payload, 1, byte)), PACKET_CONTENT)


# ---- Data ------------------------------------------------------------------------------------

# Up to the limit and some over it, and some that wrap to a small length.
READ_LENGTHS = (*range(1080), 2047, 2048, 2053, 4096, 4101, 32769, 65528)
WRITE_LENGTHS = (*READ_LENGTHS, *(wrap + more for wrap in WRAPS for more in (0, 1, 3, 1023)))


def check_data_read(compare, rng):
    """Data of each length after a right inner length."""
    for length in READ_LENGTHS:
        data = rng.randbytes(length)
        for number, permitted in DATA_LENGTHS:
            fields = {"target_count": 1, "data_start": 11, "data_length": length}
            wanted = {"type": number, **FROM_1_2, **fields} if length in permitted else PACKET_CONTENT
            compare.reads(addressed(number, SOURCE, TARGET, data), wanted)
        fields = {"type": SUCCESS, "request_type": 0x80, "data_start": 7, "data_length": length}
        wanted = fields if length <= 1023 else PACKET_CONTENT
        compare.reads(packet(SUCCESS, b"\x80" + counted(data)), wanted)
        fields = {"type": FAILURE, "request_type": 0x80, "failure_code": 3}
        wanted = fields if length == 1 else PACKET_CONTENT
        compare.reads(packet(FAILURE, b"\x80" + counted(length * b"\x03")), wanted)
        data = (b"\x02\xde\xb8" + data)[:length]  # a charge, where these are three bytes
        wanted = (2, 57016) if length == 3 else PACKET_CONTENT
        compare.imports(addressed(0x1A, SOURCE, TARGET, data), wanted)


def check_data_written(compare, rng):
    """Data of each length, to one target and to sixteen, in a buffer just long enough or longer."""
    for length in WRITE_LENGTHS:
        data, more = rng.randbytes(length), length % 3
        for (number, permitted), count in itertools.product(DATA_LENGTHS, (1, 16)):
            message = Addressed(number, SOURCE, count * TARGET, data)
            wanted = addressed(*message) if length in permitted else PACKET_CONTENT
            compare.writes(message, wanted, filler(11 + 2 * count + length + more))
        wanted = packet(SUCCESS, b"\x12" + counted(data)) if length <= 1023 else PACKET_CONTENT
        compare.writes(Success(0x12, data), wanted, filler(9 + length + more))


def check_memory_lengths(compare, rng):
    """Each length that is asked for, up to two over the limit, and others over all 16 bits."""
    others = {*range(1026, 65536, 61), *(256 * high + low for high in range(256) for low in (0, 2, 255))}
    for length in (*range(1026), *sorted(others)):
        for space, address in ((0, 0x1234), (1, 0xFF80)):
            numbers = address.to_bytes(2, "little") + length.to_bytes(2, "little")
            block = packet(READ_MEM, bytes([space]) + numbers)
            fits = 2 <= length <= 1023
            compare.writes(ReadMemory(space, address, length), block if fits else PACKET_CONTENT, filler(11))
            compare.same("a length", fits, compare.decode(block).refusal == ACCEPTED, block=block)


def check_memory_addresses(compare, rng):
    """Each address, read and written."""
    for address in range(65536):
        space = address % 2
        block = packet(READ_MEM, bytes([space]) + address.to_bytes(2, "little") + b"\x02\x03")
        read = compare.circle(block)
        compare.same("an address", (0, address), (read.refusal, read.memory_address), block=block)


# ---- Lengths ---------------------------------------------------------------------------------


def check_outer_lengths(compare, rng):
    """Every value of the two length bytes, with a right sum: 25 for all but one."""
    for length in range(65536):
        low_high = length.to_bytes(2, "little")
        block = mended(b"\xaa\x00" + low_high + b"\x01\x02\x01\x03\x80\x05\x00Hello\x00\x55")
        wanted = ACCEPTED if length == 12 else PACKET_LENGTH
        compare.same("a length", wanted, compare.decode(block).refusal, block=block)
        block = mended(b"\xaa\x13" + low_high + CHARGE_BLOCK[4:])
        wanted = ACCEPTED if length == 10 else PACKET_LENGTH
        compare.same("a length", wanted, compare.import_charge(block).refusal, block=block)


def check_long_blocks(compare, rng):
    """Blocks of up to 65,541 bytes, the longest for which two length bytes are enough, and longer ones,
    also with a length that wraps to the right one."""
    for size in (1031, 4096, 32767, 32768, 65528, 65529, 65534, 65535):
        data = rng.randbytes(size - 7)
        for number in (0x00, 0x10, 0x20, READ_MEM, SUCCESS, FAILURE, 0x83):
            block = addressed(number, SOURCE, TARGET, data)
            compare.same("a block's length", size + 6, len(block))
            compare.reads(block, PACKET_CONTENT)
            compare.imports(block, PACKET_CONTENT)
            compare.reads(with_byte(block, size + 4, block[-2] ^ 0x80), PACKET_SUM)
            compare.reads(block[:-2] + b"\x00" + block[-2:], PACKET_LENGTH)
    for block, wrap in itertools.product(BLOCKS, WRAPS):
        for longer in (block[:-2] + bytes(wrap) + block[-2:], block[:4] + bytes(wrap) + block[4:]):
            compare.reads(longer, PACKET_LENGTH)
            compare.imports(longer, PACKET_LENGTH)


def check_short_blocks(compare, rng):
    """Every block of one byte, each two ends by themselves, and up to five bytes between right ends."""
    for byte in range(256):
        compare.reads(bytes([byte]), PACKET_ENDS)
        compare.imports(bytes([byte]), PACKET_ENDS)
    for ends in itertools.product(range(256), repeat=2):
        wanted = PACKET_LENGTH if ends == (0xAA, 0x55) else PACKET_ENDS
        compare.same("two bytes", wanted, compare.decode(bytes(ends)).refusal, block=bytes(ends))
    for size in range(6):
        for middle in itertools.product((0x00, 0x01, 0x55, 0x83, 0xAA, 0xFF), repeat=size):
            compare.judge(b"\xaa" + bytes(middle) + b"\x55")


# Types, what is before the inner length, and the data after it.
COUNTED = (
    (0x00, SOURCE + TARGET + END, b"Hello"),
    (0x10, SOURCE + 16 * TARGET + END, b"Hello"),
    (0x13, SOURCE + TARGET + END, b"\x02\xde\xb8"),
    (0x1F, SOURCE + TARGET + END, 260 * b"\x5a"),
    (0x0F, SOURCE + TARGET + END, 1023 * b"\x80"),
    (0x20, SOURCE + TARGET + END, b"\x04"),
    (SUCCESS, b"\x80", b""),
    (SUCCESS, b"\x80", b"\x01\x03"),
    (SUCCESS, b"\x80", 258 * b"\x5a"),
    (SUCCESS, b"\x80", 1023 * b"\x80"),
    (FAILURE, b"\x80", b"\x05"),
)


def check_inner_lengths(compare, rng):
    """Each value of either byte, the bytes swapped, lengths close to the right one: 27 for all but that."""
    for number, head, data in COUNTED:
        right = len(data)
        low, high = right % 256, right // 256
        lengths = {256 * high + byte for byte in range(256)} | {256 * byte + low for byte in range(256)}
        lengths |= {256 * low + high, 65535 - right, *range(right, right + 12)}
        for length in sorted(lengths):
            block = packet(number, head + length.to_bytes(2, "little") + data)
            wanted = ACCEPTED if length == right else PACKET_CONTENT
            compare.same("an inner length", wanted, compare.judge(block).refusal, block=block)


def check_every_inner_length(compare, rng):
    """All values of the inner length of one packet."""
    for length in range(65536):
        block = packet(0x03, b"\x01\x02\x01\x03\x80" + length.to_bytes(2, "little") + b"Hello")
        wanted = ACCEPTED if length == 5 else PACKET_CONTENT
        compare.same("an inner length", wanted, compare.decode(block).refusal, block=block)


# ---- Damage ----------------------------------------------------------------------------------

SOME_BYTES = b"\x00\x01\x02\x06\x10\x20\x30\x55\x7f\x80\x81\x86\x87\xaa\xfe\xff"


def damage_of(block):
    """The bytes that each byte of a packet is replaced by: all if it is short, few if it is long."""
    if len(block) <= 20:
        return range(256)
    return SOME_BYTES if len(block) <= 100 else b"\x00\x80"


def check_damage(compare, rng):
    """Each byte of a packet by itself: with the sum as it was, where no damage passes, and made right."""
    for block in BLOCKS:
        for at, byte in itertools.product(range(len(block)), damage_of(block)):
            other = with_byte(block, at, byte)
            seen = compare.judge(other).refusal != ACCEPTED
            compare.same("damage", other != block, seen, block=block, damaged=other)
            compare.judge(mended(other))


def check_two_damages(compare, rng):
    """Two bytes of a packet at once, with the sum made right, or one up and one down so that it stays."""
    for block, _ in itertools.product(SHORT_BLOCKS, range(1000)):
        first, second = rng.sample(range(1, len(block) - 2), 2)
        other = with_byte(with_byte(block, first, rng.randrange(256)), second, rng.choice(SOME_BYTES))
        compare.judge(mended(other))
        step = rng.randrange(256)
        other = with_byte(block, first, (block[first] + step) % 256)
        compare.judge(with_byte(other, second, (block[second] - step) % 256))


def cut_refusal(part):
    """What the first bytes of a packet give: 24, unless they end in a 55 of the data."""
    return PACKET_LENGTH if len(part) > 1 and part[-1] == 0x55 else PACKET_ENDS


def check_cuts(compare, rng):
    """Packets that are cut at each place, or lose or gain a byte there, and packets with more after them."""
    for block in BLOCKS:
        for at in range(len(block)):
            compare.reads(block[:at], cut_refusal(block[:at]))
            compare.imports(block[:at], cut_refusal(block[:at]))
            for other in (block[:at] + b"\x55", b"\xaa" + block[at:], block[at:]):
                compare.judge(other)
            compare.judge(block[:at] + block[at + 1 :])
            for byte in (b"\x00", b"\x55", b"\x80", b"\xaa"):
                compare.judge(block[:at] + byte + block[at:])
        for more in (b"\x00", b"\x55", b"\xaa", b"\x00\x55", block, bytes(250) + b"\x55"):
            wanted = PACKET_LENGTH if more.endswith(b"\x55") else PACKET_ENDS
            compare.reads(block + more, wanted)
            compare.imports(block + more, wanted)


def check_cut_payloads(compare, rng):
    """The same of payloads, with outer length and sum made right."""
    for block in BLOCKS:
        number, payload = block[1], block[4:-2]
        for at in range(len(payload)):
            cut = packet(number, payload[:at])
            compare.same("a cut payload", PACKET_CONTENT, compare.judge(cut).refusal, block=cut)
            compare.judge(packet(number, payload[at + 1 :]))
            compare.judge(packet(number, payload[:at] + payload[at + 1 :]))
            for byte in (b"\x00", b"\x01", b"\x80"):
                compare.judge(packet(number, payload[:at] + byte + payload[at:]))
        for more in (b"\x00", b"\x80", b"\x01\x00", bytes(256)):
            longer = packet(number, payload + more)
            compare.same("a long payload", PACKET_CONTENT, compare.judge(longer).refusal, block=longer)


# ---- Buffers ---------------------------------------------------------------------------------


def check_buffers(compare, rng):
    """Buffers around each packet's length and of lengths that wrap, with several contents: 13 if they are
    shorter than the packet; else what is after the packet stays."""
    for message, block in WRITTEN:
        size = len(block)
        for room in (0, 1, size - 2, size - 1, size, size + 1, size + 2, size + 40):
            for buffer in (filler(room), bytes(room), room * b"\xff", rng.randbytes(room)):
                compare.writes(message, block if room >= size else FRAME_BUFFER_SHORT, buffer)
        for wrap, more in itertools.product(WRAPS, (0, 1, size - 1, size)):
            wanted = block if wrap + more >= size else FRAME_BUFFER_SHORT
            compare.writes(message, wanted, filler(wrap + more))


def check_every_buffer(compare, rng):
    """Every length of a buffer, from none to some bytes over the packet's; the longest packet too."""
    longest = Addressed(0x0C, SOURCE, 16 * TARGET, rng.randbytes(1023))
    for message, block in (*WRITTEN, (longest, addressed(*longest))):
        for room in range(len(block) + 10):
            wanted = ACCEPTED if room >= len(block) else FRAME_BUFFER_SHORT
            came = compare.write(message, filler(room))[0]
            compare.same("an outcome", wanted, came, message=message, room=room)
    compare.same("the longest packet", LONGEST, len(block))


# ---- Order -----------------------------------------------------------------------------------

# Blocks whose frame is right, and what the reader gives.
ORDERED = (
    (HELLO, ACCEPTED),
    ("AA 13 0A 00 01 02 01 03 80 03 00 02 DE B8 3F 55", ACCEPTED),
    ("AA 80 05 00 01 67 00 02 00 EF 55", ACCEPTED),
    ("AA 86 03 00 81 00 00 0A 55", ACCEPTED),
    ("AA 87 04 00 80 01 00 05 11 55", ACCEPTED),
    ("AA 83 00 00 83 55", PACKET_CONTENT),
    ("AA 30 08 00 01 02 01 03 80 01 00 07 C7 55", PACKET_CONTENT),
    ("AA 00 06 00 01 02 80 01 00 07 91 55", PACKET_CONTENT),
    ("AA 00 08 00 01 02 01 03 80 02 00 07 98 55", PACKET_CONTENT),
    ("AA 80 05 00 01 67 00 01 00 EE 55", PACKET_CONTENT),
    ("AA 80 05 00 02 67 00 02 00 F0 55", PACKET_CONTENT),
    ("AA 87 04 00 80 01 00 06 12 55", PACKET_CONTENT),
)
ENDS = (b"\xaa", b"\x55")
WRONG_ENDS = ((b"\xab", b"\x55"), (b"\x55", b"\x55"), (b"\xaa", b"\x54"), (b"\xaa", b"\xaa"), ENDS[::-1])


def with_faults(block, refusal):
    """A block with each set of faults in its frame, and what is given then: the first fault in order."""
    steps = (0, 1, 256, 65535), (0, 1, 0xAA, 255)
    for step, sum_step, ends in itertools.product(*steps, (ENDS, *WRONG_ENDS)):
        length = (int.from_bytes(block[2:4], "little") + step) % 65536
        other = mended(block[:2] + length.to_bytes(2, "little") + block[4:])
        other = ends[0] + other[1:-2] + bytes([(other[-2] + sum_step) % 256]) + ends[1]
        if ends != ENDS:
            yield other, PACKET_ENDS
        elif step:
            yield other, PACKET_LENGTH
        else:
            yield other, PACKET_SUM if sum_step else refusal


def check_order(compare, rng):
    """With several faults at once both readers give 24 before 25 before 26 before 27. (The writers' 27
    before 13 is in check_write_cases.)"""
    for text, refusal in ORDERED:
        block = bytes.fromhex(text)
        for other, first in with_faults(block, refusal):
            compare.same("faults", first, compare.circle(other).refusal, block=other)
        for other, first in with_faults(block, PACKET_CONTENT if block != CHARGE_BLOCK else ACCEPTED):
            compare.same("faults", first, compare.import_charge(other).refusal, block=other)


# ---- Charges ---------------------------------------------------------------------------------


def check_every_readout(compare, rng):
    """Each of the 65,536 readouts through an export and the import of what it wrote."""
    buffer = filler(18)
    for readout in range(65536):
        message = Export(readout // 2 % 16, SOURCE, TARGET, 1 + readout % 2, readout)
        _, length, after = compare.write(message, buffer)
        charge = compare.import_charge(after[:length])
        compare.same("a readout", (0, message.input, readout), charge, message=message)


def check_charge_numbers(compare, rng):
    """Each sequence number, and each input number with several readouts, exported and imported."""
    charges = ((1, 0), (2, 57016), (0, 1), (3, 65535))
    for sequence, (number, readout) in itertools.product(range(256), charges):
        message = Export(sequence, SOURCE, TARGET, number, readout)
        data = bytes([number]) + readout.to_bytes(2, "big")
        fits = sequence <= 15 and number in (1, 2)
        wanted = addressed(0x10 + sequence, SOURCE, TARGET, data) if fits else PACKET_CONTENT
        compare.writes(message, wanted, filler(17))
    for number, readout in itertools.product(range(256), (0, 1, 0x0100, 0x0201, 57016, 0x8000, 65535)):
        data = bytes([number]) + readout.to_bytes(2, "big")
        for sequence in (0, 9, 15):
            block = addressed(0x10 + sequence, SOURCE, TARGET, data)
            compare.imports(block, (number, readout) if number in (1, 2) else PACKET_CONTENT)
            wanted = block if number in (1, 2) else PACKET_CONTENT
            compare.writes(Export(sequence, SOURCE, TARGET, number, readout), wanted, filler(16))
        compare.imports(addressed(0x00, SOURCE, TARGET, data), PACKET_CONTENT)
        compare.imports(packet(SUCCESS, b"\x10" + counted(data)), PACKET_CONTENT)


# ---- Random packets --------------------------------------------------------------------------


def near(rng, *limits):
    """A number at a limit or next to it."""
    return max(rng.choice(limits) + rng.choice((-1, 0, 0, 0, 1)), 0)


def random_data(rng):
    """Mostly a few bytes; some are at the limit of 1,023."""
    kind = rng.random()
    if kind < 0.9:
        return rng.randbytes(rng.choice((0, 1, 1, 2, 3, 3, 4, rng.randrange(30))))
    return rng.randbytes(near(rng, 1023) if kind < 0.93 else rng.randrange(300))


def random_target_bytes(rng):
    """Mostly as targets have to be; some with groups 80, some with half an address."""
    targets = random_targets(rng, rng.choice((1, 1, 2, 3, near(rng, 1, 16))))
    kind = rng.random()
    if kind < 0.05:
        return targets[:-1]
    return bytes(rng.choices(b"\x01\x80", k=len(targets))) if kind < 0.1 else targets


def random_message(rng):
    """What one of the writers is handed, mostly something that it writes."""
    source, targets, kind = rng.randbytes(2), random_target_bytes(rng), rng.random()
    if kind < 0.4:
        number = rng.randrange(256) if kind < 0.04 else rng.randrange(0x30)
        data = rng.randbytes(1) if number in ACK_TYPES and rng.random() < 0.8 else random_data(rng)
        return Addressed(number, source, targets, data)
    if kind < 0.6:
        return Export(near(rng, 0, 15), source, targets, near(rng, 1, 2), rng.randrange(65536))
    if kind < 0.7:
        return ReadMemory(near(rng, 0, 1), rng.randrange(65536), near(rng, 2, 500, 1023))
    if kind < 0.85:
        return Success(rng.randrange(256), random_data(rng))
    return Failure(rng.randrange(256), near(rng, 0, 2, 5))


def changed(rng, block):
    """A block with one byte replaced, removed, added or moved."""
    at, kind = rng.randrange(len(block)), rng.random()
    if kind < 0.5:
        return with_byte(block, at, rng.choice((rng.randrange(256), rng.choice(SOME_BYTES))))
    if kind < 0.7:
        return block[:at] + block[at + 1 :]
    if kind < 0.85:
        return block[:at] + rng.randbytes(1) + block[at:]
    rest = block[:at] + block[at + 1 :]
    to = rng.randrange(len(block))
    return rest[:to] + block[at : at + 1] + rest[to:]


def damaged(rng, block):
    """A packet with up to three changes; after most of them the whole frame or the sum is made right."""
    for _ in range(rng.choice((1, 1, 2, 3))):
        block = changed(rng, block)
        kind = rng.random()
        if kind < 0.5:
            block = packet(block[1], block[4:-2])
        elif kind < 0.75:
            block = mended(block)
    return block


def check_random_messages(compare, rng):
    """Messages in buffers that are long enough or not."""
    for _ in range(15_000):
        message = random_message(rng)
        compare.reread(message, rng.randbytes(rng.choice((LONGEST, 1100, rng.randrange(80)))))
        _, length, after = compare.write(message, bytes(LONGEST))
        if length:
            buffer, block = rng.randbytes(near(rng, length)), after[:length]
            compare.writes(message, block if len(buffer) >= length else FRAME_BUFFER_SHORT, buffer)


def check_random_damage(compare, rng):
    """Packets from the writers, damaged."""
    for _ in range(15_000):
        _, length, after = compare.write(random_message(rng), bytes(LONGEST))
        block = after[:length] or rng.choice(SHORT_BLOCKS)
        for _ in range(3):
            compare.judge(damaged(rng, block))


def check_random_blocks(compare, rng):
    """Random bytes: by themselves, between right ends, and as payloads."""
    few = b"\x00\x00\x01\x01\x02\x03\x05\x10\x20\x80\x80\x86\x87"
    for _ in range(10_000):
        compare.judge(rng.randbytes(rng.randrange(40)))
        compare.judge(b"\xaa" + rng.randbytes(rng.randrange(12)) + b"\x55")
        compare.judge(packet(rng.choice(SERVED_TYPES), rng.randbytes(rng.randrange(60))))
        compare.judge(packet(rng.choice(SERVED_TYPES), bytes(rng.choices(few, k=rng.randrange(24)))))


# ---- The run ---------------------------------------------------------------------------------

CHECKS = (
    check_document_003,
    check_read_cases,
    check_write_cases,
    check_charge_cases,
    check_types_read,
    check_types_written,
    check_fields,
    check_target_counts,
    check_target_lengths,
    check_target_groups,
    check_target_addresses,
    check_first_end,
    check_no_end,
    check_data_read,
    check_data_written,
    check_memory_lengths,
    check_memory_addresses,
    check_outer_lengths,
    check_long_blocks,
    check_short_blocks,
    check_inner_lengths,
    check_every_inner_length,
    check_damage,
    check_two_damages,
    check_cuts,
    check_cut_payloads,
    check_buffers,
    check_every_buffer,
    check_order,
    check_every_readout,
    check_charge_numbers,
    check_random_messages,
    check_random_damage,
    check_random_blocks,
)

# The outcomes that each entry has, and the types that it accepts.
OUTCOMES = {entry: sorted({ACCEPTED, *OWN[entry]}) for entry in SIGNATURES}
TYPES = {
    "coyote_decode": SERVED_TYPES,
    "coyote_encode_addressed": ADDRESSED_TYPES,
    "coyote_encode_read_memory": (READ_MEM,),
    "coyote_encode_success": (SUCCESS,),
    "coyote_encode_failure": (FAILURE,),
    "coyote_export_charge": NO_ACK_DATA_TYPES,
    "coyote_import_charge": NO_ACK_DATA_TYPES,
}


def main(checks, whole):
    Comparison(load_entries()).run_all(checks, whole, SEED, OUTCOMES, TYPES)


if __name__ == "__main__":
    run_test(CHECKS, main)

"""Payloads and values at each limit of document 01, as text: what is refused, by number, and what lies
just inside and is accepted.
"""

import collections

from states import COPIES

# ---- One fault -------------------------------------------------------------------------------

# Payloads: a number, what it refuses, and what is accepted beside it.
PAYLOADS = (
    (7, ("00", "00 15", "05 15", "FF 15"), ("01 15", "02 15 06", "03 15", "04 15 06")),
    (7, ("80", "83", "83 15", "C0", "C1 15"), ("81", "82")),
    # no item
    (8, ("01", "02", "03", "04"), ("01 15", "02 15 06", "03 15", "04 15 06")),
    # a long 81 or 82
    (8, ("81 00", "81 15", "81 AB 7E", "82 00", "82 82"), ("81", "82")),
    # any other length: reads
    (8, ("01 15 00", "03 15 00", "01 15" + 125 * " 00"), ("01 15", "03 15")),
    (8, ("01 16", "03 16", "01 16 02 00", "03 16 02 00"), ("01 16 02", "03 16 02")),
    (8, ("01 18", "03 18", "01 18 00 00", "03 18 00 00"), ("01 18 00", "03 18 00")),
    # ... and commands with a value
    (8, ("02 15", "04 15", "02 15 06 00", "04 15 06 00"), ("02 15 06", "04 15 06")),
    (8, ("04 10", "04 10 01 02 03", "04 10 01 02 03 04 05"), ("04 10 01 02 03 04",)),
    (8, ("02 16 01", "02 16 01 04 01 00 00"), ("02 16 01 04 01 00 00 00",)),
    (8, ("04 16 02 04 01 00 00 00 00",), ("04 16 02 04 01 00 00 00",)),
    (8, ("04 18 27", "04 18 27 01 02 03 04"), ("04 18 27 01 02 03 04 05",)),
    (8, ("04 18 00 01 02 03 04 05 06",), ("04 18 00 01 02 03 04 05",)),
    (9, ("01 00", "01 04", "01 0F"), ("01 01", "01 03", "01 10")),
    (9, ("01 17", "02 17 00", "03 17", "04 17 00"), ("01 16 01", "02 15 00", "03 15", "04 15 00")),
    (9, ("01 19", "01 1A", "01 1F"), ("01 18 00", "01 20")),
    (9, ("01 24", "02 24 00"), ("01 23", "01 25", "02 25 00")),
    (9, ("01 27", "01 28", "01 29", "01 FF"), ("01 26",)),
    (10, ("02 01 00", "04 01 00"), ("01 01", "03 01")),
    (10, ("02 02 01 02 03", "04 02 01 02 03"), ("01 02", "03 02")),
    (10, ("02 03 01 02 03 04", "04 03 01 02 03 04"), ("01 03", "03 03")),
    (10, ("02 10 01 02 03 04",), ("01 10", "03 10", "04 10 FF FF FF FF")),
    (10, ("02 18 00 01 02 03 04 05",), ("01 18 00", "03 18 00", "04 18 00 01 02 03 04 05")),
    (10, ("02 20 00 00", "03 20", "04 20 00 00"), ("01 20",)),
    (10, ("02 21 00 00", "03 21", "04 21 00 00"), ("01 21",)),
    (10, ("02 22 00", "03 22", "04 22 00"), ("01 22",)),
    (10, ("02 23 00 00 00 00", "03 23", "04 23 00 00 00 00"), ("01 23",)),
    (10, ("03 25",), ("01 25", "02 25 FF", "04 25 FF")),
    (10, ("02 26 00", "03 26", "04 26 00"), ("01 26",)),
    # the others permit every command
    (10, (), ("01 11", "02 11 FF", "03 11", "04 11 FF", "01 12", "02 12 FF", "03 12", "04 12 FF")),
    (11, ("01 16 00", "01 16 03", "03 16 00", "03 16 03"), ("01 16 01", "01 16 02", "03 16 01")),
    (11, ("02 16 00 04 01 00 00 00", "04 16 03 04 01 00 00 00"), ("04 16 02 04 01 00 00 00",)),
    (11, ("01 16 FF", "01 18 FF"), ()),
    (11, ("01 18 28", "03 18 28"), ("01 18 00", "01 18 27", "03 18 00", "03 18 27")),
    (11, ("04 18 28 01 02 03 04 05",), ("04 18 27 01 02 03 04 05",)),
)

# Values of 16: channel, readings averaged, reference, and an offset of any value.
BAD_INPUTS = (
    "00 01 00 00 00",
    "03 01 00 00 00",
    "08 01 00 00 00",
    "FD 01 00 00 00",
    "04 00 00 00 00",
    "04 11 00 00 00",
    "04 01 02 00 00",
    "04 01 FF 00 00",
)
GOOD_INPUTS = ("04 01 00 00 00", "07 10 01 7F FF", "FE 01 00 80 00", "FF 10 01 FF FF")

# Values of 18: four address bytes and a mask.
BAD_SLOTS = ("00 00 00 00 01", "00 00 00 00 80", "00 00 00 00 FF")
GOOD_SLOTS = ("00 00 00 00 00", "00 00 00 01 00", "01 00 00 00 FF", "FF FF FF FF 00")


def both_copies(setting):
    """The two fields of a state that hold a setting."""
    return tuple(f"{copy}.{setting}" for copy in COPIES)


# Where a value is: after the first bytes of commands (12), in fields of a state (2), and from a place
# of an image on (2); and which values are refused and accepted there.
Limit = collections.namedtuple("Limit", "commands fields image refused accepted")
LIMITS = (
    # a signed byte, -20 to +10
    Limit(
        ("02 13", "04 13"),
        both_copies("tx_power"),
        35,
        ("EB", "80", "7F", "0C", "0B"),
        ("EC", "FF", "00", "0A"),
    ),
    # bits 5 to 7 zero
    Limit(
        ("02 14", "04 14"),
        both_copies("control_source"),
        36,
        ("20", "40", "80", "3F"),
        ("00", "1F"),
    ),
    Limit(
        ("02 15", "04 15"),
        both_copies("message_select"),
        37,
        ("07", "FF"),
        ("00", "06"),
    ),
    Limit(
        ("02 16 01", "04 16 01"),
        both_copies("analog_inputs.0"),
        38,
        BAD_INPUTS,
        GOOD_INPUTS,
    ),
    Limit(
        ("02 16 02", "04 16 02"),
        both_copies("analog_inputs.1"),
        43,
        BAD_INPUTS,
        GOOD_INPUTS,
    ),
    Limit(("04 18 00",), ("stored.slots.0",), 48, BAD_SLOTS, GOOD_SLOTS),
    Limit(("04 18 27",), ("stored.slots.39",), 243, BAD_SLOTS, GOOD_SLOTS),
    # the name needs a 00 at any place; no command stores it
    Limit((), ("stored.name",), 5, (17 * "41",), (16 * "41" + "00", "00" + 16 * "41")),
    # mode 0 to 4 in bits 0 to 2, and bits 4 and 5 free; no part of an image
    Limit((), ("live.flags",), None, ("05", "07", "08", "40", "80"), ("04", "30", "34")),
    # no limits: firmware, serial and address; 11 and 12; 25; lines, RSSI, LADJ and events; hardware
    Limit((), ("stored.firmware",), 22, (), (11 * "FF",)),
    Limit((), both_copies("line_mask"), 33, (), ("FF FF",)),
    Limit((), both_copies("interrupt_mask"), 248, (), ("FF",)),
    Limit((), ("live.lines",), None, (), (6 * "FF",)),
    Limit((), ("live.hardware",), None, (), ("FF FF FF",)),
)


def at_limit(limit, made):
    """What is made of a limit's values: of those that are refused, and of those accepted."""
    return [*map(made, limit.refused)], [*map(made, limit.accepted)]


def payload_cases():
    """The cases of payloads, as text: a number, what it refuses, and what is accepted beside it."""
    yield from PAYLOADS
    for limit in LIMITS:
        for command in limit.commands:
            yield 12, *at_limit(limit, lambda value: f"{command} {value}")


# ---- Two faults ------------------------------------------------------------------------------

# The number that is given, the one after it, a payload to which both apply, and the payload without
# the first fault.
PAYLOAD_ORDER = (
    (7, 8, "05", "01"),
    (7, 8, "83", "03"),
    (7, 9, "05 17", "01 17"),
    # a long 81 has a byte where other commands have their item; without an item there is no 9
    (8, 9, "81 17", "01 17"),
    (8, 9, "81 00", "01 00"),
    (8, 9, "82 00", "03 00"),
    # too short for an item of any length, and too long for a Read of any
    (9, 8, "02 17", "02 16"),
    (9, 8, "02 17 00 00", "02 16 00 00"),
    (9, 8, "01 17 00 00", "01 16 00 00"),
    (10, 8, "02 01", "02 11"),
    (10, 8, "04 26", "04 25"),
    (10, 8, "04 26 00 00", "04 25 00 00"),
    (10, 8, "03 25 00", "01 25 00"),
    (10, 8, "02 18 28", "04 18 28"),
    (10, 11, "02 18 28 01 02 03 04 05", "04 18 28 01 02 03 04 05"),
    (10, 12, "02 18 27 00 00 00 00 01", "04 18 27 00 00 00 00 01"),
    (8, 11, "01 16 03 00", "01 16 03"),
    (8, 11, "04 18 28 00 00 00 00", "04 18 28 00 00 00 00 00"),
    (8, 12, "02 15 07 00", "02 15 07"),
    (11, 12, "04 18 28 00 00 00 00 01", "04 18 27 00 00 00 00 01"),
    (11, 12, "02 16 00 03 00 02 00 00", "02 16 01 03 00 02 00 00"),
)


def refused_payloads():
    """Every payload that is refused, as text, with its number."""
    yield 3, ""
    for number, refused, _ in payload_cases():
        yield from ((number, payload) for payload in refused)
    for first, second, both, mended in PAYLOAD_ORDER:
        yield from ((first, both), (second, mended))

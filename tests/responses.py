"""Responses that the tests hand to the reader of document 02's Ask 1, each with the payload that was sent: cases that are written
down, true responses and damaged ones, every pair of two value bytes, and blocks that are no response at all.
"""

import itertools

import reference
from cases import refused_payloads
from library import with_byte
from payloads import ALL_INDEXES, WRAPS, accepted_payloads, edge_payloads, frame, likely_payload, random_block, random_payload
from states import random_state

# ---- Cases -----------------------------------------------------------------------------------

# A payload that was sent, the payload that came back, and the value, or the echo, that is read from it; or the place, for 23.
PAYLOAD_CASES = (
    ("01 15", "C1 15 06", "06"),
    ("01 15", "C1 15 07", 2),
    ("01 15", "C1 15", 2),
    ("01 15", "C1 15 06 00", 3),
    ("01 15", "C2 15 06", 0),
    ("01 15", "C1 14 06", 1),
    ("01 15", "C0 00 01 15", 0),
    ("03 15", "C2 15 06", "06"),
    ("03 15", "C1 15 06", 0),
    # a name: 0 to 16 bytes that are not 00, and the 00
    ("01 01", "C1 01 00", "00"),
    ("01 01", "C1 01 41 42 00", "41 42 00"),
    ("01 01", "C1 01 41 42", 4),
    ("01 01", "C1 01 41 00 42", 4),
    ("01 01", "C1 01" + 16 * " 41" + " 00", 16 * "41 " + "00"),
    ("01 01", "C1 01" + 17 * " 41", 18),
    ("01 01", "C1 01" + 16 * " 41", 18),
    ("01 01", "C1 01" + 16 * " 41" + " 00 00", 19),
    # a slot: the mask is 00 after the address 00 00 00 00
    ("01 18 27", "C1 18 27 00 00 00 00 01", 7),
    ("01 18 27", "C1 18 27 00 00 00 00 00", "00 00 00 00 00"),
    ("01 18 27", "C1 18 27 00 00 00 01 01", "00 00 00 01 01"),
    ("01 18 27", "C1 18 26 00 00 00 01 01", 2),
    ("01 18 27", "C1 18", 2),
    ("01 18 27", "C1 18 27", 3),
    # an analog input: channel, readings, reference, offset
    ("01 16 01", "C1 16 01 08 10 01 80 00", 3),
    ("01 16 01", "C1 16 01 04 11 01 80 00", 4),
    ("01 16 01", "C1 16 01 04 10 02 80 00", 5),
    ("01 16 01", "C1 16 01 FE 10 01 80 00", "FE 10 01 80 00"),
    ("01 16 01", "C1 16 02 FE 10 01 80 00", 2),
    # power, -20 to +10 dBm; control word, bits 5 to 7 zero
    ("01 13", "C1 13 EC", "EC"),
    ("01 13", "C1 13 EB", 2),
    ("01 13", "C1 13 0A", "0A"),
    ("01 13", "C1 13 0B", 2),
    ("01 14", "C1 14 1F", "1F"),
    ("01 14", "C1 14 20", 2),
    # the status: bit 7 of the flags is free
    ("01 23", "C1 23 B4 7F 00 00", "B4 7F 00 00"),
    ("01 23", "C1 23 80 FF FF FF", "80 FF FF FF"),
    ("01 23", "C1 23 05 00 00 00", 2),
    ("01 23", "C1 23 08 00 00 00", 2),
    ("01 23", "C1 23 40 00 00 00", 2),
    # other commands: C0, 00 and the payload again
    ("02 15 03", "C0 00 02 15 03", "02 15 03"),
    ("02 15 03", "C0 00 02 15 04", 4),
    ("02 15 03", "C0 00 02 15", 4),
    ("02 15 03", "C0 01 02 15 03", 1),
    ("02 15 03", "C0", 1),
    ("82", "C0 00 82", "82"),
    ("82", "C0 00 82 00", 3),
    ("81", "C0 00 82", 2),
)

# A payload that was sent, the block that came back, and the refusal.
BLOCK_CASES = (
    ("", "", 3),
    ("", "80 55 83 C1 15 06", 3),
    ("05", "81", 7),
    ("02 15 07", "", 12),
    ("02 15 07", "80 55 85 C0 00 02 15 07", 12),
    ("01 15", "", 3),
    ("01 15", "80", 3),
    ("01 15", "80 55", 3),
    ("01 15", "80 55 81", 3),
    ("01 15", "80 FF", 4),
    ("01 15", "80 FF 55 83 C1 15 06", 4),
    ("01 15", "81", 4),
    ("01 15", "80 55 80", 5),
    ("01 15", "80 55 83 C1 15", 3),
    ("01 15", "80 55 83 C1 15 06 00", 6),
)


def written_cases():
    """Each case: the payload that was sent and the block, as text, and the refusal, place, start and length."""
    for sent, payload, expected in PAYLOAD_CASES:
        block = frame(0, bytes.fromhex(payload)).hex()
        if isinstance(expected, int):
            yield sent, block, (23, expected, 0, 0)
        else:
            value = bytes.fromhex(expected)
            yield sent, block, (0, 0, 3 + len(bytes.fromhex(payload)) - len(value), len(value))
    for sent, block, refusal in BLOCK_CASES:
        yield sent, block, (refusal, 0, 0, 0)


# ---- True responses, and damaged ones --------------------------------------------------------

SOME_INDEXES = {**ALL_INDEXES, 0x18: (0, 39)}


def true_responses(rng, rounds):
    """Every command, and the payload of the response to it; each round in another valid state."""
    for _ in range(rounds):
        state = random_state(rng)
        yield from ((sent, reference.perform(state, sent)[1]) for sent in accepted_payloads(rng, SOME_INDEXES))


def other_bytes(content, places):
    """Bytes with the one at each of some places replaced by each other."""
    for at, byte in itertools.product(places, range(256)):
        if content[at] != byte:
            yield with_byte(content, at, byte)


def shifted(payload):
    """A payload that has a byte more or less at each place, or goes on after its end."""
    for at in range(len(payload)):
        yield payload[:at] + payload[at + 1 :]
        yield from (payload[:at] + byte + payload[at:] for byte in (b"\x00", b"\x01", b"\xff", payload[at : at + 1]))
    yield from (payload + bytes([byte]) for byte in range(256))
    yield from ((payload + payload[-1:] * 127)[:size] for size in (16, 19, 20, 21, 126, 127) if size > len(payload))


def broken_frames(whole):
    """A block that is cut, has bytes after it, has wake bytes, or another byte in its first three."""
    yield from (whole[:size] for size in range(len(whole)))
    yield from (whole + bytes(size) for size in (1, 2, 127, *WRAPS))
    yield from (whole + whole, b"\x80" + whole, whole[1:])
    yield from (whole[:1] + wakes * b"\xff" + whole[1:] for wakes in (1, 2, 16, 17))
    yield from other_bytes(whole, range(3))


# A Read of the name, and the response with the longest name.
LONGEST = bytes.fromhex("01 01"), bytes.fromhex("C1 01") + bytes(range(0x41, 0x51)) + b"\x00"


def damaged_responses(rng):
    """Responses to every command, and that with the longest name, with each byte replaced by each other."""
    for sent, payload in (LONGEST, *true_responses(rng, 1)):
        yield from ((sent, frame(0, other)) for other in other_bytes(payload, range(len(payload))))


def cut_responses(rng):
    """Responses to every command, cut at each length, in a frame of that length."""
    for sent, payload in true_responses(rng, 50):
        yield from ((sent, frame(0, payload[:size])) for size in range(1, len(payload)))


def shifted_responses(rng):
    """Responses to every command that have a byte more or less, or go on, in a frame of their length."""
    for sent, payload in true_responses(rng, 2):
        yield from ((sent, frame(0, other)) for other in shifted(payload))


def framed_responses(rng):
    """Responses to every command in a frame that is broken."""
    for sent, payload in true_responses(rng, 1):
        yield from ((sent, block) for block in broken_frames(frame(0, payload)))


# ---- Pairs of bytes --------------------------------------------------------------------------

# Reads of each item that has two or more value bytes, a value, and the place in it of the first of the two bytes that vary. Of item 18
# these are also the last address byte and the mask, after three zero bytes and after others.
PAIRED = (
    ("01 01", "41 42 00", 0),
    ("03 02", "01 02 03", 0),
    ("01 03", "01 02 03 04", 0),
    ("03 10", "01 02 03 04", 0),
    ("01 16 01", "04 01 00 12 34", 0),
    ("01 16 02", "04 01 00 12 34", 1),
    ("03 16 02", "FF 10 01 12 34", 2),
    ("01 18 00", "01 02 03 04 05", 0),
    ("01 18 27", "00 00 00 04 05", 3),
    ("03 18 13", "00 00 01 04 05", 3),
    ("01 20", "01 02", 0),
    ("01 21", "01 02", 0),
    ("01 23", "04 01 02 03", 0),
)

READ_CODES = {0x01: b"\xc1", 0x03: b"\xc2"}  # the first byte of the response to Read and to Read NV


def paired_responses():
    """Every pair of bytes in each of the places above."""
    pairs = [bytes(pair) for pair in itertools.product(range(256), repeat=2)]
    for sent, value, at in PAIRED:
        sent, value = bytes.fromhex(sent), bytes.fromhex(value)
        whole = frame(0, READ_CODES[sent[0]] + sent[1:] + value)
        place = len(whole) - len(value) + at
        yield from ((sent, whole[:place] + pair + whole[place + 2 :]) for pair in pairs)


# ---- What is no response ---------------------------------------------------------------------

# Blocks that are broken, and responses to other commands.
OTHER_BLOCKS = (b"", b"\x80", b"\x81", b"\x80\x55\x80", frame(0, b"\xc1\x15\x06"), frame(0, b"\xc1\x15\x07"), frame(1, b"\xc0\x00\x81"))


def refused_sent():
    """Payloads that the writer refuses, each with a response that would be right if it were accepted, and with others."""
    limits = [bytes.fromhex(text) for _, text in refused_payloads()]
    yield from itertools.product(limits, OTHER_BLOCKS)
    edges = [sent for sent in edge_payloads() if reference.validate_payload(sent) != 0]
    for sent, other in zip(limits + edges, itertools.cycle(OTHER_BLOCKS)):
        yield sent, other
        yield sent, frame(0, b"\xc0\x00" + sent[:125])
        yield sent, frame(0, b"\xc1" + sent[1:126] + b"\x00")


def long_responses(rng):
    """Responses in the longest payloads there are, and payloads and blocks whose length is right modulo 256 or 65,536."""
    for sent, payload in true_responses(rng, 1):
        for rest in (bytes(127), 127 * b"\x41", rng.randbytes(127)):
            yield sent, frame(0, (payload + rest)[:127])
            yield sent, frame(0, (payload[:-1] + rest)[:127])
        for wrap in WRAPS:
            yield sent + bytes(wrap), frame(0, payload)
            yield sent, frame(0, payload) + bytes(wrap)


def random_responses(rng):
    """By chance: random bytes, commands, random payloads in a right frame, and payloads that begin as a response does."""
    for _ in range(20_000):
        sent = rng.choice((likely_payload, likely_payload, random_payload))(rng)
        yield sent, rng.randbytes(rng.randrange(30))
        yield sent, random_block(rng)
        yield sent, frame(0, rng.randbytes(rng.choice((1, 2, 3, rng.randrange(1, 24), rng.randrange(1, 128)))))
        start = bytes([rng.choice((0xC0, 0xC1, 0xC2))]) + sent[1:]
        yield sent, frame(0, start[:100] + bytes(rng.choices((0x00, 0x00, 0x01, 0x04, 0x10, 0xFF), k=rng.randrange(20))))

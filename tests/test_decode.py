#!/usr/bin/env python3
"""Compares cdi_decode_response, the reader of document 02's Ask 1, with reference.py and with the module itself.

`./sdk` builds the library. Every call is compared with the reference: the refusal, the place, the start and the length, and that no
byte of the two inputs changed. The module's own responses to every command, from random valid states, have to be read with the value
that the state holds. A byte at any place of a value has to be taken exactly if the module gives a response that begins so; the states
for this are built with the bytes in their cells. Responses are damaged at every byte with every other value, cut and lengthened, every
pair of two value bytes is tried, and frames are broken. Payloads that the writer refuses come with right and with wrong responses.
The first difference ends the run with exit status 1.
"""

import collections
import random
import sys

sys.dont_write_bytecode = True  # leaves no files beside the tests

import reference
import responses
from entries import Comparison, load_entries
from library import check_seen, print_outcomes, run_test
from payloads import ALL_INDEXES, accepted_payloads, accepted_value, frame
from reference import READ, READ_NV
from refusals import OWN
from states import FILLED, packed, place, random_state

SEED = 20240007
ENTRY = "cdi_decode_response"

# ---- The reader ------------------------------------------------------------------------------


def kind_of(sent):
    """A command and its item, if it has one."""
    return sent[:2]


def head_length(sent):
    """How many bytes of a response's payload come before the value or the echo."""
    return len(sent) if sent[0] in (READ, READ_NV) else 2


def is_at_end(sent, payload, at):
    """Whether a value or an echo ends before a place of a payload, which is right up to there."""
    size = at - head_length(sent)
    if sent[0] not in (READ, READ_NV):
        return size == len(sent)
    if sent[1] == 0x01:
        return size > 0 and payload[at - 1] == 0x00
    return size == reference.ITEMS[sent[1]].value_bytes


def where(sent, payload, decoded):
    """Where a payload stops being a response, in words."""
    if decoded.refusal == 0:
        return "accepted"
    if decoded.place == len(payload):
        return "too short"
    return "too long" if is_at_end(sent, payload, decoded.place) else f"byte {decoded.place}"


class Reader(Comparison):
    """Calls of the reader, counted by what was sent and by where the response stops being one."""

    def __init__(self, library):
        super().__init__(library)
        self.places = collections.Counter()

    def decode(self, sent, response):
        decoded = super().decode(sent, response)
        if decoded.refusal in (0, 23):
            self.places[kind_of(sent), where(sent, response[3:], decoded)] += 1
        return decoded

    def decode_all(self, pairs):
        for sent, response in pairs:
            self.decode(sent, response)

    def respond(self, raw, sent):
        """The payload of the module's response in a state, which is given by its bytes; empty if it refuses."""
        block = frame(0, sent)
        outcome = self.library.cdi_execute(
            self.state.give(raw), self.input.give(block), len(block), self.output.give(bytes(22)), 22
        )
        return self.output.content()[3 : outcome.length]


# ---- Written down ----------------------------------------------------------------------------


def check_cases(reader, rng):
    """Each item's limits, each place, and each refusal before the others."""
    for case in responses.written_cases():
        reader.literal_decode(*case)


# ---- The module's own responses --------------------------------------------------------------


def value_of(state, sent):
    """What the response to a payload has to be read as: the value that the state holds, or the payload again."""
    if sent[0] not in (READ, READ_NV):
        return sent
    index = sent[2] if len(sent) > 2 else None
    return reference.read_value(state, sent[0], sent[1], index)


def check_circle(reader, rng):
    """The host writes a command, the module executes it in a valid state, and the host reads the value from the response."""
    for number in range(110):
        state = random_state(rng)
        for sent in accepted_payloads(rng, responses.SOME_INDEXES if number % 10 else ALL_INDEXES):
            _, size, buffer = reader.encode(sent, rng.randrange(17), bytes(40))
            done = reader.execute(state, buffer[:size], bytes(22))
            response = done.response[: done.length]
            refusal, _, start, length = reader.decode(sent, response)
            came, wanted = (refusal, response[start : start + length]), (0, value_of(state, sent))
            reader.same("the value of a true response", wanted, came, state=packed(state), sent=sent, response=response)


# ---- Every byte that the module can respond --------------------------------------------------

CELLS = {
    0x01: "stored.name",
    0x02: "stored.firmware",
    0x03: "stored.serial",
    0x10: "stored.address",
    0x20: "live.lines",
    0x21: "live.rssi",
    0x22: "live.ladj",
    0x26: "live.events",
}


def cell_of(sent):
    """The field of a state from which a read is answered; the status has none of its own."""
    command, item = sent[:2]
    copy = "stored.settings" if command == READ_NV else "working.settings"
    if item == 0x16:
        return f"{copy}.analog_inputs.{sent[2] - 1}"
    if item == 0x18:
        return f"stored.slots.{sent[2]}"
    return CELLS[item] if item in CELLS else f"{copy}.{reference.ONE_BYTE_SETTINGS[item]}"


def cells_of(sent, value):
    """What a state has to hold to answer a read with a value, valid or not: fields and their bytes. The three bytes after the flags of
    a status are then the hardware's, and bit 7 of the flags comes from an event."""
    if sent[1] != 0x23:
        return [(cell_of(sent), value)]
    event = bytes([value[0] >> 7])
    return [
        ("live.flags", bytes([value[0] & 0x7F])),
        ("live.events", event),
        ("live.hardware", value[1:]),
        ("working.settings.interrupt_mask", event),
        ("working.settings.control_source", b"\x00"),
    ]


def holding(sent, value):
    """The bytes of a state that answers a read with a value, if it is valid."""
    raw = bytearray(packed(FILLED))
    for path, content in cells_of(sent, value):
        at = place(path)
        raw[at : at + len(content)] = content
    return bytes(raw)


def whole_cells(rng, item):
    """Some cells of an item that a valid state can have, with the bytes after a name's 00."""
    if item == 0x01:
        return [16 * b"\x41" + b"\x00", b"Bay 7\x00" + rng.randbytes(11), b"A\x00" + rng.randbytes(15)]
    if item == 0x18:
        return [bytes(5), bytes(3) + b"\x01\x80", b"\x01\x02\x03\x04\x05"]
    if item == 0x23:
        return [b"\x04\x01\x02\x03", bytes(4)]
    return [accepted_value(rng, item), accepted_value(rng, item)]


def check_next_byte(reader, sent, before, rests):
    """Each byte after the first bytes of a value. What follows it in the cell is one of the rests."""
    head = responses.READ_CODES[sent[0]] + sent[1:]
    for byte in range(256):
        begun = before + bytes([byte])
        given = [reader.respond(holding(sent, begun + rest), sent) for rest in rests]
        decoded = reader.decode(sent, frame(0, head + begun))
        came = decoded.refusal == 0, decoded.refusal == 0 or decoded.place == len(head + begun)
        wanted = head + begun in given, any(response.startswith(head + begun) for response in given)
        reader.same("what the module responds", wanted, came, sent=sent, begun=begun)


def check_possible_bytes(reader, rng):
    """The reader takes a byte after others exactly if some valid state makes the module respond so, and a payload as a whole response
    exactly if some valid state makes it that. The rest of the cell is that of a valid state, or zeros: one of the two is valid if any
    is."""
    reads = [sent for sent in accepted_payloads(rng, responses.SOME_INDEXES) if sent[0] in (READ, READ_NV)]
    for sent in reads:
        for cell in whole_cells(rng, sent[1]):
            for at in range(len(cell)):
                rests = {cell[at + 1 :], bytes(len(cell) - at - 1)}
                check_next_byte(reader, sent, cell[:at], rests)


# ---- Damage ----------------------------------------------------------------------------------


def check_damaged(reader, rng):
    """True responses with each byte replaced by each other."""
    reader.decode_all(responses.damaged_responses(rng))


def check_cut(reader, rng):
    """True responses that are cut at each length."""
    reader.decode_all(responses.cut_responses(rng))


def check_shifted(reader, rng):
    """True responses with a byte more or less at each place, and with bytes after their end."""
    reader.decode_all(responses.shifted_responses(rng))


def check_frames(reader, rng):
    """True responses in broken frames, with wake bytes among them."""
    reader.decode_all(responses.framed_responses(rng))


def check_pairs(reader, rng):
    """Every pair of two bytes of a value."""
    reader.decode_all(responses.paired_responses())


def check_refused_payloads(reader, rng):
    """The refusal of the payload that was sent comes first, whatever came back."""
    for sent, response in responses.refused_sent():
        decoded = reader.decode(sent, response)
        wanted = reference.validate_payload(sent), 0, 0, 0
        reader.same("a payload that is refused", wanted, tuple(decoded), sent=sent, response=response)


def check_long(reader, rng):
    reader.decode_all(responses.long_responses(rng))


def check_random(reader, rng):
    reader.decode_all(responses.random_responses(rng))


# ---- The run ---------------------------------------------------------------------------------

CHECKS = (
    check_cases,
    check_circle,
    check_possible_bytes,
    check_damaged,
    check_cut,
    check_shifted,
    check_frames,
    check_pairs,
    check_refused_payloads,
    check_long,
    check_random,
)

# The bytes of a value of which some are impossible, after right ones.
LIMITED = {0x01: (16,), 0x13: (0,), 0x14: (0,), 0x15: (0,), 0x16: (0, 1, 2), 0x18: (4,), 0x23: (0,)}


def places_of(sent):
    """Where a response to a payload can stop being one."""
    head = head_length(sent)
    limited = LIMITED.get(sent[1], ()) if sent[0] in (READ, READ_NV) else range(len(sent))
    wrong = {f"byte {at}" for at in (*range(head), *(head + at for at in limited))}
    return {"accepted", "too short", "too long", *wrong}


def check_coverage(reader, rng):
    """Every outcome was seen, and for every command and item every place; else the checks above are too thin."""
    outcomes = {ENTRY: sorted({0, *OWN[ENTRY]})}
    seen = {key: count for key, count in reader.outcomes.items() if key[0] == ENTRY}
    check_seen("outcomes", outcomes, seen)
    places = {kind_of(sent): places_of(sent) for sent in accepted_payloads(rng)}
    check_seen("places", places, reader.places)
    print_outcomes(outcomes, reader.outcomes)


def main(checks, whole):
    reader = Reader(load_entries())
    reader.run(checks, SEED)
    if whole:
        check_coverage(reader, random.Random(SEED))
    print(f"{reader.calls:,} calls agree")


if __name__ == "__main__":
    run_test(CHECKS, main)

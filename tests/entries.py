"""The entries of the C library: their signatures, the buffers that the tests hand them, and their
comparison with reference.py, call by call.
"""

import collections
import ctypes
import sys

import reference
from library import BYTE, OUTCOME, POINTER, SIZE, Calls, Memory, load, sdk, struct
from reference import FACTORY_STATE, READ, READ_NV
from states import STATE, STATE_SIZE, changed, first_difference, first_place, packed

# ---- The library -----------------------------------------------------------------------------

# Each entry's result and arguments. A state, like any memory, is handed over by its address.
READOUT_RESULT = struct(refusal=BYTE, readout=ctypes.c_uint16)
DECODED = struct(refusal=BYTE, place=SIZE, start=SIZE, length=SIZE)
SIGNATURES = {
    "cdi_factory": (STATE, ()),
    "cdi_execute": (OUTCOME, (POINTER, POINTER, SIZE, POINTER, SIZE)),
    "cdi_power_up": (BYTE, (POINTER,)),
    "cdi_save": (OUTCOME, (POINTER, POINTER, SIZE)),
    "cdi_load": (BYTE, (POINTER, POINTER, SIZE)),
    "cdi_encode_command": (OUTCOME, (POINTER, SIZE, SIZE, POINTER, SIZE)),
    "cdi_decode_response": (DECODED, (POINTER, SIZE, POINTER, SIZE)),
    "cdi_readout": (READOUT_RESULT, (POINTER, SIZE, ctypes.c_int16)),
    "cdi_percent": (BYTE, (ctypes.c_uint16,)),
}


def load_entries():
    """The C library, which `./sdk` builds where it is not up to date."""
    return load(sdk() / "lib" / "libcdi.so", SIGNATURES)


# ---- Buffers ---------------------------------------------------------------------------------

# A buffer before a call.
FILLER = bytes(range(0x21, 0x21 + 40))


def random_buffer(rng):
    """A response buffer of 0 to 40 bytes, mostly of the 22 that are enough."""
    return rng.randbytes(rng.randrange(22, 41) if rng.random() < 0.8 else rng.randrange(22))


# ---- Comparing -------------------------------------------------------------------------------

# What came of a block: the state afterwards, the numbers and the buffer.
Executed = collections.namedtuple("Executed", "after refusal length response")


class Comparison(Calls):
    """A method for each entry of the library: it calls the library and the reference, compares
    what came, and returns it.

    The state is laid into the memory that is handed over, or, `in_place`, it lies there already,
    as the entry before has left it.
    """

    def __init__(self, library):
        super().__init__(library)
        self.state = Memory(STATE_SIZE, odd=True)
        self.sent = Memory(140_000, odd=True)
        self.outcomes = collections.Counter()  # calls, by entry and refusal
        self.accepted = collections.Counter()  # accepted blocks, by command and item

    def agree(self, entry, expected, came, **inputs):
        """Counts one call and compares its results and what it leaves in memory, by name."""
        self.calls += 1
        self.outcomes[entry, expected["refusal"]] += 1
        if expected == came:
            return
        part = next(part for part in expected if expected[part] != came[part])
        what = f"{part} of {entry}"
        if part == "state" and isinstance(came[part], bytes):
            what = f"{first_difference(expected[part], came[part])}, state after {entry}"
        elif isinstance(expected[part], bytes) and isinstance(came[part], bytes):
            what = f"byte {first_place(expected[part], came[part])} of the {part} of {entry}"
        self.same(what, expected[part], came[part], **inputs)

    def put(self, state, in_place=False):
        """Lays a state into the memory, unless it lies there already; its bytes."""
        raw = packed(state)
        if not in_place:
            self.state.give(raw)
        return raw

    def factory(self):
        came = {"refusal": 0, "state": bytes(self.library.cdi_factory())}
        self.agree("cdi_factory", {"refusal": 0, "state": packed(FACTORY_STATE)}, came)
        return came["state"]

    def execute(self, state, block, response, in_place=False):
        given = self.put(state, in_place)
        outcome = self.library.cdi_execute(
            self.state.address,
            self.input.give(block),
            len(block),
            self.output.give(response),
            len(response),
        )
        after, refusal, length, buffer = reference.execute(state, block, response)
        expected = {
            "refusal": refusal,
            "length": length,
            "response": buffer,
            "block": block,
            "state": packed(after),
        }
        came = {
            "refusal": outcome.refusal,
            "length": outcome.length,
            "response": self.output.content(),
            "block": self.input.content(),
            "state": self.state.content(),
        }
        self.agree("cdi_execute", expected, came, state=given, block=block, response=response)
        self.count_accepted(buffer[3:length])
        return Executed(after, refusal, length, buffer)

    def count_accepted(self, answer):
        """Counts an accepted block by the command and item that the response's payload tells."""
        if answer and answer[0] == 0xC0:
            self.accepted[answer[2], answer[3] if len(answer) > 3 else None] += 1
        elif answer:
            self.accepted[{0xC1: READ, 0xC2: READ_NV}[answer[0]], answer[1]] += 1

    def power_up(self, state, in_place=False):
        given = self.put(state, in_place)
        refusal = self.library.cdi_power_up(self.state.address)
        came = {"refusal": refusal, "state": self.state.content()}
        after, refusal = reference.power_up(state)
        expected = {"refusal": refusal, "state": packed(after)}
        self.agree("cdi_power_up", expected, came, state=given)
        return after, refusal

    def save(self, state, image, in_place=False):
        given = self.put(state, in_place)
        address = self.output.give(image)
        outcome = self.library.cdi_save(self.state.address, address, len(image))
        refusal, length, buffer = reference.save(state, image)
        expected = {"refusal": refusal, "length": length, "image": buffer, "state": given}
        came = {
            "refusal": outcome.refusal,
            "length": outcome.length,
            "image": self.output.content(),
            "state": self.state.content(),
        }
        self.agree("cdi_save", expected, came, state=given, image=image)
        return refusal, length, buffer

    def load(self, state, image, in_place=False):
        given = self.put(state, in_place)
        address = self.input.give(image)
        refusal = self.library.cdi_load(self.state.address, address, len(image))
        came = {
            "refusal": refusal,
            "image": self.input.content(),
            "state": self.state.content(),
        }
        after, refusal = reference.load(state, image)
        expected = {"refusal": refusal, "image": image, "state": packed(after)}
        self.agree("cdi_load", expected, came, state=given, image=image)
        return after, refusal

    def encode(self, payload, wake, frame):
        address = self.input.give(payload)
        outcome = self.library.cdi_encode_command(
            address, len(payload), wake, self.output.give(frame), len(frame)
        )
        refusal, length, buffer = reference.encode_command(payload, wake, frame)
        expected = {"refusal": refusal, "length": length, "frame": buffer, "payload": payload}
        came = {
            "refusal": outcome.refusal,
            "length": outcome.length,
            "frame": self.output.content(),
            "payload": self.input.content(),
        }
        self.agree("cdi_encode_command", expected, came, payload=payload, wake=wake, frame=frame)
        return refusal, length, buffer

    def decode(self, sent, response):
        result = self.library.cdi_decode_response(
            self.sent.give(sent), len(sent), self.input.give(response), len(response)
        )
        decoded = reference.decode_response(sent, response)
        fields = result.refusal, result.place, result.start, result.length
        expected = {"refusal": decoded.refusal, "fields": decoded, "sent": sent, "response": response}
        came = {
            "refusal": result.refusal,
            "fields": fields,
            "sent": self.sent.content(),
            "response": self.input.content(),
        }
        self.agree("cdi_decode_response", expected, came, sent=sent, response=response)
        return decoded

    def readout(self, readings, offset):
        given = b"".join([reading.to_bytes(2, sys.byteorder) for reading in readings])
        result = self.library.cdi_readout(self.input.give(given), len(readings), offset)
        refusal, number = reference.readout(readings, offset)
        expected = {"refusal": refusal, "readout": number, "readings": given}
        came = {
            "refusal": result.refusal,
            "readout": result.readout,
            "readings": self.input.content(),
        }
        self.agree("cdi_readout", expected, came, readings=readings, offset=offset)
        return refusal, number

    def percent(self, readout):
        came = {"refusal": 0, "percent": self.library.cdi_percent(readout)}
        expected = {"refusal": 0, "percent": reference.percent(readout)}
        self.agree("cdi_percent", expected, came, readout=readout)
        return expected["percent"]

    # What is written down, byte by byte, holds of the reference and so of the library.

    def literal(self, state, block, expected, changes=None, response=FILLER[:22]):
        """A block whose outcome is written down: the number of a refusal, or the response as
        text, and the changes in the state where they are given."""
        given = bytes.fromhex(block)
        refusal, answer = (0, expected) if isinstance(expected, str) else (expected, "")
        answer = bytes.fromhex(answer)
        after, *came = self.execute(state, given, response)
        inputs = {"state": packed(state), "block": given, "response": response}
        wanted = [refusal, len(answer), answer + response[len(answer) :]]
        self.same("a closed run", wanted, came, **inputs)
        if changes is not None or refusal != 0:
            self.same_state(changed(state, changes or {}), after, **inputs)
        return after

    def literal_power_up(self, state, refusal, changes=None):
        """A power-up whose outcome is written down."""
        after, came = self.power_up(state)
        self.same("a closed power-up", refusal, came, state=packed(state))
        self.same_state(changed(state, changes or {}), after, state=packed(state))

    def literal_save(self, state, buffer, expected):
        """A save whose outcome is written down: the number of a refusal, or the image."""
        wanted = (expected, 0, buffer) if isinstance(expected, int) else (0, 249, expected)
        came = self.save(state, buffer)
        self.same("a closed save", wanted, came, state=packed(state), buffer=buffer)

    def literal_load(self, state, image, refusal, changes=None):
        """A load whose outcome is written down."""
        after, came = self.load(state, image)
        self.same("a closed load", refusal, came, state=packed(state), image=image)
        self.same_state(changed(state, changes or {}), after, state=packed(state), image=image)

    def literal_decode(self, sent, response, wanted):
        """A response for which what the reader returns is written down: refusal, place, start, length."""
        sent, response = bytes.fromhex(sent), bytes.fromhex(response)
        came = self.decode(sent, response)
        self.same("a closed reading", wanted, tuple(came), sent=sent, response=response)

    def same_state(self, wanted, came, **inputs):
        if wanted != came:
            where = first_difference(packed(wanted), packed(came))
            self.same(f"{where} of a closed run", packed(wanted), packed(came), **inputs)

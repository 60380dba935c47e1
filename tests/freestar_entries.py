"""The entries of the Freestar library: their signatures, the messages and settings that the tests hand them,
and their comparison with freestar_reference.py, call by call.
"""

import collections
import ctypes
import operator

import freestar_reference as reference
from freestar_reference import ACCEPTED, Settings
from library import BLOCK, BYTE, OUTCOME, POINTER, Memory, PacketCalls, load, sdk, struct

# ---- The library -----------------------------------------------------------------------------

# What the entries return or change, and each entry's result and arguments.
SETTINGS = struct(pan_id=2 * BYTE, long_address=8 * BYTE, short_address=2 * BYTE, channel=BYTE)
MESSAGE = struct(refusal=BYTE, type=BYTE, data_length=BYTE)
SETTINGS_SIZE = 13
assert [ctypes.sizeof(kind) for kind in (OUTCOME, SETTINGS, MESSAGE)] == [16, SETTINGS_SIZE, 3]

SIGNATURES = {
    "freestar_decode": (MESSAGE, BLOCK),
    "freestar_encode": (OUTCOME, (BYTE, *BLOCK, *BLOCK)),
    "freestar_execute": (OUTCOME, (POINTER, *BLOCK, *BLOCK)),
}


def load_entries():
    """The Freestar library, which `./sdk` builds where it is not up to date."""
    return load(sdk() / "lib" / "libfreestar.so", SIGNATURES)


# ---- Blocks and settings ---------------------------------------------------------------------


def mended(block):
    """A block with its sum made right."""
    return block[:-2] + bytes([sum(block[:-2]) % 256]) + block[-1:]


def packet(message_type, data):
    """A packet by the Ask's sentence, with any type and data. A total over 255 keeps its low byte."""
    return mended(bytes([0x01, (5 + len(data)) % 256, message_type]) + data + b"\x00\x04")


def packed(settings):
    """The bytes of settings as the C struct has them."""
    return b"".join(settings)


def unpacked(raw):
    return Settings(raw[:2], raw[2:10], raw[10:12], raw[12:])


# ---- Comparing -------------------------------------------------------------------------------

# What a writer is handed beside a buffer.
Message = collections.namedtuple("Message", "type data")

# What came of a step: the settings afterwards, the numbers and the buffer.
Executed = collections.namedtuple("Executed", "after refusal length response")

# What a message of the host is answered with.
ANSWERS = {0x01: 0x81, 0x02: 0x82, 0x03: 0x83, 0x04: 0x84, 0x05: 0x85, 0x06: 0x86, 0x18: 0x98}

DECODED_FIELDS = operator.attrgetter(*reference.Decoded._fields)


def message_of(block, read):
    """What the writer is handed to write a block again, from what the reader has returned for it."""
    return Message(read.type, block[3 : 3 + read.data_length])


class Comparison(PacketCalls):
    """A method for each entry of the library: it calls the library and the reference, compares every field
    returned and every byte of the memory handed over, and returns the result.

    The settings are laid into the memory that is handed over, or, `in_place`, they lie there already, as
    the step before has left them.
    """

    def __init__(self, library):
        super().__init__(library)
        self.settings = Memory(SETTINGS_SIZE, odd=True)

    def decode(self, block):
        came = self.library.freestar_decode(self.input.give(block), len(block))
        expected = reference.decode(block)
        self.agree("freestar_decode", expected, DECODED_FIELDS(came), expected.type, block=block)
        self.unchanged("freestar_decode", self.input, block=block)
        return expected

    def encode(self, message, buffer):
        """Refusal, length and the whole buffer afterwards."""
        message_type, data = message
        outcome = self.library.freestar_encode(
            message_type, self.input.give(data), len(data), self.output.give(buffer), len(buffer)
        )
        expected = reference.encode(message_type, data, buffer)
        came = outcome.refusal, outcome.length, self.output.content()
        self.agree("freestar_encode", expected, came, message_type, message=message, buffer=buffer)
        self.unchanged("freestar_encode", self.input, message=message)
        return expected

    def execute(self, settings, block, response, in_place=False):
        if not in_place:
            self.settings.give(packed(settings))
        outcome = self.library.freestar_execute(
            self.settings.address,
            self.input.give(block),
            len(block),
            self.output.give(response),
            len(response),
        )
        after, *expected = reference.execute(settings, block, response)
        expected = *expected, packed(after)
        came = outcome.refusal, outcome.length, self.output.content(), self.settings.content()
        message_type = block[2] if expected[0] == ACCEPTED else None
        inputs = {"settings": packed(settings), "block": block, "response": response}
        self.agree("freestar_execute", expected, came, message_type, **inputs)
        self.unchanged("freestar_execute", self.input, **inputs)
        return Executed(after, *expected[:3])

    # Round trips.

    def circle(self, block):
        """Reads a block; a message, written again, is the same block. What was read."""
        read = self.decode(block)
        if read.refusal == ACCEPTED:
            again = self.encode(message_of(block, read), bytes(len(block)))
            self.same("a message written again", (0, len(block), block), again, block=block)
        return read

    def reread(self, message, buffer):
        """Writes a message; what is written is read as what the writer was handed. The outcome."""
        refusal, length, after = self.encode(message, buffer)
        if refusal == ACCEPTED:
            block = after[:length]
            read = self.decode(block)
            came = read.refusal, message_of(block, read)
            self.same("a message read back", (0, message), came, message=message, block=block)
        return refusal, length, after

    def step(self, settings, block, response, in_place=False):
        """Executes a block; the answer is read as the answer to its message. What came."""
        executed = self.execute(settings, block, response, in_place)
        if executed.refusal == ACCEPTED:
            answer = executed.response[: executed.length]
            read = self.decode(answer)
            wanted = 0, ANSWERS.get(block[2]), len(answer) - 5
            self.same("an answer read back", wanted, read, block=block, answer=answer)
        return executed

    def judge(self, settings, block, response):
        """Reads a block and executes it, with the round trips of both. The two refusals."""
        return self.circle(block).refusal, self.step(settings, block, response).refusal

    # What is written down holds of the reference and so of the library.

    def reads(self, block, expected):
        """A block whose outcome is written down: the number of a refusal, or what the writer is handed."""
        if isinstance(expected, int):
            wanted = expected, 0, 0
        else:
            wanted = 0, expected.type, len(expected.data)
            self.same("data as written down", expected.data, block[3:-2], block=block)
        self.same("a message as written down", wanted, self.circle(block), block=block)

    def steps(self, settings, block, expected, buffer, after=None):
        """The same of a step: the number of a refusal, or the answer; and the settings afterwards, if they
        are others. These are returned."""
        if isinstance(expected, int):
            wanted = Executed(after or settings, expected, 0, buffer)
        else:
            answer = expected + buffer[len(expected) :]
            wanted = Executed(after or settings, 0, len(expected), answer)
        came = self.step(settings, block, buffer)
        inputs = {"settings": packed(settings), "block": block, "response": buffer}
        self.same("a step as written down", tuple(wanted), tuple(came), **inputs)
        return came.after

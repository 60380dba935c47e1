"""The entries of the Coyote library: their signatures, the packets that the tests hand them, and their
comparison with coyote_reference.py, call by call.
"""

import collections
import ctypes
import operator

import coyote_reference as reference
from coyote_reference import FAILURE, READ_MEM, SUCCESS
from library import BLOCK, BYTE, OUTCOME, Memory, PacketCalls, load, sdk, struct

# ---- The library -----------------------------------------------------------------------------

SHORT = ctypes.c_uint16

# What the entries return, and each entry's result and arguments.
PACKET = struct(
    refusal=BYTE,
    type=BYTE,
    source_group=BYTE,
    source_address=BYTE,
    target_count=BYTE,
    memory_space=BYTE,
    request_type=BYTE,
    failure_code=BYTE,
    memory_address=SHORT,
    memory_length=SHORT,
    data_start=SHORT,
    data_length=SHORT,
)
CHARGE = struct(refusal=BYTE, input=BYTE, readout=SHORT)
assert [ctypes.sizeof(result) for result in (OUTCOME, PACKET, CHARGE)] == [16, 16, 4]

SOURCE = BYTE, BYTE
SIGNATURES = {
    "coyote_decode": (PACKET, BLOCK),
    "coyote_encode_addressed": (OUTCOME, (BYTE, *SOURCE, *BLOCK, *BLOCK, *BLOCK)),
    "coyote_encode_read_memory": (OUTCOME, (BYTE, SHORT, SHORT, *BLOCK)),
    "coyote_encode_success": (OUTCOME, (BYTE, *BLOCK, *BLOCK)),
    "coyote_encode_failure": (OUTCOME, (BYTE, BYTE, *BLOCK)),
    "coyote_export_charge": (OUTCOME, (BYTE, *SOURCE, *BLOCK, BYTE, SHORT, *BLOCK)),
    "coyote_import_charge": (CHARGE, BLOCK),
}


def load_entries():
    """The Coyote library, which `./sdk` builds where it is not up to date."""
    return load(sdk() / "lib" / "libcoyote.so", SIGNATURES)


# ---- Blocks ----------------------------------------------------------------------------------


def counted(data):
    """Data after their length, low byte first."""
    return len(data).to_bytes(2, "little") + data


def mended(block):
    """A block with its sum made right."""
    return block[:-2] + bytes([sum(block[1:-2]) % 256]) + block[-1:]


def packet(packet_type, payload):
    """A packet by the Ask's sentence, with any type and payload."""
    return mended(b"\xaa" + bytes([packet_type]) + counted(payload) + b"\x00\x55")


# ---- What a writer is handed -----------------------------------------------------------------

# A writer is handed this and a buffer. Source and targets are bytes, group and address in turn.
Addressed = collections.namedtuple("Addressed", "type source targets data")
ReadMemory = collections.namedtuple("ReadMemory", "space address length")
Success = collections.namedtuple("Success", "request_type data")
Failure = collections.namedtuple("Failure", "request_type code")
Export = collections.namedtuple("Export", "sequence source targets input readout")


def message_of(block, read):
    """What a writer is handed to write a block again, from what the reader has returned for it."""
    data = block[read.data_start : read.data_start + read.data_length]
    if read.type == READ_MEM:
        return ReadMemory(read.memory_space, read.memory_address, read.memory_length)
    if read.type == SUCCESS:
        return Success(read.request_type, data)
    if read.type == FAILURE:
        return Failure(read.request_type, read.failure_code)
    source = bytes([read.source_group, read.source_address])
    return Addressed(read.type, source, block[6 : 6 + 2 * read.target_count], data)


# ---- Comparing -------------------------------------------------------------------------------

PACKET_FIELDS = operator.attrgetter(*reference.Packet._fields)
CHARGE_FIELDS = operator.attrgetter(*reference.Charge._fields)


class Comparison(PacketCalls):
    """A method for each entry of the library: it calls the library and the reference, compares
    every field returned and every byte of the memory handed over, and returns the result."""

    def __init__(self, library):
        super().__init__(library)
        self.targets = Memory(140_000, odd=True)
        self.writers = {
            Addressed: self.encode_addressed,
            ReadMemory: self.encode_read_memory,
            Success: self.encode_success,
            Failure: self.encode_failure,
            Export: self.export_charge,
        }

    # The readers.

    def decode(self, block):
        came = self.library.coyote_decode(self.input.give(block), len(block))
        expected = reference.decode(block)
        self.agree("coyote_decode", expected, PACKET_FIELDS(came), expected.type, block=block)
        self.unchanged("coyote_decode", self.input, block=block)
        return expected

    def import_charge(self, block):
        came = self.library.coyote_import_charge(self.input.give(block), len(block))
        expected = reference.import_charge(block)
        packet_type = block[1] if expected.refusal == reference.ACCEPTED else None
        self.agree("coyote_import_charge", expected, CHARGE_FIELDS(came), packet_type, block=block)
        self.unchanged("coyote_import_charge", self.input, block=block)
        return expected

    # The writers. Each returns refusal, length and the whole buffer afterwards.

    def write(self, message, buffer):
        """The writer by what it is handed."""
        return self.writers[type(message)](message, buffer)

    def wrote(self, entry, expected, outcome, packet_type, message, buffer):
        came = outcome.refusal, outcome.length, self.output.content()
        self.agree(entry, expected, came, packet_type, message=message, buffer=buffer)
        return expected

    def encode_addressed(self, message, buffer):
        packet_type, source, targets, data = message
        outcome = self.library.coyote_encode_addressed(
            packet_type,
            *source,
            self.targets.give(targets),
            len(targets),
            self.input.give(data),
            len(data),
            self.output.give(buffer),
            len(buffer),
        )
        expected = reference.encode_addressed(packet_type, *source, targets, data, buffer)
        entry = "coyote_encode_addressed"
        self.unchanged(entry, self.targets, message=message)
        self.unchanged(entry, self.input, message=message)
        return self.wrote(entry, expected, outcome, packet_type, message, buffer)

    def encode_read_memory(self, message, buffer):
        address = self.output.give(buffer)
        outcome = self.library.coyote_encode_read_memory(*message, address, len(buffer))
        expected = reference.encode_read_memory(*message, buffer)
        entry = "coyote_encode_read_memory"
        return self.wrote(entry, expected, outcome, READ_MEM, message, buffer)

    def encode_success(self, message, buffer):
        request_type, data = message
        given = request_type, self.input.give(data), len(data)
        address = self.output.give(buffer)
        outcome = self.library.coyote_encode_success(*given, address, len(buffer))
        expected = reference.encode_success(request_type, data, buffer)
        self.unchanged("coyote_encode_success", self.input, message=message)
        return self.wrote("coyote_encode_success", expected, outcome, SUCCESS, message, buffer)

    def encode_failure(self, message, buffer):
        address = self.output.give(buffer)
        outcome = self.library.coyote_encode_failure(*message, address, len(buffer))
        expected = reference.encode_failure(*message, buffer)
        return self.wrote("coyote_encode_failure", expected, outcome, FAILURE, message, buffer)

    def export_charge(self, message, buffer):
        sequence, source, targets, number, readout = message
        outcome = self.library.coyote_export_charge(
            sequence,
            *source,
            self.targets.give(targets),
            len(targets),
            number,
            readout,
            self.output.give(buffer),
            len(buffer),
        )
        expected = reference.export_charge(sequence, *source, targets, number, readout, buffer)
        self.unchanged("coyote_export_charge", self.targets, message=message)
        packet_type = reference.NO_ACK_DATA + sequence
        return self.wrote("coyote_export_charge", expected, outcome, packet_type, message, buffer)

    # Round trips.

    def circle(self, block):
        """Reads a block; a packet, written again, is the same block. What was read."""
        read = self.decode(block)
        if read.refusal == reference.ACCEPTED:
            again = self.write(message_of(block, read), bytes(len(block)))
            self.same("a packet written again", (0, len(block), block), again, block=block)
        return read

    def judge(self, block):
        """Reads a block, by both readers; a packet, written again, is the same block. What was read."""
        self.import_charge(block)
        return self.circle(block)

    def reread(self, message, buffer):
        """Writes a packet; what is written is read as what the writer was handed. The outcome."""
        refusal, length, after = self.write(message, buffer)
        if refusal != reference.ACCEPTED:
            return refusal, length, after
        block = after[:length]
        read = self.decode(block)
        if isinstance(message, Export):
            wanted, came = (0, *message[3:]), self.import_charge(block)
        else:
            wanted, came = (0, message), (read.refusal, message_of(block, read))
        self.same("a packet read back", wanted, came, message=message, block=block)
        return refusal, length, after

    # What is written down holds of the reference and so of the library.

    def reads(self, block, expected):
        """A block whose outcome is written down: the number of a refusal, or the fields that are not 0."""
        if isinstance(expected, int):
            wanted = reference.Packet(expected)
        else:
            wanted = reference.Packet(reference.ACCEPTED)._replace(**expected)
        self.same("a packet as written down", wanted, self.circle(block), block=block)

    def imports(self, block, expected):
        """The same of an import: the number of a refusal, or input number and readout."""
        wanted = (expected, 0, 0) if isinstance(expected, int) else (0, *expected)
        self.same("a charge as written down", wanted, self.import_charge(block), block=block)

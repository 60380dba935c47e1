"""An independent implementation of document 02's Ask 10, the Coyote XL packets of source document 003, to
hold the project's code against.

It is written from the papers alone and laid out by 003's sections. Where the Ask and 003 both have a limit,
the Ask's number is taken. Every function is pure, over bytes and whole numbers. A refusal is given as its
number; 0 is accepted. All numbers of two bytes are low byte first, but for the readout of a charge.
"""

from collections import namedtuple

# ---- Refusals

ACCEPTED = 0
FRAME_BUFFER_SHORT = 13
PACKET_ENDS = 24
PACKET_LENGTH = 25
PACKET_SUM = 26
PACKET_CONTENT = 27

# ---- The packet: AA, type, two length bytes, payload, sum, 55

FIRST = 0xAA
LAST = 0x55
FRAME_BYTES = 6  # all but the payload


def low_first(number):
    return number.to_bytes(2, "little")


def number_of(two_bytes):
    return int.from_bytes(two_bytes, "little")


def checksum(summed):
    """The sum of type, length bytes and payload; the carry out of eight bits is dropped."""
    return sum(summed) % 256


def framed(packet_type, payload):
    """The whole packet of a type and a payload."""
    summed = bytes([packet_type]) + low_first(len(payload)) + payload
    return bytes([FIRST]) + summed + bytes([checksum(summed), LAST])


def check_frame(block):
    """The refusal of what is around the payload: 24, 25, 26."""
    if len(block) == 0 or block[0] != FIRST or block[-1] != LAST:
        return PACKET_ENDS
    if len(block) < FRAME_BYTES or len(block) != FRAME_BYTES + number_of(block[2:4]):
        return PACKET_LENGTH
    if block[-2] != checksum(block[1:-2]):
        return PACKET_SUM
    return ACCEPTED


# ---- DataLen and Data, which end the payload of AckData, NoAckData, Ack, Success and Failure


def counted(data):
    return low_first(len(data)) + data


def counted_length(ending, permitted):
    """The length of the data in a payload's ending; None if DataLen is missing, is not the number of the
    bytes after it, or is not permitted."""
    if len(ending) < 2 or number_of(ending[:2]) != len(ending) - 2:
        return None
    length = len(ending) - 2
    return length if length in permitted else None


# ---- Packet: AckData, Packet: NoAckData, Response: Ack

# The upper nybble of the type, and the data lengths. The lower nybble is the sequence number.
ACK_DATA = 0x00
NO_ACK_DATA = 0x10
ACK = 0x20
ADDRESSED_DATA = {
    ACK_DATA: range(1, 1024),
    NO_ACK_DATA: range(1, 1024),
    ACK: range(1, 2),  # the retries
}
SEQUENCES = range(16)
UPPER_NYBBLE = 0xF0

# SrcLoc and each DestLoc are a group and an address.
LOCATION_BYTES = 2
TARGET_COUNTS = range(1, 17)
END_OF_ADDRESSES = 0x80

# Where the payload begins in a block: the places that are returned count from the block's start.
PAYLOAD_START = 4


def parse_addressed(packet_type, payload):
    """The fields of SrcLoc, DestLoc, EOA, DataLen and Data; None if they are refused.

    The targets end at the first 80 in the place of a group. An 80 as an address, or in SrcLoc, is a byte as
    any other.
    """
    groups = payload[LOCATION_BYTES::LOCATION_BYTES]
    count = groups.find(END_OF_ADDRESSES)
    if count not in TARGET_COUNTS:
        return None
    ending = LOCATION_BYTES + LOCATION_BYTES * count + 1
    length = counted_length(payload[ending:], ADDRESSED_DATA[packet_type & UPPER_NYBBLE])
    if length is None:
        return None
    return {
        "source_group": payload[0],
        "source_address": payload[1],
        "target_count": count,
        "data_start": PAYLOAD_START + ending + 2,
        "data_length": length,
    }


def are_targets(targets):
    """1 to 16 groups and addresses in turn, no group 80."""
    count, half = divmod(len(targets), LOCATION_BYTES)
    return half == 0 and count in TARGET_COUNTS and END_OF_ADDRESSES not in targets[::LOCATION_BYTES]


def addressed_payload(packet_type, source, targets, data):
    """None if the type, the targets or the data's length is refused."""
    permitted = ADDRESSED_DATA.get(packet_type & UPPER_NYBBLE, ())
    if len(data) not in permitted or not are_targets(targets):
        return None
    return source + targets + bytes([END_OF_ADDRESSES]) + counted(data)


# ---- Request: ReadMem

READ_MEM = 0x80
MEMORY_SPACES = (0x00, 0x01)  # EEPROM, RAM
MEMORY_LENGTHS = range(2, 1024)


def parse_read_mem(payload):
    """The fields of MemSpace, Addr and Len; None if they are refused. Len is what is asked for; no data
    follow it."""
    if len(payload) != 5:
        return None
    space, address, length = payload[0], number_of(payload[1:3]), number_of(payload[3:5])
    if space not in MEMORY_SPACES or length not in MEMORY_LENGTHS:
        return None
    return {"memory_space": space, "memory_address": address, "memory_length": length}


def read_mem_payload(space, address, length):
    """None if the space or the length is refused."""
    if space not in MEMORY_SPACES or length not in MEMORY_LENGTHS:
        return None
    return bytes([space]) + low_first(address) + low_first(length)


# ---- Response: Success

SUCCESS = 0x86
SUCCESS_DATA = range(0, 1024)


def parse_success(payload):
    """The fields of ReqType, DataLen and Data; None if they are refused."""
    length = counted_length(payload[1:], SUCCESS_DATA)
    if length is None:
        return None
    return {"request_type": payload[0], "data_start": PAYLOAD_START + 3, "data_length": length}


def success_payload(request_type, data):
    """None if the data's length is refused."""
    return bytes([request_type]) + counted(data) if len(data) in SUCCESS_DATA else None


# ---- Response: Failure

FAILURE = 0x87
FAILURE_DATA = range(1, 2)  # the code
FAILURE_CODES = range(0x00, 0x06)


def parse_failure(payload):
    """The fields of ReqType, DataLen and FailCode; None if they are refused."""
    if counted_length(payload[1:], FAILURE_DATA) is None or payload[3] not in FAILURE_CODES:
        return None
    return {"request_type": payload[0], "failure_code": payload[3]}


def failure_payload(request_type, code):
    """None if the code is refused."""
    return bytes([request_type]) + counted(bytes([code])) if code in FAILURE_CODES else None


# ---- The reader

# What is returned. Fields that the packet's type does not have are 0, and after a refusal all are.
Packet = namedtuple(
    "Packet",
    "refusal type source_group source_address target_count memory_space request_type failure_code"
    " memory_address memory_length data_start data_length",
    defaults=11 * (0,),
)


def parse(packet_type, payload):
    """The fields of a payload by its packet's type; None if the type or the payload is refused."""
    if packet_type & UPPER_NYBBLE in ADDRESSED_DATA:
        return parse_addressed(packet_type, payload)
    if packet_type == READ_MEM:
        return parse_read_mem(payload)
    if packet_type == SUCCESS:
        return parse_success(payload)
    if packet_type == FAILURE:
        return parse_failure(payload)
    return None


def decode(block):
    """24, 25, 26, 27, or the packet that the block is."""
    refusal = check_frame(block)
    if refusal != ACCEPTED:
        return Packet(refusal)
    packet_type, payload = block[1], block[PAYLOAD_START:-2]
    fields = parse(packet_type, payload)
    if fields is None:
        return Packet(PACKET_CONTENT)
    return Packet(ACCEPTED, packet_type, **fields)


# ---- The writers


def written(packet_type, payload, buffer):
    """27 for no payload, then 13; else the packet. Refusal, length, and the whole buffer afterwards."""
    if payload is None:
        return PACKET_CONTENT, 0, buffer
    packet = framed(packet_type, payload)
    if len(buffer) < len(packet):
        return FRAME_BUFFER_SHORT, 0, buffer
    return ACCEPTED, len(packet), packet + buffer[len(packet) :]


def encode_addressed(packet_type, source_group, source_address, targets, data, buffer):
    source = bytes([source_group, source_address])
    return written(packet_type, addressed_payload(packet_type, source, targets, data), buffer)


def encode_read_memory(space, address, length, buffer):
    return written(READ_MEM, read_mem_payload(space, address, length), buffer)


def encode_success(request_type, data, buffer):
    return written(SUCCESS, success_payload(request_type, data), buffer)


def encode_failure(request_type, code, buffer):
    return written(FAILURE, failure_payload(request_type, code), buffer)


# ---- A charge: NoAckData whose data are the input number and the readout, high byte first

INPUT_NUMBERS = (1, 2)
CHARGE_BYTES = 3

# What an import returns; after a refusal input and readout are 0.
Charge = namedtuple("Charge", "refusal input readout", defaults=(0, 0))


def export_charge(sequence, source_group, source_address, targets, input_number, readout, buffer):
    """27 for a sequence number over 15 or an input number not 1 or 2, then as for encode_addressed."""
    if sequence not in SEQUENCES or input_number not in INPUT_NUMBERS:
        return PACKET_CONTENT, 0, buffer
    data = bytes([input_number]) + readout.to_bytes(2, "big")
    packet_type = NO_ACK_DATA + sequence
    return encode_addressed(packet_type, source_group, source_address, targets, data, buffer)


def import_charge(block):
    """As decode, and 27 also for a type other than NoAckData and for data that no export gives."""
    packet = decode(block)
    if packet.refusal != ACCEPTED:
        return Charge(packet.refusal)
    data = block[packet.data_start : packet.data_start + packet.data_length]
    if packet.type & UPPER_NYBBLE != NO_ACK_DATA or len(data) != CHARGE_BYTES:
        return Charge(PACKET_CONTENT)
    if data[0] not in INPUT_NUMBERS:
        return Charge(PACKET_CONTENT)
    return Charge(ACCEPTED, data[0], int.from_bytes(data[1:], "big"))

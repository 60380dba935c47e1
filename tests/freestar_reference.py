"""An independent implementation of document 02's Ask 11, the Wi.Freestar messages of source document 004, to
hold the project's code against.

It is written from the papers alone and laid out by 004's sections. Where the Ask marks a point as house, it
decides over 004: a channel is any byte, and a reset leaves the settings. Every function is pure, over bytes
and whole numbers. A refusal is given as its number; 0 is accepted. A field of several bytes has its low byte
first (004: LSB to MSB) and is kept in that order.
"""

from collections import namedtuple

# ---- Refusals

ACCEPTED = 0
FRAME_BUFFER_SHORT = 13
PACKET_ENDS = 24
PACKET_LENGTH = 25
PACKET_SUM = 26
PACKET_CONTENT = 27
PAN_ID_OVER = 28

# ---- 004, 4.0, Data Packet Structure: start byte, length, type, data, checksum, end byte

START = 0x01
END = 0x04
FRAME_BYTES = 5  # all but the data


def checksum(summed):
    """The sum of the bytes from the start byte through the data, in eight bits."""
    return sum(summed) % 256


def framed(message_type, data):
    """The whole packet of a type and data. Its length counts every byte, first and last too."""
    summed = bytes([START, FRAME_BYTES + len(data), message_type]) + data
    return summed + bytes([checksum(summed), END])


def check_frame(block):
    """The refusal of what is around type and data: 24, 25, 26."""
    if len(block) == 0 or block[0] != START or block[-1] != END:
        return PACKET_ENDS
    if block[1] != len(block) or block[1] < FRAME_BYTES:
        return PACKET_LENGTH
    if block[-2] != checksum(block[:-2]):
        return PACKET_SUM
    return ACCEPTED


def content(block):
    """Type and data of a block whose frame is right."""
    return block[2], block[3:-2]


# ---- 004, 5.0 and 6.0: the messages that the Ask serves, 01 to 06, 18, and their answers

SET_PAN_ID, SET_PAN_ID_ACKNOWLEDGED = 0x01, 0x81
QUERY_PAN_ID, RESPOND_WITH_PAN_ID = 0x02, 0x82
SET_ADDRESS, SET_ADDRESS_ACKNOWLEDGED = 0x03, 0x83
QUERY_ADDRESS, RESPOND_WITH_ADDRESS = 0x04, 0x84  # not 8F, as the field table of 84 has it
SET_CHANNEL, SET_CHANNEL_ACKNOWLEDGED = 0x05, 0x85
QUERY_CHANNEL, RESPOND_WITH_CHANNEL = 0x06, 0x86
RESET_REQUEST, RESET_REQUEST_ACKNOWLEDGED = 0x18, 0x98

# The fields that data are made of, by their bytes. An address is a long one and then a short one.
PAN_ID_BYTES = 2
LONG_ADDRESS_BYTES = 8
SHORT_ADDRESS_BYTES = 2
ADDRESS_BYTES = LONG_ADDRESS_BYTES + SHORT_ADDRESS_BYTES
CHANNEL_BYTES = 1

# The data bytes of each message, first from host to transceiver, then from transceiver to host.
HOST = {
    SET_PAN_ID: PAN_ID_BYTES,
    QUERY_PAN_ID: 0,
    SET_ADDRESS: ADDRESS_BYTES,
    QUERY_ADDRESS: 0,
    SET_CHANNEL: CHANNEL_BYTES,
    QUERY_CHANNEL: 0,
    RESET_REQUEST: 0,
}
RADIO = {
    SET_PAN_ID_ACKNOWLEDGED: 0,
    RESPOND_WITH_PAN_ID: PAN_ID_BYTES,
    SET_ADDRESS_ACKNOWLEDGED: 0,
    RESPOND_WITH_ADDRESS: ADDRESS_BYTES,
    SET_CHANNEL_ACKNOWLEDGED: 0,
    RESPOND_WITH_CHANNEL: CHANNEL_BYTES,
    RESET_REQUEST_ACKNOWLEDGED: 0,
}
SERVED = {**HOST, **RADIO}


def is_over(pan_id):
    """004, 0x01 and 0x82, PAN ID: the 14 low bits are valid. The Ask refuses one of the two others set."""
    return int.from_bytes(pan_id, "little") >= 2**14


def check_content(message_type, data, served):
    """27 for a type that is not served or data of another length than the type's; 28."""
    if message_type not in served or len(data) != served[message_type]:
        return PACKET_CONTENT
    if message_type in (SET_PAN_ID, RESPOND_WITH_PAN_ID) and is_over(data):
        return PAN_ID_OVER
    return ACCEPTED


# ---- The reader

# What is returned; after a refusal type and data length are 0.
Decoded = namedtuple("Decoded", "refusal type data_length", defaults=(0, 0))


def decode(block):
    """24, 25, 26, 27, 28, or the message that the block is."""
    refusal = check_frame(block)
    if refusal != ACCEPTED:
        return Decoded(refusal)
    message_type, data = content(block)
    refusal = check_content(message_type, data, SERVED)
    if refusal != ACCEPTED:
        return Decoded(refusal)
    return Decoded(ACCEPTED, message_type, len(data))


# ---- The writer


def written(message_type, data, buffer):
    """13, or the packet. Refusal, length, and the whole buffer afterwards."""
    packet = framed(message_type, data)
    if len(buffer) < len(packet):
        return FRAME_BUFFER_SHORT, 0, buffer
    return ACCEPTED, len(packet), packet + buffer[len(packet) :]


def encode(message_type, data, buffer):
    """27, 28, 13, or the packet, as `written` returns it."""
    refusal = check_content(message_type, data, SERVED)
    if refusal != ACCEPTED:
        return refusal, 0, buffer
    return written(message_type, data, buffer)


# ---- The step with the settings, which the messages of the host read and set

# Each field is bytes in the order of a message.
Settings = namedtuple("Settings", "pan_id long_address short_address channel")


def answered(settings, message_type, data):
    """004, 6.0: the settings after a message of the host, and type and data of the answer."""
    if message_type == SET_PAN_ID:
        return settings._replace(pan_id=data), SET_PAN_ID_ACKNOWLEDGED, b""
    if message_type == QUERY_PAN_ID:
        return settings, RESPOND_WITH_PAN_ID, settings.pan_id
    if message_type == SET_ADDRESS:
        long_address, short_address = data[:LONG_ADDRESS_BYTES], data[LONG_ADDRESS_BYTES:]
        after = settings._replace(long_address=long_address, short_address=short_address)
        return after, SET_ADDRESS_ACKNOWLEDGED, b""
    if message_type == QUERY_ADDRESS:
        return settings, RESPOND_WITH_ADDRESS, settings.long_address + settings.short_address
    if message_type == SET_CHANNEL:
        return settings._replace(channel=data), SET_CHANNEL_ACKNOWLEDGED, b""
    if message_type == QUERY_CHANNEL:
        return settings, RESPOND_WITH_CHANNEL, settings.channel
    assert message_type == RESET_REQUEST
    return settings, RESET_REQUEST_ACKNOWLEDGED, b""


def check_step(settings, block):
    """24, 25, 26; 27, also for a type that the radio sends; 28, also for the PAN ID of the settings."""
    refusal = check_frame(block)
    if refusal != ACCEPTED:
        return refusal
    refusal = check_content(*content(block), HOST)
    if refusal != ACCEPTED:
        return refusal
    return PAN_ID_OVER if is_over(settings.pan_id) else ACCEPTED


def execute(settings, block, response):
    """24 to 28, then 13 for the answer. Settings, refusal, length, and the whole buffer afterwards; a
    refusal leaves settings and buffer."""
    refusal = check_step(settings, block)
    if refusal != ACCEPTED:
        return settings, refusal, 0, response
    after, answer_type, data = answered(settings, *content(block))
    refusal, length, buffer = written(answer_type, data, response)
    return after if refusal == ACCEPTED else settings, refusal, length, buffer

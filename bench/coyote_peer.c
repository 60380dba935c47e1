/* Coyote XL packets (document 02's Ask 10, source document 003), written by hand in plain C: the
 * frame, the reader, the writers, the charge. */

#include "coyote_peer.h"

#include <stdbool.h>
#include <string.h>

/* Document 02's numbers. */
enum refusal { BUFFER_SHORT = 13, BAD_ENDS = 24, BAD_LENGTH, BAD_SUM, BAD_CONTENT };

/* ---- The packet: AA, type, length of the payload, payload, sum, 55 -------------------------- */

enum { FIRST = 0xAA, LAST = 0x55 };

/* The low nibble of the first three is a sequence number. */
enum {
    ACK_DATA = 0x00, NO_ACK_DATA = 0x10, ACK = 0x20, AFTER_ACK = 0x30,
    READ_MEM = 0x80, SUCCESS = 0x86, FAILURE = 0x87
};
enum { MOST_SEQUENCE = 15, HIGH_NIBBLE = 0xF0 };

/* Places in the packet, by 003's names. The sum is at the payload's end. */
enum { TYPE = 1, LENGTH = 2, PAYLOAD = 4, SUM_AND_LAST = 2 };
enum { SRC_LOC = PAYLOAD, DEST_LOCS = 6, LOC = 2, EOA_AND_DATA_LEN = 3 }; /* LOC: group, address */
enum { MEM_SPACE = PAYLOAD, ADDR = 5, LEN = 7, READ_MEM_END = 9 };
enum { REQ_TYPE = PAYLOAD, DATA_LEN = 5, DATA = 7, FAIL_CODE = DATA, FAILURE_END = 8 };

enum { EOA = 0x80, MOST_TARGETS = 16, MOST_DATA = 1023 };
enum { LEAST_READ = 2, MOST_READ = 1023, MOST_SPACE = 1, MOST_CODE = 5 };

/* Numbers of two bytes have the low one first. */
static uint16_t number_at(const uint8_t *bytes) { return (uint16_t)(bytes[0] | bytes[1] << 8); }

static void put_number(uint8_t *bytes, size_t number)
{
    bytes[0] = (uint8_t)number;
    bytes[1] = (uint8_t)(number >> 8);
}

/* Over type, length and payload; the carry out of eight bits is dropped. */
static uint8_t sum_of(const uint8_t *packet, size_t payload_end)
{
    uint8_t sum = 0;
    for (size_t at = TYPE; at < payload_end; at++)
        sum = (uint8_t)(sum + packet[at]);
    return sum;
}

/* Of AckData, NoAckData and Ack, whose one byte is the number of retries. */
static bool is_data_length(uint8_t type, size_t length)
{
    return length >= 1 && length <= (type < ACK ? MOST_DATA : 1);
}

/* ---- Reading -------------------------------------------------------------------------------- */

static struct coyote_peer_packet refused(enum refusal refusal)
{
    return (struct coyote_peer_packet){.refusal = (uint8_t)refusal};
}

/* The first 80 in the place of a target's group ends the targets. */
static struct coyote_peer_packet decode_addressed(const uint8_t *block, size_t end)
{
    size_t count = 0, at = DEST_LOCS;
    for (; at < end && block[at] != EOA; at += LOC)
        if (++count > MOST_TARGETS) return refused(BAD_CONTENT);
    size_t data = at + EOA_AND_DATA_LEN;
    if (count == 0 || data > end) return refused(BAD_CONTENT);
    uint16_t length = number_at(block + at + 1);
    if (length != end - data || !is_data_length(block[TYPE], length)) return refused(BAD_CONTENT);
    return (struct coyote_peer_packet){.type = block[TYPE],
                                       .source_group = block[SRC_LOC],
                                       .source_address = block[SRC_LOC + 1],
                                       .target_count = (uint8_t)count,
                                       .data_start = (uint16_t)data,
                                       .data_length = length};
}

static struct coyote_peer_packet decode_read_mem(const uint8_t *block, size_t end)
{
    if (end != READ_MEM_END || block[MEM_SPACE] > MOST_SPACE) return refused(BAD_CONTENT);
    uint16_t length = number_at(block + LEN);
    if (length < LEAST_READ || length > MOST_READ) return refused(BAD_CONTENT);
    return (struct coyote_peer_packet){.type = READ_MEM,
                                       .memory_space = block[MEM_SPACE],
                                       .memory_address = number_at(block + ADDR),
                                       .memory_length = length};
}

static struct coyote_peer_packet decode_success(const uint8_t *block, size_t end)
{
    if (end < DATA || end > DATA + MOST_DATA) return refused(BAD_CONTENT);
    uint16_t length = number_at(block + DATA_LEN);
    if (length != end - DATA) return refused(BAD_CONTENT);
    return (struct coyote_peer_packet){.type = SUCCESS,
                                       .request_type = block[REQ_TYPE],
                                       .data_start = DATA,
                                       .data_length = length};
}

static struct coyote_peer_packet decode_failure(const uint8_t *block, size_t end)
{
    if (end != FAILURE_END || number_at(block + DATA_LEN) != 1) return refused(BAD_CONTENT);
    if (block[FAIL_CODE] > MOST_CODE) return refused(BAD_CONTENT);
    return (struct coyote_peer_packet){.type = FAILURE,
                                       .request_type = block[REQ_TYPE],
                                       .failure_code = block[FAIL_CODE]};
}

struct coyote_peer_packet coyote_peer_decode(const uint8_t *block, size_t block_len)
{
    if (block_len == 0) return refused(BAD_ENDS);
    if (block[0] != FIRST || block[block_len - 1] != LAST) return refused(BAD_ENDS);
    if (block_len < PAYLOAD + SUM_AND_LAST) return refused(BAD_LENGTH);
    size_t end = block_len - SUM_AND_LAST;
    if (end - PAYLOAD != number_at(block + LENGTH)) return refused(BAD_LENGTH);
    if (block[end] != sum_of(block, end)) return refused(BAD_SUM);
    if (block[TYPE] < AFTER_ACK) return decode_addressed(block, end);
    switch (block[TYPE]) {
    case READ_MEM: return decode_read_mem(block, end);
    case SUCCESS: return decode_success(block, end);
    case FAILURE: return decode_failure(block, end);
    default: return refused(BAD_CONTENT);
    }
}

/* ---- Writing -------------------------------------------------------------------------------- */

static struct coyote_peer_outcome not_written(enum refusal refusal)
{
    return (struct coyote_peer_outcome){(uint8_t)refusal, 0};
}

/* Writes what is around a payload. */
static struct coyote_peer_outcome close_packet(uint8_t *packet, uint8_t type, size_t payload_end)
{
    packet[0] = FIRST;
    packet[TYPE] = type;
    put_number(packet + LENGTH, payload_end - PAYLOAD);
    packet[payload_end] = sum_of(packet, payload_end);
    packet[payload_end + 1] = LAST;
    return (struct coyote_peer_outcome){0, payload_end + SUM_AND_LAST};
}

/* An 80 in the place of a group would end the targets. */
static bool are_targets(const uint8_t *targets, size_t length)
{
    if (length == 0 || length > MOST_TARGETS * LOC || length % LOC != 0) return false;
    for (size_t at = 0; at < length; at += LOC)
        if (targets[at] == EOA) return false;
    return true;
}

/* Inline, so that an export has a copy of its own, in which the data's length is known. */
static inline struct coyote_peer_outcome
encode_addressed(uint8_t type, uint8_t source_group, uint8_t source_address, const uint8_t *targets,
                 size_t targets_len, const uint8_t *data, size_t data_len, uint8_t *packet,
                 size_t packet_len)
{
    if (type >= AFTER_ACK || !are_targets(targets, targets_len)) return not_written(BAD_CONTENT);
    if (!is_data_length(type, data_len)) return not_written(BAD_CONTENT);
    size_t addresses_end = DEST_LOCS + targets_len;
    size_t data_start = addresses_end + EOA_AND_DATA_LEN, payload_end = data_start + data_len;
    if (packet_len < payload_end + SUM_AND_LAST) return not_written(BUFFER_SHORT);
    packet[SRC_LOC] = source_group;
    packet[SRC_LOC + 1] = source_address;
    memcpy(packet + DEST_LOCS, targets, targets_len);
    packet[addresses_end] = EOA;
    put_number(packet + addresses_end + 1, data_len);
    memcpy(packet + data_start, data, data_len);
    return close_packet(packet, type, payload_end);
}

struct coyote_peer_outcome
coyote_peer_encode_addressed(uint8_t type, uint8_t source_group, uint8_t source_address,
                             const uint8_t *targets, size_t targets_len, const uint8_t *data,
                             size_t data_len, uint8_t *packet, size_t packet_len)
{
    return encode_addressed(type, source_group, source_address, targets, targets_len, data,
                            data_len, packet, packet_len);
}

struct coyote_peer_outcome
coyote_peer_encode_read_memory(uint8_t space, uint16_t address, uint16_t length, uint8_t *packet,
                               size_t packet_len)
{
    if (space > MOST_SPACE || length < LEAST_READ || length > MOST_READ)
        return not_written(BAD_CONTENT);
    if (packet_len < READ_MEM_END + SUM_AND_LAST) return not_written(BUFFER_SHORT);
    packet[MEM_SPACE] = space;
    put_number(packet + ADDR, address);
    put_number(packet + LEN, length);
    return close_packet(packet, READ_MEM, READ_MEM_END);
}

struct coyote_peer_outcome
coyote_peer_encode_success(uint8_t request_type, const uint8_t *data, size_t data_len,
                           uint8_t *packet, size_t packet_len)
{
    if (data_len > MOST_DATA) return not_written(BAD_CONTENT);
    if (packet_len < DATA + data_len + SUM_AND_LAST) return not_written(BUFFER_SHORT);
    packet[REQ_TYPE] = request_type;
    put_number(packet + DATA_LEN, data_len);
    memcpy(packet + DATA, data, data_len);
    return close_packet(packet, SUCCESS, DATA + data_len);
}

struct coyote_peer_outcome
coyote_peer_encode_failure(uint8_t request_type, uint8_t code, uint8_t *packet, size_t packet_len)
{
    if (code > MOST_CODE) return not_written(BAD_CONTENT);
    if (packet_len < FAILURE_END + SUM_AND_LAST) return not_written(BUFFER_SHORT);
    packet[REQ_TYPE] = request_type;
    put_number(packet + DATA_LEN, 1);
    packet[FAIL_CODE] = code;
    return close_packet(packet, FAILURE, FAILURE_END);
}

/* ---- The charge: NoAckData with the input's number and the readout, high byte first --------- */

enum { CHARGE = 3 };

static bool is_input(uint8_t number) { return number == 1 || number == 2; }

struct coyote_peer_outcome
coyote_peer_export_charge(uint8_t sequence, uint8_t source_group, uint8_t source_address,
                          const uint8_t *targets, size_t targets_len, uint8_t input,
                          uint16_t readout, uint8_t *packet, size_t packet_len)
{
    if (sequence > MOST_SEQUENCE || !is_input(input)) return not_written(BAD_CONTENT);
    const uint8_t data[CHARGE] = {input, (uint8_t)(readout >> 8), (uint8_t)readout};
    return encode_addressed((uint8_t)(NO_ACK_DATA + sequence), source_group, source_address, targets,
                            targets_len, data, CHARGE, packet, packet_len);
}

struct coyote_peer_charge coyote_peer_import_charge(const uint8_t *block, size_t block_len)
{
    struct coyote_peer_packet read = coyote_peer_decode(block, block_len);
    if (read.refusal != 0) return (struct coyote_peer_charge){read.refusal, 0, 0};
    const uint8_t *data = block + read.data_start;
    if ((read.type & HIGH_NIBBLE) != NO_ACK_DATA || read.data_length != CHARGE ||
        !is_input(data[0]))
        return (struct coyote_peer_charge){BAD_CONTENT, 0, 0};
    return (struct coyote_peer_charge){0, data[0], (uint16_t)(data[1] << 8 | data[2])};
}

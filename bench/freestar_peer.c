/* Wi.Freestar messages (document 02's Ask 11, source document 004), written by hand in plain C: the
 * packet, the reader, the writer, the radio's side. */

#include "freestar_peer.h"

#include <stdbool.h>
#include <string.h>

/* Document 02's numbers. */
enum refusal {
    ACCEPTED, BUFFER_SHORT = 13, BAD_ENDS = 24, BAD_LENGTH, BAD_SUM, BAD_CONTENT, BAD_PAN_ID
};

/* ---- The packet: 01, total length, type, data, sum, 04 -------------------------------------- */

enum { START = 0x01, END = 0x04 };

/* Places in the packet. The sum is at the data's end. */
enum { LENGTH = 1, TYPE = 2, DATA = 3 };
enum { OVERHEAD = 5, MOST_DATA = 10 };

/* What the host sends. The answer's type is the same with the top bit set. */
enum {
    SET_PAN_ID = 0x01, QUERY_PAN_ID, SET_ADDRESS, QUERY_ADDRESS, SET_CHANNEL, QUERY_CHANNEL,
    RESET = 0x18, ANSWER = 0x80
};

/* The total length of each type, by 004's overview. 0: not served. */
static const uint8_t totals[256] = {
    [SET_PAN_ID] = 7,    [SET_PAN_ID | ANSWER] = 5,
    [QUERY_PAN_ID] = 5,  [QUERY_PAN_ID | ANSWER] = 7,
    [SET_ADDRESS] = 15,  [SET_ADDRESS | ANSWER] = 5,
    [QUERY_ADDRESS] = 5, [QUERY_ADDRESS | ANSWER] = 15,
    [SET_CHANNEL] = 6,   [SET_CHANNEL | ANSWER] = 5,
    [QUERY_CHANNEL] = 5, [QUERY_CHANNEL | ANSWER] = 6,
    [RESET] = 5,         [RESET | ANSWER] = 5,
};

/* The carry out of eight bits is dropped. */
static uint8_t sum_of(const uint8_t *bytes, size_t count)
{
    uint8_t sum = 0;
    for (size_t i = 0; i < count; i++)
        sum = (uint8_t)(sum + bytes[i]);
    return sum;
}

static bool has_pan_id(uint8_t type)
{
    return type == SET_PAN_ID || type == (QUERY_PAN_ID | ANSWER);
}

/* 14 bits, low byte first. */
static bool is_pan_id(const uint8_t *bytes) { return bytes[1] < 0x40; }

/* ---- Reading -------------------------------------------------------------------------------- */

static enum refusal check_packet(const uint8_t *block, size_t block_len)
{
    if (block_len == 0 || block[0] != START || block[block_len - 1] != END) return BAD_ENDS;
    if (block_len < OVERHEAD || block[LENGTH] != block_len) return BAD_LENGTH;
    size_t data_len = block_len - OVERHEAD;
    if (block[DATA + data_len] != sum_of(block, DATA + data_len)) return BAD_SUM;
    return ACCEPTED;
}

static struct freestar_peer_message refused(enum refusal refusal)
{
    return (struct freestar_peer_message){.refusal = (uint8_t)refusal};
}

struct freestar_peer_message freestar_peer_decode(const uint8_t *block, size_t block_len)
{
    enum refusal refusal = check_packet(block, block_len);
    if (refusal != ACCEPTED) return refused(refusal);
    uint8_t type = block[TYPE];
    if (totals[type] != block_len) return refused(BAD_CONTENT);
    if (has_pan_id(type) && !is_pan_id(block + DATA)) return refused(BAD_PAN_ID);
    return (struct freestar_peer_message){ACCEPTED, type, (uint8_t)(block_len - OVERHEAD)};
}

/* ---- Writing -------------------------------------------------------------------------------- */

static struct freestar_peer_outcome not_written(enum refusal refusal)
{
    return (struct freestar_peer_outcome){(uint8_t)refusal, 0};
}

/* Writes what is around the data. */
static struct freestar_peer_outcome close_packet(uint8_t *packet, uint8_t type)
{
    size_t total = totals[type], data_len = total - OVERHEAD;
    packet[0] = START;
    packet[LENGTH] = (uint8_t)total;
    packet[TYPE] = type;
    packet[DATA + data_len] = sum_of(packet, DATA + data_len);
    packet[total - 1] = END;
    return (struct freestar_peer_outcome){ACCEPTED, total};
}

struct freestar_peer_outcome freestar_peer_encode(uint8_t type, const uint8_t *data, size_t data_len,
                                                  uint8_t *packet, size_t packet_len)
{
    if (data_len > MOST_DATA || totals[type] != OVERHEAD + data_len)
        return not_written(BAD_CONTENT);
    if (has_pan_id(type) && !is_pan_id(data)) return not_written(BAD_PAN_ID);
    if (packet_len < OVERHEAD + data_len) return not_written(BUFFER_SHORT);
    memcpy(packet + DATA, data, data_len);
    return close_packet(packet, type);
}

/* ---- The radio's side ----------------------------------------------------------------------- */

/* Sets what an accepted message sets, and writes the data of its answer. */
static void perform(struct freestar_peer_settings *settings, uint8_t type, const uint8_t *data,
                    uint8_t *answer)
{
    switch (type) {
    case SET_PAN_ID:
        memcpy(settings->pan_id, data, 2);
        break;
    case QUERY_PAN_ID:
        memcpy(answer, settings->pan_id, 2);
        break;
    case SET_ADDRESS:
        memcpy(settings->long_address, data, 8);
        memcpy(settings->short_address, data + 8, 2);
        break;
    case QUERY_ADDRESS:
        memcpy(answer, settings->long_address, 8);
        memcpy(answer + 8, settings->short_address, 2);
        break;
    case SET_CHANNEL:
        settings->channel = data[0];
        break;
    case QUERY_CHANNEL:
        answer[0] = settings->channel;
        break;
    default: /* a reset leaves the settings */
        break;
    }
}

struct freestar_peer_outcome
freestar_peer_execute(struct freestar_peer_settings *settings, const uint8_t *block,
                      size_t block_len, uint8_t *response, size_t response_len)
{
    enum refusal refusal = check_packet(block, block_len);
    if (refusal != ACCEPTED) return not_written(refusal);
    uint8_t type = block[TYPE], answer = type | ANSWER;
    if (type == answer || totals[type] != block_len) return not_written(BAD_CONTENT);
    if (type == SET_PAN_ID && !is_pan_id(block + DATA)) return not_written(BAD_PAN_ID);
    if (!is_pan_id(settings->pan_id)) return not_written(BAD_PAN_ID);
    if (response_len < totals[answer]) return not_written(BUFFER_SHORT);
    perform(settings, type, block + DATA, response + DATA);
    return close_packet(response, answer);
}

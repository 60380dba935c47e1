/* The module of document 01, written by hand in plain C: state, items, frame, commands; and the
 * reader of its responses of document 02's Ask 1. */

#include "peer.h"

#include <stdbool.h>
#include <string.h>

/* Document 01's numbers, and document 02's. */
enum refusal {
    ACCEPTED, RESPONSE_BUFFER_SHORT, INVALID, ENDS_EARLY, BAD_START, BAD_LENGTH_BYTE,
    TRAILING_BYTES, COMMAND_NOT_SERVED, WRONG_LENGTH, ITEM_NOT_SERVED, NOT_PERMITTED,
    WRONG_INDEX, VALUE_NOT_ACCEPTED, NO_SUCH_RESPONSE = 23
};

/* ---- Items ---------------------------------------------------------------------------------- */

enum {
    NAME = 0x01, FIRMWARE = 0x02, SERIAL = 0x03, ADDRESS = 0x10, LINE_MASK = 0x11,
    LATCH_MASK = 0x12, TX_POWER = 0x13, CONTROL_SOURCE = 0x14, MESSAGE_SELECT = 0x15,
    ANALOG_INPUT = 0x16, SLOT = 0x18, LINES = 0x20, RSSI = 0x21, LADJ = 0x22, STATUS = 0x23,
    INTERRUPT_MASK = 0x25, EVENTS = 0x26
};

enum { R = 1, N = 2, W = 4, P = 8 }; /* Read, Read NV, Write, Program */

struct item {
    uint8_t value_length, index_length;
    uint8_t commands;         /* 0: not served */
    uint16_t working, stored; /* where its cells lie in the state; the same for a single cell */
};

#define CELL(field) offsetof(struct peer_state, field), offsetof(struct peer_state, field)
#define CELLS(field) \
    offsetof(struct peer_state, working.settings.field), \
    offsetof(struct peer_state, stored.settings.field)

static const struct item items[256] = {
    [NAME] = {PEER_NAME, 0, R | N, CELL(stored.name)},
    [FIRMWARE] = {3, 0, R | N, CELL(stored.firmware)},
    [SERIAL] = {4, 0, R | N, CELL(stored.serial)},
    [ADDRESS] = {4, 0, R | N | P, CELL(stored.address)},
    [LINE_MASK] = {1, 0, R | N | W | P, CELLS(line_mask)},
    [LATCH_MASK] = {1, 0, R | N | W | P, CELLS(latch_mask)},
    [TX_POWER] = {1, 0, R | N | W | P, CELLS(tx_power)},
    [CONTROL_SOURCE] = {1, 0, R | N | W | P, CELLS(control_source)},
    [MESSAGE_SELECT] = {1, 0, R | N | W | P, CELLS(message_select)},
    [ANALOG_INPUT] = {PEER_ROW, 1, R | N | W | P, CELLS(analog_inputs)},
    [SLOT] = {PEER_ROW, 1, R | N | P, CELL(stored.slots)},
    [LINES] = {2, 0, R, CELL(live.lines)},
    [RSSI] = {2, 0, R, CELL(live.rssi)},
    [LADJ] = {1, 0, R, CELL(live.ladj)},
    [STATUS] = {4, 0, R, 0, 0}, /* no cell of its own */
    [INTERRUPT_MASK] = {1, 0, R | W | P, CELLS(interrupt_mask)},
    [EVENTS] = {1, 0, R, CELL(live.events)},
};

static bool accepts_tx_power(uint8_t value) { return (int8_t)value >= -20 && (int8_t)value <= 10; }
static bool accepts_control_source(uint8_t value) { return (value & 0xE0) == 0; }
static bool accepts_message_select(uint8_t value) { return value <= 6; }

static bool is_channel(uint8_t value) { return (value >= 0x04 && value <= 0x07) || value >= 0xFE; }
static bool is_reading_count(uint8_t value) { return value >= 1 && value <= 16; }
static bool is_reference(uint8_t value) { return value <= 1; }

static bool accepts_analog_input(const uint8_t *row)
{
    return is_channel(row[0]) && is_reading_count(row[1]) && is_reference(row[2]);
}

static bool accepts_slot(const uint8_t *slot)
{
    uint32_t address;
    memcpy(&address, slot, sizeof address);
    return address != 0 || slot[4] == 0;
}

static inline bool accepts(uint8_t item, const uint8_t *value)
{
    switch (item) {
    case TX_POWER: return accepts_tx_power(value[0]);
    case CONTROL_SOURCE: return accepts_control_source(value[0]);
    case MESSAGE_SELECT: return accepts_message_select(value[0]);
    case ANALOG_INPUT: return accepts_analog_input(value);
    case SLOT: return accepts_slot(value);
    default: return true;
    }
}

/* Inputs count from 1, slots from 0. */
static bool is_index(uint8_t item, uint8_t index)
{
    return item == ANALOG_INPUT ? index >= 1 && index <= PEER_INPUTS : index < PEER_SLOTS;
}

/* ---- The state ------------------------------------------------------------------------------ */

static const struct peer_settings default_settings = {
    .control_source = 0x06,
    .analog_inputs = {{0xFF, 0x01, 0x00, 0x00, 0x00}, {0xFF, 0x01, 0x00, 0x00, 0x00}},
};

struct peer_state peer_factory(void)
{
    /* every byte that isn't named is 00 */
    return (struct peer_state){.stored.settings = default_settings,
                               .working.settings = default_settings,
                               .live.rssi = {0x80, 0x80}};
}

static bool are_valid_settings(const struct peer_settings *settings)
{
    return accepts_tx_power(settings->tx_power) &&
           accepts_control_source(settings->control_source) &&
           accepts_message_select(settings->message_select) &&
           accepts_analog_input(settings->analog_inputs[0]) &&
           accepts_analog_input(settings->analog_inputs[1]);
}

static bool are_valid_flags(uint8_t flags) { return (flags & 0x07) <= 4 && (flags & 0xC8) == 0; }

static bool is_valid(const struct peer_state *state)
{
    const struct peer_stored *stored = &state->stored;
    if (memchr(stored->name, 0x00, PEER_NAME) == NULL) return false;
    if (!are_valid_settings(&stored->settings)) return false;
    if (!are_valid_settings(&state->working.settings)) return false;
    for (size_t i = 0; i < PEER_SLOTS; i++)
        if (!accepts_slot(stored->slots[i])) return false;
    return are_valid_flags(state->live.flags);
}

/* ---- Frame and payload ---------------------------------------------------------------------- */

enum { FRAME_START = 0x80, WAKE = 0xFF, MOST_WAKES = 16, WAKES_END = 0x55, LENGTH_BASE = 0x80 };
enum { READ = 0x01, WRITE = 0x02, READ_NV = 0x03, PROGRAM = 0x04 };
enum { SET_DEFAULT = 0x81, ERASE_ALL_ADDRESSES = 0x82 };

static enum refusal read_frame(const uint8_t *block, size_t size, const uint8_t **payload,
                               size_t *length)
{
    if (size == 0) return ENDS_EARLY;
    if (block[0] != FRAME_START) return BAD_START;
    size_t at = 1;
    for (; at < size && block[at] == WAKE; at++)
        if (at > MOST_WAKES) return BAD_START;
    if (at == size) return ENDS_EARLY;
    if (block[at++] != WAKES_END) return BAD_START;
    if (at == size) return ENDS_EARLY;
    if (block[at] <= LENGTH_BASE) return BAD_LENGTH_BYTE;
    *length = (size_t)(block[at++] - LENGTH_BASE);
    *payload = block + at;
    if (size - at < *length) return ENDS_EARLY;
    return size - at > *length ? TRAILING_BYTES : ACCEPTED;
}

static inline enum refusal validate_payload(const uint8_t *payload, size_t length)
{
    static const uint8_t marks[] = {[READ] = R, [WRITE] = W, [READ_NV] = N, [PROGRAM] = P};
    if (payload[0] == SET_DEFAULT || payload[0] == ERASE_ALL_ADDRESSES)
        return length == 1 ? ACCEPTED : WRONG_LENGTH;
    if (payload[0] < READ || payload[0] > PROGRAM) return COMMAND_NOT_SERVED;
    if (length == 1) return WRONG_LENGTH;
    uint8_t mark = marks[payload[0]];
    const struct item *item = &items[payload[1]];
    if (item->commands == 0) return ITEM_NOT_SERVED;
    if ((item->commands & mark) == 0) return NOT_PERMITTED;
    bool has_value = (mark & (W | P)) != 0;
    size_t value_start = 2u + item->index_length;
    if (length != value_start + (has_value ? item->value_length : 0)) return WRONG_LENGTH;
    if (item->index_length != 0 && !is_index(payload[1], payload[2])) return WRONG_INDEX;
    if (has_value && !accepts(payload[1], payload + value_start)) return VALUE_NOT_ACCEPTED;
    return ACCEPTED;
}

/* ---- Executing a command -------------------------------------------------------------------- */

enum { ACKNOWLEDGED = 0xC0, READ_RESPONSE = 0xC1, READ_NV_RESPONSE = 0xC2 };

static size_t write_status(const struct peer_state *state, uint8_t *value)
{
    const struct peer_settings *working = &state->working.settings;
    const struct peer_live *live = &state->live;
    const struct peer_hardware_selection *hardware = &live->hardware;
    uint8_t control = working->control_source;
    bool interrupt = (live->events & working->interrupt_mask) != 0;
    value[0] = (uint8_t)((live->flags & 0x7F) | (interrupt ? 0x80 : 0x00));
    value[1] = control & 0x01 ? working->tx_power : hardware->power;
    value[2] = control & 0x08 ? working->line_mask : hardware->line_mask;
    value[3] = control & 0x10 ? working->latch_mask : hardware->latch_mask;
    return 4;
}

/* How far after an item's first cell the one that a payload names lies. */
static size_t row_offset(const uint8_t *payload)
{
    if (payload[1] == ANALOG_INPUT) return (payload[2] - 1u) * PEER_ROW;
    return payload[1] == SLOT ? (size_t)payload[2] * PEER_ROW : 0;
}

/* Writes the value that an accepted Read or Read NV answers; its length. */
static size_t write_value(const struct peer_state *state, const uint8_t *payload, uint8_t *value)
{
    if (payload[1] == STATUS) return write_status(state, value);
    const struct item *item = &items[payload[1]];
    size_t length = item->value_length;
    if (payload[1] == NAME)
        length = strnlen((const char *)state->stored.name, PEER_NAME - 1) + 1;
    size_t cell = payload[0] == READ ? item->working : item->stored;
    memcpy(value, (const uint8_t *)state + cell + row_offset(payload), length);
    return length;
}

/* An item with a single cell is stored once, under either name. */
static void store_value(struct peer_state *state, const uint8_t *payload)
{
    const struct item *item = &items[payload[1]];
    const uint8_t *value = payload + 2 + item->index_length;
    uint8_t *row = (uint8_t *)state + row_offset(payload);
    memcpy(row + item->working, value, item->value_length);
    if (payload[0] == PROGRAM && item->stored != item->working)
        memcpy(row + item->stored, value, item->value_length);
}

/* Carries out an accepted payload and writes the response's payload; its length. */
static size_t perform(struct peer_state *state, const uint8_t *payload, size_t length,
                      uint8_t *answer)
{
    switch (payload[0]) {
    case READ:
    case READ_NV:
        answer[0] = payload[0] == READ ? READ_RESPONSE : READ_NV_RESPONSE;
        memcpy(answer + 1, payload + 1, length - 1);
        return length + write_value(state, payload, answer + length);
    case SET_DEFAULT:
        state->stored.settings = default_settings;
        state->working.settings = default_settings;
        break;
    case ERASE_ALL_ADDRESSES:
        memset(state->stored.slots, 0, sizeof state->stored.slots);
        break;
    default:
        store_value(state, payload);
    }
    answer[0] = ACKNOWLEDGED;
    answer[1] = 0x00;
    memcpy(answer + 2, payload, length);
    return length + 2;
}

/* The unit looks at the whole state at each block (01's refusal 2). -DPEER_ASKS=0 shows what that costs. */
#ifndef PEER_ASKS
#define PEER_ASKS 1
#endif

struct peer_outcome peer_execute(struct peer_state *state, const uint8_t *block, size_t block_size,
                                 uint8_t *response, size_t response_size)
{
    const uint8_t *payload;
    size_t length;
    if (response_size < PEER_RESPONSE) return (struct peer_outcome){RESPONSE_BUFFER_SHORT, 0};
    if (PEER_ASKS && !is_valid(state)) return (struct peer_outcome){INVALID, 0};
    enum refusal refusal = read_frame(block, block_size, &payload, &length);
    if (refusal == ACCEPTED)
        refusal = validate_payload(payload, length);
    if (refusal != ACCEPTED) return (struct peer_outcome){(uint8_t)refusal, 0};
    length = perform(state, payload, length, response + 3);
    response[0] = FRAME_START;
    response[1] = WAKES_END;
    response[2] = (uint8_t)(LENGTH_BASE + length);
    return (struct peer_outcome){ACCEPTED, 3 + length};
}

/* ---- Reading a response --------------------------------------------------------------------- */

enum { PAYLOAD = 3, ECHO = 2 }; /* where the payload starts in a response, and the echo in a payload */

static struct peer_decoded refused(enum refusal refusal)
{
    return (struct peer_decoded){.refusal = (uint8_t)refusal};
}

static struct peer_decoded no_response(size_t place)
{
    return (struct peer_decoded){.refusal = NO_SUCH_RESPONSE, .place = place};
}

static struct peer_decoded value_in(size_t start, size_t length)
{
    return (struct peer_decoded){.start = PAYLOAD + start, .length = length};
}

/* A response has no wake bytes. */
static enum refusal check_response_frame(const uint8_t *block, size_t size)
{
    if (size == 0) return ENDS_EARLY;
    if (block[0] != FRAME_START) return BAD_START;
    if (size == 1) return ENDS_EARLY;
    if (block[1] != WAKES_END) return BAD_START;
    if (size == 2) return ENDS_EARLY;
    if (block[2] <= LENGTH_BASE) return BAD_LENGTH_BYTE;
    size_t end = PAYLOAD + (size_t)(block[2] - LENGTH_BASE);
    if (size < end) return ENDS_EARLY;
    return size > end ? TRAILING_BYTES : ACCEPTED;
}

/* The place of the first byte that the item's value can't have there, after those before it; the
 * size if there is none. There is at least one byte; the value may be cut, and bytes may follow. */
static size_t first_impossible(uint8_t item, const uint8_t *value, size_t size)
{
    switch (item) {
    case TX_POWER: return accepts_tx_power(value[0]) ? size : 0;
    case CONTROL_SOURCE: return accepts_control_source(value[0]) ? size : 0;
    case MESSAGE_SELECT: return accepts_message_select(value[0]) ? size : 0;
    case STATUS: return are_valid_flags(value[0] & 0x7F) ? size : 0;
    case SLOT: return size < PEER_ROW || accepts_slot(value) ? size : PEER_ROW - 1;
    case ANALOG_INPUT:
        if (!is_channel(value[0])) return 0;
        if (size > 1 && !is_reading_count(value[1])) return 1;
        return size > 2 && !is_reference(value[2]) ? 2 : size;
    default: return size;
    }
}

/* The first 00 ends a name. It is the last of 17 bytes at the latest. */
static struct peer_decoded decode_name(const uint8_t *value, size_t size, size_t start)
{
    const uint8_t *zero = memchr(value, 0x00, size < PEER_NAME ? size : PEER_NAME);
    if (zero == NULL) return no_response(start + (size < PEER_NAME ? size : PEER_NAME - 1));
    size_t length = (size_t)(zero - value) + 1;
    return length < size ? no_response(start + length) : value_in(start, length);
}

static struct peer_decoded decode_value(const uint8_t *sent, size_t start, const uint8_t *payload,
                                        size_t length)
{
    if (payload[0] != (sent[0] == READ ? READ_RESPONSE : READ_NV_RESPONSE)) return no_response(0);
    if (length == 1 || payload[1] != sent[1]) return no_response(1);
    if (start == 3 && (length == 2 || payload[2] != sent[2])) return no_response(2);
    if (length == start) return no_response(start);
    const uint8_t *value = payload + start;
    size_t size = length - start, whole = items[sent[1]].value_length;
    if (sent[1] == NAME) return decode_name(value, size, start);
    size_t place = first_impossible(sent[1], value, size);
    if (place == whole && size == whole) return value_in(start, whole);
    return no_response(start + (place < whole ? place : whole));
}

static struct peer_decoded decode_echo(const uint8_t *sent, size_t sent_size,
                                       const uint8_t *payload, size_t length)
{
    if (payload[0] != ACKNOWLEDGED) return no_response(0);
    if (length == 1 || payload[1] != 0x00) return no_response(1);
    const uint8_t *echo = payload + ECHO;
    size_t size = length - ECHO, same = 0;
    if (size == sent_size && memcmp(echo, sent, size) == 0) return value_in(ECHO, size);
    while (same < size && same < sent_size && echo[same] == sent[same])
        same++;
    return no_response(ECHO + same);
}

struct peer_decoded peer_decode_response(const uint8_t *sent, size_t sent_size,
                                         const uint8_t *response, size_t response_size)
{
    if (sent_size == 0) return refused(ENDS_EARLY);
    enum refusal refusal = validate_payload(sent, sent_size);
    if (refusal == ACCEPTED)
        refusal = check_response_frame(response, response_size);
    if (refusal != ACCEPTED) return refused(refusal);
    const uint8_t *payload = response + PAYLOAD;
    size_t length = response_size - PAYLOAD;
    if (sent[0] == READ || sent[0] == READ_NV) return decode_value(sent, sent_size, payload, length);
    return decode_echo(sent, sent_size, payload, length);
}

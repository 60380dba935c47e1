/* The module of document 01, and the reader of its responses of document 02's Ask 1, written by hand
 * in plain C: what the proved ones are measured beside. */
#ifndef PEER_H
#define PEER_H

#include <stddef.h>
#include <stdint.h>

enum {
    PEER_NAME = 17,
    PEER_SLOTS = 40,
    PEER_INPUTS = 2,
    PEER_ROW = 5,       /* bytes of a slot, and of an analog input */
    PEER_RESPONSE = 22  /* bytes that a response buffer has at least */
};

struct peer_settings {
    uint8_t line_mask, latch_mask, tx_power, control_source, message_select;
    uint8_t analog_inputs[PEER_INPUTS][PEER_ROW];
    uint8_t interrupt_mask;
};

struct peer_hardware_selection {
    uint8_t power, line_mask, latch_mask;
};

/* The parts and their fields are in the order of cdi.h's, so that two states can be compared byte by
 * byte. */
struct peer_stored {
    uint8_t name[PEER_NAME], firmware[3], serial[4], address[4];
    struct peer_settings settings;
    uint8_t slots[PEER_SLOTS][PEER_ROW];
};

struct peer_working {
    struct peer_settings settings;
};

struct peer_live {
    uint8_t lines[2], rssi[2], ladj, events, flags;
    struct peer_hardware_selection hardware;
};

struct peer_state {
    struct peer_stored stored;
    struct peer_working working;
    struct peer_live live;
};

/* Document 01's number or 0, and the response's length, 0 on a refusal. */
struct peer_outcome {
    uint8_t refusal;
    size_t length;
};

/* Of the reader: the number or 0; with 23 the place in the payload; where the value, or the echo, is in
 * the response. What isn't named is 0. */
struct peer_decoded {
    uint8_t refusal;
    size_t place, start, length;
};

struct peer_state peer_factory(void);

/* Executes one command block. A refusal changes no byte; bytes after the response stay. */
struct peer_outcome peer_execute(struct peer_state *state, const uint8_t *block, size_t block_size,
                                 uint8_t *response, size_t response_size);

/* Reads a response to the payload that was sent. */
struct peer_decoded peer_decode_response(const uint8_t *sent, size_t sent_size,
                                         const uint8_t *response, size_t response_size);

#endif

/* Wi.Freestar messages (document 02's Ask 11, source document 004), read, written and executed in
 * plain C by hand: what the proved library is measured beside. Structs and arguments are as in
 * freestar.h. */
#ifndef FREESTAR_PEER_H
#define FREESTAR_PEER_H

#include <stddef.h>
#include <stdint.h>

/* Of a writer: document 02's number or 0, and the packet's length, 0 on a refusal. */
struct freestar_peer_outcome {
    uint8_t refusal;
    size_t length;
};

/* What the messages set and query, low bytes first. */
struct freestar_peer_settings {
    uint8_t pan_id[2], long_address[8], short_address[2], channel;
};

/* A message that was read, with its data at block[3]. On a refusal type and data_length are 0. */
struct freestar_peer_message {
    uint8_t refusal, type, data_length;
};

/* Refuses with 24, 25, 26, 27 or 28, in this order. */
struct freestar_peer_message freestar_peer_decode(const uint8_t *block, size_t block_len);

/* Refuses with 27, 28 or 13, in this order. A refusal changes no byte; bytes after the packet stay. */
struct freestar_peer_outcome freestar_peer_encode(uint8_t type, const uint8_t *data, size_t data_len,
                                                  uint8_t *packet, size_t packet_len);

/* Executes a message of the host's. Refuses with 24, 25, 26, 27, 28 or 13, in this order; a refusal
 * changes no byte of settings and response, and bytes after the response stay. */
struct freestar_peer_outcome
freestar_peer_execute(struct freestar_peer_settings *settings, const uint8_t *block,
                      size_t block_len, uint8_t *response, size_t response_len);

#endif

/* Coyote XL packets (document 02's Ask 10, source document 003), read and written in plain C by hand:
 * what the proved library is measured beside. Structs and arguments are as in coyote.h. */
#ifndef COYOTE_PEER_H
#define COYOTE_PEER_H

#include <stddef.h>
#include <stdint.h>

/* Of a writer: document 02's number or 0, and the packet's length, 0 on a refusal. */
struct coyote_peer_outcome {
    uint8_t refusal;
    size_t length;
};

/* A packet that was read. Fields that its type doesn't have are 0; on a refusal all others are. */
struct coyote_peer_packet {
    uint8_t refusal, type;
    uint8_t source_group, source_address, target_count; /* below 30; target i at block[6 + 2 * i] */
    uint8_t memory_space;                               /* 80 */
    uint8_t request_type, failure_code;                 /* 86 and 87; 87 */
    uint16_t memory_address, memory_length;             /* 80 */
    uint16_t data_start, data_length;                   /* below 30, and 86: places in the block */
};

/* A charge that was read; on a refusal input and readout are 0. */
struct coyote_peer_charge {
    uint8_t refusal, input;
    uint16_t readout;
};

/* The readers refuse with 24, 25, 26 or 27, in this order. */
struct coyote_peer_packet coyote_peer_decode(const uint8_t *block, size_t block_len);
struct coyote_peer_charge coyote_peer_import_charge(const uint8_t *block, size_t block_len);

/* The writers refuse with 27 or 13, in this order. A refusal changes no byte; bytes after the packet
 * stay. Targets are bytes, group and address in turn. */
struct coyote_peer_outcome
coyote_peer_encode_addressed(uint8_t type, uint8_t source_group, uint8_t source_address,
                             const uint8_t *targets, size_t targets_len, const uint8_t *data,
                             size_t data_len, uint8_t *packet, size_t packet_len);
struct coyote_peer_outcome
coyote_peer_encode_read_memory(uint8_t space, uint16_t address, uint16_t length, uint8_t *packet,
                               size_t packet_len);
struct coyote_peer_outcome
coyote_peer_encode_success(uint8_t request_type, const uint8_t *data, size_t data_len,
                           uint8_t *packet, size_t packet_len);
struct coyote_peer_outcome
coyote_peer_encode_failure(uint8_t request_type, uint8_t code, uint8_t *packet, size_t packet_len);
struct coyote_peer_outcome
coyote_peer_export_charge(uint8_t sequence, uint8_t source_group, uint8_t source_address,
                          const uint8_t *targets, size_t targets_len, uint8_t input,
                          uint16_t readout, uint8_t *packet, size_t packet_len);

#endif

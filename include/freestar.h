/*
 * freestar.h: the messages of a Wi.Freestar radio, as a library for the controller.
 *
 * The host sets and queries a radio's settings by messages at the radio's serial port, and the radio
 * answers each message. freestar_encode writes a message and freestar_decode reads one, on either
 * side. freestar_execute answers a message as the radio does; the caller keeps one freestar_settings
 * for each radio. The messages are those of source document 004. Document 02 (Ask 11) says which of
 * them are served; a rule marked (house) is its own.
 *
 * For every function:
 *
 *   - It returns for every input. It refuses bad input with a number, FREESTAR_REFUSAL_...; if
 *     several apply, it gives the first in the order of its comment. A refusal writes no byte of a
 *     buffer and changes nothing in the settings.
 *   - The caller owns all memory. The library allocates nothing and keeps nothing after the return,
 *     so calls on different settings may run at the same time.
 *   - The caller passes no NULL pointer, even with a length of 0, and no two memory regions that
 *     overlap. Settings and bytes may be at any address.
 *   - It writes only what its comment says.
 *
 * Numbers written 0x.. and the bytes of packets are hexadecimal. The header needs C11 or C++11 for its
 * assertions on the layout. The library needs no other library.
 */
#ifndef FREESTAR_H
#define FREESTAR_H

#include <stddef.h>
#include <stdint.h>

#ifdef __cplusplus
extern "C" {
#endif

/* ---- Sizes and limits -------------------------------------------------------------------------- */

enum {
    FREESTAR_PACKET_MAX = 15,      /* the longest packet: the most data */
    FREESTAR_OVERHEAD = 5,         /* the bytes of a packet around its data */
    FREESTAR_DATA_START = 3,       /* the place of the data in a packet */
    FREESTAR_DATA_MAX = 10,        /* the most bytes of data in a packet: both addresses */
    FREESTAR_PAN_ID_LIMIT = 16384  /* the first number that is too large for a PAN ID */
};

/* ---- Refusals ---------------------------------------------------------------------------------- */

enum {
    FREESTAR_REFUSAL_NONE = 0,                 /* accepted */
    FREESTAR_REFUSAL_FRAME_BUFFER_SHORT = 13,  /* the buffer is shorter than the packet */
    FREESTAR_REFUSAL_PACKET_ENDS = 24,         /* an empty block, or not 0x01 first and 0x04 last */
    FREESTAR_REFUSAL_PACKET_LENGTH = 25,       /* a length byte under 5, or not the block's length */
    FREESTAR_REFUSAL_PACKET_SUM = 26,          /* a wrong sum */
    FREESTAR_REFUSAL_PACKET_CONTENT = 27,      /* a type not served, or not the type's data length */
    FREESTAR_REFUSAL_PAN_ID_OVER = 28          /* a PAN ID is FREESTAR_PAN_ID_LIMIT or more */
};

/* ---- Messages ----------------------------------------------------------------------------------
 *
 * A message is one packet. With n bytes of data it has these bytes:
 *
 *     place 0      0x01, the start byte
 *     place 1      5 + n, the length of the whole packet
 *     place 2      the type
 *     place 3      the data
 *     place 3 + n  the sum of all bytes before it, modulo 256
 *     place 4 + n  0x04, the end byte
 *
 * Of the types that are served the host sends seven, and the radio answers each with the type that
 * is 0x80 higher. The number of data bytes depends on the type alone:
 *
 *     The host sends                   Data   The radio answers                            Data
 *     0x01 Set PAN ID                     2   0x81 Set PAN ID acknowledged                    0
 *     0x02 Query PAN ID                   0   0x82 Respond with PAN ID                        2
 *     0x03 Set transceiver address       10   0x83 Set transceiver address acknowledged       0
 *     0x04 Query transceiver address      0   0x84 Respond with transceiver address          10
 *     0x05 Set RF channel                 1   0x85 Set RF channel acknowledged                0
 *     0x06 Query RF channel               0   0x86 Respond with RF channel                    1
 *     0x18 Reset request                  0   0x98 Reset request acknowledged                 0
 *
 * Every number in the data has its low byte first:
 *
 *     PAN ID   a number of 14 bits in two bytes. 16,384 or more is refused, and not cut to 14 bits.
 *     address  the long address, eight bytes, and after it the short address, two bytes; any.
 *     channel  one byte. 004 names the channels 11 to 26; any byte is accepted (house).
 *
 * An exchange in which the host sets the PAN ID 0x1234 and queries it:
 *
 *     the host    01 07 01 34 12 4F 04    Set PAN ID; 01 + 07 + 01 + 34 + 12 = 4F
 *     the radio   01 05 81 87 04          Set PAN ID acknowledged
 *     the host    01 05 02 08 04          Query PAN ID
 *     the radio   01 07 82 34 12 D0 04    Respond with PAN ID
 */

enum {
    /* from the host */
    FREESTAR_TYPE_SET_PAN_ID = 0x01,
    FREESTAR_TYPE_QUERY_PAN_ID = 0x02,
    FREESTAR_TYPE_SET_ADDRESS = 0x03,
    FREESTAR_TYPE_QUERY_ADDRESS = 0x04,
    FREESTAR_TYPE_SET_CHANNEL = 0x05,
    FREESTAR_TYPE_QUERY_CHANNEL = 0x06,
    FREESTAR_TYPE_RESET = 0x18,

    /* from the radio */
    FREESTAR_TYPE_SET_PAN_ID_ACKNOWLEDGED = 0x81,
    FREESTAR_TYPE_RESPOND_PAN_ID = 0x82,
    FREESTAR_TYPE_SET_ADDRESS_ACKNOWLEDGED = 0x83,
    FREESTAR_TYPE_RESPOND_ADDRESS = 0x84,
    FREESTAR_TYPE_SET_CHANNEL_ACKNOWLEDGED = 0x85,
    FREESTAR_TYPE_RESPOND_CHANNEL = 0x86,
    FREESTAR_TYPE_RESET_ACKNOWLEDGED = 0x98
};

/* ---- The settings ------------------------------------------------------------------------------
 *
 * What a radio keeps, in the byte order of the messages. 004 has no factory values, so the caller
 * fills them in before the first message; all zeros are accepted. Settings are plain bytes without
 * padding: memcpy copies them, memcmp compares two.
 *
 * A PAN ID of FREESTAR_PAN_ID_LIMIT or more is not accepted here either. While the settings have one,
 * freestar_execute accepts no message: one that is otherwise in order is refused with PAN_ID_OVER,
 * also a Set PAN ID and a Reset request. Only the caller can put it right; no message sets such a
 * PAN ID.
 */
typedef struct {
    uint8_t pan_id[2];         /* low byte first; pan_id[1] is under 0x40 */
    uint8_t long_address[8];   /* low byte first; any */
    uint8_t short_address[2];  /* low byte first; any */
    uint8_t channel;           /* any */
} freestar_settings;

/* ---- Results ----------------------------------------------------------------------------------- */

/* Of a call that writes a packet: the refusal or 0, and the packet's length, 0 on a refusal. */
typedef struct {
    uint8_t refusal;
    size_t length;
} freestar_outcome;

/*
 * Of freestar_decode: the fields of a message. The data stay in the block that was read: they are the
 * data_length bytes from block[FREESTAR_DATA_START] on. On a refusal type and data_length are 0.
 */
typedef struct {
    uint8_t refusal;
    uint8_t type;         /* FREESTAR_TYPE_... */
    uint8_t data_length;  /* 0 to FREESTAR_DATA_MAX, as the table above has it for the type */
} freestar_message;

/* ---- Reading and writing -----------------------------------------------------------------------
 *
 * Both functions serve all 14 types. What freestar_encode writes, freestar_decode reads as the same
 * type and data.
 */

/*
 * Reads a message. It reads the block, which is exactly one packet, and writes no memory. It returns
 * the type and the number of data bytes. Refusals, in this order: PACKET_ENDS; PACKET_LENGTH;
 * PACKET_SUM; PACKET_CONTENT for a type that is not served, or data of another length than the
 * type's; PAN_ID_OVER for a PAN ID of 16,384 or more in type 0x01 or 0x82.
 */
freestar_message freestar_decode(const uint8_t *block, size_t block_len);

/*
 * Writes a message. It reads the data. It writes the packet, 5 + data_len bytes, to the first bytes
 * of `packet`, leaves the rest, and returns the packet's length. A buffer of the packet's own length
 * is enough; FREESTAR_PACKET_MAX bytes are enough for every packet. Refusals, in this order:
 * PACKET_CONTENT for a type that is not served, or a data_len that is not the type's; PAN_ID_OVER for
 * a PAN ID of 16,384 or more in type 0x01 or 0x82; FRAME_BUFFER_SHORT.
 */
freestar_outcome freestar_encode(uint8_t type, const uint8_t *data, size_t data_len,
                                 uint8_t *packet, size_t packet_len);

/* ---- The radio --------------------------------------------------------------------------------- */

/*
 * Executes a message of the host on the settings. It reads the settings and the block, which is
 * exactly one packet. It writes the answer's packet to the first bytes of `response`, leaves the
 * rest, and returns the packet's length. By the message's type:
 *
 *     Set PAN ID                 pan_id becomes the data                            5 bytes
 *     Query PAN ID               the answer's data are pan_id                       7 bytes
 *     Set transceiver address    long_address and short_address become the data     5 bytes
 *     Query transceiver address  the answer's data are both                        15 bytes
 *     Set RF channel             channel becomes the data                           5 bytes
 *     Query RF channel           the answer's data are channel                      6 bytes
 *     Reset request              the settings stay as they are (house)              5 bytes
 *
 * All else in the settings stays; a refusal leaves all of it. All 13 bytes are written back in every
 * case, so no other thread may use the settings during the call. A buffer of the answer's own length,
 * in the last column, is enough.
 * Refusals, in this order: PACKET_ENDS; PACKET_LENGTH; PACKET_SUM; PACKET_CONTENT for a type that is
 * not served or that the radio sends, or data of another length than the type's; PAN_ID_OVER for a
 * PAN ID of 16,384 or more in a Set PAN ID or, whatever the message, in the settings;
 * FRAME_BUFFER_SHORT.
 */
freestar_outcome freestar_execute(freestar_settings *settings, const uint8_t *block, size_t block_len,
                                  uint8_t *response, size_t response_len);

/* ---- The layout that the library was proved with ----------------------------------------------- */

#ifdef __cplusplus
#define FREESTAR_HOLDS(condition) static_assert(condition, #condition)
#else
#define FREESTAR_HOLDS(condition) _Static_assert(condition, #condition)
#endif

FREESTAR_HOLDS(sizeof(size_t) == 8);
FREESTAR_HOLDS(sizeof(freestar_settings) == 13);
FREESTAR_HOLDS(offsetof(freestar_settings, pan_id) == 0);
FREESTAR_HOLDS(offsetof(freestar_settings, long_address) == 2);
FREESTAR_HOLDS(offsetof(freestar_settings, short_address) == 10);
FREESTAR_HOLDS(offsetof(freestar_settings, channel) == 12);
FREESTAR_HOLDS(sizeof(freestar_outcome) == 16);
FREESTAR_HOLDS(offsetof(freestar_outcome, refusal) == 0);
FREESTAR_HOLDS(offsetof(freestar_outcome, length) == 8);
FREESTAR_HOLDS(sizeof(freestar_message) == 3);
FREESTAR_HOLDS(offsetof(freestar_message, refusal) == 0);
FREESTAR_HOLDS(offsetof(freestar_message, type) == 1);
FREESTAR_HOLDS(offsetof(freestar_message, data_length) == 2);

#undef FREESTAR_HOLDS

#ifdef __cplusplus
}
#endif

#endif

/*
 * coyote.h: the packets of a Coyote XL radio, as a library for the controller.
 *
 * The controller exchanges packets with the radio at its serial port. coyote_decode reads a packet,
 * and each coyote_encode_... function writes packets of one kind. coyote_export_charge writes the
 * charge of a pack as a packet, and coyote_import_charge reads it on the other side. The packets are
 * those of source document 003; document 02 (Ask 10, house) sets the limits on targets and lengths.
 *
 * For every function:
 *
 *   - It returns for every input. It refuses bad input with a number, COYOTE_REFUSAL_...; if several
 *     apply, it gives the first in the order of its comment. A refusal writes no byte of a buffer.
 *   - The caller owns all memory. The library allocates nothing and keeps nothing after the return,
 *     so calls may run at the same time.
 *   - The caller passes no NULL pointer, even with a length of 0, and no two memory regions that
 *     overlap. Bytes may be at any address.
 *   - It writes only what its comment says.
 *
 * Numbers written 0x.. are bytes on the wire. The header needs C11 or C++11 for its assertions on
 * the layout. The library needs no other library.
 */
#ifndef COYOTE_H
#define COYOTE_H

#include <stddef.h>
#include <stdint.h>

#ifdef __cplusplus
extern "C" {
#endif

/* ---- Sizes and limits -------------------------------------------------------------------------- */

enum {
    COYOTE_PACKET_MAX = 1066,  /* the longest packet: the most targets and the most data */
    COYOTE_OVERHEAD = 6,       /* the bytes of a packet around its payload */
    COYOTE_TARGETS_MAX = 16,   /* the most targets of a packet; each is two bytes */
    COYOTE_DATA_MAX = 1023,    /* the most bytes of data in a packet, and of one memory read */
    COYOTE_CHARGE_SIZE = 16    /* the packet of a charge to one target; each further target adds 2 */
};

/* ---- Refusals ---------------------------------------------------------------------------------- */

enum {
    COYOTE_REFUSAL_NONE = 0,                 /* accepted */
    COYOTE_REFUSAL_FRAME_BUFFER_SHORT = 13,  /* the buffer for a packet is shorter than the packet */
    COYOTE_REFUSAL_PACKET_ENDS = 24,         /* the block is empty, or not 0xAA first and 0x55 last */
    COYOTE_REFUSAL_PACKET_LENGTH = 25,       /* the length bytes do not give the block's length */
    COYOTE_REFUSAL_PACKET_SUM = 26,          /* the sum is wrong */
    COYOTE_REFUSAL_PACKET_CONTENT = 27       /* the type is not served, or a field is not accepted */
};

/* ---- Packets -----------------------------------------------------------------------------------
 *
 * A packet has these bytes, with n payload bytes (003's PayLdData):
 *
 *     place 0      0xAA
 *     place 1      PcktType
 *     place 2      n, two bytes
 *     place 4      the payload
 *     place 4 + n  the sum of type, length bytes and payload, modulo 256
 *     place 5 + n  0x55
 *
 * The payload of each type, with the number of bytes of each field:
 *
 *     AckData, NoAckData  SrcLoc 2, DestLoc 2 for each target, EOA 1, DataLen 2, Data 1 to 1023
 *     Ack                 SrcLoc 2, DestLoc 2 for each target, EOA 1, DataLen 2, Retries 1
 *     ReadMem             MemSpace 1, Addr 2, Len 2
 *     Success             ReqType 1, DataLen 2, Data 0 to 1023
 *     Failure             ReqType 1, DataLen 2, FailCode 1
 *
 * Every two-byte number of a packet has its low byte first; only the readout in a charge's data has
 * its high byte first. SrcLoc and DestLoc are a group and an address. There are 1 to 16 targets; the
 * last one is the destination, and those before it pass the packet on. EOA, always 0x80, ends the
 * targets, so no target has the group 0x80; a target's address and both bytes of SrcLoc may be 0x80.
 * DataLen is the number of bytes between it and the sum. Len, the number of bytes that a ReadMem
 * asks for, is 2 to 1023. 003's example, "Hello" from 1:2 to 1:3, sequence 0:
 *
 *     AA 00 0C 00 01 02 01 03 80 05 00 48 65 6C 6C 6F 8C 55
 */

/*
 * The types that are served. The low four bits of the first three are a sequence number, which the
 * caller counts: in order, and 0 again after 15. Between controller and radio, AckData and NoAckData
 * go both ways, ReadMem goes to the radio, and the others come from it; the library reads and writes
 * all six. The radio answers an AckData with an Ack or a Failure, a NoAckData with a Success as soon
 * as it has taken it, and a ReadMem with a Success. Each target of an AckData is to be one single
 * radio; a NoAckData may be a broadcast.
 */
enum {
    COYOTE_TYPE_ACK_DATA = 0x00,     /* to 0x0F, AckData: data that the target acknowledges */
    COYOTE_TYPE_NO_ACK_DATA = 0x10,  /* to 0x1F, NoAckData: data that is not acknowledged */
    COYOTE_TYPE_ACK = 0x20,          /* to 0x2F, Ack: the AckData of this sequence number arrived */
    COYOTE_TYPE_READ_MEM = 0x80,     /* ReadMem: asks for bytes of the radio's memory */
    COYOTE_TYPE_SUCCESS = 0x86,      /* Success: the request succeeded; data may follow */
    COYOTE_TYPE_FAILURE = 0x87       /* Failure: the request failed; the failure code follows */
};

/* MemSpace of a ReadMem. */
enum {
    COYOTE_MEMORY_EEPROM = 0,
    COYOTE_MEMORY_RAM = 1
};

/* FailCode of a Failure. */
enum {
    COYOTE_FAILURE_TIMEOUT = 0,          /* no response received */
    COYOTE_FAILURE_TRANSCEIVER_OFF = 1,  /* the command is accepted only when the transceiver is on */
    COYOTE_FAILURE_TRANSCEIVER_ON = 2,   /* the command is accepted only when the transceiver is off */
    COYOTE_FAILURE_PROGRAMMING = 3,      /* programming failure: a Flash write failed to verify */
    COYOTE_FAILURE_COMMAND_ERROR = 4,    /* unrecognized command or format */
    COYOTE_FAILURE_RESTRICTED = 5        /* the memory location cannot be reprogrammed */
};

/* ---- Results ----------------------------------------------------------------------------------- */

/* Of a call that writes a packet: the refusal or 0, and the packet's length, 0 on a refusal. */
typedef struct {
    uint8_t refusal;
    size_t length;
} coyote_outcome;

/*
 * Of coyote_decode: the fields of a packet. "Addressed" are AckData, NoAckData and Ack. A field that
 * the packet's type does not have is 0; on a refusal every field but `refusal` is 0.
 *
 * Targets and data stay in the block that was read, and all of these places are inside it. Target i,
 * from 0 on, has its group at block[6 + 2 * i] and its address at block[7 + 2 * i]. The data are the
 * data_length bytes from block[data_start] on. The one data byte of an Ack is its Retries, how many
 * retries of the AckData were left; 0xFF says that the Ack came after the radio had given up.
 */
typedef struct {
    uint8_t refusal;
    uint8_t type;             /* PcktType, with the sequence number if it is under 0x30 */
    uint8_t source_group;     /* SrcLoc, addressed: any byte */
    uint8_t source_address;   /* SrcLoc, addressed: any byte */
    uint8_t target_count;     /* the number of DestLoc, addressed: 1 to COYOTE_TARGETS_MAX */
    uint8_t memory_space;     /* MemSpace, ReadMem: COYOTE_MEMORY_... */
    uint8_t request_type;     /* ReqType, Success and Failure: the type that is answered, any byte */
    uint8_t failure_code;     /* FailCode, Failure: COYOTE_FAILURE_... */
    uint16_t memory_address;  /* Addr, ReadMem: any */
    uint16_t memory_length;   /* Len, ReadMem: 2 to COYOTE_DATA_MAX */
    uint16_t data_start;      /* the place of Data, addressed: 9 + 2 * target_count; Success: 7 */
    uint16_t data_length;     /* DataLen, addressed: from 1 on; Success: from 0 on */
} coyote_packet;

/* Of coyote_import_charge: the refusal or 0, and the charge, 0 on a refusal. */
typedef struct {
    uint8_t refusal;
    uint8_t input;     /* the analog input, 1 or 2 */
    uint16_t readout;  /* any; cdi_percent of cdi.h gives its percent */
} coyote_charge;

/* ---- Reading ----------------------------------------------------------------------------------- */

/*
 * Reads a packet. It reads the block, which is exactly one packet, and writes no memory. It returns
 * the packet's fields; look at `refusal` first, since the type 0x00 is an AckData. Refusals, in this
 * order: PACKET_ENDS; PACKET_LENGTH; PACKET_SUM; PACKET_CONTENT for a type that is not served, a
 * number of targets other than 1 to 16, no EOA after them, a payload too short or too long for its
 * fields, a DataLen or Len out of its range, a MemSpace other than 0 and 1, or a FailCode over 5.
 */
coyote_packet coyote_decode(const uint8_t *block, size_t block_len);

/* ---- Writing -----------------------------------------------------------------------------------
 *
 * What these functions write, coyote_decode reads as the same fields, targets and data. A buffer of
 * the packet's own length is enough; COYOTE_PACKET_MAX bytes are enough for every packet.
 */

/*
 * Writes an AckData, NoAckData or Ack packet. `type` is COYOTE_TYPE_... plus the sequence number.
 * It reads the targets, each a group and an address, and the data, which for an Ack are its Retries.
 * It writes the packet, 11 + targets_len + data_len bytes, to the first bytes of `packet`, leaves the
 * rest, and returns the packet's length. Refusals, in this order: PACKET_CONTENT for a type of 0x30
 * or more, a targets_len that is odd or not 2 to 32, a target with the group 0x80, or a data_len that
 * is not 1 to 1023 (for an Ack not 1); FRAME_BUFFER_SHORT.
 */
coyote_outcome coyote_encode_addressed(uint8_t type, uint8_t source_group, uint8_t source_address,
                                       const uint8_t *targets, size_t targets_len,
                                       const uint8_t *data, size_t data_len,
                                       uint8_t *packet, size_t packet_len);

/*
 * Writes a ReadMem packet, which asks for `length` bytes from `address` on. It reads no memory. It
 * writes the packet, 11 bytes, to the first bytes of `packet`, leaves the rest, and returns the
 * packet's length. Refusals, in this order: PACKET_CONTENT for a space other than 0 and 1, or a
 * length that is not 2 to 1023; FRAME_BUFFER_SHORT.
 */
coyote_outcome coyote_encode_read_memory(uint8_t space, uint16_t address, uint16_t length,
                                         uint8_t *packet, size_t packet_len);

/*
 * Writes a Success packet, which answers a packet of the type `request_type`, any byte. It reads the
 * data. It writes the packet, 9 + data_len bytes, to the first bytes of `packet`, leaves the rest,
 * and returns the packet's length. Refusals, in this order: PACKET_CONTENT for a data_len over 1023;
 * FRAME_BUFFER_SHORT.
 */
coyote_outcome coyote_encode_success(uint8_t request_type, const uint8_t *data, size_t data_len,
                                     uint8_t *packet, size_t packet_len);

/*
 * Writes a Failure packet, which answers a packet of the type `request_type`, any byte. It reads no
 * memory. It writes the packet, 10 bytes, to the first bytes of `packet`, leaves the rest, and
 * returns the packet's length. Refusals, in this order: PACKET_CONTENT for a code over 5;
 * FRAME_BUFFER_SHORT.
 */
coyote_outcome coyote_encode_failure(uint8_t request_type, uint8_t code,
                                     uint8_t *packet, size_t packet_len);

/* ---- The charge --------------------------------------------------------------------------------
 *
 * A charge is a NoAckData packet with three bytes of data: the number of the analog input, 1 or 2,
 * and the readout, high byte first. What is exported, coyote_import_charge gives back.
 */

/*
 * Writes a charge as a packet. It reads the targets, each a group and an address. It writes the
 * packet, 14 + targets_len bytes, to the first bytes of `packet`, leaves the rest, and returns the
 * packet's length. Refusals, in this order: PACKET_CONTENT for a sequence over 15, a targets_len that
 * is odd or not 2 to 32, a target with the group 0x80, or an input other than 1 and 2;
 * FRAME_BUFFER_SHORT.
 */
coyote_outcome coyote_export_charge(uint8_t sequence, uint8_t source_group, uint8_t source_address,
                                    const uint8_t *targets, size_t targets_len,
                                    uint8_t input, uint16_t readout,
                                    uint8_t *packet, size_t packet_len);

/*
 * Reads a charge from a packet. It reads the block, which is exactly one packet, and writes no
 * memory. It returns the input and the readout. Refusals, in this order: PACKET_ENDS; PACKET_LENGTH;
 * PACKET_SUM; PACKET_CONTENT for what coyote_decode does not accept, a packet that is no NoAckData,
 * data of other than three bytes, or an input other than 1 and 2.
 */
coyote_charge coyote_import_charge(const uint8_t *block, size_t block_len);

/* ---- The layout that the library was proved with ----------------------------------------------- */

#ifdef __cplusplus
#define COYOTE_HOLDS(condition) static_assert(condition, #condition)
#else
#define COYOTE_HOLDS(condition) _Static_assert(condition, #condition)
#endif

COYOTE_HOLDS(sizeof(size_t) == 8);
COYOTE_HOLDS(sizeof(coyote_outcome) == 16);
COYOTE_HOLDS(offsetof(coyote_outcome, refusal) == 0);
COYOTE_HOLDS(offsetof(coyote_outcome, length) == 8);
COYOTE_HOLDS(sizeof(coyote_packet) == 16);
COYOTE_HOLDS(offsetof(coyote_packet, refusal) == 0);
COYOTE_HOLDS(offsetof(coyote_packet, type) == 1);
COYOTE_HOLDS(offsetof(coyote_packet, source_group) == 2);
COYOTE_HOLDS(offsetof(coyote_packet, source_address) == 3);
COYOTE_HOLDS(offsetof(coyote_packet, target_count) == 4);
COYOTE_HOLDS(offsetof(coyote_packet, memory_space) == 5);
COYOTE_HOLDS(offsetof(coyote_packet, request_type) == 6);
COYOTE_HOLDS(offsetof(coyote_packet, failure_code) == 7);
COYOTE_HOLDS(offsetof(coyote_packet, memory_address) == 8);
COYOTE_HOLDS(offsetof(coyote_packet, memory_length) == 10);
COYOTE_HOLDS(offsetof(coyote_packet, data_start) == 12);
COYOTE_HOLDS(offsetof(coyote_packet, data_length) == 14);
COYOTE_HOLDS(sizeof(coyote_charge) == 4);
COYOTE_HOLDS(offsetof(coyote_charge, refusal) == 0);
COYOTE_HOLDS(offsetof(coyote_charge, input) == 1);
COYOTE_HOLDS(offsetof(coyote_charge, readout) == 2);

#undef COYOTE_HOLDS

#ifdef __cplusplus
}
#endif

#endif

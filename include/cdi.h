/*
 * cdi.h: a HumRC radio module behind its Command Data Interface, as a library for the controller.
 *
 * The controller keeps one cdi_module_state for each module. cdi_execute answers a command block as
 * the module does. cdi_power_up does what the module does when power comes on. cdi_save writes what
 * survives a loss of power to an image, and cdi_load brings it back. Two functions are for the host:
 * cdi_encode_command writes command blocks, and cdi_decode_response reads the responses. cdi_readout
 * and cdi_percent turn an analog input's readings into a charge.
 *
 * For every function:
 *
 *   - It returns for every input. It refuses bad input with a number, CDI_REFUSAL_...; if several
 *     apply, it gives the first in the order of its comment. A refusal writes no byte of a buffer
 *     and changes nothing in the state.
 *   - The caller owns all memory. The library allocates nothing and keeps nothing after the return,
 *     so calls on different states may run at the same time.
 *   - The caller passes no NULL pointer, even with a length of 0, and no two memory regions that
 *     overlap. Readings are aligned as uint16_t is; a state and bytes may be at any address.
 *   - It writes only what its comment says.
 *
 * Numbers written 0x.. are bytes on the wire. The header needs C11 or C++11 for its assertions on
 * the layout. The library needs memcpy and memset.
 */
#ifndef CDI_H
#define CDI_H

#include <stddef.h>
#include <stdint.h>

#ifdef __cplusplus
extern "C" {
#endif

/* ---- Sizes and limits -------------------------------------------------------------------------- */

enum {
    CDI_RESPONSE_BUFFER_MIN = 22,  /* the smallest response buffer: the longest response */
    CDI_FRAME_BUFFER_MIN = 27,     /* the smallest buffer for a command: the longest command */
    CDI_IMAGE_SIZE = 249,          /* the exact size of an image of version 1 */
    CDI_WAKE_LIMIT = 16,           /* the most wake bytes in a frame */
    CDI_NAME_LENGTH = 17,          /* bytes of a stored name */
    CDI_INPUT_COUNT = 2,           /* analog inputs: 1 and 2 on the wire, 0 and 1 in analog_inputs[] */
    CDI_SLOT_COUNT = 40,           /* paired modules: 0 to 39 on the wire and in slots[] */
    CDI_READINGS_MAX = 16,         /* the most readings in one readout */
    CDI_READING_MAX = 4095         /* the largest reading of the 12-bit converter */
};

/* ---- Refusals ---------------------------------------------------------------------------------- */

enum {
    CDI_REFUSAL_NONE = 0,                   /* accepted */
    CDI_REFUSAL_RESPONSE_BUFFER_SHORT = 1,  /* the response buffer has fewer than CDI_RESPONSE_BUFFER_MIN bytes */
    CDI_REFUSAL_INVALID = 2,                /* the state, or what an image holds, is not valid: see "The state" */
    CDI_REFUSAL_ENDS_EARLY = 3,             /* the block or the payload ends where more bytes must follow */
    CDI_REFUSAL_BAD_START = 4,              /* not 0x80 first, a 17th wake byte, or not 0x55 after the wake bytes */
    CDI_REFUSAL_BAD_LENGTH_BYTE = 5,        /* the length byte is under 0x81 */
    CDI_REFUSAL_TRAILING_BYTES = 6,         /* bytes follow the frame */
    CDI_REFUSAL_COMMAND_NOT_SERVED = 7,     /* the command is not served */
    CDI_REFUSAL_WRONG_LENGTH = 8,           /* the payload is too short or too long for its command and item */
    CDI_REFUSAL_ITEM_NOT_SERVED = 9,        /* the item is not served */
    CDI_REFUSAL_NOT_PERMITTED = 10,         /* the item does not permit the command */
    CDI_REFUSAL_WRONG_INDEX = 11,           /* the slot or the input does not exist */
    CDI_REFUSAL_VALUE_NOT_ACCEPTED = 12,    /* the item does not accept the value */
    CDI_REFUSAL_FRAME_BUFFER_SHORT = 13,    /* the buffer for a command has fewer than CDI_FRAME_BUFFER_MIN bytes */
    CDI_REFUSAL_WAKE_COUNT_OVER = 14,       /* the wake count is over CDI_WAKE_LIMIT */
    CDI_REFUSAL_READING_COUNT = 15,         /* there is no reading, or more than CDI_READINGS_MAX */
    CDI_REFUSAL_READING_OVER = 16,          /* a reading is over CDI_READING_MAX */
    CDI_REFUSAL_IMAGE_LENGTH = 17,          /* the image does not have CDI_IMAGE_SIZE bytes */
    CDI_REFUSAL_IMAGE_MARK = 18,            /* the image does not begin with the mark SWB */
    CDI_REFUSAL_IMAGE_VERSION = 19,         /* the image's version is not 1 */
    CDI_REFUSAL_NO_SUCH_RESPONSE = 23       /* no module in a valid state responds so to the command */
};

/* ---- Commands and items ------------------------------------------------------------------------
 *
 * A payload is the command's code, the item's code, an index (items 0x16 and 0x18 only) and the
 * value (Write and Program only). Set Default and Erase All Addresses are the code alone.
 */

enum {
    CDI_COMMAND_READ = 0x01,         /* reads the working value; the stored one if the item has no other */
    CDI_COMMAND_WRITE = 0x02,        /* sets the working value, until the next power-up */
    CDI_COMMAND_READ_NV = 0x03,      /* reads the stored value */
    CDI_COMMAND_PROGRAM = 0x04,      /* sets the working and the stored value */
    CDI_COMMAND_SET_DEFAULT = 0x81,  /* sets items 0x11 to 0x16 and 0x25, working and stored, to defaults */
    CDI_COMMAND_ERASE_ALL = 0x82     /* empties all slots */
};

/*
 * Every default byte is 0x00, except 0x06 for the control source and 0xFF 0x01 0x00 0x00 0x00 for
 * each analog input.
 */

/* The first byte of a response's payload. */
enum {
    CDI_RESPONSE_ACK = 0xC0,      /* to every command but a read; 0x00 and the command's payload follow */
    CDI_RESPONSE_READ = 0xC1,     /* to Read; the item, its index if it has one, and the value follow */
    CDI_RESPONSE_READ_NV = 0xC2   /* to Read NV; the same follows */
};

/* The commands that an item permits (R Read, N Read NV, W Write, P Program), and its value. */
enum {
    CDI_ITEM_NAME = 0x01,            /* RN--  up to 17 bytes, with the closing 0x00 */
    CDI_ITEM_FIRMWARE = 0x02,        /* RN--  3 bytes */
    CDI_ITEM_SERIAL = 0x03,          /* RN--  4 bytes */
    CDI_ITEM_ADDRESS = 0x10,         /* RN-P  4 bytes, any */
    CDI_ITEM_LINE_MASK = 0x11,       /* RNWP  1 byte, any */
    CDI_ITEM_LATCH_MASK = 0x12,      /* RNWP  1 byte, any */
    CDI_ITEM_TX_POWER = 0x13,        /* RNWP  1 byte, signed: -20 to +10 dBm */
    CDI_ITEM_CONTROL_SOURCE = 0x14,  /* RNWP  1 byte, bits 5 to 7 zero; see cdi_hardware_selection */
    CDI_ITEM_MESSAGE_SELECT = 0x15,  /* RNWP  1 byte, 0 to 6 */
    CDI_ITEM_ANALOG_INPUT = 0x16,    /* RNWP  index 1 or 2; 5 bytes as in cdi_analog_input */
    CDI_ITEM_PAIRED_MODULE = 0x18,   /* RN-P  index 0 to 39; 5 bytes as in cdi_slot */
    CDI_ITEM_LINES = 0x20,           /* R---  2 bytes, live */
    CDI_ITEM_RSSI = 0x21,            /* R---  2 bytes, live */
    CDI_ITEM_LADJ = 0x22,            /* R---  1 byte, live */
    CDI_ITEM_STATUS = 0x23,          /* R---  4 bytes, see below */
    CDI_ITEM_INTERRUPT_MASK = 0x25,  /* R-WP  1 byte, any */
    CDI_ITEM_EVENTS = 0x26           /* R---  1 byte, live */
};

/*
 * The status has four bytes: the flags, with bit 7 set if the events and the working interrupt mask
 * share a set bit; then the power, the line mask and the latch mask in force.
 */

/* ---- The state ---------------------------------------------------------------------------------
 *
 * Everything that a module holds, in three parts. `stored` survives a loss of power, `working` has
 * the settings in force, and `live` has the values that the controller sets. A state is plain bytes
 * without padding: memcpy copies it, memcmp compares two.
 *
 * A state is valid if
 *
 *   - the name contains a 0x00;
 *   - every slot holds a value that item 0x18 accepts;
 *   - in both copies of the settings, tx_power, control_source, message_select and both analog
 *     inputs hold values that their items accept;
 *   - the live flags have a mode of at most 4 in bits 0 to 2, and zeros in bits 3, 6 and 7.
 *
 * cdi_factory returns a valid state, and every function leaves a valid state valid. On an invalid
 * state a command, a power-up and a save are refused. A load makes it valid again.
 */

/*
 * A paired module (item 0x18). A slot of zeros is empty. An address of zeros is accepted only with
 * the mask 0x00.
 */
typedef struct {
    uint8_t address[4];
    uint8_t mask;
} cdi_slot;

/* An analog input (item 0x16). */
typedef struct {
    uint8_t channel;    /* 0x04 to 0x07, 0xFE or 0xFF */
    uint8_t readings;   /* how many readings are averaged, 1 to 16 */
    uint8_t reference;  /* 0 or 1 */
    uint8_t offset[2];  /* signed, two's complement, high byte first */
} cdi_analog_input;

/* The settings, items 0x11 to 0x16 and 0x25. A state has two copies, one stored and one working. */
typedef struct {
    uint8_t line_mask;
    uint8_t latch_mask;
    uint8_t tx_power;
    uint8_t control_source;
    uint8_t message_select;
    cdi_analog_input analog_inputs[CDI_INPUT_COUNT];
    uint8_t interrupt_mask;
} cdi_settings;

/*
 * What the hardware's pins select. Bits 0, 3 and 4 of the working control source choose the power,
 * the line mask and the latch mask in force: 1 is the working setting, 0 is the value here.
 */
typedef struct {
    uint8_t power;
    uint8_t line_mask;
    uint8_t latch_mask;
} cdi_hardware_selection;

/*
 * What a module keeps without power, and what an image holds. Program, Set Default, Erase All and a
 * load change it.
 */
typedef struct {
    uint8_t name[CDI_NAME_LENGTH];  /* text up to the first 0x00 */
    uint8_t firmware[3];
    uint8_t serial[4];
    uint8_t address[4];
    cdi_settings settings;
    cdi_slot slots[CDI_SLOT_COUNT];
} cdi_stored;

/*
 * The settings in force. A power-up copies them from the stored part. Write changes only these;
 * Program and Set Default change the stored ones too.
 */
typedef struct {
    cdi_settings settings;
} cdi_working;

/*
 * What the module senses, shown by items 0x20 to 0x23 and 0x26. The controller sets these values
 * between calls. No command changes them. A power-up and a load reset rssi, events and flags.
 */
typedef struct {
    uint8_t lines[2];
    uint8_t rssi[2];
    uint8_t ladj;
    uint8_t events;
    uint8_t flags;
    cdi_hardware_selection hardware;
} cdi_live;

typedef struct {
    cdi_stored stored;
    cdi_working working;
    cdi_live live;
} cdi_module_state;

/* ---- Results ----------------------------------------------------------------------------------- */

/* Of a call that writes a buffer: the refusal or 0, and the number of bytes written, 0 on a refusal. */
typedef struct {
    uint8_t refusal;
    size_t length;
} cdi_outcome;

/*
 * Of cdi_decode_response: the refusal or 0, and where the value is: `length` bytes from
 * response[start] on. With NO_SUCH_RESPONSE, `place` is that of the first wrong byte, counted from 0
 * in the response's payload: the byte is response[3 + place]. If the payload is right so far but ends
 * too early, `place` is its length, and response[3 + place] is past its end. Fields that do not apply
 * are 0.
 */
typedef struct {
    uint8_t refusal;
    size_t place;
    size_t start;
    size_t length;
} cdi_decoded;

/* Of cdi_readout: the refusal or 0, and the readout, 0 on a refusal. */
typedef struct {
    uint8_t refusal;
    uint16_t readout;
} cdi_readout_result;

/* ---- The module -------------------------------------------------------------------------------- */

/*
 * Returns the state of a module as it leaves the factory: settings as after Set Default, RSSI
 * 0x80 0x80, and 0x00 in every other byte. It reads and writes no memory, and refuses nothing.
 */
cdi_module_state cdi_factory(void);

/*
 * Executes one command block on the state. It reads the state and the block, which is exactly one
 * frame: 0x80, up to 16 wake bytes 0xFF, 0x55, a byte 0x80 + n, and n payload bytes. It writes the
 * response, a frame without wake bytes, to the first bytes of `response` and leaves the rest. Write,
 * Program, Set Default and Erase All change the state in place; a read leaves it as it was.
 * Refusals, in this order: RESPONSE_BUFFER_SHORT; INVALID for the state; ENDS_EARLY, BAD_START,
 * BAD_LENGTH_BYTE or TRAILING_BYTES, whichever is met first from the left; COMMAND_NOT_SERVED;
 * WRONG_LENGTH for a payload without an item, or for bytes after a Set Default or Erase All code;
 * ITEM_NOT_SERVED; NOT_PERMITTED; WRONG_LENGTH for any other length; WRONG_INDEX;
 * VALUE_NOT_ACCEPTED.
 */
cdi_outcome cdi_execute(cdi_module_state *state, const uint8_t *block, size_t block_len,
                        uint8_t *response, size_t response_len);

/*
 * Powers the module up. It reads and writes the state: the working settings become a copy of the
 * stored ones, the live rssi becomes 0x80 0x80, the live events and flags become 0x00, and the rest
 * stays. It returns 0 or the refusal: INVALID for the state.
 */
uint8_t cdi_power_up(cdi_module_state *state);

/* ---- The stored image -------------------------------------------------------------------------- */

/*
 * Saves the stored part of the state to an image. It reads the state and writes all CDI_IMAGE_SIZE
 * bytes of `image`: the mark SWB, the version 0x00 0x01, then name, firmware, serial, address, items
 * 0x11 to 0x15, both analog inputs, the 40 slots and item 0x25. Working settings and live values are
 * not saved. Refusals, in this order: IMAGE_LENGTH; INVALID for the state.
 */
cdi_outcome cdi_save(const cdi_module_state *state, uint8_t *image, size_t image_len);

/*
 * Loads an image. It reads the image, writes its contents to the stored part of the state, and then
 * powers the module up; the live lines, ladj and hardware stay. The state before need not be valid;
 * the state after is, and saving it gives the same image. It returns 0 or a refusal, in this order:
 * IMAGE_LENGTH; IMAGE_MARK; IMAGE_VERSION; INVALID for the image's contents.
 */
uint8_t cdi_load(cdi_module_state *state, const uint8_t *image, size_t image_len);

/* ---- The host's side --------------------------------------------------------------------------- */

/*
 * Writes the block of a command. It reads the payload and writes the frame, with `wake` wake bytes,
 * to the first bytes of `frame`, and leaves the rest. cdi_execute reads the block as exactly that
 * payload. Refusals, in this order: FRAME_BUFFER_SHORT; WAKE_COUNT_OVER; ENDS_EARLY for an empty
 * payload; then from COMMAND_NOT_SERVED on as for cdi_execute.
 */
cdi_outcome cdi_encode_command(const uint8_t *payload, size_t payload_len, size_t wake,
                               uint8_t *frame, size_t frame_len);

/*
 * Reads the response to a command. It reads the payload that was sent and the response, which is
 * exactly one frame without wake bytes, and writes no memory. It accepts a response exactly if a module
 * in some valid state gives it to that command, and returns where the value is. After Read and Read NV
 * the value is what follows the item and its index; a name's closing 0x00 is part of it. After any
 * other command the value is the echo, which is the payload that was sent. In any other response, the
 * first wrong byte is the first that no such response has after the bytes before it. Refusals, in
 * this order: for the payload that was sent, from ENDS_EARLY on as for cdi_encode_command; for the
 * response, ENDS_EARLY, BAD_START (also for a wake byte), BAD_LENGTH_BYTE or TRAILING_BYTES,
 * whichever is met first from the left; NO_SUCH_RESPONSE.
 */
cdi_decoded cdi_decode_response(const uint8_t *sent, size_t sent_len,
                                const uint8_t *response, size_t response_len);

/* ---- Analog inputs ----------------------------------------------------------------------------- */

/*
 * Computes the 16-bit readout of `count` readings: 16 times their mean, rounded down once, plus the
 * offset, and at least 0 and at most 65,535. It reads the readings and writes no memory. The offset
 * of a cdi_analog_input is (int16_t)((offset[0] << 8) | offset[1]). Refusals, in this order:
 * READING_COUNT; READING_OVER.
 */
cdi_readout_result cdi_readout(const uint16_t *readings, size_t count, int16_t offset);

/*
 * Returns a readout as percent of full scale, to the nearest whole number, halves up: 0 to 100.
 * Readings 3,563 and 3,564 without an offset have the readout 57,016, which is 87 percent. It reads
 * and writes no memory, and refuses nothing.
 */
uint8_t cdi_percent(uint16_t readout);

/* ---- The layout that the library was proved with ----------------------------------------------- */

#ifdef __cplusplus
#define CDI_HOLDS(condition) static_assert(condition, #condition)
#else
#define CDI_HOLDS(condition) _Static_assert(condition, #condition)
#endif

CDI_HOLDS(sizeof(cdi_slot) == 5);
CDI_HOLDS(offsetof(cdi_slot, address) == 0);
CDI_HOLDS(offsetof(cdi_slot, mask) == 4);
CDI_HOLDS(sizeof(cdi_analog_input) == 5);
CDI_HOLDS(offsetof(cdi_analog_input, channel) == 0);
CDI_HOLDS(offsetof(cdi_analog_input, readings) == 1);
CDI_HOLDS(offsetof(cdi_analog_input, reference) == 2);
CDI_HOLDS(offsetof(cdi_analog_input, offset) == 3);
CDI_HOLDS(sizeof(cdi_settings) == 16);
CDI_HOLDS(offsetof(cdi_settings, line_mask) == 0);
CDI_HOLDS(offsetof(cdi_settings, latch_mask) == 1);
CDI_HOLDS(offsetof(cdi_settings, tx_power) == 2);
CDI_HOLDS(offsetof(cdi_settings, control_source) == 3);
CDI_HOLDS(offsetof(cdi_settings, message_select) == 4);
CDI_HOLDS(offsetof(cdi_settings, analog_inputs) == 5);
CDI_HOLDS(offsetof(cdi_settings, interrupt_mask) == 15);
CDI_HOLDS(sizeof(cdi_hardware_selection) == 3);
CDI_HOLDS(offsetof(cdi_hardware_selection, power) == 0);
CDI_HOLDS(offsetof(cdi_hardware_selection, line_mask) == 1);
CDI_HOLDS(offsetof(cdi_hardware_selection, latch_mask) == 2);
CDI_HOLDS(sizeof(cdi_stored) == 244);
CDI_HOLDS(offsetof(cdi_stored, name) == 0);
CDI_HOLDS(offsetof(cdi_stored, firmware) == 17);
CDI_HOLDS(offsetof(cdi_stored, serial) == 20);
CDI_HOLDS(offsetof(cdi_stored, address) == 24);
CDI_HOLDS(offsetof(cdi_stored, settings) == 28);
CDI_HOLDS(offsetof(cdi_stored, slots) == 44);
CDI_HOLDS(sizeof(cdi_working) == 16);
CDI_HOLDS(offsetof(cdi_working, settings) == 0);
CDI_HOLDS(sizeof(cdi_live) == 10);
CDI_HOLDS(offsetof(cdi_live, lines) == 0);
CDI_HOLDS(offsetof(cdi_live, rssi) == 2);
CDI_HOLDS(offsetof(cdi_live, ladj) == 4);
CDI_HOLDS(offsetof(cdi_live, events) == 5);
CDI_HOLDS(offsetof(cdi_live, flags) == 6);
CDI_HOLDS(offsetof(cdi_live, hardware) == 7);
CDI_HOLDS(sizeof(cdi_module_state) == 270);
CDI_HOLDS(offsetof(cdi_module_state, stored) == 0);
CDI_HOLDS(offsetof(cdi_module_state, working) == 244);
CDI_HOLDS(offsetof(cdi_module_state, live) == 260);
CDI_HOLDS(sizeof(size_t) == 8);
CDI_HOLDS(sizeof(cdi_outcome) == 16);
CDI_HOLDS(offsetof(cdi_outcome, refusal) == 0);
CDI_HOLDS(offsetof(cdi_outcome, length) == 8);
CDI_HOLDS(sizeof(cdi_decoded) == 32);
CDI_HOLDS(offsetof(cdi_decoded, refusal) == 0);
CDI_HOLDS(offsetof(cdi_decoded, place) == 8);
CDI_HOLDS(offsetof(cdi_decoded, start) == 16);
CDI_HOLDS(offsetof(cdi_decoded, length) == 24);
CDI_HOLDS(sizeof(cdi_readout_result) == 4);
CDI_HOLDS(offsetof(cdi_readout_result, refusal) == 0);
CDI_HOLDS(offsetof(cdi_readout_result, readout) == 2);

#undef CDI_HOLDS

#ifdef __cplusplus
}
#endif

#endif

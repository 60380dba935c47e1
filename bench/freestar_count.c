/* Calls one operation on Wi.Freestar messages many times, by the proved library or, with -DPEER, by
 * the C peer.
 *
 *     count CALLS OPERATION
 *
 * The first line that it prints says what came of a call: every field of the result, every byte of
 * the buffer and of the settings afterwards. The second has the nanoseconds of a call. */

#include <stdio.h>
#include <string.h>

#include "calls.h"

#ifdef PEER
#include "freestar_peer.h"
typedef struct freestar_peer_outcome freestar_outcome;
typedef struct freestar_peer_settings freestar_settings;
typedef struct freestar_peer_message freestar_message;
#define CALL(function) freestar_peer_##function
#else
#include <freestar.h>
#define CALL(function) freestar_##function
#endif

/* ---- Messages and results ------------------------------------------------------------------- */

enum { LONGEST_PACKET = 15, DATA_START = 3, ADDRESSES = 10, SET_ADDRESS = 0x03 };

static const uint8_t set_pan_id[] = {0x01, 0x07, 0x01, 0x34, 0x12, 0x4F, 0x04};
static const uint8_t query_pan_id[] = {0x01, 0x05, 0x02, 0x08, 0x04};
static const uint8_t set_address[] = {0x01, 0x0F, 0x03, 0x01, 0x02, 0x03, 0x04, 0x05,
                                      0x06, 0x07, 0x08, 0x09, 0x0A, 0x4A, 0x04};
static const uint8_t query_address[] = {0x01, 0x05, 0x04, 0x0A, 0x04};
static const uint8_t reset[] = {0x01, 0x05, 0x18, 0x1E, 0x04};
static const uint8_t damaged[] = {0x01, 0x07, 0x01, 0x34, 0x12, 0x4E, 0x04}; /* the sum */
static const uint8_t pan_id_over[] = {0x01, 0x07, 0x01, 0x00, 0x40, 0x49, 0x04};
static const uint8_t address[] = {0x01, 0x0F, 0x84, 0x01, 0x02, 0x03, 0x04, 0x05,
                                  0x06, 0x07, 0x08, 0x09, 0x0A, 0xCB, 0x04};

/* Other values than those that the messages set. */
static freestar_settings settings = {
    {0xFF, 0x3F}, {0x11, 0x12, 0x13, 0x14, 0x15, 0x16, 0x17, 0x18}, {0x19, 0x1A}, 26};

/* What a call gives: one of the first two, and what it writes to the buffer. */
static freestar_message message;
static freestar_outcome outcome;
static uint8_t buffer[LONGEST_PACKET];

static void print_message(void)
{
    printf("refusal %u type %02X data %u bytes", message.refusal, message.type,
           message.data_length);
}

static void print_outcome(void)
{
    printf("refusal %u length %zu", outcome.refusal, outcome.length);
}

/* ---- Operations ----------------------------------------------------------------------------- */

static void execute(const uint8_t *block, size_t size)
{
    outcome = CALL(execute)(&settings, block, size, buffer, sizeof buffer);
}

static void execute_set_pan_id(void) { execute(set_pan_id, sizeof set_pan_id); }
static void execute_query_pan_id(void) { execute(query_pan_id, sizeof query_pan_id); }
static void execute_set_address(void) { execute(set_address, sizeof set_address); }
static void execute_query_address(void) { execute(query_address, sizeof query_address); }
static void execute_reset(void) { execute(reset, sizeof reset); }
static void execute_damaged(void) { execute(damaged, sizeof damaged); }
static void execute_pan_id_over(void) { execute(pan_id_over, sizeof pan_id_over); }

static void decode_address(void) { message = CALL(decode)(address, sizeof address); }

static void encode_address(void)
{
    outcome = CALL(encode)(SET_ADDRESS, set_address + DATA_START, ADDRESSES, buffer, sizeof buffer);
}

static const struct operation operations[] = {
    {"execute_set_pan_id", execute_set_pan_id, print_outcome},
    {"execute_query_pan_id", execute_query_pan_id, print_outcome},
    {"execute_set_address", execute_set_address, print_outcome},
    {"execute_query_address", execute_query_address, print_outcome},
    {"execute_reset", execute_reset, print_outcome},
    {"execute_damaged", execute_damaged, print_outcome},
    {"execute_pan_id_over", execute_pan_id_over, print_outcome},
    {"decode_address", decode_address, print_message},
    {"encode_address", encode_address, print_outcome},
};

/* ---- The run -------------------------------------------------------------------------------- */

static void print_memory(void)
{
    print_bytes("buffer", buffer, sizeof buffer);
    print_bytes("settings", &settings, sizeof settings);
}

int main(int count, char **words)
{
    memset(buffer, 0xEE, sizeof buffer);
    return run_operation(count, words, operations, sizeof operations / sizeof operations[0],
                         print_memory);
}

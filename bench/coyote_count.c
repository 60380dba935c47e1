/* Calls one operation on Coyote packets many times, by the proved library or, with -DPEER, by the C
 * peer.
 *
 *     count CALLS OPERATION
 *
 * The first line that it prints tells what came of a call: every field of the result and every byte
 * of the buffer. The second has the nanoseconds of a call. */

#include <stdio.h>
#include <string.h>

#include "calls.h"

#ifdef PEER
#include "coyote_peer.h"
typedef struct coyote_peer_packet coyote_packet;
typedef struct coyote_peer_outcome coyote_outcome;
typedef struct coyote_peer_charge coyote_charge;
#define CALL(function) coyote_peer_##function
#else
#include <coyote.h>
#define CALL(function) coyote_##function
#endif

/* ---- Packets and results -------------------------------------------------------------------- */

enum { DATA = 1023, DATA_START = 11, SUM = DATA_START + DATA, LONGEST_PACKET = 1066 };

/* AckData 0 from 1:2 to 1:3. The data bytes are 00, 01 and so on, with 00 again after FF. */
static uint8_t data_packet[SUM + 2] = {0xAA, 0x00, 0x06, 0x04, 0x01, 0x02, 0x01,
                                       0x03, 0x80, 0xFF, 0x03, [SUM] = 0x94, 0x55};
static uint8_t damaged_packet[sizeof data_packet]; /* the same with a wrong sum */

/* NoAckData 3 from 1:2 to 1:3: the charge of input 2, readout 57016. */
static const uint8_t charge_packet[] = {0xAA, 0x13, 0x0A, 0x00, 0x01, 0x02, 0x01, 0x03,
                                        0x80, 0x03, 0x00, 0x02, 0xDE, 0xB8, 0x3F, 0x55};
static const uint8_t targets[] = {0x01, 0x03};

static void fill_packets(void)
{
    for (size_t i = 0; i < DATA; i++)
        data_packet[DATA_START + i] = (uint8_t)i;
    memcpy(damaged_packet, data_packet, sizeof data_packet);
    damaged_packet[SUM] ^= 0x01;
}

/* What a call gives: one of the first three, and what it writes to the buffer. */
static coyote_packet packet;
static coyote_charge charge;
static coyote_outcome outcome;
static uint8_t buffer[LONGEST_PACKET];

static void print_packet(void)
{
    printf("refusal %u type %02X source %02X:%02X targets %u space %u request %02X code %u",
           packet.refusal, packet.type, packet.source_group, packet.source_address,
           packet.target_count, packet.memory_space, packet.request_type, packet.failure_code);
    printf(" memory %04X, %u bytes, data at %u, %u bytes", packet.memory_address,
           packet.memory_length, packet.data_start, packet.data_length);
}

static void print_charge(void)
{
    printf("refusal %u input %u readout %u", charge.refusal, charge.input, charge.readout);
}

static void print_outcome(void)
{
    printf("refusal %u length %zu", outcome.refusal, outcome.length);
}

/* ---- Operations ----------------------------------------------------------------------------- */

static void decode_data(void) { packet = CALL(decode)(data_packet, sizeof data_packet); }
static void decode_damaged(void) { packet = CALL(decode)(damaged_packet, sizeof damaged_packet); }
static void decode_charge(void) { packet = CALL(decode)(charge_packet, sizeof charge_packet); }

static void import_charge(void)
{
    charge = CALL(import_charge)(charge_packet, sizeof charge_packet);
}

static void encode_data(void)
{
    outcome = CALL(encode_addressed)(0x00, 1, 2, targets, sizeof targets, data_packet + DATA_START,
                                     DATA, buffer, sizeof buffer);
}

static void export_charge(void)
{
    outcome = CALL(export_charge)(3, 1, 2, targets, sizeof targets, 2, 57016, buffer,
                                  sizeof buffer);
}

static const struct operation operations[] = {
    {"decode_data", decode_data, print_packet},
    {"encode_data", encode_data, print_outcome},
    {"export_charge", export_charge, print_outcome},
    {"import_charge", import_charge, print_charge},
    {"decode_charge", decode_charge, print_packet},
    {"decode_damaged", decode_damaged, print_packet},
};

/* ---- The run -------------------------------------------------------------------------------- */

static void print_memory(void) { print_bytes("buffer", buffer, sizeof buffer); }

int main(int count, char **words)
{
    fill_packets();
    memset(buffer, 0xEE, sizeof buffer);
    return run_operation(count, words, operations, sizeof operations / sizeof operations[0],
                         print_memory);
}

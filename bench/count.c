/* Makes one call many times, by the proved library or, with -DPEER, by the C peer.
 *
 *     count CALLS BYTE...            executes a command block
 *     count CALLS BYTE... / BYTE...  reads a response, after the slash, to the payload that was sent
 *
 * The first line that it prints tells what came of the call: every field of the result, and every byte
 * lent as it is afterwards. These are the response buffer and the state, or the payload and the
 * response. The second line has the nanoseconds of a call. */

#include <stdio.h>
#include <stdlib.h>
#include <string.h>

#include "calls.h"

#ifdef PEER
#include "peer.h"
typedef struct peer_state module_state;
typedef struct peer_outcome outcome;
typedef struct peer_decoded decoded;
#define CALL(function) peer_##function
#else
#include <cdi.h>
typedef cdi_module_state module_state;
typedef cdi_outcome outcome;
typedef cdi_decoded decoded;
#define CALL(function) cdi_##function
#endif

enum { RESPONSE = 22, LONGEST = 145 };

/* Bytes that the command line gives; of more than there is room for, the first. */
struct bytes {
    uint8_t at[LONGEST];
    size_t size;
};

/* Reads words up to a slash or the last one. `*words` is then the slash, or the NULL at the end. */
static struct bytes read_bytes(char ***words)
{
    struct bytes bytes = {{0}, 0};
    for (; **words != NULL && strcmp(**words, "/") != 0; ++*words)
        if (bytes.size < LONGEST)
            bytes.at[bytes.size++] = (uint8_t)strtoul(**words, NULL, 16);
    return bytes;
}

/* A module that has a name of 16 characters, and in slot 39 what the Program of it stores. The
 * first call then finds the state as every later one does. */
static module_state used_module(void)
{
    module_state state = CALL(factory)();
    memcpy(state.stored.name, "Swap bay 7 north", sizeof state.stored.name);
    memcpy(&state.stored.slots[39], "\x01\x02\x03\x04\x05", sizeof state.stored.slots[39]);
    return state;
}

/* Executes a block; the nanoseconds of all calls. */
static double execute(long calls, const struct bytes *block)
{
    uint8_t response[RESPONSE];
    module_state state = used_module();
    outcome done = {0, 0};
    memset(response, 0xAA, sizeof response);
    double start = nanoseconds();
    for (long i = 0; i < calls; i++)
        done = CALL(execute)(&state, block->at, block->size, response, sizeof response);
    double taken = nanoseconds() - start;

    printf("refusal %u length %zu", done.refusal, done.length);
    print_bytes("response", response, sizeof response);
    print_bytes("state", &state, sizeof state);
    return taken;
}

/* Reads a response; the nanoseconds of all calls. */
static double decode(long calls, const struct bytes *sent, const struct bytes *response)
{
    decoded done = {0, 0, 0, 0};
    double start = nanoseconds();
    for (long i = 0; i < calls; i++)
        done = CALL(decode_response)(sent->at, sent->size, response->at, response->size);
    double taken = nanoseconds() - start;

    printf("refusal %u length %zu start %zu place %zu", done.refusal, done.length, done.start,
           done.place);
    print_bytes("sent", sent->at, sent->size);
    print_bytes("response", response->at, response->size);
    return taken;
}

int main(int count, char **words)
{
    long calls = count > 1 ? strtol(words[1], NULL, 10) : 0;
    if (calls < 1) {
        fprintf(stderr, "usage: count CALLS BYTE... [/ BYTE...]\n");
        return 2;
    }
    char **word = words + 2;
    struct bytes first = read_bytes(&word);
    double taken;
    if (*word == NULL) {
        taken = execute(calls, &first);
    } else {
        word++;
        struct bytes second = read_bytes(&word);
        taken = decode(calls, &first, &second);
    }
    printf("\n%.2f\n", taken / (double)calls);
    return 0;
}

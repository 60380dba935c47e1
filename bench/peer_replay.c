/* The replay program of document 01 around the module of peer.c: on the same input it prints what
 * `replay` prints, byte for byte, in constant memory. */

#include "peer.h"

#include <errno.h>
#include <string.h>
#include <unistd.h>

/* ---- Output --------------------------------------------------------------------------------- */

enum { CHUNK = 65536, LONGEST_OUTPUT = 3 * PEER_RESPONSE };

static char output[CHUNK];
static size_t output_size;

static void flush_output(void)
{
    for (size_t at = 0; at < output_size;) {
        ssize_t written = write(STDOUT_FILENO, output + at, output_size - at);
        if (written < 0 && errno != EINTR)
            _exit(1);
        if (written > 0)
            at += (size_t)written;
    }
    output_size = 0;
}

static void print_text(const char *text, size_t length)
{
    memcpy(output + output_size, text, length);
    output_size += length;
}

static void print_refused(unsigned refusal)
{
    print_text("refused ", 8);
    if (refusal >= 10)
        output[output_size++] = (char)('0' + refusal / 10);
    output[output_size++] = (char)('0' + refusal % 10);
    output[output_size++] = '\n';
}

static void print_block(const uint8_t *block, size_t length)
{
    static const char digits[] = "0123456789ABCDEF";
    char *to = output + output_size;
    for (size_t i = 0; i < length; i++, to += 3) {
        to[0] = digits[block[i] >> 4];
        to[1] = digits[block[i] & 0x0F];
        to[2] = ' ';
    }
    to[-1] = '\n';
    output_size += 3 * length;
}

/* ---- Input ---------------------------------------------------------------------------------- */

enum { LONGEST_LINE = 600, LONGEST_BLOCK = (LONGEST_LINE + 1) / 3 };

/* One more than the value of each digit, 0 for any other character. */
static const uint8_t digit_values[256] = {
    ['0'] = 1, ['1'] = 2,  ['2'] = 3,  ['3'] = 4,  ['4'] = 5,  ['5'] = 6,  ['6'] = 7,  ['7'] = 8,
    ['8'] = 9, ['9'] = 10, ['A'] = 11, ['B'] = 12, ['C'] = 13, ['D'] = 14, ['E'] = 15, ['F'] = 16,
};

/* The size of the block that a line shows, or -1 for a line of another form. */
static int parse_line(const uint8_t *line, size_t length, uint8_t *block)
{
    if (length == 0) return 0;
    if (length > LONGEST_LINE || length % 3 != 2) return -1;
    size_t size = (length + 1) / 3;
    for (size_t i = 0; i < size; i++, line += 3) {
        unsigned high = digit_values[line[0]], low = digit_values[line[1]];
        if (high == 0 || low == 0 || (i + 1 < size && line[2] != ' ')) return -1;
        block[i] = (uint8_t)((high - 1) << 4 | (low - 1));
    }
    return (int)size;
}

static void run_line(struct peer_state *state, const uint8_t *line, size_t length)
{
    uint8_t block[LONGEST_BLOCK], response[PEER_RESPONSE];
    if (CHUNK - output_size < LONGEST_OUTPUT)
        flush_output();
    int size = parse_line(line, length, block);
    if (size < 0) {
        print_text("not hex\n", 8);
        return;
    }
    struct peer_outcome outcome =
        peer_execute(state, block, (size_t)size, response, sizeof response);
    if (outcome.length == 0)
        print_refused(outcome.refusal);
    else
        print_block(response, outcome.length);
}

/* A line that began in an earlier chunk. One character over the limit is enough to know of. */
static uint8_t carried[LONGEST_LINE + 1];
static size_t carried_size;

static void carry(const uint8_t *text, size_t length)
{
    size_t room = sizeof carried - carried_size;
    size_t taken = length < room ? length : room;
    memcpy(carried + carried_size, text, taken);
    carried_size += taken;
}

static void run_chunk(struct peer_state *state, const uint8_t *chunk, const uint8_t *end)
{
    const uint8_t *feed;
    for (; (feed = memchr(chunk, '\n', (size_t)(end - chunk))) != NULL; chunk = feed + 1) {
        if (carried_size == 0) {
            run_line(state, chunk, (size_t)(feed - chunk));
        } else {
            carry(chunk, (size_t)(feed - chunk));
            run_line(state, carried, carried_size);
            carried_size = 0;
        }
    }
    carry(chunk, (size_t)(end - chunk));
}

int main(void)
{
    static uint8_t chunk[CHUNK];
    struct peer_state state = peer_factory();
    ssize_t size;
    while ((size = read(STDIN_FILENO, chunk, sizeof chunk)) != 0) {
        if (size < 0 && errno != EINTR) return 1;
        if (size > 0)
            run_chunk(&state, chunk, chunk + size);
    }
    if (carried_size > 0)
        run_line(&state, carried, carried_size);
    flush_output();
    return 0;
}

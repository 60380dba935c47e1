/*
 * A yard tractor's controller and its Wi.Freestar radio, both sides in one program: the host sets the
 * radio's PAN ID, addresses and channel, resets the radio and queries what it kept. It prints what it
 * does and ends with 1 where something is not as expected.
 *
 *     ./sdk
 *     gcc -Itarget/sdk/include examples/settings_over_freestar.c target/sdk/lib/libfreestar.a \
 *         -o target/settings_over_freestar
 *     target/settings_over_freestar
 */
#include <freestar.h>

#include <stdbool.h>
#include <stdio.h>
#include <string.h>

/* What the host sets: PAN ID 0x1234, tractor 7, channel 20. Low bytes come first. */
static const freestar_settings tractor = {
    .pan_id = {0x34, 0x12},
    .long_address = {0xEF, 0xCD, 0xAB, 0x89, 0x67, 0x45, 0x23, 0x01},
    .short_address = {0x07, 0x00},
    .channel = 20,
};

enum { LONG_SIZE = sizeof tractor.long_address, SHORT_SIZE = sizeof tractor.short_address };

/* A message's type plus this is the type of its answer. */
enum { ANSWER = 0x80 };

static void print_bytes(const char *what, const uint8_t *bytes, size_t count)
{
    printf("%-10s", what);
    for (size_t i = 0; i < count; i++)
        printf(" %02X", bytes[i]);
    printf("\n");
}

/* A number whose low byte comes first, in hexadecimal. */
static void print_number(const char *what, const uint8_t *bytes, size_t count)
{
    printf(" %s ", what);
    while (count > 0)
        printf("%02X", bytes[--count]);
    printf(",");
}

static void print_settings(const freestar_settings *settings)
{
    printf("%-10s", "settings");
    print_number("PAN ID", settings->pan_id, sizeof settings->pan_id);
    print_number("long address", settings->long_address, LONG_SIZE);
    print_number("short address", settings->short_address, SHORT_SIZE);
    printf(" channel %u\n", settings->channel);
}

/* False if a call is refused; then it prints the number. */
static bool accepted(const char *call, uint8_t refusal)
{
    if (refusal == FREESTAR_REFUSAL_NONE)
        return true;
    printf("%-10s refused %u\n", call, refusal);
    return false;
}

/*
 * The host writes a message, the radio executes it, and the host reads the answer, whose type has to
 * be the one for this message. `answer` has FREESTAR_PACKET_MAX bytes.
 */
static bool exchange(freestar_settings *radio, uint8_t type, const uint8_t *data, size_t size,
                     uint8_t *answer)
{
    uint8_t packet[FREESTAR_PACKET_MAX];

    freestar_outcome sent = freestar_encode(type, data, size, packet, sizeof packet);
    if (!accepted("encode", sent.refusal))
        return false;
    print_bytes("host", packet, sent.length);

    freestar_outcome answered =
        freestar_execute(radio, packet, sent.length, answer, FREESTAR_PACKET_MAX);
    if (!accepted("execute", answered.refusal))
        return false;
    print_bytes("radio", answer, answered.length);

    freestar_message read = freestar_decode(answer, answered.length);
    return accepted("decode", read.refusal) && read.type == type + ANSWER;
}

/* Sets everything. The answers have no data. */
static bool set_up(freestar_settings *radio)
{
    uint8_t addresses[LONG_SIZE + SHORT_SIZE], answer[FREESTAR_PACKET_MAX];

    memcpy(addresses, tractor.long_address, LONG_SIZE);
    memcpy(addresses + LONG_SIZE, tractor.short_address, SHORT_SIZE);
    return exchange(radio, FREESTAR_TYPE_SET_PAN_ID, tractor.pan_id, sizeof tractor.pan_id, answer)
        && exchange(radio, FREESTAR_TYPE_SET_ADDRESS, addresses, sizeof addresses, answer)
        && exchange(radio, FREESTAR_TYPE_SET_CHANNEL, &tractor.channel, 1, answer);
}

/* A message without data. Its data are a place that is not NULL, with a length of 0. */
static bool ask(freestar_settings *radio, uint8_t type, uint8_t *answer)
{
    static const uint8_t nothing[1] = {0};

    return exchange(radio, type, nothing, 0, answer);
}

/* Resets the radio, which leaves its settings, and queries them. */
static bool reset_and_query(freestar_settings *radio, freestar_settings *found)
{
    uint8_t answer[FREESTAR_PACKET_MAX];
    const uint8_t *data = answer + FREESTAR_DATA_START;

    if (!ask(radio, FREESTAR_TYPE_RESET, answer) || !ask(radio, FREESTAR_TYPE_QUERY_PAN_ID, answer))
        return false;
    memcpy(found->pan_id, data, sizeof found->pan_id);
    if (!ask(radio, FREESTAR_TYPE_QUERY_ADDRESS, answer))
        return false;
    memcpy(found->long_address, data, LONG_SIZE);
    memcpy(found->short_address, data + LONG_SIZE, SHORT_SIZE);
    if (!ask(radio, FREESTAR_TYPE_QUERY_CHANNEL, answer))
        return false;
    found->channel = data[0];
    print_settings(found);
    return true;
}

/* True if the radio refuses a packet with this number. */
static bool refused(freestar_settings *radio, const uint8_t *packet, size_t size, uint8_t refusal)
{
    uint8_t answer[FREESTAR_PACKET_MAX];
    uint8_t came = freestar_execute(radio, packet, size, answer, sizeof answer).refusal;

    return !accepted("execute", came) && came == refusal;
}

/*
 * A PAN ID of more than 14 bits is refused on both sides. The radio refuses a damaged message, and an
 * answer that is sent to it.
 */
static bool refuse(freestar_settings *radio)
{
    static const uint8_t over[] = {0x01, 0x07, 0x01, 0x34, 0x52, 0x8F, 0x04};    /* 0x5234 */
    static const uint8_t damaged[] = {0x01, 0x07, 0x01, 0x34, 0x13, 0x4F, 0x04}; /* was 0x1234 */
    static const uint8_t answer[] = {0x01, 0x05, 0x81, 0x87, 0x04};
    uint8_t packet[FREESTAR_PACKET_MAX];
    uint8_t unwritten = freestar_encode(FREESTAR_TYPE_SET_PAN_ID, over + FREESTAR_DATA_START, 2,
                                        packet, sizeof packet).refusal;

    return !accepted("encode", unwritten) && unwritten == FREESTAR_REFUSAL_PAN_ID_OVER
        && refused(radio, over, sizeof over, FREESTAR_REFUSAL_PAN_ID_OVER)
        && refused(radio, damaged, sizeof damaged, FREESTAR_REFUSAL_PACKET_SUM)
        && refused(radio, answer, sizeof answer, FREESTAR_REFUSAL_PACKET_CONTENT);
}

int main(void)
{
    freestar_settings radio = {{0}, {0}, {0}, 0}, found;

    bool done = set_up(&radio) && reset_and_query(&radio, &found)
        && memcmp(&found, &tractor, sizeof found) == 0 && refuse(&radio)
        && memcmp(&radio, &tractor, sizeof radio) == 0;
    printf("%s\n", done ? "done" : "failed");
    return done ? 0 : 1;
}

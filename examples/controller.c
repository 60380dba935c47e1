/*
 * A small stall controller: it holds one module's state, talks to it in command blocks and reads the
 * responses, computes a pack's charge from readings, and keeps the module over a loss of power. It
 * prints what it does and ends with 1 where something is not as expected.
 *
 *     ./sdk
 *     gcc -Itarget/sdk/include examples/controller.c target/sdk/lib/libcdi.a -o target/controller
 *     target/controller
 */
#include <cdi.h>

#include <stdbool.h>
#include <stdio.h>
#include <string.h>

static void print_bytes(const char *what, const uint8_t *bytes, size_t count)
{
    printf("%-10s", what);
    for (size_t i = 0; i < count; i++)
        printf(" %02X", bytes[i]);
    printf("\n");
}

/* Encodes a payload behind two wake bytes, executes the block and shows both. Returns the response's
 * length, or 0 if the payload or the block is refused. */
static size_t command(cdi_module_state *state, const uint8_t *payload, size_t size,
                      uint8_t response[CDI_RESPONSE_BUFFER_MIN])
{
    uint8_t block[CDI_FRAME_BUFFER_MIN];

    cdi_outcome encoded = cdi_encode_command(payload, size, 2, block, sizeof block);
    if (encoded.refusal != CDI_REFUSAL_NONE) {
        printf("%-10s refused %u\n", "encode", encoded.refusal);
        return 0;
    }
    print_bytes("block", block, encoded.length);

    cdi_outcome executed =
        cdi_execute(state, block, encoded.length, response, CDI_RESPONSE_BUFFER_MIN);
    if (executed.refusal != CDI_REFUSAL_NONE) {
        printf("%-10s refused %u\n", "execute", executed.refusal);
        return 0;
    }
    print_bytes("response", response, executed.length);
    return executed.length;
}

/* Reads and shows the value, or the echo, in the response to a payload; NULL if it is refused. */
static const uint8_t *value_in(const uint8_t *response, size_t length, const uint8_t *sent,
                               size_t size)
{
    cdi_decoded decoded = cdi_decode_response(sent, size, response, length);

    if (decoded.refusal == CDI_REFUSAL_NO_SUCH_RESPONSE) {
        printf("%-10s refused %u at byte %zu\n", "decode", decoded.refusal, decoded.place);
        return NULL;
    }
    if (decoded.refusal != CDI_REFUSAL_NONE) {
        printf("%-10s refused %u\n", "decode", decoded.refusal);
        return NULL;
    }
    const uint8_t *value = response + decoded.start;
    bool is_read = sent[0] == CDI_COMMAND_READ || sent[0] == CDI_COMMAND_READ_NV;
    print_bytes(is_read ? "value" : "echo", value, decoded.length);
    return value;
}

/* Gives a command that sets a value; false if it is refused. */
static bool set(cdi_module_state *state, const uint8_t *payload, size_t size)
{
    uint8_t response[CDI_RESPONSE_BUFFER_MIN];
    size_t length = command(state, payload, size, response);

    return length > 0 && value_in(response, length, payload, size) != NULL;
}

/* Stores message select and the second analog input; sets the power until the next power-up. */
static bool configure(cdi_module_state *state)
{
    static const uint8_t message[] = {CDI_COMMAND_PROGRAM, CDI_ITEM_MESSAGE_SELECT, 6};
    static const uint8_t input[] = {
        CDI_COMMAND_PROGRAM, CDI_ITEM_ANALOG_INPUT, 2, 0x05, 2, 1, 0x00, 0x00};
    static const uint8_t power[] = {CDI_COMMAND_WRITE, CDI_ITEM_TX_POWER, 0xEC};

    return set(state, message, sizeof message) && set(state, input, sizeof input)
        && set(state, power, sizeof power);
}

/* Reads an analog input's settings from the module; false if the command or the response is refused. */
static bool read_input(cdi_module_state *state, uint8_t number, cdi_analog_input *input)
{
    const uint8_t read[] = {CDI_COMMAND_READ, CDI_ITEM_ANALOG_INPUT, number};
    uint8_t response[CDI_RESPONSE_BUFFER_MIN];
    size_t length = command(state, read, sizeof read, response);
    const uint8_t *value = length > 0 ? value_in(response, length, read, sizeof read) : NULL;

    if (value == NULL)
        return false;
    memcpy(input, value, sizeof *input);
    return true;
}

/* A response that is damaged on the line: no module has the message select 7. */
static bool notice_damage(cdi_module_state *state)
{
    static const uint8_t read[] = {CDI_COMMAND_READ, CDI_ITEM_MESSAGE_SELECT};
    uint8_t response[CDI_RESPONSE_BUFFER_MIN];
    size_t length = command(state, read, sizeof read, response);

    if (length == 0)
        return false;
    response[length - 1] = 7;
    return value_in(response, length, read, sizeof read) == NULL;
}

/* The charge of the pack behind an analog input, in percent; -1 where the readings are refused. */
static int charge(const cdi_analog_input *input, const uint16_t *readings)
{
    int16_t offset = (int16_t)((input->offset[0] << 8) | input->offset[1]);
    cdi_readout_result result = cdi_readout(readings, input->readings, offset);

    if (result.refusal != CDI_REFUSAL_NONE) {
        printf("%-10s refused %u\n", "readout", result.refusal);
        return -1;
    }
    printf("%-10s %u is %u percent\n", "readout", result.readout, cdi_percent(result.readout));
    return cdi_percent(result.readout);
}

/* The state saved, lost, and loaded into a new module. */
static bool survive_power_loss(cdi_module_state *state)
{
    uint8_t image[CDI_IMAGE_SIZE];
    cdi_settings kept = state->stored.settings;
    cdi_outcome saved = cdi_save(state, image, sizeof image);

    if (saved.refusal != CDI_REFUSAL_NONE) {
        printf("%-10s refused %u\n", "save", saved.refusal);
        return false;
    }
    printf("%-10s %zu bytes, mark %.3s\n", "image", saved.length, (const char *)image);

    *state = cdi_factory();
    uint8_t refusal = cdi_load(state, image, sizeof image);
    if (refusal != CDI_REFUSAL_NONE) {
        printf("%-10s refused %u\n", "load", refusal);
        return false;
    }
    const cdi_settings *working = &state->working.settings;
    printf("%-10s message select %u, power %d dBm\n", "loaded", working->message_select,
           (int8_t)working->tx_power);

    image[3] = 1; /* version 0x0101, which does not exist */
    refusal = cdi_load(state, image, sizeof image);
    printf("%-10s refused %u\n", "load", refusal);
    return refusal == CDI_REFUSAL_IMAGE_VERSION
        && memcmp(&kept, &state->stored.settings, sizeof kept) == 0
        && memcmp(&kept, working, sizeof kept) == 0;
}

int main(void)
{
    static const uint16_t readings[CDI_READINGS_MAX] = {3563, 3564};
    static const uint8_t too_strong[] = {CDI_COMMAND_WRITE, CDI_ITEM_TX_POWER, 11};
    cdi_module_state state = cdi_factory();
    cdi_analog_input input;

    bool done = cdi_power_up(&state) == CDI_REFUSAL_NONE && configure(&state)
        && !set(&state, too_strong, sizeof too_strong) && read_input(&state, 2, &input)
        && charge(&input, readings) == 87 && notice_damage(&state)
        && survive_power_loss(&state);
    printf("%s\n", done ? "done" : "failed");
    return done ? 0 : 1;
}

/*
 * A charge sent by radio: a stall measures the charge of its pack and writes it as a Coyote packet,
 * and the yard reads the packet. It prints what it does and ends with 1 where something is not as
 * expected.
 *
 *     ./sdk
 *     gcc -Itarget/sdk/include examples/charge_over_coyote.c target/sdk/lib/libcdi.a \
 *         target/sdk/lib/libcoyote.a -o target/charge_over_coyote
 *     target/charge_over_coyote
 */
#include <cdi.h>
#include <coyote.h>

#include <stdbool.h>
#include <stdio.h>

/* The stall is 1:2, the yard is 1:3. The pack is at analog input 2. */
enum { GROUP = 1, STALL = 2, YARD = 3, INPUT = 2, SEQUENCE = 3 };

static void print_bytes(const char *what, const uint8_t *bytes, size_t count)
{
    printf("%-10s", what);
    for (size_t i = 0; i < count; i++)
        printf(" %02X", bytes[i]);
    printf("\n");
}

static void print_charge(const char *side, uint8_t input, uint16_t readout)
{
    printf("%-10s input %u, readout %u, %u percent\n", side, input, readout, cdi_percent(readout));
}

/* False if a call is refused; then it prints the number. */
static bool accepted(const char *call, uint8_t refusal)
{
    if (refusal == COYOTE_REFUSAL_NONE)
        return true;
    printf("%-10s refused %u\n", call, refusal);
    return false;
}

/* The readout of the pack, with the offset that the module has for its input. */
static bool measure(const cdi_module_state *state, uint16_t *readout)
{
    static const uint16_t readings[] = {3563, 3564};
    const cdi_analog_input *input = &state->working.settings.analog_inputs[INPUT - 1];
    int16_t offset = (int16_t)((input->offset[0] << 8) | input->offset[1]);
    cdi_readout_result result = cdi_readout(readings, 2, offset);

    if (!accepted("readout", result.refusal))
        return false;
    print_charge("stall", INPUT, result.readout);
    *readout = result.readout;
    return cdi_percent(result.readout) == 87;
}

static coyote_outcome to_yard(uint8_t input, uint16_t readout, uint8_t *packet, size_t size)
{
    static const uint8_t targets[] = {GROUP, YARD};

    return coyote_export_charge(SEQUENCE, GROUP, STALL, targets, sizeof targets, input, readout,
                                packet, size);
}

/* The stall's side: the charge as a packet, which fills its buffer. */
static bool send_charge(uint16_t readout, uint8_t *packet, size_t size)
{
    coyote_outcome exported = to_yard(INPUT, readout, packet, size);

    if (!accepted("export", exported.refusal))
        return false;
    print_bytes("packet", packet, exported.length);
    return exported.length == size;
}

/* The yard's side: the packet has the charge that was sent. */
static bool receive_charge(const uint8_t *packet, size_t size, uint16_t sent)
{
    coyote_charge charge = coyote_import_charge(packet, size);

    if (!accepted("import", charge.refusal))
        return false;
    print_charge("yard", charge.input, charge.readout);
    return charge.input == INPUT && charge.readout == sent;
}

/* A damaged packet and an input that does not exist are refused. */
static bool refuse(uint16_t readout, uint8_t *packet, size_t size)
{
    packet[12] ^= 0x01; /* a byte of the readout */
    uint8_t damaged = coyote_import_charge(packet, size).refusal;
    uint8_t no_input = to_yard(CDI_INPUT_COUNT + 1, readout, packet, size).refusal;

    return !accepted("import", damaged) && damaged == COYOTE_REFUSAL_PACKET_SUM
        && !accepted("export", no_input) && no_input == COYOTE_REFUSAL_PACKET_CONTENT;
}

int main(void)
{
    cdi_module_state state = cdi_factory();
    uint8_t packet[COYOTE_CHARGE_SIZE];
    uint16_t readout;

    bool done = measure(&state, &readout) && send_charge(readout, packet, sizeof packet)
        && receive_charge(packet, sizeof packet, readout) && refuse(readout, packet, sizeof packet);
    printf("%s\n", done ? "done" : "failed");
    return done ? 0 : 1;
}

"""The C SDK as it was agreed with the controllers: of each library the files, the header's numbers, structs and functions, and what
it calls; of each example what it prints. The numbers are those of the documents: 01 and 02's Ask 1 for the CDI, 003 and 02's Ask 10
for Coyote, 004 and 02's Ask 11 for Freestar.
"""

import collections

import coyote_entries
import entries
import freestar_entries
import states
from library import ANALOG_INPUT, OUTCOME, ROOT

SDK = ROOT / "target" / "sdk"

# A library: its name, its files below target/sdk, the header's constants without the refusals, the header's structs as the tests
# have them, its functions, how the tests call these, and the functions of C's own library that it calls.
Interface = collections.namedtuple("Interface", "name header archive shared package numbers structs functions signatures calls")
# An example: its name, the libraries that it links, and what it prints.
Example = collections.namedtuple("Example", "name interfaces printed")


def named(prefix, **numbers):
    """Numbers under the names that a header gives them."""
    return {f"{prefix}_{name}": number for name, number in numbers.items()}


CDI = Interface(
    name="cdi",
    header="include/cdi.h",
    archive="lib/libcdi.a",
    shared="lib/libcdi.so",
    package="lib/pkgconfig/cdi.pc",
    numbers={
        **named(
            "CDI",
            RESPONSE_BUFFER_MIN=22,
            FRAME_BUFFER_MIN=27,
            IMAGE_SIZE=249,
            WAKE_LIMIT=16,
            NAME_LENGTH=17,
            INPUT_COUNT=2,
            SLOT_COUNT=40,
            READINGS_MAX=16,
            READING_MAX=4095,
        ),
        **named("CDI_COMMAND", READ=0x01, WRITE=0x02, READ_NV=0x03, PROGRAM=0x04, SET_DEFAULT=0x81, ERASE_ALL=0x82),
        **named("CDI_RESPONSE", ACK=0xC0, READ=0xC1, READ_NV=0xC2),
        **named(
            "CDI_ITEM",
            NAME=0x01,
            FIRMWARE=0x02,
            SERIAL=0x03,
            ADDRESS=0x10,
            LINE_MASK=0x11,
            LATCH_MASK=0x12,
            TX_POWER=0x13,
            CONTROL_SOURCE=0x14,
            MESSAGE_SELECT=0x15,
            ANALOG_INPUT=0x16,
            PAIRED_MODULE=0x18,
            LINES=0x20,
            RSSI=0x21,
            LADJ=0x22,
            STATUS=0x23,
            INTERRUPT_MASK=0x25,
            EVENTS=0x26,
        ),
    },
    structs={
        "cdi_slot": states.SLOT,
        "cdi_analog_input": ANALOG_INPUT,
        "cdi_settings": states.SETTINGS,
        "cdi_hardware_selection": states.HARDWARE_SELECTION,
        "cdi_stored": states.STORED,
        "cdi_working": states.WORKING,
        "cdi_live": states.LIVE,
        "cdi_module_state": states.STATE,
        "cdi_outcome": OUTCOME,
        "cdi_decoded": entries.DECODED,
        "cdi_readout_result": entries.READOUT_RESULT,
    },
    functions="""
cdi_module_state cdi_factory(void);
cdi_outcome cdi_execute(cdi_module_state *state, const uint8_t *block, size_t block_len, uint8_t *response, size_t response_len);
uint8_t cdi_power_up(cdi_module_state *state);
cdi_outcome cdi_save(const cdi_module_state *state, uint8_t *image, size_t image_len);
uint8_t cdi_load(cdi_module_state *state, const uint8_t *image, size_t image_len);
cdi_outcome cdi_encode_command(const uint8_t *payload, size_t payload_len, size_t wake, uint8_t *frame, size_t frame_len);
cdi_decoded cdi_decode_response(const uint8_t *sent, size_t sent_len, const uint8_t *response, size_t response_len);
cdi_readout_result cdi_readout(const uint16_t *readings, size_t count, int16_t offset);
uint8_t cdi_percent(uint16_t readout);
""",
    signatures=entries.SIGNATURES,
    calls={"memcpy", "memset"},
)

COYOTE = Interface(
    name="coyote",
    header="include/coyote.h",
    archive="lib/libcoyote.a",
    shared="lib/libcoyote.so",
    package="lib/pkgconfig/coyote.pc",
    numbers={
        **named("COYOTE", PACKET_MAX=1066, OVERHEAD=6, TARGETS_MAX=16, DATA_MAX=1023, CHARGE_SIZE=16),
        **named("COYOTE_TYPE", ACK_DATA=0x00, NO_ACK_DATA=0x10, ACK=0x20, READ_MEM=0x80, SUCCESS=0x86, FAILURE=0x87),
        **named("COYOTE_MEMORY", EEPROM=0, RAM=1),
        **named(
            "COYOTE_FAILURE",
            TIMEOUT=0,
            TRANSCEIVER_OFF=1,
            TRANSCEIVER_ON=2,
            PROGRAMMING=3,
            COMMAND_ERROR=4,
            RESTRICTED=5,
        ),
    },
    structs={"coyote_outcome": OUTCOME, "coyote_packet": coyote_entries.PACKET, "coyote_charge": coyote_entries.CHARGE},
    functions="""
coyote_packet coyote_decode(const uint8_t *block, size_t block_len);
coyote_outcome coyote_encode_addressed(uint8_t type, uint8_t source_group, uint8_t source_address, \
const uint8_t *targets, size_t targets_len, const uint8_t *data, size_t data_len, uint8_t *packet, size_t packet_len);
coyote_outcome coyote_encode_read_memory(uint8_t space, uint16_t address, uint16_t length, uint8_t *packet, size_t packet_len);
coyote_outcome coyote_encode_success(uint8_t request_type, const uint8_t *data, size_t data_len, uint8_t *packet, size_t packet_len);
coyote_outcome coyote_encode_failure(uint8_t request_type, uint8_t code, uint8_t *packet, size_t packet_len);
coyote_outcome coyote_export_charge(uint8_t sequence, uint8_t source_group, uint8_t source_address, \
const uint8_t *targets, size_t targets_len, uint8_t input, uint16_t readout, uint8_t *packet, size_t packet_len);
coyote_charge coyote_import_charge(const uint8_t *block, size_t block_len);
""",
    signatures=coyote_entries.SIGNATURES,
    calls=set(),
)

FREESTAR = Interface(
    name="freestar",
    header="include/freestar.h",
    archive="lib/libfreestar.a",
    shared="lib/libfreestar.so",
    package="lib/pkgconfig/freestar.pc",
    numbers={
        **named("FREESTAR", PACKET_MAX=15, OVERHEAD=5, DATA_START=3, DATA_MAX=10, PAN_ID_LIMIT=0x4000),
        **named(
            "FREESTAR_TYPE",
            SET_PAN_ID=0x01,
            QUERY_PAN_ID=0x02,
            SET_ADDRESS=0x03,
            QUERY_ADDRESS=0x04,
            SET_CHANNEL=0x05,
            QUERY_CHANNEL=0x06,
            RESET=0x18,
            SET_PAN_ID_ACKNOWLEDGED=0x81,
            RESPOND_PAN_ID=0x82,
            SET_ADDRESS_ACKNOWLEDGED=0x83,
            RESPOND_ADDRESS=0x84,
            SET_CHANNEL_ACKNOWLEDGED=0x85,
            RESPOND_CHANNEL=0x86,
            RESET_ACKNOWLEDGED=0x98,
        ),
    },
    structs={
        "freestar_outcome": OUTCOME,
        "freestar_settings": freestar_entries.SETTINGS,
        "freestar_message": freestar_entries.MESSAGE,
    },
    functions="""
freestar_message freestar_decode(const uint8_t *block, size_t block_len);
freestar_outcome freestar_encode(uint8_t type, const uint8_t *data, size_t data_len, uint8_t *packet, size_t packet_len);
freestar_outcome freestar_execute(freestar_settings *settings, const uint8_t *block, size_t block_len, \
uint8_t *response, size_t response_len);
""",
    signatures=freestar_entries.SIGNATURES,
    calls=set(),
)

INTERFACES = CDI, COYOTE, FREESTAR

# What they print is worked out by hand.
EXAMPLES = (
    Example(
        "controller",
        (CDI,),
        """\
block      80 FF FF 55 83 04 15 06
response   80 55 85 C0 00 04 15 06
echo       04 15 06
block      80 FF FF 55 88 04 16 02 05 02 01 00 00
response   80 55 8A C0 00 04 16 02 05 02 01 00 00
echo       04 16 02 05 02 01 00 00
block      80 FF FF 55 83 02 13 EC
response   80 55 85 C0 00 02 13 EC
echo       02 13 EC
encode     refused 12
block      80 FF FF 55 83 01 16 02
response   80 55 88 C1 16 02 05 02 01 00 00
value      05 02 01 00 00
readout    57016 is 87 percent
block      80 FF FF 55 82 01 15
response   80 55 83 C1 15 06
decode     refused 23 at byte 2
image      249 bytes, mark SWB
loaded     message select 6, power 0 dBm
load       refused 19
done
""",
    ),
    Example(
        "charge_over_coyote",
        (CDI, COYOTE),
        """\
stall      input 2, readout 57016, 87 percent
packet     AA 13 0A 00 01 02 01 03 80 03 00 02 DE B8 3F 55
yard       input 2, readout 57016, 87 percent
import     refused 26
export     refused 27
done
""",
    ),
    Example(
        "settings_over_freestar",
        (FREESTAR,),
        """\
host       01 07 01 34 12 4F 04
radio      01 05 81 87 04
host       01 0F 03 EF CD AB 89 67 45 23 01 07 00 DA 04
radio      01 05 83 89 04
host       01 06 05 14 20 04
radio      01 05 85 8B 04
host       01 05 18 1E 04
radio      01 05 98 9E 04
host       01 05 02 08 04
radio      01 07 82 34 12 D0 04
host       01 05 04 0A 04
radio      01 0F 84 EF CD AB 89 67 45 23 01 07 00 5B 04
host       01 05 06 0C 04
radio      01 06 86 14 A1 04
settings   PAN ID 1234, long address 0123456789ABCDEF, short address 0007, channel 20
encode     refused 28
execute    refused 28
execute    refused 26
execute    refused 27
done
""",
    ),
)

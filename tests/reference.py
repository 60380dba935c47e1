"""An independent implementation of document 01 and of document 02's Ask 1, to hold the project's code
against.

It is written from the papers alone and laid out by the first paper's sections. Every function is
pure, over bytes, whole numbers and tuples of them. A refusal is given as its number; 0 is accepted.
"""

import functools
from collections import namedtuple

# ---- 01, "Numbers that a refusal carries" ----------------------------------------------------

ACCEPTED = 0
RESPONSE_BUFFER_SHORT = 1
INVALID = 2
ENDS_EARLY = 3
BAD_START = 4
BAD_LENGTH_BYTE = 5
TRAILING_BYTES = 6
COMMAND_NOT_SERVED = 7
WRONG_LENGTH = 8
ITEM_NOT_SERVED = 9
NOT_PERMITTED = 10
WRONG_INDEX = 11
VALUE_NOT_ACCEPTED = 12
FRAME_BUFFER_SHORT = 13
WAKE_COUNT_OVER = 14
READING_COUNT = 15
READING_OVER = 16
IMAGE_LENGTH = 17
IMAGE_MARK = 18
IMAGE_VERSION = 19
# 02, Ask 1
NO_SUCH_RESPONSE = 23

# ---- 01, "Frame" -----------------------------------------------------------------------------

FRAME_START = 0x80
WAKE = 0xFF
MOST_WAKES = 16
WAKES_END = 0x55
LENGTH_BASE = 0x80  # the length byte of n payload bytes is 80+n

READ = 0x01
WRITE = 0x02
READ_NV = 0x03
PROGRAM = 0x04
SET_DEFAULT = 0x81
ERASE_ALL_ADDRESSES = 0x82


def read_frame(block, most_wakes=MOST_WAKES):
    """Refusal, payload's start and payload's length of a block that must be exactly one frame.

    01, "Frame"; numbers 3 to 6 go by the first byte that is wrong or missing.
    """
    at = 0
    if at == len(block):
        return ENDS_EARLY, 0, 0
    if block[at] != FRAME_START:
        return BAD_START, 0, 0
    at += 1
    wakes = 0
    while at < len(block) and block[at] == WAKE:
        wakes += 1
        if wakes > most_wakes:
            return BAD_START, 0, 0
        at += 1
    if at == len(block):
        return ENDS_EARLY, 0, 0
    if block[at] != WAKES_END:
        return BAD_START, 0, 0
    at += 1
    if at == len(block):
        return ENDS_EARLY, 0, 0
    if block[at] < LENGTH_BASE + 1:
        return BAD_LENGTH_BYTE, 0, 0
    length = block[at] - LENGTH_BASE
    at += 1
    if len(block) < at + length:
        return ENDS_EARLY, 0, 0
    if len(block) > at + length:
        return TRAILING_BYTES, 0, 0
    return ACCEPTED, at, length


# ---- 01, "Items" -----------------------------------------------------------------------------

Item = namedtuple("Item", "code value_bytes indexed commands")

# The item list. Commands: R Read, N Read NV, W Write, P Program.
ITEMS = {
    item.code: item
    for item in (
        Item(0x01, 17, False, "RN"),  # name, up to 17 bytes
        Item(0x02, 3, False, "RN"),  # firmware
        Item(0x03, 4, False, "RN"),  # serial
        Item(0x10, 4, False, "RNP"),  # address
        Item(0x11, 1, False, "RNWP"),  # line mask
        Item(0x12, 1, False, "RNWP"),  # latch mask
        Item(0x13, 1, False, "RNWP"),  # TX power
        Item(0x14, 1, False, "RNWP"),  # control word
        Item(0x15, 1, False, "RNWP"),  # message select
        Item(0x16, 5, True, "RNWP"),  # analog input
        Item(0x18, 5, True, "RNP"),  # paired module
        Item(0x20, 2, False, "R"),  # lines
        Item(0x21, 2, False, "R"),  # RSSI
        Item(0x22, 1, False, "R"),  # LADJ
        Item(0x23, 4, False, "R"),  # status
        Item(0x25, 1, False, "RWP"),  # interrupt mask
        Item(0x26, 1, False, "R"),  # events
    )
}

LETTERS = {READ: "R", READ_NV: "N", WRITE: "W", PROGRAM: "P"}


def is_slot_index(index):
    """01, "Item 18": forty slots, index 0 to 39."""
    return 0 <= index <= 39


def is_input_number(number):
    """01, "Item 16": index 1 or 2."""
    return number == 1 or number == 2


def is_index(item, index):
    """01, "Items": which index an indexed item has."""
    return is_input_number(index) if item == 0x16 else is_slot_index(index)


def accepts_tx_power(value):
    """01, "Items", row 13: signed, -20 to +10 dBm."""
    return -20 <= int.from_bytes(value, "big", signed=True) <= 10


def accepts_control_word(value):
    """01, "Items", row 14: bits 5 to 7 zero."""
    return all(value[0] >> bit & 1 == 0 for bit in (5, 6, 7))


def accepts_message_select(value):
    """01, "Items", row 15: 0 to 6."""
    return 0 <= value[0] <= 6


# 01, "Item 16".
CHANNELS = frozenset([0x04, 0x05, 0x06, 0x07, 0xFE, 0xFF])
READINGS_AVERAGED = frozenset(range(1, 17))
REFERENCES = frozenset([0, 1])


def accepts_analog_input(value):
    """01, "Item 16": channel, readings averaged, reference, then an offset of any value."""
    channel, readings, reference = value[:3]
    return channel in CHANNELS and readings in READINGS_AVERAGED and reference in REFERENCES


def accepts_slot(value):
    """01, "Item 18": the zero address is accepted with mask 00 alone, which empties the slot."""
    address, mask = value[:4], value[4]
    return address != b"\x00\x00\x00\x00" or mask == 0x00


ACCEPTANCE = {
    0x13: accepts_tx_power,
    0x14: accepts_control_word,
    0x15: accepts_message_select,
    0x16: accepts_analog_input,
    0x18: accepts_slot,
}


def accepts(item, value):
    """01, "Items", column "Accepted values": an item without a rule of its own accepts all."""
    return item not in ACCEPTANCE or ACCEPTANCE[item](value)


# ---- 01, "Items" (the module record) ---------------------------------------------------------

# One copy of the settings. Items of one byte are numbers, 16 is a tuple of two rows of five bytes.
Settings = namedtuple(
    "Settings",
    "line_mask latch_mask tx_power control_source message_select analog_inputs interrupt_mask",
)

# The three values that the hardware picks.
HardwareSelection = namedtuple("HardwareSelection", "power line_mask latch_mask")

# 01's "module record", by the kinds of cells in the item list: the N cells and the slots, the V
# cells, and the live cells. Cells of one byte are numbers, longer ones bytes, the slots a tuple of
# forty times five bytes.
Stored = namedtuple("Stored", "name firmware serial address settings slots")
Working = namedtuple("Working", "settings")
Live = namedtuple("Live", "lines rssi ladj events flags hardware")
ModuleState = namedtuple("ModuleState", "stored working live")

SLOTS = 40
EMPTY_SLOT = bytes(5)
RSSI_AT_START = b"\x80\x80"

# What Set Default stores.
DEFAULT_SETTINGS = Settings(
    line_mask=0x00,
    latch_mask=0x00,
    tx_power=0x00,
    control_source=0x06,
    message_select=0x00,
    analog_inputs=(b"\xff\x01\x00\x00\x00", b"\xff\x01\x00\x00\x00"),
    interrupt_mask=0x00,
)

# The factory record.
FACTORY_STATE = ModuleState(
    stored=Stored(
        name=bytes(17),
        firmware=bytes(3),
        serial=bytes(4),
        address=bytes(4),
        settings=DEFAULT_SETTINGS,
        slots=SLOTS * (EMPTY_SLOT,),
    ),
    working=Working(settings=DEFAULT_SETTINGS),
    live=Live(
        lines=bytes(2),
        rssi=RSSI_AT_START,
        ladj=0x00,
        events=0x00,
        flags=0x00,
        hardware=HardwareSelection(power=0x00, line_mask=0x00, latch_mask=0x00),
    ),
)


@functools.lru_cache(maxsize=16)  # a step leaves most of the state as it was
def is_valid_settings(settings):
    """One copy of 13, 14, 15 and both rows of 16 hold accepted values."""
    return (
        accepts_tx_power(bytes([settings.tx_power]))
        and accepts_control_word(bytes([settings.control_source]))
        and accepts_message_select(bytes([settings.message_select]))
        and all(map(accepts_analog_input, settings.analog_inputs))
    )


@functools.lru_cache(maxsize=16)
def are_valid_slots(slots):
    """All slots hold accepted values."""
    return all(map(accepts_slot, slots))


def is_valid_flags(flags):
    """The mode, bits 0 to 2, is at most 4; bits 3, 6 and 7 are zero."""
    return flags & 0b111 <= 4 and all(flags >> bit & 1 == 0 for bit in (3, 6, 7))


def is_valid_stored(stored):
    """The nonvolatile cells are valid, as an image's contents have to be: name, settings, slots."""
    return (
        0x00 in stored.name
        and is_valid_settings(stored.settings)
        and are_valid_slots(stored.slots)
    )


def is_valid(state):
    """01's "sound": name, both copies of the settings, slots and flags."""
    return (
        is_valid_stored(state.stored)
        and is_valid_settings(state.working.settings)
        and is_valid_flags(state.live.flags)
    )


# ---- 01, "Items" (what Read and Read NV answer) ----------------------------------------------

ONE_BYTE_SETTINGS = {
    0x11: "line_mask",
    0x12: "latch_mask",
    0x13: "tx_power",
    0x14: "control_source",
    0x15: "message_select",
    0x25: "interrupt_mask",
}
SETTINGS_ITEMS = {*ONE_BYTE_SETTINGS, 0x16}


def setting_value(settings, item, index):
    """The value of a settings item in one of the two copies; the rows of 16 count from 1."""
    if item == 0x16:
        return settings.analog_inputs[index - 1]
    return bytes([getattr(settings, ONE_BYTE_SETTINGS[item])])


def name_value(name):
    """01, "Items", row 01: up to and with the first 00 of the stored bytes."""
    return name[: name.index(0x00) + 1]


def status_value(state):
    """01, "Item 23": flags, power, line mask and latch mask."""
    working, live, hardware = state.working.settings, state.live, state.live.hardware
    control = working.control_source
    interrupt = 0x80 if live.events & working.interrupt_mask else 0x00
    return bytes(
        [
            live.flags & 0x7F | interrupt,
            working.tx_power if control >> 0 & 1 else hardware.power,
            working.line_mask if control >> 3 & 1 else hardware.line_mask,
            working.latch_mask if control >> 4 & 1 else hardware.latch_mask,
        ]
    )


def read_value(state, command, item, index):
    """The value that an accepted Read or Read NV answers; an item without a working cell gives
    Read its nonvolatile one."""
    stored, working, live = state
    if item in SETTINGS_ITEMS:
        part = stored if command == READ_NV else working
        return setting_value(part.settings, item, index)
    if item == 0x01:
        return name_value(stored.name)
    if item == 0x18:
        return stored.slots[index]
    if item == 0x23:
        return status_value(state)
    return {
        0x02: stored.firmware,
        0x03: stored.serial,
        0x10: stored.address,
        0x20: live.lines,
        0x21: live.rssi,
        0x22: bytes([live.ladj]),
        0x26: bytes([live.events]),
    }[item]


# ---- 01, "Items" (what the other commands store) and "Who reads and stores which cell" --------


def with_row(rows, place, row):
    """The rows with one of them replaced; the place counts from 0."""
    return rows[:place] + (row,) + rows[place + 1 :]


def with_setting(settings, item, index, value):
    """One copy of the settings with one value replaced."""
    if item == 0x16:
        rows = with_row(settings.analog_inputs, index - 1, value)
        return settings._replace(analog_inputs=rows)
    return settings._replace(**{ONE_BYTE_SETTINGS[item]: value[0]})


def store_value(state, command, item, index, value):
    """The state after an accepted Write, which stores the working cell alone, or Program, which
    stores that cell where there is one and the nonvolatile cell or the slot."""
    if item == 0x10:
        return with_stored(state, address=value)
    if item == 0x18:
        return with_stored(state, slots=with_row(state.stored.slots, index, value))
    working = with_setting(state.working.settings, item, index, value)
    state = state._replace(working=Working(working))
    if command == PROGRAM:
        state = with_stored(state, settings=with_setting(state.stored.settings, item, index, value))
    return state


def with_stored(state, **cells):
    """The state with some of the stored part replaced."""
    return state._replace(stored=state.stored._replace(**cells))


def set_default(state):
    """The state after 81: both copies of the settings."""
    state = with_stored(state, settings=DEFAULT_SETTINGS)
    return state._replace(working=Working(DEFAULT_SETTINGS))


def erase_all_addresses(state):
    """The state after 82: every slot is empty."""
    return with_stored(state, slots=SLOTS * (EMPTY_SLOT,))


def powered_up(state):
    """The state after a power-up: settings copied, RSSI, flags and events at their start."""
    live = state.live._replace(rssi=RSSI_AT_START, flags=0x00, events=0x00)
    return state._replace(working=Working(state.stored.settings), live=live)


def power_up(state):
    """State afterwards and refusal of a power-up."""
    if not is_valid(state):
        return state, INVALID
    return powered_up(state), ACCEPTED


# ---- 01, "Frame" (payloads) and "Numbers that a refusal carries" (their order) ---------------


def validate_payload(payload):
    """The refusal of a payload, or 0.

    3 where it is empty; then 7; 8 if it has no item or goes on after 81 or 82; 9; 10; 8 for
    every other length; 11; 12.
    """
    if len(payload) == 0:
        return ENDS_EARLY
    command = payload[0]
    if command in (SET_DEFAULT, ERASE_ALL_ADDRESSES):
        return ACCEPTED if len(payload) == 1 else WRONG_LENGTH
    if command not in LETTERS:
        return COMMAND_NOT_SERVED
    if len(payload) == 1:
        return WRONG_LENGTH
    if payload[1] not in ITEMS:
        return ITEM_NOT_SERVED
    item = ITEMS[payload[1]]
    if LETTERS[command] not in item.commands:
        return NOT_PERMITTED
    sets_value = command in (WRITE, PROGRAM)
    value_start = 3 if item.indexed else 2
    if len(payload) != value_start + (item.value_bytes if sets_value else 0):
        return WRONG_LENGTH
    if item.indexed and not is_index(item.code, payload[2]):
        return WRONG_INDEX
    if sets_value and not accepts(item.code, payload[value_start:]):
        return VALUE_NOT_ACCEPTED
    return ACCEPTED


# ---- 01, "Frame" (answers) -------------------------------------------------------------------

RESPONSE_BUFFER = 22  # the least length of the response buffer
ACKNOWLEDGED = 0xC0
READ_RESPONSE = 0xC1
READ_NV_RESPONSE = 0xC2


def perform(state, payload):
    """State afterwards and response's payload of a payload that is accepted."""
    command = payload[0]
    if command == SET_DEFAULT:
        return set_default(state), bytes([ACKNOWLEDGED, 0x00]) + payload
    if command == ERASE_ALL_ADDRESSES:
        return erase_all_addresses(state), bytes([ACKNOWLEDGED, 0x00]) + payload
    item = payload[1]
    value_start = 3 if ITEMS[item].indexed else 2
    index = payload[2] if ITEMS[item].indexed else None
    if command in (WRITE, PROGRAM):
        after = store_value(state, command, item, index, payload[value_start:])
        return after, bytes([ACKNOWLEDGED, 0x00]) + payload
    code = READ_RESPONSE if command == READ else READ_NV_RESPONSE
    return state, bytes([code]) + payload[1:] + read_value(state, command, item, index)


def execute(state, block, response):
    """State afterwards, refusal, response's length and the whole response buffer afterwards.

    1, 2, then those of the frame, then those of the payload. Bytes after the response stay, and
    a refusal changes nothing.
    """
    if len(response) < RESPONSE_BUFFER:
        return state, RESPONSE_BUFFER_SHORT, 0, response
    if not is_valid(state):
        return state, INVALID, 0, response
    refusal, start, length = read_frame(block)
    if refusal != ACCEPTED:
        return state, refusal, 0, response
    payload = block[start : start + length]
    refusal = validate_payload(payload)
    if refusal != ACCEPTED:
        return state, refusal, 0, response
    after, answer = perform(state, payload)
    written = bytes([FRAME_START, WAKES_END, LENGTH_BASE + len(answer)]) + answer
    return after, ACCEPTED, len(written), written + response[len(written) :]


# ---- 01, "Readout and percent" ---------------------------------------------------------------


def readout(readings, offset):
    """Refusal and readout of 1 to 16 readings of 0 to 4,095 and a signed 16-bit offset."""
    if len(readings) < 1 or len(readings) > 16:
        return READING_COUNT, 0
    if any(reading > 4095 for reading in readings):
        return READING_OVER, 0
    # one division, whose rest is dropped, and then the offset
    total = 16 * sum(readings) // len(readings) + offset
    # the ends of a 16-bit number
    if total < 0:
        return ACCEPTED, 0
    if total > 65535:
        return ACCEPTED, 65535
    return ACCEPTED, total


def percent(readout):
    """Percent of 65,536 as a whole number, the nearer one, and the upper of two equally near."""
    below, rest = divmod(readout * 100, 65536)
    nearer_to_the_whole_below = rest < 65536 - rest
    return below if nearer_to_the_whole_below else below + 1


# ---- 01, "Command writer and stored image" (the writer) --------------------------------------

COMMAND_BUFFER = 27  # the least length of the writer's buffer


def encode_command(payload, wake, frame):
    """Refusal, length of the frame and the whole buffer afterwards.

    13, 14, 3 for an empty payload, then from 7. Bytes after the frame stay, and a refusal
    changes none.
    """
    if len(frame) < COMMAND_BUFFER:
        return FRAME_BUFFER_SHORT, 0, frame
    if wake > MOST_WAKES:
        return WAKE_COUNT_OVER, 0, frame
    refusal = validate_payload(payload)
    if refusal != ACCEPTED:
        return refusal, 0, frame
    prefix = [FRAME_START] + wake * [WAKE] + [WAKES_END, LENGTH_BASE + len(payload)]
    written = bytes(prefix) + payload
    return ACCEPTED, len(written), written + frame[len(written) :]


# ---- 02, Ask 1 (the answer reader) -----------------------------------------------------------

# A set of byte strings is a list of forms. A form has, for each place of a string, the bytes that can
# be there; the set has each string that fits one of its forms.
ANY = frozenset(range(256))
ZERO = frozenset([0x00])
NOT_ZERO = ANY - ZERO


def fixed(content):
    """The form that one string alone fits."""
    return tuple([frozenset([byte]) for byte in content])


def accepted_bytes(item):
    """The accepted values of an item of one byte."""
    return frozenset([byte for byte in ANY if accepts(item, bytes([byte]))])


def name_forms():
    """01, "Items", row 01: 17 stored bytes, of which one is 00, up to and with the first 00."""
    return [before * (NOT_ZERO,) + (ZERO,) for before in range(17)]


def slot_forms():
    """01, "Item 18": an empty slot; or one of the four address bytes is the first that isn't 00, and
    what comes after it is free."""
    used = [at * (ZERO,) + (NOT_ZERO,) + (4 - at) * (ANY,) for at in range(4)]
    return [5 * (ZERO,), *used]


def status_forms():
    """01, "Item 23": valid flags; bit 7 is free, since the events and item 25 are. The other three
    bytes are free, since the hardware's values are, and item 14 can leave all three to it."""
    flags = frozenset([byte for byte in ANY if is_valid_flags(byte & 0x7F)])
    return [(flags, ANY, ANY, ANY)]


def value_forms(item):
    """The values that an item has in the valid states. Both copies of 13 to 16 hold accepted values;
    nothing is asked of the items without a rule."""
    if item == 0x01:
        return name_forms()
    if item in (0x13, 0x14, 0x15):
        return [(accepted_bytes(item),)]
    if item == 0x16:
        return [(CHANNELS, READINGS_AVERAGED, REFERENCES, ANY, ANY)]
    if item == 0x18:
        return slot_forms()
    if item == 0x23:
        return status_forms()
    return [ITEMS[item].value_bytes * (ANY,)]


@functools.lru_cache(maxsize=256)  # a payload is tried with many responses
def possible_responses(sent):
    """The payloads that a module in a valid state can answer an accepted one with, and where in them
    the value or the echo starts."""
    if sent[0] not in (READ, READ_NV):
        return [fixed(bytes([ACKNOWLEDGED, 0x00]) + sent)], 2
    head = bytes([READ_RESPONSE if sent[0] == READ else READ_NV_RESPONSE]) + sent[1:]
    return [fixed(head) + value for value in value_forms(sent[1])], len(head)


def fitting(form, payload):
    """How many bytes of a payload, from the first on, fit a form."""
    for place, (byte, possible) in enumerate(zip(payload, form)):
        if byte not in possible:
            return place
    return min(len(form), len(payload))


def first_impossible(forms, payload):
    """The least place such that no string of a set begins with the payload up to and with that byte;
    the payload's length if there is none."""
    return max([fitting(form, payload) for form in forms])


def is_in(forms, payload):
    """Whether a set has the payload."""
    size = len(payload)
    return any([fitting(form, payload) == size for form in forms if len(form) == size])


# The refusal or 0, the place that goes with 23, and where the value is in the block and its length.
Decoded = namedtuple("Decoded", "refusal place start length")


def decode_response(sent, response):
    """What the reader says of a block, as the answer to a payload that was sent.

    First what the writer says of that payload, then 3 to 6 of the block, in which a wake byte is 4,
    then 23.
    """
    refusal = validate_payload(sent)
    if refusal != ACCEPTED:
        return Decoded(refusal, 0, 0, 0)
    refusal, start, length = read_frame(response, most_wakes=0)
    if refusal != ACCEPTED:
        return Decoded(refusal, 0, 0, 0)
    payload = response[start:]
    forms, value_start = possible_responses(sent)
    if not is_in(forms, payload):
        return Decoded(NO_SUCH_RESPONSE, first_impossible(forms, payload), 0, 0)
    return Decoded(ACCEPTED, 0, start + value_start, length - value_start)


# ---- 01, "Command writer and stored image" (the image) ---------------------------------------

IMAGE_SIZE = 249
MARK = b"SWB"
VERSION = b"\x00\x01"  # 0001, high byte first
IMAGE_HEAD = len(MARK) + len(VERSION)


def image_of(state):
    """Mark, version, then the nonvolatile cells in item order."""
    stored, nv = state.stored, state.stored.settings
    cells = (
        stored.name,
        stored.firmware,
        stored.serial,
        stored.address,
        bytes([nv.line_mask, nv.latch_mask, nv.tx_power, nv.control_source, nv.message_select]),
        b"".join(nv.analog_inputs),
        b"".join(stored.slots),
        bytes([nv.interrupt_mask]),
    )
    return MARK + VERSION + b"".join(cells)


def cut(content, sizes):
    """The parts, one after the other, of the given sizes."""
    parts = []
    for size in sizes:
        parts.append(content[:size])
        content = content[size:]
    return parts


def stored_of(image):
    """The nonvolatile cells that an image holds in item order."""
    sizes = (17, 3, 4, 4, 5, 5, 5, SLOTS * 5, 1)
    parts = cut(image[IMAGE_HEAD:], sizes)
    name, firmware, serial, address, one_byte, first_row, second_row, slots, mask = parts
    return Stored(
        name=name,
        firmware=firmware,
        serial=serial,
        address=address,
        settings=Settings(*one_byte, (first_row, second_row), *mask),
        slots=tuple(cut(slots, SLOTS * (5,))),
    )


def save(state, image):
    """Refusal, length of the image and the whole buffer afterwards: 17, 2."""
    if len(image) != IMAGE_SIZE:
        return IMAGE_LENGTH, 0, image
    if not is_valid(state):
        return INVALID, 0, image
    return ACCEPTED, IMAGE_SIZE, image_of(state)


def load(state, image):
    """State afterwards and refusal: 17, 18, 19, then 2 for the image alone.

    The image's cells are replaced, and then it powers up; whether the state was valid before
    doesn't matter.
    """
    if len(image) != IMAGE_SIZE:
        return state, IMAGE_LENGTH
    if not image.startswith(MARK):
        return state, IMAGE_MARK
    if image[len(MARK) : IMAGE_HEAD] != VERSION:
        return state, IMAGE_VERSION
    stored = stored_of(image)
    if not is_valid_stored(stored):
        return state, INVALID
    return powered_up(state._replace(stored=stored)), ACCEPTED


# ---- 01, "Examples", the replay program's lines ----------------------------------------------

LONGEST_LINE = 600
HEX_DIGITS = b"0123456789ABCDEF"


def line_at(text, start):
    """The line that starts at a place of a text, without its line feed, and the place of its end.

    A line feed ends it, or the text's end where none follows. A line that would start past the
    text's end is empty and ends there.
    """
    start = min(start, len(text))
    end = text.find(b"\n", start)
    if end < 0:
        end = len(text)
    return text[start:end], end


def parse_line(line):
    """The block of a line that is handed over without its line feed, or None for `not hex`."""
    if len(line) > LONGEST_LINE:
        return None
    if line == b"":
        return b""
    pairs = line.split(b" ")
    for pair in pairs:
        if len(pair) != 2 or pair[0] not in HEX_DIGITS or pair[1] not in HEX_DIGITS:
            return None
    return bytes(16 * HEX_DIGITS.index(high) + HEX_DIGITS.index(low) for high, low in pairs)


def format_block(block):
    """The printed line of a block: upper-case pairs parted by one space, then a line feed."""
    return " ".join("%02X" % byte for byte in block) + "\n"


def format_refused(refusal):
    """The printed line of a refused block."""
    return "refused %d\n" % refusal


def format_not_hex():
    """The printed line of a line that is no block."""
    return "not hex\n"


# ---- 01, "Examples", the replay program ------------------------------------------------------


def split_lines(log):
    """The lines of an input, each without its line feed; the last one may lack it."""
    lines = log.split(b"\n")
    # what follows the last line feed is a line if it has a character
    return lines if lines[-1] else lines[:-1]


def replay_line(state, line):
    """State afterwards and printed line of one line; each block has its own response buffer."""
    block = parse_line(line)
    if block is None:
        return state, format_not_hex()
    state, refusal, length, response = execute(state, block, bytes(RESPONSE_BUFFER))
    if length == 0:
        return state, format_refused(refusal)
    return state, format_block(response[:length])


def replay(log):
    """What the replay program prints for a whole input, as bytes."""
    state = FACTORY_STATE
    printed = []
    for line in split_lines(log):
        state, text = replay_line(state, line)
        printed.append(text)
    return "".join(printed).encode("ascii")

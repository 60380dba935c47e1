"""Module states that the tests hand over: how their bytes lie in the library's struct, states that
are valid, and states that are invalid in one way or in many.
"""

import ctypes
import functools

import reference
from library import ANALOG_INPUT, BYTE, struct
from payloads import accepted_value
from reference import FACTORY_STATE

# ---- Layout ----------------------------------------------------------------------------------

SLOT = struct(address=4 * BYTE, mask=BYTE)
SETTINGS = struct(
    line_mask=BYTE,
    latch_mask=BYTE,
    tx_power=BYTE,
    control_source=BYTE,
    message_select=BYTE,
    analog_inputs=2 * ANALOG_INPUT,
    interrupt_mask=BYTE,
)
HARDWARE_SELECTION = struct(power=BYTE, line_mask=BYTE, latch_mask=BYTE)
STORED = struct(
    name=17 * BYTE,
    firmware=3 * BYTE,
    serial=4 * BYTE,
    address=4 * BYTE,
    settings=SETTINGS,
    slots=40 * SLOT,
)
WORKING = struct(settings=SETTINGS)
LIVE = struct(
    lines=2 * BYTE,
    rssi=2 * BYTE,
    ladj=BYTE,
    events=BYTE,
    flags=BYTE,
    hardware=HARDWARE_SELECTION,
)
STATE = struct(stored=STORED, working=WORKING, live=LIVE)
STATE_SIZE = ctypes.sizeof(STATE)


@functools.lru_cache(maxsize=256)
def packed(state):
    """The bytes of a state of the reference, in the order of the struct."""
    return pack(state, STATE)


def pack(part, layout):
    if isinstance(part, int):
        return bytes([part])
    if isinstance(part, bytes):
        return part
    if not hasattr(part, "_fields"):
        return b"".join(part)  # rows
    return b"".join([pack(getattr(part, name), kind) for name, kind in layout._fields_])


def field_spans(layout):
    """Each field's name, first byte, the byte after it, and layout."""
    starts = [(name, getattr(layout, name).offset, kind) for name, kind in layout._fields_]
    return [(name, start, start + ctypes.sizeof(kind), kind) for name, start, kind in starts]


PARTS = STATE, STORED, WORKING, LIVE, SETTINGS, HARDWARE_SELECTION
SPANS = {layout: field_spans(layout) for layout in PARTS}


def unpacked(raw, like=FACTORY_STATE, layout=STATE):
    """The state of the reference, or the part of one, that has these bytes."""
    if isinstance(like, int):
        return raw[0]
    if isinstance(like, bytes):
        return raw
    if not hasattr(like, "_fields"):
        return tuple([raw[at : at + 5] for at in range(0, len(raw), 5)])  # rows
    parts = {
        name: unpacked(raw[start:end], getattr(like, name), kind)
        for name, start, end, kind in SPANS[layout]
    }
    return like._replace(**parts)


def place(path):
    """Where a part of a state begins, as `live.flags` or `stored.settings.analog_inputs.1.channel`;
    rows count from 0."""
    at, layout = 0, STATE
    for word in path.split("."):
        if word.isdigit():
            layout = layout._type_
            at += int(word) * ctypes.sizeof(layout)
        else:
            at += getattr(layout, word).offset
            layout = dict(layout._fields_)[word]
    return at


def changed(state, changes):
    """A state with other bytes from some places on, which are given as text."""
    raw = packed(state)
    for path, text in changes.items():
        at, new = place(path), bytes.fromhex(text)
        raw = raw[:at] + new + raw[at + len(new) :]
    return unpacked(raw)


def with_byte(part, at, byte, layout=STATE):
    """A state, or a part of one, with one byte replaced; only the fields that hold it are made
    again."""
    if layout not in SPANS:
        raw = pack(part, layout)
        return unpacked(raw[:at] + bytes([byte]) + raw[at + 1 :], part, layout)
    name, start, _, kind = span_at(at, layout)
    return part._replace(**{name: with_byte(getattr(part, name), at - start, byte, kind)})


def span_at(at, layout):
    """The field of a state, or of a part of one, that holds a byte."""
    return next(span for span in SPANS[layout] if at < span[2])


def field_at(at, layout=STATE):
    """The path of the field that holds a byte, as `place` takes it, and the byte's place in it."""
    name, start, _, kind = span_at(at, layout)
    if kind not in SPANS:
        return name, at - start
    path, inside = field_at(at - start, kind)
    return f"{name}.{path}", inside


def first_place(raw, other):
    """The place of the first byte in which two runs of bytes differ, or where the shorter ends."""
    pairs = zip(raw, other)
    return next((at for at, (one, two) in enumerate(pairs) if one != two), min(len(raw), len(other)))


def first_difference(raw, other):
    """The place of the first byte in which two states differ, by its field."""
    at = first_place(raw, other)
    if at >= STATE_SIZE:
        return f"the length, {len(raw)} and {len(other)} bytes"
    path, inside = field_at(at)
    return f"byte {inside} of {path}"


# ---- A state whose bytes are known -----------------------------------------------------------

# What Set Default stores in each copy.
DEFAULTS = "00 00 00 06 00 FF 01 00 00 00 FF 01 00 00 00 00"

# A valid state in which no two cells hold the same. Its working control word leaves all three
# values of the status to the hardware; events and working interrupt mask share bits 1 and 2.
FILLED_NAME = "53 74 61 6C 6C 20 37 00 E1 E2 E3 E4 E5 E6 E7 E8 E9"
FILLED_NV = "91 93 EC 1F 05 04 0F 01 12 01 05 0E 01 12 02 95"
FILLED_SLOTS = " ".join(f"{index + 1:02X} 00 00 00 {index + 0xC0:02X}" for index in range(40))
FILLED_STORED = {
    "stored.name": FILLED_NAME,
    "stored.firmware": "F1 F2 F3",
    "stored.serial": "D1 D2 D3 D4",
    "stored.address": "A1 A2 A3 A4",
    "stored.settings": FILLED_NV,
    "stored.slots": FILLED_SLOTS,
}
FILLED = changed(
    FACTORY_STATE,
    {
        **FILLED_STORED,
        "working.settings": "92 94 0A 00 03 06 10 00 34 01 FE 02 00 34 02 96",
        "live.lines": "B1 B2",
        "live.rssi": "C1 C2",
        "live.ladj": "5C",
        "live.events": "0F",
        "live.flags": "31",
        "live.hardware": "77 66 55",
    },
)

# What a power-up changes in it, and in any state once the working settings are the stored ones.
START = {"live.rssi": "80 80", "live.events": "00", "live.flags": "00"}

# A state that is invalid in its flags alone.
NO_MODE = changed(FILLED, {"live.flags": "05"})

# ---- The image of that state -----------------------------------------------------------------

IMAGE_HEAD = "53 57 42 00 01"  # SWB, 0001
FILLED_IMAGE = bytes.fromhex(
    f"{IMAGE_HEAD} {FILLED_NAME} F1 F2 F3 D1 D2 D3 D4 A1 A2 A3 A4"
    " 91 93 EC 1F 05 04 0F 01 12 01 05 0E 01 12 02"
    f" {FILLED_SLOTS} 95"
)


def with_bytes(image, changes):
    """An image with other bytes from some places on, which are given as text."""
    for at, text in changes.items():
        new = bytes.fromhex(text)
        image = image[:at] + new + image[at + len(new) :]
    return image


# ---- The limits of validity ------------------------------------------------------------------

# The two copies of the settings.
COPIES = "stored.settings", "working.settings"

# The bytes next to the limits of each cell of the settings, refused and accepted.
SETTINGS_LIMITS = (
    ("tx_power", "0B 7F 80 EB", "00 0A EC FF"),
    ("control_source", "20 40 80 FF", "00 01 10 1F"),
    ("message_select", "07 08 80 FF", "00 01 06"),
    ("analog_inputs.0.channel", "00 03 08 FD 80", "04 05 06 07 FE FF"),
    ("analog_inputs.0.readings", "00 11 80 FF", "01 02 10"),
    ("analog_inputs.0.reference", "02 03 80 FF", "00 01"),
    ("analog_inputs.1.channel", "00 03 08 FD 80", "04 05 06 07 FE FF"),
    ("analog_inputs.1.readings", "00 11 80 FF", "01 02 10"),
    ("analog_inputs.1.reference", "02 03 80 FF", "00 01"),
    ("analog_inputs.0.offset", "", "00 80 FF"),
    ("analog_inputs.1.offset", "", "00 80 FF"),
    ("line_mask", "", "00 80 FF"),
    ("latch_mask", "", "00 80 FF"),
    ("interrupt_mask", "", "00 80 FF"),
)
FLAGS_LIMITS = (
    "05 06 07 08 40 80 0C 15 26 37 38 44 48 84 C0 C8 FF",
    "00 01 02 03 04 10 20 30 14 24 34",
)


def settings_edges():
    """A change of one byte of one copy of the settings, and whether it leaves a state valid."""
    for copy in COPIES:
        for name, refused, accepted in SETTINGS_LIMITS:
            for byte in refused.split():
                yield {f"{copy}.{name}": byte}, False
            for byte in accepted.split():
                yield {f"{copy}.{name}": byte}, True


def flags_edges():
    """The same of the flags."""
    refused, accepted = FLAGS_LIMITS
    for byte in refused.split():
        yield {"live.flags": byte}, False
    for byte in accepted.split():
        yield {"live.flags": byte}, True


def name_edges():
    """The same of the name: a single 00 at each place, and another byte in its stead."""
    for at in range(17):
        yield {"stored.name": 17 * "41", f"stored.name.{at}": "00"}, True
        for byte in ("01", "80", "FF"):
            yield {"stored.name": 17 * "41", f"stored.name.{at}": byte}, False


def slot_edges():
    """The same of each slot alone: a zero address with a mask, where all slots were empty or this
    one had an address, and addresses with a single byte that isn't 00."""
    empty = {"stored.slots": 200 * "00"}
    yield empty, True
    for index in range(40):
        slot = f"stored.slots.{index}"
        for mask in ("01", "80", "FF"):
            yield {**empty, f"{slot}.mask": mask}, False
        yield {f"{slot}.address": "00 00 00 00"}, False
        yield {slot: "00 00 00 00 00"}, True
        yield {**empty, slot: "FF FF FF FF FF"}, True
        for at in range(4):
            yield {**empty, f"{slot}.address.{at}": "01"}, True
            yield {**empty, f"{slot}.address.{at}": "01", f"{slot}.mask": "80"}, True


# ---- Random states ---------------------------------------------------------------------------


def random_settings(rng):
    one_byte = {
        name: accepted_value(rng, item)[0] for item, name in reference.ONE_BYTE_SETTINGS.items()
    }
    rows = accepted_value(rng, 0x16), accepted_value(rng, 0x16)
    return reference.Settings(analog_inputs=rows, **one_byte)


def random_flags(rng):
    return rng.randrange(5) | rng.choice((0x00, 0x10, 0x20, 0x30))


def random_state(rng):
    """A valid state."""
    name = bytes(rng.randrange(1, 256) for _ in range(rng.randrange(17))) + b"\x00"
    state = unpacked(rng.randbytes(STATE_SIZE))
    name += state.stored.name[len(name) :]
    nv, working = random_settings(rng), random_settings(rng)
    slots = tuple(accepted_value(rng, 0x18) for _ in range(40))
    return reference.ModuleState(
        stored=state.stored._replace(name=name, settings=nv, slots=slots),
        working=reference.Working(working),
        live=state.live._replace(flags=random_flags(rng)),
    )


def random_bytes_state(rng):
    """A state of random bytes, which hardly ever is a valid one."""
    return unpacked(rng.randbytes(STATE_SIZE))


def random_invalid_state(rng):
    """A state that is invalid in one part, or one of random bytes."""
    state = random_state(rng)
    copy, (name, refused, _) = rng.choice(COPIES), rng.choice(SETTINGS_LIMITS[:9])
    changes = (
        {f"{copy}.{name}": rng.choice(refused.split())},
        {"live.flags": rng.choice(FLAGS_LIMITS[0].split())},
        {f"stored.slots.{rng.choice((0, 39, rng.randrange(40)))}": "00 00 00 00 01"},
        {"stored.name": bytes(rng.randrange(1, 256) for _ in range(17)).hex()},
        {"stored": rng.randbytes(STATE_SIZE).hex()},
    )
    return changed(state, rng.choice(changes))


def any_state(rng):
    """A state that is valid, or invalid in one part, or of random bytes."""
    return rng.choice((random_state, random_state, random_invalid_state, random_bytes_state))(rng)


def with_live_cells(rng, state):
    """The state with other live cells, as the hardware changes them; the flags are mostly valid."""
    flags = random_flags(rng) if rng.random() < 0.9 else rng.randrange(256)
    live = unpacked(rng.randbytes(STATE_SIZE)).live
    return state._replace(live=live._replace(flags=flags))

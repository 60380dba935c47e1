#!/usr/bin/env python3
"""Compares the entries of the C library with reference.py, call by call: all but cdi_decode_response,
which test_decode.py compares.

`./sdk` builds the library, target/sdk/lib/libcdi.so. Its entries are called over runs whose bytes
are worked out from document 01, over states that are valid or not, and over random blocks,
payloads, images, readings and sequences of a fixed seed. The results and every byte of the state,
of the inputs and of the buffers afterwards are compared; each of them lies between guard bytes.
The first difference ends the run with exit status 1.
"""

import itertools
import sys

sys.dont_write_bytecode = True  # leaves no files beside the tests

import reference
from entries import FILLER, SIGNATURES, Comparison, load_entries, random_buffer
from library import Problem, check_seen, print_outcomes, run_test
from payloads import (
    WRAPS,
    accepted_payloads,
    edge_payloads,
    frame,
    permitted_commands,
    random_block,
    random_payload,
    swept_commands,
    swept_values,
)
from reference import FACTORY_STATE
from refusals import OWN
from states import (
    COPIES,
    DEFAULTS,
    FILLED,
    FILLED_IMAGE,
    FILLED_NV,
    FILLED_STORED,
    IMAGE_HEAD,
    NO_MODE,
    START,
    STATE_SIZE,
    any_state,
    changed,
    flags_edges,
    name_edges,
    packed,
    place,
    random_bytes_state,
    random_invalid_state,
    random_state,
    settings_edges,
    slot_edges,
    unpacked,
    with_byte,
    with_bytes,
    with_live_cells,
)

SEED = 20240003

# The values that a byte of a slot takes in turn; other bytes take all.
SOME_BYTES = (0x00, 0x01, 0x02, 0x05, 0x0B, 0x20, 0x55, 0x7F, 0x80, 0xAA, 0xEB, 0xFE, 0xFF)


# ---- Examples of document 01 -----------------------------------------------------------------

READ_15, READ_15_ANSWER = "80 55 82 01 15", "80 55 83 C1 15 00"

# Each run starts from the factory state: blocks with the answer or the refusal.
EXAMPLES = (
    ((READ_15, READ_15_ANSWER),),
    (("80 FF FF 55 82 01 15", READ_15_ANSWER),),
    (("80" + 16 * " FF" + " 55 82 01 15", READ_15_ANSWER),),
    (("80" + 17 * " FF" + " 55 82 01 15", 4),),
    (
        ("80 55 83 04 15 06", "80 55 85 C0 00 04 15 06"),
        ("80 55 82 03 15", "80 55 83 C2 15 06"),
        ("80 55 82 01 15", "80 55 83 C1 15 06"),
    ),
    (("80 55 83 02 15 07", 12),),
    (("80 55 82 03 25", 10),),
    (("80 55 83 02 13 EC", "80 55 85 C0 00 02 13 EC"),),
    (("80 55 83 02 13 EB", 12),),
    (("80 55 83 02 13 0A", "80 55 85 C0 00 02 13 0A"),),
    (("80 55 83 02 13 0B", 12),),
    (("80 55 81 82", "80 55 83 C0 00 82"),),
    (("80 55 81 01", 8),),
    (("80 55 88 04 18 27 01 02 03 04 05", "80 55 8A C0 00 04 18 27 01 02 03 04 05"),),
    (("80 55 88 04 18 28 01 02 03 04 05", 11),),
    (("80 55 88 04 18 27 00 00 00 00 01", 12),),
    (("80 55 83 01 16 02", "80 55 88 C1 16 02 FF 01 00 00 00"),),
    (("80 55 83 01 16 00", 11),),
    (("80 55 83 01 16 03", 11),),
    (("80 55 82 01 18", 8),),
    (("", 3),),
    (("80", 3),),
    (("81", 4),),
    (("80 55 80", 5),),
    (("80 55 82 01", 3),),
    (("80 55 82 01 15 00", 6),),
    (("80 55 82 05 15", 7),),
    (("80 55 82 01 17", 9),),
    (  # the replay program's input
        ("80 55 82 01 15", "80 55 83 C1 15 00"),
        ("80 55 83 02 15 03", "80 55 85 C0 00 02 15 03"),
        ("80 55 83 02 15 07", 12),
        ("80 55 82 01 15", "80 55 83 C1 15 03"),
        ("80 55 82 03 25", 10),
    ),
)
READOUT_EXAMPLES = (
    ([3563, 3564], 0, 57016),
    ([4095], 15, 65535),
    ([4095], 16, 65535),
    ([0], -1, 0),
)
PERCENT_EXAMPLES = ((57016, 87), (327, 0), (328, 1))


def check_examples(compare, rng):
    """The reference and the library give what the paper gives."""
    for blocks in EXAMPLES:
        state = unpacked(compare.factory())
        for block, expected in blocks:
            state = compare.literal(state, block, expected)
    for readings, offset, expected in READOUT_EXAMPLES:
        came = compare.readout(readings, offset)
        compare.same("an example", (0, expected), came, readings=readings, offset=offset)
    for readout, expected in PERCENT_EXAMPLES:
        compare.same("an example", expected, compare.percent(readout), readout=readout)


# ---- Closed runs -----------------------------------------------------------------------------

FACTORY = 28 * "00" + DEFAULTS + 200 * "00" + DEFAULTS + "00 00 80 80" + 6 * "00"

# On the filled state: an item with its index, what Read answers, and Read NV, or its refusal.
SHOWN = (
    ("01", "53 74 61 6C 6C 20 37 00", "53 74 61 6C 6C 20 37 00"),
    ("02", "F1 F2 F3", "F1 F2 F3"),
    ("03", "D1 D2 D3 D4", "D1 D2 D3 D4"),
    ("10", "A1 A2 A3 A4", "A1 A2 A3 A4"),
    ("11", "92", "91"),
    ("12", "94", "93"),
    ("13", "0A", "EC"),
    ("14", "00", "1F"),
    ("15", "03", "05"),
    ("16 01", "06 10 00 34 01", "04 0F 01 12 01"),
    ("16 02", "FE 02 00 34 02", "05 0E 01 12 02"),
    ("18 00", "01 00 00 00 C0", "01 00 00 00 C0"),
    ("18 27", "28 00 00 00 E7", "28 00 00 00 E7"),
    ("20", "B1 B2", 10),
    ("21", "C1 C2", 10),
    ("22", "5C", 10),
    ("23", "B1 77 66 55", 10),
    ("25", "96", 10),
    ("26", "0F", 10),
)

# On the filled state: a block, the response, and what is stored.
STORED = (
    ("80 55 83 02 13 F0", "80 55 85 C0 00 02 13 F0", {"working.settings.tx_power": "F0"}),
    (
        "80 55 83 04 13 F0",
        "80 55 85 C0 00 04 13 F0",
        {"working.settings.tx_power": "F0", "stored.settings.tx_power": "F0"},
    ),
    (
        "80 FF 55 83 04 25 81",
        "80 55 85 C0 00 04 25 81",
        {"working.settings.interrupt_mask": "81", "stored.settings.interrupt_mask": "81"},
    ),
    (
        "80 55 88 02 16 01 07 0A 01 FF FE",
        "80 55 8A C0 00 02 16 01 07 0A 01 FF FE",
        {"working.settings.analog_inputs.0": "07 0A 01 FF FE"},
    ),
    (
        "80 55 88 04 16 02 07 0A 01 FF FE",
        "80 55 8A C0 00 04 16 02 07 0A 01 FF FE",
        {
            "working.settings.analog_inputs.1": "07 0A 01 FF FE",
            "stored.settings.analog_inputs.1": "07 0A 01 FF FE",
        },
    ),
    (
        "80 55 86 04 10 FF FF FF FF",
        "80 55 88 C0 00 04 10 FF FF FF FF",
        {"stored.address": "FF FF FF FF"},
    ),
    (
        "80 55 88 04 18 27 09 08 07 06 05",
        "80 55 8A C0 00 04 18 27 09 08 07 06 05",
        {"stored.slots.39": "09 08 07 06 05"},
    ),
    (
        "80 55 88 04 18 00 00 00 00 00 00",
        "80 55 8A C0 00 04 18 00 00 00 00 00 00",
        {"stored.slots.0": "00 00 00 00 00"},
    ),
    (
        "80 55 81 81",
        "80 55 83 C0 00 81",
        {"stored.settings": DEFAULTS, "working.settings": DEFAULTS},
    ),
    ("80 55 81 82", "80 55 83 C0 00 82", {"stored.slots": 200 * "00"}),
)


def check_factory(compare, rng):
    came = compare.factory()
    compare.same("the factory state", bytes.fromhex(FACTORY), came)
    compare.same("the size of a state", 270, len(came))


def check_shown(compare, rng):
    """Read and Read NV of every item that is served, in buffers of several sizes."""
    for size, (item, *answers) in itertools.product((22, 23, 40), SHOWN):
        for read, code, answer in zip(("01", "03"), ("C1", "C2"), answers):
            block = frame(0, bytes.fromhex(read + item)).hex()
            if isinstance(answer, str):
                answer = frame(0, bytes.fromhex(code + item + answer)).hex()
            compare.literal(FILLED, block, answer, {}, response=FILLER[:size])


def check_stored(compare, rng):
    for block, response, changes in STORED:
        compare.literal(FILLED, block, response, changes)
        compare.literal(FILLED, block, response, changes, response=FILLER[:40])


# Name, and what item 01 answers: 1, 2, 16 and 17 bytes.
NAMES = (
    ("00 41 42 00 43 44 45 46 47 48 49 4A 4B 4C 4D 4E 4F", "00"),
    ("41 00 42 00 43 44 45 46 47 48 49 4A 4B 4C 4D 4E 4F", "41 00"),
    (
        "41 42 43 44 45 46 47 48 49 4A 4B 4C 4D 4E 4F 00 50",
        "41 42 43 44 45 46 47 48 49 4A 4B 4C 4D 4E 4F 00",
    ),
    (
        "FF 42 43 44 45 46 47 48 49 4A 4B 4C 4D 4E 4F 50 00",
        "FF 42 43 44 45 46 47 48 49 4A 4B 4C 4D 4E 4F 50 00",
    ),
)
NAME_LENGTH_BYTES = ("83", "84", "92", "93")


def check_names(compare, rng):
    """The shapes of a name, in buffers of every size that is enough."""
    for (name, shown), length_byte in zip(NAMES, NAME_LENGTH_BYTES):
        state = changed(FILLED, {"stored.name": name})
        for size, (read, code) in itertools.product(range(22, 41), (("01", "C1"), ("03", "C2"))):
            response = f"80 55 {length_byte} {code} 01 {shown}"
            compare.literal(state, f"80 55 82 {read} 01", response, {}, response=FILLER[:size])
    for at in range(17):  # a single 00 at each place, and one at each place before another
        state = changed(FILLED, {"stored.name": 17 * "41", f"stored.name.{at}": "00"})
        compare.execute(state, b"\x80\x55\x82\x01\x01", FILLER[:22])
        state = changed(state, {"stored.name.16": "00"})
        compare.execute(state, b"\x80\x55\x82\x03\x01", FILLER[:22])


# Flags, events, working interrupt mask, and the first byte of item 23.
STATUS_FLAGS = (
    ("00", "00", "00", "00"),
    ("00", "01", "01", "80"),
    ("00", "FF", "FF", "80"),
    ("31", "00", "FF", "31"),
    ("31", "FF", "00", "31"),
    ("31", "55", "AA", "31"),
    ("31", "80", "7F", "31"),
    ("31", "7F", "80", "31"),
    ("31", "80", "80", "B1"),
    ("04", "0F", "10", "04"),
    ("04", "0F", "18", "84"),
    ("34", "40", "C0", "B4"),
)

# Control word, and the other three bytes of item 23: bit 0 takes the power 0A, bit 3 the line
# mask 92, bit 4 the latch mask 94 from the working cells; else they are the hardware's 77, 66, 55.
STATUS_SELECTIONS = (
    ("00", "77 66 55"),
    ("01", "0A 66 55"),
    ("08", "77 92 55"),
    ("10", "77 66 94"),
    ("09", "0A 92 55"),
    ("11", "0A 66 94"),
    ("18", "77 92 94"),
    ("19", "0A 92 94"),
    ("06", "77 66 55"),
    ("1F", "0A 92 94"),
)


def check_status(compare, rng):
    """Item 23, also right after a change of item 14."""
    for flags, selections in itertools.product(STATUS_FLAGS, STATUS_SELECTIONS):
        live, events, mask, first = flags
        control, rest = selections
        cells = {"live.flags": live, "live.events": events, "working.settings.interrupt_mask": mask}
        before, source = changed(FILLED, cells), {"working.settings.control_source": control}
        wanted = f"80 55 86 C1 23 {first} {rest}"
        compare.literal(changed(before, source), "80 55 82 01 23", wanted, {})
        block, response = f"80 55 83 02 14 {control}", f"80 55 85 C0 00 02 14 {control}"
        after = compare.literal(before, block, response, source)
        compare.literal(after, "80 55 82 01 23", wanted, {})


def check_power_up(compare, rng):
    """The working cells are those of the nonvolatile copy, RSSI is 80 80, flags and events are
    00, and nothing else changes."""
    changes = {"working.settings": FILLED_NV, **START}
    compare.literal_power_up(FILLED, 0, changes)
    compare.literal_power_up(changed(FILLED, changes), 0)
    compare.literal_power_up(FACTORY_STATE, 0)
    for at, byte in enumerate(FILLED_NV.split()):  # each byte of either copy alone
        words = DEFAULTS.split()
        words[at] = byte
        for copy, after in zip(COPIES, (" ".join(words), DEFAULTS)):
            state = changed(FACTORY_STATE, {copy: " ".join(words)})
            compare.literal_power_up(state, 0, {"working.settings": after})


# ---- The stored image ------------------------------------------------------------------------


# What a load of the filled state's image changes, and that image.
FILLED_LOAD = {**FILLED_STORED, "working.settings": FILLED_NV, **START}
FACTORY_IMAGE = bytes.fromhex(
    IMAGE_HEAD + 28 * "00" + "00 00 00 06 00 FF 01 00 00 00 FF 01 00 00 00" + 201 * "00"
)

# States that a load may find: valid ones, one without a mode, and ones of a single byte.
FOUND = (
    FACTORY_STATE,
    FILLED,
    changed(FILLED, {"live.flags": "05"}),
    changed(
        FILLED, {"working.settings.tx_power": "80", "stored.settings.control_source": "FF"}
    ),
    *(unpacked(STATE_SIZE * bytes([byte])) for byte in (0x00, 0x5A, 0xFF)),
)

# Bytes of an image from some place on, by the refusals that they alone and together give.
BROKEN_IMAGES = (
    ({5: 17 * "41"}, 2),  # a name without a 00
    ({35: "0B"}, 2),  # item 13
    ({3: "00 02"}, 19),
    ({3: "01 00"}, 19),
    ({3: "01 01"}, 19),
    ({3: "00 00"}, 19),
    ({3: "FF FF"}, 19),
    ({0: "73 77 62"}, 18),  # small letters
    ({0: "42 57 53"}, 18),
    ({2: "00"}, 18),
    ({3: "00 02", 5: 17 * "41"}, 19),
    ({2: "00", 3: "00 02"}, 18),
    ({2: "00", 5: 17 * "41"}, 18),
    ({0: 249 * "00"}, 18),
    ({0: 249 * "FF"}, 18),
    ({3: 246 * "FF"}, 19),
    ({5: 244 * "FF"}, 2),
)


def check_image(compare, rng):
    """The image of two states, and its load on states of every kind."""
    compare.same("the size of an image", (249, 249), (len(FILLED_IMAGE), len(FACTORY_IMAGE)))
    for buffer in (bytes(249), 249 * b"\xff", rng.randbytes(249), FILLED_IMAGE):
        compare.literal_save(FILLED, buffer, FILLED_IMAGE)
        compare.literal_save(FACTORY_STATE, buffer, FACTORY_IMAGE)
    factory = {"stored": 28 * "00" + DEFAULTS + 200 * "00", "working": DEFAULTS}
    for state in FOUND:
        compare.literal_load(state, FILLED_IMAGE, 0, FILLED_LOAD)
        compare.literal_load(state, FACTORY_IMAGE, 0, {**factory, **START})


def check_image_order(compare, rng):
    """17, 18, 19, 2 by this order, whatever the state was before."""
    for (changes, refusal), state in itertools.product(BROKEN_IMAGES, FOUND):
        image = with_bytes(FILLED_IMAGE, changes)
        compare.literal_load(state, image, refusal)
        for other in (image[:-1], image + b"\x00", image[:5], b"", image + bytes(256)):
            compare.literal_load(state, other, 17)


def check_image_lengths(compare, rng):
    """Buffers and images of every size up to 40, around 249 and around its wraps: 17, before 2
    and every other refusal; at 249 bytes it isn't."""
    sizes = {*range(41), *range(240, 260), 122, 498, 1000}
    sizes |= {wrap + more for wrap in WRAPS for more in (0, 1, 248, 249, 250)}
    images = FILLED_IMAGE, with_bytes(FILLED_IMAGE, {0: "00"}), with_bytes(FILLED_IMAGE, {4: "02"})
    for size in sorted(sizes - {249}):
        for state in FOUND:
            compare.literal_save(state, rng.randbytes(size), 17)
        for state, image in itertools.product(FOUND, images):
            longer = image + rng.randbytes(max(size - len(image), 0))
            compare.literal_load(state, longer[:size], 17)
    for state in FOUND[2:]:
        compare.literal_save(state, rng.randbytes(249), 2)


def check_image_bytes(compare, rng):
    """An image with each byte replaced by each value, loaded on states of every kind."""
    states = FOUND + tuple(any_state(rng) for _ in range(20))
    slots = range(48, 248)
    for whole, at in itertools.product((FILLED_IMAGE, FACTORY_IMAGE), range(249)):
        for byte in SOME_BYTES if at in slots else range(256):
            image = whole[:at] + bytes([byte]) + whole[at + 1 :]
            compare.load(rng.choice(states), image)


def check_random_images(compare, rng):
    """Images of random states, whole or damaged, or of random bytes, on random states."""
    for _ in range(1500):
        state = any_state(rng)
        compare.save(state, rng.randbytes(249))
        compare.save(state, rng.randbytes(rng.randrange(300)))
        for _ in range(4):
            compare.load(state, random_image(rng, ()))


def random_image(rng, saved):
    """An image that was saved, or one of a random state, whole or damaged."""
    kind = rng.random()
    if kind < 0.1:
        return bytes.fromhex(IMAGE_HEAD) + rng.randbytes(244)
    image = rng.choice(saved) if saved else reference.image_of(any_state(rng))
    if kind < 0.6:
        return image
    if kind < 0.9:
        at = rng.choice((rng.randrange(249), rng.randrange(49), rng.randrange(5)))
        return image[:at] + rng.randbytes(1) + image[at + 1 :]
    return (image + rng.randbytes(10))[: rng.randrange(260)]


# ---- Refusals 1 and 2 ------------------------------------------------------------------------

READ_LADJ, LADJ = "80 55 82 01 22", "80 55 83 C1 22 5C"

# On a valid state and with a whole buffer, what each block is refused with.
REFUSED_BLOCKS = (
    ("", 3),
    ("81", 4),
    ("80 55 80", 5),
    ("80 55 82 01 22 00", 6),
    ("80 55 82 05 22", 7),
    ("80 55 81 01", 8),
    ("80 55 82 01 17", 9),
    ("80 55 82 03 25", 10),
    ("80 55 83 01 16 00", 11),
    ("80 55 83 02 15 07", 12),
)


def check_short_buffers(compare, rng):
    """Buffers of 0 to 21 bytes: 1, before 2 and every other refusal; from 22 bytes on it isn't."""
    longer = (wrap + more for wrap in WRAPS for more in (0, 1, 21, 22))
    for size in (*range(41), *longer):
        buffer = rng.randbytes(size)
        for block, refusal in REFUSED_BLOCKS:
            compare.literal(FILLED, block, refusal if size >= 22 else 1, response=buffer)
            compare.literal(NO_MODE, block, 2 if size >= 22 else 1, response=buffer)
        compare.literal(FILLED, READ_LADJ, LADJ if size >= 22 else 1, {}, response=buffer)
        compare.literal(NO_MODE, READ_LADJ, 2 if size >= 22 else 1, response=buffer)


def refused_state(compare, state):
    """An invalid state: 2 for a power-up, for a save and for every block, good or bad, in a whole
    buffer; a load makes it valid."""
    compare.literal_power_up(state, 2)
    compare.literal_save(state, FILLED_IMAGE, 2)
    compare.literal_save(state, FILLED_IMAGE[:248], 17)
    for block in (READ_LADJ, "80 55 83 04 15 06", "80 55 81 81", "", "80 55 82 05 22"):
        compare.literal(state, block, 2)
    compare.literal(state, READ_LADJ, 1, response=FILLER[:21])
    compare.literal_load(state, FILLED_IMAGE, 0, FILLED_LOAD)


def accepted_state(compare, state):
    """A valid state: a command, a power-up and a save are accepted."""
    compare.literal(changed(state, {"live.ladj": "5C"}), READ_LADJ, LADJ, {})
    nv = packed(state)[place("stored.settings") :][:16].hex()
    compare.literal_power_up(state, 0, {"working.settings": nv, **START})
    refusal, length, image = compare.save(state, bytes(249))
    compare.same("a save", (0, 249), (refusal, length), state=packed(state))
    compare.literal_load(state, image, 0, {"working.settings": nv, **START})


def check_edges(compare, edges):
    for changes, valid in edges:
        state = changed(FILLED, changes)
        (accepted_state if valid else refused_state)(compare, state)
        # an image holds the stored part alone
        image_valid = valid or not next(iter(changes)).startswith("stored.")
        _, refusal = compare.load(FACTORY_STATE, reference.image_of(state))
        compare.same("an image", 0 if image_valid else 2, refusal, state=packed(state))


def check_settings_validity(compare, rng):
    check_edges(compare, settings_edges())


def check_flags_validity(compare, rng):
    check_edges(compare, flags_edges())


def check_name_validity(compare, rng):
    check_edges(compare, name_edges())


def check_slot_validity(compare, rng):
    check_edges(compare, slot_edges())


def check_every_byte(compare, rng):
    """Each byte of two states by itself, with each value: a power-up, a save and, for some of
    them, a block judge the state alike."""
    block, buffer = bytes.fromhex("80 55 82 01 23"), rng.randbytes(22)
    slots = range(place("stored.slots"), place("working"))
    for before, at in itertools.product((FILLED, FACTORY_STATE), range(STATE_SIZE)):
        for byte in SOME_BYTES if at in slots else range(256):
            state = with_byte(before, at, byte)
            compare.power_up(state)
            compare.save(state, FILLED_IMAGE)
            if byte in SOME_BYTES:
                compare.execute(state, block, buffer)


# ---- Random states and blocks ----------------------------------------------------------------


def check_frames(compare, rng):
    """Blocks that are cut, lengthened or changed at one place, with every wake count, and every
    length byte with a payload too short, right and too long."""
    for wake, payload in itertools.product(range(19), (b"\x82", b"\x01\x23", b"\x04\x13\xf0")):
        whole = frame(wake, payload)
        blocks = [whole, whole + b"\x00", whole + whole, whole + bytes(256), whole + bytes(65536)]
        for at in range(len(whole)):
            blocks += [whole[:at], whole[:at] + whole[at + 1 :]]
            blocks += [whole[:at] + byte + whole[at:] for byte in (b"\x00", b"\x55", b"\xff")]
            blocks += [whole[:at] + byte + whole[at + 1 :] for byte in (b"\x80", b"\x83", b"\xff")]
        for block in blocks:
            compare.execute(FILLED, block, FILLER[:30])
    for wake, byte, more in itertools.product((0, 1, 16), range(256), (-1, 0, 1)):
        start = b"\x80" + wake * b"\xff" + b"\x55" + bytes([byte])
        size = max(byte % 128 + more, 0)
        compare.execute(FILLED, start + b"\x01\x15".ljust(size)[:size], FILLER)


def check_payloads(compare, rng):
    """Every command on every item, with indexes and values at both sides of their limits, and
    every command, item, index and one-byte value: executed and written by the writer."""
    states = [random_state(rng) for _ in range(50)] + [FACTORY_STATE, FILLED]
    for payload in itertools.chain(edge_payloads(), swept_commands(), swept_values()):
        block = frame(rng.choice((0, 1, 16)), payload)
        compare.execute(rng.choice(states), block, rng.randbytes(rng.randrange(22, 31)))
        compare.encode(payload, rng.choice((0, 1, 16)), rng.randbytes(rng.randrange(27, 31)))


def check_served_commands(compare, rng):
    """Every permitted command with every index and an accepted value, on states of their own."""
    for _ in range(10):
        for payload in accepted_payloads(rng):
            block = frame(rng.randrange(17), payload)
            done = compare.execute(random_state(rng), block, rng.randbytes(22))
            compare.same("an accepted command", 0, done.refusal, block=block)


def check_random_blocks(compare, rng):
    """Blocks and a power-up on random states, of which a fifth is invalid."""
    for number in range(1000):
        state = random_invalid_state(rng) if number % 5 == 0 else random_state(rng)
        compare.power_up(state)
        compare.power_up(random_bytes_state(rng))
        for size in range(41):
            compare.execute(state, random_block(rng), rng.randbytes(size))


# ---- Command writer --------------------------------------------------------------------------

# Each refusal that the writer can give for a payload, and accepted ones of each length.
WRITER_PAYLOADS = tuple(
    bytes.fromhex(text)
    for text in (
        "",
        "05 15",
        "01",
        "81 00",
        "01 17",
        "03 25",
        "02 15 03 00",
        "01 16 00",
        "04 18 28 01 02 03 04 05",
        "02 15 07",
        "04 18 27 00 00 00 00 01",
        "81",
        "01 15",
        "02 13 EC",
        "03 18 00",
        "04 10 FF FF FF FF",
        "02 16 02 04 10 01 80 00",
        "04 18 27 01 02 03 04 05",
    )
)
WAKES = (*range(18), 2**8, 2**8 + 16, 2**16, 2**32, 2**32 + 1, 2**63, 2**64 - 1)


def check_writer(compare, rng):
    """Every wake count with every size of the buffer, and sizes that wrap."""
    for payload, wake, size in itertools.product(WRITER_PAYLOADS, WAKES, range(41)):
        compare.encode(payload, wake, rng.randbytes(size))
    for payload, wake, wrap in itertools.product(WRITER_PAYLOADS, (0, 16, 17), WRAPS):
        compare.encode(payload, wake, rng.randbytes(wrap))
        compare.encode(payload + bytes(wrap), wake, rng.randbytes(27))
    for _ in range(8000):
        wake = rng.choice((rng.randrange(19), rng.randrange(2**64)))
        compare.encode(random_payload(rng), wake, rng.randbytes(rng.randrange(20, 60)))


def check_written_frames(compare, rng):
    """What the writer writes, the module takes as that payload."""
    for payload, wake in itertools.product(edge_payloads(), (0, 1, 16)):
        if reference.validate_payload(payload) != 0:
            continue
        _, length, buffer = compare.encode(payload, wake, rng.randbytes(27))
        refusal, start, size = reference.read_frame(buffer[:length])
        read = refusal, buffer[start : start + size]
        compare.same("a frame read back", (0, payload), read, payload=payload, wake=wake)
        done = compare.execute(FILLED, buffer[:length], FILLER[:22])
        compare.same("a command written", 0, done.refusal, payload=payload, wake=wake)


# ---- Readout and percent ---------------------------------------------------------------------


def check_readout(compare, rng):
    """Every count, with readings and offsets at their ends and one reading too high."""
    offsets = (-32768, -32767, -1, 0, 1, 15, 16, 32766, 32767)
    for count, offset in itertools.product(range(18), offsets):
        for reading in (0, 1, 4094, 4095, 4096, 65535):
            compare.readout([reading] * count, offset)
        for at, high in itertools.product(range(count), (4096, 32768, 65535)):
            readings = [rng.randrange(4096) for _ in range(count)]
            readings[at] = high
            compare.readout(readings, offset)
        for _ in range(20):
            readings = [rng.randrange(4096) for _ in range(count)]
            compare.readout(readings, offset)
            compare.readout(readings, rng.randrange(-32768, 32768))
            compare.readout([rng.randrange(65536) for _ in range(count)], offset)
    for wrap, count in itertools.product(WRAPS, (0, 1, 16)):
        compare.readout([4095] * (wrap + count), 0)
        compare.readout([4096] * (wrap + count), 0)


def check_readout_ends(compare, rng):
    """The average is near one of its ends, and so is the readout."""
    for count, _ in itertools.product(range(1, 17), range(100)):
        high = [rng.randrange(4090, 4096) for _ in range(count)]
        compare.readout(high, rng.randrange(-20, 100))
        low = [rng.randrange(6) for _ in range(count)]
        compare.readout(low, rng.randrange(-100, 20))
    for offset in range(-32768, 32768):
        compare.readout([0] if offset % 2 else [4095], offset)


def check_every_readout(compare, rng):
    """Each of the 65,536 readouts, and its percent."""
    for number in range(65536):
        refusal, readout = compare.readout([number // 16], number % 16)
        compare.same("a readout", (0, number), (refusal, readout), readout=number)
        compare.percent(number)


# ---- Sequences -------------------------------------------------------------------------------


def random_step(compare, rng, state, saved):
    """One step on the state that lies in memory; what the reference has afterwards."""
    kind = rng.random()
    if kind < 0.08:
        return compare.power_up(state, in_place=True)[0]
    if kind < 0.16:
        size = 249 if rng.random() < 0.9 else rng.randrange(260)
        refusal, _, image = compare.save(state, rng.randbytes(size), in_place=True)
        if refusal == 0:
            saved.append(image)
        return state
    if kind < 0.24:
        return compare.load(state, random_image(rng, saved[-3:]), in_place=True)[0]
    if kind < 0.29:  # the hardware, and no call
        state = with_live_cells(rng, state)
        compare.put(state)
        return state
    return compare.execute(state, random_block(rng), random_buffer(rng), in_place=True).after


def check_sequences(compare, rng):
    """Sixty steps on one state: each side goes on with what it has made of it. Images go from one
    sequence to the next."""
    saved = []
    for number in range(1000):
        state = any_state(rng) if number % 3 else unpacked(compare.factory())
        compare.put(state)
        for _ in range(60):
            state = random_step(compare, rng, state, saved)


# ---- The run ---------------------------------------------------------------------------------

CHECKS = (
    check_examples,
    check_factory,
    check_shown,
    check_stored,
    check_names,
    check_status,
    check_power_up,
    check_image,
    check_image_order,
    check_image_lengths,
    check_image_bytes,
    check_random_images,
    check_short_buffers,
    check_settings_validity,
    check_flags_validity,
    check_name_validity,
    check_slot_validity,
    check_every_byte,
    check_frames,
    check_payloads,
    check_served_commands,
    check_random_blocks,
    check_writer,
    check_written_frames,
    check_readout,
    check_readout_ends,
    check_every_readout,
    check_sequences,
)

# The outcomes that each entry has; 0 is accepted.
COMPARED = SIGNATURES.keys() - {"cdi_decode_response"}
OUTCOMES = {entry: sorted({0, *OWN.get(entry, ())}) for entry in SIGNATURES if entry in COMPARED}


def check_coverage(compare):
    """Every outcome and every permitted command was seen; else the checks above are too thin."""
    check_seen("outcomes", OUTCOMES, compare.outcomes)
    if permitted_commands() != set(compare.accepted):
        raise Problem(f"not accepted: {permitted_commands() - set(compare.accepted)}")


def main(checks, whole):
    compare = Comparison(load_entries())
    compare.run(checks, SEED)
    if whole:
        check_coverage(compare)
        print_outcomes(OUTCOMES, compare.outcomes)
    print(f"{compare.calls:,} calls of {len({entry for entry, _ in compare.outcomes})} entries agree")


if __name__ == "__main__":
    run_test(CHECKS, main)

"""The refusals of document 01, "Numbers that a refusal carries", and of document 02's requests: the one table
that sources, definitions, headers, documents and tests are held against. A new number is a line of REFUSALS
and a place in the orders of the entries that give it; a new entry is a line of ORDERS; a new library is a
name in LIBRARIES.
"""

import collections
import itertools

# The number, the name that the headers give it (the source's enum has it as a case), and when it is given, in the words of the case's comment.
Refusal = collections.namedtuple("Refusal", "number name words")
REFUSALS = (
    Refusal(1, "RESPONSE_BUFFER_SHORT", "the response buffer has fewer than 22 bytes"),
    Refusal(2, "INVALID", "the module's state, or the contents of an image, are invalid"),
    Refusal(3, "ENDS_EARLY", "the block or the payload ends early"),
    Refusal(
        4,
        "BAD_START",
        "the first byte is not 80, there is a seventeenth wake byte, or what follows the wake bytes is not 55",
    ),
    Refusal(5, "BAD_LENGTH_BYTE", "the length byte is under 81"),
    Refusal(6, "TRAILING_BYTES", "there are bytes after the frame"),
    Refusal(7, "COMMAND_NOT_SERVED", "the command is not served"),
    Refusal(8, "WRONG_LENGTH", "the payload's length is wrong"),
    Refusal(9, "ITEM_NOT_SERVED", "the item is not served"),
    Refusal(10, "NOT_PERMITTED", "the item does not permit the command"),
    Refusal(11, "WRONG_INDEX", "the index is wrong"),
    Refusal(12, "VALUE_NOT_ACCEPTED", "the item does not accept the value"),
    Refusal(
        13,
        "FRAME_BUFFER_SHORT",
        "a writer's buffer is too short: under 27 bytes for a command's frame, "
        "under the packet's own length for a packet",
    ),
    Refusal(14, "WAKE_COUNT_OVER", "the wake count is over 16"),
    Refusal(15, "READING_COUNT", "there is no reading, or there are over 16"),
    Refusal(16, "READING_OVER", "a reading is over 4,095"),
    Refusal(17, "IMAGE_LENGTH", "the image buffer does not have 249 bytes"),
    Refusal(18, "IMAGE_MARK", "the image's mark is wrong"),
    Refusal(19, "IMAGE_VERSION", "the image's version is not 1"),
    Refusal(23, "NO_SUCH_RESPONSE", "no valid state makes the module respond so to the command"),
    Refusal(24, "PACKET_ENDS", "the packet's first or last byte is wrong, or the block is empty"),
    Refusal(
        25,
        "PACKET_LENGTH",
        "the packet's length bytes do not give the block's length, or a Freestar packet's total is under 5",
    ),
    Refusal(26, "PACKET_SUM", "the packet's sum is wrong"),
    Refusal(27, "PACKET_CONTENT", "the packet's type is not served, or what it holds is not accepted"),
    Refusal(28, "PAN_ID_OVER", "a PAN ID is over 14 bits: it is 16,384 or more"),
)
NUMBERS = {refusal.name: refusal.number for refusal in REFUSALS}

# The numbers of a frame, of a payload and of a block, in the order in which they are given. Of `3 to 6` it is
# the one whose byte is met first. 8 is there twice: for a payload without an item and for a long 81 or 82,
# then for any other wrong length.
FRAME = "3 to 6"
PAYLOAD = "7, 8, 9, 10, 8, 11, 12"
BLOCK = f"{FRAME}, {PAYLOAD}"

# The numbers of a packet that is read, and of a Coyote packet that is written. A Freestar packet adds 28,
# before 13.
PACKET_READ = "24, 25, 26, 27"
PACKET_WRITTEN = "27, 13"

# The C libraries. The name of an entry begins with its library's; the replay program is no library's.
LIBRARIES = "cdi", "coyote", "freestar"

# The numbers of each entry. The reader of responses first gives those of the payload that was sent, 3 if it is
# empty, and then those of the response's frame, in which the first wake byte is 4. The replay program has 22
# bytes for each response and starts from a valid state.
ORDERS = {
    "cdi_execute": f"1, 2, {BLOCK}",
    "cdi_power_up": "2",
    "cdi_save": "17, 2",
    "cdi_load": "17, 18, 19, 2",
    "cdi_encode_command": f"13, 14, 3, {PAYLOAD}",
    "cdi_decode_response": f"3, {PAYLOAD}, {FRAME}, 23",
    "cdi_readout": "15, 16",
    "replay": BLOCK,
    "coyote_decode": PACKET_READ,
    "coyote_encode_addressed": PACKET_WRITTEN,
    "coyote_encode_read_memory": PACKET_WRITTEN,
    "coyote_encode_success": PACKET_WRITTEN,
    "coyote_encode_failure": PACKET_WRITTEN,
    "coyote_export_charge": PACKET_WRITTEN,
    "coyote_import_charge": PACKET_READ,
    "freestar_decode": f"{PACKET_READ}, 28",
    "freestar_encode": "27, 28, 13",
    "freestar_execute": f"{PACKET_READ}, 28, 13",
}


def places(order):
    """The numbers of an order by their place in it."""
    ends = (place.split(" to ") for place in order.split(", "))
    return [range(int(end[0]), int(end[-1]) + 1) for end in ends]


def sequence(entry):
    """The numbers of an entry, one after the other."""
    return [*itertools.chain(*places(ORDERS[entry]))]


# The numbers that an entry can give.
OWN = {entry: {*sequence(entry)} for entry in ORDERS}


def entries_of(library):
    """The entries of a library that refuse."""
    return [entry for entry in ORDERS if entry.startswith(f"{library}_")]


def numbers_of(library):
    """The refusals that a library's entries can give: the numbers by their names."""
    own = {number for entry in entries_of(library) for number in OWN[entry]}
    return {name: number for name, number in NUMBERS.items() if number in own}

#!/usr/bin/env python3
"""Provokes every number of document 01, "Numbers that a refusal carries", and of document 02's Ask 1
through every entry that gives it: the functions of the CDI library that refuse, and the replay program.

refusals.py has each entry's numbers in their order. The cases are written from the paper, as bytes: what
is refused, at the border where there is one, and what lies just inside and is accepted. If two refusals
apply at once, the entry gives the first in its order, and the second once the first fault is mended. A
refusal has the length or result 0 and leaves every byte of the state and of the buffers. Each call is
compared with reference.py too. The first difference ends the run with exit status 1.
"""

import collections
import itertools
import sys
from functools import partial

sys.dont_write_bytecode = True  # leaves no files beside the tests

import reference
import replays
from cases import LIMITS, PAYLOAD_ORDER, at_limit, payload_cases, refused_payloads
from entries import FILLER, Comparison, load_entries
from library import Problem, run_test, same_sets
from logs import dump, fill_cells, log_of, text_of
from payloads import frame
from reference import FACTORY_STATE
from refusals import ORDERS, OWN, entries_of, numbers_of, places
from states import FILLED, FILLED_IMAGE, NO_MODE, changed, packed, with_bytes

# Neighbours in an order that can't both apply, with the entries, and why. The reader of responses gives 3 also
# for an empty payload that was sent, and then 6 can apply to the response.
APART = (
    (3, 6, ("cdi_execute", "replay"), "a block has too few bytes for its length byte, or too many"),
    (3, 7, ("cdi_encode_command", "cdi_decode_response"), "an empty payload has no command"),
    (
        9,
        10,
        ("cdi_execute", "cdi_encode_command", "cdi_decode_response", "replay"),
        "what an item permits is in the item list, which lacks an item that isn't served",
    ),
)

# ---- Calls of the entries --------------------------------------------------------------------

# What came of a call: its number, its length or result, and all that it could change, as bytes or
# printed lines, before it and afterwards.
Outcome = collections.namedtuple("Outcome", "number result before after")


def filler(size):
    """What a buffer holds before a call."""
    return ((size // len(FILLER) + 1) * FILLER)[:size]


class Execute(collections.namedtuple("Execute", "block room state", defaults=(22, FILLED))):
    """A block, as text, on a state, with a response buffer of so many bytes."""

    entry = "cdi_execute"

    def outcome(self, numbers):
        given = filler(self.room)
        done = numbers.execute(self.state, bytes.fromhex(self.block), given)
        before, after = (packed(self.state), given), (packed(done.after), done.response)
        return Outcome(done.refusal, done.length, before, after)


class PowerUp(collections.namedtuple("PowerUp", "state")):
    entry = "cdi_power_up"

    def outcome(self, numbers):
        after, number = numbers.power_up(self.state)
        return Outcome(number, 0, packed(self.state), packed(after))


class Save(collections.namedtuple("Save", "room state", defaults=(249, FILLED))):
    """A save into an image buffer of so many bytes."""

    entry = "cdi_save"

    def outcome(self, numbers):
        given = filler(self.room)
        number, length, image = numbers.save(self.state, given)
        return Outcome(number, length, given, image)


class Load(collections.namedtuple("Load", "image state", defaults=(FACTORY_STATE,))):
    """An image loaded on a state that shares hardly a byte with it."""

    entry = "cdi_load"

    def outcome(self, numbers):
        after, number = numbers.load(self.state, self.image)
        return Outcome(number, 0, packed(self.state), packed(after))


class Encode(collections.namedtuple("Encode", "payload wake room", defaults=(0, 27))):
    """A payload, as text, written with so many wake bytes into a buffer of so many bytes."""

    entry = "cdi_encode_command"

    def outcome(self, numbers):
        given = filler(self.room)
        number, length, buffer = numbers.encode(bytes.fromhex(self.payload), self.wake, given)
        return Outcome(number, length, given, buffer)


class Decode(collections.namedtuple("Decode", "sent response", defaults=("80 55 83 C1 15 06",))):
    """A response, as text, to a payload that was sent."""

    entry = "cdi_decode_response"

    def outcome(self, numbers):
        decoded = numbers.decode(bytes.fromhex(self.sent), bytes.fromhex(self.response))
        return Outcome(decoded.refusal, decoded.length, b"", b"")  # it is handed nothing that it may change


class Readout(collections.namedtuple("Readout", "readings offset", defaults=(0,))):
    entry = "cdi_readout"

    def outcome(self, numbers):
        number, result = numbers.readout(self.readings, self.offset)
        return Outcome(number, result, b"", b"")  # it is handed nothing that it may change


class Replay(collections.namedtuple("Replay", "block")):
    """A block as a line of a log, between lines that show all that the lines before have stored."""

    entry = "replay"

    def outcome(self, numbers):
        head, shown = fill_cells(), dump()
        log = log_of([*head, *shown, text_of(bytes.fromhex(self.block)), *shown])
        printed = numbers.replayed(log)[len(head) :]
        before, line, after = printed[: len(shown)], printed[len(shown)], printed[len(shown) + 1 :]
        words = line.split(" ")
        if words[0] == "refused":
            return Outcome(int(words[1]), 0, before, after)
        return Outcome(0, len(words), before, after)


# The entries that have to be called here: those of the CDI library that refuse, and the program.
CALLED = *entries_of("cdi"), Replay.entry


class Numbers(Comparison):
    """Calls whose number is written down; each is compared with the reference as it is made."""

    def __init__(self, library, program):
        super().__init__(library)
        self.replays = replays.Comparison(program)
        self.refusals = collections.Counter()  # by entry and number
        self.pairs = collections.Counter()  # by entry, the number given and the one after it
        self.inside = 0  # accepted calls

    def replayed(self, log):
        """The lines that the replay program prints for a log."""
        run = replays.run_on_file(self.replays.program, log)
        self.replays.compare("a block on filled cells", log, reference.replay(log), run)
        return run.output.decode("ascii").splitlines()

    def refuses(self, number, call):
        """The call is refused with the number, and nothing is changed."""
        came, given = call.outcome(self), inputs(call)
        self.same(f"the number of {call.entry}", number, came.number, **given)
        self.same(f"the length or result of {call.entry}, refused", 0, came.result, **given)
        self.same(f"what {call.entry} leaves, refused", came.before, came.after, **given)
        self.refusals[call.entry, number] += 1

    def accepts(self, call):
        self.same(f"the number of {call.entry}", 0, call.outcome(self).number, **inputs(call))
        self.inside += 1

    def orders(self, first, second, both, mended):
        """Two refusals apply to a call, and the second one alone without the first fault."""
        self.refuses(first, both)
        self.refuses(second, mended)
        self.pairs[both.entry, first, second] += 1


def inputs(call):
    """What a call is handed, by name, as a difference shows it."""
    given = call._asdict()
    return {**given, "state": packed(given["state"])} if "state" in given else given


# ---- What is refused, and what lies just inside ----------------------------------------------

READ_15 = "80 55 82 01 15"
READ_15_AWAKE = "80" + 16 * " FF" + " 55 82 01 15"

# Blocks: a number, what it refuses, and what is accepted beside it.
FRAMES = (
    (3, ("", "80", "80 55", "80 55 82", "80 55 82 01"), (READ_15,)),
    (3, ("80 FF", "80" + 16 * " FF", "80" + 16 * " FF" + " 55"), (READ_15_AWAKE,)),
    (3, ("80 55 FF" + 126 * " 00",), ()),  # the length byte says 127 bytes; with them it is 8
    (4, ("00", "81", "7F 55 82 01 15", "81 55 82 01 15", "FF 55 82 01 15"), (READ_15,)),
    (4, ("80" + 17 * " FF", "80" + 17 * " FF" + " 55 82 01 15"), (READ_15_AWAKE,)),
    (4, ("80 54", "80 54 82 01 15", "80 56 82 01 15", "80 FE 55 82 01 15"), (READ_15,)),
    (4, ("80 FF 54 82 01 15", "80" + 16 * " FF" + " 56 82 01 15"), ("80 FF 55 82 01 15",)),
    (5, ("80 55 00", "80 55 00 01", "80 55 01 81", "80 55 7F 81", "80 55 80"), ("80 55 81 81",)),
    (6, ("80 55 81 81 00", "80 55 81 82 82"), ("80 55 81 81", "80 55 81 82")),
    (6, ("80 55 82 01 15 00", "80 55 82 01 15 80 55 82 01 15"), (READ_15,)),
    (6, ("80 55 FF" + 128 * " 00",), ()),
)

# Responses to Read of item 15: a number, what it refuses, and what is accepted beside it.
RESPONSES = (
    (3, ("", "80", "80 55", "80 55 83", "80 55 83 C1 15"), ("80 55 83 C1 15 06",)),
    (3, ("80 55 FF" + 126 * " 00",), ()),
    (4, ("00", "81", "81 55 83 C1 15 06", "80 54", "80 56 83 C1 15 06"), ("80 55 83 C1 15 06",)),
    # no wake byte is allowed
    (4, ("80 FF", "80 FF 55 83 C1 15 06", "80" + 16 * " FF" + " 55 83 C1 15 06"), ()),
    (5, ("80 55 00", "80 55 7F C1", "80 55 80", "80 55 03 C1 15 06"), ("80 55 83 C1 15 00",)),
    (6, ("80 55 83 C1 15 06 00", "80 55 83 C1 15 06 80 55 83 C1 15 06"), ("80 55 83 C1 15 06",)),
    (23, ("80 55 83 C1 15 07", "80 55 82 C1 15", "80 55 84 C1 15 06 00"), ("80 55 83 C1 15 06",)),
    (23, ("80 55 83 C2 15 06", "80 55 83 C1 14 06", "80 55 84 C0 00 01 15"), ()),
)

LONGEST = "04 18 27 01 02 03 04 05"  # with 16 wake bytes it fills 27 bytes
READ_NAME = "80 55 82 01 01"
# The response to its Read fills 22 bytes.
FULL_NAME = changed(FILLED, {"stored.name": 16 * "41" + "00"})
UNMARKED = tuple(with_bytes(FILLED_IMAGE, {at: "77"}) for at in range(3))  # a small w in SWB
OTHER_VERSIONS = tuple(
    with_bytes(FILLED_IMAGE, {3: text}) for text in ("00 00", "00 02", "01 00", "01 01", "FF FF")
)
NAMELESS = with_bytes(FILLED_IMAGE, {5: 17 * "41"})

# What has no table above: calls that are refused, and accepted ones beside them.
CASES = (
    (
        1,
        (Execute(READ_15, 0), Execute(READ_15, 21), Execute(READ_NAME, 21, FULL_NAME)),
        (Execute(READ_15, 22), Execute(READ_15, 23), Execute(READ_NAME, 22, FULL_NAME)),
    ),
    (3, (Encode(""),), (Encode("81"),)),
    (3, (Decode(""), Decode("", "")), (Decode("01 15"),)),
    (
        13,
        (Encode("81", 0, 0), Encode("81", 0, 26), Encode(LONGEST, 16, 26)),
        (Encode("81", 0, 27), Encode(LONGEST, 16, 27), Encode(LONGEST, 16, 28)),
    ),
    (
        14,
        (Encode("81", 17), Encode("81", 2**8), Encode("81", 2**32), Encode("81", 2**64 - 1)),
        (Encode("81", 0), Encode("81", 16)),
    ),
    (
        15,
        (Readout(()), Readout(17 * (0,)), Readout(2**8 * (0,)), Readout(2**16 * (0,))),
        (Readout((0,)), Readout(16 * (0,))),
    ),
    (
        16,
        (Readout((4096,)), Readout((65535,)), Readout((4096, 0)), Readout((0, 4096), -32768)),
        (Readout((4095,)), Readout((0,)), Readout((4095, 0)), Readout((0, 4095), -32768)),
    ),
    (16, (Readout((*(15 * (4095,)), 4096)),), (Readout(16 * (4095,)),)),
    (17, (Save(0), Save(248), Save(250), Save(2**8 + 249), Save(2**16 + 249)), (Save(249),)),
    (
        17,
        (Load(b""), Load(FILLED_IMAGE[:248]), Load(FILLED_IMAGE + b"\x00")),
        (Load(FILLED_IMAGE),),
    ),
    (17, (Load(FILLED_IMAGE + bytes(2**8)), Load(FILLED_IMAGE + bytes(2**16))), ()),
    (18, tuple(map(Load, UNMARKED)), (Load(FILLED_IMAGE),)),
    (19, tuple(map(Load, OTHER_VERSIONS)), (Load(FILLED_IMAGE),)),
    # a load judges the image and not the state that it finds
    (2, (Load(NAMELESS, NO_MODE),), (Load(FILLED_IMAGE, NO_MODE),)),
)


def through(made, given):
    """Cases with something else made of all that is refused and accepted in them."""
    for number, refused, accepted in given:
        yield number, [*map(made, refused)], [*map(made, accepted)]


def framed(payload):
    """A payload as a block, both as text."""
    return frame(0, bytes.fromhex(payload)).hex(" ").upper()


def responded(payload):
    """A payload that was sent, with the response of a module whose cells are filled; with an echo if it refuses."""
    sent = bytes.fromhex(payload)
    accepted = reference.validate_payload(sent) == 0
    answer = reference.perform(FILLED, sent)[1] if accepted else b"\xc0\x00" + sent[:125]
    return Decode(payload, frame(0, answer).hex(" ").upper())


def block_cases():
    """The same of blocks."""
    yield from FRAMES
    yield from through(framed, payload_cases())


def state_cases():
    """The same of states."""
    for limit in LIMITS:
        for field in limit.fields:
            yield 2, *at_limit(limit, lambda value: changed(FILLED, {field: value}))


def image_cases():
    """The same of images."""
    for limit in LIMITS:
        if limit.image is not None:
            yield 2, *at_limit(limit, lambda value: with_bytes(FILLED_IMAGE, {limit.image: value}))


def cases():
    """All cases: a number, the calls that it refuses, and accepted ones beside them."""
    yield from CASES
    for call in (Execute, Replay):
        yield from through(call, block_cases())
    yield from through(Encode, payload_cases())
    yield from through(responded, payload_cases())
    yield from through(partial(Decode, "01 15"), RESPONSES)
    for call in (partial(Execute, READ_15, 22), PowerUp, partial(Save, 249)):
        yield from through(call, state_cases())
    yield from through(Load, image_cases())


# ---- Which of two refusals is given ----------------------------------------------------------

# The number that is given, the one after it, a block to which both apply, and the block without
# the first fault.
FRAME_ORDER = (
    # nothing follows the end of a block, so 3 is met last
    (4, 3, "81", "80"),
    (4, 3, "80 54", "80 55"),
    (5, 3, "80 55 80", "80 55 81"),
    (4, 5, "81 55 80", "80 55 80"),
    (4, 5, "80 54 80", "80 55 80"),
    (4, 6, "80 54 81 81 00", "80 55 81 81 00"),
    (5, 6, "80 55 80 81 00", "80 55 81 81 00"),
    # the frame before its payload
    (3, 7, "80 55 83 05", "80 55 83 05 15 00"),
    (4, 7, "80 54 82 05 15", "80 55 82 05 15"),
    (5, 7, "80 55 02 05 15", "80 55 82 05 15"),
    (6, 7, "80 55 81 05 15", "80 55 81 05"),
)

# The same of responses to Read of item 15; the payload in a frame is looked at last.
RESPONSE_ORDER = (
    (4, 3, "81", "80"),
    (4, 3, "80 FF", "80 55"),
    (5, 3, "80 55 80", "80 55 81"),
    (4, 5, "80 FF 55 80", "80 55 80"),
    (4, 6, "80 FF 55 83 C1 15 06 00", "80 55 83 C1 15 06 00"),
    (5, 6, "80 55 80 C1 15 06 00", "80 55 83 C1 15 06 00"),
    (3, 23, "80 55 84 C2 15 06", "80 55 83 C2 15 06"),
    (4, 23, "80 FF 55 83 C1 15 07", "80 55 83 C1 15 07"),
    (5, 23, "80 55 03 C1 15 07", "80 55 83 C1 15 07"),
    (6, 23, "80 55 83 C1 15 07 00", "80 55 83 C1 15 07"),
)

# The same of calls.
CALL_ORDER = (
    (1, 2, Execute(READ_15, 21, NO_MODE), Execute(READ_15, 22, NO_MODE)),
    (17, 2, Save(248, NO_MODE), Save(249, NO_MODE)),
    (17, 2, Save(250, NO_MODE), Save(249, NO_MODE)),
    (17, 18, Load(UNMARKED[0][:248]), Load(UNMARKED[0])),
    (17, 18, Load(UNMARKED[2] + b"\x00"), Load(UNMARKED[2])),
    (17, 19, Load(OTHER_VERSIONS[1][:248]), Load(OTHER_VERSIONS[1])),
    (17, 2, Load(NAMELESS[:248]), Load(NAMELESS)),
    (18, 19, Load(with_bytes(OTHER_VERSIONS[1], {0: "77"})), Load(OTHER_VERSIONS[1])),
    (18, 2, Load(with_bytes(NAMELESS, {2: "77"})), Load(NAMELESS)),
    (19, 2, Load(with_bytes(NAMELESS, {3: "00 02"})), Load(NAMELESS)),
    (13, 14, Encode("81", 17, 26), Encode("81", 17, 27)),
    # too many, since without a reading none is too high
    (15, 16, Readout(17 * (4096,)), Readout(16 * (4096,))),
)


def refused_blocks():
    """The same of blocks."""
    for number, refused, _ in block_cases():
        yield from ((number, block) for block in refused)


def before_payloads():
    """13 and 14 come before each refusal of a payload."""
    high = 17, 2**64 - 1
    for number, payload in refused_payloads():
        for wake, room in itertools.product((0, 16, *high), (0, 26)):
            yield 13, number, Encode(payload, wake, room), Encode(payload, 16, 40)
        for wake, room in itertools.product(high, (27, 40)):
            yield 14, number, Encode(payload, wake, room), Encode(payload, 0, room)


def before_responses():
    """Each refusal of the payload that was sent comes before those of the response."""
    for number, sent in refused_payloads():
        for later, refused, _ in RESPONSES:
            yield from ((number, later, Decode(sent, block), Decode("01 15", block)) for block in refused)


def before_blocks():
    """1 and 2 come before each refusal of a block."""
    for number, block in refused_blocks():
        yield 1, number, Execute(block, 21), Execute(block, 22)
        yield 2, number, Execute(block, 22, NO_MODE), Execute(block, 22)


def orders():
    """All pairs: the number given, the one after it, a call to which both apply, and the call
    without the first fault."""
    yield from CALL_ORDER
    yield from before_blocks()
    yield from before_payloads()
    yield from before_responses()
    for first, second, both, mended in RESPONSE_ORDER:
        yield first, second, Decode("01 15", both), Decode("01 15", mended)
    for first, second, both, mended in FRAME_ORDER:
        for call in (Execute, Replay):
            yield first, second, call(both), call(mended)
    for first, second, both, mended in PAYLOAD_ORDER:
        yield first, second, Encode(both), Encode(mended)
        yield first, second, responded(both), responded(mended)
        for call in (Execute, Replay):
            yield first, second, call(framed(both)), call(framed(mended))


# ---- Each number, in its order, and no other --------------------------------------------------


def check_numbers(numbers):
    """Each entry gives each of its numbers, and together they give all of the CDI library's."""
    for number, refused, accepted in cases():
        for call in refused:
            numbers.refuses(number, call)
        for call in accepted:
            numbers.accepts(call)
    own = {(entry, number) for entry in CALLED for number in OWN[entry]}
    same_sets("refusals by entry", own, "refusals.py", set(numbers.refusals), "this test")
    given = {number for _, number in own}
    same_sets("numbers", {*numbers_of("cdi").values()}, "REFUSALS", given, "ORDERS")
    refused = sum(numbers.refusals.values())
    return (
        f"{refused} refusals of {len(given)} numbers through {len(CALLED)} entries, "
        f"{numbers.inside} accepted beside them"
    )


def in_order(order, first, second):
    """Whether an order has the first number before the second, or both in one place."""
    rows = places(order)
    return any(first in row and second in late for at, row in enumerate(rows) for late in rows[at:])


def neighbours(order):
    """The pairs of numbers in one place of an order, either way round, or in two places that follow
    each other."""
    for place in places(order):
        yield from ({pair, pair[::-1]} for pair in itertools.combinations(place, 2))
    for first, second in zip(places(order), places(order)[1:]):
        yield from ({pair} for pair in itertools.product(first, second))


def count_neighbours(pairs_seen):
    """How many neighbours of an order were provoked at once. Each two were, or there is a reason why
    they can't be."""
    apart = {(entry, *pair): why for *pair, entries, why in APART for entry in entries}
    found = 0
    for entry in CALLED:
        for pairs in neighbours(ORDERS[entry]):
            seen = {pair for pair in pairs if (entry, *pair) in pairs_seen}
            reasons = {apart.pop((entry, *pair), None) for pair in pairs} - {None}
            if not seen and not reasons:
                raise Problem(f"{entry}: no call to which both of {min(pairs)} apply")
            if seen and reasons:
                raise Problem(f"{entry}: a call to which both of {min(seen)} apply, and {reasons}")
            found += len(seen)
    if apart:
        raise Problem(f"these are no neighbours: {sorted(apart)}")
    return found


def check_orders(numbers):
    """If two refusals apply at once, an entry gives the one that its order has first."""
    for row in orders():
        numbers.orders(*row)
    for entry, first, second in numbers.pairs:
        if not in_order(ORDERS[entry], first, second):
            raise Problem(f"{entry} gives {first} before {second}; its order is {ORDERS[entry]}")
    found = count_neighbours(numbers.pairs)
    return f"{len(numbers.pairs)} pairs in order ({found} neighbours)"


def check_strangers(numbers):
    """Bytes that are meant for one entry, handed to another: it gives only numbers of its own."""
    handed = set()
    for _, refused, accepted in cases():
        for call in (*refused, *accepted):
            if isinstance(call, (Execute, Encode, Load)):
                handed.add(call[0] if isinstance(call, Load) else bytes.fromhex(call[0]))
            elif isinstance(call, Decode):
                handed.add(bytes.fromhex(call.response))
    for given in sorted(handed):
        text, readings = given.hex(" "), tuple(17 * byte for byte in given)
        for call in (Execute(text), Encode(text), Decode(text), Decode("01 15", text), Load(given), Readout(readings)):
            number = call.outcome(numbers).number
            if number not in {0, *OWN[call.entry]}:
                raise Problem(f"{call.entry} gives {number}, which isn't its own: {inputs(call)}")
    return f"{len(handed)} inputs meant for other entries"


# ---- The run ---------------------------------------------------------------------------------

CHECKS = (check_numbers, check_orders, check_strangers)


def main(checks, whole):
    numbers = Numbers(load_entries(), replays.runnable(replays.REPLAY))
    print(", ".join([check(numbers) for check in checks]))


if __name__ == "__main__":
    run_test(CHECKS, main)

#!/usr/bin/env python3
"""Holds the C peers of the benchmark against what they are measured beside.

The module's peer is held against the replay program, line by line.

A benchmark compares like with like only where both print the same bytes. Both builds of the peer that
bench/run times are made with every warning an error, and run on the benchmark's own traffic, on every
command and item, on damaged frames and lines, at the borders of a read and on bytes by chance. A log
starts from the factory state and so never meets a name, live cells, an invalid state or a short
response buffer; with these the peer's module is called by itself and compared with reference.py. So is
the peer's reader of responses.

The peers of the Coyote packets and of the Freestar messages are called and compared with
coyote_reference.py and freestar_reference.py, and the programs whose calls bench/run counts have to
print the same with the library and with the peer. The first difference ends the run with exit status 1.
"""

import collections
import functools
import itertools
import pathlib
import random
import subprocess
import sys
import tempfile
import types

sys.path.append(str(pathlib.Path(__file__).resolve().parent.parent / "bench"))
sys.dont_write_bytecode = True  # leaves no files beside the tests

import coyote_entries
import entries
import freestar_entries
import measure
import reference
import responses
import traffic
from cases import refused_payloads
from coyote_entries import Addressed, Export, Failure, ReadMemory, Success, counted, mended, packet
from entries import FILLER, random_buffer
from freestar_entries import Message
from freestar_reference import HOST, SERVED, Settings
from library import (
    OUTCOME,
    POINTER,
    ROOT,
    SIZE,
    WRAPS,
    Calls,
    Memory,
    Problem,
    check_seen,
    load,
    run_test,
    same_sets,
    sdk,
)
from logs import (
    BORDER,
    HOSTILE_LINES,
    border_log,
    broken_text,
    dump,
    fill_cells,
    hex_text,
    log_of,
    padding,
    text_of,
)
from payloads import (
    COMMANDS,
    edge_payloads,
    frame,
    likely_payload,
    permitted_commands,
    random_block,
    swept_commands,
    swept_values,
)
from reference import FACTORY_STATE, PROGRAM, READ, READ_NV, WRITE
from refusals import OWN
from replays import REPLAY, Comparison, difference, run_on_file, runnable
from states import (
    FILLED,
    STATE,
    STATE_SIZE,
    any_state,
    changed,
    flags_edges,
    name_edges,
    packed,
    random_state,
    settings_edges,
    slot_edges,
)

SEED = 20240005

# What the libraries that have a peer are called.
NAMES = {measure.CDI: "CDI", measure.COYOTE: "Coyote", measure.FREESTAR: "Freestar"}

# ---- Building --------------------------------------------------------------------------------

# The builds that bench/run times. The second never asks whether the state is valid, which no log can
# tell: what is called by itself there has a valid state, or a response buffer that is too short.
BUILDS = {"peer": (), "peer_unasked": ("-DPEER_ASKS=0",)}
SIGNATURES = {
    "peer_factory": (STATE, ()),
    "peer_execute": (OUTCOME, (POINTER, POINTER, SIZE, POINTER, SIZE)),
}


def compiled(path, *words):
    """Compiles a benchmark's sources; gcc says itself what is wrong."""
    flags = ("-O2", "-Wall", "-Wextra", "-Wconversion", "-Werror")
    if subprocess.run(["gcc", *flags, "-o", path, *words], cwd=ROOT).returncode != 0:
        raise Problem(f"{path.name} can't be compiled")
    return path


def programs(folder):
    sources = ("bench/peer.c", "bench/peer_replay.c")
    return [compiled(folder / name, *flags, *sources) for name, flags in BUILDS.items()]


def modules(folder):
    """The module of each build as a shared library, with its name."""
    for name, flags in BUILDS.items():
        path = compiled(folder / f"{name}.so", "-shared", "-fPIC", *flags, "bench/peer.c")
        yield name, load(path, SIGNATURES)


def peer_of(folder, libraries, signatures):
    """The peer of a library, with its functions under the library's names."""
    path = compiled(folder / f"{libraries.library}_peer.so", "-shared", "-fPIC", f"bench/{libraries.peer}.c")
    names = {name: name.replace(f"{libraries.library}_", f"{libraries.peer}_", 1) for name in signatures}
    peer = load(path, {names[name]: signature for name, signature in signatures.items()})
    return types.SimpleNamespace(**{name: getattr(peer, own) for name, own in names.items()})


# ---- Comparing logs --------------------------------------------------------------------------


class Logs(Comparison):
    """Runs the replay program and each build of the peer on logs, and counts what was printed."""

    def log(self, name, log):
        expected = run_on_file(REPLAY, log)
        self.accept("replay", name, expected)
        if expected.output.count(b"\n") != len(reference.split_lines(log)):
            raise Problem(f"in {name} the replay program doesn't print a line for each line")
        for program in self.program:
            run = run_on_file(program, log)
            self.accept(program.name, name, run)
            if run.output != expected.output:
                where = f"{name}, replay (expected) and {program.name} (came)"
                raise Problem(difference(where, log, expected.output, run.output))
        self.count(log, expected.output)

    def accept(self, program, name, run):
        """Raises a Problem if a program failed or complained."""
        if run.status != 0 or run.errors:
            raise Problem(f"{program} failed with {run.status} in {name}: {run.errors!r}")


# ---- Commands, items and values --------------------------------------------------------------


def line_of(payload, wake=0):
    return text_of(frame(wake, payload))


def shown(payload, wake=0):
    """The line of a payload and, after one that could store, those that show what it stored: the
    cell's two copies and the status; or every cell for 81 and 82, which find all cells filled."""
    line = line_of(payload, wake)
    if payload[:1] in (b"\x81", b"\x82") and len(payload) <= 2:
        return [*fill_cells(), line, *dump()]
    if len(payload) < 2 or payload[0] not in (WRITE, PROGRAM):
        return [line]
    cell = payload[1:3] if payload[1] in (0x16, 0x18) else payload[1:2]
    reads = (bytes([READ]) + cell, bytes([READ_NV]) + cell, bytes([READ, 0x23]))
    return [line, *map(line_of, reads)]


def check_traffic(logs, rng):
    """What the benchmark measures: typical lines, and one line that doesn't end."""
    with tempfile.TemporaryDirectory() as folder:
        log = pathlib.Path(folder) / "log"
        for write in (traffic.write_typical, traffic.write_single_line):
            write(log, 1)
            logs.log(write.__name__, log.read_bytes())


def check_payloads(logs, rng):
    """Commands, items, indexes, values and lengths at both sides of their limits and with every byte
    in their place, and payloads that break several rules at once."""
    refused = [bytes.fromhex(text) for _, text in refused_payloads()]
    for payloads in (refused, edge_payloads(), swept_commands(), swept_values()):
        lines = [line for payload in payloads for line in shown(payload)]
        logs.log("payloads", log_of(fill_cells() + lines + dump()))


def check_items(logs, rng):
    """Every item number with every command, in each length up to two bytes over a whole Program. What
    follows the item is accepted as most values, and as an index with a row."""
    for command in COMMANDS:
        lines = fill_cells()
        for item, size in itertools.product(range(256), range(9)):
            row = (rng.choice((1, 2)), rng.choice((4, 7, 0xFE)), 16, rng.choice((0, 1)))
            tail = bytes(row) + rng.randbytes(4)
            lines += shown(bytes([command, item]) + tail[:size])
        logs.log(f"items with command {command:02X}", log_of(lines + dump()))


def check_sequences(logs, rng):
    """Commands that are mostly accepted and meet what earlier ones stored, after 0, 1, 16 or 17 wake
    bytes; the last are one too many, and then nothing may be stored."""
    for number in range(4):
        lines = []
        for _ in range(2500):
            lines += shown(likely_payload(rng), rng.choice((0, 0, 0, 1, 16, 17)))
        logs.log(f"sequence {number + 1}", log_of(lines + dump()))


# ---- Frames ----------------------------------------------------------------------------------


def check_frames(logs, rng):
    """Frames that are cut at each place, lengthened, or changed at one place, with every wake count;
    a store among them shows whether a damaged one was carried out."""
    blocks = []
    for wake, payload in itertools.product(range(20), (b"\x82", b"\x01\x15", b"\x04\x15\x03")):
        whole = frame(wake, payload)
        blocks += [whole, whole + b"\x00", whole + b"\xff", whole + whole, frame(0, b"\x01\x15")]
        for at in range(len(whole)):
            blocks += [whole[:at], whole[:at] + whole[at + 1 :], whole[:at] + b"\xff" + whole[at:]]
            blocks += [whole[:at] + bytes([byte]) + whole[at + 1 :] for byte in (0x00, 0x54, 0x56, 0x7F, 0x81)]
    for at, byte in itertools.product(range(3), range(256)):
        start = bytearray(b"\x80\x55\x82")
        start[at] = byte
        blocks += [start[: at + 1], start + b"\x01\x15"]
    logs.log("frames", log_of(fill_cells() + list(map(text_of, blocks)) + dump()))


def check_length_bytes(logs, rng):
    """Every length byte before a payload that is missing, too short, right, and too long, up to blocks
    of 200 bytes."""
    blocks = []
    for byte, payload in itertools.product(range(256), (b"", b"\x01\x15", b"\x02\x15\x04", b"\x81")):
        start = b"\x80\x55" + bytes([byte])
        sizes = {0, 1, len(payload), byte % 128 - 1, byte % 128, byte % 128 + 1, 196, 197} - {-1}
        blocks += [start + payload.ljust(size, b"\x01")[:size] for size in sorted(sizes)]
    logs.log("length bytes", log_of(fill_cells() + list(map(text_of, blocks)) + dump()))


# ---- Lines -----------------------------------------------------------------------------------


def check_forms(logs, rng):
    """Lines of other forms, each between two commands, and each as the last without a line feed; and a
    good line with each character replaced by each byte, which makes two lines of it now and then."""
    good = line_of(b"\x02\x11\x9a")
    forms = [b"", good, good + b"\r", good.lower(), good + b" ", b" " + good, good + b"\r\n\r", *HOSTILE_LINES]
    forms += [count * b" " for count in (1, 2, 3, 5, 599, 600, 601, 602)]
    for number, form in enumerate(forms):
        before, after = line_of(bytes([WRITE, 0x11, number])), line_of(b"\x01\x11")
        logs.log("a form", log_of([before, form, after]))
        logs.log("a form without a last line feed", log_of([before]) + form)
        logs.log("a form alone", form)
    for at in range(len(good)):
        lines = [good[:at] + bytes([byte]) + good[at + 1 :] for byte in range(256)]
        logs.log("changed lines", log_of([*lines, line_of(b"\x01\x11")]))


def check_long_lines(logs, rng):
    """Lines of about 600 characters: of pairs, with one character wrong at each place, in lower case,
    with a carriage return or a space at the end."""
    for size in (596, 598, 599, 600, 601, 602, 603, 605, 899):
        text = hex_text(rng, size)
        lines = [text, text.lower(), text[:-1] + b"\r", text[:-1] + b" ", b" " + text[1:], size * b"0"]
        for at in range(size):
            lines.append(text[:at] + rng.choice((b"g", b" ", b"\x00", b"a", b"\xff", b"0")) + text[at + 1 :])
        logs.log(f"lines of {size} characters", log_of(lines))
        logs.log(f"a last line of {size} characters", log_of(lines) + text)


def check_borders(logs, rng):
    """Lines of about 600 characters and commands with the border of a read at many of their places, and
    inputs that end there."""
    for size in (17, 599, 600, 601, 602, 605):
        for text in (hex_text, broken_text):
            starts = {-size - 1, -size, -601, -600, -599, -598, -3, -2, -1, 0, 1, -rng.randrange(size)}
            placed = [(text(rng, size), start) for start in sorted(starts)]
            logs.log(f"lines of {size} characters at borders", border_log(rng, placed))
    store = line_of(b"\x04\x18\x27\x01\x02\x03\x04\x05", 1)
    placed = [(store, start) for start in range(-len(store) - 2, 2)]
    logs.log("commands at borders", border_log(rng, placed))
    for start, ending in itertools.product((-2, -1, 0, 1), (b"", b"\n", b"8", store)):
        logs.log("an end at a border", padding(rng, BORDER + start) + ending)


def check_chance(logs, rng):
    """Bytes by chance, of all values and of those that lines are made of."""
    logs.log("bytes by chance", rng.randbytes(200_000))
    logs.log("characters by chance", bytes(rng.choices(b"0123456789ABCDEFaf \n\r", k=100_000)))
    blocks = [rng.randbytes(rng.randrange(12)) for _ in range(20_000)]
    logs.log("blocks by chance", log_of(map(text_of, blocks)))
    starts = [b"\x80\x55" + bytes([0x80 + len(block)]) + block for block in blocks]
    logs.log("payloads by chance", log_of(map(text_of, starts)))


LOG_CHECKS = (
    check_traffic,
    check_payloads,
    check_items,
    check_sequences,
    check_frames,
    check_length_bytes,
    check_forms,
    check_long_lines,
    check_borders,
    check_chance,
)
LEAST_LINES = 400_000  # of all logs
LEAST_SEEN = 100  # of each refusal, and of each command with an item that permits it


def check_logs_coverage(logs):
    """Enough was compared, with each outcome that a log can have; else the logs are too thin."""
    if logs.lines < LEAST_LINES:
        raise Problem(f"only {logs.lines} lines were compared")
    if logs.not_hex < LEAST_SEEN:
        raise Problem(f"only {logs.not_hex} lines were not hex")
    for name, wanted, seen in (
        ("refusals", OWN["replay"], logs.refused),
        ("accepted commands and items", permitted_commands(), logs.accepted),
    ):
        rare = {key for key in wanted if seen[key] < LEAST_SEEN}
        if rare or set(seen) != wanted:
            raise Problem(f"{name} that are seen too rarely, or that aren't known: {rare | set(seen) ^ wanted}")


# ---- The module by itself --------------------------------------------------------------------


class Module(Calls):
    """Calls of the peer's module, each compared with the reference in every byte lent."""

    def __init__(self, library, asks):
        super().__init__(library)
        self.asks = asks
        self.state = Memory(STATE_SIZE, odd=True)
        self.seen = collections.Counter()  # calls, by refusal

    def execute(self, state, block, response):
        after, refusal, length, buffer = reference.execute(state, block, response)
        if refusal == reference.INVALID and not self.asks:
            return  # what a peer that doesn't ask does here is left open
        self.seen[refusal] += 1
        outcome = self.library.peer_execute(
            self.state.give(packed(state)),
            self.input.give(block),
            len(block),
            self.output.give(response),
            len(response),
        )
        came = outcome.refusal, outcome.length, self.output.content(), self.state.content()
        inputs = {"state": packed(state), "block": block, "response": response}
        self.called("peer_execute", (refusal, length, buffer, packed(after)), came, **inputs)


def check_factory(module, rng):
    module.called("peer_factory", packed(FACTORY_STATE), bytes(module.library.peer_factory()))


def check_states(module, rng):
    """States at both sides of each limit of validity, with reads of the status and of the name."""
    edges = itertools.chain(settings_edges(), flags_edges(), name_edges(), slot_edges())
    blocks = [frame(0, bytes([command, item])) for command, item in ((READ, 0x23), (READ, 0x01), (READ_NV, 0x01))]
    for (changes, valid), before in itertools.product(edges, (FILLED, FACTORY_STATE)):
        state = changed(before, changes)
        if before is FILLED:
            module.same("an edge of validity", valid, reference.is_valid(state), state=packed(state))
        for block in blocks:
            module.execute(state, block, FILLER[:22])


def check_status(module, rng):
    """The status of states whose live cells, masks and control words are all random."""
    for _ in range(2000):
        module.execute(random_state(rng), frame(0, b"\x01\x23"), rng.randbytes(22))


def check_blocks(module, rng):
    """Blocks of all kinds on states that are valid or not, with response buffers of 0 to 40 bytes."""
    for _ in range(300):
        state = any_state(rng)
        for _ in range(10):
            module.execute(state, random_block(rng), random_buffer(rng))
    for size in range(41):
        module.execute(FILLED, frame(0, b"\x01\x23"), FILLER[:size])


MODULE_CHECKS = (check_factory, check_states, check_status, check_blocks)


def check_module_coverage(name, module):
    """Each refusal of a block came, and acceptance, but 2 where the peer doesn't ask."""
    wanted = {0, *OWN["cdi_execute"]} - (set() if module.asks else {reference.INVALID})
    if set(module.seen) != wanted or min(module.seen.values()) < 5:
        raise Problem(f"the calls of {name} by refusal are too few: {sorted(module.seen.items())}")


# ---- Responses -------------------------------------------------------------------------------

READER = "cdi_decode_response"


def check_response_cases(peer, rng):
    """Responses for which what is read is written down."""
    for case in responses.written_cases():
        peer.literal_decode(*case)


def check_responses(peer, rng):
    """True responses to every command, with each byte replaced by each other, cut, shifted, and in broken frames; payloads that are
    refused; the longest blocks, and blocks by chance."""
    damaged = responses.damaged_responses, responses.cut_responses, responses.shifted_responses, responses.framed_responses
    others = responses.long_responses, responses.random_responses
    for made in (*damaged, *others):
        for sent, response in made(rng):
            peer.decode(sent, response)
    for sent, response in responses.refused_sent():
        peer.decode(sent, response)


RESPONSE_CHECKS = (check_response_cases, check_responses)


def check_response_coverage(peer):
    check_seen("outcomes", {READER: {0, *OWN[READER]}}, peer.outcomes)


# ---- Coyote packets --------------------------------------------------------------------------

SOURCE, TARGETS = b"\x01\x02", b"\x01\x03"
CHARGE = Export(3, SOURCE, TARGETS, 2, 57016)

# Packets of each kind: the least and the most that each may hold, and 80 wherever it is a plain byte.
MESSAGES = (
    Addressed(0x00, SOURCE, TARGETS, b"Hello"),
    Addressed(0x0F, b"\x80\x80", b"\x01\x80", b"\x80"),
    Addressed(0x10, SOURCE, 16 * b"\x7f\x80", bytes(1023)),
    Addressed(0x1F, SOURCE, TARGETS + b"\x00\x00", b"\x02\xde\xb8"),
    Addressed(0x20, SOURCE, 15 * TARGETS, b"\xff"),
    Addressed(0x2F, SOURCE, TARGETS, b"\x04"),
    CHARGE,
    Export(15, SOURCE, 16 * TARGETS, 1, 0),
    Export(0, b"\xff\xff", b"\xff\xff", 1, 0xFFFF),
    ReadMemory(1, 0x0067, 2),
    ReadMemory(0, 0xFFFF, 1023),
    Success(0x81, b""),
    Success(0x80, b"\x01\x03"),
    Success(0xFF, bytes(range(256)) * 3 + bytes(255)),
    Failure(0x00, 0),
    Failure(0x80, 5),
)

# Lengths of data around the limits; the last ones don't fit into a packet.
DATA_SIZES = (0, 1, 2, 3, 4, 255, 256, 257, 1022, 1023, 1024, 1025, 65_526, 65_535, 65_536, 65_537, 66_559)
LONG_SIZES = 4


def written(peer, message):
    """The packet of a message that is accepted, written by the peer."""
    refusal, length, buffer = peer.reread(message, bytes(1066))
    peer.same("a packet's refusal", 0, refusal, message=message)
    return buffer[:length]


def addressed(targets, data):
    """A payload with targets and data, which may be such as no writer accepts."""
    return SOURCE + targets + b"\x80" + counted(data)


def check_coyote_buffers(peer, rng):
    """Packets of each kind in buffers of every length around theirs, and the readers on what was written."""
    for message in MESSAGES:
        block = written(peer, message)
        peer.judge(block)
        for size in {0, 1, 2, 5, 6, 2000, *range(max(0, len(block) - 20), len(block) + 20)}:
            peer.write(message, rng.randbytes(size))


def addressed_limits():
    """Types, targets and data at both sides of their limits, and lengths that are right modulo 65,536."""
    for kind, data in itertools.product(range(256), (b"\x07", b"\x07\x08")):
        yield Addressed(kind, SOURCE, TARGETS, data)
    for size in (*range(36), 64, 256, 258, 65_536, 65_538):
        yield Addressed(0x05, SOURCE, bytes(size), b"\x07")
        yield CHARGE._replace(targets=bytes(size))
    for at in range(32):
        targets = bytes(at) + b"\x80" + bytes(31 - at)
        yield Addressed(0x00, SOURCE, targets, b"\x07")
        yield CHARGE._replace(targets=targets)
    for kind, size in itertools.product((0x00, 0x1F, 0x20), DATA_SIZES):
        yield Addressed(kind, SOURCE, TARGETS, bytes(size))


def other_limits():
    """The same of what has no targets, and of a charge's numbers."""
    for byte in range(256):
        yield from (Failure(0x80, byte), Failure(byte, 5), Success(byte, b"\x80"), ReadMemory(byte, 0x0180, 2))
        yield from (CHARGE._replace(sequence=byte), CHARGE._replace(input=byte))
        yield from (CHARGE._replace(readout=257 * byte), CHARGE._replace(source=bytes([byte, 0x80])))
    for size in DATA_SIZES:
        yield Success(0x80, bytes(size))
        yield ReadMemory(1, size % 65_536, size % 65_536)


def check_coyote_limits(peer, rng):
    """What the writers are handed at both sides of each limit, with no buffer, a short one and enough."""
    for message in itertools.chain(addressed_limits(), other_limits()):
        for size in (0, 12, 1066):
            peer.reread(message, rng.randbytes(size))


def damaged(whole, at):
    """A packet that is cut at a place, has a byte more or less there, or another one."""
    yield from (whole[:at], whole[at:], whole[:at] + whole[at + 1 :], whole[:at] + b"\x80" + whole[at:])
    for byte in {0x00, 0x01, 0x02, 0x04, 0x55, 0x80, 0xAA, 0xFF, whole[at] ^ 0x01, (whole[at] + 1) % 256}:
        yield whole[:at] + bytes([byte]) + whole[at + 1 :]


def check_coyote_damage(peer, rng):
    """Packets that are damaged at each place, with the sum as it was and with a right one."""
    for message in MESSAGES:
        whole = written(peer, message)
        places = {*range(len(whole))[:50], *range(len(whole))[-50:]}
        for block in itertools.chain.from_iterable(damaged(whole, at) for at in sorted(places)):
            peer.judge(block)
            if len(block) >= 4:
                peer.judge(mended(block))
        for block in (whole + b"\x55", whole + whole, b"\xaa" + whole):
            peer.judge(block)


def limit_payloads(rng):
    """Types and payloads with targets, data and lengths at both sides of their limits."""
    for kind, count in itertools.product((0x00, 0x13, 0x20), range(20)):
        for data in (b"\x01", b"\x01\xde\xb8", b"\x80\x80\x80", b"\x80\x01\x00\x07"):
            yield kind, addressed(count * TARGETS, data)
            yield kind, (SOURCE + count * TARGETS + data)[: rng.randrange(40)]
    for number, size in itertools.product(range(256), range(6)):
        yield 0x10, addressed(TARGETS, bytes([number, 0xDE, 0xB8, 0x00, 0x01])[:size])
    for size in DATA_SIZES[:-LONG_SIZES]:
        yield from ((kind, addressed(TARGETS, bytes(size))) for kind in (0x00, 0x1F, 0x20))
        yield from ((kind, b"\x80" + counted(bytes(size))) for kind in (0x86, 0x87))
    for space, length in itertools.product(range(4), DATA_SIZES[:-LONG_SIZES]):
        yield 0x80, bytes([space, 0x67, 0x01]) + length.to_bytes(2, "little")


def check_coyote_payloads(peer, rng):
    """Whole packets with every type, with payloads at the limits, and longer than length bytes can say."""
    payloads = [b"", *(written(peer, message)[4:-2] for message in MESSAGES)]
    short = [payload for payload in payloads if len(payload) < 50]
    for kind, payload in itertools.chain(itertools.product(range(256), short), limit_payloads(rng)):
        peer.judge(packet(kind, payload))
    for size in (65_535, 65_536, 65_541, 65_544, 131_077):
        peer.judge(mended(b"\xaa\x86" + (size % 65_536).to_bytes(2, "little") + bytes(size) + b"\x00\x55"))


def check_coyote_chance(peer, rng):
    """Bytes by chance: whole blocks, payloads in a right frame, and what the writers are handed."""
    kinds = (0x00, 0x07, 0x10, 0x1F, 0x20, 0x2F, 0x30, 0x80, 0x86, 0x87)
    for _ in range(2000):
        peer.judge(rng.randbytes(rng.randrange(20)))
        peer.judge(b"\xaa" + rng.randbytes(rng.randrange(20)) + b"\x55")
        payload = bytes(rng.choices((0x00, 0x01, 0x02, 0x03, 0x05, 0x80), k=rng.randrange(24)))
        peer.judge(packet(rng.choice(kinds), payload))
        targets = rng.randbytes(2 * rng.randrange(18))
        data = rng.randbytes(rng.choice((1, 1, 3, 3, rng.randrange(1100))))
        peer.judge(packet(rng.choice(kinds), addressed(targets, data)))
        buffer = rng.randbytes(rng.choice((1066, 1200, rng.randrange(1100))))
        peer.reread(Addressed(rng.choice(kinds), rng.randbytes(2), targets, data), buffer)
        peer.reread(Success(rng.randrange(256), data), buffer)
        charge = Export(rng.randrange(17), rng.randbytes(2), targets, rng.randrange(4), rng.randrange(65_536))
        peer.reread(charge, buffer)


COYOTE_CHECKS = (
    check_coyote_buffers,
    check_coyote_limits,
    check_coyote_damage,
    check_coyote_payloads,
    check_coyote_chance,
)

COYOTE_READERS = {"coyote_decode", "coyote_import_charge"}


def check_coyote_coverage(peer):
    """Each entry gave each of its refusals, and was accepted, often enough."""
    for entry in coyote_entries.SIGNATURES:
        wanted = {0, 24, 25, 26, 27} if entry in COYOTE_READERS else {0, 27, 13}
        seen = {refusal: count for (own, refusal), count in peer.outcomes.items() if own == entry}
        if set(seen) != wanted or min(seen.values()) < 10:
            raise Problem(f"the calls of {entry} by refusal are too few: {sorted(seen.items())}")


# ---- Freestar messages -----------------------------------------------------------------------

ADDRESSES = bytes(range(1, 11))
FREESTAR_LONGEST = 15

# A message of each type, and PAN IDs at both sides of the limit.
FREESTAR_MESSAGES = (
    *(Message(kind, ADDRESSES[:size]) for kind, size in SERVED.items()),
    *(Message(kind, pan_id) for kind in (0x01, 0x82) for pan_id in (b"\xff\x3f", b"\x00\x40", b"\x00\x80")),
    Message(0x05, b"\xff"),
)

# The last three have a PAN ID that is refused.
FREESTAR_SETTINGS = (
    Settings(bytes(2), bytes(8), bytes(2), bytes(1)),
    Settings(b"\xff\x3f", 8 * b"\xff", 2 * b"\xff", b"\xff"),
    Settings(b"\x34\x12", bytes(range(0x11, 0x19)), b"\x19\x1a", b"\x1b"),
    Settings(b"\x00\x40", bytes(8), bytes(2), bytes(1)),
    Settings(b"\xff\x80", bytes(8), bytes(2), bytes(1)),
    Settings(b"\x34\xff", bytes(range(0x11, 0x19)), b"\x19\x1a", b"\x1b"),
)


def judge_freestar(peer, rng, block):
    """Reads a block, and executes it on each of the settings, with a buffer that is mostly long enough."""
    peer.circle(block)
    for settings in FREESTAR_SETTINGS:
        size = rng.choice((FREESTAR_LONGEST, FREESTAR_LONGEST, rng.randrange(20)))
        peer.step(settings, block, rng.randbytes(size))


def check_freestar_buffers(peer, rng):
    """Each message in buffers of every length around its own, and executed with such buffers for the answer."""
    for message, size in itertools.product(FREESTAR_MESSAGES, (*range(20), 300)):
        peer.reread(message, rng.randbytes(size))
        for settings in FREESTAR_SETTINGS:
            peer.step(settings, freestar_entries.packet(*message), rng.randbytes(size))


def check_freestar_types(peer, rng):
    """Every type with data of every length up to two bytes over the longest."""
    for kind, size in itertools.product(range(256), range(13)):
        peer.reread(Message(kind, ADDRESSES.ljust(size, b"\x0b")[:size]), rng.randbytes(FREESTAR_LONGEST))
        judge_freestar(peer, rng, freestar_entries.packet(kind, bytes(size)))


def check_freestar_pan_ids(peer, rng):
    """Every high byte of a PAN ID, in the messages that have one and in the settings."""
    for high, low in itertools.product(range(256), (0x00, 0x40, 0xFF)):
        pan_id = bytes([low, high])
        for kind in (0x01, 0x82):
            peer.reread(Message(kind, pan_id), rng.randbytes(rng.randrange(20)))
            judge_freestar(peer, rng, freestar_entries.packet(kind, pan_id))
        for kind, size in HOST.items():
            block = freestar_entries.packet(kind, ADDRESSES[:size])
            peer.step(FREESTAR_SETTINGS[2]._replace(pan_id=pan_id), block, rng.randbytes(FREESTAR_LONGEST))


def check_freestar_damage(peer, rng):
    """Packets that are damaged at each place, with the sum as it was and with a right one."""
    for message in FREESTAR_MESSAGES:
        whole = freestar_entries.packet(*message)
        for block in itertools.chain.from_iterable(damaged(whole, at) for at in range(len(whole))):
            judge_freestar(peer, rng, block)
            if len(block) >= 2:
                judge_freestar(peer, rng, freestar_entries.mended(block))
        for block in (whole + b"\x04", whole + whole, b"\x01" + whole):
            judge_freestar(peer, rng, block)


def check_freestar_lengths(peer, rng):
    """Blocks of 5 to 304 bytes whose length byte is right or one off, and data that are longer than the type's by
    what a length of one or two bytes does not show."""
    for size, change in itertools.product(range(300), (-1, 0, 1)):
        start = bytes([0x01, (5 + size + change) % 256, rng.choice([*SERVED])])
        judge_freestar(peer, rng, freestar_entries.mended(start + bytes(size) + b"\x00\x04"))
    for kind, wrap in itertools.product(SERVED, WRAPS):
        data = ADDRESSES[: SERVED[kind]] + bytes(wrap)
        peer.reread(Message(kind, data), rng.randbytes(FREESTAR_LONGEST))
        judge_freestar(peer, rng, freestar_entries.packet(kind, data))


def check_freestar_chance(peer, rng):
    """Bytes by chance: whole blocks, data in a right frame, settings, and messages in a row."""
    settings = FREESTAR_SETTINGS[0]
    for _ in range(2000):
        judge_freestar(peer, rng, rng.randbytes(rng.randrange(20)))
        judge_freestar(peer, rng, b"\x01" + rng.randbytes(rng.randrange(20)) + b"\x04")
        kind = rng.choice([*SERVED])
        judge_freestar(peer, rng, freestar_entries.packet(kind, rng.randbytes(rng.randrange(12))))
        block = freestar_entries.packet(kind, rng.randbytes(SERVED[kind]))
        judge_freestar(peer, rng, block)
        peer.step(freestar_entries.unpacked(rng.randbytes(13)), block, rng.randbytes(FREESTAR_LONGEST))
        settings = peer.step(settings, block, rng.randbytes(FREESTAR_LONGEST)).after


FREESTAR_CHECKS = (
    check_freestar_buffers,
    check_freestar_types,
    check_freestar_pan_ids,
    check_freestar_damage,
    check_freestar_lengths,
    check_freestar_chance,
)


def check_freestar_coverage(peer):
    """Each entry gave each of its refusals, and accepted each of its types, often enough."""
    check_seen("outcomes", {entry: {0, *OWN[entry]} for entry in freestar_entries.SIGNATURES}, peer.outcomes)
    types_of = {"freestar_decode": SERVED, "freestar_encode": SERVED, "freestar_execute": HOST}
    check_seen("accepted messages", types_of, peer.accepted)


# ---- Counted calls ---------------------------------------------------------------------------


def hex_pairs(content):
    return content.hex(" ").upper()


def in_buffer(block, size):
    """A buffer of the counted calls with a packet in its first bytes, as text; the rest is EE."""
    return hex_pairs(block.ljust(size, b"\xee"))


# What bench/coyote_count.c prints before the buffer, and the packet that is then in the buffer, if any.
PACKET_WORDS = (
    "refusal {} type {:02X} source {} targets {} space 0 request 00 code 0 memory 0000, 0 bytes, "
    "data at {}, {} bytes"
)
COYOTE_COUNTED = {
    "decode_data": (PACKET_WORDS.format(0, 0x00, "01:02", 1, 11, 1023), b""),
    "encode_data": (
        "refusal 0 length 1036",
        packet(0x00, addressed(TARGETS, bytes([number % 256 for number in range(1023)]))),
    ),
    "export_charge": ("refusal 0 length 16", packet(0x13, addressed(TARGETS, b"\x02\xde\xb8"))),
    "import_charge": ("refusal 0 input 2 readout 57016", b""),
    "decode_charge": (PACKET_WORDS.format(0, 0x13, "01:02", 1, 11, 3), b""),
    "decode_damaged": (PACKET_WORDS.format(26, 0x00, "00:00", 0, 0, 0), b""),
}


# The settings that bench/freestar_count.c begins with.
COUNTED_SETTINGS = Settings(b"\xff\x3f", bytes(range(0x11, 0x19)), b"\x19\x1a", b"\x1a")
# What it prints before the buffer, the packet that is then in the buffer, if any, and the settings afterwards.
FREESTAR_COUNTED = {
    "execute_set_pan_id": (
        "refusal 0 length 5",
        b"\x01\x05\x81\x87\x04",
        COUNTED_SETTINGS._replace(pan_id=b"\x34\x12"),
    ),
    "execute_query_pan_id": ("refusal 0 length 7", b"\x01\x07\x82\xff\x3f\xc8\x04", COUNTED_SETTINGS),
    "execute_set_address": (
        "refusal 0 length 5",
        b"\x01\x05\x83\x89\x04",
        COUNTED_SETTINGS._replace(long_address=ADDRESSES[:8], short_address=ADDRESSES[8:]),
    ),
    "execute_query_address": (
        "refusal 0 length 15",
        b"\x01\x0f\x84" + bytes(range(0x11, 0x1B)) + b"\x6b\x04",
        COUNTED_SETTINGS,
    ),
    "execute_reset": ("refusal 0 length 5", b"\x01\x05\x98\x9e\x04", COUNTED_SETTINGS),
    "execute_damaged": ("refusal 26 length 0", b"", COUNTED_SETTINGS),
    "execute_pan_id_over": ("refusal 28 length 0", b"", COUNTED_SETTINGS),
    "decode_address": ("refusal 0 type 84 data 10 bytes", b"", COUNTED_SETTINGS),
    "encode_address": ("refusal 0 length 15", b"\x01\x0f\x03" + ADDRESSES + b"\x4a\x04", COUNTED_SETTINGS),
}


# The module that bench/count.c begins with: a name of 16 characters, and slot 39 in use.
COUNTED_MODULE = changed(
    FACTORY_STATE, {"stored.name": b"Swap bay 7 north\x00".hex(), "stored.slots.39": "01 02 03 04 05"}
)


def command_line(words):
    """What bench/count.c prints of a block."""
    after, refusal, length, buffer = reference.execute(COUNTED_MODULE, bytes.fromhex(words), 22 * b"\xaa")
    return f"refusal {refusal} length {length} response {hex_pairs(buffer)} state {hex_pairs(packed(after))}"


def response_line(words):
    """What it prints of a response to a payload that was sent."""
    sent, response = map(bytes.fromhex, words.split("/"))
    refusal, place, start, length = reference.decode_response(sent, response)
    fields = f"refusal {refusal} length {length} start {start} place {place}"
    return f"{fields} sent {hex_pairs(sent)} response {hex_pairs(response)}"


def counting_programs(folder, libraries):
    """The program that counts a library's calls, with the peer and with the library."""
    library, peer = libraries
    source = "bench/count.c" if libraries == measure.CDI else f"bench/{library}_count.c"
    sources, built = (source, "bench/calls.c"), sdk()
    yield compiled(folder / f"{library}_count_by_peer", "-DPEER", *sources, f"bench/{peer}.c")
    include, archive = f"-I{built / 'include'}", built / "lib" / f"lib{library}.a"
    yield compiled(folder / f"{library}_count_by_library", include, *sources, archive)


def counted_line(program, operation):
    """The first line that a program prints for two calls of an operation."""
    done = subprocess.run([program, "2", *operation.split()], capture_output=True, text=True)
    if done.returncode != 0:
        raise Problem(f"{program.name} failed with {done.returncode} in {operation}: {done.stderr.strip()}")
    return done.stdout.partition("\n")[0]


def compare_lines(folder, libraries, calls, lines):
    """Each call that bench/run counts prints the line written down for it, with the peer and with the library."""
    operations = {call.words for call in calls}
    same_sets("counted calls", set(lines), "the test", operations, "bench/measure.py")
    for program, operation in itertools.product(counting_programs(folder, libraries), lines):
        wanted, came = lines[operation], counted_line(program, operation)
        if came != wanted:
            raise Problem(f"difference in {operation}, {program.name}\n  expected: {wanted}\n  came:     {came}")
    return f"{len(operations)} counted calls of the {NAMES[libraries]} library and of its C peer give the same"


def check_cdi_counted(folder):
    """The commands and the responses that bench/run counts; what they print is the reference's."""
    commands = {call.words: command_line(call.words) for call in measure.COMMANDS}
    read = {call.words: response_line(call.words) for call in measure.RESPONSES}
    return compare_lines(folder, measure.CDI, measure.COMMANDS + measure.RESPONSES, {**commands, **read})


def check_coyote_counted(folder):
    """The packets that bench/run counts."""
    lines = {name: f"{words} buffer {in_buffer(block, 1066)}" for name, (words, block) in COYOTE_COUNTED.items()}
    return compare_lines(folder, measure.COYOTE, measure.PACKETS, lines)


def check_freestar_counted(folder):
    """The messages that bench/run counts."""
    lines = {}
    for name, (words, block, settings) in FREESTAR_COUNTED.items():
        after = hex_pairs(freestar_entries.packed(settings))
        lines[name] = f"{words} buffer {in_buffer(block, FREESTAR_LONGEST)} settings {after}"
    return compare_lines(folder, measure.FREESTAR, measure.MESSAGES, lines)


COUNTED_CHECKS = (check_cdi_counted, check_coyote_counted, check_freestar_counted)


# ---- The run ---------------------------------------------------------------------------------


def compare_logs(folder, checks, whole):
    runnable(REPLAY)
    logs = Logs(programs(folder))
    for check in checks:
        check(logs, random.Random(SEED))
    if whole:
        check_logs_coverage(logs)
    refused = ", ".join(f"{number}: {logs.refused[number]}" for number in sorted(logs.refused))
    print(
        f"{logs.lines} lines of the replay program and of {len(BUILDS)} builds of the C peer agree: "
        f"{sum(logs.accepted.values())} accepted, {logs.not_hex} not hex, refused {refused}"
    )


def compare_modules(folder, checks, whole):
    for name, library in modules(folder):
        module = Module(library, asks=name == "peer")
        for check in checks:
            check(module, random.Random(SEED))
        if whole:
            check_module_coverage(name, module)
        print(f"{module.calls} calls of the module of {name} and of the reference agree")


def compare_peer(libraries, comparison, signatures, check_coverage, folder, checks, whole):
    """Compares functions of a library's peer with the reference."""
    peer = comparison(peer_of(folder, libraries, signatures))
    for check in checks:
        check(peer, random.Random(SEED))
    if whole:
        check_coverage(peer)
    print(f"{peer.calls} calls of the C peer of the {NAMES[libraries]} library and of the reference agree")


def compare_counted(folder, checks, whole):
    for check in checks:
        print(check(folder))


def peer_part(libraries, module, names, check_coverage, checks):
    """A part of the run: functions of a peer, by the comparison and the signatures of a library's entries."""
    signatures = {name: module.SIGNATURES[name] for name in names}
    return functools.partial(compare_peer, libraries, module.Comparison, signatures, check_coverage), checks


PARTS = (
    (compare_logs, LOG_CHECKS),
    (compare_modules, MODULE_CHECKS),
    peer_part(measure.CDI, entries, [READER], check_response_coverage, RESPONSE_CHECKS),
    peer_part(measure.COYOTE, coyote_entries, coyote_entries.SIGNATURES, check_coyote_coverage, COYOTE_CHECKS),
    peer_part(measure.FREESTAR, freestar_entries, freestar_entries.SIGNATURES, check_freestar_coverage, FREESTAR_CHECKS),
    (compare_counted, COUNTED_CHECKS),
)


def main(checks, whole):
    with tempfile.TemporaryDirectory() as folder:
        for compare, known in PARTS:
            chosen = [check for check in checks if check in known]
            if chosen:
                compare(pathlib.Path(folder), chosen, whole)


if __name__ == "__main__":
    run_test([check for _, known in PARTS for check in known], main)

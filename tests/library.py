"""What the tests share: running a test's checks, building a shared library, memory between guard bytes,
the comparison that ends with the first difference, and some bytes to hand over.
"""

import collections
import contextlib
import ctypes
import fcntl
import pathlib
import random
import shutil
import subprocess
import sys
import tempfile

ROOT = pathlib.Path(__file__).resolve().parent.parent


class Problem(Exception):
    """What is tested can't be built or run, or it differs from the reference."""


def run_test(checks, main=None):
    """Runs a test: all its checks, or the one that the command line names; another name lists them.

    `main` gets the checks to run, and whether these are all. Without it each check takes nothing and
    returns in words what it has seen. A Problem ends the test with exit status 1.
    """
    program, *names = sys.argv
    by_name = {check.__name__: check for check in checks}
    assert len(by_name) == len(checks), "two checks have the same name"
    if len(names) > 1 or not by_name.keys() >= set(names):
        known = "".join(f"  {name}\n" for name in by_name)
        sys.stderr.write(f"usage: python3 {program} [NAME]\nNAME is one of the checks:\n{known}")
        sys.exit(2)
    try:
        (main or say_what_was_seen)([by_name[name] for name in names or by_name], not names)
    except Problem as problem:
        sys.exit(f"{pathlib.Path(program).stem}: {problem}")


def say_what_was_seen(checks, whole):
    print("; ".join([check() for check in checks]))


def same_sets(what, wanted, source, came, other):
    """Raises a Problem if two sets differ."""
    if wanted != came:
        lines = [f"{what} differ"]
        lines.append(f"  only in {source}: {sorted(wanted - came)}")
        lines.append(f"  only in {other}: {sorted(came - wanted)}")
        raise Problem("\n".join(lines))


# ---- Building --------------------------------------------------------------------------------

BYTE, SIZE, POINTER = ctypes.c_uint8, ctypes.c_size_t, ctypes.c_void_p


def struct(**fields):
    return type("Struct", (ctypes.Structure,), {"_fields_": list(fields.items())})


ANALOG_INPUT = struct(channel=BYTE, readings=BYTE, reference=BYTE, offset=2 * BYTE)
OUTCOME = struct(refusal=BYTE, length=SIZE)  # of an entry that fills a buffer
BLOCK = POINTER, SIZE  # the two arguments that are an input, or a buffer


def run(*words, folder=ROOT):
    """Runs a command from the repository's root, or in a folder; what it printed is shown if it fails.
    A command with a slash, as `./sdk`, is a file at the root."""
    program = str(ROOT / words[0]) if "/" in words[0] else words[0]
    if shutil.which(program) is None:
        raise Problem(f"`{words[0]}` is not installed, or not on the path")
    done = subprocess.run(
        words, cwd=folder, stdin=subprocess.DEVNULL, stdout=subprocess.PIPE, stderr=subprocess.STDOUT, text=True
    )
    if done.returncode != 0:
        raise Problem(f"`{' '.join(words)}` failed with {done.returncode}:\n{done.stdout}")


@contextlib.contextmanager
def building():
    """One build at a time: tests may run side by side."""
    (ROOT / "target").mkdir(exist_ok=True)
    with open(ROOT / "target" / "tests.lock", "w", encoding="utf-8") as lock:
        fcntl.flock(lock, fcntl.LOCK_EX)
        yield


def sdk():
    """Builds the C SDK, where it is not up to date; its folder."""
    with building():
        run("./sdk")
    return ROOT / "target" / "sdk"


def load(path, signatures):
    """A shared library whose functions have the given results and arguments."""
    try:
        library = ctypes.CDLL(str(path))
    except OSError as error:
        raise Problem(f"the library can't be loaded: {error}") from None
    for name, (result, arguments) in signatures.items():
        try:
            function = getattr(library, name)
        except AttributeError:
            raise Problem(f"the library has no function {name}") from None
        function.restype = result
        function.argtypes = arguments
    return library


def build(crate, signatures):
    """Proves and compiles a crate, and loads it as a shared library."""
    archive = f"crates/{crate}/out/lib{crate}.a"
    with building():
        run("rt", "lib", folder=ROOT / "crates" / crate)
    with tempfile.TemporaryDirectory() as folder:
        path = str(pathlib.Path(folder) / f"{crate}.so")
        run("gcc", "-shared", "-o", path, "-Wl,--whole-archive", archive, "-Wl,--no-whole-archive")
        return load(path, signatures)


# ---- Comparing -------------------------------------------------------------------------------

GUARD = bytes(range(0xA0, 0xB0))


class Memory:
    """Memory that is handed to the library: some bytes between two guards. They lie at an even
    address, as 16-bit numbers have to, or at an odd one, as bytes may."""

    def __init__(self, room, odd=False):
        self.front = GUARD + GUARD[:1] if odd else GUARD
        self.bytes = bytearray(len(self.front) + room + len(GUARD))
        self.held = ctypes.c_char.from_buffer(self.bytes)  # keeps the bytes at their place
        self.address = ctypes.addressof(self.held) + len(self.front)
        assert self.address % 2 == odd, "the memory lies at another address"
        self.give(b"")

    def give(self, content):
        self.given = content
        whole = self.front + content + GUARD
        self.bytes[: len(whole)] = whole
        return self.address

    def content(self):
        """The bytes as they are now, or word of a changed guard, which equals no bytes."""
        end = len(self.front) + len(self.given)
        whole = bytes(self.bytes[: end + len(GUARD)])
        if whole.startswith(self.front) and whole.endswith(GUARD):
            return whole[len(self.front) : end]
        return "a guard is changed, with the guards it is", whole


def show(value):
    """A value as a line of text: bytes as hexadecimal pairs, a very long one cut."""
    if isinstance(value, tuple):
        return ", ".join(show(part) for part in value)
    if isinstance(value, bytes):
        text = f"{len(value)} bytes [{value.hex(' ').upper()}]"
    else:
        text = repr(value)
    return text if len(text) <= 3000 else text[:3000] + " ... (cut)"


class Calls:
    """Calls of a library that are counted and compared, with memory for an input and an output."""

    def __init__(self, library):
        self.library = library
        self.calls = 0
        self.input = Memory(140_000)
        self.output = Memory(140_000)

    def same(self, what, expected, came, **inputs):
        """Raises a Problem if two values differ."""
        if expected != came:
            lines = [f"difference in {what}"]
            lines += [f"  {name}: {show(value)}" for name, value in inputs.items()]
            lines += [f"  expected: {show(expected)}", f"  came:     {show(came)}"]
            raise Problem("\n".join(lines))

    def called(self, function, expected, came, **inputs):
        """Counts one call and compares its result, and that the input given is as it was."""
        self.calls += 1
        self.same(function, expected, came, **inputs)
        self.same(f"the input of {function}", self.input.given, self.input.content(), **inputs)
        return came

    def run(self, checks, seed):
        """Runs checks, each with the same random numbers, and prints how many calls agreed."""
        for check in checks:
            before = self.calls
            check(self, random.Random(seed))
            print(f"{check.__name__}: {self.calls - before} calls")


class PacketCalls(Calls):
    """Calls of a library of packets, counted by entry."""

    def __init__(self, library):
        super().__init__(library)
        self.outcomes = collections.Counter()  # calls, by entry and refusal
        self.accepted = collections.Counter()  # accepted calls, by entry and type

    def agree(self, entry, expected, came, packet_type, **inputs):
        """Counts one call and compares what came, the refusal first; `packet_type` is the type of an
        accepted packet."""
        self.calls += 1
        self.outcomes[entry, expected[0]] += 1
        if expected[0] == 0:
            self.accepted[entry, packet_type] += 1
        self.same(entry, expected, came, **inputs)

    def unchanged(self, entry, memory, **inputs):
        self.same(f"an input of {entry}", memory.given, memory.content(), **inputs)

    def reread(self, message, buffer):
        """Writes what a message says, and reads it back: each library's own. The refusal, length and buffer."""
        raise NotImplementedError

    def writes(self, message, expected, buffer):
        """A writer whose outcome is written down: the number of a refusal, or the packet."""
        if isinstance(expected, int):
            wanted = expected, 0, buffer
        else:
            wanted = 0, len(expected), expected + buffer[len(expected) :]
        came = self.reread(message, buffer)
        self.same("what is written, as written down", wanted, came, message=message, buffer=buffer)

    def run_all(self, checks, whole, seed, outcomes, types):
        """Runs checks. If these are the whole, each entry had each of its outcomes, and accepted each of its types."""
        self.run(checks, seed)
        if whole:
            check_seen("outcomes", outcomes, self.outcomes)
            check_seen("types", types, self.accepted)
            print_outcomes(outcomes, self.outcomes)
        entries = {entry for entry, _ in self.outcomes}
        print(f"{self.calls:,} calls of {len(entries)} entries agree")


LEAST_SEEN = 100  # of each kind of call that a comparison counts


def check_seen(what, kinds, seen):
    """Every entry had calls of each of its kinds, enough of them, and none of another; else the checks are too thin."""
    wanted = {(entry, kind) for entry in kinds for kind in kinds[entry]}
    same_sets(what, wanted, "what each entry can give", set(seen), "the calls")
    rare = {key: times for key, times in seen.items() if times < LEAST_SEEN}
    if rare:
        raise Problem(f"{what} that were rarely seen: {rare}")


def print_outcomes(kinds, seen):
    for entry, numbers in kinds.items():
        print(f"{entry} by outcome: " + ", ".join(f"{number}: {seen[entry, number]}" for number in numbers))


# ---- Bytes that tests of packets hand over ---------------------------------------------------

# Added to a size, these leave its lowest one or two bytes as they were.
WRAPS = (2**8, 2**16, 2**17)


def filler(size):
    """What a buffer holds before a call."""
    return (bytes(range(0x21, 0x71)) * (size // 80 + 1))[:size]


def with_byte(block, at, byte):
    return block[:at] + bytes([byte]) + block[at + 1 :]

"""The measurements of bench/run, which builds what is measured: replay beside the C peer on typical lines,
replay's growth with its input, and single calls of each C library beside its peer's. Each table is
printed in Markdown. Timed output goes to /dev/null, so that the time is the programs' own."""

import collections
import datetime
import hashlib
import os
import pathlib
import platform
import re
import shutil
import statistics
import subprocess
import sys

import traffic

ROOT = pathlib.Path(__file__).resolve().parent.parent
REPLAY = ROOT / "crates" / "replay" / "out" / "replay"

Plan = collections.namedtuple("Plan", "megabytes rounds growth calls call_rounds")
FULL = Plan(100, 7, growth=(1, 10, 50, 100, 200), calls=300_000, call_rounds=31)
QUICK = Plan(10, 3, growth=(1, 10), calls=100_000, call_rounds=7)

COUNTED = 100  # calls under callgrind, which cost the same each

# A C library and its peer, by the prefix of their functions. Each has its program `count`, in the folder that is
# named after the prefix.
Libraries = collections.namedtuple("Libraries", "library peer")
CDI = Libraries("cdi", "peer")
COYOTE = Libraries("coyote", "coyote_peer")
FREESTAR = Libraries("freestar", "freestar_peer")

# A call that is measured: its name, the function without the prefix, and what `count` takes for it.
Call = collections.namedtuple("Call", "name function words")
COMMANDS = (
    Call("Read of one byte", "execute", "80 55 82 01 15"),
    Call("Read of the name", "execute", "80 55 82 01 01"),
    Call("Program of a slot", "execute", "80 55 88 04 18 27 01 02 03 04 05"),
    Call("Write of a bad value", "execute", "80 55 83 02 15 07"),
)
RESPONSES = (
    Call("Read of one byte", "decode_response", "01 15 / 80 55 83 C1 15 06"),
    Call("Read of the name", "decode_response", "01 01 / 80 55 93 C1 01 53 77 61 70 20 62 61 79 20 37 20 6E 6F 72 74 68 00"),
    Call("Read of an analog input", "decode_response", "01 16 02 / 80 55 88 C1 16 02 05 10 01 80 00"),
    Call("Read of a slot", "decode_response", "01 18 27 / 80 55 88 C1 18 27 01 02 03 04 05"),
    Call("Read of the status", "decode_response", "01 23 / 80 55 86 C1 23 B4 7F 00 00"),
    Call("Program of a slot", "decode_response", "04 18 27 01 02 03 04 05 / 80 55 8A C0 00 04 18 27 01 02 03 04 05"),
    Call("Set Default", "decode_response", "81 / 80 55 83 C0 00 81"),
    Call("A value that no module has", "decode_response", "01 15 / 80 55 83 C1 15 07"),
    Call("A wake byte in the response", "decode_response", "01 15 / 80 FF 55 83 C1 15 06"),
    Call("A payload that is refused", "decode_response", "02 15 07 / 80 55 85 C0 00 02 15 07"),
)
PACKETS = (
    Call("Read of 1,023 data bytes", "decode", "decode_data"),
    Call("Write of 1,023 data bytes", "encode_addressed", "encode_data"),
    Call("Export of a charge", "export_charge", "export_charge"),
    Call("Import of a charge", "import_charge", "import_charge"),
    Call("Read of a charge's packet", "decode", "decode_charge"),
    Call("Read of 1,023 data bytes with a wrong sum", "decode", "decode_damaged"),
)
LIMIT = 1.3  # the most instructions of the reader of responses, and of a radio's library, for each of the peer's
MESSAGES = (
    Call("Set PAN ID", "execute", "execute_set_pan_id"),
    Call("Query PAN ID", "execute", "execute_query_pan_id"),
    Call("Set address", "execute", "execute_set_address"),
    Call("Query address", "execute", "execute_query_address"),
    Call("Reset", "execute", "execute_reset"),
    Call("Set PAN ID with a wrong sum", "execute", "execute_damaged"),
    Call("Set PAN ID of more than 14 bits", "execute", "execute_pan_id_over"),
    Call("Read of an answer with addresses", "decode", "decode_address"),
    Call("Write of a Set address", "encode", "encode_address"),
)


class Problem(Exception):
    """What is measured cannot be compared."""


def output_of(words, **options):
    """What a program writes on standard output; one that fails ends the run with what it says."""
    done = subprocess.run(words, capture_output=True, text=True, check=False, **options)
    if done.returncode != 0:
        raise Problem(f"{words[0]} failed with {done.returncode}: {done.stderr.strip()}")
    return done.stdout


def table(*rows):
    """Rows of cells as a Markdown table, the first its head."""
    head, *rest = [f"| {' | '.join(map(str, row))} |" for row in rows]
    return "\n".join([head, "|" + len(rows[0]) * "---|", *rest, ""])


# ---- Replay ----------------------------------------------------------------------------------


def timed(folder, program, log):
    """Seconds of one run on a log, and the most kilobytes that it held."""
    with open(log, "rb") as given:
        words = [folder / "timed", program]
        done = subprocess.run(
            words, stdin=given, stdout=subprocess.DEVNULL, stderr=subprocess.PIPE, text=True, check=False
        )
    said = done.stderr.splitlines()
    if done.returncode != 0 or len(said) != 1:
        raise Problem(done.stderr.strip())
    seconds, kilobytes = said[0].split()
    return float(seconds), int(kilobytes)


def digest(program, log):
    """A digest of what a program prints for a log."""
    sha = hashlib.sha256()
    with open(log, "rb") as given, subprocess.Popen([program], stdin=given, stdout=subprocess.PIPE) as run:
        for part in iter(lambda: run.stdout.read(1 << 16), b""):
            sha.update(part)
    if run.returncode != 0:
        raise Problem(f"{program} failed with {run.returncode}")
    return sha.hexdigest()


UNASKED = "C peer that never asks whether the state is valid"


def programs(folder):
    return {"replay": REPLAY, "C peer": folder / "peer", UNASKED: folder / "peer_unasked"}


def check_same_output(folder, log):
    if len({digest(program, log) for program in programs(folder).values()}) != 1:
        raise Problem("replay and the C peers print different bytes")


def throughput(folder, plan):
    """Replay and the C peers in turn on the same typical lines."""
    log = folder / "log"
    traffic.write_typical(log, plan.megabytes)
    check_same_output(folder, log)
    speeds = {name: [] for name in programs(folder)}
    for _ in range(plan.rounds):
        for name, program in programs(folder).items():
            seconds, _ = timed(folder, program, log)
            speeds[name].append(plan.megabytes / seconds)
    log.unlink()
    return throughput_text(plan, speeds)


def throughput_text(plan, speeds):
    medians = {name: statistics.median(each) for name, each in speeds.items()}
    rows = [(name, f"{medians[name]:.0f}", f"{min(each):.0f}", f"{max(each):.0f}") for name, each in speeds.items()]
    ratio = medians["replay"] / medians["C peer"]
    return (
        f"### Replay on {plan.megabytes} MB of typical lines, {plan.rounds} rounds in turn\n\n"
        "Of eight lines five are reads, two Writes and one a Program; one in 36 is refused. All print the same bytes. The C peer "
        "looks at the whole state at each block, as document 01 says of the unit; replay looks at it once for each call of "
        "`replay_lines`, which answers some 1,700 of these lines, since it is proved that no step changes whether a state is valid. "
        "What is printed goes to /dev/null.\n\n"
        + table(("Program", "MB/s, median", "least", "most"), *rows)
        + f"\nRatio of the medians, replay's to the C peer's: {ratio:.2f}, or {1 / ratio:.2f} times its time.\n"
    )


def growth_rows(folder, plan, name, write):
    """One kind of log in each size, the sizes in turn."""
    logs = {megabytes: folder / f"log_{megabytes}" for megabytes in plan.growth}
    for megabytes, log in logs.items():
        write(log, megabytes)
        check_same_output(folder, log)
    runs = {megabytes: [] for megabytes in logs}
    for _ in range(plan.rounds):
        for megabytes, log in logs.items():
            runs[megabytes].append(timed(folder, REPLAY, log))
    for log in logs.values():
        log.unlink()
    for megabytes, taken in runs.items():
        seconds = statistics.median(each for each, _ in taken)
        most = max(kilobytes for _, kilobytes in taken)
        yield name, megabytes, f"{seconds:.3f}", f"{megabytes / seconds:.0f}", most


def growth(folder, plan):
    """Replay on ever larger logs: of typical lines, and of one line that does not end."""
    kinds = (
        ("typical lines", traffic.write_typical),
        ("one line without a line feed", traffic.write_single_line),
    )
    rows = [row for kind in kinds for row in growth_rows(folder, plan, *kind)]
    return (
        f"### Replay's time and memory on growing input, {plan.rounds} rounds in turn\n\n"
        "Seconds are medians, the memory is the most of any round.\n\n"
        + table(("Input", "MB", "seconds", "MB/s", "peak resident, kB"), *rows)
    )


# ---- Single calls ----------------------------------------------------------------------------


def run_count(folder, prefix, calls, words, *before):
    """What a program `count` prints, and after it. Its stack is the same in each run and for a library and its peer:
    the environment is empty, and the program is called by the same name, in a folder of its own."""
    return output_of([*before, "./count", str(calls), *words.split()], cwd=calls_folder(folder, prefix), env={})


def calls_folder(folder, prefix):
    return folder / f"{prefix}_calls"


def called(folder, prefix, calls, words):
    """What came of a call, in words, and its nanoseconds."""
    result, nanoseconds = run_count(folder, prefix, calls, words).splitlines()
    return result, float(nanoseconds)


def instructions(folder, prefix, call):
    """Instructions from the entry of a call to its return, by callgrind; each call costs the same. Of memcpy
    and its like they are those of the variant that libc takes under valgrind."""
    function = f"{prefix}_{call.function}"
    words = [shutil.which("valgrind"), "--tool=callgrind", f"--toggle-collect={function}"]
    words += ["--callgrind-out-file=callgrind.out", "--log-file=callgrind.log"]
    run_count(folder, prefix, COUNTED, call.words, *words)
    log = (calls_folder(folder, prefix) / "callgrind.log").read_text(encoding="utf-8")
    collected = re.search(r"Collected : (\d+)", log)
    total = int(collected[1]) if collected else 0
    if total == 0 or total % COUNTED != 0:
        raise Problem(f"callgrind counted {total} instructions in {COUNTED} calls of {function}")
    return total // COUNTED


def check_same_result(folder, libraries, call):
    """What came of a call, in short, where both give the same in every field and byte."""
    result, other = (called(folder, prefix, 1, call.words)[0] for prefix in libraries)
    if result != other:
        raise Problem(f"for {call.words} the library gives\n{result}\nand the C peer\n{other}")
    refusal, length = re.match(r"refusal (\d+)(?: length (\d+))?", result).groups()
    if refusal != "0":
        return f"refused {refusal}"
    if not length:
        return "accepted"
    return "1 byte" if length == "1" else f"{length} bytes"


# A call's result, then the instructions, and the nanoseconds of each round, of the library and of the peer.
Measured = collections.namedtuple("Measured", "result instructions nanoseconds")


def measured(folder, plan, libraries, call):
    result = check_same_result(folder, libraries, call)
    counts = [instructions(folder, prefix, call) for prefix in libraries]
    times = {prefix: [] for prefix in libraries}
    for _ in range(plan.call_rounds):
        for prefix, taken in times.items():
            taken.append(called(folder, prefix, plan.calls, call.words)[1])
    return Measured(result, counts, [*times.values()])


def ratio(figures):
    library, peer = figures
    return library / peer


MEASURED_HEAD = ("Result", "instructions, library", "C peer", "ratio", "ns, library", "C peer", "ratio")


def measured_cells(one):
    medians = [statistics.median(taken) for taken in one.nanoseconds]
    spreads = [f"{m:.0f} ({min(t):.0f} to {max(t):.0f})" for m, t in zip(medians, one.nanoseconds)]
    return one.result, *one.instructions, f"{ratio(one.instructions):.2f}", *spreads, f"{ratio(medians):.2f}"


def how_measured(plan):
    return f"Instructions by callgrind; nanoseconds are medians of {plan.call_rounds} rounds of {plan.calls:,} calls in turn."


def commands(folder, plan):
    """Single commands, by the library and by the C peer."""
    rows = [(call.name, f"`{call.words}`", *measured_cells(measured(folder, plan, CDI, call))) for call in COMMANDS]
    return (
        "### One command by the C library\n\n"
        "On a module with a name of 16 characters and slot 39 in use. Refusal, length, response and state are the same in "
        f"both. {how_measured(plan)}\n\n" + table(("Command", "Block", *MEASURED_HEAD), *rows)
    )


# The second column of a table of calls: its head, and what it shows of a library's call.
FUNCTION = "Function", lambda libraries, call: f"{libraries.library}_{call.function}"
BYTES = "Sent / response", lambda libraries, call: call.words


def measured_calls(folder, plan, libraries, calls, column=FUNCTION):
    """The table of a library's calls beside its peer's, and the largest ratio of their instructions: of all, of those that are
    accepted, and of those that are refused."""
    head, shown = column
    taken = {call: measured(folder, plan, libraries, call) for call in calls}
    rows = [(call.name, f"`{shown(libraries, call)}`", *measured_cells(one)) for call, one in taken.items()]
    ratios = [(ratio(one.instructions), one.result.startswith("refused")) for one in taken.values()]
    most = [max(each for each, refused in ratios if refused in kind) for kind in ((False, True), (False,), (True,))]
    return table(("Call", head, *MEASURED_HEAD), *rows), most


def responses(folder, plan):
    """Single responses read, by the library and by the C peer."""
    text, (_, accepted, refused) = measured_calls(folder, plan, CDI, RESPONSES, BYTES)
    return (
        "### One response by the C library\n\n"
        "`cdi_decode_response` is handed the payload that was sent and the response. Every field of the result is the same in both, "
        f"and no byte of the inputs changes. {how_measured(plan)}\n\n{text}\nLimit: at most {LIMIT} times the C peer's instructions. "
        f"The largest ratio here is {accepted:.2f} where the response is accepted, and {refused:.2f} where it is refused.\n"
    )


def packets(folder, plan):
    """Single packets read and written, by the Coyote library and by its C peer."""
    text, (most, _, _) = measured_calls(folder, plan, COYOTE, PACKETS)
    return (
        "### Coyote packets, one call\n\n"
        "The data are those of an AckData packet of 1,036 bytes, a charge's packet has 16 bytes, and each has one target. Every "
        f"field of the result and every byte of the buffer is the same in both. {how_measured(plan)}\n\n"
        + text
        + f"\nLimit: at most {LIMIT} times the C peer's instructions. The largest ratio here is {most:.2f}.\n"
    )


def messages(folder, plan):
    """Single messages executed, read and written, by the Freestar library and by its C peer."""
    text, (_, accepted, refused) = measured_calls(folder, plan, FREESTAR, MESSAGES)
    return (
        "### Freestar messages, one call\n\n"
        "A packet has 5 to 15 bytes. Every field of the result and every byte of the buffer and of the settings is the same in "
        f"both. {how_measured(plan)}\n\n{text}\nLimit: at most {LIMIT} times the C peer's instructions. The largest ratio here is {accepted:.2f} where "
        f"the message is accepted, and {refused:.2f} where it is refused (`FREESTAR-33`).\n"
    )


# ---- The run ---------------------------------------------------------------------------------


def processor():
    cpuinfo = pathlib.Path("/proc/cpuinfo")
    text = cpuinfo.read_text(encoding="utf-8") if cpuinfo.exists() else ""
    model = re.search(r"^model name\s*: (.*)$", text, re.MULTILINE)
    return model[1] if model else platform.machine()


def version():
    """The commit, where this is a clone and git is there."""
    try:
        words = ["git", "describe", "--always", "--dirty=, changed"]
        return f" at commit {output_of(words, cwd=ROOT).strip()}"
    except (OSError, Problem):
        return ""


def conditions():
    """When and where this was measured."""
    day = datetime.date.today().isoformat()
    gcc = output_of(["gcc", "--version"]).splitlines()[0]
    valgrind = output_of(["valgrind", "--version"]).strip()
    load = os.getloadavg()[0]
    return (
        f"Measured on {day}{version()}: {processor()}, {os.cpu_count()} cores, load {load:.1f} before the start; "
        f"the C peer by {gcc}, -O2, replay and the library as the toolchain builds them; {valgrind}. 1 MB is 1,000,000 bytes, "
        "1 kB is 1,024.\n"
    )


def main():
    folder = pathlib.Path(sys.argv[1])
    plan = QUICK if "--quick" in sys.argv[2:] else FULL
    print(conditions(), flush=True)
    for measure in (throughput, growth, commands, responses, packets, messages):
        print(measure(folder, plan), flush=True)


if __name__ == "__main__":
    try:
        main()
    except Problem as problem:
        sys.exit(f"bench: {problem}")

#!/usr/bin/env python3
"""The gate passes on a good repository and fails where it must: on a crate that crates.txt does not list, on an empty or a
missing list, on a function that is not proved, on a must-fail edit that is, that fits no text or that only takes away a name, on a
bad layout, on a test that fails (also one whose name has quotes or a space), that is killed or says nothing, without tests, and without its tools.

Each case is a scratch copy of this repository with one fault. To be quick, a copy keeps the lowest crate alone; its tests are one
that passes, so that this one does not start itself.
"""
import os
import re
import shutil
import subprocess
import sys
import tempfile

sys.dont_write_bytecode = True  # leaves no files beside the tests

from library import ROOT, Problem, run_test


def write(path, text):
    os.makedirs(os.path.dirname(path), exist_ok=True)
    with open(path, "w", encoding="utf-8") as file:
        file.write(text)


def scratch(copy):
    """A copy of the repository with its lowest crate and one test that passes."""
    shutil.copytree(ROOT, copy, ignore=shutil.ignore_patterns("target", ".git", "crates", "tests", "crates.txt"))
    with open(os.path.join(ROOT, "crates.txt"), encoding="utf-8") as file:
        lowest = next(line.split(":")[0] for line in file if re.fullmatch(r"\w+:\s*", line))
    shutil.copytree(os.path.join(ROOT, "crates", lowest), os.path.join(copy, "crates", lowest), ignore=shutil.ignore_patterns("out"))
    write(os.path.join(copy, "crates.txt"), lowest + ":\n")
    write(os.path.join(copy, "tests", "test_sample.py"), "print('fine')\n")


def no_fault(copy):
    pass


def no_tools(copy):
    pass


def unlisted_crate(copy):
    write(os.path.join(copy, "crates", "stray", "src", "lib.rt"), "// A crate that crates.txt does not list.\n")


def unproved_function(copy):
    source = "pub fn one() -> u8\n    ensures { result ≡ 1 }\n{\n    2\n}\n"
    write(os.path.join(copy, "crates", "sample", "src", "lib.rt"), "ghost use Rattle.std.specs.Prelude.{◌≡◌};\n\n" + source)
    write(os.path.join(copy, "crates.txt"), "sample:\n")
    shutil.rmtree(os.path.join(copy, "crates", "logic"))


def edit_that_is_proved(copy):
    crate = os.path.join(copy, "crates", "logic")
    write(os.path.join(crate, "src", "lib.rt"), "// One comment.\n")
    write(os.path.join(crate, "must-fail", "comment.edit"), "file: src/lib.rt\nold: One\nnew: Another\n")


def edit_that_fits_nothing(copy):
    write(os.path.join(copy, "crates", "logic", "must-fail", "nothing.edit"), "file: src/lib.rt\nold: no such text\nnew: another\n")


def edit_that_loses_a_name(copy):
    crate = os.path.join(copy, "crates", "sample")
    source = "pub fn one(x: u8) -> u8\n    ensures { result ≡ 1 }\n{\n    if x < 2 {\n        return 1;\n    }\n    1\n}\n"
    write(os.path.join(crate, "src", "lib.rt"), "#![tactic(auto)]\n\nghost use Rattle.std.specs.Prelude.{◌≡◌};\n\n" + source)
    answer = "pub returns-then-x-lt2 : goal.returns-then-x-lt2\nreturns-then-x-lt2 c = refl\n"
    head = "use Rattle.std.proofs.Common.{refl}\nuse Rattle.sample.proofs.one.Goals as goal\n\n"
    write(os.path.join(crate, "proofs", "one", "Answers.antt"), head + answer)
    write(os.path.join(crate, "must-fail", "name.edit"), "file: src/lib.rt\nold: x < 2\nnew: x < 3\n")
    write(os.path.join(copy, "crates.txt"), "sample:\n")
    shutil.rmtree(os.path.join(copy, "crates", "logic"))


def bad_layout(copy):
    write(os.path.join(copy, "crates", "logic", "src", "lib.rt"), "const  A:u8=1 ;\n")


def empty_list(copy):
    write(os.path.join(copy, "crates.txt"), "# no crate\n")


def missing_list(copy):
    os.remove(os.path.join(copy, "crates.txt"))


def failing_test(copy):
    write(os.path.join(copy, "tests", "test_other.py"), "import sys\nsys.exit('a fault')\n")


def killed_test(copy):
    write(os.path.join(copy, "tests", "test_other.py"), "import os\nprint('fine', flush=True)\nos.kill(os.getpid(), 9)\n")


def quoted_test(copy):
    write(os.path.join(copy, "tests", 'test_"sample".py'), "import sys\nsys.exit('a fault')\n")


def spaced_test(copy):
    write(os.path.join(copy, "tests", "test_ sample.py"), "import sys\nsys.exit('a fault')\n")


def silent_test(copy):
    write(os.path.join(copy, "tests", "below", "test_silent.py"), "")


def other_test(copy):
    write(os.path.join(copy, "tests", "test_other.txt"), "no program here\n")


def no_test(copy):
    shutil.rmtree(os.path.join(copy, "tests"))


def without_tools(folder):
    """A PATH with the shell's own tools and none of the gate's."""
    for tool in ("sh", "dirname", "tail", "sed", "cat", "mktemp", "rm", "timeout", "find", "sort"):
        os.symlink(shutil.which(tool), os.path.join(folder, tool))
    return folder


# Each fault, with what the gate has to say; without a fault it passes. The tools are on the PATH but for the last case.
CASES = {
    no_fault: None,
    unlisted_crate: "crates/stray/src/lib.rt",
    unproved_function: "the proofs failed",
    edit_that_is_proved: "NOT REFUSED",
    edit_that_fits_nothing: "an edit is bad",
    edit_that_loses_a_name: "an edit only takes away a name",
    bad_layout: "is not in the layout",
    empty_list: "the proofs failed",
    missing_list: "the proofs failed",
    failing_test: "tests/test_other.py: FAILED",
    killed_test: "tests/test_other.py: FAILED",
    quoted_test: 'tests/test_"sample".py: FAILED',
    spaced_test: "tests/test_ sample.py: FAILED",
    silent_test: "tests/below/test_silent.py: FAILED",
    other_test: "tests/test_other.txt: FAILED",
    no_test: "no test under tests/",
    no_tools: "'rt' is not on the PATH",
}


def gate(fault):
    """The gate's exit status, its tally and what it prints, on a scratch copy with the fault."""
    with tempfile.TemporaryDirectory() as room:
        copy = os.path.join(room, "copy")
        scratch(copy)
        fault(copy)
        environment = dict(os.environ)
        if fault is no_tools:
            os.mkdir(os.path.join(room, "bin"))
            environment["PATH"] = without_tools(os.path.join(room, "bin"))
        command = [shutil.which("sh"), os.path.join(copy, ".ci", "run")]
        run = subprocess.run(command, capture_output=True, text=True, env=environment, timeout=300)
    tally = re.fullmatch(r"(\d+) passed, (\d+) failed", run.stdout.strip().split("\n")[-1])
    if not tally:
        raise Problem(f"{fault.__name__}: the gate does not end in its tally:\n{run.stdout}")
    return run.returncode, int(tally.group(1)), int(tally.group(2)), run.stdout


def check(fault):
    status, passed, failed, text = gate(fault)
    word = CASES[fault]
    if word is None:
        if status != 0 or failed != 0 or passed == 0:
            raise Problem(f"the gate does not pass on a good copy:\n{text}")
    elif status == 0 or failed == 0:
        raise Problem(f"{fault.__name__}: the gate passes:\n{text}")
    elif word not in text:
        raise Problem(f"{fault.__name__}: the gate does not say {word!r}:\n{text}")


def main(faults, whole):
    for fault in faults:
        check(fault)
    failing = [fault for fault in faults if CASES[fault]]
    passes = "passes on a good copy and " if no_fault in faults else ""
    print(f"the gate {passes}fails on each of {len(failing)} faulty ones")


if __name__ == "__main__":
    run_test(CASES, main)

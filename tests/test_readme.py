#!/usr/bin/env python3
"""Runs the README's replay command and holds what it prints against the README and reference.py."""

import re
import subprocess
import sys

sys.dont_write_bytecode = True  # leaves no files beside the tests

import reference
from library import ROOT, Problem, run_test

COMMANDS = "    ./replay < examples/session.log", "    .ci/run"
PATIENCE = 500  # seconds; the first use proves and builds the program
ROW = re.compile(r"^\| `([0-9A-F ]+)` \| `([0-9A-F ]+|refused \d+)` \|", re.MULTILINE)


def readme():
    return (ROOT / "README.md").read_text(encoding="utf-8")


def check_commands():
    """The README names its two commands."""
    missing = [command.strip() for command in COMMANDS if command not in readme()]
    if missing:
        raise Problem(f"the README does not name {missing}")
    return f"the README names {len(COMMANDS)} commands"


def check_replay():
    """The first command prints the lines that the README shows, and the reference's."""
    command, rows = COMMANDS[0].strip(), ROW.findall(readme())
    log = (ROOT / "examples" / "session.log").read_bytes()
    run = subprocess.run(command, shell=True, cwd=ROOT, capture_output=True, timeout=PATIENCE)
    if run.returncode != 0:
        raise Problem(f"`{command}` ends with {run.returncode}: {run.stderr.decode()}")
    printed = list(zip(log.decode().splitlines(), run.stdout.decode().splitlines()))
    if len(rows) < 4 or rows != printed[: len(rows)]:
        raise Problem(f"the README shows {rows}, the command takes and prints {printed[:len(rows)]}")
    if run.stdout != reference.replay(log):
        raise Problem(f"`{command}` prints something else than the reference does")
    return f"the first prints its {len(printed)} lines, and the {len(rows)} that are shown"


if __name__ == "__main__":
    run_test((check_commands, check_replay))

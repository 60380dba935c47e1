#!/usr/bin/env python3
"""The tests themselves: no test imports another, none has a check that it never runs, and each takes the name of a check."""

import ast
import re
import subprocess
import sys

sys.dont_write_bytecode = True  # leaves no files beside the tests

from library import ROOT, Problem, run_test

TESTS = sorted((ROOT / "tests").glob("**/test_*.py"))
UNKNOWN = "no check has this name"


def tests_imported(text):
    """The tests that a Python source imports."""
    for node in ast.walk(ast.parse(text)):
        names = [alias.name for alias in node.names] if isinstance(node, ast.Import) else []
        if isinstance(node, ast.ImportFrom):
            names = [node.module or "", *(alias.name for alias in node.names)]
        yield from (name for name in names if name.split(".")[-1].startswith("test_"))


def check_import_sample():
    """An import of a test is found in each form."""
    sample = "import os, test_a\nimport test_b as b\nfrom test_c import d\nfrom tests import test_d\nfrom library import e\n"
    came = list(tests_imported(sample + "def f():\n    import tests.test_e\n"))
    if came != ["test_a", "test_b", "test_c", "test_d", "tests.test_e"]:
        raise Problem(f"the check itself is wrong: {came}")
    return "a sample"


def check_imports():
    """No file under tests/ imports a test: what two tests share is in a helper module."""
    files = sorted((ROOT / "tests").glob("**/*.py"))
    found = {path.name: [*tests_imported(path.read_text(encoding="utf-8"))] for path in files}
    faults = {name: imported for name, imported in found.items() if imported}
    if faults or not TESTS:
        raise Problem(f"imports of tests: {faults}")
    return f"no import of a test in {len(files)} files"


def unused_checks(text):
    """The functions check_... that a source defines and does not use; what a text or a comment says is no use."""
    names = re.findall(r"^def (check_\w+)\(", text, re.M)
    used = {node.id for node in ast.walk(ast.parse(text)) if isinstance(node, ast.Name)}
    return [name for name in names if name not in used]


def check_unused_sample():
    sample = '"""check_a"""\ndef check_a():\n    pass  # check_a\n\n\ndef check_b():\n    pass\n\n\nrun_test((check_b,))\n'
    if unused_checks(sample) != ["check_a"]:
        raise Problem(f"the check itself is wrong: {unused_checks(sample)}")
    return "a sample"


def check_unused():
    """Each check that a test defines is used in it."""
    found = {path.name: unused_checks(path.read_text(encoding="utf-8")) for path in TESTS}
    faults = {name: unused for name, unused in found.items() if unused}
    if faults:
        raise Problem(f"checks that are never run: {faults}")
    return "no check unused"


def run(path, *names):
    words = [sys.executable, "-B", path, *names]
    return subprocess.run(words, cwd=ROOT, capture_output=True, text=True, timeout=60)


def check_unknown_names():
    """A test that is handed an unknown name lists its checks and exits with 2."""
    for path in TESTS:
        done = run(path, UNKNOWN)
        checks = re.findall(r"^def (?:check_)?(\w+)\(", path.read_text(encoding="utf-8"), re.M)
        listed = [name for name in checks if re.search(rf"\b(?:check_)?{name}\b", done.stdout + done.stderr)]
        if done.returncode != 2 or not listed:
            raise Problem(f"{path.name} does not list its checks for an unknown name: {done}")
    return f"{len(TESTS)} tests list their checks"


def check_known_names():
    """A test that is handed a name runs that check alone."""
    done = run(ROOT / "tests" / "test_refusals.py", "check_bare_sample")
    if (done.returncode, done.stdout, done.stderr) != (0, "a sample\n", ""):
        raise Problem(f"test_refusals.py check_bare_sample: {done}")
    return "one check runs alone"


CHECKS = (
    check_import_sample,
    check_imports,
    check_unused_sample,
    check_unused,
    check_unknown_names,
    check_known_names,
)

if __name__ == "__main__":
    run_test(CHECKS)

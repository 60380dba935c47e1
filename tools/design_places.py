#!/usr/bin/env python3
"""Counts the places in crates/*/src that docs/DESIGN-PASS.md speaks of, point by point. `-v` prints each place.

A pattern finds candidates by their text. Whether one is a place of its point is read there; the page has both numbers.
"""

import pathlib
import re
import sys

PATTERNS = {
    "1 an enum that is a value or a refusal": r"^    (?:Refused\(u8\)|NotServed|NotHex),",
    "1 a number or a flag beside a value": r"^    (?:pub )?(?:(?:refusal|answer): u8|outcome: Outcome|(?:ended|done|printed|failed): bool),",
    "1 a refusal answered as a number": r"^(?:pub(?:\(crate\))? )?(?:extern \"C\" )?fn (?:check_\w+|power_up|cdi_power_up|cdi_load)\(.*\) -> u8|^\) -> Outcome|^pub .*\) -> Outcome",
    "1 a length of 0 that says no": r"fn (?:write_(?:block|refused|not_hex)|copy|copy_line)\(.*-> usize",
    "1 a number constant of a kind or a refusal": r"^pub const [A-Z_0-9]+: u8 = ",
    "2 a function that copies bytes into a buffer": r"fn (?:copy|copy_line|put|show|put_data)\(",
    "2 an array of a fixed length from a slice": r"fn (?:name_in|three_in|four_in|row_in|row_of|first_of|value_at)\(",
    "2 a number from bytes, or bytes from a number": r"\* 256|256 \*|% 256|/ 256|\* 0x100\b|fn (?:signed_byte|word|word_at|signed_pair)\(",
    "2 an entry that hands its arguments on": r"^    (?:coyote_c|freestar_c)::\w+\(",
    "3 a loop that counts an index": r"^\s+while |for i in 0\.\.",
    "3 bytes compared one by one": r"^\s+& \(\w+\[i \+ \d\]|\[0\] == \w+\[0\]|\[1\] == \w+\[1\]",
    "4 a conversion written by hand": r"fn (?:bytes|from_bytes|refused|refused_fields|no_response|response|about_no_item|number)\(",
    "4 a struct of zeros written by hand": r"^\s+(?:byte1|place|kind|data_length|memory_space): 0,",
    "4 a chain of comparisons with constants": r"^    +if (?:\w+\.)?(?:item|code|kind)(?:\.code)? == (?:code::)?[A-Z_]+ \{",
    "6 a buffer with a length beside it": r"^\s+(?:size|count|start|end|kept|written|used|from): usize,|: usize, \w+: &\[u8\], \w+: usize",
    "7 a function that is a value": r"\bdyn \w|\bimpl Fn|: fn\(",
}


def places(pattern):
    wanted = re.compile(pattern)
    for path in sorted(pathlib.Path("crates").glob("*/src/*.rt")):
        for number, line in enumerate(path.read_text(encoding="utf-8").splitlines(), 1):
            if wanted.search(line):
                yield f"{path}:{number}: {line.strip()}"


def repeated_clauses():
    """Facts of `requires` that stand in three or more functions of one crate."""
    for crate in sorted(pathlib.Path("crates").iterdir()):
        count = {}
        for path in sorted(crate.glob("src/*.rt")):
            for clause in re.findall(r"^\s+requires \{ (.*) \}$", path.read_text(encoding="utf-8"), re.M):
                for fact in {fact.strip("() ") for fact in clause.split(" × ")}:
                    count[fact] = count.get(fact, 0) + 1
        yield from (f"{crate.name}: {fact} ({n})" for fact, n in sorted(count.items()) if n >= 3)


def main():
    verbose = "-v" in sys.argv[1:]
    for name, pattern in PATTERNS.items():
        found = list(places(pattern))
        print(f"{name}: {len(found)}")
        if verbose:
            print(*(f"    {place}" for place in found), sep="\n")
    repeated = list(repeated_clauses())
    print(f"5 a fact that three functions require: {len(repeated)}")
    if verbose:
        print(*(f"    {fact}" for fact in repeated), sep="\n")
    proofs = [path for name in ("Answers", "Invariants") for path in pathlib.Path("crates").glob(f"*/proofs/**/{name}.antt")]
    lines = sum(len(path.read_text(encoding="utf-8").splitlines()) for path in proofs)
    print(f"8 files of answers and invariants: {len(proofs)}, {lines} lines")


if __name__ == "__main__":
    main()

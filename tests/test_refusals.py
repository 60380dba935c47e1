#!/usr/bin/env python3
"""refusals.py, the table of document 01's "Numbers that a refusal carries" and of document 02's numbers, against all that repeats
it: the enum's cases, the definitions, the C headers, the references in Python, the README and docs/TRACE.md. No other source has a
refusal as a bare number."""

import re
import sys

sys.dont_write_bytecode = True  # leaves no files beside the tests

from library import ROOT, Problem, run_test, same_sets
from refusals import LIBRARIES, NUMBERS, ORDERS, OWN, REFUSALS, entries_of, numbers_of, sequence

SOURCE = "crates/refusal/src/lib.rt"
DEFINITIONS = "crates/refusal/specs/Refusal.antt"
README = "README.md"
TRACE = "docs/TRACE.md"

# Each library's header, and its reference with the head of the section that has the numbers.
HEADERS = {library: f"include/{library}.h" for library in LIBRARIES}
REFERENCES = {
    "cdi": ("tests/reference.py", '# ---- 01, "Numbers that a refusal carries"'),
    "coyote": ("tests/coyote_reference.py", "# ---- Refusals"),
    "freestar": ("tests/freestar_reference.py", "# ---- Refusals"),
}

# A refusal that is written as a number, in the source and in the definitions.
BARE = {
    ".rt": re.compile(r"\bErr\(\s*\d|\brefusal:\s*\d"),
    ".antt": re.compile(r"\b(?:refuse|refused|outcome|result|responded|powered_up)\s+\d|\brefusal\s*=\s*\d"),
}
# What starts a comment that goes to the line's end.
COMMENT = {".rt": "//", ".antt": "--"}


def read(path):
    return (ROOT / path).read_text(encoding="utf-8")


def held(path, text, row, none, named=str, numbers=NUMBERS):
    """Holds the names and numbers that a pattern finds in a file's text against the table, or its part `numbers`; `none` is the
    file's name for 0."""
    found = re.findall(row, text, re.M)
    wanted = {(none, 0), *((named(name), number) for name, number in numbers.items())}
    same_sets("refusals", wanted, "refusals.py", {(name, int(number)) for name, number in found}, path)
    if len(found) != len(wanted):
        raise Problem(f"{path} has a refusal twice: {sorted(found)}")
    return f"{len(wanted)} in {path}"


# ---- Numbers and names -----------------------------------------------------------------------


def check_table():
    """The table's numbers rise, and no name is there twice. The orders have these numbers and no other, and each order is that of a
    library's entry or of the program."""
    numbers = [refusal.number for refusal in REFUSALS]
    if numbers != sorted({*numbers}) or len(NUMBERS) != len(REFUSALS):
        raise Problem(f"a number or a name is there twice, or the numbers do not rise: {REFUSALS}")
    same_sets("numbers", {*numbers}, "REFUSALS", {number for own in OWN.values() for number in own}, "ORDERS")
    entries = {entry for library in LIBRARIES for entry in entries_of(library)}
    same_sets("entries", {*ORDERS}, "ORDERS", {"replay", *entries}, "LIBRARIES")
    return f"{len(REFUSALS)} refusals"


def case(name):
    """The enum's case of a refusal: `EndsEarly` of `ENDS_EARLY`."""
    return "".join(word.capitalize() for word in name.split("_"))


def check_cases():
    """The enum has a case for each refusal, and the one constant is the number of none."""
    return held(SOURCE, read(SOURCE), r"^(?:    |pub const )(\w+)(?:: u8)? = (\d+)[,;]", "NONE", case)


def check_words():
    """The comment above each case says when the refusal is given, in the table's words."""
    found = re.findall(r"^    // (.*)\.\n    (\w+) = [1-9]", read(SOURCE), re.M)
    wanted = {(case(refusal.name), refusal.words[0].upper() + refusal.words[1:]) for refusal in REFUSALS}
    same_sets("words", wanted, "refusals.py", {(name, words) for words, name in found}, SOURCE)
    return "their words"


def check_definitions():
    return held(DEFINITIONS, read(DEFINITIONS), r"^(\w+) = (\d+)$", "none", str.lower)


def held_in_header(library):
    path, prefix = HEADERS[library], f"{library.upper()}_REFUSAL_"
    row = r"^    (\w+_REFUSAL_\w+) = (\d+),? "
    return held(path, read(path), row, f"{prefix}NONE", lambda name: prefix + name, numbers_of(library))


def check_header():
    """Each header has the refusals that its library's entries can give, under the library's prefix; there is no other header."""
    there = {f"include/{path.name}" for path in (ROOT / "include").iterdir()}
    same_sets("headers", {*HEADERS.values()}, "refusals.py", there, "include")
    return ", ".join(map(held_in_header, LIBRARIES))


def section_of(text, head):
    """The section of a Python source that begins with a comment, up to the next such comment."""
    return text.partition(f"\n{head}")[2].partition("\n# ---- ")[0]


def check_reference():
    """So has each library's reference."""
    same_sets("libraries", {*LIBRARIES}, "refusals.py", {*REFERENCES}, "REFERENCES")
    return ", ".join(
        held(path, section_of(read(path), head), r"^([A-Z_]+) = (\d+)$", "ACCEPTED", numbers=numbers_of(library))
        for library, (path, head) in REFERENCES.items()
    )


def check_readme():
    """What the README says of a number, as `refused 12` is `CDI_REFUSAL_...`."""
    said = re.findall(r"`refused (\d+)` is\s+`[A-Z]+_REFUSAL_(\w+)`", read(README))
    wrong = [(number, name) for number, name in said if NUMBERS.get(name) != int(number)]
    if wrong or not said:
        raise Problem(f"{README} says nothing of a refusal's number, or something wrong: {wrong}")
    return f"{len(said)} in {README}"


def check_trace():
    """One row a number, whose first cell begins with the number and the constant's name."""
    rows = re.findall(r"^\| (\d+) `([A-Z_]+)` ", read(TRACE), re.M)
    wanted = [(str(number), name) for name, number in NUMBERS.items()]
    if rows != wanted:
        raise Problem(f"{TRACE} has not one row a number: {rows}, expected {wanted}")
    return f"{len(rows)} rows in {TRACE}"


# ---- Orders ----------------------------------------------------------------------------------


def functions_in(header):
    """The functions of a header, each with the comment above it."""
    return {name: comment for comment, name in re.findall(r"^/\*((?:(?!\*/)[\s\S])*)\*/\n\w+ (\w+)\(", header, re.M)}


# A refusal's name in a comment, or the words that take the rest from another function's order.
SAID = re.compile(r"from ([A-Z_]+) on as for ([a-z]\w+)|\b([A-Z][A-Z_]+)\b")


def order_said(comments, function):
    """The numbers that a function's comment names, in its order."""
    numbers = []
    for start, other, name in SAID.findall(comments[function].replace("\n *", "")):
        if name in NUMBERS:
            numbers.append(NUMBERS[name])
        elif other:
            rest = order_said(comments, other)
            numbers += rest[rest.index(NUMBERS[start]) :]
    return numbers


def orders_in(header, entries):
    """Holds what a header's comments say against the orders of its entries."""
    comments = functions_in(read(header))
    for function in sorted({*entries, *comments}):
        if function not in comments:
            raise Problem(f"{header} has no function {function} with a comment")
        wanted, said = sequence(function) if function in entries else [], order_said(comments, function)
        if wanted != said:
            raise Problem(f"{header}: {function} refuses with {wanted}, and its comment says {said}")
        if not wanted and "refuses nothing" not in comments[function]:
            raise Problem(f"{header}: {function} refuses nothing, and its comment does not say so")
    return f"{len(entries)} orders in {header}"


def check_header_orders():
    """Each function's comment names its refusals in the table's order; without one it refuses nothing, and says so."""
    return ", ".join(orders_in(header, entries_of(library)) for library, header in HEADERS.items())


def check_header_sample():
    """An order is read from a comment, also one that goes on as another does."""
    header = "/*\n * Refusals: INVALID; ENDS_EARLY\n * or BAD_START.\n */\nint cdi_one(void);\n\n/* A note. */\n\n"
    header += "/* Refusals: IMAGE_LENGTH; then\n * from ENDS_EARLY on as for\n * cdi_one. */\nint cdi_two(\n    int x);\n"
    comments = functions_in(header)
    came = {name: order_said(comments, name) for name in comments}
    if came != {"cdi_one": [2, 3, 4], "cdi_two": [17, 3, 4]}:
        raise Problem(f"the check itself is wrong: {came}")
    return "a sample"


def check_trace_orders():
    """One row an entry, whose first cell ends with the entry and its order."""
    rows = re.findall(r"^\| [^|`]*`(\w+)`: (\d[\d, to]*) \|", read(TRACE), re.M)
    if sorted(rows) != sorted(ORDERS.items()):
        raise Problem(f"{TRACE} has not one row an entry: {sorted(rows)}, expected {sorted(ORDERS.items())}")
    return f"{len(rows)} orders in {TRACE}"


# ---- Use -------------------------------------------------------------------------------------


def code(extension, text):
    """A text without its comments."""
    return "\n".join(line.split(COMMENT[extension])[0] for line in text.split("\n"))


def sources():
    """The sources and definitions of all crates but `refusal`: path, ending and text. Proofs are not among them."""
    for path in sorted((ROOT / "crates").glob("*/s*/**/*")):
        if path.suffix in BARE and path.relative_to(ROOT).parts[1] != "refusal":
            yield path.relative_to(ROOT), path.suffix, code(path.suffix, path.read_text(encoding="utf-8"))


def check_given():
    """Each number is given somewhere: a source names the enum's case, and a definition the number."""
    words = {".rt": set(), ".antt": set()}
    for _, extension, text in sources():
        words[extension] |= set(re.findall(r"\w+", text))
    unused = [name for name in NUMBERS if case(name) not in words[".rt"] or name.lower() not in words[".antt"]]
    if unused:
        raise Problem(f"no source, or no definition, gives {unused}")
    return "each given by a source and a definition"


def bare_numbers(extension, text):
    """The lines on which a bare number begins."""
    return [text.count("\n", 0, found.start()) + 1 for found in BARE[extension].finditer(text)]


def check_bare_sample():
    source = "a\nreturn Err(\n    3,\n);\n// Err(4)\n"
    definition = "(refused 12)\n-- refused 7\n(result 15 0)\n(refuse 2)\n"
    came = bare_numbers(".rt", code(".rt", source)), bare_numbers(".antt", code(".antt", definition))
    if came != ([2], [1, 3, 4]):
        raise Problem(f"the search for bare numbers is wrong: {came}")
    return "a sample"


def check_bare():
    """No source and no definition has a refusal as a bare number; comments may."""
    found = [(path, bare_numbers(extension, text)) for path, extension, text in sources()]
    faults = [f"{path}:{line}: a refusal as a bare number" for path, lines in found for line in lines]
    if faults or not found:
        raise Problem("\n".join(faults) or "no source is found")
    return f"none bare in {len(found)} files"


CHECKS = (
    check_table,
    check_cases,
    check_words,
    check_definitions,
    check_header,
    check_reference,
    check_readme,
    check_header_sample,
    check_header_orders,
    check_given,
    check_bare_sample,
    check_bare,
    check_trace,
    check_trace_orders,
)

if __name__ == "__main__":
    run_test(CHECKS)

#!/usr/bin/env python3
"""docs/TRACE.md: each row of its tables has a rule and two cells for its homes, "Says it" and "Would notice". A cell has one home
that exists, or a reason in words. A home is a path and one name that this file defines, the path of an edit, or a decision's id. What
would notice is no definition and no source. A quote of the paper has a few words. "Reading order" lists every file of definitions
once."""

import os
import re
import sys

sys.dont_write_bytecode = True  # leaves no files beside the tests

from documents import (
    LETTER_OR_HYPHEN,
    ROOT,
    TRACE,
    decision_ids,
    expect,
    files,
    form_of,
    is_in,
    paragraphs,
    read,
    rows_of,
    searched,
)
from library import Problem, run_test

QUOTE_MAX = 5  # words
REASON_MIN = 3  # words
HOME = re.compile(r"`([^`]+)`(?:: `([^`]+)`)?")
READING, TIED = "## Reading order", "### Tied to these"
NOTICES_NOTHING = re.compile(r"crates/\w+/(?:specs|src)/")
# How a file defines a name, by its ending: in definitions and proofs the name comes before its type.
DEFINITION = {
    ".antt": rf"^[^:=(]*(?<!{LETTER_OR_HYPHEN})%s(?!{LETTER_OR_HYPHEN})[^:=]*:",
    ".h": r"\b%s(?:\(|;| =)",
    ".py": r"^(?:def|class) %s\b|^%s =",
    ".rt": r"\b(?:fn|struct|enum|const) %s\b",
}


def file_of(path):
    """The file that a path names, from the root on, or none."""
    found = [one for one in (path, f"crates/{path}") if os.path.isfile(os.path.join(ROOT, one))]
    return found[0] if found else None


def defines(path, name):
    """Whether a file defines a name; a document does where it has the word."""
    pattern = DEFINITION.get(os.path.splitext(path)[1])
    if pattern is None:
        return is_in(name, path)
    return any(re.search(pattern.replace("%s", re.escape(name)), line) for line in searched(path).split("\n"))


def home_faults(path, name):
    """What is wrong with a home."""
    if form_of(path) == "id":
        if name or path not in decision_ids():
            yield f"there is no decision {path}" if not name else f"a name after the decision {path}"
    elif file_of(path) is None:
        yield f"there is no file {path}"
    elif name is None and not path.endswith(".edit"):
        yield f"no name after {path}"
    elif name and not defines(file_of(path), name):
        yield f"`{name}` is not defined in {file_of(path)}"


def cell_faults(cell):
    """What is wrong with a cell that has a home, or a reason why there is none."""
    home = HOME.fullmatch(cell)
    if home:
        yield from home_faults(*home.groups())
    elif "`" in cell:
        yield f"more or less than one home: {cell}"
    elif len(cell.split()) < REASON_MIN:
        yield f"neither a home nor a reason: {cell}"


def row_faults(cells):
    """What is wrong with a row."""
    if len(cells) != 3 or not cells[0]:
        yield "a row is a rule and two cells for its homes"
        return
    for quote in re.findall(r'"([^"]*)"', cells[0]):
        if len(quote.split()) > QUOTE_MAX:
            yield f'a quote of {len(quote.split())} words: "{quote}"'
    for cell in cells[1:]:
        yield from cell_faults(cell)
    notices = HOME.fullmatch(cells[2])
    if notices and NOTICES_NOTHING.match(file_of(notices.group(1)) or ""):
        yield f"a definition or a source notices nothing: {cells[2]}"


def check_rows():
    """Each row has its homes, and they exist."""
    rows = [*rows_of(read(TRACE))]
    faults = [f"{TRACE}:{number}: {cells[0]}: {fault}" for number, _, cells in rows for fault in row_faults(cells)]
    if faults:
        raise Problem("\n".join(faults))
    if not rows:
        raise Problem(f"{TRACE} has no row")
    homes = sum(1 for _, _, cells in rows for cell in cells[1:] if HOME.fullmatch(cell))
    return f"{homes} homes of {len(rows)} rules"


# ---- Reading order ----------------------------------------------------------------------------


def items_of(text):
    """The items of the lists under "Reading order", each with the number of its line, whether it is tied, and its words."""
    section = part = ""
    for number, paragraph in paragraphs(text):
        if paragraph.startswith("## "):
            section, part = paragraph, ""
        elif paragraph.startswith("### "):
            part = paragraph
        elif section == READING and paragraph.startswith("- "):
            yield number, part == TIED, paragraph[2:]


def reading_faults(items, wanted):
    """What is wrong with the lists: each file of definitions is an item once, with words, and a tied one with a home that ties it."""
    listed = []
    for number, tied, item in items:
        path, _, phrase = item.partition(": ")
        listed.append(file_of(path.strip("`")) or path)
        ties = [home for home in HOME.findall(phrase) if home[1]]
        if not phrase:
            yield f"{TRACE}:{number}: {path} has no words"
        if tied and not ties and not phrase.endswith("nothing rests on it"):
            yield f"{TRACE}:{number}: {path} is tied by nothing"
        yield from (f"{TRACE}:{number}: {fault}" for home in ties for fault in home_faults(*home))
    for path in sorted({*wanted, *listed}):
        if listed.count(path) != wanted.count(path):
            yield f"{TRACE}: {READING[3:]}: {path} is listed {listed.count(path)} times, and should be {wanted.count(path)} times"


def check_reading_order():
    """Every file of definitions but Lib.antt is listed once."""
    wanted = [path for path in files() if re.fullmatch(r"crates/\w+/specs/(?!Lib\.)\w+\.antt", path)]
    faults = [*reading_faults(items_of(read(TRACE)), wanted)]
    if faults or not wanted:
        raise Problem("\n".join(faults) or "there is no file of definitions")
    return f"{len(wanted)} files of definitions in reading order"


# ---- The checks themselves --------------------------------------------------------------------

GOOD = "`refusal/specs/Refusal.antt`: `outcome_of`"
NOTICES = "`tests/test_trace.py`: `check_rows`"
SAMPLES = (
    (['"a few words of it"', GOOD, NOTICES], []),
    (["a", "`FRAME-1`", "`refusal/must-fail/refused_writes.edit`"], []),
    (["a", "no home for a reason", "a reader of it"], []),
    (["a", GOOD], ["a row is a rule and two cells for its homes"]),
    (["", GOOD, NOTICES], ["a row is a rule and two cells for its homes"]),
    (['"a quote of too many words"', GOOD, NOTICES], ['a quote of 6 words: "a quote of too many words"']),
    (["a", "", NOTICES], ["neither a home nor a reason: "]),
    (["a", "none", NOTICES], ["neither a home nor a reason: none"]),
    (["a", f"{GOOD}; {NOTICES}", NOTICES], [f"more or less than one home: {GOOD}; {NOTICES}"]),
    (["a", f"{GOOD}, `outcome`", NOTICES], [f"more or less than one home: {GOOD}, `outcome`"]),
    (["a", "`refusal/specs/None.antt`: `outcome_of`", NOTICES], ["there is no file refusal/specs/None.antt"]),
    (["a", "`outcome_of`", NOTICES], ["there is no file outcome_of"]),
    (["a", "`refusal/specs/Refusal.antt`", NOTICES], ["no name after refusal/specs/Refusal.antt"]),
    (["a", "`refusal/specs/Refusal.antt`: `outcomeO`", NOTICES], ["`outcomeO` is not defined in crates/refusal/specs/Refusal.antt"]),
    (["a", "`refusal/specs/Refusal.antt`: `written`", NOTICES], ["`written` is not defined in crates/refusal/specs/Refusal.antt"]),
    (["a", "`refusal/src/lib.rt`: `number`", "`tests/reference.py`: `execute`"], []),
    (["a", "`refusal/src/lib.rt`: `length`", NOTICES], ["`length` is not defined in crates/refusal/src/lib.rt"]),
    (["a", "`include/cdi.h`: `cdi_module_state`", "`sequence/specs/Machine.antt`: `none`"], [
        "`none` is not defined in crates/sequence/specs/Machine.antt", "a definition or a source notices nothing: `sequence/specs/Machine.antt`: `none`"
    ]),
    (["a", GOOD, "`tests/reference.py`: `namedtuple`"], ["`namedtuple` is not defined in tests/reference.py"]),
    (["a", "`FRAME-99`", NOTICES], ["there is no decision FRAME-99"]),
    (["a", "`FRAME-1`: `x`", NOTICES], ["a name after the decision FRAME-1"]),
    (["a", GOOD, GOOD], [f"a definition or a source notices nothing: {GOOD}"]),
)
ORDER = f"""x
{READING}

- `a`: not in a list
### To believe
- `refusal/specs/Refusal.antt`: the numbers by name
- `refusal/specs/Refusal.antt`: the numbers by name
- `logic/specs/Signed.antt`
{TIED}
- `logic/specs/Written.antt`: bytes of a buffer; `refusal/proofs/None.antt`: `none`
- `logic/specs/Lists.antt`: parts of a list
- `probe/specs/Probe.antt`: numbers for tests; nothing rests on it

## Next
- `b`: not in the section
"""


def check_samples():
    """The faults of some rows and of a list are found, and no others."""
    for cells, faults in SAMPLES:
        expect(cells, faults, [*row_faults(cells)])
    wanted = [f"crates/{path}.antt" for path in ("refusal/specs/Refusal", "logic/specs/Written", "logic/specs/Lists", "probe/specs/Probe", "analog/specs/Analog")]
    faults = [
        f"{TRACE}:8: `logic/specs/Signed.antt` has no words",
        f"{TRACE}:10: there is no file refusal/proofs/None.antt",
        f"{TRACE}:11: `logic/specs/Lists.antt` is tied by nothing",
        f"{TRACE}: Reading order: `a` is listed 1 times, and should be 0 times",
        f"{TRACE}: Reading order: crates/analog/specs/Analog.antt is listed 0 times, and should be 1 times",
        f"{TRACE}: Reading order: crates/logic/specs/Signed.antt is listed 1 times, and should be 0 times",
        f"{TRACE}: Reading order: crates/refusal/specs/Refusal.antt is listed 2 times, and should be 1 times",
    ]
    expect("a reading order", faults, [*reading_faults(items_of(ORDER), wanted)])
    return f"{len(SAMPLES)} samples"


CHECKS = (check_samples, check_rows, check_reading_order)


if __name__ == "__main__":
    run_test(CHECKS)

#!/usr/bin/env python3
"""What the documents name exists: every path and every name in backticks, by the rules at the head of documents.py, every file
that a link leads to, and every decision that a file of the repository cites by its id."""

import collections
import os
import re
import sys

sys.dont_write_bytecode = True  # leaves no files beside the tests

from documents import (
    BUILT,
    DECISIONS,
    ID,
    NO_SOURCES,
    PAST,
    ROOT,
    TOKEN,
    crates,
    decision_ids,
    documents,
    expect,
    files,
    form_of,
    found_at,
    is_in,
    is_known,
    is_path,
    passages,
    read,
    rows_of,
    sources,
    unknown_in_goal,
)
from library import Problem, run_test

LINK = re.compile(r"\[[^\]]*\]\(([^)\s]+)\)")
ELSEWHERE = re.compile(r"\w+:|#")  # another site, or a place in the same document

# ---- Paths and names --------------------------------------------------------------------------


class Passage:
    """A passage's tokens, and what it has named so far."""

    def __init__(self, text):
        found = [*TOKEN.finditer(text)]
        self.tokens = [one.group(1) for one in found]
        # what is between a token and the next
        self.joints = [" ".join(text[one.end() : two.start()].split()) for one, two in zip(found, found[1:])] + [""]
        self.bases = ["", "crates"]  # what a path may be relative to
        self.source = None  # the last source that was named

    def name_folder(self, path):
        """From now on a path may be relative to the folder or the crate of this one; what was named last goes first."""
        folder = path if os.path.isdir(os.path.join(ROOT, path)) else os.path.dirname(path)
        crate = "/".join(path.split("/")[:2]) if path.startswith("crates/") else ""
        self.bases = [folder, crate, *self.bases]

    def homes_of(self, place):
        """The sources that a name has to be in, or none if it may be in any."""
        after = self.tokens[place + 1] if self.joints[place] in ("in", "(") else ""
        if after in crates():
            return [path for path in sources() if path.startswith(f"crates/{after}/")]
        found = found_at(after, self.bases) if after and form_of(after) == "path" else []
        if len(found) == 1 and found[0] in sources():
            return found
        return [self.source] if self.source else []

    def path_faults(self, path):
        if path.removeprefix("./").startswith("target/"):
            return
        found = found_at(path, self.bases)
        if not found:
            yield f"the path `{path}` does not exist"
        elif len(found) == 1:
            self.name_folder(found[0])
            if found[0] in sources() and "." in os.path.basename(found[0]):  # a script defines nothing
                self.source = found[0]

    def name_faults(self, place):
        name = self.tokens[place]
        if name in crates():
            self.name_folder(f"crates/{name}")
            return
        homes = [] if name.endswith(BUILT) else self.homes_of(place)
        if homes and not any(is_in(name, path) for path in homes):
            yield f"`{name}` is not in {homes[0] if len(homes) == 1 else 'the crate'}"
        elif not homes and not is_known(name):
            yield f"`{name}` is in no source"

    def faults(self):
        for place, token in enumerate(self.tokens):
            form = form_of(token)
            if form == "text":
                for word in token.split():
                    yield from self.path_faults(word) if "/" in word and is_path(word) else ()
            elif form == "path":
                yield from self.path_faults(token)
            elif form == "name":
                yield from self.name_faults(place)
            elif form == "goal":
                yield from (f"`{word}` of the goal `{token}` is in no source" for word in unknown_in_goal(token))
            elif form == "id" and token not in decision_ids():
                yield f"there is no decision {token}"


def check_names():
    """Every path, name and id in backticks exists, but on the page that names what is gone."""
    faults, seen = [], collections.Counter()
    for document in (path for path in documents() if path not in PAST):
        for number, text in passages(read(document)):
            passage = Passage(text)
            faults += [f"{document}:{number}: {fault}" for fault in passage.faults()]
            seen.update(form_of(token) for token in passage.tokens)
    if faults:
        raise Problem("\n".join(faults))
    if not seen["path"] or not seen["name"]:
        raise Problem("the documents name nothing")
    return f"{seen['path']} paths, {seen['name']} names, {seen['goal']} goals and {seen['id']} ids in {len(documents())} documents"


# ---- Links and ids ----------------------------------------------------------------------------


def broken_links(document, text):
    """The links of a document's text that lead to no file."""
    for number, passage in passages(text):
        for target in LINK.findall(TOKEN.sub("", passage)):
            path = os.path.join(ROOT, os.path.dirname(document), target.split("#")[0])
            if not ELSEWHERE.match(target) and not os.path.exists(path):
                yield f"{document}:{number}: the link leads to no file: {target}"


def check_links():
    """Every link to a file leads to one."""
    faults = [fault for document in documents() for fault in broken_links(document, read(document))]
    if faults:
        raise Problem("\n".join(faults))
    return f"{sum(len(LINK.findall(read(document))) for document in documents())} links"


def id_faults(rows):
    """What is wrong with the ids of decisions: each row has one, none is given twice, and a prefix belongs to one section."""
    given, prefixes = collections.Counter(cells[0] for _, _, cells in rows), {}
    for number, section, cells in rows:
        if not ID.fullmatch(cells[0]):
            yield f"{DECISIONS}:{number}: no id: {cells[0]}"
        elif given[cells[0]] > 1:
            yield f"{DECISIONS}:{number}: {cells[0]} is given {given[cells[0]]} times"
        elif prefixes.setdefault(cells[0].split("-")[0], section) != section:
            yield f"{DECISIONS}:{number}: the prefix of {cells[0]} belongs to another section"


def unknown_ids(path, text, ids):
    """The ids that a text cites and no decision has. An id is a word with a prefix of some decision, or any such word beside the name DECISIONS."""
    prefixes = {one.split("-")[0] for one in ids}
    for number, line in enumerate(text.split("\n"), 1):
        for word in re.findall(rf"(?<![\w-]){ID.pattern}(?![\w-])", line):
            if word not in ids and (word.split("-")[0] in prefixes or "DECISIONS" in line):
                yield f"{path}:{number}: there is no decision {word}"


def check_ids():
    """The ids of the decisions are unique, and every one that a file cites exists."""
    ids = decision_ids()
    faults = [*id_faults([*rows_of(read(DECISIONS))])]
    cited = 0
    for path in files():
        if path not in NO_SOURCES:
            faults += unknown_ids(path, read(path), ids)
            cited += path != DECISIONS and len(set(re.findall(r"[A-Z]+-[0-9]+", read(path))) & set(ids))
    if faults:
        raise Problem("\n".join(faults))
    return f"{len(ids)} decisions, {cited} citations"


# ---- The checks themselves --------------------------------------------------------------------

# A passage, and its faults.
SAMPLES = {
    "`docs/TRACE.md`, `cdi_item/specs/Items.antt`, `tests/`, `./replay`, `.ci/run`, `crates.txt`": [],
    "`docs/NONE.md` and `cdi_item/specs/None.antt`": ["the path `docs/NONE.md` does not exist", "the path `cdi_item/specs/None.antt` does not exist"],
    # patterns, and what is built
    "`crates/NAME/specs/`, `crates/*/must-fail/*.edit`, `tests/test_NAME.py`, `proofs/F/Answers.antt`, `target/sdk/none`": [],
    "`crates/NAME/none/`, `tests/none_*.py`": ["the path `crates/NAME/none/` does not exist", "the path `tests/none_*.py` does not exist"],
    # relative to what was named before
    "`logic`: `specs/Written.antt`, `Signed.antt`": [],
    "`logic`: `specs/Items.antt`": ["the path `specs/Items.antt` does not exist"],
    "`sequence/specs/Model.antt`, and of `cdi_model` `specs/Model.antt`: `decide_block`": [],
    "`specs/Written.antt`": [],
    "`specs/None.antt`": ["the path `specs/None.antt` does not exist"],
    "`reference.py`, `Answers.antt`": [],
    "`none.py`": ["the path `none.py` does not exist"],
    # names
    "`read_frame`, `WAKE_LIMIT`, `cdi_execute`, `check_wakes`, `examples_hold`, `libcdi.so`, `seventeen_wakes`": [],
    "`readFram`, `examples-hol`, `none_such`": ["`readFram` is in no source", "`examples-hol` is in no source", "`none_such` is in no source"],
    "`Document`": ["`Document` is in no source"],  # in comments alone
    "`include/cdi.h` and `lib/libcdi.a` under `target/sdk`": [],
    "`lib/libnone.a`": ["`lib/libnone.a` is in no source"],
    "`cdi_module::execute`, `Slot::bytes`": [],
    "`cdi_host::execute`, `Slot::readout`": ["`cdi_host::execute` is in no source", "`Slot::readout` is in no source"],
    # names of a file or a crate
    "`refusal/specs/Refusal.antt`: `outcome_of` and `ends_early`": [],
    "`refusal/specs/Refusal.antt`: `read_frame`": ["`read_frame` is not in crates/refusal/specs/Refusal.antt"],
    "`refusal/specs/Refusal.antt` has no `Written`": ["`Written` is not in crates/refusal/specs/Refusal.antt"],  # in an import alone
    "`refusal/specs/Refusal.antt`, and `read_frame` in `cdi_frame/specs/Frame.antt`": [],
    "`read_frame` in `cdi_frame`, `read_frame` in `cdi_item`": ["`read_frame` is not in the crate"],
    # goals
    "`returns`, `returns-then-block`, `loop-i-preserved`, `wake_end-requires`, `returns-then-number-eq0`, `returns-in-134`": [],
    "`returns-99`, `none_such-requires`": ["`99` of the goal `returns-99` is in no source", "`none_such` of the goal `none_such-requires` is in no source"],
    # ids
    "`FRAME-1`": [],
    "`FRAME-99` and `NONE-1`": ["there is no decision FRAME-99", "there is no decision NONE-1"],
    # text
    "`80 55 82`, `FF`, `FFE0`, `0x81`, `22`, `refused 3`, `not hex`, `gcc -O2`, `λ r. r ≡ x`, `[81 00]`, `scale * sum_of rs / length rs`": [],
    "`./replay < examples/session.log`": [],
    "`./replay < examples/none.log`": ["the path `examples/none.log` does not exist"],
}


def check_samples():
    """The faults of some passages are found, and no others."""
    for text, faults in SAMPLES.items():
        expect(text, faults, [*Passage(text).faults()])
    text = "# A `b`\n\nOne `c. d`. Two\nlines.\n\n    code `x`\n\n```c\ncode `y`\n```\n| a | b |\n|---|---|\n| 1. | 2 |\n- i\n- j\n"
    wanted = [(1, "# A `b`"), (3, "One `c. d`. "), (3, "Two\nlines."), (11, "| a | b |"), (12, "|---|---|"), (13, "| 1. | 2 |"), (14, "- i"), (15, "- j")]
    expect("passages", wanted, [*passages(text)])
    links = "[a](TRACE.md) [b](../README.md#top) [c](https://a.b/c) [d](#e) [f](none.md) `[g](none.md)`"
    expect("links", ["docs/X.md:1: the link leads to no file: none.md"], [*broken_links("docs/X.md", links)])
    rows = [(1, "## A", ["A-1"]), (2, "## A", ["A-1"]), (3, "## A", ["x"]), (4, "## A", ["A-2"]), (5, "## B", ["A-3"])]
    came = [fault.split(": ", 1)[1] for fault in id_faults(rows)]
    expect("ids", ["A-1 is given 2 times", "A-1 is given 2 times", "no id: x", "the prefix of A-3 belongs to another section"], came)
    came = [*unknown_ids("x", "A-1, A-2, UTF-8, BA-3, A-4-5\nDECISIONS B-1", ("A-1",))]
    expect("cited ids", ["x:1: there is no decision A-2", "x:2: there is no decision B-1"], came)
    return f"{len(SAMPLES)} samples"


CHECKS = (check_samples, check_names, check_links, check_ids)


if __name__ == "__main__":
    run_test(CHECKS)

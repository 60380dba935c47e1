#!/usr/bin/env python3
"""Brings this repository's own names in .rt, .antt and .edit files to the spelling of today's Rattle.

usage: python3 tools/respell.py [--check]      at the top of the repository, once, after the toolchain's port.py

Definitions, fields, constructors and lemmas are in snake case: 'readFrame' becomes 'read_frame'. A dash joins two names, so it stays between
two names that are defined ('length-written') and becomes '_' beside a plain word ('written-front' becomes 'written_front'). A lemma that would
have its definition's name gets '_lem'.
Functions, types, constants and fields of src/ keep their names, and so do names that the check generates. What would fall together is in
APART and LEMMAS. --check prints the table and what falls together, and writes nothing.
"""

import collections
import os
import re
import sys

# A word of antt: what it separates from its neighbours.
WORD = re.compile(r"(?<![\w'\-·])[^\W\d][\w']*(?:-[\w'ℕℤ]+)*(?![\w'\-])")
DEFINED = re.compile(r"^ *(?:(?:pub|abbrev|unfoldable|record|data|mutual) +)*([^\s:(){}⌜]+) +:(?: |$)", re.M)
# Names that would fall together with a field, a crate, a parameter or a lemma under their new spelling.
APART = {
    "controlSource": "control_source_code",
    "interruptMask": "interrupt_mask_code",
    "latchMask": "latch_mask_code",
    "lineMask": "line_mask_code",
    "messageSelect": "message_select_code",
    "txPower": "tx_power_code",
    "dataStart": "start_of_data",
    "panId": "pan_id_cell",
    "shortAddress": "short_address_cell",
    "longAddress": "long_address_cell",
    "wakeLimit": "command_wake_limit",
    "hexText": "text_in_hex",
    "asRead": "as_a_read",
    "decideBy": "decision_by",
    "goesOn": "turn_goes_on",
    "heldTo": "held_up_to",
    "spot-of": "spot_is",
    "has-key": "has_key_lem",
}
# Lemmas that have the name that their definition gets.
LEMMAS = {
    "crates/hex_text/": {"is_block": "is_block_lem"},
    "crates/cdi_command/": {"is_read": "is_read_lem"},
    "crates/cdi_decode/": {"is_read": "is_read_lem"},
    "crates/cdi_responses/": {"is_read": "what_is_read"},
    "crates/replay_text/": {"last_line": "last_line_lem"},
    "crates/replay/": {"last_line": "last_line_lem"},
    "crates/cdi_image/": {"same_bytes": "same_bytes_lem"},
    "crates/in_place/": {"to_one": "to_one_lem"},
}
# Words of the toolchain's libraries that a name of this repository is joined from, beside the definitions here.
LIBRARY = "length take drop set sets get_or append replicate map cond reverse".split()


def files(root, ends):
    for top in ("crates", "tests/edits"):
        for folder, dirs, names in os.walk(os.path.join(root, top)):
            dirs[:] = sorted(d for d in dirs if d != "out")
            for name in sorted(names):
                if name.endswith(ends):
                    yield os.path.join(folder, name)


def read(path):
    with open(path, encoding="utf-8") as file:
        return file.read()


def snake(name):
    name = re.sub(r"([a-z0-9])([A-Z])", lambda m: m.group(1) + "_" + m.group(2).lower(), name)
    return re.sub(r"([a-z0-9])-([A-Z])", lambda m: m.group(1) + "-" + m.group(2), name)


def is_camel(name):
    return re.match(r"[a-z][A-Za-z0-9_']*$", name) and re.search(r"[A-Z]", name)


def own_names(root):
    """The definitions and the lemmas of this repository, without the names of goals."""
    plain, dashed = collections.defaultdict(set), collections.defaultdict(set)
    for path in files(root, ".antt"):
        code = re.sub(r"--[^\n]*", "", read(path))
        for match in DEFINED.finditer(code):
            name = match.group(1)
            kind = code[match.end():match.end() + 40]
            if re.match(r"\s*(tie|goal)\.", kind) or name.startswith(("invariant-", "decreases-", "ghost-")):
                continue
            (dashed if "-" in name else plain)[name].add(os.path.relpath(path, root))
    return plain, dashed


def table(root):
    plain, dashed = own_names(root)
    names = {n: APART.get(n) or snake(n) for n in plain if is_camel(n)}
    defined = set(LIBRARY) | {names.get(n, n) for n in plain}
    for name in dashed:
        parts = [names.get(p) or (snake(p) if is_camel(p) else p) for p in name.split("-")]
        turned = parts[0]
        for part in parts[1:]:
            front = turned.split("-")[-1]
            turned += ("-" if front in defined and part in defined else "_") + part
        if turned != name:
            names[name] = APART.get(name) or (turned + "_lem" if turned in defined else turned)
    return names


def in_comment(text, own):
    """A comment speaks of a definition by its name, and of a lemma between backquotes: a plain 'power-up' is no lemma."""
    text = WORD.sub(lambda m: own.get(m.group(0), m.group(0)) if "-" not in m.group(0) else m.group(0), text)
    return re.sub(r"`[^`]*`", lambda s: WORD.sub(lambda m: own.get(m.group(0), m.group(0)), s.group(0)), text)


def turn(root, path, text, names):
    own = dict(names)
    if not path.endswith(".rt"):
        for folder, some in LEMMAS.items():
            if os.path.relpath(path, root).startswith(folder):
                own.update(some)
    lines = []
    for line in text.split("\n"):
        if path.endswith(".edit"):
            code, comment = (line, "") if line.startswith(("old: ", "new: ")) else ("", line)
        else:
            at = re.search(r"//" if path.endswith(".rt") else r"(?<![^\s(){}])--(?= |$)", line)
            code, comment = (line[:at.start()], line[at.start():]) if at else (line, "")
        lines.append(WORD.sub(lambda m: own.get(m.group(0), m.group(0)), code) + in_comment(comment, own))
    return "\n".join(lines)


def main():
    root = os.getcwd()
    names = table(root)
    plain, dashed = own_names(root)
    if "--check" in sys.argv[1:]:
        back = collections.defaultdict(list)
        for old, new in names.items():
            back[new].append(old)
        for old, new in sorted(names.items()):
            also = [o for o in back[new] if o != old] + ([new] if new in plain or new in dashed else [])
            print(old, new, ("together with " + " ".join(also)) if also else "", sep="\t")
        return
    changed = 0
    for path in files(root, (".antt", ".rt", ".edit")):
        text = read(path)
        new = turn(root, path, text, names)
        if new != text:
            with open(path, "w", encoding="utf-8") as file:
                file.write(new)
            changed += 1
    print(f"respell: {len(names)} names, {changed} files")


if __name__ == "__main__":
    main()

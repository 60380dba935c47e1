#!/usr/bin/env python3
"""Reads the public functions, their contracts and the edits from the sources, and makes docs/CONTRACTS.md of them.

    python3 tests/contracts.py      writes docs/CONTRACTS.md

tests/test_contracts.py holds the rules about what is read here.
"""
import collections
import os
import re

ROOT = os.path.dirname(os.path.dirname(os.path.abspath(__file__)))
DOCUMENT = "docs/CONTRACTS.md"
COMMAND = "python3 tests/contracts.py"
GATE, MORE = "gate", ".ci/more"


def read(path):
    with open(os.path.join(ROOT, path), encoding="utf-8") as file:
        return file.read()


def names_in(*parts):
    """The names in a folder, in order; none where there is no such folder."""
    folder = os.path.join(ROOT, *parts)
    return sorted(os.listdir(folder)) if os.path.isdir(folder) else []


def quoted(names):
    return ", ".join(f"`{name}`" for name in names)


def depends():
    """The crates in the order of crates.txt, each with the crates that it depends on. A static library has a word before the colon."""
    found = re.findall(r"^(\w+)(?: \w+)*:(.*)$", read("crates.txt"), re.M)
    return {name: others.split() for name, others in found}


def crates():
    return list(depends())


# ---- Items of a source -----------------------------------------------------------------------

# A function, a constant, a type or a definition. `text` goes from its first line to the next item. For a function, `head` is what is before
# the body, and `contract` is that with what a trait's ghost member promises of it; for any other item both are empty. `start` and `line` say
# where it begins.
Item = collections.namedtuple("Item", "kind name public head contract text start line")

# What is before the word of an item: a bare `pub`, or `pub(crate)`, which is not public.
VISIBLE = r"\s*(pub )?(?:pub\([^)]*\) )?"
FUNCTION = re.compile(VISIBLE + r'(?:[a-z]+ (?:"C" )?)*fn (\w+)')
CONSTANT = re.compile(VISIBLE + r"(?:const|static) (\w+)")
TYPE = re.compile(VISIBLE + r"(?:struct|enum|type) (\w+)")
DEFINITION = re.compile(r"\s*(?:(?:abbrev|unfoldable) (pub )?|(pub )?(?:record|data) )([^\s:]+)")
KINDS = {"function": FUNCTION, "constant": CONSTANT, "type": TYPE}


def without_comments(source):
    """The text with its comments blanked out, so that every place in it stays the same."""
    return re.sub(r"//[^\n]*", lambda found: " " * len(found.group()), source)


def head_of(lines):
    """The lines of a function before its body. A clause is `requires { .. }` or `ensures { .. }` and never ends in a bare brace."""
    for number, text in enumerate(lines):
        text = text.rstrip()
        clause = re.search(r"\b(requires|ensures|ghost)\b", text)
        if text.strip() in ("{", "{}") or (text.endswith("{") and not clause):
            return "\n".join(lines[: number + 1])
    return "\n".join(lines)


def begins(line, owner):
    """The kind, the name and whether it is public, of the item that begins in a line of Rattle; None where none does. A method's name has
    its type's before it."""
    for kind, pattern in KINDS.items():
        found = pattern.match(line)
        if found:
            return kind, owner + found.group(2), bool(found.group(1))
    return None


# What opens the methods of a type, or those by which it has a trait: the trait's name, and the type.
METHODS = re.compile(r"impl(?:<[^{]*?>)? (?:(\w+)(?:<.*>)? for )?([^{]+?) \{")
# What the trait From promises of a conversion, as a ghost member: two names, and a fact about the first, what is given, and the second, the result.
GIVES = re.compile(r"ghost (?:try_)?from_gives = \{ λ (\w+) (\w+)\. (.*) \};")


def promised(gives, head):
    """What a ghost member promises of the function with a head, as a clause in the words of its parameter."""
    (given, _), *_ = parameters(head)
    names = {gives.group(1): given, gives.group(2): "result"}
    fact = re.sub(r"(?<![\w.])\w+", lambda word: names.get(word.group(), word.group()), gives.group(3))
    return f"\n    ensures {{ {fact} }}\n"


def items_in_rattle(source):
    """The items of a Rattle source, in order. Another crate can call a function by which a type has a trait, so it is public."""
    lines = without_comments(source).split("\n")
    found, owner, trait, gives, start = [], "", None, None, 0
    for number, line in enumerate(lines):
        opens = METHODS.match(line)
        if opens:
            owner, trait, gives = opens.group(2) + "::", opens.group(1), None
        elif line.rstrip() == "}":
            owner, trait, gives = "", None, None
        gives = GIVES.match(line.strip()) or gives
        item = begins(line, owner)
        if item:
            kind, name, public = item
            found.append((kind, name, public or bool(trait) and kind == "function", gives if trait else None, start, number))
        start += len(line) + 1
    ends = [begin for *_, begin in found[1:]] + [len(lines)]
    for (kind, name, public, gives, start, begin), end in zip(found, ends):
        head = head_of(lines[begin:end]) if kind == "function" else ""
        contract = head + promised(gives, head) if head and gives else head
        yield Item(kind, name, public, head, contract, "\n".join(lines[begin:end]), start, begin + 1)


def items_in_antt(source):
    """The definitions of an antt source, in order; a record's fields belong to the record."""
    lines = [re.sub(r"(?<!\S)--(?!\S).*", lambda found: " " * len(found.group()), line) for line in source.split("\n")]
    found, start = [], 0
    for number, line in enumerate(lines):
        match = DEFINITION.match(line)
        if match:
            found.append((match.group(3), bool(match.group(1) or match.group(2)), start, number))
        start += len(line) + 1
    ends = [begin for *_, begin in found[1:]] + [len(lines)]
    for (name, public, start, begin), end in zip(found, ends):
        yield Item("definition", name, public, "", "", "\n".join(lines[begin:end]), start, begin + 1)


def items_of(path):
    source = read(path)
    return list(items_in_rattle(source) if path.endswith(".rt") else items_in_antt(source))


def files_of(crate):
    """The sources and the definitions of a crate, from the root on."""
    for folder, ending in (("src", ".rt"), ("specs", ".antt")):
        yield from (f"crates/{crate}/{folder}/{name}" for name in names_in("crates", crate, folder) if name.endswith(ending))


def public_files(crate):
    """The sources of a library that other crates can see: the root, and what a `pub mod` leads to."""
    todo, seen = ["lib"], []
    while todo:
        module = todo.pop()
        path = f"crates/{crate}/src/{module}.rt"
        if not os.path.exists(os.path.join(ROOT, path)):
            continue
        seen.append(path)
        folder = "" if module == "lib" else module + "/"
        todo += [folder + name for name in re.findall(r"^\s*pub mod (\w+)\s*;", read(path), re.M)]
    return seen


# ---- Contracts -------------------------------------------------------------------------------


def enclosed(text, start, opening, closing):
    """What is between the sign at `start` and the sign that closes it; None where nothing does."""
    depth = 0
    for place in range(start, len(text)):
        depth += (text[place] == opening) - (text[place] == closing)
        if depth == 0:
            return text[start + 1 : place]
    return None


def clauses(text, *words):
    """The texts of the clauses that begin with one of these words, as `ensures { .. }` or `ensures name { .. }`."""
    for found in re.finditer(r"^\s*(?:%s)\b\s*(?:\w+\s*)?(\{)" % "|".join(words), text, re.M):
        yield enclosed(text, found.start(1), "{", "}") or ""


def imports(source):
    """The names that a source brings in from definitions of this repository, each with the file of the definition: None for a type's variant."""
    found = {}
    for crate, module, names in re.findall(r"^ghost use Rattle\.(\w+)\.specs\.([^{]+)\.\{([^}]*)\};", source, re.M):
        if crate == "std":
            continue
        path = None if module.startswith("declared.") else f"crates/{crate}/specs/{module}.antt"
        for name in names.split(","):
            found[name.split(" as ")[-1].strip()] = path
    return found


def words_of(text):
    """The names in a contract: not the fields, which follow a point."""
    return re.findall(r"(?<![\w.«])«?([^\W\d][\w']*)»?", text)


def cited(text, known):
    """The definitions in a text, each once, in their order."""
    return [name for name in dict.fromkeys(words_of(text)) if name in known]


def plain(text):
    """A text with single spaces and without parentheses around the whole of it."""
    text = " ".join(text.split())
    while text.startswith("(") and enclosed(text, 0, "(", ")") == text[1:-1]:
        text = text[1:-1].strip()
    return text


def split(text, sign):
    """The parts of a text between the signs that are in no parentheses."""
    parts, depth = [""], 0
    for letter in text:
        depth += (letter == "(") - (letter == ")")
        if letter == sign and depth == 0:
            parts.append("")
        else:
            parts[-1] += letter
    return [plain(part) for part in parts]


def conjuncts(fact):
    """The facts that `×` joins, at any depth."""
    parts = split(plain(fact), "×")
    return parts if len(parts) == 1 else [each for part in parts for each in conjuncts(part)]


def stated(head):
    """The conjuncts of what a contract ensures."""
    return [fact for clause in clauses(head, "ensures") for fact in conjuncts(clause) if fact]


def parameters(head):
    """The parameters of a function as pairs of a name and a type; that of `&self` is `&Self`."""
    inside = enclosed(head, head.index("("), "(", ")")
    pairs, depth, parts = [], 0, [""]
    for letter in inside:
        depth += (letter in "([<") - (letter in ")]>")
        parts = parts + [""] if letter == "," and depth == 0 else [*parts[:-1], parts[-1] + letter]
    for part in parts:
        name, _, kind = part.partition(":")
        if name.strip().endswith("self"):
            pairs.append(("self", name.strip().replace("self", "Self")))
        elif name.strip():
            pairs.append((name.replace("mut ", "").strip(), kind.strip()))
    return pairs


def leaves(text, name):
    """Whether a text speaks of what a call leaves in a parameter."""
    return re.search(rf"(?<![\w.])«?{name}»?\.new(?!\w)", text) is not None


def subjects(conjunct, given):
    """What a conjunct speaks of: the result, with the fields that it names, and the parameters that are written to; where it speaks of
    neither, the parameters."""
    paths = re.findall(r"(?<![\w.])result((?:\.\w+)*)(?!\w)", conjunct)
    fields = [path.split(".")[-1] for path in paths]
    found = ["result" + (f" ({quoted(dict.fromkeys(fields))})" if all(fields) else "")] if paths else []
    found += [f"`{name}`" for name, _ in given if leaves(conjunct, name)]
    return found or [f"`{name}`" for name, _ in given if name in words_of(conjunct)]


# A public function, with the definitions that its file brings in; a parameter hides a definition of the same name.
Function = collections.namedtuple("Function", "crate path item known")


def functions_of(crate):
    """The public functions of a crate."""
    for path in public_files(crate):
        known = imports(read(path))
        for item in items_of(path):
            if item.kind == "function" and item.public:
                hidden = {name for name, _ in parameters(item.head)}
                yield Function(crate, path, item, {name: home for name, home in known.items() if name not in hidden})


# ---- Edits -----------------------------------------------------------------------------------

# An edit that the prover has to refuse. A change is a file of the crate, the text that is replaced, and the text in its place.
Edit = collections.namedtuple("Edit", "crate name path tried error refused changes")


def edit_in(crate, path, tried, text):
    """An edit as rt reads it, and its head: the error, and after `Refused: ` the fact."""
    head, changes, file, old = [], [], None, ""
    for line in text.split("\n"):
        if line.startswith("file: "):
            file = line[len("file: ") :]
        elif line.startswith("old: "):
            old = line[len("old: ") :]
        elif line.startswith("new:"):
            changes.append((file, old, re.sub("^new: ?", "", line)))
        elif file is None:
            head.append(line)
    error, _, refused = "\n".join(head).partition("Refused: ")
    name = os.path.basename(path)[: -len(".edit")]
    return Edit(crate, name, path, tried, " ".join(error.split()), " ".join(refused.split()), changes)


def edits_of(crate):
    """The edits of a crate: those of the gate, then those of .ci/more."""
    for folder, tried in ((f"crates/{crate}/must-fail", GATE), (f"tests/edits/{crate}", MORE)):
        for name in names_in(folder):
            if name.endswith(".edit"):
                path = f"{folder}/{name}"
                yield edit_in(crate, path, tried, read(path))


def item_at(items, place):
    """The item in which a place of a source is; None before the first."""
    return next((item for item in reversed(items) if item.start <= place), None)


def targets(edit):
    """What an edit changes, as pairs of a part and an item: a function's contract or body, a constant, a type or a definition. What an
    earlier change put in is not looked for, and names that are brought in are no target."""
    found = []
    for file, old, _ in edit.changes:
        path = f"crates/{edit.crate}/{file}"
        place = read(path).find(old)
        item = item_at(items_of(path), place) if place >= 0 else None
        if item:
            inside = place - item.start < len(item.head)
            part = item.kind if item.kind != "function" else "contract" if inside else "body"
            found.append((part, item))
    return found


def changed(edit):
    """What an edit changes, in words."""
    words = [f"{part} of `{item.name}`" if item.head else f"{part} `{item.name}`" for part, item in targets(edit)]
    return ", ".join(dict.fromkeys(words))


# ---- The document ----------------------------------------------------------------------------

INTRODUCTION = f"""# Contracts

This file is generated from the sources by `{COMMAND}`; `tests/test_contracts.py` checks that it is up to date. It has a section for each crate
that has public functions or edits.

**Functions.** These are the functions that another crate, or a C program, can call. None has a `requires`: each takes every input. A row is one fact that the
contract states. *Of* says what the fact is about: the result, with the fields that it names, or a parameter that the function writes to; where it is about neither,
a parameter as it was given. *Cites* names the definitions that the fact uses; the last section says which file has each.

**Edits.** An edit makes the code, a contract or a definition wrong, and the prover has to refuse it. *Tried by* says who tries it: the gate (`.ci/run`, from
`crates/NAME/must-fail/`), or `.ci/more` (from `tests/edits/NAME/`). *Error* and *Refused* are the head of the edit's file. *Refused* names the fact that
can no longer be proved:

- `returns` is the fact that the result and the buffers are what the contract says; what follows the word says at which return.
- A name that ends in -init is the fact that a loop's invariant holds at first, in -preserved that the loop keeps it, in -smaller that the loop comes nearer to its end.
- A name that ends in -requires is what the called function asks of its arguments.
- A name that begins with overflow_ is the fact that a number fits its type, with bounds- or slice_bounds- that a place is within a list.
- `runs_hold`, in `cdi_model`, computes whole runs of the model on literal bytes; `table_unpadded` computes that the table names no cell too many.
"""


def table(*rows):
    """Rows of cells as a Markdown table, the first its head."""
    lines = ["| " + " | ".join(cell.replace("|", "\\|") for cell in row) + " |" for row in rows]
    return "\n".join([lines[0], "|" + len(rows[0]) * "---|", *lines[1:], ""])


def function_rows(function):
    """A row for each conjunct of a contract; the first has the function's name."""
    given = parameters(function.item.head)
    for number, fact in enumerate(stated(function.item.contract)):
        name = "" if number else f"`{function.item.name}`"
        # A fact without a definition says that the result is a parameter as it was given.
        yield name, ", ".join(subjects(fact, given)), quoted(cited(fact, function.known)) or "none: it is a parameter as it was given"


def section(crate):
    """The section of a crate; empty where it has neither public functions nor edits."""
    functions, edits = list(functions_of(crate)), list(edits_of(crate))
    parts = []
    if functions:
        parts.append(table(("Function", "Of", "Cites"), *(row for each in functions for row in function_rows(each))))
    if edits:
        rows = [(f"`{edit.name}`", edit.tried, changed(edit), edit.error, edit.refused) for edit in edits]
        parts.append(table(("Edit", "Tried by", "Changes", "Error", "Refused"), *rows))
    return "\n".join([f"## {crate}", "", *parts]) if parts else ""


def homes():
    """The last section: the file of each definition that a public contract cites."""
    found = {}
    for crate in crates():
        for function in functions_of(crate):
            for name in cited(" ".join(clauses(function.item.contract, "ensures")), function.known):
                found.setdefault(function.known[name], set()).add(name)
    found.pop(None, None)
    order = crates()
    files = sorted(found, key=lambda path: (order.index(path.split("/")[1]), path))
    rows = [(f"`{path}`", quoted(sorted(found[path]))) for path in files]
    return "\n".join(["## Where the definitions are", "", table(("File", "Cited by a public contract"), *rows)])


def document():
    """The whole text of docs/CONTRACTS.md."""
    return "\n".join([INTRODUCTION, *filter(None, map(section, crates())), homes()])


if __name__ == "__main__":
    with open(os.path.join(ROOT, DOCUMENT), "w", encoding="utf-8") as file:
        file.write(document())

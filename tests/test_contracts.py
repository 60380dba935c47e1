#!/usr/bin/env python3
"""The rules of public contracts and of the edits that have to be refused. `python3 tests/test_contracts.py NAME` runs one check:

check_functions   A function that another crate can call has an `ensures` and no `requires`: it refuses bad input itself. A precondition belongs to
                  a private or a `pub(crate)` function. There is no `pub use`, which would hand out functions that are not seen here.
check_conjuncts   Every fact that a public contract states says something: it is an equation between what the function gives and what it was given,
                  or one definition, and it cites a definition of this repository. Only the result may be equal to a parameter as it is. Together the facts
                  speak of the whole result, of all that is left in the caller's buffers, and of every parameter. A definition has its own name in a public
                  contract. Every definition that a source brings in is in one of its contracts.
check_document    docs/CONTRACTS.md is the text that tests/contracts.py makes.
check_edits       Every edit says the error and the fact that is refused, can be made, and is aimed at code or at a definition. For every public function
                  there is an edit of its crate that is aimed at it, or at a function, a constant or a definition that it rests on.
"""
import os
import re
import sys

sys.dont_write_bytecode = True  # leaves no files beside the tests

import contracts
from contracts import (
    MORE,
    ROOT,
    Function,
    cited,
    clauses,
    crates,
    depends,
    edit_in,
    edits_of,
    files_of,
    functions_of,
    imports,
    items_in_antt,
    items_in_rattle,
    items_of,
    leaves,
    names_in,
    parameters,
    public_files,
    read,
    split,
    stated,
    targets,
    without_comments,
    words_of,
)
from library import Problem, run_test


def expect(came, wanted):
    """Ends the run where a check does not find in a sample what is wrong with it."""
    if came != wanted:
        sys.exit(f"the check itself is wrong: {came!r}, expected {wanted!r}")


# ---- Functions -------------------------------------------------------------------------------


def breaches(source):
    """Where a source breaks the rule of public functions: pairs of a line and what is wrong there."""
    for found in re.finditer(r"^[ \t]*pub use ([^;\n]*)", without_comments(source), re.M):
        yield source.count("\n", 0, found.start()) + 1, f"{found.group(1)} is handed out by pub use"
    for item in items_in_rattle(source):
        if item.kind == "function" and item.public:
            if list(clauses(item.contract, "requires")):
                yield item.line, f"{item.name} has a requires"
            if not list(clauses(item.contract, "ensures")):
                yield item.line, f"{item.name} has no ensures"


FUNCTIONS = """
pub fn good(x: u8) -> u8 // a comment {
    ensures { result ≡ x }
{
    x
}

pub fn asks(x: u8) -> u8
    requires { x < 9 }
    ensures { result ≡ x }
{
    x
}

pub fn says_nothing(x: u8) -> u8 {
    x
}

pub(crate) fn inner(x: u8) -> u8
    requires { x < 9 }
{
    x
}

impl Slot {
    #[no_mangle]
    pub extern "C" fn exported(x: u8) -> u8 {
        x
    }
}

impl From<Result<u8, Slot>> for Row {
    ghost from_gives = { λ told row. row ≡ row_of told };

    fn from(x: Result<u8, Slot>) -> Row {
        inner(x)
    }
}

impl From<u8> for Row {
    fn from(x: u8) -> Row {
        inner(x)
    }
}

pub use hidden::inner;
"""


def sample_functions():
    told = next(item for item in items_in_rattle(FUNCTIONS) if item.name == "Row::from")
    expect((stated(told.contract), parameters(told.head)), (["result ≡ row_of x"], [("x", "Result<u8, Slot>")]))
    wanted = ["hidden::inner is handed out by pub use", "asks has a requires", "says_nothing has no ensures", "Slot::exported has no ensures", "Row::from has no ensures"]
    expect([fault for _, fault in breaches(FUNCTIONS)], wanted)


def check_functions():
    sample_functions()
    for crate in crates():
        for path in public_files(crate):
            yield from (f"{path}:{line}: {fault}" for line, fault in breaches(read(path)))


# ---- Conjuncts -------------------------------------------------------------------------------


def gives(text, given):
    """Whether a text speaks of the result, or of what is left in a parameter."""
    return "result" in words_of(text) or any(leaves(text, name) for name, _ in given)


def tree(text):
    """A term as nested lists: one for each pair of parentheses."""
    stack = [[]]
    for token in re.findall(r"[()]|\.?[^\s().]+", text):
        if token == "(":
            stack.append([])
        elif token == ")":
            inner = stack.pop()
            stack[-1].append(inner)
        else:
            stack[-1].append(token)
    return stack[0]


def flat(term):
    """The tokens of a term."""
    return [token for part in term for token in ([part] if isinstance(part, str) else flat(part))]


def narrowings(term, known):
    """The fields and functions through which a term speaks of what the function gives, other than definitions: they say only a part of it."""
    if "result" not in flat(term) and ".new" not in flat(term):
        return []
    head, *rest = term
    if head == "result" or (rest == [".new"]):
        return []
    fields = [token for place, token in enumerate(rest) if isinstance(token, str) and token.startswith(".") and isinstance(([head] + rest)[place], list)]
    called = [head] if isinstance(head, str) and head not in known else []
    return called + fields + [each for part in term if isinstance(part, list) for each in narrowings(part, known)]


def uncited(fact, given, known):
    """Why a conjunct says nothing, or nothing that can be read here; empty where it says something."""
    sides = split(fact, "≡")
    if len(sides) > 2 or not all(re.fullmatch(r"[\w«»′'.()\s]+", side) for side in sides):
        return "is neither an equation nor one definition"
    if len(sides) == 2 and sides[0] == sides[1]:
        return "has the same text on both sides"
    if len(sides) == 2 and gives(sides[0], given) == gives(sides[1], given):
        return "is no equation between what the function gives and what it was given"
    if len(sides) == 2 and cited(sides[0].split()[0], known) and sides[0].split()[0] == sides[1].split()[0]:
        return "has one definition around both sides"
    as_it_is = len(sides) == 2 and any(sides in (["result", name], ["result.now", f"{name}.now"]) for name, _ in given)
    if not (as_it_is or cited(fact if len(sides) == 2 else fact.split()[0], known)):
        return "cites no definition"
    parts = [word for side in sides for word in narrowings(tree(side), known)]
    return f"speaks of what the function gives only through {parts[0]}" if parts else ""


def unsaid(path, kind, text, structs):
    """The parts of a result, by their paths, that a text does not speak of."""
    whole = path + ".now" if kind.startswith("&") else path
    if re.search(rf"(?<![\w.]){re.escape(whole)}(?![\w».])", text):
        return []
    if kind not in structs or not re.search(rf"(?<![\w.]){re.escape(path)}\.", text):
        return [path]
    return [part for field, inner in structs[kind] for part in unsaid(f"{path}.{field}", inner, text, structs)]


def passed_over(head, structs):
    """What a contract does not speak of: parts of the result, what is left in a buffer, parameters."""
    text = " × ".join(stated(head))
    for name, kind in parameters(head):
        if kind.startswith("&mut") and not leaves(text, name):
            yield f"does not say what is left in {name}"
        if name not in words_of(text):
            yield f"does not speak of {name}"
    returned = re.search(r"\) -> ([^\n{]+)", head)
    if returned:
        yield from (f"does not speak of {part}" for part in unsaid("result", returned.group(1).strip(), text, structs))


def weaknesses(function, structs):
    """What is wrong with the contract of a public function."""
    for fact in stated(function.item.contract):
        fault = uncited(fact, parameters(function.item.head), function.known)
        if fault:
            yield f"the conjunct `{fact}` {fault}"
    yield from passed_over(function.item.contract, structs)


# A ghost member of a trait or of a struct: what it says may cite a definition too.
GHOSTS = re.compile(r"^\s*ghost \w+(?: =|:) \{(.*)\}[;,]$", re.M)


def unused(source):
    """The definitions that a source brings in and that none of its contracts cites."""
    facts = [fact for item in items_in_rattle(source) for fact in clauses(item.contract, "requires", "ensures")]
    said = words_of(" ".join([*facts, *(each.group(1) for each in GHOSTS.finditer(without_comments(source)))]))
    return [name for name in imports(source) if name not in said]


def renamed(source):
    """The definitions that a source brings in under another name."""
    return re.findall(r" as (\w+)", " ".join(re.findall(r"^ghost use Rattle\.(?!std\.).*;", source, re.M)))


def structs_in(source):
    """The structs with named fields of a source, each with its fields and their types."""
    found = re.findall(r"^(?:pub )?struct (\w+) \{(.*?)^\}", without_comments(source), re.M | re.S)
    return {name: re.findall(r"^\s*(?:pub )?(\w+): ([^\n]*),$", fields, re.M) for name, fields in found}


CONJUNCTS = """
ghost use Rattle.std.specs.Prelude.{◌≡◌};
ghost use Rattle.sample.specs.Sample.{step, answer, pair as two, Holds, idle};
pub struct Done {
    pub state: State,
    pub number: u8,
}
pub fn run(state: State, out: &mut [u8]) -> Done
    ensures { (result.state ≡ step state) × ((result.number ≡ two state) × (out.new ≡ answer state out.old)) }
{}
"""


# Changes of the sample: the old text, the new one, and what is found then. `fact` stands for the conjunct that the new text has.
WEAKENED = (
    ("", "", []),
    ("result.number ≡ two state", "result.number ≡ result.number", ["fact has the same text on both sides"]),
    ("result.number ≡ two state", "two result.number ≡ two (result.number)", ["fact is no equation between what the function gives and what it was given"]),
    ("result.number ≡ two state", "two result.number ≡ two (two state)", ["fact has one definition around both sides"]),
    ("result.state ≡ step state", "step state ≡ state", ["fact is no equation between what the function gives and what it was given", "does not speak of result.state"]),
    ("result.number ≡ two state", "(result.number ≡ two state) ⊎ Holds state", ["fact is neither an equation nor one definition"]),
    ("result.number ≡ two state", "result.number ≡ 0", ["fact cites no definition"]),
    ("answer state out.old", "out.old", ["the conjunct `out.new ≡ out.old` cites no definition"]),
    ("result.number ≡ two state", "result ≡ state", []),
    ("(result.number ≡ two state) ×", "", ["does not speak of result.number"]),
    ("out.new ≡ answer state out.old", "Holds out.old", ["does not say what is left in out"]),
    ("state: State, out", "state: State, wake: u8, out", ["does not speak of wake"]),
    ("result.state ≡ step state", "Holds (length (two result.state)) state", ["fact speaks of what the function gives only through length"]),
    ("result.state ≡ step state", "(two result.state).0 ≡ step state", ["fact speaks of what the function gives only through .0"]),
)


def sample_conjuncts():
    for old, new, wanted in WEAKENED:
        if old not in CONJUNCTS:
            sys.exit(f"the check itself is wrong: the sample does not have {old}")
        source = CONJUNCTS.replace(old, new)
        item = next(item for item in items_in_rattle(source) if item.kind == "function")
        came = [*weaknesses(Function("sample", "", item, imports(source)), structs_in(source))]
        expect(came, [re.sub("^fact", f"the conjunct `{new}`", fault) for fault in wanted])
    expect(unused(CONJUNCTS), ["Holds", "idle"])
    expect(renamed(CONJUNCTS), ["two"])


def check_conjuncts():
    sample_conjuncts()
    sources = [path for crate in crates() for path in files_of(crate) if path.endswith(".rt")]
    structs = {name: fields for path in sources for name, fields in structs_in(read(path)).items()}
    for function in (function for crate in crates() for function in functions_of(crate)):
        faults = [*weaknesses(function, structs)]
        faults += [f"cites {name}, a definition under another name" for name in renamed(read(function.path)) if name in words_of(function.item.contract)]
        yield from (f"{function.path}:{function.item.line}: {function.item.name}: {fault}" for fault in faults)
    yield from (f"{path}: {name} is brought in, and no contract cites it" for path in sources for name in unused(read(path)))


# ---- The document ----------------------------------------------------------------------------


def first_difference(held, made):
    """The first line in which two texts differ, as its number and both lines; None where they are equal."""
    held, made = held.split("\n"), made.split("\n")
    length = max(len(held), len(made))
    for number, pair in enumerate(zip(held + ["(no line)"] * (length - len(held)), made + ["(no line)"] * (length - len(made))), 1):
        if pair[0] != pair[1]:
            return (number, *pair)
    return None


def check_document():
    expect(first_difference("a\nb", "a\nc\n"), (2, "b", "c"))
    expect(first_difference("a", "a\n"), (2, "(no line)", ""))
    expect(first_difference("a\n", "a\n"), None)
    differs = first_difference(read(contracts.DOCUMENT), contracts.document())
    if differs:
        yield "%s:%d: is out of date; `%s` makes it anew\n  it has:     %s\n  it is to be: %s" % (contracts.DOCUMENT, differs[0], contracts.COMMAND, *differs[1:])


# ---- Edits -----------------------------------------------------------------------------------


def unmade(edit, texts):
    """Why an edit cannot be made; empty where it can. Each text that it replaces is to be in its file once, as rt asks."""
    texts = dict(texts)
    for file, old, new in edit.changes:
        if texts.get(file, "").count(old) != 1 or not old:
            return f"the text `{old.strip()}` is not in {file} exactly once"
        texts[file] = texts[file].replace(old, new)
    return "" if edit.changes else "has no old: and new: pair"


def unheaded(edit):
    """What the head of an edit lacks."""
    if not edit.error:
        yield "its head does not say the error"
    if not edit.refused:
        yield "its head has no line `Refused: ` with the fact"


def key(item):
    """Code and definitions may have the same names."""
    return item.kind == "definition", item.name


def mentioned(item, names, libraries):
    """The keys of the items of a crate that an item calls, uses or cites; `names` are all keys, `libraries` the crates that it depends on."""
    if item.kind == "definition":
        return {(True, name) for name in re.findall(r"[^\s(){};,.λ]+", item.text)} & names
    found = {(True, name) for name in words_of(" ".join(clauses(item.contract, "requires", "ensures")))}
    body = item.text[len(item.head) :]
    # A name in small letters is a function's only where it is called.
    for path, name in re.findall(r"(?<![\w.])((?:\w+::)*)([A-Z]\w*|\w+(?=\())", body):
        owner = path.split("::")[-2:-1]
        if path.split("::")[0] not in libraries:
            found |= {(False, name), (False, "::".join([*owner, name]))}
    methods = ["from" if name == "into" else name for name in re.findall(r"\.(\w+)\(", body)]
    found |= {(kind, name) for kind, name in names if "::" in name and name.split("::")[1] in methods}
    # A method rests on its type.
    found |= {(False, item.name.split("::")[0])}
    return found & names


def rests_on(item, items, libraries):
    """The keys of an item and of all that it mentions, directly or through others."""
    names = {key(each) for each in items}
    reached, todo = {key(item)}, [item]
    while todo:
        fresh = mentioned(todo.pop(), names, libraries) - reached
        reached |= fresh
        todo += [each for each in items if key(each) in fresh]
    return reached


def unaimed(functions, items, aims, libraries):
    """The functions that no edit is aimed at, nor at anything that they rest on."""
    return [item.name for item in functions if not rests_on(item, items, libraries) & aims]


EDIT = """The limit is another.
Refused: `returns`: 9 is not 8.
file: src/lib.rt
old: const LIMIT: u8 = 8;
new: const LIMIT: u8 = 9;
A comment, which rt passes over.
"""

CODE = """
const LIMIT: u8 = 8;
pub fn ask(x: u8) -> bool
    ensures { result ≡ asked x }
{
    within(x)
}
fn within(x: u8) -> bool {
    x < LIMIT
}
pub fn other(ask: u8) -> bool
    ensures { result ≡ otherwise ask }
{
    below::within(ask)
}
"""

DEFINITIONS = """
abbrev pub bound : ℕ
bound = 8
abbrev pub otherwise : ℕ → Bool
otherwise x = ltb x bound
"""


def sample_edits():
    edit = edit_in("sample", "sample/limit.edit", MORE, EDIT)
    expect((edit.error, edit.refused, edit.name), ("The limit is another.", "`returns`: 9 is not 8.", "limit"))
    expect([*unheaded(edit)], [])
    expect([*unheaded(edit_in("sample", "x.edit", MORE, EDIT.replace("Refused: ", "")))], ["its head has no line `Refused: ` with the fact"])
    expect([*unheaded(edit_in("sample", "x.edit", MORE, EDIT[EDIT.index("Refused") :]))], ["its head does not say the error"])
    expect(unmade(edit, {"src/lib.rt": CODE}), "")
    once = "the text `const LIMIT: u8 = 8;` is not in src/lib.rt exactly once"
    expect([unmade(edit, {"src/lib.rt": text}) for text in (CODE + CODE, "")], [once, once])
    expect(unmade(edit_in("sample", "x.edit", MORE, "A.\n"), {}), "has no old: and new: pair")
    code, definitions = list(items_in_rattle(CODE)), list(items_in_antt(DEFINITIONS))
    public = [item for item in code if item.public]
    left = [unaimed(public, code + definitions, {aim}, ["below"]) for aim in ((False, "LIMIT"), (True, "bound"), (False, "ask"))]
    expect(left, [["other"], ["ask"], ["other"]])


def unheld(crate, libraries):
    """What is wrong with the edits of a crate, and the public functions that none is aimed at."""
    aims, texts = set(), {path.split("/", 2)[2]: read(path) for path in files_of(crate)}
    for edit in edits_of(crate):
        fault = unmade(edit, texts)
        yield from (f"{edit.path}: {each}" for each in [*unheaded(edit), fault] if each)
        found = targets(edit) if not fault else []
        if not fault and not found:
            yield f"{edit.path}: it is aimed at nothing but names that are brought in"
        aims |= {key(item) for _, item in found}
    items = [item for path in files_of(crate) for item in items_of(path)]
    functions = [function.item for function in functions_of(crate)]
    yield from (f"crates/{crate}: no edit is aimed at {name}, nor at what it rests on" for name in unaimed(functions, items, aims, libraries))


def check_edits():
    sample_edits()
    yield from (f"tests/edits/{name}: there is no such crate" for name in names_in("tests/edits") if name not in crates())
    folders = [folder for crate in crates() for folder in (f"crates/{crate}/must-fail", f"tests/edits/{crate}")]
    yield from (f"{folder}/{name}: is no edit" for folder in folders for name in names_in(folder) if not name.endswith(".edit"))
    for crate, libraries in depends().items():
        yield from unheld(crate, libraries)


# ---- All of them -----------------------------------------------------------------------------

CHECKS = (check_functions, check_conjuncts, check_document, check_edits)


def main(checks, whole):
    faults = [fault for check in checks for fault in check()]
    functions = [function for crate in crates() for function in functions_of(crate)]
    facts = sum(len(stated(function.item.contract)) for function in functions)
    edits = [edit for crate in crates() for edit in edits_of(crate)]
    more = sum(edit.tried == MORE for edit in edits)
    if faults or not functions or not edits:
        raise Problem("\n".join(faults) or "there is no public function or no edit")
    print(f"{len(functions)} public functions with {facts} facts, {len(edits) - more} edits of the gate and {more} more")


if __name__ == "__main__":
    run_test(CHECKS, main)

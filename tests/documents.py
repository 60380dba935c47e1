"""What the tests of the documents share: the documents' text, what is in backticks in it, and where that is looked for.

What is in backticks is one of these, by the first rule that applies:

- Text: it begins with a digit, is nothing but pairs of upper-case hex digits, or has a character that neither a path nor a name
  has (a space, a bracket, a sign). So bytes (`80 55 82`, `FF`), numbers, shell commands, printed text and formulas are text.
  Of its words only those with a slash that look like a path are checked, as paths.
- An id: capital letters, a hyphen and a number. docs/DECISIONS.md has a row with it.
- A path: it has a slash, or ends as a file does that the repository keeps (ENDINGS). It exists: relative to the root, to crates/,
  or to the folder or the crate of what the same passage names before it. A file's name alone exists if some file has it. A path
  that begins with src/, specs/, proofs/ or must-fail/ exists if some crate has it and no crate is named before it. In a path `*`,
  NAME, CRATE and a part of one capital letter stand for anything. What is under target/ or an out/ is built, and is not looked for.
- A goal: what the prover calls a fact that it has to find a proof of, by its form (GOAL). Where the prover finds the proof alone the
  whole is in no source, but each word that its hyphens join is: a word of a source, or one of the prover's own (GOAL_WORDS), or a
  number that a condition or an arm compares with, or that tells goals of one name apart.
- A name: all else, and a file that ends as a built one does (BUILT). It is a whole word of a source, not only of a comment or an
  import, or the name of a file or a folder. `a::b` is in the sources of the crate a, or both parts are in one source. After the
  path of a source in the same passage a name is in that source, and before `in` or a bracket and a path or a crate it is there.
  The names of crates and of built files are not bound so.

A passage is a sentence, a heading, a row of a table, or a sentence of a list's item. Blocks of code are passed over.
"""

import functools
import glob
import os
import re

from library import Problem

ROOT = os.path.dirname(os.path.dirname(os.path.abspath(__file__)))
DECISIONS = "docs/DECISIONS.md"
# The pages on the toolchain before today's and on the forms before today's, which name what is gone.
PAST = "docs/PORT.md", "docs/DESIGN-PASS.md"
TRACE = "docs/TRACE.md"

ENDINGS = (".antt", ".c", ".edit", ".h", ".log", ".md", ".py", ".rt", ".txt")
BUILT = (".a", ".pc", ".so")
OF_A_CRATE = ("src", "specs", "proofs", "must-fail")

# Where names are looked for. The tests of the documents have names in their samples that do not exist.
SOURCES = ("crates", "crates.txt", "tests", "include", "examples", "bench", ".ci", "replay", "sdk")
NO_SOURCES = ("tests/documents.py", "tests/test_documents.py", "tests/test_trace.py")

# What is not code, by the file's ending: comments, imports, and the head of an edit. A script has no ending.
ASIDES = {
    ".rt": re.compile(r"//.*|^(?:ghost )?use .*;$", re.M),
    ".antt": re.compile(r"(?<!\S)--(?!\S).*|^(?:pub )?use .*$", re.M),
    ".py": re.compile(r'"""[\s\S]*?"""|(?<!\S)#.*|^(?:import|from) .*', re.M),
    ".c": re.compile(r"/\*[\s\S]*?\*/|//.*|^#include.*", re.M),
    ".h": re.compile(r"/\*[\s\S]*?\*/|//.*|^#include.*", re.M),
    ".edit": re.compile(r"^(?!file: |old: |new:).*$", re.M),
    "": re.compile(r"(?<!\S)#.*", re.M),
}

# A letter of a name, which ends where none follows; in definitions, contracts and documents names have hyphens.
LETTER, LETTER_OR_HYPHEN = r"\w", r"[\w\-·′']"
HYPHENATED = (".antt", ".edit", ".md", ".rt")

TOKEN = re.compile(r"`([^`]+)`")
NAME = re.compile(r"[A-Za-z_][\w\-·′.]*(?:::\w+)*")
PATH = re.compile(r"(?:\.\.?/)?[\w*.][\w*.\-]*(?:/[\w*.\-]+)*/?")
HEX = re.compile(r"(?:[0-9A-F]{2})+")
ID = re.compile(r"[A-Z]+-[0-9]+")
GOAL = re.compile(
    r"returns(?:-[\w\-]+)?|ensures-\w+|[\w\-]+-(?:init|preserved|smaller|requires(?:-[\w\-]+)?)"
    r"|(?:overflow|nonzero)_\w+-[\w\-]+|(?:slice_|offset_)?bounds-[\w\-]+|invariant_of-[\w\-]+|prove-[\w\-]+"
)
GOAL_WORDS = set(
    "returns ensures then else after in not default loop init preserved smaller requires result bounds slice_bounds offset_bounds"
    " in_err overflow_add overflow_sub overflow_mul overflow_cast overflow_step nonzero_div nonzero_rem eq ne lt le gt ge".split()
)
COMPARED = re.compile(r"(?:eq|ne|lt|le|gt|ge|len)[0-9]+")
ANYTHING = re.compile(r"NAME|CRATE|(?<![^/])[A-Z](?![^/])")


# ---- Running ----------------------------------------------------------------------------------


def expect(what, wanted, came):
    if wanted != came:
        raise Problem(f"the check itself is wrong: {what}: {came}, expected {wanted}")


# ---- Files ------------------------------------------------------------------------------------


@functools.lru_cache(maxsize=None)
def read(path):
    with open(os.path.join(ROOT, path), encoding="utf-8", errors="replace") as file:
        return file.read()


@functools.lru_cache(maxsize=None)
def files():
    """The files of the repository from the root on, without what is built."""
    found = []
    for folder, folders, names in os.walk(ROOT):
        folders[:] = sorted(name for name in folders if name not in (".git", "target", "out", "__pycache__"))
        found += [os.path.relpath(os.path.join(folder, name), ROOT) for name in sorted(names)]
    return tuple(found)


def documents():
    return [path for path in files() if path.endswith(".md")]


@functools.lru_cache(maxsize=None)
def sources():
    return tuple(path for path in files() if path.split("/")[0] in SOURCES and path not in NO_SOURCES)


@functools.lru_cache(maxsize=None)
def crates():
    return frozenset(path.split("/")[1] for path in files() if path.startswith("crates/"))


@functools.lru_cache(maxsize=None)
def own_names():
    """The names of all files, without their endings, and of all folders."""
    parts = (part for path in files() for part in path.split("/"))
    return frozenset(part.split(".")[0] for part in parts)


@functools.lru_cache(maxsize=None)
def searched(path):
    """The text of a file in which names are looked for."""
    asides = ASIDES.get(os.path.splitext(path)[1])
    return asides.sub("", read(path)) if asides else read(path)


@functools.lru_cache(maxsize=None)
def is_in(name, path):
    """Whether the name, or each part of `a::b`, is a whole word of the file."""
    letter = LETTER_OR_HYPHEN if path.endswith(HYPHENATED) else LETTER
    text = searched(path)
    words = (rf"(?<!{letter}){re.escape(part)}(?!{letter})" for part in name.split("::"))
    return all(re.search(word, text) for word in words)


def is_known(name):
    """Whether a source has the name, or a file or a folder."""
    first, _, rest = name.partition("::")
    if rest and first in crates():
        return any(is_in(rest, path) for path in sources() if path.startswith(f"crates/{first}/src/"))
    return name in own_names() or any(name.split("::")[0] in searched(path) and is_in(name, path) for path in sources())


# ---- Text -------------------------------------------------------------------------------------


def paragraphs(text):
    """What is between blank lines, each row and each item of a list, with the number of its line; blocks of code are left out."""
    start, lines, fenced = 0, [], False
    for number, line in enumerate([*text.split("\n"), ""], 1):
        fence = line.startswith("```")
        fenced ^= fence
        code = fence or fenced or (line.startswith("    ") and not lines)
        if lines and (code or not line.strip() or re.match(r"\s*(?:\||- |\d+\. |#)", line)):
            yield start, "\n".join(lines)
            lines = []
        if line.strip() and not code:
            start = start if lines else number
            lines.append(line)


def passages(text):
    """The passages of a text, each with the number of the line on which it begins."""
    for number, paragraph in paragraphs(text):
        hidden = TOKEN.sub(lambda found: "x" * len(found.group()), paragraph)  # a full stop in backticks ends no sentence
        if hidden.startswith("|"):
            yield number, paragraph
            continue
        ends = [found.end() for found in re.finditer(r"[.?!][)\"]?\s+", hidden)]
        for start, end in zip([0, *ends], [*ends, len(hidden)]):
            yield number + hidden.count("\n", 0, start), paragraph[start:end]


def rows_of(text):
    """The rows of all tables without their heads: each with the number of its line, its section and its cells."""
    section, lines = "", text.split("\n")
    for number, line in enumerate(lines, 1):
        if line.startswith("## "):
            section = line
        is_head = number < len(lines) and lines[number].startswith("|---")
        if line.startswith("|") and not line.startswith("|---") and not is_head:
            yield number, section, [cell.strip() for cell in line.strip().strip("|").split("|")]


@functools.lru_cache(maxsize=None)
def decision_ids():
    """The ids in the first column of the decisions, as they come."""
    return tuple(cells[0] for _, _, cells in rows_of(read(DECISIONS)))


# ---- What is in backticks ---------------------------------------------------------------------


def is_path(word):
    return PATH.fullmatch(word) is not None and ("/" in word or word.endswith(ENDINGS))


def form_of(token):
    """The rule that applies to a token: `text`, `id`, `path`, `goal` or `name`."""
    if token[0].isdigit() or HEX.fullmatch(token):
        return "text"
    if ID.fullmatch(token):
        return "id"
    if is_path(token) and not token.endswith(BUILT):
        return "path"
    if GOAL.fullmatch(token):
        return "goal"
    return "name" if NAME.fullmatch(token) or is_path(token) else "text"


def unknown_in_goal(goal):
    """The words of a goal's name that are neither the prover's nor of a source. A bare number is the arm of a `match`, after `in`, the place
    in a list whose bounds are asked, or, at the end, which of several goals of one name it is."""
    words = goal.split("-")
    for place, (before, word) in enumerate(zip(["", *words], words), 1):
        number = word.isdigit() and (before == "in" or words[0] == "bounds" or place == len(words) > 2)
        if not (number or word in GOAL_WORDS or COMPARED.fullmatch(word) or not word.isdigit() and is_known(word)):
            yield word


def found_at(path, bases=("", "crates")):
    """The files and folders that a path is, relative to the first of some folders that has one."""
    pattern = ANYTHING.sub("*", path[2:] if path.startswith("./") else path)
    if path.split("/")[0] in OF_A_CRATE and not any(base.startswith("crates/") for base in bases):
        bases = (*bases, "crates/*")
    for base in bases:
        found = glob.glob(os.path.join(ROOT, base, pattern))
        if found:
            return sorted(os.path.relpath(one, ROOT) for one in found)
    return [one for one in files() if os.path.basename(one) == path]

#!/usr/bin/env python3
"""The C SDK as its users meet it, against interfaces.py, which has what was agreed with the controllers. ./sdk builds it. Of each
library the header's numbers are the documents', its structs are laid out as the structs by which the tests call the library, its
functions are those that were agreed and all that the library exports, and the library keeps nothing. The headers compile alone and
together, in C and in C++. Each example builds without a warning and prints what the documents have it print."""

import ctypes
import itertools
import re
import shutil
import subprocess
import sys
import tempfile

sys.dont_write_bytecode = True  # leaves no files beside the tests

import library
import reference
from interfaces import CDI, EXAMPLES, INTERFACES, SDK
from refusals import numbers_of

WARNINGS = ["-Wall", "-Wextra", "-Wpedantic", "-Werror"]
# Each language that a header serves: its compiler, its standard and the ending of its sources.
C, CPP = ("gcc", "-std=c11", ".c"), ("g++", "-std=c++11", ".cpp")


def expect(what, wanted, came):
    if wanted != came:
        raise library.Problem(f"{what}: expected {wanted!r}, came {came!r}")


def output(*words, **options):
    """What a command prints; its errors too, and that it ended well, are part of the check."""
    done = subprocess.run(
        [str(word) for word in words], cwd=library.ROOT, capture_output=True, text=True, **options
    )
    expect(f"{words[0]}'s exit status and errors", (0, ""), (done.returncode, done.stderr))
    return done.stdout


def built_header(interface):
    """The header of a library in the SDK, which is built where it is not up to date."""
    library.sdk()
    return (SDK / interface.header).read_text(encoding="utf-8")


def names_in(functions):
    return set(re.findall(r"(\w+)\(", functions))


# ---- The files -------------------------------------------------------------------------------


def check_build():
    """Built once, the SDK is up to date. It has the files of each library and no others, and its headers are the repository's."""
    library.sdk()
    expect("./sdk once more", "target/sdk is up to date\n", output("./sdk"))
    files = {file for interface in INTERFACES for file in (interface.header, interface.archive, interface.shared, interface.package)}
    expect("its files", sorted({"stamp", *files}), sorted(str(path.relative_to(SDK)) for path in SDK.rglob("*") if path.is_file()))
    for interface in INTERFACES:
        kept = (library.ROOT / interface.header).read_text(encoding="utf-8")
        expect(interface.header, kept, built_header(interface))
    return "the SDK is up to date"


# ---- The headers -----------------------------------------------------------------------------


def check_numbers():
    """Each constant of a header but the refusals, which test_refusals.py holds against their table."""
    count = 0
    for interface in INTERFACES:
        found = re.findall(r"^    ([A-Z]\w+) = (\w+),?(?: |$)", built_header(interface), re.M)
        came = {name: int(number, 0) for name, number in found}
        refusals = {name for name in came if name.startswith(f"{interface.name.upper()}_REFUSAL_")}
        expect(f"the number of refusals in {interface.header}", len(numbers_of(interface.name)) + 1, len(refusals))
        numbers = {name: came[name] for name in came if name not in refusals}
        expect(f"the numbers of {interface.header}", interface.numbers, numbers)
        count += len(came)
    return f"{count} numbers"


def check_items():
    """The commands that the CDI's header says an item permits are those of the item list."""
    said = re.findall(r"CDI_ITEM_\w+ = (0x..),? +/\* ([RNWP-]{4})  ", built_header(CDI))
    wanted = {code: item.commands for code, item in reference.ITEMS.items()}
    expect("the items' commands", wanted, {int(code, 16): marks.replace("-", "") for code, marks in said})
    return f"{len(said)} items"


def exported(interface):
    """The names that a shared library exports, without those that begin with an underscore."""
    lines = output("nm", "-D", "--defined-only", SDK / interface.shared).splitlines()
    return {name for name in (line.split()[-1] for line in lines) if not name.startswith("_")}


def check_functions():
    """Each header declares the functions that were agreed, and its library exports them and no other. The tests call each."""
    count = 0
    for interface in INTERFACES:
        declared = re.findall(r"^[a-z]\w+ [a-z]\w+\([^;]*;", built_header(interface), re.M)
        agreed = interface.functions.strip().splitlines()
        expect(f"the functions of {interface.header}", sorted(agreed), sorted(re.sub(r"\s+", " ", text) for text in declared))
        expect(f"what {interface.shared} exports", names_in(interface.functions), exported(interface))
        expect(f"what the tests call of {interface.name}", names_in(interface.functions), set(interface.signatures))
        count += len(declared)
    return f"{count} functions"


def layout_claims(interface):
    """What the tests' own structs say of a header's: C that is compiled where all of it holds."""
    claims = []
    for name, struct in interface.structs.items():
        claims.append(f"sizeof({name}) == {ctypes.sizeof(struct)}")
        for field, kind in struct._fields_:
            claims.append(f"offsetof({name}, {field}) == {getattr(struct, field).offset}")
            claims.append(f"sizeof((({name} *)0)->{field}) == {ctypes.sizeof(kind)}")
    return claims


def compile_source(language, text, *archives):
    """Compiles a text against the SDK's headers, without a warning, and links it with the archives, if there are any."""
    compiler, standard, ending = language
    with tempfile.TemporaryDirectory() as folder:
        source = f"{folder}/source{ending}"
        with open(source, "w", encoding="utf-8") as file:
            file.write(text)
        output(compiler, standard, *WARNINGS, f"-I{SDK / 'include'}", source, *(archives or ["-c"]), "-o", f"{folder}/made")


def including(interfaces):
    return "".join(f"#include <{interface.name}.h>\n" for interface in interfaces)


def check_layout():
    """The headers' structs have these fields in this order, and no others."""
    count = 0
    for interface in INTERFACES:
        header, claims = built_header(interface), layout_claims(interface)
        text = "".join(f'_Static_assert({claim}, "{claim}");\n' for claim in claims)
        compile_source(C, including([interface]) + text)
        asserted = set(re.findall(rf"^{interface.name.upper()}_HOLDS\((.*)\);$", header, re.M))
        wanted = {claim for claim in claims if "->" not in claim} | {"sizeof(size_t) == 8"}
        expect(f"the assertions of {interface.header}", wanted, asserted)
        count += len(claims)
    return f"{count} facts of layout"


def linking(interfaces):
    """A C++ program that needs every function."""
    calls = (f"is_there({name})" for interface in interfaces for name in sorted(names_in(interface.functions)))
    is_there = "template <typename F> bool is_there(F *function) { return function != nullptr; }\n"
    return f"{including(interfaces)}{is_there}int main() {{ return {' && '.join(calls)} ? 0 : 1; }}\n"


def check_languages():
    """The headers compile alone and together, in any order and twice, in C and in C++. A C++ program links with every function."""
    library.sdk()
    languages = [C, CPP] if shutil.which(CPP[0]) else [C]
    included = [*((interface,) for interface in INTERFACES), *itertools.permutations(INTERFACES)]
    for language, interfaces in itertools.product(languages, included):
        compile_source(language, including(2 * interfaces))
    if CPP not in languages:
        return f"headers in C ({CPP[0]} is not installed, so C++ is not tried)"
    compile_source(CPP, linking(INTERFACES), *(SDK / interface.archive for interface in INTERFACES))
    return "headers in C and C++"


# ---- The libraries ---------------------------------------------------------------------------


def check_keeps_nothing():
    """A library holds a state for the length of a call and no longer: it has no memory of its own that can be written, and calls
    nothing that could have. Its header says what it calls."""
    for interface in INTERFACES:
        said = re.findall(r"The library needs ([^.]*)\.", built_header(interface).replace("\n *", ""))
        expect(f"what {interface.header} says it needs", [interface.calls], [set(re.findall(r"mem\w+", words)) for words in said])
        archive = SDK / interface.archive
        sizes = [row.split() for row in output("size", archive).splitlines()[1:]]
        expect(f"the bytes of writable memory in {archive}", {("0", "0")}, {(data, bss) for _, data, bss, *_ in sizes})
        called = {line.split()[-1] for line in output("nm", "--undefined-only", archive).splitlines() if " U " in line}
        expect(f"the functions that {archive} calls", interface.calls, called)
    return "no memory of their own"


# ---- The examples ----------------------------------------------------------------------------


def package_flags(interface):
    """The flags that pkg-config reads from a library's .pc file, as words."""
    package = SDK / interface.package
    values = {"pcfiledir": str(package.parent)}
    lines = re.findall(r"^(\w+)(=|: )(.*)$", package.read_text(encoding="utf-8"), re.M)

    def filled(text):
        return re.sub(r"\$\{(\w+)\}", lambda found: values[found.group(1)], text)

    for name, sign, value in lines:
        if sign == "=":
            values[name] = filled(value)
    said = {name: value for name, sign, value in lines if sign != "="}
    return [filled(word) for name in ("Cflags", "Libs") for word in said[name].split()]


def source_of(example):
    return library.ROOT / "examples" / f"{example.name}.c"


def check_examples():
    """Each example, linked with the archives and, by the flags of the .pc files, with the shared libraries."""
    library.sdk()
    strict, count = [C[1], *WARNINGS], 0
    for example in EXAMPLES:
        archives = [SDK / interface.archive for interface in example.interfaces]
        flags = itertools.chain(*map(package_flags, example.interfaces))
        with tempfile.TemporaryDirectory() as folder:
            static, shared = f"{folder}/static", f"{folder}/shared"
            output("gcc", *strict, f"-I{SDK / 'include'}", source_of(example), *archives, "-o", static)
            output("gcc", *strict, source_of(example), *flags, "-o", shared)
            expect(f"the lines of {example.name}", example.printed, output(static))
            printed = output(shared, env={"LD_LIBRARY_PATH": str(SDK / "lib")})
            expect(f"the lines of {example.name}", example.printed, printed)
        count += example.printed.count("\n")
    return f"{count} lines of {len(EXAMPLES)} examples"


def commands_in(text):
    """The commands that a text shows on indented lines, without comments; one that ends with a backslash goes on in the next line."""
    shown = "\n".join(line for line in text.splitlines() if line.startswith("    ")).replace("\\\n", " ")
    return [" ".join(line.partition("#")[0].split()) for line in shown.splitlines()]


def head_commands(example):
    """The commands that the comment at an example's head shows."""
    head = source_of(example).read_text(encoding="utf-8").partition("*/")[0]
    return commands_in(re.sub(r"^ \* ?", "", head, flags=re.M))


def check_readme():
    """The README's commands for C are those of the examples' heads, and print the same."""
    library.sdk()
    readme = (library.ROOT / "README.md").read_text(encoding="utf-8")
    commands = commands_in(readme.partition("## Using it from C")[2].partition("`include/cdi.h`")[0])
    for example in EXAMPLES:
        shown = head_commands(example)
        expect(f"the commands of {example.name}", ["./sdk", "gcc", f"target/{example.name}"], [line.split()[0] for line in shown])
    builds = itertools.chain(*(head_commands(example)[1:] for example in EXAMPLES))
    expect("the README's commands", ["./sdk", *builds], commands)
    printed = "".join(example.printed for example in EXAMPLES)
    expect("what they print", "target/sdk is up to date\n" + printed, output("sh", "-ec", "\n".join(commands)))
    return f"the README's {len(commands)} commands"


CHECKS = (
    check_build,
    check_numbers,
    check_items,
    check_functions,
    check_keeps_nothing,
    check_layout,
    check_languages,
    check_examples,
    check_readme,
)

if __name__ == "__main__":
    library.run_test(CHECKS)

"""The functions that the library exports: how a program reaches them, and how C calls them.

A module that is made without proofs belongs to a program, and has what its `main` reaches. So the library's module is that of a program
that could call each export. There an export is a function like any other: if its answer is a struct, it takes a pointer to it,
and it takes a pointer that isn't null with the length 0. A small file in C gives each its name, and C's way to call it.
"""
import re
import typing

import crates

EXPORT = re.compile(r'#\[unsafe\(no_mangle\)\]\s*pub extern "C" fn (\w+)\(([^)]*)\)')
DECLARATION = re.compile(r"^([a-z]\w*) (timefd_\w+)\(([^)]*)\);", re.M)
# How the names of those end that hand on what others answer: they stand in packages/answers.c.
HANDED_ON = "_into"
# The one function that C itself answers, as nothing but its sign says what the library is.
VERSION = "timefd_version"
# The sign of what timefd_version answers where nothing proved the library: its highest bit.
SIGN = "0x80000000u"
REACHING = """
fn reach_{name}(values: Option<({kinds})>) {{
    if let Some(({values})) = values {{
        let _ = {crate}::{name}({values});
    }}
}}
"""


class Parameter(typing.NamedTuple):
    """A parameter of a function of the header."""

    type: str
    name: str

    def is_pointer(self):
        """Whether it is the address of something."""
        return self.type.endswith("*")


def exported(crate):
    """The types of the parameters of each export but the version, by its name."""
    found = {}
    for file in crates.sources(crate):
        for name, parameters in EXPORT.findall(file.read_text(encoding="utf-8")):
            found[name] = [it.split(":", 1)[1].strip() for it in parameters.split(",") if it.strip()]
    return {name: kinds for name, kinds in found.items() if name != VERSION}


def with_path(kind, crate):
    """A parameter's type, as another crate writes it."""
    return re.sub(r"\b[A-Z]\w*", lambda it: "std::alloc::Global" if it[0] == "Global" else f"{crate}::{it[0]}", kind)


def reaching(crate):
    """The source of a program that reaches each export, and calls none."""
    parts = ["#![tactic(auto)]\n"]
    exports = exported(crate)
    for name, kinds in exports.items():
        values = "".join(f"value_{at}, " for at in range(len(kinds))).rstrip(", ")
        written = "".join(f"{with_path(kind, crate)}, " for kind in kinds).rstrip()
        parts.append(REACHING.format(name=name, kinds=written, values=values, crate=crate))
    calls = "".join(f"    reach_{name}(None);\n" for name in exports)
    return "".join([*parts, f"\nfn main() {{\n{calls}}}\n"])


def renamed(text, crate, prefix="unproved_"):
    """The module's text with the exports as functions of C, by their names with a prefix, and no `main`."""
    text = text.replace("define i32 @main(", "define internal i32 @main(")
    for name in exported(crate):
        spelled = rf'@"{crate}::(?:\w+::)*{name}"'
        text, count = re.subn(rf"^define internal (.*?){spelled}\(", rf"define hidden \1@{prefix}{name}(", text, flags=re.M)
        if count != 1:
            raise LookupError(f"the module has no function for {name}, which {crate} exports: see packages/unproved/exports.py")
        text = re.sub(spelled, f"@{prefix}{name}", text)
    return text


def declared(header):
    """What the header declares that the crate exports: the type of the answer and the parameters, by the function's name."""
    found = {}
    for answer, name, parameters in DECLARATION.findall(header):
        if name.endswith(HANDED_ON):
            continue
        words = [re.fullmatch(r"(.*?[ *])(\w+)", " ".join(it.split())) for it in parameters.split(",") if it != "void"]
        found[name] = (answer, [Parameter(it[1].strip(), it[2]) for it in words])
    return found


def shim_without_header(crate):
    """The file of C for a library that answers nothing, and whose callers declare its functions themselves."""
    calls = [call_of(name, "void", [it for at, kind in enumerate(kinds) for it in as_c(kind, at)]) for name, kinds in exported(crate).items()]
    return "\n".join(["#include <stddef.h>\n#include <stdint.h>\n", *calls])


def as_c(kind, at):
    """The parameters of C for one of an export, which is the one with this number."""
    if kind == "Global":
        return []
    if not kind.startswith("&"):
        return [Parameter({"u32": "uint32_t"}[kind], f"value_{at}")]
    address = Parameter("void *", f"address_{at}")
    return [address, Parameter("size_t", f"len_{at}")] if kind.endswith("]") else [address]


def shim(header, crate):
    """The file of C that stands between C's callers and the module."""
    functions = declared(header)
    if set(functions) != {VERSION, *exported(crate)}:
        differing = sorted(set(functions) ^ {VERSION, *exported(crate)})
        raise LookupError(f"the header and {crate} don't have the same functions: {', '.join(differing)}")
    calls = [call_of(name, *it) for name, it in functions.items() if name != VERSION]
    version = f"uint32_t {VERSION}(void) {{\n    return TIMEFD_VERSION;\n}}\n"
    return "\n".join(['#include "timefd.h"\n', version, *calls])


def call_of(name, answer, parameters):
    """The function that C calls, by that of the module."""
    taken = ", ".join(f"{it.type} {it.name}" for it in parameters)
    given = ", ".join(map(given_as, parameters, [*parameters[1:], None]))
    if answer.startswith("timefd_"):
        declaration = f"void unproved_{name}({answer} *answer, {taken});"
        body = f"{answer} answer;\n    unproved_{name}(&answer, {given});\n    return answer;"
    elif answer == "void":
        declaration = f"void unproved_{name}({taken});"
        body = f"unproved_{name}({given});"
    else:
        declaration = f"{answer} unproved_{name}({taken});"
        body = f"return unproved_{name}({given});"
    return f"{declaration}\n{answer} {name}({taken}) {{\n    {body}\n}}\n"


def given_as(parameter, following):
    """A parameter as the module takes it: beside its length a pointer is never null."""
    if parameter.is_pointer() and following and following.type == "size_t":
        return f"{parameter.name} ? {parameter.name} : (void *)8"
    return parameter.name


def signed(header):
    """The header of the library that nothing proved: its version has the sign too."""
    said = "/* Nothing proved this library: ./build made it for trying, and the sign of its number says so. */\n"
    made, count = re.subn(r"^#define TIMEFD_VERSION (\d+u)$", rf"{said}#define TIMEFD_VERSION ({SIGN} | \1)", header, flags=re.M)
    if count != 1:
        raise LookupError("examples/timefd.h has no line `#define TIMEFD_VERSION NUMBERu`")
    return made

"""The module of a crate, without the checks that `rt try` adds."""
import pathlib
import re
import sys

sys.path.insert(0, str(pathlib.Path(__file__).resolve().parents[2] / "gate"))

import crates
import kit_try

# What all functions of a module are marked with: for the sanitizer and its traces.
FOR_THE_SANITIZER = re.compile(r"^attributes #0 = \{.*\}")
# A function of a source that is asked to be inlined, or not to be.
FUNCTION = re.compile(r'(?:pub(?:\([a-z]+\))? )?(?:const )?(?:extern "C" )?fn (\w+)')


def asked_to_inline():
    """What the sources ask LLVM, by crate, module and name of the function."""
    asked = {}
    for crate in crates.listed():
        for file in crates.sources(crate):
            inside = file.relative_to(crates.folder(crate) / "src").with_suffix("")
            asked |= {(crate, "::".join(inside.parts), name): word for name, word in asked_in(file)}
    return asked


def asked_in(file):
    """The functions of a file that are asked for, and LLVM's word for it."""
    word = None
    for line in map(str.strip, file.read_text(encoding="utf-8").splitlines()):
        if line.startswith("#[inline("):
            word = "alwaysinline" if "always" in line else "noinline"
        named = FUNCTION.match(line)
        if named and word:
            yield named[1], word
        if named:
            word = None


def word_of(line, asked):
    """What is asked of the function that this line of a module begins."""
    name = re.search(r'@"([^"]*)"\(', line)
    parts = re.sub(r"::<.*$", "", name[1]).split("::") if name else []
    found = (asked.get((parts[0], "::".join(parts[1:end]), parts[-1])) for end in range(2, len(parts)))
    return next(filter(None, found), None)


def without_checks(lines, asked):
    """The lines of a module without the checks and the sanitizer, each function inlined as it asks."""
    for line in lines:
        if any(it in line for it in kit_try.CHECKS):
            continue
        word = word_of(line, asked) if line.startswith("define ") else None
        if word:
            line = re.sub(r" #0\s*\{\s*$", f" #0 {word} {{\n", line)
        yield FOR_THE_SANITIZER.sub('attributes #0 = { nounwind "target-cpu"="x86-64" }', line)


def text_of(name, root, libraries, room):
    """The text of the module of a program, without checks; `room` is a folder for what lies between."""
    kept, printed = room / f"{name}.bc", room / f"{name}.ll"
    kit_try.make_module(name, root, libraries, kept)
    kit_try.print_module(kept, printed)
    lines = printed.read_text(encoding="utf-8", errors="surrogateescape").splitlines(keepends=True)
    return "".join(without_checks(lines, asked_to_inline()))


def compile_text(text, room, name):
    """The object of a module's text."""
    few, made = room / f"{name}.few.ll", room / f"{name}.o"
    few.write_text(text, encoding="utf-8", errors="surrogateescape")
    kit_try.compile_module(few, made)
    return made


def libraries_below(name):
    """The words for all libraries that a crate reaches, its own first."""
    own = crates.below(name)
    of_kit = [it for each in [name, *own] for it in crates.of_kit(each)]
    return [*map(crates.as_library, own), *kit_try.libraries_of_kit(of_kit)]

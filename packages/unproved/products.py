"""What `./build` makes, one by one: programs, and the library."""
import os
import pathlib
import re
import shutil
import subprocess
import sys
import tempfile
import typing

import crates
import exports
import kit_try
import module

# What makes the page's module of WebAssembly.
PAGE = crates.TOP / "web"
sys.path.insert(0, str(PAGE))

import wasm_bytes
import wasm_module

HERE = pathlib.Path(__file__).resolve().parent
HEADER = crates.TOP / "examples/timefd.h"
# Those over it, which call nothing but what it declares.
MORE_HEADERS = tuple(crates.TOP / f"examples/timefd_{it}.h" for it in ("names", "text", "time"))
# The programs that users call; others are tests.
USED = ("timefd", "timefd_lint", "timefd_format")
LIBRARY = "timefd_c"
# The page's library, which tests call on this machine and as WebAssembly.
WEB = "timefd_web"
WEB_FILES = (f"parts/lib{WEB}.a", f"parts/{wasm_module.MODULE}", f"parts/{wasm_module.WIDE}")
# The parts are what the one archive is made of: a test that takes the place of calls for memory sees these in them alone.
HEADERS = (HEADER.name, *(it.name for it in MORE_HEADERS))
LIBRARY_FILES = ("libtimefd.a", "libtimefd.so", *HEADERS, "parts/libtimefd_c.a", "parts/liblibc_c.a")
# The program that reaches what a library exports.
REACHES = "reaches_each_export"


class Product(typing.NamedTuple):
    """A program or the library: its crate, and the files that it leaves."""

    crate: str
    files: tuple

    def sum(self):
        """The sum of all that it is made of."""
        own = [*sorted(HERE.glob("*.py")), HERE / "main.c", pathlib.Path(kit_try.__file__)]
        own += [HEADER, *MORE_HEADERS, *(crates.TOP / "packages" / it for it in ("library", "answers.c", "names"))]
        if self.crate == WEB:
            own += [*wasm_module.PARTS, *(PAGE / f"{it}.py" for it in ("wasm_module", "wasm_bytes", "narrow"))]
        texts = [it.read_text(encoding="utf-8") for it in own]
        return crates.sum_of([self.crate, *crates.below(self.crate)], kit_try.identity(), *texts)

    def make(self, out):
        """Makes the files in the folder `out`."""
        with tempfile.TemporaryDirectory(prefix="unproved-") as room:
            MAKERS.get(self.crate, make_program)(self, out, pathlib.Path(room))


def chosen(with_tests):
    """The products that users take, and with those that tests alone run, which stand in a folder of their own."""
    programs = [Product(it, (it,)) for it in USED]
    if with_tests:
        programs += [Product(it, (f"tests/{it}",)) for it in crates.programs() if it not in USED]
        programs.append(Product(WEB, WEB_FILES))
    # The linter takes the longest: it begins first.
    return sorted([*programs, Product(LIBRARY, LIBRARY_FILES)], key=lambda it: len(crates.below(it.crate)), reverse=True)


def run(*words, **more):
    """Runs a command, whose complaint is the reason where it fails."""
    ran = subprocess.run(words, capture_output=True, text=True, errors="replace", env={**os.environ, **more})
    if ran.returncode:
        raise kit_try.Lacking(f"`{words[0]}` ended with status {ran.returncode}:\n{ran.stdout}{ran.stderr}".rstrip())


def link(program, to, *more):
    """Links the object of a program with what it calls of the system."""
    run("cc", "-Wl,--gc-sections", "-o", to, *more, program, *kit_try.archives())


def make_program(product, out, room):
    """Links a program, whose start says that nothing proved it."""
    name = product.crate
    text = module.text_of(name, crates.root(name), module.libraries_below(name), room)
    program = module.compile_text(text.replace("@main(", "@unproved_main("), room, name)
    run("cc", "-O2", "-c", "-o", room / "main.o", HERE / "main.c")
    link(program, room / "linked", room / "main.o")
    to = out / product.files[0]
    to.parent.mkdir(parents=True, exist_ok=True)
    shutil.copy(room / "linked", f"{to}.new")
    os.replace(f"{to}.new", to)


def text_of_exports(crate, room):
    """The text of the module of a library's exports."""
    (room / "main.rt").write_text(exports.reaching(crate), encoding="utf-8")
    libraries = [crates.as_library(crate), *module.libraries_below(crate)]
    return exports.renamed(module.text_of(REACHES, room / "main.rt", libraries, room), crate)


def make_archive(crate, text, shim, room):
    """Makes the archive of a library: its exports, and the file of C by which C calls them."""
    (room / "shim.c").write_text(shim, encoding="utf-8")
    made = module.compile_text(text, room, REACHES)
    run("cc", "-std=c11", "-O2", "-fPIC", "-c", "-o", room / "shim.o", room / "shim.c")
    archive = room / f"lib{crate}.a"
    run("ar", "rcD", archive, made, room / "shim.o")
    return archive


def make_library(product, out, room):
    """Makes the library as the packages have it, static and shared, with its header and its parts."""
    header = HEADER.read_text(encoding="utf-8")
    (room / "timefd.h").write_text(exports.signed(header), encoding="utf-8")
    text = text_of_exports(product.crate, room)
    archive = make_archive(product.crate, text, exports.shim(header, product.crate), room)
    run(crates.TOP / "packages/library", out, TIMEFD_ARCHIVE=str(archive))
    for it in (archive, kit_try.folder() / "c/liblibc_c.a", out / "UNPROVED"):
        shutil.copy(it, out / "parts")
    for it in (room / "timefd.h", *MORE_HEADERS):
        shutil.copy(it, out)


def make_web(product, out, room):
    """Makes the page's library: the archive for this machine, and the modules of WebAssembly."""
    text, shim = text_of_exports(product.crate, room), exports.shim_without_header(product.crate)
    shutil.copy(make_archive(product.crate, text, shim, room), out / "parts")
    # The kit's clang has no headers for WebAssembly, and a compiler's words give their types.
    bare = room / "bare.c"
    bare.write_text(re.sub(r"(?m)^#include .*\n", "", shim), encoding="utf-8")
    clang = kit_try.folder() / "toolchain/bin/clang"
    try:
        objects = [wasm_module.compile_code(clang, text, room), *wasm_module.compile_parts(clang, [bare, *wasm_module.PARTS], room)]
        wasm_module.make(clang, objects, exports.exported(product.crate), out / "parts")
    except (wasm_module.Refused, wasm_bytes.Unknown) as reason:
        raise kit_try.Lacking(str(reason)) from None


MAKERS = {LIBRARY: make_library, WEB: make_web}

"""Makes a module of WebAssembly of the code that the toolchain makes for x86-64."""

import os, pathlib, re, subprocess

from narrow import narrowed

HERE = pathlib.Path(__file__).resolve().parent
OF_ONE_PROCESSOR = r"@llvm\.(?:x86|aarch64)[\w.]*"
OF_X86 = r' "(?:probe-stack|stack-probe-size|target-cpu|target-features|frame-pointer)"="[^"]*"'
FEATURES = ["-mbulk-memory", "-msimd128", "-mnontrapping-fptoint", "-msign-ext"]
COMPILE = ["--target=wasm64-unknown-unknown", "-Os", *FEATURES, "-c", "-mllvm", "-trap-unreachable", "-Wno-override-module"]
OF_C = ["-ffreestanding", "-Wall", "-Wextra", "-Werror", "-Dsize_t=__SIZE_TYPE__", "-Duint32_t=__UINT32_TYPE__"]
LINK = ["-mwasm64", "--no-entry", "--gc-sections", "--stack-first", "-z", "stack-size=1048576", "--strip-all"]
PARTS = [HERE / "heap.c", HERE / "wide.c"]
FOR_HOST = ["timefd_room", "timefd_give_back"]
# The module that is handed out, with addresses of 32 bits, and the one of 64 bits that it is made of.
MODULE, WIDE = "timefd.wasm", "wide.wasm"


class Refused(Exception):
    """A sentence on why there is no module."""


def run(*words, name=None):
    ran = subprocess.run([name or words[0], *words[1:]], executable=words[0], stderr=subprocess.PIPE, text=True)
    if ran.returncode:
        raise Refused(f"`{name or words[0]}` ended with status {ran.returncode}:\n{ran.stderr}".rstrip())


def of_no_processor(code):
    """LLVM's code without the names of the processor that it was made for."""
    if others := sorted(set(re.findall(OF_ONE_PROCESSOR, code))):
        raise Refused(f"this code has instructions of one processor: {', '.join(others)}")
    return re.sub(OF_X86, "", re.sub(r"(?m)^target (datalayout|triple) = .*\n", "", code))


def compile_code(clang, code, room):
    """The object of LLVM's code, in the folder `room`."""
    text, made = f"{room}/code.ll", f"{room}/code.o"
    pathlib.Path(text).write_text(of_no_processor(code), encoding="utf-8", errors="surrogateescape")
    run(clang, *COMPILE, "-ffunction-sections", "-x", "ir", text, "-o", made)
    return made


def compile_parts(clang, parts, room):
    """The objects of files of C, in the folder `room`."""
    for it in parts:
        made = f"{room}/{it.stem}.o"
        run(clang, *COMPILE, *OF_C, "-x", "c", it, "-o", made)
        yield made


def make(clang, objects, exports, folder, most=None):
    """Links both modules into a folder, with a memory of at most so many bytes where that is given."""
    words = [*LINK, *([f"--max-memory={most}"] if most else []), *(f"--export={it}" for it in [*exports, *FOR_HOST])]
    os.makedirs(folder, exist_ok=True)
    wide = pathlib.Path(folder, WIDE)
    run(clang, "-flavor", "wasm", *words, *objects, "-o", wide, name="lld")
    wide.chmod(0o644)
    pathlib.Path(folder, MODULE).write_bytes(narrowed(wide.read_bytes()))

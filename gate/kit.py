#!/usr/bin/env python3
"""The toolchain's own modules, for the scripts of this repository, which get them only from here.

    gate/kit.py     looks for each name of the tables below in the kit that `rt` belongs to, and builds nothing

The toolchain promises nothing about them. So the tables have each name that a script uses. If a kit lacks one, the script stops with
a sentence before it does anything.
"""
import functools
import importlib.machinery
import importlib.util
import os
import shutil
import subprocess
import sys

sys.dont_write_bytecode = True
TOP = os.path.dirname(os.path.dirname(os.path.abspath(__file__)))
# What is used of each module, by the name of its file beside `rt`.
MODULES = {
    # The gate of the toolchain, for gate/time, and what `rt` is made of.
    "rt": ("ci", "rtlib"),
    # How crates are found, locked and laid out, and how the prover is called.
    "rtlib.py": ("PARTS", "RATTLE", "crates_below", "files_of", "fmt", "guarded", "lock"),
    # Where functions begin and end, for gate/wrong.
    "rt-plant-bodies": ("Source",),
}
# What is used of the objects that they make.
OBJECTS = {
    "a crate": ("below", "compile", "count", "folder", "is_built", "is_program", "name", "out", "rlib", "stamp", "words"),
    "a source": ("data", "functions", "read"),
    "a function": ("block", "end", "file", "first", "in_cycle", "in_trait", "module", "name", "named", "owner"),
}


def stop(why):
    sys.exit(f"{os.path.relpath(sys.argv[0], TOP)}: {why}")


def folder():
    """Where `rt` and its modules are."""
    found = shutil.which("rt")
    return os.path.dirname(os.path.realpath(found)) if found else stop("there is no rt: put the kit's bin/ into PATH")


def with_names(it, what, names):
    """The module or object itself, if it has all of these names."""
    lacking = [name for name in names if not hasattr(it, name)]
    if lacking:
        stop(f"the kit of {folder()} has no `{lacking[0]}` in {what}: see what stands for it there, and change gate/kit.py")
    return it


@functools.cache
def module(name):
    """A module of the toolchain, by the name of its file."""
    path = f"{folder()}/{name}"
    if not os.path.isfile(path):
        stop(f"the kit of {folder()} has no file {name}: see what stands for it there, and change gate/kit.py")
    loader = importlib.machinery.SourceFileLoader("kit_" + name.replace("-", "_").removesuffix(".py"), path)
    made = importlib.util.module_from_spec(importlib.util.spec_from_loader(loader.name, loader))
    sys.modules[loader.name] = made
    loader.exec_module(made)
    return with_names(made, name, MODULES[name])


@functools.cache
def rtlib():
    """What `rt` itself uses of crates and of the prover."""
    return with_names(module("rt").rtlib, "rtlib.py", MODULES["rtlib.py"])


def crates():
    """The crates of this repository, lowest first."""
    return [with_names(it, "a crate", OBJECTS["a crate"]) for it in rtlib().crates_below(f"{TOP}/crates")]


def crate_named(name):
    found = [it for it in crates() if it.name == name]
    return found[0] if found else stop(f"there is no crate {name} in crates.txt")


def source_of(crate):
    """A crate's files and functions, as the toolchain reads them to plant wrong bodies."""
    source = with_names(module("rt-plant-bodies").Source(crate.folder), "a source", OBJECTS["a source"])
    source.read("src/main.rt" if crate.is_program else "src/lib.rt")
    for it in source.functions[:1]:
        with_names(it, "a function", OBJECTS["a function"])
    return source


def kept_of(crate):
    """The folder of what a check of the crate best begins with: what checks of it have kept in this checkout, or in another one on this
    machine, where the kit knows of these. Nothing if there is none."""
    found = getattr(module("rt"), "work_for", None)
    here = f"{crate.folder}/out/incremental"
    return found(crate) if found else here if os.path.isdir(here) else None


def begin_with_kept(crate):
    """Has checks of the crate here begin with what another checkout on this machine has kept, where that serves better."""
    adopt = getattr(module("rt"), "adopt", None)
    if adopt:
        adopt(crate)


def link(made, program):
    """Links a program's object, as `rt ci` does, and returns whether that went well."""
    top = os.path.dirname(folder())
    words = ["--target", "x86_64-unknown-linux-gnu", "--toolchain", f"{top}/toolchain", "-o", program, made]
    how = {"stdin": subprocess.DEVNULL, "stdout": subprocess.DEVNULL, "stderr": subprocess.DEVNULL}
    return subprocess.run([f"{top}/bin/rattle-link", *words, f"{top}/c/libos_c.a", f"{top}/c/liblibc_c.a"], **how).returncode == 0


def lanes():
    """How many crates are looked at side by side: RT_JOBS, or the processors that this process may use."""
    return int(os.environ.get("RT_JOBS") or len(os.sched_getaffinity(0)))


def is_left(crate):
    """Whether the crate's library is there, and is that of its sources: by rt's sum of them, or as none is newer."""
    if not os.path.exists(crate.rlib):
        return False
    built = os.stat(crate.rlib).st_mtime
    return crate.is_built() or all(os.stat(it).st_mtime < built for it in rtlib().files_of(crate.folder))


def main():
    os.chdir(TOP)
    lowest = crates()[0]
    source_of(lowest)
    print(f"gate/kit.py: {folder()} has the {sum(map(len, [*MODULES.values(), *OBJECTS.values()]))} names that are used")


if __name__ == "__main__":
    main()

"""The crates of this repository, as crates.txt lists them."""
import functools
import hashlib
import pathlib
import re

TOP = pathlib.Path(__file__).resolve().parents[2]


@functools.cache
def listed():
    """What each crate uses, by its name: other crates, and libraries of the kit."""
    rows = [row.partition("#")[0] for row in (TOP / "crates.txt").read_text(encoding="utf-8").splitlines()]
    named = [row.partition(":") for row in rows if row.strip()]
    return {head.split()[0]: uses.split() for head, _, uses in named}


def folder(name):
    """Where the crate lies."""
    return TOP / "crates" / name


def root(name):
    """The file that the crate begins with."""
    main = folder(name) / "src/main.rt"
    return main if main.is_file() else folder(name) / "src/lib.rt"


def programs():
    """The crates that are programs."""
    return [name for name in listed() if root(name).name == "main.rt"]


def tested():
    """The crates that have test functions, those with the most first, since they take the longest."""
    counts = {name: sum(len(re.findall(r"#\[test\]", it.read_text(encoding="utf-8"))) for it in sources(name)) for name in listed()}
    return sorted((name for name in counts if counts[name]), key=counts.get, reverse=True)


def sources(name):
    """The files of the crate's code."""
    return sorted(folder(name).glob("src/**/*.rt"))


def below(name):
    """The crates that this one uses, and those that these use."""
    found = [it for it in listed()[name] if it in listed()]
    for it in found:
        found += [more for more in listed()[it] if more in listed() and more not in found]
    return found


def of_kit(name):
    """The libraries of the kit that the crate itself uses."""
    return ["std", *(it for it in listed()[name] if it not in listed())]


def used(name):
    """The libraries that the crate itself uses: of the kit, and of this repository."""
    return list(dict.fromkeys(["core", *of_kit(name), *(it for it in listed()[name] if it in listed())]))


def as_library(name):
    """The word that hands the crate to the toolchain as a library: its name, what it uses, and its source."""
    return f"{name}:{','.join(used(name))}={root(name)}"


def sum_of(names, *more):
    """The sum of the sources of these crates, and of more texts."""
    summed = hashlib.sha256()
    for text in more:
        summed.update(f"{text}\n".encode())
    for name in sorted(names):
        summed.update(f"{name}: {used(name)}\n".encode())
        for file in sources(name):
            summed.update(f"{file.relative_to(TOP)}\n".encode() + file.read_bytes())
    return summed.hexdigest()

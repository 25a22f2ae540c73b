"""Compiles the extension for Python over the static library.

    python3 bindings/python/backend/extension.py FOLDER    of the libtimefd.a in this folder, into it
"""

import os
import pathlib
import subprocess
import sys
import sysconfig

PYTHON = pathlib.Path(__file__).resolve().parent.parent
FILE = "_timefd.abi3.so"
WORDS = "-std=c11 -Wall -Wextra -O2 -fPIC -fvisibility=hidden -shared".split()
# The library's own functions stay hidden, so that another libtimefd in the process doesn't take their place.
LINKING = "-Wl,--exclude-libs,ALL -Wl,-z,relro,-z,now,-z,noexecstack -Wl,--build-id=sha1 -Wl,-s".split()


class Lacking(Exception):
    """Something that a build wants isn't there."""


HEADERS = pathlib.Path(sysconfig.get_paths()["include"])
NO_HEADERS = f"there is no {HEADERS}/Python.h (Debian's package python3-dev has it)"


def has_headers():
    """Whether Python's headers are there. Those of each version from 3.9 on do."""
    return (HEADERS / "Python.h").exists()


def compile_to(to, library, header, compiler="cc", more=()):
    """Compiles the extension with the archive `library`, by the `timefd.h` in the folder `header`, with more words for the compiler."""
    if not has_headers():
        raise Lacking(NO_HEADERS)
    sources = sorted((PYTHON / "source").glob("*.c"))
    to, library, header = (pathlib.Path(it).resolve() for it in (to, library, header))
    # The names of the sources alone, so that the bytes are the same from each folder.
    given = [*more, f"-I{HEADERS}", f"-I{header}", *(it.name for it in sources), str(library)]
    words = [compiler, *WORDS, *given, *LINKING, "-o", str(to)]
    ran = subprocess.run(words, cwd=PYTHON / "source", capture_output=True, text=True, errors="replace")
    if ran.returncode:
        raise Lacking(f"`{compiler}` ended with status {ran.returncode}:\n{ran.stdout}{ran.stderr}".rstrip())


def main():
    if not has_headers():
        print(f"extension.py: SKIPPED: the module for Python, as {NO_HEADERS}")
        return
    folder = pathlib.Path(sys.argv[1]).resolve()
    made = folder / f"{FILE}.new"
    try:
        compile_to(made, folder / "libtimefd.a", PYTHON.parent.parent / "examples")
    except Lacking as reason:
        sys.exit(f"extension.py: {reason}")
    os.replace(made, folder / FILE)


if __name__ == "__main__":
    main()

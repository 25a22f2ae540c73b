"""Builds a wheel or a source archive of this package, by the hooks that pip calls (PEP 517). It needs a C compiler, Python's headers
and the library: the one in the folder TIMEFD_LIB_DIR, in a source archive, or what the repository has built.
"""

import os
import pathlib
import platform
import sys
import tempfile
import time

sys.path.insert(0, str(pathlib.Path(__file__).resolve().parent))

import archives
import extension
from extension import PYTHON, Lacking

TOP = PYTHON.parent.parent


def library():
    """The static library for this machine, and the folder of its header."""
    machine = platform.machine()
    given = os.environ.get("TIMEFD_LIB_DIR")
    if given:
        folders = [pathlib.Path(given)]
    else:
        folders = [PYTHON / "native" / f"{machine}-unknown-linux-gnu", TOP / "packages/out/lib", TOP / "out"]
    for folder in folders:
        if (folder / "libtimefd.a").exists():
            headers = [folder, folder.parent / "include", PYTHON / "source", TOP / "examples"]
            return folder / "libtimefd.a", next(it for it in headers if (it / "timefd.h").exists())
    raise Lacking(f"there is no libtimefd.a for {machine}: set TIMEFD_LIB_DIR to the folder that has it")


def moment():
    """When all files of an archive are said to be written, in seconds since 1970."""
    return int(os.environ.get("SOURCE_DATE_EPOCH", time.time()))


def papers():
    """The terms, and in a source archive also what it was made of."""
    folder = PYTHON if (PYTHON / "LICENSE-MIT").exists() else TOP
    return [folder / it for it in ("LICENSE-MIT", "LICENSE-APACHE", "TERMS.md", "BUILT") if (folder / it).exists()]


def build_wheel(wheel_directory, config_settings=None, metadata_directory=None):
    archive, header = library()
    unproved = archive.with_name("UNPROVED")
    more = {"timefd/UNPROVED": unproved.read_bytes()} if unproved.exists() else {}
    with tempfile.TemporaryDirectory() as room:
        made = pathlib.Path(room, extension.FILE)
        extension.compile_to(made, archive, header)
        where = f"linux_{platform.machine()}", pathlib.Path(wheel_directory)
        return archives.write_wheel(made, *where, moment(), papers(), more)


def build_sdist(sdist_directory, config_settings=None):
    archive, header = library()
    libraries = {f"{platform.machine()}-unknown-linux-gnu": archive}
    return archives.write_sdist(libraries, header / "timefd.h", pathlib.Path(sdist_directory), moment(), papers())

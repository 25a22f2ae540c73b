"""Where the extension `timefd._timefd` is: the proved library, and its calls for Python."""

import importlib.machinery
import importlib.util
import os
import pathlib
import sys
import types

NAME = "timefd._timefd"
FILE = "_timefd.abi3.so"
VERSION = 2000
# The bit that a library which nothing proved has beside its version. A file beside the extension says the same.
UNPROVED_BIT = 1 << 31
UNPROVED_FILE = "UNPROVED"


def _folders() -> "list[pathlib.Path]":
    """The folder `TIMEFD_LIB_DIR`; else this package, and what the repository around it has built."""
    given = os.environ.get("TIMEFD_LIB_DIR")
    if given:
        return [pathlib.Path(given)]
    here = pathlib.Path(__file__).resolve().parent
    if here.parts[-3:] != ("bindings", "python", "timefd"):
        return [here]
    top = here.parents[2]
    return [here, top / "packages/out/lib", top / "out"]


def _found() -> pathlib.Path:
    folders = _folders()
    for folder in folders:
        if (folder / FILE).exists():
            return folder / FILE
    tried = " or ".join(map(str, folders))
    why = f"there is no {FILE} in {tried}: `./build timefd_c` of the repository leaves one in out/, where Python's headers are"
    raise ImportError(why, name=NAME)


def _load() -> types.ModuleType:
    path = _found()
    loader = importlib.machinery.ExtensionFileLoader(NAME, str(path))
    spec = importlib.util.spec_from_file_location(NAME, path, loader=loader)
    assert spec is not None
    module = importlib.util.module_from_spec(spec)
    loader.exec_module(module)
    found, wanted = module.version(), VERSION
    if path.with_name(UNPROVED_FILE).exists():
        wanted |= UNPROVED_BIT
    if found != wanted:
        raise ImportError(f"{path} has the library's version {found}, and this package is for {wanted}", name=NAME)
    return module


# Where the import of `timefd._timefd` looks first.
sys.modules[NAME] = _load()
# Whether nothing proved the library: it is what `./build` of the repository leaves, for trying.
IS_UNPROVED = bool(sys.modules[NAME].version() & UNPROVED_BIT)

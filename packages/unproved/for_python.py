"""The module for Python over the library that `./build` has made."""
import os
import pathlib
import sys
import typing

import crates
import kit_try
import products

sys.path.append(str(crates.TOP / "bindings/python/backend"))

import extension


class Module(typing.NamedTuple):
    """The extension: what it is called among the sums, and the file that it leaves."""

    crate: str = "for_python"
    files: tuple = (extension.FILE,)

    def sum(self):
        """The sum of all that it is made of."""
        own = [pathlib.Path(extension.__file__), *sorted((extension.PYTHON / "source").iterdir())]
        texts = [it.read_text(encoding="utf-8") for it in own]
        return crates.sum_of([], products.Product(products.LIBRARY, ()).sum(), str(extension.HEADERS), *texts)

    def make(self, out):
        """Makes the file in the folder `out`, where the library lies."""
        made = out / f"{extension.FILE}.new"
        try:
            extension.compile_to(made, out / "libtimefd.a", out, more=["-Werror"])
        except extension.Lacking as reason:
            raise kit_try.Lacking(str(reason)) from reason
        os.replace(made, out / extension.FILE)


def lacking():
    """Why it can't be made on this machine, if so."""
    return None if extension.has_headers() else extension.NO_HEADERS

"""The module that is tested. If its extension is missing because there are no headers of Python, the tests are skipped, and say so."""

import pathlib
import sys
import sysconfig
import unittest

HEADERS = pathlib.Path(sysconfig.get_paths()["include"])

try:
    import timefd
except ImportError as error:
    if (HEADERS / "Python.h").exists():
        raise
    why = f"SKIPPED: the tests of Python, as there is no {HEADERS}/Python.h to build the module by (Debian's package python3-dev)"
    print(why, file=sys.stderr)
    raise unittest.SkipTest(why) from error

"""Tests of what the package gives to whom imports it."""

import pathlib
import re
import shutil
import subprocess
import tempfile
import unittest

from found import timefd
from timefd import library

# What a caller writes, with the types that a checker has to find.
CALLER = """
import datetime
import typing
import timefd

form = timefd.Format("[day]", timefd.Language.VERSION_3)
written: str = form.format(datetime.date.today()) + timefd.format("[day]", datetime.time())
date: datetime.date = form.read_date(written)
time: datetime.time = form.read_time(written)
both: datetime.datetime = form.read_datetime(written)
any_value: typing.Union[datetime.date, datetime.time, datetime.timezone] = timefd.read("[day]", written)
nodes: typing.Tuple[timefd.Node, ...] = form.nodes
skipped: typing.Optional[timefd.Optional] = None
try:
    timefd.check("[mnth]")
except timefd.InvalidDescription as error:
    at: str = error.text[slice(*error.character_span)]
except timefd.Error:
    raise
"""
WRONG = """
import timefd

timefd.check(b"[day]")
timefd.Format("[day]").format("2026-11-23")
day: str = timefd.Format("[day]").read_date("23")
"""


class Names(unittest.TestCase):
    def test_importing_all_hides_nothing_of_python(self):
        names = {}
        exec("from timefd import *", names)
        self.assertNotIn("format", names)
        self.assertNotIn("Optional", names)
        for name in ("Format", "check", "convert", "parse", "read", "Error"):
            self.assertIs(names[name], getattr(timefd, name))
        self.assertTrue(callable(timefd.format) and isinstance(timefd.Optional, type))

    def test_the_version(self):
        major, minor, patch = map(int, timefd.__version__.split("."))
        self.assertEqual(major * 1000000 + minor * 1000 + patch, library.VERSION)

    def test_help_has_each_public_call(self):
        for name in timefd.__all__:
            self.assertTrue(name == "Node" or getattr(timefd, name).__doc__, name)
        for name in ("text", "language", "max_bytes", "nodes", "format", "read", "read_date", "read_time", "read_datetime"):
            self.assertTrue(getattr(timefd.Format, name).__doc__, name)


class Page(unittest.TestCase):
    def test_the_examples_of_the_page(self):
        page = (pathlib.Path(__file__).resolve().parents[1] / "README.md").read_text()
        names = {}
        for line in page.split("```python\n")[1].split("```")[0].splitlines():
            code, _, said = line.partition("  # ")
            if not said:
                exec(code, names)
                continue
            try:
                got = repr(eval(code, names)).replace("'", '"')
            except timefd.Error as error:
                got = f"{type(error).__name__}: {error}"
            self.assertTrue(said.startswith(got), f"{code} is {got}")


class Types(unittest.TestCase):
    def test_good_callers_are_well_typed_and_bad_ones_are_not(self):
        mypy = shutil.which("mypy")
        if not mypy:
            self.skipTest("SKIPPED: the types, as there is no mypy (Debian's package mypy)")
        with tempfile.TemporaryDirectory() as room:
            package = pathlib.Path(timefd.__file__).parent
            shutil.copytree(package, f"{room}/timefd", ignore=shutil.ignore_patterns("__pycache__", "*.so"))
            for name, text in (("caller.py", CALLER), ("wrong.py", WRONG)):
                pathlib.Path(room, name).write_text(text)
            words = [mypy, "--strict", "--cache-dir=/dev/null", "timefd", "caller.py", "wrong.py"]
            said = subprocess.run(words, cwd=room, capture_output=True, text=True).stdout
        self.assertEqual(re.findall(r"^(\S+:\d+): error", said, re.M), ["wrong.py:4", "wrong.py:5", "wrong.py:6"], said)


if __name__ == "__main__":
    unittest.main()

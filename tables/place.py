"""Where a table is in a file: found by the lines around it, so that no file needs marks."""
import dataclasses
import re
import typing


class NotFound(Exception):
    """The lines around a table aren't there."""


def first(lines, begin, wanted, indented=False):
    """The first line from this one on that begins so, with this indentation or with any; or an empty one."""
    for at in range(begin, len(lines)):
        line = lines[at] if indented else lines[at].strip()
        if line.startswith(wanted) if wanted else not line:
            return at
    raise NotFound(f"no line begins with `{wanted}`")


def ending(lines, begin, wanted):
    """The first line from this one on that ends so."""
    for at in range(begin, len(lines)):
        if lines[at].endswith(wanted):
            return at
    raise NotFound(f"no line ends with `{wanted}`")


@dataclasses.dataclass(frozen=True)
class Between:
    """After lines that begin so, one after another, up to one that is indented and begins so."""

    after: tuple
    before: str

    def lines(self, lines):
        at = 0
        for wanted in self.after:
            at = first(lines, at, wanted) + 1
        return at, first(lines, at, self.before, True)

    def __str__(self):
        return self.after[0]


@dataclasses.dataclass(frozen=True)
class Statement:
    """From a line that begins so up to one that ends with a semicolon."""

    begins: str

    def lines(self, lines):
        begin = first(lines, 0, self.begins)
        return begin, ending(lines, begin, ";") + 1

    def __str__(self):
        return self.begins


@dataclasses.dataclass(frozen=True)
class Line:
    """The first line that begins so."""

    begins: str

    def lines(self, lines):
        begin = first(lines, 0, self.begins)
        return begin, begin + 1

    def __str__(self):
        return self.begins


@dataclasses.dataclass(frozen=True)
class Run:
    """All lines one after another that begin so."""

    begins: str

    def lines(self, lines):
        begin = end = first(lines, 0, self.begins)
        while lines[end].startswith(self.begins):
            end += 1
        return begin, end

    def __str__(self):
        return self.begins


@dataclasses.dataclass(frozen=True)
class Alternatives:
    """In an item, the patterns of the arm that ends so."""

    item: str
    ends: str

    def lines(self, lines):
        begin = end = ending(lines, first(lines, 0, self.item), self.ends)
        while lines[begin].strip().startswith("| "):
            begin -= 1
        return begin, end + 1

    def __str__(self):
        return f"{self.item}, all others"


@dataclasses.dataclass(frozen=True)
class Table:
    """A table of a file, and how its lines are made."""

    file: str
    place: typing.Any
    rows: typing.Callable
    label: str = ""

    def __str__(self):
        return self.label or str(self.place).rstrip(" {:")

    def written(self, text):
        """The text of the file with this table as it should be."""
        lines = text.split("\n")
        begin, end = self.place.lines(lines)
        return "\n".join([*lines[:begin], *self.rows(), *lines[end:]])


@dataclasses.dataclass(frozen=True)
class Part:
    """What fits a pattern in a line of a file, the first that begins so, and what it is."""

    file: str
    begins: str
    pattern: str
    made: typing.Callable

    def __str__(self):
        return self.begins

    def written(self, text):
        """The text of the file with this part as it should be."""
        lines = text.split("\n")
        at = first(lines, 0, self.begins)
        lines[at], count = re.subn(self.pattern, lambda _: self.made(), lines[at], count=1)
        if not count:
            raise NotFound(f"the line that begins with `{self.begins}` has nothing like `{self.pattern}`")
        return "\n".join(lines)


def each(file, place, rows, template):
    """A table with one line for each row."""
    return Table(file, place, lambda: [template.format(it) for it in rows])

"""Tables whose rows may take several lines: a row that says what stands there keeps its layout, and some rows are written manually."""
import dataclasses
import re

from place import NotFound, Table


@dataclasses.dataclass(frozen=True)
class Manual:
    """A row that no table determines: what stands there and begins so."""

    begins: str


def tokens(lines):
    """What lines say, without what only lays it out."""
    return re.sub(r"[\s{},]", "", "".join(lines))


def pieces(lines, begins):
    """The lines in groups, each from a line that begins so, and no deeper, up to the next one."""
    found = []
    for line in lines:
        if line.startswith(begins) and line[len(begins):][:1] != " " or not found:
            found.append([])
        found[-1].append(line)
    return found


def manual(row, old):
    """The lines that stand there for a row that is written manually."""
    for piece in old:
        if piece[0].startswith(row.begins):
            return piece
    raise NotFound(f"`{row.begins}` is to be written manually")


@dataclasses.dataclass(frozen=True)
class Kept(Table):
    """A table of rows that each begin so. A row is a list of lines, or `Manual`."""

    begins: str = ""

    def written(self, text):
        lines = text.split("\n")
        begin, end = self.place.lines(lines)
        old = pieces(lines[begin:end], self.begins)
        said = {tokens(it): it for it in old}
        rows = [manual(it, old) if isinstance(it, Manual) else said.get(tokens(it), it) for it in self.rows()]
        return "\n".join([*lines[:begin], *(line for it in rows for line in it), *lines[end:]])

"""The meanings of `meanings.toml`: what each component shows, how it is read, and what is warned of."""
import dataclasses
import pathlib
import re
import sys
import tomllib

import component
from shapes import SHAPES

HERE = pathlib.Path(__file__).resolve().parent


def snake(name):
    """`hour_12` of `Hour12`."""
    return re.sub(r"(?<=[a-z])(?=[A-Z0-9])", "_", name).lower()


@dataclasses.dataclass(frozen=True)
class Meaning:
    """A row. What its shape doesn't need, it doesn't have."""

    variant: str
    shape: str
    part: str
    field: str
    code: str = ""
    defined: str = ""
    width: int = 2
    lowest: int = 0
    highest: int = 0
    names: str = ""
    first: int = 0
    sunday: str = ""
    most: int = 0
    range: tuple = ()
    chrono: str = ""
    chrono_if: str = ""

    @property
    def shown(self):
        """The part as the name of a field: `offset_second`."""
        return snake(self.part)

    @property
    def list(self):
        """The list of names in definitions: `short_months`."""
        return snake(self.names)

    @property
    def base(self):
        """What the fields of its year begin with."""
        return "iso_" if self.part.startswith("Iso") else ""

    @property
    def nines(self):
        """The greatest number of as many digits as are read at most, in code."""
        return f"{10 ** self.most - 1:_}"

    @property
    def nines_defined(self):
        return str(10 ** self.most - 1)

    @property
    def row(self):
        """The component's row of `components.toml`."""
        return ROWS[self.variant]

    def by(self, what):
        """What the shape says of this, for the row."""
        return getattr(SHAPES[self.shape], what).format(self)


def row(variant, cells):
    """A row, if all its cells are known."""
    known = {field.name for field in dataclasses.fields(Meaning)}
    if unknown := [name for name in cells if name not in known]:
        sys.exit(f"tables/meanings.toml: `{variant}` has `{unknown[0]}`, of which nothing is known")
    if cells.get("shape") not in SHAPES:
        sys.exit(f"tables/meanings.toml: `{variant}` has to have one of these shapes: {', '.join(SHAPES)}")
    return Meaning(variant, **{"field": cells["part"], **cells})


def check():
    """That each component has a row, and nothing else has one."""
    if apart := set(ROWS) ^ {it.variant for it in MEANINGS}:
        sys.exit(f"tables/meanings.toml: {', '.join(sorted(apart))} should be in both tables")


ROWS = {it.variant: it for it in component.MODERN}
MEANINGS = [row(*it) for it in tomllib.loads((HERE / "meanings.toml").read_text()).items()]
OF = {it.variant: it for it in MEANINGS}

check()


def of(components):
    """The meanings of components, in their order."""
    return [OF[it.variant] for it in components]


def firsts(key):
    """The rows that are the first with their value of this."""
    return list({key(it): it for it in reversed(MEANINGS)}.values())[::-1]

"""The components of `components.toml`, each with what its row and its group say."""
import dataclasses
import pathlib
import re
import sys
import tomllib

HERE = pathlib.Path(__file__).resolve().parent
TABLE = tomllib.loads((HERE / "components.toml").read_text())
APART = ("deprecated", "fields", "orders")


def in_capitals(name):
    """`OffsetHour` of `offset_hour`."""
    return "".join(word.capitalize() for word in name.split("_"))


@dataclasses.dataclass(frozen=True)
class Component:
    """A row. A deprecated component has only a variant, a name, a module and a line about it."""

    variant: str
    name: str
    module: str
    about: str
    number: int = 0
    bytes: "int | None" = None
    fields: tuple = ()
    words: str = ""
    omitted: tuple = ()
    shows: str = ""

    @property
    def is_deprecated(self):
        return not self.number

    @property
    def field_name(self):
        """The variant as the name of a field: `hour12`."""
        return re.sub(r"(?<=[a-z])(?=[A-Z])", "_", self.variant).lower()

    @property
    def number_name(self):
        """The variant as the name of a number: `hour_12`."""
        return re.sub(r"(?<=[a-z])(?=[A-Z0-9])", "_", self.variant).lower()

    @property
    def capitals(self):
        return self.number_name.upper()

    @property
    def modifiers(self):
        """The fields in the order in which texts have them: the padding comes first."""
        return tuple(sorted(self.fields, key=lambda field: field != "padding"))

    @property
    def form(self):
        """The name with the words that say the form."""
        return f"{self.name} {self.words}".strip()

    @property
    def short_form(self):
        """The same without words that say a default."""
        return " ".join([self.name, *(word for word in self.words.split() if word not in self.omitted)])


@dataclasses.dataclass(frozen=True)
class Name:
    """A name in brackets, and the components that have it."""

    name: str
    keys: tuple
    required: tuple
    components: tuple

    @property
    def variant(self):
        return in_capitals(self.name)

    def settings(self):
        """The keys as settings: each name has a `repr` of its own."""
        return [f"{self.name}_repr" if key == "repr" else key for key in self.keys]


def kind(field):
    """What numbers of this field mean: all that are true or false are flags."""
    return "flag" if FIELDS[field]["type"] == "bool" else field


def cell(cells, what, of):
    """A cell that a row or a group has to have."""
    if what not in cells:
        sys.exit(f"tables/components.toml: `{of}` has no `{what}`")
    return cells[what]


def row(variant, group, name, cells):
    return Component(
        variant, name, cell(group | cells, "module", variant), cell(cells, "about", variant), cell(cells, "number", variant),
        cells.get("bytes"), tuple(cell(cells, "fields", variant)), cells.get("words", ""), tuple(group.get("omitted", ())),
        cell(group, "shows", name),
    )


def rows_of(name, group):
    return tuple(row(variant, group, name, cells) for variant, cells in group.items() if isinstance(cells, dict))


def old_row(variant, cells):
    return Component(variant, re.sub(r"(?<=[a-z])(?=[A-Z])", "_", variant).lower(), cells["module"], cells["about"])


def moved(components, moves):
    """The components, where these stand right before that one."""
    for target, variants in moves.items():
        taken = [it for variant in variants for it in components if it.variant == variant]
        rest = [it for it in components if it not in taken]
        at = next(at for at, it in enumerate(rest) if it.variant == target)
        components = rest[:at] + taken + rest[at:]
    return components


def by_module():
    """All of them by the module of their types: a deprecated one after those that it stands for."""
    listed = moved(MODERN, TABLE["orders"]["types"])
    for old in DEPRECATED:
        at = max(at for at, it in enumerate(listed) if it.name == old.name)
        listed.insert(at + 1, old)
    return sorted(listed, key=lambda it: TABLE["orders"]["modules"].index(it.module))


def check():
    """That the rows fit one another."""
    numbers = [it.number for it in BY_NUMBER]
    if numbers != list(range(1, len(numbers) + 1)):
        sys.exit(f"tables/components.toml: the numbers aren't those from 1 to {len(numbers)}, each once")
    for it in MODERN:
        if unknown := [field for field in it.fields if field not in FIELDS]:
            sys.exit(f"tables/components.toml: {it.variant} has a field {unknown[0]}, of which nothing is said")
        if (it.bytes is None) != ("digits" in it.fields):
            sys.exit(f"tables/components.toml: {it.variant} has to have `bytes`, or a field `digits` that says them")


GROUPS = {name: group for name, group in TABLE.items() if name not in APART}
NAMES = sorted(
    (Name(name, tuple(cell(it, "keys", name)), tuple(it.get("required", ())), rows_of(name, it)) for name, it in GROUPS.items()),
    key=lambda it: it.variant.lower(),
)
MODERN = [it for name, group in GROUPS.items() for it in rows_of(name, group)]
DEPRECATED = [old_row(variant, cells) for variant, cells in TABLE["deprecated"].items()]
ALL = MODERN + DEPRECATED
BY_NUMBER = sorted(MODERN, key=lambda it: it.number)
FIELDS = TABLE["fields"]
# In the orders of some tables.
TEXTS = moved(MODERN, TABLE["orders"]["texts"])
NAMED = moved(MODERN, TABLE["orders"]["names"])
ENDS = moved(MODERN, TABLE["orders"]["ends"])
BY_MODULE = by_module()

check()

"""The composite letters of strftime: the text of all of them, and where the list of each is among its nodes.

They are read from the code that has the letters and their lists, and need no row: `letter.rt` and `tables.rt` of timefd_language.
"""
import dataclasses
import pathlib
import re

from component import ENDS
from place import Between, Line, Table

TOP = pathlib.Path(__file__).resolve().parent.parent
SOURCES = TOP / "crates/timefd_language/src/strftime"
BYTES = {it.variant: it.bytes for it in ENDS}


@dataclasses.dataclass(frozen=True)
class Composite:
    """A list of items: its variant, its first letter, how many members it has, how many of these are literals of how many bytes, and
    how many bytes it reserves."""

    variant: str
    letter: str
    len: int
    literals: int
    bytes: int

    @property
    def nodes(self):
        """Its members, and the node that follows them."""
        return self.len + 1


def components_of_fields(letters):
    """The component of each field that a flag pads."""
    arms = letters.partition("pub fn padded(")[2].partition("\n}\n")[0]
    return dict(re.findall(r"Field::(\w+) => Component::(\w+)\(", arms))


def functions(letters):
    """The component of each function that gives one: `calendar_year`."""
    return dict(re.findall(r"pub fn (\w+)\(\) -> Component.*?Component::(\w+)\(", letters, re.S))


def members(body, fields, named):
    """The bytes that each member of a list reserves, and whether it is a literal."""
    for literal, field, component, function in re.findall(
        r'literal_item\("(.*?)"\)|padded\(Field::(\w+)|component_item\(Component::(\w+)|component_item\((\w+)\(\)\)', body
    ):
        yield (len(literal), True) if literal else (BYTES[fields.get(field) or component or named[function]], False)


def composites():
    """Each composite letter, in the order of the code."""
    letters, tables = ((SOURCES / name).read_text() for name in ("letter.rt", "tables.rt"))
    fields, named = components_of_fields(letters), functions(letters)
    lists = dict(re.findall(r"Composite::(\w+) => &self\.(\w+),", tables))
    for letter, variant in re.findall(r"b'(.)'[^=\n]* => Letter::Composite\(Composite::(\w+)\),", letters):
        body = re.search(rf"^fn {lists[variant]}<.*?^}}", tables, re.M | re.S)[0]
        found = list(members(body, fields, named))
        literals = sum(count for count, is_literal in found if is_literal)
        yield Composite(variant, letter, len(found), literals, sum(count for count, _ in found))


ALL = list(composites())
# Where the list of each begins among the nodes of all.
STARTS = [sum(it.nodes for it in ALL[:at]) for at in range(len(ALL))]
TEXT = "".join(f"%{it.letter}" for it in ALL)


def places():
    return [f"        Composite::{it.variant} => ({start}, {it.len}, {it.bytes})," for it, start in zip(ALL, STARTS)]


def starts():
    return [f"start_of {it.variant} = {start}" for it, start in zip(ALL, STARTS)]


VARIANTS = "use Rattle.timefd_language.specs.declared.strftime.letter.Composite.TheVariants"
CODE, SPECS, HEADER = "crates/timefd_c_nodes/src/reading/composite.rt", "crates/timefd_c_nodes/specs/Reading/Composites.antt", "examples/timefd.h"
TABLES = [
    Table(CODE, Line("pub const COMPOSITES:"), lambda: [f'pub const COMPOSITES: &str = "{TEXT}";']),
    Table(CODE, Between(("let (start, len, bytes) = match composite {",), "    };"), places),
    Table(SPECS, Line(VARIANTS), lambda: [f"{VARIANTS}.{{{', '.join(it.variant for it in ALL)}}}"], "the variants"),
    Table(SPECS, Line("DateAndTime ∷"), lambda: [f"    {' ∷ '.join(it.variant for it in ALL)} ∷ []"], "all_composites"),
    Table(SPECS, Between(("abbrev pub start_of :",), ""), starts, "start_of"),
    Table(HEADER, Line("#define TIMEFD_COMPOSITES "), lambda: [f'#define TIMEFD_COMPOSITES "{TEXT}"']),
    Table(HEADER, Line("#define TIMEFD_COMPOSITE_NODES "), lambda: [f"#define TIMEFD_COMPOSITE_NODES {sum(it.nodes for it in ALL)}u"]),
    Table(
        HEADER, Line("#define TIMEFD_COMPOSITE_LITERALS "),
        lambda: [f"#define TIMEFD_COMPOSITE_LITERALS {sum(it.literals for it in ALL)}u"],
    ),
]

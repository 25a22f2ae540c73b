"""The tables in pages."""
from component import ENDS, FIELDS, NAMES
from place import Between, Table
from rattle import grouped

NUMBERS = ("none", "one", "two", "three", "four", "five", "six", "seven", "eight", "nine", "ten", "eleven", "twelve")


def components_of(name):
    """The components of a name; of many the page has a table of their own."""
    if len(name.components) > 4:
        return f"one of {NUMBERS[len(name.components)]}, below"
    *most, last = (f"`{it.variant}`" for it in name.components)
    return f"{', '.join(most)} or {last}" if most else last


def names():
    lines = []
    for it in NAMES:
        keys = ", ".join(f"`{key}`{' (required)' if key in it.required else ''}" for key in it.keys)
        lines.append(f"| `{it.name}` | {keys} | {components_of(it)} |")
    return lines


def shown(field):
    if "default" not in FIELDS[field]:
        return f"`{field}`, a `NonZero<u16>`; no default"
    return f"`{field}` {FIELDS[field]['default']}"


def types():
    return [
        f"| {', '.join(f'`{it.variant}`' for it in group)} | {', '.join(map(shown, fields))} |"
        for fields, group in grouped(ENDS, lambda it: it.fields)
    ]


PAGE = "docs/proof/TABLES.md"
TABLES = [
    Table(PAGE, Between(("## Names and keys", "|---"), ""), names),
    Table(PAGE, Between(("## Modifier types", "|---"), "| `Month` (deprecated)"), types),
]

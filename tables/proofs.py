"""The tables in proofs that go by the rows of a table."""
from component import MODERN, NAMES, in_capitals, kind
from layout import equation, filled
from place import Between, Table, each
from specifications import made


def read_back():
    lines = []
    for it in MODERN:
        first = f"component_back ({it.variant} m) at h = {'by_one' if len(it.modifiers) == 1 else 'by_two'}"
        back = [f"({kind(field)}_back m.{field})" for field in it.modifiers]
        lines += filled(first, [made(it), *back], 4)
    return lines


def keys():
    lines = []
    for it in NAMES:
        pairs = "tt"
        for key in reversed(it.settings()):
            pairs = f"((keys.{in_capitals(key)}, refl), {pairs})"
        lines += equation(f"row_keys ComponentName.{it.variant}", pairs)
    return lines


def distinct():
    lines = []
    for it in NAMES:
        row = f"distinct_rows ComponentName.{it.variant}"
        lines += [f"{row} ComponentName.{it.variant} e = refl", f"{row} _ e = absurd (false≢true e)"]
    return lines


KEYS_OF_NAME = "component_keys ComponentName.{0.variant} = refl"
C_NODES = "crates/timefd_c_nodes/proofs"

TABLES = [
    Table(
        f"{C_NODES}/ComponentLemmas.antt",
        Between(("pub component_back", "→ component_of"), "component_back (Month m)"), read_back,
    ),
    each(
        f"{C_NODES}/laws/component_numbers/Answers.antt", Between(("returns c = record {",), "}"),
        MODERN, "  {0.number_name} = λ m. refl;",
    ),
    each("crates/timefd_language/proofs/DistinctLemmas.antt", Between(("component_keys :",), ""), NAMES, KEYS_OF_NAME),
    each("crates/timefd_laws/proofs/LastLemmas.antt", Between(("component_keys :", "→ list_all"), ""), NAMES, KEYS_OF_NAME),
    Table("crates/timefd_laws/proofs/NameLemmas.antt", Between(("distinct_rows :",), ""), distinct),
    Table("crates/timefd_language/proofs/ModifierFaults.antt", Between(("row_keys :",), ""), keys),
]

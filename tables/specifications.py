"""The tables in specifications."""
from component import ALL, BY_MODULE, BY_NUMBER, DEPRECATED, MODERN, NAMED, NAMES, TEXTS, kind
from layout import WIDTH, broken, equation, filled
from place import Between, Table, each
from rattle import IN_NODE, NODE_OF, WITHOUT_BYTES, WORDS_OF

# The variable for a field, if it isn't its first letter.
LETTER_OF = {"is_uppercase": "u", "case_sensitive": "s"}


def equalities():
    return [
        line for it in BY_MODULE
        for line in filled(f"  pub {it.field_name} : IsEquality {it.variant}", [f"({it.field_name}_eq.ghosts).eq"], 6)
    ]


def cases(file, definition, components, left, right, before="", width=WIDTH):
    """A definition by cases, with an equation for each row. Its sides are texts or functions."""
    def lines():
        sides = [side if callable(side) else side.format for side in (left, right)]
        return [line for it in components for line in equation(*(side(it) for side in sides), width)]
    return Table(file, Between((definition,), before), lines)


def case_of_reserved(it):
    return f"reserved ({it.variant} {'m' if it.bytes is not None else 's'})"


def reserved(it):
    return "digits_shown s.digits" if it.bytes is None else it.bytes


def form(it):
    if it.is_deprecated:
        return "[]"
    whole, short = f'codes "{it.form}"', f'codes "{it.short_form}"'
    return whole if whole == short else f"choose d ({whole}) ({short})"


def part_shown(it):
    return f"of.{it.shows or 'Nothing'}"


def modifier(at):
    """The words of the first modifier, or of the second."""
    def written(it):
        if len(it.modifiers) <= at:
            return "[]"
        field = it.modifiers[at]
        return "digits" if field == "count" else f"{WORDS_OF[field]} d m.{field}"
    return written


def node(it):
    maker = NODE_OF[it.modifiers]
    begin = [maker, it.number] if maker in WITHOUT_BYTES else [maker, it.number, it.bytes]
    fields = ["m.count.value" if field == "count" else f"m.{field}" for field in it.modifiers]
    return " ".join(map(str, [*begin, *fields]))


def made(it):
    """A component made of its fields."""
    letters = [LETTER_OF.get(field, field[0]) for field in it.modifiers]
    fields = "; ".join(f"{field} = {letter}" for field, letter in zip(it.modifiers, letters))
    return f"(λ {' '.join(letters)}. {it.variant} (record {{ {fields} }}))"


def read_from_nodes():
    """The branches of an `if`, whose lines are shorter by two."""
    lines = []
    for at, it in enumerate(BY_NUMBER):
        many = "with_one" if len(it.modifiers) == 1 else "with_two"
        read = [f"({kind(field)}_of n.{IN_NODE.get(field, field)})" for field in it.modifiers]
        lines += filled(f"    {'else ' if at else ''}if n.component == {it.number} then {many}", [made(it), *read], 4, WIDTH - 2)
    return lines


def name_rows():
    lines = []
    for it in NAMES:
        keys = f"({' ∷ '.join([*it.settings(), '[]'])})"
        maker = "checked_row" if it.required else "row"
        lines += broken(f"row_for ComponentName.{it.variant} =", [maker, f'(codes "{it.name}")', keys, it.name])
    return lines


def name_list():
    first, *more = (f"ComponentName.{it.variant}" for it in NAMES)
    return [f"    {first}", *(f"    ∷ {it}" for it in more[:-1]), f"    ∷ {more[-1]} ∷ []"]


COMPONENT_NUMBERS = "  pub {0.number_name} : (m : {0.variant}) → number_of (components.{0.variant} m) ≡ {0.number}"
SOUND = ("component_sound ({0.variant} a) ({0.variant} b) e", "ap {0.variant} (sound modifiers.{0.field_name} a b e)")
COMPONENT = "crates/timefd_lang_component/specs"
C_NODES = "crates/timefd_c_nodes/specs"
FORMAT = "crates/timefd_date_format/specs"
NAMES_FILE = "crates/timefd_language/specs/Names.antt"
WORDS = "crates/timefd_lang_component/specs/Bracket/Words.antt"

TABLES = [
    Table(
        "crates/timefd_modifier/specs/Equality.antt",
        Between(("pub record ModifierEquality", "pub trailing_input"), ""), equalities,
    ),
    cases(f"{COMPONENT}/ComponentEquality.antt", "pub component_sound :", ALL, *SOUND, "component_sound _"),
    cases(
        f"{COMPONENT}/ComponentEquality.antt", "pub component_same :", ALL,
        "component_same ({0.variant} a)", "reflexive modifiers.{0.field_name} a", width=WIDTH + 2,
    ),
    cases(f"{COMPONENT}/Reserved.antt", "abbrev pub reserved :", TEXTS, case_of_reserved, reserved, "reserved deprecated"),
    cases(
        "crates/timefd_items/specs/Meaning.antt", "abbrev pub inner_step", MODERN,
        "inner_step (inner.{0.variant} m)", "component ({0.variant} m)", "inner_step (inner.BorrowedLiteral",
    ),
    each(f"{C_NODES}/Numbers.antt", Between(("pub record ComponentNumbers",), ""), MODERN, COMPONENT_NUMBERS),
    cases(
        f"{C_NODES}/Encoding.antt", "abbrev pub component_table", MODERN,
        "component_table ({0.variant} m)", node, "component_table deprecated",
    ),
    Table(f"{C_NODES}/Decoding.antt", Between(("abbrev pub component_of", "component_of n ="), "    else None"), read_from_nodes),
    cases(WORDS, "abbrev pub form :", ALL, "form d ({0.variant} m)", form),
    cases(WORDS, "abbrev pub first_modifier :", ALL, "first_modifier d ({0.variant} m) digits", modifier(0)),
    cases(WORDS, "abbrev pub second_modifier :", ALL, "second_modifier d ({0.variant} m)", modifier(1)),
    cases(f"{FORMAT}/Sentences.antt", "abbrev pub name :", NAMED + DEPRECATED, "name ({0.variant} m)", 'codes "{0.name}"'),
    cases(f"{FORMAT}/Fields.antt", "abbrev pub kind :", NAMED + DEPRECATED, "kind ({0.variant} m)", part_shown),
    Table(NAMES_FILE, Between(("abbrev pub row_for :",), ""), name_rows),
    Table(NAMES_FILE, Between(("component_names =",), ""), name_list),
]

"""The tables that repeat what a component means: how it is read and written, and what is warned of."""
from component import ENDS, NAMED, TEXTS
from kept import Kept
from layout import arm, arm_of_many, equation, filled
from meaning import OF, firsts, of
from place import Between, Table
from rattle import patterns

# The longest line of the list of fields in its definition.
LIST_WIDTH = 125


def called(definition):
    """A function with its arguments, as code: `number(m.padding)`. What has no arguments is a value."""
    function, *arguments = definition.replace("Bound.", "Bound::").split()
    return f"{function}({', '.join(arguments)})" if arguments else function


def outline(it):
    """An outline in code, where it always is a call."""
    definition = it.by("outline")
    return called(definition) if " " in definition else f"{definition}()"


def arm_with(variant, value, fields):
    """The arm of a component, whose fields have this name if the value has them. Statements are in a block."""
    pattern = f"Component::{variant}({fields if f'{fields}.' in value else '_'})"
    *statements, last = value.split("; ")
    if not statements:
        return arm(8, pattern, value)
    return [f"        {pattern} => {{", *(f"            {it};" for it in statements), f"            {last}", "        }"]


def code(file, function, components, value, fields="m", before="        Component::Month("):
    """A match with an arm for each component."""
    def rows():
        return [arm_with(it.variant, value(it), fields) for it in of(components)]
    return Kept(file, Between((f"{function}(", "match component {"), before), rows, begins="        Component::")


def code_with_none(file, function, value):
    """The same, where what shows nothing shares the last arm."""
    some, none = ([it for it in ENDS if (it.shows != "Nothing") is shows] for shows in (True, False))

    def rows():
        return [
            *(arm_with(it.variant, value(it), "m") for it in of(some)),
            arm_of_many(8, patterns(none), value(OF[none[0].variant])),
        ]
    place = Between((f"fn {function}(", "match component {"), "        Component::Month(")
    return Kept(file, place, rows, begins="        Component::")


def defined(file, function, components, value, given="", known="", others="deprecated"):
    """A definition with an equation for each component, and one for others."""
    def rows():
        return [equation(f"{function} {given}({it.variant} m){known}", value(it)) for it in of(components)]
    place = Between((f"abbrev pub {function} :",), f"{function} {given}{others}")
    return Kept(file, place, rows, begins=f"{function} ")


def fields():
    return [it.field for it in firsts(lambda it: it.field) if it.field != "Nothing"]


def listed():
    """All fields, as much in each line as it has room for."""
    first, *more = (f"ShownField.{it}" for it in fields())
    return [filled(f"fields = {first}", [*(f"∷ {it}" for it in more), "∷ []"], 4, LIST_WIDTH)]


def bound(what):
    """What has to follow a component, or what is known about its text, in code."""
    return lambda it: called(it.by(what).replace("m.", "shown."))


def written(it):
    """What is written of a date, as it is defined: only of a year this may lack."""
    value = it.by("written_defined")
    return value if value.startswith(("year ", "last_two ")) else f"Ok ({value})"


def field(part, function, value):
    """The definition of what is written for the components of a part of a moment."""
    components = [it for it in NAMED if it.shows == part]
    return defined(f"{FORMAT}/specs/Fields.antt", function, components, value, given=f"{part[0].lower()} ", others="_")


WARNINGS = "crates/timefd_lang_warnings/src"
WARNINGS_DEFINED = "crates/timefd_lang_warnings/specs"
COMPONENTS = f"{WARNINGS}/settled/components.rt"
MOMENT, FORMAT = "crates/timefd_date_moment", "crates/timefd_date_format"

TABLES = [
    Table(
        f"{WARNINGS}/field.rt", Between(("pub enum ShownField {",), "    /// Nothing"),
        lambda: [f"    {it}," for it in fields()],
    ),
    Table(
        f"{WARNINGS}/twice.rt", Between(("fn fields()", "&["), "    ]"),
        lambda: [f"        ShownField::{it}," for it in fields()],
    ),
    Kept(f"{WARNINGS_DEFINED}/Twice.antt", Between(("abbrev pub fields :",), ""), listed, begins="fields ="),
    code_with_none(f"{WARNINGS}/field.rt", "modern_field", lambda it: f"ShownField::{it.field}"),
    defined(f"{WARNINGS_DEFINED}/Fields.antt", "modern_field", ENDS, lambda it: f"ShownField.{it.field}"),
    code_with_none(f"{WARNINGS}/width.rt", "modern_outline", outline),
    defined(f"{WARNINGS_DEFINED}/Widths.antt", "modern_outline", ENDS, lambda it: it.by("outline")),
    code(COMPONENTS, "fn bound_of", TEXTS, bound("bound"), fields="shown"),
    code(COMPONENTS, "fn begin_of", TEXTS, bound("begin"), fields="shown"),
    defined(f"{WARNINGS_DEFINED}/Settling/Bounds.antt", "bound_of", TEXTS, lambda it: it.by("bound")),
    defined(f"{WARNINGS_DEFINED}/Settling/Settled.antt", "component_begin", TEXTS, lambda it: it.by("begin"), known=" known"),
    code(f"{MOMENT}/src/fields/rule.rt", "pub(crate) fn rule_of", TEXTS, lambda it: it.by("rule")),
    defined(f"{MOMENT}/specs/Fields/Rules.antt", "rule_of", TEXTS, lambda it: it.by("rule_defined")),
    defined("crates/timefd_lang_component/specs/Texts.antt", "IsText", TEXTS, lambda it: it.by("text")),
    code(
        f"{FORMAT}/src/shown.rt", "pub fn field", [it for it in NAMED if it.shows != "Nothing"], lambda it: it.by("written"),
        before="        Component::Ignore(_)",
    ),
    field("Date", "date_field", written),
    field("Time", "time_field", lambda it: it.by("written_defined")),
    field("Offset", "offset_field", lambda it: it.by("written_defined")),
]

"""The tables of the crate for Rust that say what stands in brackets, and what the crate `chrono` has for a component."""
from component import ENDS, MODERN, NAMED
from kept import Kept, Manual
from layout import arm_of_many, arm_of_rust
from meaning import of
from place import Between, Table
from rattle import grouped

# What writes the words of a component with these fields, after its form.
WORDS_OF = {
    ("padding",): "padded({form}, padding)",
    ("case_sensitive",): "named({form}, case_sensitive)",
    ("one_indexed",): "indexed({form}, one_indexed)",
    ("padding", "sign_is_mandatory"): "signed({form}, padding, sign_is_mandatory)",
    ("sign_is_mandatory",): "timestamp({form}, sign_is_mandatory)",
    ("is_uppercase", "case_sensitive"): "period(is_uppercase, case_sensitive)",
    ("digits",): "subsecond(digits)",
    ("count",): "ignore(count)",
    ("trailing_input",): "end(trailing_input)",
}
# The default of the range in version 3, which no other version has.
DEFAULT_RANGE = "range:standard"


def form(it):
    """The name and the words that say no default, the base first."""
    _, *words = it.short_form.split()
    said = sorted((word for word in words if word != DEFAULT_RANGE), key=lambda word: not word.startswith("base:"))
    return f'"{" ".join([it.name, *said])}"'


def arms():
    lines = []
    for it in MODERN:
        pattern = f"Component::{it.variant} {{ {', '.join(it.modifiers)} }}"
        lines += arm_of_rust(8, pattern, WORDS_OF[it.modifiers].format(form=form(it)))
    return lines


def is_fixed(it):
    return it.chrono.startswith("Fixed::")


def fixed(it):
    """An item without a number. There is one for each case of the letters of AM and PM."""
    return [f"        C::{it.variant} {{ .. }} => return Ok(Item::Fixed({it.chrono})),"]


def pattern(it):
    """The component with the modifiers with which `chrono` has it."""
    fields = [it.chrono_if if it.chrono_if.startswith(f"{field}:") else field for field in it.row.modifiers]
    return f"C::{it.variant} {{ {', '.join(fields)} }}"


def numeric():
    """An arm for each number that `chrono` has, with its padding."""
    for number, group in grouped([it for it in of(MODERN) if it.chrono and not is_fixed(it)], lambda it: it.chrono):
        padding = "padding" if "padding" in group[0].row.fields else "Padding::Zero" if group[0].part == "Subsecond" else "Padding::None"
        yield arm_of_many(8, [pattern(it) for it in group], f"({number}, {padding})", is_rust=True)


def lacking(it):
    """The component with the modifiers with which `chrono` lacks it."""
    field, _, value = it.chrono_if.partition(": ")
    rest = f"{field}: {'false' if value == 'true' else 'true'}" if field == "one_indexed" else ".."
    return f"C::{it.variant} {{ {rest} }}"


def items():
    periods = [Manual(f"        C::Period {{ is_uppercase: {value}") for value in ("true", "false")]
    lacked = [lacking(it) for it in of(ENDS) if it.chrono_if or not it.chrono]
    return [
        *(fixed(it) for it in of(NAMED) if is_fixed(it) and it.variant != "Period"), *periods, *numeric(),
        arm_of_many(8, lacked, "return Err(Unsupported::new(component.kind().name()))", is_rust=True),
    ]


CRATE = "bindings/rust/src"

TABLES = [
    Table(f"{CRATE}/bracket.rs", Between(("pub(crate) fn words(", "match component {"), "    }"), arms),
    Kept(
        f"{CRATE}/chrono/items.rs", Between(("fn item(", "let (number, padding) = match component {"), "    };"), items,
        begins="        C::",
    ),
]

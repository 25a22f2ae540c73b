"""The tables that go by the names in brackets: which component a name makes of its settings, and which key a text may begin with."""
from component import NAMES
from kept import Kept, Manual
from layout import arm, arm_of_many
from meaning import snake
from place import Between, Table

# The settings that all names share as they are.
SHARED = ("padding", "trailing_input", "digits")


def alone(name):
    """The component of a name that has only this one, all of whose fields have defaults."""
    return name.components[0] if len(name.components) == 1 and not name.required else None


def makes(name):
    """The arm that makes a name's component, by a function of its own if that needs more than one shared setting."""
    it = alone(name)
    if name.required:
        return Manual(f"        ComponentName::{name.variant} =>")
    if it and len(it.fields) == 1 and it.fields[0] in SHARED:
        return arm(8, f"ComponentName::{name.variant}", f"Component::{it.variant}(modifier::{it.variant} {{ {it.fields[0]} }})")
    return arm(8, f"ComponentName::{name.variant}", f"{snake(name.variant)}(settings)")


def made(name):
    """The definition of the component that a name makes. If the settings choose one of several, it is written manually."""
    function, it = snake(name.variant), alone(name)
    if not it:
        return Manual(f"abbrev pub {function} :")
    fields = "; ".join(f"{field} = s.{field}" for field in it.fields)
    return [f"abbrev pub {function} : Settings → Component", f"{function} s = {it.variant} (record {{ {fields} }})", ""]


def padded():
    """The names that take only the padding."""
    return arm_of_many(
        8, [f"ComponentName::{it.variant}" for it in NAMES if it.keys == ("padding",)], "keyed(name, text, Key::Padding)",
    )


LANGUAGE = "crates/timefd_language"

TABLES = [
    Kept(
        f"{LANGUAGE}/src/component.rt", Between(("pub fn component_of(", "let component = match name {"), "    };"),
        lambda: [makes(it) for it in NAMES], begins="        ComponentName::",
    ),
    Kept(
        f"{LANGUAGE}/specs/Names.antt", Between(("-- The component of each name.", ""), "-- `ignore` needs a count"),
        lambda: [made(it) for it in NAMES if not it.required], begins="abbrev pub ",
    ),
    Table(
        "crates/timefd_parse/src/fast/words.rt",
        Between(("pub fn key_in(", "ComponentName::Subsecond =>", "ComponentName::Ignore => None,"), "    }"), padded,
    ),
]

"""The tables that say which part of a moment a component shows: in the law on what is read back, and for descriptions that complete a date."""
from component import DEPRECATED, ENDS, NAMED, TEXTS
from kept import Kept, Manual
from layout import WIDTH, arm_of_many
from meaning import firsts, of
from meaning_tables import defined
from place import Between
from rattle import grouped, patterns


def parts():
    return [it for it in firsts(lambda it: it.part) if it.part != "Nothing"]


def parts_as(template, of_fraction, of_others):
    """A line for each part. Of the fraction of a second it isn't only said whether it is shown, but with how many digits."""
    def rows():
        return [[template.format(it.shown, of_fraction if it.shape == "fraction" else of_others)] for it in parts()]
    return rows


def values():
    """The value of each part, below its name if it is too long for one line."""
    for it in parts():
        line = f"  {it.shown} = {it.by('value')};"
        yield [line] if len(line) <= WIDTH else [f"  {it.shown} =", f"      {it.by('value')};"]


def with_component():
    return [[f"with_component (of.{it.variant} m) s = {it.by('adds')}"] for it in of(TEXTS)]


def given(it, what):
    """When a component shows the same of each date that has what was read: always, if it shows no part of a date."""
    return it.by(what) if it.row.shows == "Date" else "true"


def given_arms():
    """Those that need the same are in one arm. A timestamp shows all of a date."""
    groups = [(value, tuple(group)) for value, group in grouped(of(TIMELESS), lambda it: given(it, "given"))]
    return [arm_of_many(8, patterns(group), value) for value, group in [*groups, ("false", STAMPS + DEPRECATED)]]


def given_lemmas():
    """What shows a part of a date has a proof of its own."""
    begins = "    field_same (shows.{0.variant} m) g ="
    some = [Manual(begins.format(it)) if it.shows == "Date" else [f"{begins.format(it)} refl"] for it in ENDS if it not in STAMPS]
    return some + [[f"{begins.format(it)} absurd cc"] for it in STAMPS + DEPRECATED]


STAMPS = [it for it in ENDS if it.shows == "Instant"]
TIMELESS = [it for it in NAMED if it not in STAMPS]
LAWS = "crates/timefd_laws/specs/Reading/Shown.antt"
COMPLETING = "crates/timefd_format"

TABLES = [
    Kept(LAWS, Between(("pub record Shows :",), ""), parts_as("  pub {} : {}", "Option ℕ", "Bool"), begins="  pub "),
    Kept(LAWS, Between(("shows_nothing = record {",), "}"), parts_as("  {} = {};", "None", "false"), begins="  "),
    Kept(LAWS, Between(("fields_shown d t o s = record {",), "}"), values, begins="  "),
    Kept(LAWS, Between(("abbrev pub with_component :",), "with_component deprecated"), with_component, begins="with_component "),
    Kept(
        f"{COMPLETING}/src/completing/component.rt", Between(("pub(crate) fn is_given(", "match component {"), "    }"), given_arms,
        begins="        Component::",
    ),
    defined(
        f"{COMPLETING}/specs/Completing/Given.antt", "is_given", TIMELESS, lambda it: given(it, "given_defined"),
        given="f ", others="timestamp",
    ),
    Kept(
        f"{COMPLETING}/proofs/CompletingLemmas/LawLemmas.antt", Between(("field_same :",), ""), given_lemmas,
        begins="    field_same ",
    ),
]

"""The tables of the forms of `forms.toml` in code, in its definitions, and in the lemma that no form writes nothing."""
from dialect_tables import codes, quoted
from form import FORMS, QUESTIONS
from layout import arm_of_many
from place import Between, Line, Table, each
from rattle import grouped

CRATE = "timefd_lint_drawing"
CODE, DEFINED, PROVED = f"crates/{CRATE}/src/form.rt", f"crates/{CRATE}/specs/Forms.antt", f"crates/{CRATE}/proofs/FormLemmas.antt"


def variants():
    return [line for it in FORMS for line in (f"    /// {it.about}", f"    {it.variant},")]


def arms(cell, shown):
    """An arm for each value of a cell."""
    return lambda: [
        line for value, group in grouped(FORMS, lambda it: getattr(it, cell))
        for line in arm_of_many(12, [f"Format::{it.variant}" for it in group], shown(value))
    ]


def shown(value):
    return "true" if value else "false"


def cases(cell, shown):
    """A case for each form."""
    return lambda: [f"{cell} {it.variant} = {shown(getattr(it, cell))}" for it in FORMS]


def method(name):
    """The arms of the match of a method."""
    return Between((f"pub fn {name}(", "match self {"), "        }")


def definition(name):
    """The cases of a definition."""
    return Between((f"abbrev pub {name} :",), "")


def names_read():
    return [
        f"    {'else ' if at else ''}if bytes_eq name (codes {quoted(it.name)}) then Some {it.variant}" for at, it in enumerate(FORMS)
    ]


def calls():
    """What is called for each form; those that give a text come first."""
    for it in sorted(FORMS, key=lambda it: it.gives != "text"):
        said = f"{it.call}(alloc, {'style.is_colored, ' if it.is_drawn else ''}location, finding)"
        if it.gives == "text":
            name = "drawing" if it.is_drawn else "line"
            yield from (
                f"        Format::{it.variant} => {{", f"            let {name} = {said}?;", f"            Ok({name}.into_bytes())",
                "        }",
            )
        else:
            yield f"        Format::{it.variant} => {said},"


def texts():
    return [f"drawn_in {it.variant} colored l s = {it.name} {'colored ' if it.is_drawn else ''}l s" for it in FORMS]


def imported_variants():
    begins = f"use Rattle.{CRATE}.specs.declared.form.Format.TheVariants."
    return [f"{begins}{{{', '.join(it.variant for it in FORMS)}}}"]


def imported_texts():
    return [f"use Rattle.{CRATE}.specs.{it.variant}.{{{it.name}}}" for it in sorted(FORMS, key=lambda it: it.name)]


def imported_calls():
    return [f"use crate::{it.name}::{it.call};" for it in sorted(FORMS, key=lambda it: it.name)]


TABLES = [
    Table(CODE, Between(("use crate::finding::",), "use std::"), imported_calls, "imports of what writes forms"),
    Table(CODE, Between(("pub enum Format {",), "}"), variants),
    each(CODE, Between(("pub fn all(", "&["), "        ]"), FORMS, "            Format::{0.variant},"),
    Table(CODE, method("name"), lambda: [f"            Format::{it.variant} => {quoted(it.name)}," for it in FORMS]),
    Table(
        CODE, Between(("pub fn named(", "match name {"), "            _ =>"),
        lambda: [f"            {quoted(it.name)} => Some(Format::{it.variant})," for it in FORMS],
    ),
    Table(CODE, method("sentences"), arms("sentences", "SentenceStyle::{}".format)),
    *(Table(CODE, method(it), arms(it, shown)) for it in QUESTIONS),
    Table(CODE, Between(("fn written(", "match style.format {"), "    }"), lambda: list(calls())),
    *(
        Table(it, Line(f"use Rattle.{CRATE}.specs.declared.form.Format.TheVariants."), imported_variants, "import of variants")
        for it in (DEFINED, PROVED)
    ),
    Table(DEFINED, Between((f"use Rattle.{CRATE}.specs.Findings.",), ""), imported_texts, "imports of what forms are"),
    Table(DEFINED, definition("all"), lambda: [f"all = {' ∷ '.join(it.variant for it in FORMS)} ∷ []"]),
    Table(DEFINED, definition("name_of"), lambda: [f"name_of {it.variant} = {codes(it.name)}" for it in FORMS]),
    Table(DEFINED, Between(("abbrev pub named :", "named name ="), "    else None"), names_read),
    Table(DEFINED, definition("sentences"), cases("sentences", str)),
    *(Table(DEFINED, definition(it), cases(it, shown)) for it in QUESTIONS),
    Table(DEFINED, definition("drawn_in"), texts),
    Table(
        PROVED, Between(("drawn_full :",), ""), lambda: [f"drawn_full {it.variant} colored l s = {it.not_empty}" for it in FORMS],
    ),
]

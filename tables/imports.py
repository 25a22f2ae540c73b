"""The imports of variants and types in specifications and proofs."""
from component import ALL, BY_MODULE, DEPRECATED, ENDS, MODERN, NAMED, NAMES, TEXTS
from place import Between, Line, Run, Table

VARIANTS = "use Rattle.timefd_lang_component.specs.declared.component.Component.TheVariants."
TYPES = "use Rattle.timefd_modifier.specs"
LAST_ENUM = f"{TYPES}.contracts.enums.TrailingInput"


def imported(file, components):
    """The import of all variants."""
    names = ", ".join(it.variant for it in components)
    return Table(f"crates/timefd_{file}.antt", Line(VARIANTS), lambda: [f"{VARIANTS}{{{names}}}"], "import of variants")


def imported_in_lines():
    """The same in lines of at most 145 letters."""
    lines, names = [], []
    for it in MODERN:
        if len(f"{VARIANTS}{{{', '.join([*names, it.variant])}}}") > 145:
            lines.append(names)
            names = []
        names.append(it.variant)
    return [f"{VARIANTS}{{{', '.join(names)}}}" for names in [*lines, names]]


def imported_type(it):
    return f"{TYPES}.declared.{it.module}.{it.variant}.{{{it.variant}}}"


def sorted_types():
    return [imported_type(it) for it in sorted(MODERN, key=lambda it: (it.module, it.variant))]


def types_with_equality():
    lines = []
    for it in BY_MODULE:
        lines += [imported_type(it), f"{TYPES}.contracts.{it.module}.{it.variant}PartialEq.TheImpl as {it.field_name}_eq"]
    return lines


def types(file, after, before, rows):
    return Table(f"crates/timefd_{file}.antt", Between((after,), before), rows, "imports of types")


TABLES = [
    *(imported(file, ALL) for file in (
        "lang_component/specs/ComponentEquality", "lang_component/specs/Bracket/Words", "language/proofs/ShortWords",
        "c_nodes/proofs/ComponentLemmas", "lift/proofs/ComponentHeads",
    )),
    *(imported(file, MODERN) for file in ("c_nodes/specs/Encoding", "c_nodes/specs/Decoding")),
    *(imported(file, TEXTS) for file in (
        "lang_component/specs/Reserved", "lang_component/specs/Texts", "date_moment/specs/Fields/Rules",
        "lang_warnings/specs/Settling/Bounds", "lang_warnings/specs/Settling/Settled", "lang_warnings/specs/Fields", "lang_warnings/specs/Widths",
    )),
    *(imported(file, TEXTS + DEPRECATED) for file in (
        "date_format/specs/Fields", "date_format/proofs/TextLemmas", "date_format/proofs/Utf8Lemmas",
    )),
    imported("lang_component/proofs/Greatest", [it for it in TEXTS if it.shows != "Nothing"]),
    imported("format/specs/Completing/Given", [it for it in TEXTS if it.shows != "Instant"]),
    imported("date_format/specs/Sentences", NAMED + DEPRECATED),
    imported("lint_explain/proofs/SampleLemmas", ENDS + DEPRECATED),
    imported("language/specs/Names", [it for it in NAMES if it.variant in {of.variant for of in ALL}]),
    Table("crates/timefd_items/specs/Meaning.antt", Run(VARIANTS), imported_in_lines, "imports of variants"),
    types("c_nodes/specs/Numbers", "use Rattle.std", f"{TYPES}.declared.enums", sorted_types),
    types("modifier/specs/Equality", LAST_ENUM, "", types_with_equality),
    types("modifier/proofs/ModifierTests", LAST_ENUM, f"{TYPES}.Equality", lambda: [imported_type(it) for it in BY_MODULE]),
]

"""The tables that repeat what is reported of a fault, from `kinds.toml`: the enum of `time`, its sentences, and the kinds in definitions."""
from dialect_tables import codes, quoted
from kept import Kept, Manual
from kind import KINDS
from layout import arm_of_many, equation
from place import Alternatives, Between, Line, Part, Table

OTHERS = [it for it in KINDS if not it.is_quoted]


def variants():
    lines = []
    for it in KINDS:
        fields = {name: (about, "String" if it.is_quoted else "&'static str") for name, about in it.fields.items()}
        lines += [f"    /// {it.about}", f"    {it.theirs} {{"]
        for name, (about, kind) in [*fields.items(), ("index", (it.index, "usize"))]:
            lines += [f"        /// {about}", f"        {name}: {kind},"]
        lines.append("    },")
    return lines


def kinds():
    """The same without the index, whose words are borrowed."""
    for it in KINDS:
        words = ", ".join("&'a str" if it.is_quoted else "&'static str" for _ in it.words)
        yield f"    /// `{it.theirs}`{f', with {it.holds}' if it.holds else ''}."
        yield f"    {it.variant}({words})," if words else f"    {it.variant},"


def indices():
    return arm_of_many(12, [f"{it.enum} {{ {'index, ..' if it.fields else 'index'} }}" for it in KINDS], "*index")


def block(pattern, *statements, indent=12):
    """An arm with statements."""
    begin = " " * indent
    return [f"{begin}{pattern} => {{", *(f"{begin}    {it}" for it in statements), f"{begin}}}"]


def copies():
    """What quotes the text comes first."""
    for it in sorted(KINDS, key=lambda it: not it.is_quoted):
        copied = [f"{name}: String::from_str(alloc, {name})?" if it.is_quoted else f"{name}: *{name}" for name in it.fields]
        yield block(f"{it.enum} {{ {it.all_fields} }}", f"Ok({it.enum} {{ {', '.join([*copied, 'index: *index'])} }})")


def displayed():
    for it in KINDS:
        word = "".join(f"{{{name}}}" for name in it.fields)
        pattern = f"{it.enum} {{ {it.all_fields} }}"
        sentence = f"{it.begins}{word}{it.ends if word else ''}{{index}}" if it.says else ""
        yield block(pattern, f'write!(f, "{sentence}")') if it.says else Manual(f"            {it.enum} {{")


def owned():
    for it in KINDS:
        fields = list(it.fields)
        pattern = f"FaultKind::{it.variant}({', '.join(fields)})" if fields else f"FaultKind::{it.variant}"
        copied = [f"let {name} = String::from_str(alloc, {name})?;" for name in fields if it.is_quoted]
        yield block(pattern, *copied, f"{it.enum} {{ {it.all_fields} }}")


def written():
    """The sentences in a buffer. That on what was expected has no quotes, and is one call."""
    for it in KINDS:
        before, after = quoted(it.begins) if it.says else "", quoted(it.ends) if it.says else ""
        if not it.says or it.variant == "Expected":
            yield Manual(f"        FaultKind::{it.variant}(")
        elif it.words:
            yield block(
                f"FaultKind::{it.variant}({it.words[0]})", f"let (before, after) = ({before}, {after});",
                f"write_word(before, {it.words[0]}, after, index, buffer)", indent=8,
            )
        else:
            yield block(f"FaultKind::{it.variant}", f"write_all(&[{before}, index], buffer)", indent=8)


def constructors():
    return [f"  {it.defined} : {'Text → ' * len(it.words)}Kind" for it in KINDS]


def faults():
    for it in KINDS:
        words = [f"(string_bytes {name})" if it.is_quoted else f"{name}.now" for name in it.fields]
        yield equation(f"fault_of ({' '.join([it.theirs, *it.fields, 'index'])})", f"fault {it.applied(words)} index")


def kinds_of():
    for it in KINDS:
        left = f"({' '.join([f'kinds.{it.variant}', *it.words])})" if it.words else f"kinds.{it.variant}"
        yield [f"kind_of {left} = {' '.join([it.defined, *(f'{word}.now' for word in it.words)])}"]


def sentences(function, words, index):
    """A definition of the sentences, where the words of a kind and its index are called so."""
    def rows():
        for it in KINDS:
            left = f"{function} {it.applied(words(it))} index"
            if not it.says:
                yield Manual(f"{function} ({it.defined} ")
            elif it.words:
                yield equation(left, f"{codes(it.begins)} ++ ({words(it)[0]} ++ ({codes(it.ends)} ++ {index}))")
            else:
                yield equation(left, f"{codes(it.begins)} ++ {index}")
    return rows


def short():
    for it in KINDS:
        sizes = " + ".join(f"length {word}" for word in it.words)
        yield [f"HasShortWords {it.applied(it.words)} = {f'{sizes} ≤ 100' if len(it.words) > 1 else '⊤'}"]


def patterns_of_others():
    return [f"{it.enum} {{ .. }}" for it in OTHERS]


def imported(file):
    """The kinds in an import that has other names too."""
    names = [it.defined for it in KINDS]
    pattern = rf"{names[0]}(?:, (?:{'|'.join(names)})\b)*"
    return Part(f"crates/timefd_{file}.antt", f"use Rattle.{FAULT}.specs.Faults.", pattern, lambda: ", ".join(names))


def imported_variants(file):
    begins = f"use Rattle.{FAULT}.specs.declared.invalid_format_description.InvalidFormatDescription.TheVariants."
    return Table(
        f"crates/{FAULT}/{file}.antt", Line(begins), lambda: [f"{begins}{{{', '.join(it.theirs for it in KINDS)}}}"], "import of variants",
    )


FAULT = "timefd_lang_fault"
SOURCES, SPECS = f"crates/{FAULT}/src", f"crates/{FAULT}/specs"
ERROR, DRAWING = f"{SOURCES}/invalid_format_description.rt", "crates/timefd_lint_drawing/src/sentence.rt"
ARM = "            InvalidFormatDescription::"

TABLES = [
    Table(ERROR, Between(("pub enum InvalidFormatDescription {",), "}"), variants),
    Table(f"{SOURCES}/rule.rt", Between(("pub enum FaultKind<",), "}"), kinds),
    Table(ERROR, Between(("pub fn index(", "match self {"), "        }"), indices),
    Kept(ERROR, Between(("pub fn clone(", "match self {"), "        }"), copies, begins=ARM),
    Kept(ERROR, Between(("fn fmt<", "match self {"), "        }"), displayed, begins=ARM),
    Kept(
        f"{SOURCES}/borrowed_fault.rt", Between(("pub fn into_owned(", "Ok(match self.rule.kind() {"), "        })"), owned,
        begins="            FaultKind::",
    ),
    Kept(f"{SOURCES}/sentence.rt", Between(("pub fn write_kind(", "match kind {"), "    }"), written, begins="        FaultKind::"),
    Table(DRAWING, Alternatives("fn is_brief(", "=> true,"), lambda: arm_of_many(8, patterns_of_others(), "true")),
    Table(DRAWING, Alternatives("fn brief(", "=> fault.clone(alloc),"), lambda: arm_of_many(8, patterns_of_others(), "fault.clone(alloc)")),
    Table(f"{SPECS}/Faults.antt", Between(("pub data Kind :",), ""), constructors),
    Table(
        f"{SPECS}/Faults.antt", Between(("abbrev pub quotes :",), "quotes other"),
        lambda: [f"quotes {it.applied(it.fields)} = true" for it in KINDS if it.is_quoted],
    ),
    Kept(f"{SPECS}/Faults.antt", Between(("abbrev pub fault_of :",), ""), faults, begins="fault_of "),
    Kept(f"{SPECS}/RuleKinds.antt", Between(("abbrev pub kind_of :",), ""), kinds_of, begins="kind_of "),
    Kept(
        f"{SPECS}/Sentences.antt", Between(("abbrev pub sentence_at :",), ""),
        sentences("sentence_at", lambda it: list(it.fields), "decimal index"), begins="sentence_at ",
    ),
    Kept(
        f"{SPECS}/Parts.antt", Between(("abbrev pub sentence_with :",), ""),
        sentences("sentence_with", lambda it: it.words, "index"), begins="sentence_with ",
    ),
    Kept(f"{SPECS}/BorrowedFaults.antt", Between(("abbrev pub HasShortWords :",), ""), short, begins="HasShortWords "),
    Table(
        f"{SPECS}/Codes.antt", Between(("abbrev pub code_of :",), ""),
        lambda: [f"code_of {it.by_word()} = {it.code}" for it in KINDS],
    ),
    Table(
        "crates/timefd_language/specs/Spans.antt", Between(("abbrev pub version_extent :",), ""),
        lambda: [f"version_extent {it.by_word()} = {it.extent}" for it in KINDS],
    ),
    *(imported(f"lang_fault/specs/{file}") for file in ("Sentences", "BorrowedFaults", "Parts", "RuleKinds", "Codes")),
    *(imported(f"lang_fault/proofs/{file}") for file in ("PartLemmas", "FaultEqualityLemmas")),
    imported("language/specs/Spans"),
    *(imported(f"language/proofs/{file}") for file in (
        "ShortWords", "SlotLackLemmas", "PositionsBetween", "ModifierFaults", "FaultShapes", "PositionsWithin",
    )),
    *(imported_variants(file) for file in ("specs/Faults", "proofs/FaultEqualityLemmas")),
]

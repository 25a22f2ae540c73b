"""The tables that repeat what a warning is: in code, specifications, proofs, bindings, completions and the page."""
from dialect_tables import codes, quoted
from layout import WIDTH, arm_of_many, equation, filled
from place import Between, Line, Part, Table, each
from rattle import grouped
from specifications import cases
from warning import WARNINGS

# What the help on a warning is, by what it has after the explanation: in code, and in its definition.
HELP = {
    "": "String::from_str(alloc, warning.explanation())",
    "readers": "no_component(alloc, warning.explanation(), text)",
}
HELP_DEFINED = {
    "": "explanation_of {0.variant}",
    "readers": "with_readers (explanation_of {0.variant}) (offered text)",
}
# The longest lines of the list in its definition, and of the completions for bash.
LIST_WIDTH, BASH_WIDTH = 102, 120


def text_arm(pattern, text):
    """An arm with a text, in a block if it is too long for one line. No text is broken."""
    line = f"            {pattern} => {quoted(text)},"
    if len(line) <= WIDTH:
        return [line]
    return [f"            {pattern} => {{", f"                {quoted(text)}", "            }"]


def variants():
    return [line for it in WARNINGS for line in (f"    /// {it.about}", f"    {it.variant},")]


def texts(key):
    return [line for it in WARNINGS for line in text_arm(f"Warning::{it.variant}", getattr(it, key))]


def found():
    """The fields of the levels that are found: a call that is too long has each argument in a line."""
    lines = []
    for it in WARNINGS:
        begin, arguments = f"            {it.field_name}: self.found_at(", ("style", "description", f"Warning::{it.variant}")
        line = f"{begin}{', '.join(arguments)}),"
        lines += [line] if len(line) <= WIDTH else [begin, *(f"                {argument}," for argument in arguments), "            ),"]
    return lines


def helps():
    """Those whose help is the same in one arm."""
    return [
        line for kind, group in grouped(WARNINGS, lambda it: it.help)
        for line in arm_of_many(8, [f"Warning::{it.variant}" for it in group], HELP[kind])
    ]


def explained():
    """A text that is too long stands alone in its line."""
    lines = []
    for it in WARNINGS:
        both = equation(f"explanation_of {it.variant}", codes(it.explanation))
        lines += both if len(both[-1]) <= WIDTH else [both[0], "    codes", f"    {quoted(it.explanation)}"]
    return lines


def read_names():
    return [
        f"    {'else ' if at else ''}if bytes_eq name (codes {quoted(it.name)}) then Some {it.variant}"
        for at, it in enumerate(WARNINGS)
    ]


def listed():
    """All of them, as much in each line as it has room for."""
    first, *more = [it.variant for it in WARNINGS]
    return filled(f"all = {first}", [*(f"∷ {it}" for it in more[:-1]), f"∷ {more[-1]} ∷ []"], 4, LIST_WIDTH)


def places():
    """Where each of them is in the list."""
    return [f"all_are_there {it.variant} = (take {at} all, drop {at + 1} all, refl)" for at, it in enumerate(WARNINGS)]


def numbers_of_c():
    names = [f"TIMEFD_WARNING_{it.capitals} {it.number}u" for it in WARNINGS]
    width = max(map(len, names))
    return [f"#define {name:{width}} /* {it.header} */" for name, it in zip(names, WARNINGS)]


def bound_variants():
    return [line for it in WARNINGS for line in (f"    /// {it.bound_about}", f"    {it.bound_variant},")]


def bound_texts(key):
    return [line for it in WARNINGS for line in text_arm(f"Self::{it.bound_variant}", getattr(it, key))]


def names():
    return " ".join(it.name for it in WARNINGS)


def bash_names():
    """The names in as few lines as have room for them, each appended to those before."""
    first, more = "        word='", "        word+='"
    lines = filled(first + WARNINGS[0].name, [it.name for it in WARNINGS[1:]], len(more) + 1, BASH_WIDTH - 1)
    return [f"{lines[0]}'", *(f"{more}{line[len(more):]}'" for line in lines[1:])]


def imported(file):
    """The import of all variants."""
    listed_names = ", ".join(it.variant for it in WARNINGS)
    return Table(f"crates/timefd_{file}.antt", Line(VARIANTS), lambda: [f"{VARIANTS}{{{listed_names}}}"], "import of warnings")


def counted(file, begins, number):
    """How many there are, in a line of a file."""
    return Part(file, begins, number, lambda: str(len(WARNINGS)))


VARIANTS = "use Rattle.timefd_lang_warnings.specs.declared.warning.Warning.TheVariants."
CRATE = "crates/timefd_lang_warnings"
WARNING, LEVELS = f"{CRATE}/src/warning.rt", f"{CRATE}/src/levels.rt"
CODES, LEVELS_DEFINED, LEVEL_LEMMAS = f"{CRATE}/specs/Codes.antt", f"{CRATE}/specs/Levels.antt", f"{CRATE}/proofs/LevelLemmas.antt"
HELP_CRATE = "crates/timefd_lint_warnings"
C_WARNINGS, C_LEMMAS = "crates/timefd_c/specs/Warnings.antt", "crates/timefd_c/proofs/WarningLemmas.antt"
HEADER = "examples/timefd.h"
BOUND = "bindings/rust/src/warning.rs"
COMPLETIONS = "packages/completions"
AT_MOST = r"(?<=≤ )\d+"
MATCH = "match self {"

CODE = [
    Table(WARNING, Between(("pub enum Warning {",), "}"), variants),
    Table(WARNING, Between(("pub fn name(", MATCH), "        }"), lambda: texts("name")),
    Table(WARNING, Between(("pub fn sentence(", MATCH), "        }"), lambda: texts("sentence")),
    each(
        WARNING, Between(("pub fn named(", "match name {"), "            _ =>"), WARNINGS,
        '            "{0.name}" => Some(Warning::{0.variant}),',
    ),
    each(WARNING, Between(("pub fn all(", "&["), "        ]"), WARNINGS, "            Warning::{0.variant},"),
    Table(f"{CRATE}/src/explanation.rt", Between(("pub fn explanation(", MATCH), "        }"), lambda: texts("explanation")),
    each(LEVELS, Between(("pub struct Levels {",), "}"), WARNINGS, "    {0.field_name}: Level,"),
    each(LEVELS, Between(("pub fn all_at(", "Levels {"), "        }"), WARNINGS, "            {0.field_name}: level,"),
    each(
        LEVELS, Between(("pub fn level_of(", "match warning {"), "        }"), WARNINGS,
        "            Warning::{0.variant} => self.{0.field_name},",
    ),
    each(
        LEVELS, Between(("pub fn with(", "match warning {"), "        }"), WARNINGS,
        "            Warning::{0.variant} => levels.{0.field_name} = level,",
    ),
    Table(LEVELS, Between(("pub fn found(", "Levels {"), "        }"), found),
    Table(f"{HELP_CRATE}/src/hint.rt", Between(("pub fn help_on(", "match warning {"), "    }"), helps),
    each(
        "crates/timefd_c/src/warning_fields.rt", Between(("fn warning_number(", "match warning {"), "    }"), WARNINGS,
        "        Warning::{0.variant} => {0.number},",
    ),
]
DEFINED = [
    cases(CODES, "abbrev pub name_of :", WARNINGS, "name_of {0.variant}", lambda it: codes(it.name)),
    cases(CODES, "abbrev pub sentence_of :", WARNINGS, "sentence_of {0.variant}", lambda it: codes(it.sentence)),
    Table(CODES, Between(("abbrev pub named :", "named name ="), "    else None"), read_names),
    Table(CODES, Between(("abbrev pub all :",), ""), listed),
    Table(f"{CRATE}/specs/Explanations.antt", Between(("abbrev pub explanation_of :",), ""), explained),
    cases(LEVELS_DEFINED, "abbrev pub level_of :", WARNINGS, "level_of l {0.variant}", "l.{0.field_name}"),
    each(LEVELS_DEFINED, Between(("abbrev pub by :", "by at = record {"), "}"), WARNINGS, "  {0.field_name} = at {0.variant};"),
    cases(
        LEVELS_DEFINED, "abbrev pub with_level :", WARNINGS,
        "with_level l {0.variant} level", "record l {{ {0.field_name} = level }}",
    ),
    cases(
        f"{HELP_CRATE}/specs/Hints.antt", "abbrev pub help_on :", WARNINGS,
        "help_on {0.variant} text", lambda it: HELP_DEFINED[it.help].format(it),
    ),
    cases(C_WARNINGS, "abbrev pub warning_number :", WARNINGS, "warning_number {0.variant}", "{0.number}"),
    counted(C_WARNINGS, "pub few : answer.count", AT_MOST),
]
PROVED = [
    cases(f"{CRATE}/proofs/LawLemmas.antt", "pub names_are_read :", WARNINGS, "names_are_read {0.variant}", "refl"),
    Table(f"{CRATE}/proofs/LawLemmas.antt", Between(("pub all_are_there :",), ""), places),
    cases(LEVEL_LEMMAS, "pub found_as_defined :", WARNINGS, "found_as_defined levels style ts {0.variant}", "refl"),
    cases(LEVEL_LEMMAS, "pub level_is_set :", WARNINGS, "level_is_set levels {0.variant} level", "refl"),
    counted(LEVEL_LEMMAS, "let few : count level levels", AT_MOST),
    counted("crates/timefd_lint/proofs/ReportedLemmas.antt", "let few : warning_count Warned found", AT_MOST),
    cases(C_LEMMAS, "all_warned :", WARNINGS, "all_warned {0.variant}", "refl"),
    counted(C_LEMMAS, "(answer : WarningsAnswer) → IsReported language text list before after answer → answer.count", AT_MOST),
    counted(C_LEMMAS, "subst (λ (a : WarningsAnswer). a.count", AT_MOST),
]
IMPORTED = [
    *(imported(f"lang_warnings/specs/{name}") for name in ("Codes", "Explanations", "Levels", "Warns", "Laws")),
    *(imported(f"lang_warnings/proofs/{name}") for name in ("LawLemmas", "LevelLemmas")),
    *(imported(file) for file in ("lint_warnings/specs/Hints", "c/specs/Warnings", "c/proofs/WarningLemmas")),
]
OUTSIDE = [
    Table(HEADER, Between(("/* What is suspect in a description",), ""), numbers_of_c),
    counted(HEADER, "#define TIMEFD_MOST_WARNINGS", r"\d+(?=u)"),
    Table(BOUND, Between(("pub enum Warning {",), "}"), bound_variants),
    Table(BOUND, Between(("pub fn name(", MATCH), "        }"), lambda: bound_texts("name")),
    Table(BOUND, Between(("pub fn sentence(", MATCH), "        }"), lambda: bound_texts("suspect")),
    each(
        BOUND, Between(("pub(crate) fn from_number(", "Some(match"), "            _ =>"), WARNINGS,
        "            {0.number} => Self::{0.bound_variant},",
    ),
    counted("bindings/rust/src/sys.rs", "pub(crate) const MOST_WARNINGS", r"\d+(?=;)"),
    each(
        "bindings/python/timefd/warning.py", Between(("class Warning(", '"""', '"""', ""), ""), WARNINGS,
        "    {0.capitals} = {0.number}",
    ),
    Table(f"{COMPLETIONS}/timefd.bash", Between(("--deny | --allow)",), "        mapfile"), bash_names),
    *(Part(f"{COMPLETIONS}/timefd_lint.fish", f"complete -c timefd_lint -l {option}", r"(?<=-a ')[^']*", names)
      for option in ("deny", "allow")),
    *(Part(f"{COMPLETIONS}/_timefd", f"'*--{option}[", r"(?<=:warning:\()[^)]*", names) for option in ("deny", "allow")),
    each(
        "docs/proof/TABLES.md", Between(("## Warnings", "|---"), ""), WARNINGS,
        "| `{0.name}` | {0.sentence} | {0.example} | {0.instead} |",
    ),
]
TABLES = [*CODE, *DEFINED, *PROVED, *IMPORTED, *OUTSIDE]

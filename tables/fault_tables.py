"""The tables that repeat what a fault is: in code, specifications, proofs, the header for C and bindings."""
from dialect_tables import codes, quoted
from fault import FAULTS
from kept import Kept
from layout import WIDTH, arm_of_many, equation, filled
from place import Alternatives, Between, Line, Part, Table, each
from rattle import grouped
from specifications import cases

# The longest lines of the list of all codes, and of advice in its definition.
LIST_WIDTH, LONGEST = 96, 160
# Faults that are told apart where all others are alike: those before which a mark is written, and those on which strftime has advice
# of its own.
MARKED = ("MissingSpace", "UnescapedBracket", "InvalidEscape")
OF_STRFTIME = ("InvalidEscape", "UnsupportedFlag", "UnsupportedLetter")


def others(*named):
    """The faults that aren't among these."""
    return [it for it in FAULTS if it.variant not in named]


def patterns(faults):
    return [f"Code::{it.variant}" for it in faults]


def variants():
    return [line for it in FAULTS for line in (f"    /// {it.about}", f"    {it.variant},")]


def listed():
    """All of them, as much in each line as it has room for."""
    first, *more = [it.variant for it in FAULTS]
    return [filled(f"all = {first}", [*(f"∷ {it}" for it in more[:-1]), f"∷ {more[-1]} ∷ []"], 4, LIST_WIDTH)]


def advice(it):
    return f"{it.advice_by}(version)" if it.advice_by else quoted(it.advice)


def advice_defined(it):
    return f"{it.advice_by} v" if it.advice_by else codes(it.advice)


def text_arm(it, text):
    """An arm with a text, in a block if it is too long for one line. No text is broken."""
    line = f"        Code::{it.variant} => {text},"
    return [line] if len(line) <= WIDTH else [f"        Code::{it.variant} => {{", f"            {text}", "        }"]


def texts(file, function, value):
    """A match with a text for each code."""
    return Kept(
        file, Between((f"{function}(", "match code {"), "    }"), lambda: [text_arm(it, value(it)) for it in FAULTS],
        begins="        Code::",
    )


def text_case(left, text):
    """A text is alone in its line if it is too long."""
    both = equation(left, codes(text))
    return both if len(both[-1]) <= WIDTH else [both[0], "    codes", f"    {quoted(text)}"]


def explained():
    return [text_case(f"fault_explanation faults.{it.variant}", it.explanation) for it in FAULTS]


def left_out():
    """What begins the stretch that is left out, and last the faults for which none is."""
    groups = dict(grouped(FAULTS, lambda it: it.left_out))
    return [
        line for mark in ("Bracket", "Backslash", "Closing", "")
        for line in arm_of_many(8, patterns(groups[mark]), f"Some(LeftOutMark::{mark})" if mark else "None")
    ]


def of_items():
    return [
        line for value in (True, False)
        for line in arm_of_many(8, patterns(it for it in FAULTS if it.is_of_item is value), str(value).lower())
    ]


def without_advice():
    """The faults of strftime to which its letters are the answer, one that its letter is unknown first."""
    first, *more = patterns(sorted(others(*OF_STRFTIME), key=lambda it: it.variant != "UnknownName"))
    return [f"        {first}", *(f"        | {it}" for it in more[:-1]), f"        | {more[-1]} => {{"]


def branches_by(condition, prefix=""):
    """The branches of an `if`, one for each fault."""
    first, *more = [f"if {condition(it)} then {prefix}{it.variant}" for it in FAULTS]
    return [f"    {first}", *(f"    else {it}" for it in more)]


def branches(prefix=""):
    return branches_by(lambda it: f'bytes_eq name (codes "{it.name}")', prefix)


def with_last(lines):
    """The same where the last fault stands for all others."""
    return [*lines[:-1], f"    else {FAULTS[-1].variant}"]


def numbered():
    """Proofs count from 0."""
    return with_last(branches_by(lambda it: f"n == {it.number - 1}"))


def numbers_of_c():
    names = [f"TIMEFD_FAULT_{it.capitals} {it.number}u" for it in FAULTS]
    return [f"#define {name:{len('TIMEFD_FAULT_MISSING_ALTERNATIVE 10u')}} /* {it.header} */" for name, it in zip(names, FAULTS)]


def bound_variants():
    return [line for it in FAULTS for line in (f"    /// {it.bound}", f"    {it.variant},")]


def union():
    """The names as a type of TypeScript, in the order of the alphabet."""
    *lines, last = [f'    | "{name}"' for name in sorted(it.name for it in FAULTS)]
    return [*lines, f"{last};"]


def imported(file, enum):
    names = ", ".join(it.variant for it in FAULTS)
    begins = f"use Rattle.{enum}.TheVariants."
    return Table(f"crates/timefd_{file}.antt", Line(begins), lambda: [f"{begins}{{{names}}}"], "import of codes")


CODE, CODES, LEMMAS = (f"crates/timefd_lang_fault/{it}" for it in ("src/code.rt", "specs/Codes.antt", "proofs/CodeLemmas.antt"))
DIAGNOSIS, PROGRAM = "crates/timefd_lint_diagnosis", "crates/timefd_lint"
PLACED = "crates/timefd_lint_sources/proofs/PlacedLemmas.antt"
HEADER, BOUND = "examples/timefd.h", "bindings/rust/src/fault.rs"

IN_CODE = [
    Table(CODE, Between(("pub enum Code {",), "}"), variants),
    each(CODE, Between(("pub fn all(", "&["), "        ]"), FAULTS, "            Code::{0.variant},"),
    each(CODE, Between(("pub fn name(", "match self {"), "        }"), FAULTS, '            Code::{0.variant} => "{0.name}",'),
    texts(f"{DIAGNOSIS}/src/cure.rt", "pub fn advice", advice),
    Table(f"{DIAGNOSIS}/src/cure.rt", Alternatives('"names of time zones aren', "=> {"), without_advice),
    Table(f"{DIAGNOSIS}/src/further.rt", Between(("fn version_mark(", "match code {"), "    }"), left_out),
    Table(
        "crates/timefd_lint_rewrite/src/cure.rt", Alternatives("fn mark_before(", "=> None,"),
        lambda: arm_of_many(8, patterns(others(*MARKED)), "None"),
    ),
    Table("crates/timefd_lint_sources/src/opening.rt", Between(("pub fn is_of_item(", "match code {"), "    }"), of_items),
    each(
        f"{PROGRAM}/src/error_code.rt", Between(("fn fault_named(", "match name {"), "        _ =>"), FAULTS,
        '        "{0.name}" => Some(Code::{0.variant}),',
    ),
    texts(f"{PROGRAM}/src/error_page.rt", "fn fault_summary", lambda it: quoted(it.summary)),
    texts(f"{PROGRAM}/src/error_page.rt", "fn fault_explanation", lambda it: quoted(it.explanation)),
    each(
        "crates/timefd_c/src/diagnosis.rt", Between(("fn code_number(", "match code {"), "    }"), FAULTS,
        "        Code::{0.variant} => {0.number},",
    ),
]
DEFINED = [
    cases(CODES, "abbrev pub name_of :", FAULTS, "name_of {0.variant}", 'codes "{0.name}"'),
    Kept(CODES, Between(("abbrev pub all :",), ""), listed, begins="all ="),
    cases(f"{DIAGNOSIS}/specs/Advice.antt", "abbrev pub advice :", FAULTS, "advice v {0.variant}", advice_defined, width=LONGEST),
    cases(
        f"{DIAGNOSIS}/specs/Further.antt", "abbrev pub version_mark :", FAULTS, "version_mark {0.variant}",
        lambda it: f"Some {it.left_out}" if it.left_out else "None",
    ),
    each(
        "crates/timefd_lint_rewrite/specs/Cures.antt", Between(("abbrev pub mark_before :", "mark_before language fixes InvalidEscape"), ""),
        others(*MARKED), "mark_before language fixes {0.variant} = None",
    ),
    cases(
        "crates/timefd_lint_sources/specs/Items.antt", "abbrev pub is_of_item :", FAULTS, "is_of_item {0.variant}",
        lambda it: str(it.is_of_item).lower(),
    ),
    Table(f"{PROGRAM}/specs/ErrorCodes.antt", Between(("fault_named name =",), "    else None"), lambda: branches("Some faults.")),
    cases(
        f"{PROGRAM}/specs/ErrorPages.antt", "abbrev pub fault_summary :", FAULTS, "fault_summary faults.{0.variant}",
        lambda it: codes(it.summary),
    ),
    Kept(
        f"{PROGRAM}/specs/ErrorPages.antt", Between(("abbrev pub fault_explanation :",), ""), explained,
        begins="fault_explanation ",
    ),
    cases("crates/timefd_c/specs/Diagnoses.antt", "abbrev pub code_number :", FAULTS, "code_number {0.variant}", "{0.number}"),
]
PROVED = [
    Table(LEMMAS, Between(("code_named name =",), ""), lambda: with_last(branches())),
    cases(LEMMAS, "read_back :", FAULTS, "read_back {0.variant}", "refl"),
    cases(
        LEMMAS, "pub all_are_there :", FAULTS, "all_are_there {0.variant}",
        lambda it: f"(take {it.number - 1} all, drop {it.number} all, refl)",
    ),
    cases(PLACED, "abbrev number :", FAULTS, "number {0.variant}", lambda it: str(it.number - 1)),
    Table(PLACED, Between(("numbered n =",), ""), numbered),
    cases(PLACED, "back :", FAULTS, "back {0.variant}", "refl"),
]
IMPORTED = [
    *(imported(file, "timefd_lang_fault.specs.declared.code.Code") for file in (
        "lang_fault/specs/Codes", "lang_fault/proofs/CodeLemmas", "lint_diagnosis/specs/Advice", "lint_diagnosis/specs/Further",
    )),
    *(imported(file, "timefd_parse.specs.Code") for file in (
        "lint_rewrite/specs/Cures", "lint_sources/specs/Items", "lint_sources/proofs/PlacedLemmas", "c/specs/Diagnoses",
    )),
]
OUTSIDE = [
    Table(HEADER, Between(("/* Which fault a text has.",), ""), numbers_of_c),
    each(
        "examples/timefd_names.h", Between(("static inline const char *timefd_fault_name(", "switch"), "    }"), FAULTS,
        '    case TIMEFD_FAULT_{0.capitals}: return "{0.name}";',
    ),
    Table(BOUND, Between(("pub enum FaultKind {",), "}"), bound_variants),
    each(BOUND, Between(("pub fn name(", "match self {"), "        }"), FAULTS, '            Self::{0.variant} => "{0.name}",'),
    each(
        BOUND, Between(("pub(crate) fn from_number(", "Some(match"), "            _ =>"), FAULTS,
        "            {0.number} => Self::{0.variant},",
    ),
    Table("bindings/javascript/timefd.d.ts", Between(("export type FaultCode =",), ""), union),
    each("bindings/python/timefd/errors.py", Between(("class FaultKind(", '"""', ""), ""), FAULTS, "    {0.capitals} = {0.number}"),
    Part(
        "fuzz/diagnoses.c", "expect(fault->code >=", r"(?<=<= )TIMEFD_FAULT_\w+", lambda: f"TIMEFD_FAULT_{FAULTS[-1].capitals}",
    ),
]
TABLES = [*IN_CODE, *DEFINED, *PROVED, *IMPORTED, *OUTSIDE]

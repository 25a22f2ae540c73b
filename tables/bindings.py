"""The tables in the header for C and in the bindings of Rust and Python."""
import json

from component import BY_NUMBER, FIELDS, MODERN
from reasons import reasons
from layout import arm_of_many, arm_of_rust
from place import Between, Table, each
from rattle import grouped

# What makes the node of a component with these fields; the last three are the only ones of their kind.
NODE_OF = {
    ("padding",): "padded({number}, padding)",
    ("case_sensitive",): "named({number}, case_sensitive)",
    ("one_indexed",): "indexed({number}, one_indexed)",
    ("padding", "sign_is_mandatory"): "signed({number}, padding, sign_is_mandatory)",
    ("is_uppercase", "case_sensitive"): "period({number}, is_uppercase, case_sensitive)",
    ("sign_is_mandatory",): "timestamp({number}, sign_is_mandatory)",
    ("digits",): "RawNode {{ digits: digits.number(), ..numbered({number}) }}",
    ("count",): "RawNode {{ ignored: count.get(), ..numbered({number}) }}",
    ("trailing_input",): "RawNode {{ trailing_input: trailing_input.number(), ..numbered({number}) }}",
}
# How a field is read from a node.
READ_OF = {
    "padding": "padding()?",
    "sign_is_mandatory": "sign_is_mandatory()?",
    "digits": "SubsecondDigits::from_number(node.digits)?",
    "count": "NonZeroU16::new(node.ignored)?",
    "trailing_input": "TrailingInput::from_number(node.trailing_input)?",
}
# The function of the bindings for dates has the numbers up to this one, and that for times has all others.
LAST_OF_DATE = 22


def about(it, field):
    if field == "sign_is_mandatory" and "range:extended" in it.words:
        return "Whether a year from 0 to 9,999 has a `+`; a later one always has."
    if field == "case_sensitive" and "is_uppercase" in it.fields:
        return "Whether reading distinguishes capital and small letters."
    return FIELDS[field]["about"]


def variants():
    lines = []
    for it in MODERN:
        lines += [f"    /// {it.about}", f"    {it.variant} {{"]
        for field in it.fields:
            lines += [f"        /// {about(it, field)}", f"        {field}: {FIELDS[field]['type']},"]
        lines.append("    },")
    return lines


def encoded():
    lines = []
    for it in MODERN:
        pattern = f"Component::{it.variant} {{ {', '.join(it.modifiers)} }}"
        lines += arm_of_rust(8, pattern, NODE_OF[it.modifiers].format(number=it.number))
    return lines


def reserved():
    known = sorted((it for it in MODERN if it.bytes is not None), key=lambda it: it.bytes)
    return [
        line for bytes, group in grouped(known, lambda it: it.bytes)
        for line in arm_of_many(12, [f"Self::{it.variant} {{ .. }}" for it in group], str(bytes), is_rust=True)
    ]


def is_signed_year(it):
    return it.number <= LAST_OF_DATE and len(it.fields) > 1


def of_date():
    lines, years = [], [it for it in BY_NUMBER if is_signed_year(it)]
    for it in BY_NUMBER:
        if it is years[0]:
            lines.append(f"        {it.number}..={years[-1].number} => return year(node),")
        elif it.number <= LAST_OF_DATE and it not in years:
            lines += arm_of_rust(8, it.number, f"Component::{it.variant} {{ {it.fields[0]}: {it.fields[0]}()? }}")
    return lines


def year():
    years = filter(is_signed_year, BY_NUMBER)
    return [f"        {it.number} => Component::{it.variant} {{ {', '.join(it.fields)} }}," for it in years]


def of_time():
    lines = []
    for it in BY_NUMBER:
        if it.number > LAST_OF_DATE:
            read = ", ".join(f"{field}: {READ_OF.get(field, f'boolean(node.{field})?')}" for field in it.fields)
            lines += arm_of_rust(8, it.number, f"Component::{it.variant} {{ {read} }}")
    return lines


def names_of_c():
    lines = []
    for name, group in grouped(BY_NUMBER, lambda it: it.name):
        lines += [f"    case TIMEFD_{it.capitals}:" for it in group]
        lines[-1] += f' return "{name}";'
    return lines


def kind_names():
    return [
        line for name, group in grouped(BY_NUMBER, lambda it: it.name)
        for line in arm_of_many(12, [f"Self::{it.variant}" for it in group], f'"{name}"', is_rust=True)
    ]


def kind_variants():
    return [line for it in BY_NUMBER for line in (f"    /// {it.about}", f"    {it.variant},")]


def kinds():
    return [line for it in MODERN for line in arm_of_rust(12, f"Self::{it.variant} {{ .. }}", f"ComponentKind::{it.variant}")]


def capitals(reason):
    return reason["name"].upper().replace("-", "_")


def reason_numbers():
    """The reasons for which a format of another language is refused, in the header for C."""
    names = [f"TIMEFD_REASON_{capitals(it)} {it['number']}u" for it in reasons()]
    width = max(map(len, names))
    return [f"#define {name:{width}} /* {it['sentence']} */" for name, it in zip(names, reasons())]


def texts_of_reasons(key):
    return lambda: [f"    case TIMEFD_REASON_{capitals(it)}: return {json.dumps(it[key])};" for it in reasons()]


COMPONENTS = "bindings/rust/src/component.rs"
KINDS = "bindings/rust/src/component_kind.rs"
DECODE = "bindings/rust/src/decode.rs"

TABLES = [
    each("examples/timefd.h", Between(("/* The components.",), ""), BY_NUMBER, "#define TIMEFD_{0.capitals} {0.number}u"),
    Table("examples/timefd_names.h", Between(("static inline const char *timefd_component_name(", "switch"), "    }"), names_of_c),
    Table("examples/timefd.h", Between(("/* Why a part of a format",), ""), reason_numbers),
    *(Table("examples/timefd_names.h", Between((f"static inline const char *timefd_reason_{key}(", "switch"), "    }"),
            texts_of_reasons(key)) for key in ("name", "sentence", "cure")),
    each("bindings/python/timefd/nodes.py", Between(("class Name(", "return name", ""), ""), BY_NUMBER,
         '    {0.capitals} = {0.number}, "{0.name}"'),
    Table(COMPONENTS, Between(("pub enum Component {",), "}"), variants),
    Table(COMPONENTS, Between(("pub fn max_bytes_needed", "match self {"), "            Self::Subsecond"), reserved),
    Table(KINDS, Between(("pub enum ComponentKind {",), "}"), kind_variants),
    Table(KINDS, Between(("pub fn name(", "match self {"), "        }"), kind_names),
    each(KINDS, Between(("pub(crate) fn from_number(", "Some(match"), "            _ =>"), BY_NUMBER, "            {0.number} => Self::{0.variant},"),
    Table(KINDS, Between(("pub fn kind(", "match self {"), "        }"), kinds),
    Table("bindings/rust/src/encode.rs", Between(("pub(crate) fn component(", "match component {"), "    }"), encoded),
    Table(DECODE, Between(("fn of_date(", "Some(match"), "        _ =>"), of_date),
    Table(DECODE, Between(("fn year(", "Some(match"), "        _ =>"), year),
    Table(DECODE, Between(("fn of_time(", "Some(match"), "        _ =>"), of_time),
]

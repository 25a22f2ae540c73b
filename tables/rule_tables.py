"""The tables that repeat what a rule is: in code, and in definitions by cases."""
from dialect_tables import quoted
from kept import Kept
from layout import arm_of_many
from place import Alternatives, Between, Table
from rattle import grouped
from rule import OF_KIND, RULES

# Rules whose help isn't the advice on their code.
WITH_HELP = ("UnknownName", "UnknownLetter", "UnknownKey", "UnknownValue", "InvalidModifier", "RefusedModifier")
# Rules about a word of which no slot is known: tables of slots have these before those about no word.
WITHOUT_SLOT = ("UnknownLetter", "InvalidModifier")


def variants():
    lines = []
    for it in RULES:
        types = ", ".join(it.words.values())
        lines += [*(f"    /// {line}" for line in it.about), f"    {it.variant}({types})," if types else f"    {it.variant},"]
    return lines


def reported():
    """What is reported of each rule, in code."""
    for it in RULES:
        words = [f"{word}.context()" if kind == "Refuser" else word for word, kind in it.quoted]
        parts = [quoted(text) for text in it.texts] or words
        value = f"FaultKind::{it.kind}({', '.join(parts)})" if parts else f"FaultKind::{it.kind}"
        names = () if it.texts else (word for word, _ in it.quoted)
        yield arm_of_many(12, [it.pattern(*names)], value)


def reported_as_defined():
    for it in RULES:
        words = [f"(context_of {word})" if kind == "Refuser" else f"{word}.now" for word, kind in it.quoted]
        yield [f"rule_kind {it.case()} = {it.defined or ' '.join([OF_KIND[it.kind].defined, *words])}"]


def coded():
    return [
        line for code, group in grouped(RULES, lambda it: it.code)
        for line in arm_of_many(12, [it.pattern() for it in group], f"Code::{code}")
    ]


def by_slot():
    """The rules of which it is known what should have been there, and after them all others."""
    some = [it for it in RULES if it.slot]
    return some, sorted((it for it in RULES if it not in some), key=lambda it: it.variant not in WITHOUT_SLOT)


def wanted():
    some, others = by_slot()
    yield from (arm_of_many(12, [it.pattern(it.wanted)], f"Some(Slot::{it.slot})") for it in some)
    yield arm_of_many(12, [it.pattern() for it in others], "None")


def wanted_as_defined():
    some, others = by_slot()
    for it in some:
        slot = f"(slots.{it.slot.replace('(', ' ')}" if it.wanted else f"slots.{it.slot}"
        yield f"wanted_by {it.case()} = Some {slot}"
    yield from (f"wanted_by {it.case()} = None" for it in others)


def advised():
    """The rules whose help is the advice on their code."""
    rest = [it.pattern() for it in RULES if it.variant not in WITH_HELP]
    return arm_of_many(8, rest, "Ok(Help::Advice(advice(version, Code::of(fault.rule))))")


FAULT = "crates/timefd_lang_fault"
RULE, ARM = f"{FAULT}/src/rule.rt", "            Rule::"

TABLES = [
    Table(RULE, Between(("pub enum Rule<",), "}"), variants),
    Kept(RULE, Between(("pub fn kind(", "match self {"), "        }"), reported, begins=ARM),
    Kept(RULE, Between(("pub fn wanted(", "match self {"), "        }"), wanted, begins=ARM),
    Table(f"{FAULT}/src/code.rt", Between(("pub fn of(", "match rule {"), "        }"), coded),
    Kept(f"{FAULT}/specs/RuleKinds.antt", Between(("abbrev pub rule_kind :",), ""), reported_as_defined, begins="rule_kind "),
    Table(f"{FAULT}/specs/Slots.antt", Between(("abbrev pub wanted_by :",), ""), wanted_as_defined),
    Table(
        "crates/timefd_lint_diagnosis/src/help.rt", Alternatives("fn version_help(", "Code::of(fault.rule)))),"), advised,
    ),
]

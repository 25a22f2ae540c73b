"""Why a part of a format has no text of version 3, from `dialects/reasons.toml`: in code, definitions and bindings."""
import json

from dialect_tables import codes, quoted
from dialects import CRATE, camel, load

# The reasons of what the dialect itself doesn't know.
UNKNOWN = ("flag", "unknown-directive")


def reasons():
    return load("reasons")["reason"]


def rust_arm(row, key):
    line = f"            Reason::{camel(row['name'])} => {quoted(row[key])},\n"
    return line if len(line) <= 101 else line.replace("=> ", "=>\n                ")


def reason_enum():
    match = {key: "".join(rust_arm(row, key) for row in reasons()) for key in ("name", "sentence", "cure")}
    meanings = {"name": "The name of the reason, such as `zone-name`.",
                "sentence": "Why a part has no text of version 3, as a sentence without a capital and a full stop.",
                "cure": "What to do about it, in a sentence."}
    functions = "\n".join(
        f"    /// {meanings[key]}\n    pub fn {key}(self) -> &'static str\n        ensures {{ result.now ≡ spec.{key} self }}\n"
        f"    {{\n        match self {{\n{match[key]}        }}\n    }}\n" for key in match)
    functions += ("\n    /// Whether the dialect has no such directive, or no such flag of it.\n    pub fn is_unknown(self) -> bool\n"
                  "        ensures { result ≡ spec.is_unknown self }\n    {\n        match self {\n            "
                  + " | ".join(f"Reason::{camel(row['name'])}" for row in reasons() if row["name"] in UNKNOWN)
                  + " => true,\n            "
                  + "\n            | ".join(f"Reason::{camel(row['name'])}" for row in reasons() if row["name"] not in UNKNOWN)
                  + " => false,\n        }\n    }\n")
    return ("//! Why a part of a format has no text of version 3. `tables/write` writes them.\n\n"
            "ghost use Rattle.std.specs.Prelude.{◌≡◌};\nghost use Rattle.timefd_lang_dialect.specs.Reasons as spec;\n\n"
            "/// Why a part of a format has no text of version 3.\n#[derive(Clone, Copy)]\npub enum Reason {\n"
            + rust_variants("    ") + "}\n\nimpl Reason {\n" + functions + "}\n")


def specified_reasons():
    names = [camel(row["name"]) for row in reasons()]
    text = ("-- What is reported about each reason.\nuse Rattle.std.specs.Prelude.{Bool, true, false, codes}\n"
            "use Rattle.timefd_lang_component.specs.Tree.{Text}\n"
            "use Rattle.timefd_lang_dialect.specs.declared.reason.Reason.{Reason}\n"
            f"use Rattle.timefd_lang_dialect.specs.declared.reason.Reason.TheVariants.{{{', '.join(names)}}}\n")
    for key in ("name", "sentence", "cure"):
        text += f"\nabbrev pub {key} : Reason → Text\n" + "".join(
            f"{key} {camel(row['name'])} = {codes(row[key])}\n" for row in reasons())
    text += "\n-- the dialect has no such directive, or no such flag of it\nabbrev pub is_unknown : Reason → Bool\n" + "".join(
        f"is_unknown {camel(row['name'])} = {'true' if row['name'] in UNKNOWN else 'false'}\n" for row in reasons())
    return text


def reason_codes():
    arms = "".join(f"        Reason::{camel(row['name'])} => {row['number']},\n" for row in reasons())
    return ("//! The number of each reason for C. `tables/write` writes them.\n\n"
            "ghost use Rattle.std.specs.Prelude.{◌≡◌};\nghost use Rattle.timefd_c.specs.FormatReasons as spec;\n\n"
            "use timefd_lang_dialect::Reason;\n\n"
            "/// The number of a reason in `examples/timefd.h`.\npub fn reason_code(reason: Reason) -> u32\n"
            f"    ensures {{ result ≡ spec.reason_number reason }}\n{{\n    match reason {{\n{arms}    }}\n}}\n")


def specified_codes():
    names = [camel(row["name"]) for row in reasons()]
    return ("-- The number of each reason for C.\nuse Rattle.std.specs.Prelude.{ℕ}\n"
            "use Rattle.timefd_lang_dialect.specs.declared.reason.Reason.{Reason}\n"
            f"use Rattle.timefd_lang_dialect.specs.declared.reason.Reason.TheVariants.{{{', '.join(names)}}}\n"
            "\nabbrev pub reason_number : Reason → ℕ\n" + "".join(
                f"reason_number {camel(row['name'])} = {row['number']}\n" for row in reasons()))


def rust_variants(indent):
    return "".join(f"{indent}/// {row['sentence'][0].upper()}{row['sentence'][1:]}.\n{indent}{camel(row['name'])},\n"
                   for row in reasons())


def bound_arm(row, key):
    line = f"            Self::{camel(row['name'])} => {quoted(row[key])},\n"
    return line if len(line) <= 101 else line.replace("=> ", "=> {\n                ").replace(",\n", "\n            }\n")


def bound_reasons():
    """The reasons in the crate for Rust."""
    meanings = {"name": "The name of the reason, such as `zone-name`.",
                "sentence": "Why a part has no text of version 3, as a sentence without a capital and a full stop.",
                "cure": "What to do about it, in a sentence."}
    functions = "".join(
        f"\n    /// {meanings[key]}\n    #[must_use]\n    pub fn {key}(self) -> &'static str {{\n        match self {{\n"
        f"{''.join(bound_arm(row, key) for row in reasons())}        }}\n    }}\n" for key in meanings)
    numbers = "".join(f"            {row['number']} => Self::{camel(row['name'])},\n" for row in reasons())
    return ("//! Why a part of a format has no text of version 3. `tables/write` writes them.\n\n"
            "/// Why a part of a format has no text of version 3.\n"
            "#[derive(Debug, Clone, Copy, PartialEq, Eq, Hash)]\n#[non_exhaustive]\n"
            f"pub enum Reason {{\n{rust_variants('    ')}}}\n\nimpl Reason {{\n"
            "    /// The reason with this number in the header.\n"
            f"    pub(crate) fn from_number(number: u32) -> Option<Self> {{\n        Some(match number {{\n{numbers}"
            f"            _ => return None,\n        }})\n    }}\n{functions}}}\n")


def python_reasons():
    """The reasons in the module for Python."""
    rows = "".join(f"    {row['name'].upper().replace('-', '_')} = (\n        {row['number']},\n        {json.dumps(row['sentence'])},\n"
                   f"        {json.dumps(row['cure'])},\n    )\n" for row in reasons())
    return ('"""Why a part of a format has no text of version 3. `tables/write` writes them."""\n\n'
            "from __future__ import annotations\n\nimport enum\n\n__all__ = [\"Reason\"]\n\n\n"
            "class Reason(enum.IntEnum):\n"
            '    """Why a part of a format has no text of version 3, by its number in `timefd.h`.\n\n'
            "    `sentence` says it, and `cure` what to do.\n\n    >>> str(Reason.ZONE_NAME)\n    'zone-name'\n    \"\"\"\n\n"
            "    sentence: str\n    cure: str\n\n"
            "    def __new__(cls, number: int, sentence: str = \"\", cure: str = \"\") -> Reason:\n"
            "        reason = int.__new__(cls, number)\n        reason._value_ = number\n"
            "        reason.sentence = sentence\n        reason.cure = cure\n        return reason\n\n"
            f"{rows}\n    def __str__(self) -> str:\n"
            '        """The name that `timefd_format` prints, such as `zone-name`."""\n'
            '        return self.name.lower().replace("_", "-")\n')


def files():
    """Each file that is written whole, with its text."""
    return {f"{CRATE}/src/reason.rt": reason_enum(), f"{CRATE}/specs/Reasons.antt": specified_reasons(),
            "crates/timefd_c/src/reason_code.rt": reason_codes(),
            "bindings/rust/src/reason.rs": bound_reasons(), "bindings/python/timefd/reason.py": python_reasons(),
            "crates/timefd_c/specs/FormatReasons.antt": specified_codes()}

"""What the texts of the dialects' rows are read by, from `dialects/`: `read` of the row that most formats use, where it reads all that
the row writes, and reads no text as another value. A year of two digits is refused: each dialect gives it a century, and version 3 none.
"""
import dialect_tables
import dialects

CRATE = dialects.CRATE
SHORT_YEAR = "repr:last_two"


def is_wider(row):
    """Whether `read` reads all that is written, and more."""
    return row.get("reads_written", True) and "reads_other" not in row


def of_dialect(name):
    """The texts of version 3 that something other than the text itself reads, each with what reads it, as a row."""
    found, uses = {}, {}
    for text, row in dialects.rows_of(name).items():
        if SHORT_YEAR in row.get("v3", ""):
            found[row["v3"]] = {"why": "two-digit-year"}
    for row in dialects.load(name)["row"]:
        if "v3" not in row or row.get("reads", True) is False or row["v3"] in found and "why" in found[row["v3"]]:
            continue
        if row["formats"] > uses.get(row["v3"], -1):
            uses[row["v3"]] = row["formats"]
            found[row["v3"]] = {"v3": row["read"] if "read" in row and is_wider(row) else row["v3"]}
    return {text: row for text, row in found.items() if row.get("v3") != text}


def code():
    text = ("//! What reads the texts that each dialect's rows write. `tables/write` writes this file.\n\n"
            "ghost use Rattle.std.specs.Prelude.{◌≡◌};\nghost use Rattle.timefd_lang_dialect.specs.Readings as spec;\n"
            "ghost use Rattle.timefd_lang_dialect.specs.Rows.{entries};\n\n"
            "use crate::dialect::Dialect;\nuse crate::reason::Reason;\nuse crate::row::{NotBefore, Range, Row, Verdict, row};\n\n"
            "impl Dialect {\n    /// For reading: each text of the dialect's rows that another text reads, with that text.\n"
            "    pub fn readings(self) -> &'static [Row]\n        ensures { entries result.now ≡ spec.readings_of self }\n"
            "    {\n        match self {\n")
    text += "".join(f"            Dialect::{dialects.camel(name)} => {name}_readings(),\n" for name in dialects.NAMES) + "        }\n    }\n}\n"
    for name in dialects.NAMES:
        text += (f"\n#[tactic(auto, unfolding(crate::specs::Readings::{name}_readings))]\nfn {name}_readings() -> &'static [Row]\n"
                 f"    ensures {{ entries result.now ≡ spec.{name}_readings }}\n{{\n    {name.upper()}\n}}\n")
    for name in dialects.NAMES:
        rows = [rust_row(*row) for row in of_dialect(name).items()]
        listed = "\n".join(["", *rows, ""]) if len(rows) > 1 else rows[0].strip(" ,")
        text += f"\nconst {name.upper()}: &[Row] = &[{listed}];\n"
    return text


def rust_row(text, row):
    """A row; a long text goes on in lines of its own."""
    back = f"refused {dialects.camel(row['why'])}" if "why" in row else f"=> {dialect_tables.quoted(row['v3'])}"
    line = f"    row!({dialect_tables.quoted(text)} {back}),"
    if len(line) <= 100:
        return line
    words, lines = row["v3"].split(" "), [""]
    for word in words:
        if len(lines[-1]) + len(word) > 85:
            lines.append("")
        lines[-1] += word + " "
    back = " \\\n        ".join(dialect_tables.quoted(part[:-1])[1:-1] for part in lines)
    return f"    row!({dialect_tables.quoted(text)} => \"\\\n        {back}\"),"


def specification():
    text = ("-- What reads the texts that each dialect's rows write.\nuse Rattle.std.specs.Prelude.{codes, List, [], ◌∷◌}\n"
            "use Rattle.timefd_lang_dialect.specs.declared.dialect.Dialect.{Dialect}\n"
            f"use Rattle.timefd_lang_dialect.specs.declared.dialect.Dialect.TheVariants.{{{', '.join(map(dialects.camel, dialects.NAMES))}}}\n"
            "use Rattle.timefd_lang_dialect.specs.declared.reason.Reason.TheVariants.{TwoDigitYear}\n"
            "use Rattle.timefd_lang_dialect.specs.Rows.{Entry, ◌means◌, ◌refused_for◌}\n")
    for name in dialects.NAMES:
        listed = "\n    ∷ ".join([dialect_tables.specified_row(*row) for row in of_dialect(name).items()] + ["[]"])
        text += f"\nunfoldable pub {name}_readings : List Entry\n{name}_readings =\n    {listed}\n"
    return text + "\nabbrev pub readings_of : Dialect → List Entry\n" + "".join(
        f"readings_of {dialects.camel(name)} = {name}_readings\n" for name in dialects.NAMES)


def files():
    """Each file that is written whole, with its text."""
    return {f"{CRATE}/src/readings.rt": code(), f"{CRATE}/specs/Readings.antt": specification()}

"""The descriptions that dates and times are often written by, from `guesses.toml`."""
import pathlib
import tomllib

import dialect_tables
import dialects

FILE = pathlib.Path(__file__).resolve().parent / "guesses.toml"
CRATE = "crates/timefd_description"


def groups():
    return tomllib.loads(FILE.read_text())["group"]


def long_literal(text):
    """A text as Rust's literals write it, which goes on in lines of its own."""
    lines = [""]
    for word in text.split(" "):
        if len(lines[-1]) + len(word) > 85:
            lines.append("")
        lines[-1] += word + " "
    return '"\\\n        ' + " \\\n        ".join(dialect_tables.quoted(part[:-1])[1:-1] for part in lines) + '"'


def code_row(row):
    if "swapped" in row:
        line = f"    candidate!({dialect_tables.quoted(row['text'])}, swapped {dialect_tables.quoted(row['swapped'])}),"
        if len(line) <= 100:
            return line
        return (f"    candidate!(\n        {dialect_tables.quoted(row['text'])},\n"
                f"        swapped {dialect_tables.quoted(row['swapped'])}\n    ),")
    line = f"    candidate!({dialect_tables.quoted(row['text'])}),"
    if len(line) <= 100:
        return line
    quoted = dialect_tables.quoted(row["text"])
    return f"    candidate!(\n        {quoted if len(quoted) <= 90 else long_literal(row['text'])}\n    ),"


def variant(group):
    return dialects.camel(group["name"])


def definition(group):
    return group["name"].replace("-", "_")


def capital(text):
    return text[0].upper() + text[1:]


def code():
    variants = "".join(f"    /// {capital(it['title'])}.\n    {variant(it)},\n" for it in groups())
    listed = "".join(f"        Group::{variant(it)},\n" for it in groups())
    arms = "".join(f"            Group::{variant(it)} => {definition(it)}_rows(),\n" for it in groups())
    functions = "".join(
        f"\n#[tactic(auto, unfolding(crate::specs::Guessing::Candidates::{definition(it)}_entries))]\n"
        f"fn {definition(it)}_rows() -> &'static [Candidate]\n    ensures {{ spec.entries result.now ≡ spec.{definition(it)}_entries }}\n"
        f"{{\n    {definition(it).upper()}\n}}\n" for it in groups())
    constants = "".join(f"\nconst {definition(it).upper()}: &[Candidate] = &[\n" + "\n".join(code_row(row) for row in it["candidate"]) + "\n];\n"
                        for it in groups())
    return ("//! Descriptions that dates and times are often written by, likeliest first. `tables/write` writes them.\n\n"
            "ghost use Rattle.std.specs.Prelude.{◌≡◌};\nghost use Rattle.timefd_description.specs.Guessing.Candidates as spec;\n\n"
            "use crate::guessing::candidate::{Candidate, candidate};\n\n"
            f"/// Where descriptions come from.\n#[derive(Clone, Copy)]\npub enum Group {{\n{variants}}}\n\n"
            "/// The groups, likeliest first.\npub fn all_groups() -> &'static [Group]\n    ensures { result.now ≡ spec.all_groups }\n"
            f"{{\n    &[\n{listed}    ]\n}}\n\n"
            "impl Group {\n    /// The descriptions of the group, likeliest first.\n    pub fn rows(self) -> &'static [Candidate]\n"
            f"        ensures {{ spec.entries result.now ≡ spec.rows_of self }}\n    {{\n        match self {{\n{arms}        }}\n    }}\n}}\n"
            f"{functions}{constants}")


def specified_row(row):
    if "swapped" in row:
        text, swapped = dialect_tables.codes(row["text"]), dialect_tables.codes(row["swapped"])
        line = f"{text} swaps_to {swapped}"
        return line if len(line) <= 150 else f"{text}\n    swaps_to {swapped}"
    return f"alone ({dialect_tables.codes(row['text'])})"


def specification():
    lists = "".join(f"\nunfoldable pub {definition(it)}_entries : List Entry\n{definition(it)}_entries =\n    "
                    + "\n    ∷ ".join([specified_row(row) for row in it["candidate"]] + ["[]"]) + "\n" for it in groups())
    return ("-- Descriptions that dates and times are often written by, likeliest first.\n"
            "use Rattle.std.specs.Prelude.{codes, List, [], ◌∷◌, ◌++◌, Option, Some, None}\n"
            "use denote.Ref.{Bor}\n"
            "use Rattle.timefd_parse.specs.Tree.{Text}\n"
            "use Rattle.timefd_description.specs.declared.guessing.candidate.Candidate.{Candidate}\n"
            "use Rattle.timefd_description.specs.declared.guessing.candidates.Group.{Group}\n"
            f"use Rattle.timefd_description.specs.declared.guessing.candidates.Group.TheVariants.{{{', '.join(map(variant, groups()))}}}\n\n"
            "-- a description, and the same one with day and month swapped\n"
            "pub record Entry : Type 0 where\n  pub text : Text\n  pub swapped : Option Text\n\n"
            "abbrev pub alone : Text → Entry\nalone text = record { text = text; swapped = None }\n\n"
            "infix 80 ◌swaps_to◌\nabbrev pub ◌swaps_to◌ : Text → Text → Entry\n"
            "text swaps_to other = record { text = text; swapped = Some other }\n\n"
            "-- the rows of the code\nabbrev pub text_option : Option (Bor Text) → Option Text\n"
            "text_option None = None\ntext_option (Some text) = Some text.now\n\n"
            "abbrev pub entry_of : Candidate → Entry\n"
            "entry_of row = record { text = row.description.now; swapped = text_option row.swapped }\n\n"
            "abbrev pub entries : List Candidate → List Entry\nentries [] = []\n"
            "entries (row ∷ rows) = entry_of row ∷ entries rows\n"
            f"{lists}\nabbrev pub rows_of : Group → List Entry\n"
            + "".join(f"rows_of {variant(it)} = {definition(it)}_entries\n" for it in groups())
            + "\nabbrev pub all_groups : List Group\nall_groups =\n    "
            + "\n    ∷ ".join([variant(it) for it in groups()] + ["[]"])
            + "\n\n-- the rows of groups, one group after another\nabbrev pub rows_in : List Group → List Entry\nrows_in [] = []\n"
            "rows_in (group ∷ groups) = rows_of group ++ rows_in groups\n\n"
            "abbrev pub all_entries : List Entry\nall_entries = rows_in all_groups\n")


def files():
    """Each file that is written whole, with its text."""
    return {f"{CRATE}/src/guessing/candidates.rt": code(), f"{CRATE}/specs/Guessing/Candidates.antt": specification()}

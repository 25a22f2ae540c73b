"""The tables of the dialects as code and as definitions: a file for each part of a table, and one for the rows that dialects share."""
import functools
import unicodedata

from dialects import CRATE, NAMES, PARTS, TITLES, camel, function_of, groups_of, load, module_of, next_part, parts_of, rows_of
from layout import statement


def quoted(text):
    """A text as Rust's literals write it."""
    kept = {"\\": "\\\\", '"': '\\"', "\n": "\\n", "\t": "\\t", "\r": "\\r"}
    return '"' + "".join(kept.get(c, c if ord(c) < 128 else f"\\u{{{ord(c):x}}}") for c in text) + '"'


def rust_row(text, row):
    words = [quoted(text)]
    if "not_before" in row:
        words += ["not", "before", camel(row["not_before"])]
    if "why" in row:
        return "row!(" + " ".join(words + ["refused", camel(row["why"])]) + ")"
    range_ = ["within", camel(row["when"])] if "when" in row else []
    line = "row!(" + " ".join(words + ["=>", quoted(row["v3"])] + range_) + ")"
    if len(line) <= 80:
        return line
    # Too long for a line: the literal goes on in the next one.
    front, back = row["v3"][:60].rsplit(" ", 1)
    back += row["v3"][60:]
    return "row!(" + " ".join(words + ["=>", quoted(front + " ")[:-1] + "\\"]) + "\n        " + " ".join(
        [quoted(back)[1:]] + range_) + ")"


def byte_literal(key):
    kept = {"'": "\\'", "\\": "\\\\", "\n": "\\n", "\r": "\\r"}
    return str(key[0]) if key[0] >= 0x80 else f"b'{kept.get(chr(key[0]), chr(key[0]))}'"


def constant_name(key):
    """The name of the rows that a byte selects, such as `SMALL_D`, `HYPHEN`, `DIGIT_ZERO`."""
    named = {"\n": "LINE_FEED", "\r": "CARRIAGE_RETURN", "-": "HYPHEN", "_": "UNDERSCORE", "^": "CARET", "#": "HASH", ".": "DOT"}
    if key[0] >= 0x80:
        return "LINE_SEPARATOR"
    name = named.get(chr(key[0])) or unicodedata.name(chr(key[0]))
    return name.replace("LATIN ", "").replace("LETTER ", "").replace(" ", "_")


def rust_constant(key, rows):
    """The rows that a byte selects."""
    written = [rust_row(*row) for row in rows.items()]
    begin = f"const {constant_name(key)}: &[Row] = &["
    line = f"{begin}{', '.join(written)}];"
    fits = len(line) <= 100 if "\n" not in line else len(line.split("\n")[0]) <= 90
    if len(written) == 1 and fits or len(", ".join(written)) <= 60:
        return line + "\n"
    return begin + "\n" + "".join(f"    {it},\n" for it in written) + "];\n"


@functools.cache
def shared_rows():
    """The rows of a byte that most of the dialects with a `%` have, if two have the same."""
    counts = {}
    for name in NAMES:
        if load(name)["kind"] == "percent":
            for key, rows in groups_of(name).items():
                constant = rust_constant(key, rows)
                counts.setdefault(key, {}).setdefault(constant, []).append(name)
    best = {key: max(found.items(), key=lambda it: len(it[1])) for key, found in counts.items()}
    return {key: constant for key, (constant, names) in best.items() if len(names) > 1}


def is_shared(key, rows):
    return shared_rows().get(key) == rust_constant(key, rows)


def rust_uses(rows):
    """The imports that the rows need."""
    written = any("v3" in row for row in rows)
    reason = "use crate::reason::Reason;\n" if any("why" in row for row in rows) else ""
    return f"{reason}use crate::row::{{NotBefore, {'Range, ' if written else ''}Row, Verdict, row}};\n"


@functools.cache
def shared_groups():
    """The rows that dialects share, by their byte."""
    return {key: rows for name in NAMES if load(name)["kind"] == "percent" for key, rows in groups_of(name).items()
            if is_shared(key, rows)}


def rust_shared():
    constants = "\n".join(f"pub {constant}" for constant in shared_rows().values())
    rows = [row for group in shared_groups().values() for row in group.values()]
    return ("//! Rows of strftime that several dialects share. `tables/write` writes them.\n\n"
            f"{rust_uses(rows)}\n{constants}")


def shared_name(key):
    """The name of shared rows in the specifications."""
    return constant_name(key).lower()


def specified_shared():
    groups = {key: shared_groups()[key] for key in shared_rows()}
    text = ("-- Rows of strftime that several dialects share.\n" + specified_uses(groups, shared=False))
    return text + "".join(f"\nabbrev pub {shared_name(key)} : List Entry\n{shared_name(key)} =\n    {listed_rows(rows)}\n"
                          for key, rows in groups.items())


def rust_arm_of(key):
    return f"        {byte_literal(key)} => {constant_name(key)},\n"


def codes(text):
    if text.isascii() and text.isprintable():
        return f"codes {quoted(text)}"
    return "(" + " ∷ ".join([str(byte) for byte in text.encode()] + ["[]"]) + ")"


def specified_row(text, row):
    if "not_before" in row:
        back = f"refused {camel(row['why'])}" if "why" in row else f"written ({codes(row['v3'])}) Years0To9999"
        return f"before {camel(row['not_before'])} ({codes(text)}) ({back})"
    if "why" in row:
        return f"{codes(text)} refused_for {camel(row['why'])}"
    if "when" in row:
        return f"within {camel(row['when'])} ({codes(text)}) ({codes(row['v3'])})"
    return f"{codes(text)} means {codes(row['v3'])}"


# What selects a row, as the code says it.
KEYS = {"percent": "of the directives with this byte after the `%`", "runs": "that begin with this byte", "layout": "that begin with this byte"}


def rust_match(name, part):
    """The function that returns the rows of a part that a byte selects."""
    arms = "".join(map(rust_arm_of, parts_of(name)[part]))
    others = f"{function_of(name, next_part(name, part))}(byte)" if next_part(name, part) else "&[]"
    return (f"/// {PARTS[part]} {KEYS[load(name)['kind']]}, the longest first.\n"
            f"#[tactic(auto, unfolding({path_of(name, part)}))]\n"
            f"pub fn {function_of(name, part)}(byte: u8) -> &'static [Row]\n"
            f"    ensures {{ entries result.now ≡ rows_at byte {name}_{part} }}\n{{\n"
            f"    match byte {{\n{arms}        _ => {others},\n    }}\n}}\n\n")


def path_of(name, part):
    return f"crate::specs::{module_of(name, part)[1]}::{name}_{part}"


def rust_keys(name):
    """The bytes that select rows."""
    kept = {'"': '\\"', "\\": "\\\\", "\n": "\\n", "\r": "\\r"}
    keys = [key for part in parts_of(name).values() for key in part]
    listed = "".join(f"\\x{key[0]:X}" if key[0] >= 0x80 else kept.get(chr(key[0]), chr(key[0])) for key in keys)
    paths = [path_of(name, part) for part in parts_of(name)]
    return (f"/// The bytes that select rows.\n#[tactic(auto, unfolding({', '.join(paths)}))]\n"
            f"pub fn {name}_keys() -> &'static [u8]\n    ensures {{ result.now ≡ keys_of {name}_groups }}\n{{\n    KEYS\n}}\n\n"
            f'const KEYS: &[u8] = b"{listed}";\n\n')


def rust_table(name, part):
    """A part of a dialect's table in code, as a file."""
    groups, following = parts_of(name)[part], next_part(name, part)
    own = {key: rows for key, rows in groups.items() if not (load(name)["kind"] == "percent" and is_shared(key, rows))}
    taken = sorted(constant_name(key) for key in groups if key not in own)
    shared = "\n".join(statement("use crate::tables::strftime", taken)) + "\n" if taken else ""
    more = f"use crate::tables::{module_of(name, following)[0]}::{function_of(name, following)};\n" if following else ""
    constants = "\n".join(rust_constant(*group) for group in own.items())
    words = "{keys_of, rows_at}" if part == "groups" else "{rows_at}"
    return (f"//! {PARTS[part]} of {TITLES[name]}. `tables/write` writes them.\n\n"
            f"ghost use Rattle.std.specs.Prelude.{{◌≡◌}};\nghost use Rattle.timefd_lang_dialect.specs.Groups.{words};\n"
            f"ghost use Rattle.timefd_lang_dialect.specs.{module_of(name, part)[1]}.{{{name}_{part}}};\n"
            "ghost use Rattle.timefd_lang_dialect.specs.Rows.{entries};\n\n"
            f"{rust_uses([row for rows in own.values() for row in rows.values()])}{more}{shared}\n{rust_match(name, part)}"
            f"{rust_keys(name) if part == 'groups' else ''}{constants}")


def rust_modules():
    modules = sorted({"strftime"} | {module_of(name, part)[0] for name in NAMES for part in parts_of(name)})
    return ("//! The table of each dialect. `tables/write` writes this file.\n\n" + "".join(f"pub mod {it};\n" for it in modules))


def listed_rows(rows):
    between = " ∷ " if len(rows) == 1 else "\n    ∷ "
    return between.join([specified_row(*row) for row in rows.items()] + ["[]"])


def specified_group(name, key, rows):
    """A group of rows that a byte selects."""
    if load(name)["kind"] == "percent" and is_shared(key, rows):
        return f"under {key[0]} {shared_name(key)}"
    return f"under {key[0]} ({listed_rows(rows)})"


def variants(path, names):
    return [f"use Rattle.timefd_lang_dialect.specs.declared.{path}.TheVariants.{{{', '.join(names)}}}"] if names else []


def specified_uses(groups, shared):
    """The imports that the rows of these groups need; `shared` says whether they are in groups."""
    rows = {text: row for group in groups.values() for text, row in group.items()}
    reasons = sorted({camel(row["why"]) for row in rows.values() if "why" in row})
    ranges = sorted({camel(row["when"]) for row in rows.values() if "when" in row})
    nexts = sorted({camel(row["not_before"]) for row in rows.values() if "not_before" in row})
    within = ["within"] if ranges else []
    ranges = (["Years0To9999"] if nexts else []) + ranges
    means = ["◌means◌"] if any("v3" in row and "when" not in row and "not_before" not in row for row in rows.values()) else []
    refused = ["◌refused_for◌"] if any("why" in row and "not_before" not in row for row in rows.values()) else []
    words = ([] if shared else ["Entry"]) + means + refused + within + (["before", "written", "refused"] if nexts else [])
    uses = ["use Rattle.std.specs.Prelude.{codes, List, [], ◌∷◌}"]
    uses += variants("reason.Reason", reasons) + variants("row.NotBefore", nexts) + variants("row.Range", ranges)
    uses += ["use Rattle.timefd_lang_dialect.specs.Groups.{Group, under}"] if shared else []
    return "\n".join(uses + [f"use Rattle.timefd_lang_dialect.specs.Rows.{{{', '.join(words)}}}"]) + "\n"


def specified_table(name, part):
    """A part of a dialect's table in the specifications, as a file."""
    groups, following = parts_of(name)[part], next_part(name, part)
    own = {key: rows for key, rows in groups.items() if not (load(name)["kind"] == "percent" and is_shared(key, rows))}
    taken = sorted(shared_name(key) for key in groups if key not in own)
    uses = specified_uses(own, shared=True)
    if following:
        uses += f"use Rattle.timefd_lang_dialect.specs.{module_of(name, following)[1]}.{{{name}_{following}}}\n"
    if taken:
        uses += f"use Rattle.timefd_lang_dialect.specs.Strftime.{{{', '.join(taken)}}}\n"
    end = f"{name}_{following}" if following else "[]"
    listed = "\n    ∷ ".join([specified_group(name, *group) for group in groups.items()] + [end])
    return (f"-- {PARTS[part]} of {TITLES[name]}, by the byte that selects them, the longest first.\n{uses}"
            f"\nunfoldable pub {name}_{part} : List Group\n{name}_{part} =\n    {listed}\n")


def rust_rows():
    """The functions that return the rows that a byte selects in each table, and these bytes."""
    rows = "".join(f"            Dialect::{camel(name)} => {name}_rows(byte),\n" for name in NAMES)
    keys = "".join(f"            Dialect::{camel(name)} => {name}_keys(),\n" for name in NAMES)
    uses = "".join(f"use crate::tables::{name}::{{{name}_keys, {name}_rows}};\n" for name in sorted(NAMES))
    return ("//! The rows of each dialect. `tables/write` writes this file.\n\nghost use Rattle.std.specs.Prelude.{◌≡◌};\n"
            "ghost use Rattle.timefd_lang_dialect.specs.Groups.{keys_of, rows_at};\n"
            "ghost use Rattle.timefd_lang_dialect.specs.Rows.{entries};\n"
            "ghost use Rattle.timefd_lang_dialect.specs.Tables.{groups_of};\n\n"
            f"use crate::dialect::Dialect;\nuse crate::row::Row;\n{uses}\nimpl Dialect {{\n"
            "    /// The rows that this byte selects, the longest first.\n"
            "    pub fn rows_at(self, byte: u8) -> &'static [Row]\n"
            "        ensures { entries result.now ≡ rows_at byte (groups_of self) }\n    {\n"
            f"        match self {{\n{rows}        }}\n    }}\n\n"
            "    /// The bytes that select rows.\n"
            "    pub fn keys(self) -> &'static [u8]\n"
            "        ensures { result.now ≡ keys_of (groups_of self) }\n    {\n"
            f"        match self {{\n{keys}        }}\n    }}\n}}\n")


def specified_tables():
    uses = "".join(f"use Rattle.timefd_lang_dialect.specs.{camel(name)}.{{{name}_groups}}\n" for name in NAMES)
    rows = "".join(f"groups_of {camel(name)} = {name}_groups\n" for name in NAMES)
    return ("-- The rows of each dialect.\nuse Rattle.std.specs.Prelude.{List, ◌++◌}\n"
            "use Rattle.timefd_lang_dialect.specs.declared.dialect.Dialect.{Dialect}\n"
            f"use Rattle.timefd_lang_dialect.specs.declared.dialect.Dialect.TheVariants.{{{', '.join(map(camel, NAMES))}}}\n"
            "use Rattle.timefd_lang_dialect.specs.Dialects.{leading_of, unknown_rows}\n"
            "use Rattle.timefd_lang_dialect.specs.Groups.{Group, all_rows}\n"
            f"use Rattle.timefd_lang_dialect.specs.Rows.{{Entry}}\n{uses}\n"
            "-- the rows that a byte selects, in groups\n"
            f"abbrev pub groups_of : Dialect → List Group\n{rows}\n"
            "abbrev pub rows_of : Dialect → List Entry\n"
            "rows_of dialect = all_rows (groups_of dialect) ++ unknown_rows (leading_of dialect)\n")


def files():
    """Each file that is written whole, with its text."""
    found = {f"{CRATE}/src/rows.rt": rust_rows(), f"{CRATE}/src/tables/strftime.rt": rust_shared(), f"{CRATE}/specs/Tables.antt": specified_tables(),
             f"{CRATE}/src/tables.rt": rust_modules(), f"{CRATE}/specs/Strftime.antt": specified_shared()}
    for name, part in [(name, part) for name in NAMES for part in parts_of(name)]:
        code, specification = module_of(name, part)
        found[f"{CRATE}/src/tables/{code}.rt"] = rust_table(name, part)
        found[f"{CRATE}/specs/{specification}.antt"] = specified_table(name, part)
    return found

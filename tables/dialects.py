"""The tables of the dialects: rows of texts in a format and what they mean, and why a part has no text of version 3.

`dialects/NAME.toml` has the rows of a dialect, measured against the real programs, and `dialects/reasons.toml` the reasons. Flags are
spelled out here, and what a dialect doesn't know becomes a row with a reason: so the longest row at a position decides it.
"""
import functools
import pathlib
import string
import tomllib

FOLDER = pathlib.Path(__file__).resolve().parent / "dialects"
CRATE = "crates/timefd_lang_dialect"
NAMES = ("python", "c", "gnu", "chrono", "jiff", "ruby", "java", "go", "moment")
TITLES = {
    "python": "Python", "c": "C", "gnu": "GNU date", "chrono": "chrono", "jiff": "jiff", "ruby": "Ruby", "java": "Java", "go": "Go",
    "moment": "moment",
}


@functools.cache
def load(name):
    return tomllib.loads((FOLDER / f"{name}.toml").read_text())


def camel(name):
    return "".join(word.capitalize() for word in name.split("-"))


def padded(text, flag):
    """A text of version 3 with the padding that a flag asks for."""
    bare = text.replace(" padding:space", "").replace(" padding:none", "")
    return {"-": f"{bare[:-1]} padding:none]", "_": f"{bare[:-1]} padding:space]", "0": bare}.get(flag, text)


def of_percent(table):
    """The rows of a dialect whose directives begin with `%`, with flags spelled out."""
    rows = {"%" + row["text"]: dict(row) for row in table["row"]}
    rows["%"] = {"why": "unknown-directive"}
    for row in table["row"]:
        for flag in table["flags"] if "flags" in row else "":
            written = {key: row[key] for key in ("v3", "why", "when") if key in row}
            if row["flags"] == "number":
                written["v3"] = padded(row["v3"], flag)
            rows.setdefault("%" + flag + row["text"], written)
    for text, row in of_widths(table["row"]).items() if table["widths"] else ():
        rows.setdefault(text, row)
    for flag in table["flags"]:
        rows.setdefault("%" + flag, {"why": "flag"})
    return rows


# The flags that fill a number up to a width, and what none but `-` says of it.
FILLING = ("", "0", "_")


def of_widths(rows):
    """The rows of directives with the width that they have anyway, with the flags that fill. Every other width is refused."""
    found = {}
    for row in rows:
        for flag in FILLING if "width" in row else ():
            written = {key: row[key] for key in ("v3", "when") if key in row}
            if row.get("flags") == "number":
                written["v3"] = padded(row["v3"], flag)
            found[f"%{flag}{row['width']}{row['text']}"] = written
    refused = [f"%{flag}{digit}" for flag in (*FILLING, "-") for digit in string.digits[1:]]
    return found | {text: {"why": "width"} for text in refused}


def of_escapes(escape, rows, reserved):
    """The rows of an escape before a directive or a character of ASCII, which are literal then. Before others it is refused."""
    printable = string.ascii_letters + string.digits + string.punctuation + " "
    escaped = [text for text in rows if text not in reserved] + [c for c in printable if c not in rows and c not in (escape, "[")]
    written = {escape + text: {"v3": f"\\{text}" if text == "]" else text} for text in escaped}
    return written | {escape: {"why": "backslash"}}


def of_runs(table):
    """The rows of a dialect of bare letters: what it doesn't know of a letter is a row."""
    rows = {row["text"]: dict(row) for row in table["row"]}
    for letter in string.ascii_letters if table.get("letters") else "":
        longest = max((len(text) for text in rows if text[0] == letter), default=0)
        why = "too-many-letters" if longest else "unknown-letter"
        for count in range(1, longest + 2):
            rows.setdefault(letter * count, {"why": why})
    for letter in table.get("optional", ""):
        rows.setdefault(letter, {"why": "optional-part"})
    if "escape" in table:
        rows |= of_escapes(table["escape"], rows, table.get("reserved", ""))
    for letter in table.get("reserved", ""):
        rows.setdefault(letter, {"why": "reserved"})
    return rows


def rows_of(name):
    table = load(name)
    return of_percent(table) if table["kind"] == "percent" else of_runs(table)


def key_of(name, text):
    """The byte that selects a row: the one after the `%`, or the first; the row of a single `%` has none."""
    return text.encode()[1:2] if load(name)["kind"] == "percent" else text.encode()[:1]


@functools.cache
def groups_of(name):
    """The rows by the byte that selects them, the longest first. The row of a single `%` counts if no other does."""
    groups = {}
    for text, row in sorted(rows_of(name).items(), key=lambda it: -len(it[0].encode())):
        groups.setdefault(key_of(name, text), {})[text] = row
    order = list(dict.fromkeys(key_of(name, text) for text in rows_of(name)))
    if load(name)["kind"] == "percent":
        # A locale's own forms come last: of directives that mean the same the first is written.
        order.sort(key=lambda key: key in (b"c", b"x", b"X"))
    return {key: groups[key] for key in order if key}


# What the parts of a large table hold, by their names. Each part is a file of its own, and search proves up to 58 bytes of one.
PARTS = {
    "groups": "The rows", "padded": "The rows of flags that set the padding", "marked": "The rows of widths and other marks",
    "refused": "The rows of letters that are always refused", "escaped": "The rows of escapes",
}


def part_of(name, key, rows):
    """The part that the rows of a byte are in."""
    if load(name)["kind"] == "percent":
        return "groups" if key.isalpha() else "padded" if key in (b"-", b"_", b"0") else "marked"
    if key == load(name).get("escape", "").encode():
        return "escaped"
    return "groups" if any("v3" in row for row in rows.values()) or "escape" in load(name) else "refused"


@functools.cache
def parts_of(name):
    """The groups in parts, if there are more than 200 rows."""
    groups = groups_of(name)
    if sum(map(len, groups.values())) <= 200:
        return {"groups": groups}
    parts = {}
    for key, rows in groups.items():
        parts.setdefault(part_of(name, key, rows), {})[key] = rows
    return {part: parts[part] for part in PARTS if part in parts}


def next_part(name, part):
    """The part that follows, if one does."""
    names = list(parts_of(name))
    return dict(zip(names, names[1:])).get(part)


def module_of(name, part):
    """The module of a part in the code, and that in the specifications, such as `c_padded` and `CPadded`."""
    whole = name if part == "groups" else f"{name}_{part}"
    return whole, camel(whole.replace("_", "-"))


def function_of(name, part):
    return f"{module_of(name, part)[0]}_rows"

"""The kinds of `kinds.toml`: what is reported of a fault."""
import dataclasses
import pathlib
import sys
import tomllib

HERE = pathlib.Path(__file__).resolve().parent
# What each sentence has after its own words.
AT = " at byte index "


@dataclasses.dataclass(frozen=True)
class Kind:
    """A row. `fields` has the names of the fields before the index, with the lines on them."""

    variant: str
    theirs: str
    defined: str
    about: str
    index: str
    extent: str
    code: str
    fields: dict = dataclasses.field(default_factory=dict)
    words: tuple = ()
    holds: str = ""
    is_quoted: bool = False
    says: tuple = ()

    @property
    def enum(self):
        return f"InvalidFormatDescription::{self.theirs}"

    @property
    def begins(self):
        """The sentence before its word, or up to its index."""
        return self.says[0] + ("" if self.words else AT)

    @property
    def ends(self):
        """The sentence between its word and its index."""
        return self.says[-1] + AT

    @property
    def all_fields(self):
        return ", ".join([*self.fields, "index"])

    def applied(self, words):
        """The kind of these words in a definition: `(invalid_name name)`."""
        return f"({self.defined} {' '.join(words)})" if words else self.defined

    def by_word(self):
        """The kind, where what isn't valid of a modifier is called a word."""
        return self.applied(["word" if it == "value" else it for it in self.words])


def row(variant, cells):
    """A row, if it has all its cells and no others."""
    fields = {field.name: field for field in dataclasses.fields(Kind) if field.name != "variant"}
    for name, field in fields.items():
        if field.default is field.default_factory is dataclasses.MISSING and name not in cells:
            sys.exit(f"tables/kinds.toml: `{variant}` has no `{name}`")
    if unknown := [name for name in cells if name not in fields]:
        sys.exit(f"tables/kinds.toml: `{variant}` has `{unknown[0]}`, of which nothing is known")
    if len(cells.get("fields", ())) != len(cells.get("words", ())):
        sys.exit(f"tables/kinds.toml: `{variant}` has to have as many `words` as `fields`")
    return Kind(variant, **cells)


KINDS = [row(*it) for it in tomllib.loads((HERE / "kinds.toml").read_text()).items()]

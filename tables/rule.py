"""The rules of `rules.toml`."""
import dataclasses
import pathlib
import sys
import tomllib

from kind import KINDS

HERE = pathlib.Path(__file__).resolve().parent


@dataclasses.dataclass(frozen=True)
class Rule:
    """A row. `words` has the names of what it holds, with their types."""

    variant: str
    code: str
    kind: str
    about: tuple
    words: dict = dataclasses.field(default_factory=dict)
    texts: tuple = ()
    defined: str = ""
    slot: str = ""

    def pattern(self, *named):
        """The rule in a match, with a name for these words."""
        words = ", ".join(word if word in named else "_" for word in self.words)
        return f"Rule::{self.variant}({words})" if words else f"Rule::{self.variant}"

    def case(self):
        """The rule in a definition by cases."""
        return f"(rules.{self.variant} {' '.join(self.words)})" if self.words else f"rules.{self.variant}"

    @property
    def quoted(self):
        """The words that its sentence quotes, with their types."""
        return list(self.words.items())[:len(OF_KIND[self.kind].words)]

    @property
    def wanted(self):
        """The word that its slot has in brackets."""
        return self.slot.partition("(")[2].rstrip(")")


def row(variant, cells):
    """A row, if it names what there is."""
    known = {field.name for field in dataclasses.fields(Rule)}
    if unknown := [name for name in cells if name not in known]:
        sys.exit(f"tables/rules.toml: `{variant}` has `{unknown[0]}`, of which nothing is known")
    for name in ("code", "kind", "about"):
        if name not in cells:
            sys.exit(f"tables/rules.toml: `{variant}` has no `{name}`")
    if cells["kind"] not in OF_KIND:
        sys.exit(f"tables/rules.toml: `{variant}` has to have a kind of `kinds.toml`")
    if ("texts" in cells) != ("defined" in cells):
        sys.exit(f"tables/rules.toml: `{variant}` has to have both of `texts` and `defined`, or neither")
    return Rule(variant, **cells)


OF_KIND = {it.variant: it for it in KINDS}
RULES = [row(*it) for it in tomllib.loads((HERE / "rules.toml").read_text()).items()]

"""The warnings of `warnings.toml`."""
import dataclasses
import pathlib
import re
import sys
import tomllib

from dialects import camel

HERE = pathlib.Path(__file__).resolve().parent


@dataclasses.dataclass(frozen=True)
class Warning:
    """A row. `header` is `suspect` where the row has none."""

    variant: str
    number: int
    name: str
    about: str
    sentence: str
    suspect: str
    explanation: str
    example: str
    instead: str
    further: str = ""
    header: str = ""
    help: str = ""

    @property
    def field_name(self):
        """The variant as the name of a field: `period_with_hour_24`."""
        return re.sub(r"(?<=[a-z])(?=[A-Z0-9])", "_", self.variant).lower()

    @property
    def capitals(self):
        """The name in the header for C and in Python: `PERIOD_WITH_24_HOURS`."""
        return self.name.upper().replace("-", "_")

    @property
    def bound_variant(self):
        """The variant in the crate for Rust: `PeriodWith24Hours`."""
        return camel(self.name)

    @property
    def bound_about(self):
        """The line that documents it there."""
        return f"{self.suspect[0].upper()}{self.suspect[1:]}. {self.further}".rstrip()


def row(variant, cells):
    """A row, if it has all its cells and no others."""
    fields = {field.name: field.default for field in dataclasses.fields(Warning) if field.name != "variant"}
    for name, default in fields.items():
        if default is dataclasses.MISSING and name not in cells:
            sys.exit(f"tables/warnings.toml: `{variant}` has no `{name}`")
    if unknown := [name for name in cells if name not in fields]:
        sys.exit(f"tables/warnings.toml: `{variant}` has `{unknown[0]}`, of which nothing is known")
    return Warning(variant, **{"header": cells["suspect"], **cells})


def check():
    """That the numbers are those from 1 on, in their order, and that no two rows have one name."""
    if [it.number for it in WARNINGS] != list(range(1, len(WARNINGS) + 1)):
        sys.exit(f"tables/warnings.toml: the numbers aren't those from 1 to {len(WARNINGS)}, in this order")
    if len({it.name for it in WARNINGS}) < len(WARNINGS):
        sys.exit("tables/warnings.toml: two warnings have one name")


WARNINGS = [row(*it) for it in tomllib.loads((HERE / "warnings.toml").read_text()).items()]

check()

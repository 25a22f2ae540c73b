"""The faults of `faults.toml`."""
import dataclasses
import pathlib
import sys
import tomllib

from rule import RULES

HERE = pathlib.Path(__file__).resolve().parent


@dataclasses.dataclass(frozen=True)
class Fault:
    """A row. `bound` is `header` as a sentence where the row has none."""

    variant: str
    number: int
    name: str
    about: str
    header: str
    summary: str
    explanation: str
    bound: str
    advice: str = ""
    advice_by: str = ""
    left_out: str = ""
    is_of_item: bool = False

    @property
    def capitals(self):
        """The name in the header for C and in Python: `UNCLOSED_BRACKET`."""
        return self.name.upper().replace("-", "_")


def row(variant, cells):
    """A row, if it has all its cells and no others."""
    header = cells.get("header", " ")
    cells = {"bound": f"{header[0].upper()}{header[1:]}.", **cells}
    fields = {field.name: field.default for field in dataclasses.fields(Fault) if field.name != "variant"}
    for name, default in fields.items():
        if default is dataclasses.MISSING and name not in cells:
            sys.exit(f"tables/faults.toml: `{variant}` has no `{name}`")
    if unknown := [name for name in cells if name not in fields]:
        sys.exit(f"tables/faults.toml: `{variant}` has `{unknown[0]}`, of which nothing is known")
    if ("advice" in cells) == ("advice_by" in cells):
        sys.exit(f"tables/faults.toml: `{variant}` has to have `advice` or `advice_by`")
    return Fault(variant, **cells)


def check():
    """That the numbers are those from 1 on, in their order, and that no two rows have one name."""
    if [it.number for it in FAULTS] != list(range(1, len(FAULTS) + 1)):
        sys.exit(f"tables/faults.toml: the numbers aren't those from 1 to {len(FAULTS)}, in this order")
    if len({it.name for it in FAULTS}) < len(FAULTS):
        sys.exit("tables/faults.toml: two faults have one name")
    if apart := {it.code for it in RULES} ^ {it.variant for it in FAULTS}:
        sys.exit(f"tables/rules.toml: of {', '.join(sorted(apart))} there has to be a rule, and a row in faults.toml")


FAULTS = [row(*it) for it in tomllib.loads((HERE / "faults.toml").read_text()).items()]

check()

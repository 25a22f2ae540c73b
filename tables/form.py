"""The rows of `forms.toml`: each form in which the linter writes what it finds."""
import dataclasses
import pathlib
import sys
import tomllib

QUESTIONS = ("shows_fault_end", "shows_part_end", "counts_chars", "shows_asides", "is_drawn", "is_log")


@dataclasses.dataclass(frozen=True)
class Form:
    """A row, with its name."""

    name: str
    about: str
    usage: str
    man: list
    call: str
    gives: str
    sentences: str
    not_empty: str
    shows_fault_end: bool
    shows_part_end: bool
    counts_chars: bool
    shows_asides: bool
    is_drawn: bool
    is_log: bool

    @property
    def variant(self):
        return self.name.capitalize()


def read():
    """All rows, each with all cells and no others."""
    wanted = {it.name: it.type for it in dataclasses.fields(Form) if it.name != "name"}
    for name, cells in tomllib.loads((pathlib.Path(__file__).resolve().parent / "forms.toml").read_text()).items():
        if {cell: type(value) for cell, value in cells.items()} != wanted or cells["gives"] not in ("text", "bytes"):
            sys.exit(f"tables/forms.toml: `{name}` has {', '.join(f'`{it}`' for it in cells)}, and not {', '.join(wanted)}")
        yield Form(name, **cells)


FORMS = list(read())

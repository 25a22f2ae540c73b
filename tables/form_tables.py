"""What users read of the forms of `forms.toml`: in what `--help` writes, in the manual, and in the shells' completions."""
from form import FORMS
from layout import filled
from place import Between, Part, Table

# Where the texts of options begin in what `--help` writes, and the longest line there.
COLUMN, LONGEST = 31, 102


def usage():
    """The texts in one sentence, as much in each line as it has room for."""
    *texts, last = [it.usage for it in FORMS]
    first, *words = f"{', '.join(texts)}, or {last}".split(" ")
    return filled(" " * COLUMN + first, words, COLUMN, LONGEST)


def ended(lines, end):
    """The lines with a sign after the last one, which stands alone after a request."""
    *before, last = lines
    return [*before, f"{last} {end}" if last.startswith(".") else f"{last}{end}"]


def manual():
    """The texts in one sentence, each in lines of its own."""
    *texts, last = [it.man for it in FORMS]
    first, *lines = [line for it in texts for line in ended(it, ",")]
    return [f"how a fault is written: {first}", *lines, *ended([f"or {last[0]}", *last[1:]], ".")]


def listed(file, begins, pattern, between=" "):
    """The names of all forms, in a line of a file."""
    return Part(file, begins, pattern, lambda: between.join(it.name for it in FORMS))


USAGE, MANUAL, COMPLETIONS = "crates/timefd_lint/src/usage.rt", "packages/man/timefd_lint.1", "packages/completions"
OPTION = '.BR \\-\\-format " "'
TABLES = [
    listed(USAGE, "--format ", r"(?<=--format )\S+", "|"),
    Table(USAGE, Between(("--format ",), "  --color"), usage),
    listed(MANUAL, ".BR human ", r"(?<=\.BR ).*(?= \])", " | "),
    listed(MANUAL, OPTION, r'(?<=" " ).*', " | "),
    Table(MANUAL, Between((OPTION,), ".B sarif"), manual),
    listed(f"{COMPLETIONS}/timefd.bash", "--format)", r"(?<=-W ')[^']*"),
    listed(f"{COMPLETIONS}/timefd_lint.fish", "complete -c timefd_lint -l format", r"(?<=-a ')[^']*"),
    listed(f"{COMPLETIONS}/_timefd", "'--format[", r"(?<=:format:\()[^)]*"),
]

"""What breaks when an enum gets one more variant: looked for in the text of all files, and by the compiler's front end in a copy of the
crates. The new variant stands beside a neighbour, has its fields, and stands in each pattern that the neighbour has. What breaks is

- each file of src/ and specs/ that names the neighbour with its type, as each table with a row for it does;
- each file of src/ with a match that lacks the new variant, according to the compiler's front end, which proves nothing;
- each file outside of crates/ with a word that stands for the neighbour there, such as `SHOWN_TWICE` for `ShownTwice`.

Not compared: definitions and code with a variable, a number or `_` that don't name the neighbour; proofs, tests, laws and
wrong bodies, which the gate tries; pages and stored texts. No definition is checked.
"""
import collections
import pathlib
import re
import shutil
import subprocess
import sys

TOP = pathlib.Path(__file__).resolve().parent.parent
CRATES = TOP / "crates"
CODE = re.compile(r"`([^`]+)`")
# The crates of tests.
TESTS = re.compile(r"_test_(dialects|functions|rows)$")
# Tests, callers and laws in crates; outside of them pages, stored texts, tests, and files where a word means something else.
APART = re.compile(r"timefd_test_(functions|rows|uses)/|/tests\b|specs/(Examples|Laws)\.")
STORED = re.compile(r"^(crates|docs|cases)/|\.(md|png|svg|txt|human|json|tree|edit)$|tests?[/_.]|^web/(wide.c|browser.py)|^gate/(map|breaks.py)$")
Variant = collections.namedtuple("Variant", "enum file word")

# What the front end refuses last: when it says this, each match has all its arms.
PROBE = "pub fn escaping() -> u8 { let borrowed; { let own = 1u8; borrowed = &own; } *borrowed }\n"


def written_files():
    """The files in which `tables/write` writes a table."""
    listed = subprocess.run([TOP / "tables" / "write", "--list"], capture_output=True, text=True, check=True)
    return [TOP / it for it in listed.stdout.splitlines() if not it.startswith(" ")]


def variants_in(file, word):
    """Each enum of the file with this variant, and where the variant stands."""
    text = file.read_text()
    for found in re.finditer(r"^(?:pub(?:\(\w+\))? )?enum (\w+)[^{]*\{\n(.*?)^\}", text, re.M | re.S):
        variant = re.compile(rf"^ +{word}\b(\(.*?\)| \{{.*?\}})?,\n", re.M | re.S).search(text, found.start(2), found.end(2))
        if variant:
            yield found.group(1), variant


def variants_among(files, words):
    """The variants with these names, of enums in these files."""
    files = [it for it in files if it.suffix == ".rt"]
    return [Variant(enum, file, word) for word in words for file in files for enum, _ in variants_in(file, word)]


def texts(pattern, apart):
    """The text of each file of the repository that fits one pattern and not the other."""
    listed = subprocess.run(["git", "ls-files", "-co", "--exclude-standard"], cwd=TOP, capture_output=True, text=True, check=True)
    names = [it for it in listed.stdout.splitlines() if re.search(pattern, it) and not apart.search(it) and (TOP / it).is_file()]
    return {TOP / it: (TOP / it).read_text(errors="replace") for it in names}


def names_in(file, text, variant):
    """Whether the file names the variant by its type, outside of imports and comments."""
    enum, word = variant.enum, variant.word
    if word not in text or file.suffix == ".rt":
        return re.search(rf"\b{enum}::{word}\b", text)
    module = str(variant.file.relative_to(CRATES))[:-3].replace("/src/", ".specs.declared.").replace("/", ".")
    brought = rf"Rattle\.{module}\.{enum}\.TheVariants(?:\.\{{[^}}]*\b{word}\b(?: as (\w+))?| as (\w+))"
    found = re.findall(brought, text)
    names = [rf"\b{under}\.{word}\b" if under else rf"(?<![.\w]){alone or word}(?![.\w])" for alone, under in found]
    lines = "\n".join(it for it in text.split("\n") if not re.match(r"(pub |ghost )?use |--", it))
    return re.search("|".join([rf"\b{enum}\.{word}\b", *names]), lines)


def inside():
    """The text of each file of src/ and specs/ that isn't a test."""
    return texts(r"^crates/\w+/(src|specs)/", APART)


def outside():
    """The text of each other file that isn't stored, a page or a test."""
    return texts("", STORED)


def naming(variants, among):
    """The files that name the variants."""
    return {file for file, text in among.items() if any(names_in(file, text, it) for it in variants)}


def with_words(words, among):
    """The files that have one of the words alone."""
    whole = [re.compile(rf"(?<![A-Za-z0-9-]){re.escape(it)}(?![\w-])") for it in words]
    return {file for file, text in among.items() if any(it.search(text) for it in whole)}


def front_end(copy):
    """The call that asks for the errors of all crates but tests, with nothing proved."""
    kit = pathlib.Path(shutil.which("rt")).resolve().parent.parent
    lines = [it.partition(":") for it in (TOP / "crates.txt").read_text().splitlines() if it.strip()]
    uses = {head.split()[0]: deps.split() for head, _, deps in lines if not TESTS.search(head.split()[0])}
    words = ["--crate-name", "probe", "src/lib.rt", "-L", f"dependency={kit}/rlibs", "--only", "", "--jobs", "1"]
    for name in sorted({"core", "std"} | {it for deps in uses.values() for it in deps} - set(uses)):
        words += ["--extern", f"{name}={kit}/rlibs/{name}.rlib"]
    for name, deps in uses.items():
        root = next(it for it in (copy / "crates" / name / "src").iterdir() if it.name in ("lib.rt", "main.rt"))
        words += ["--lib", f"{name}:{','.join(dict.fromkeys(['core', 'std', *deps]))}={root}"]
    words += ["--antt-project", f"{kit}/rattle/logic/antt-project.json", "--logic-built", f"{kit}/logic_built"]
    (copy / "probe" / "src").mkdir(parents=True)
    (copy / "probe" / "src" / "lib.rt").write_text(PROBE)
    return [f"{kit}/bin/rattle", "check", *words]


def joined(line, after, variant):
    """The line with the new variant in a pattern that the neighbour has there; `after` is the next line."""
    name = variant.word in line and re.search(rf"\b{variant.enum}::{variant.word}\b(\([^()]*\)| \{{[^{{}}]*\}})?", line)
    is_arm = name and ("=>" in line or any(re.match(r"\s*\|(?!\|)", it) for it in (line, after)))
    if not is_arm or re.search("=>| if ", line[: name.start()]):
        return line
    return f"{line[: name.end()]} | {name.group(0).replace('::', '::Another')}{line[name.end() :]}"


def add_variants(copy, variants):
    """Puts each new variant beside its neighbour, and into the arms that the neighbour has."""
    for it in variants:
        file = copy / it.file.relative_to(TOP)
        text, found = file.read_text(), next(found for enum, found in variants_in(file, it.word) if enum == it.enum)
        file.write_text(text[: found.end()] + found.group(0).replace(it.word, "Another" + it.word, 1) + text[found.end() :])
    # Two enums of one name, as `Dialect`, have their arms in common.
    named = {(it.enum, it.word): it for it in variants}.values()
    for file in (copy / "crates").rglob("*.rt"):
        lines = file.read_text().split("\n")
        for it in named:
            lines = [joined(line, after, it) for line, after in zip(lines, [*lines[1:], ""])]
        file.write_text("\n".join(lines))


def by_compiler(copy, variants):
    """Each file with a match that lacks an arm, and the neighbours of the variants that it lacks, in a copy that has them all."""
    shutil.copytree(CRATES, copy / "crates", ignore=shutil.ignore_patterns("out", "must-fail", "proofs"))
    add_variants(copy, variants)
    call = front_end(copy)
    while True:
        ran = subprocess.run(call, cwd=copy / "probe", stdout=subprocess.PIPE, stderr=subprocess.STDOUT, text=True)
        error = re.search(r"^(\S+\.rt):(\d+):(\d+): error\[non-exhaustive-match\]: (.*) not covered", ran.stdout, re.M)
        if not error:
            break
        file, patterns = pathlib.Path(error.group(1)), CODE.findall(error.group(4))
        yield TOP / file.relative_to(copy), set(re.findall(r"::Another(\w+)", error.group(4)))
        text = file.read_text()
        before = sum(len(it) + 1 for it in text.split("\n")[: int(error.group(2)) - 1])
        brace = text.index("{", before + int(error.group(3))) + 1
        file.write_text(f"{text[:brace]} {' | '.join(patterns)} => unreachable!(),{text[brace:]}")
    if not re.search(r"\Asrc/lib\.rt:\S+ error\[borrow-e0597\]", ran.stdout):
        sys.exit(f"{sys.argv[0]}: the copy doesn't compile:\n{ran.stdout[-3000:]}")

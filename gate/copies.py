"""A copy of a function in its file, under another name and with a wrong body: nothing calls it, so it is refused for its own body."""
import os
import re
import shutil


def functions_at(source, file, old):
    """The function around a text that stands once in a file."""
    at = source.data.get(file, b"").find(old.encode())
    return [] if at < 0 else [it for it in source.functions if it.file == file and it.first <= at < it.end]


def path_of(function):
    """What `--only` takes for a function: its path, or its module's where a trait's impl has a name of the prover's own."""
    if function.in_trait:
        return "::".join(function.module)
    return "::".join([*([function.owner] if function.block else function.module), function.name])


class Copy:
    """A function once more, under another name, with some texts changed in it."""

    def __init__(self, function, name, pairs=()):
        self.function, self.name, self.pairs = function, name, pairs
        self.path = path_of(function)[: -len(function.name)] + name

    def is_possible(self, source):
        """Whether the function can stand twice: no method of a trait, and none that others of a cycle call."""
        return not self.function.in_trait and not self.function.in_cycle and self.text(source) is not None

    def text(self, source):
        """The copy, or nothing where an old text doesn't stand in it once."""
        data, it = source.data[self.function.file], self.function
        text = (data[it.first : it.named[0]] + self.name.encode() + data[it.named[1] : it.end]).decode()
        for _, old, new in self.pairs:
            if text.count(old) != 1:
                return None
            text = text.replace(old, new)
        return text

    def add_proofs(self, crate, folder):
        """Gives the copy what is written manually of the function's proof."""
        parts = [*self.function.module, *[self.function.owner] * bool(self.function.block)]
        here = "/".join([folder, "proofs", *parts])
        if not os.path.isdir(f"{here}/{self.function.name}"):
            return
        own = re.compile(re.escape(".".join([crate.name, "proofs", *parts, self.function.name])) + r"(?=[.\s])")
        shutil.copytree(f"{here}/{self.function.name}", f"{here}/{self.name}")
        for below, _, files in os.walk(f"{here}/{self.name}"):
            for file in files:
                rewrite(f"{below}/{file}", lambda text: own.sub(".".join([crate.name, "proofs", *parts, self.name]), text))


def rewrite(path, change):
    with open(path, encoding="utf-8") as it:
        text = it.read()
    with open(path, "w", encoding="utf-8") as it:
        it.write(change(text))


def copy_of(source, pairs, name):
    """The copy in which a wrong body is tried, where all of it stands in one function that can have one."""
    places = [functions_at(source, file, old) for file, old, _ in pairs]
    functions = {it for found in places for it in found}
    if not all(places) or len(functions) != 1:
        return None
    function = functions.pop()
    copy = Copy(function, f"{function.name}_{name}", pairs)
    return copy if copy.is_possible(source) else None


def texts_with(source, copies):
    """The files with these copies, each after its function."""
    texts = {}
    for file in {it.function.file for it in copies}:
        data, text, at = source.data[file], "", 0
        for it in sorted((it for it in copies if it.function.file == file), key=lambda it: it.function.end):
            text += data[at : it.function.end].decode() + "\n\n" + it.text(source)
            at = it.function.end
        texts[file] = text + data[at:].decode()
    return texts

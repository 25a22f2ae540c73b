"""Wrong bodies as files: where they are, what they say, and a crate's sources with one of them applied.

A file NAME.edit has a line `file: src/FILE.rt`, then pairs of lines `old: TEXT` and `new: TEXT`. Each old text occurs once in that
file, as the pairs before have left it, and the new text replaces it. `rt must-fail` reads such files too.
"""
import os
import re

TOP = os.path.dirname(os.path.dirname(os.path.abspath(__file__)))
# Where the wrong bodies of a crate lie: those that `rt ci` tries, those that `gate/wrong --promised` tries in each run of the gate,
# those that only gate/wrong tries, and those that no proof refuses.
MUST_FAIL = "crates/{}/must-fail"
PROMISED = "wrong/promised/{}"
ASIDE = "wrong/{}"
BY_THE_GATE = "wrong/by-the-gate/{}"


class NoLongerApplies(Exception):
    """A wrong body that can't be put in its place, and why."""


class Edit:
    """A file with a wrong body of a crate."""

    def __init__(self, crate, path):
        self.crate, self.path, self.label = crate, path, os.path.relpath(path, TOP)
        self.name = os.path.basename(path).removesuffix(".edit")

    def pairs(self):
        """Its file, old and new text, pair after pair."""
        found, file, old = [], None, None
        with open(self.path, encoding="utf-8") as it:
            for line in it.read().split("\n")[:-1]:
                word, _, text = line.partition(":")
                text = text.removeprefix(" ")
                if word == "file" and old is None:
                    file = text.strip()
                elif word == "old" and old is None and file and text:
                    old = text
                elif word == "new" and old is not None:
                    found.append((file, old, text))
                    old = None
                else:
                    raise NoLongerApplies(f"a line that isn't read, or stands in another order: {line[:60]}")
        if old is not None or not found:
            raise NoLongerApplies("it has no pair of lines `old: ` and `new: `, or half of one")
        return found

    def texts(self):
        """The files of the crate that it changes, with the wrong body in its place."""
        texts = {}
        for file, old, new in self.pairs():
            if file not in texts:
                texts[file] = source_text(self.crate, file)
            count = texts[file].count(old)
            if count != 1:
                raise NoLongerApplies(f"its old text stands in {file} {count} times, and not once: {old.strip()[:60]}")
            texts[file] = texts[file].replace(old, new)
        if all(text == source_text(self.crate, file) for file, text in texts.items()):
            raise NoLongerApplies("it changes nothing")
        return texts


def source_text(crate, file):
    path = f"{TOP}/crates/{crate}/{file}"
    if not file.startswith("src/") or not os.path.isfile(path):
        raise NoLongerApplies(f"crates/{crate} has no file {file}, or it isn't below src/")
    with open(path, encoding="utf-8") as it:
        return it.read()


def edits_in(place, crate):
    """The wrong bodies of a crate that lie in one of the places, by name."""
    folder = f"{TOP}/{place.format(crate)}"
    names = sorted(os.listdir(folder)) if os.path.isdir(folder) else []
    return [Edit(crate, f"{folder}/{it}") for it in names if it.endswith(".edit")]


def crate_names():
    """The crates of this repository, as crates.txt lists them."""
    with open(f"{TOP}/crates.txt", encoding="utf-8") as it:
        return re.findall(r"^(\w+)[^:\n]*:", it.read(), re.M)

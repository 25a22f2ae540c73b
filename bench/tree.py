#!/usr/bin/env python3
"""Makes a tree of 19,442 files, 12,155 of them Rust sources, up to sixteen folders deep, with a .gitignore of 379 patterns.

    bench/tree.py FOLDER        the same tree each time, in a new folder
"""
import pathlib
import random
import sys

SOURCES, OTHERS, FOLDERS, DEPTH, PATTERNS = 12155, 7287, 2400, 16, 379
WORDS = "api audio base build cache core crypto date event fmt image index input io layout media net parse query render time view".split()
ENDINGS = [".c", ".h", ".json", ".md", ".py", ".toml", ".txt"]
chosen = random.Random(7)


def word():
    return chosen.choice(WORDS) + chosen.choice(["", f"_{chosen.choice(WORDS)}", str(chosen.randrange(100))])


def name_of(length):
    """A name of so many bytes."""
    name = word()
    while len(name) < length:
        name += f"-{word()}"
    return name[:length]


def pattern():
    length = chosen.choice([5, 8, 12, 20, 40, 80, 120, 200])
    name, short = name_of(length), name_of(min(length, 12))
    forms = ["/" + "/".join(name_of(length // 4 + 2) for _ in range(4)), f"gen-{name}", f"out-{name}/", f"*.{short}", f"old-{name}*"]
    rare = [f"**/gen-{name}/*.o", f"/third/{name}/**", f"*-{short}-*", f"[Tt]mp-{name}[0-9]*", f"!keep-{name}", f"a?{name}?"]
    return chosen.choice(forms if chosen.random() < 0.8 else rare)


def folders_below(top):
    depths = {top: 0}
    while len(depths) < FOLDERS:
        parent = chosen.choice(list(depths)[-400:])
        if depths[parent] < DEPTH:
            depths.setdefault(parent / word(), depths[parent] + 1)
    return list(depths)


def main(top):
    folders = folders_below(top)
    for folder in folders:
        folder.mkdir()
    for number in range(SOURCES + OTHERS):
        ending = ".rs" if number < SOURCES else chosen.choice(ENDINGS)
        (chosen.choice(folders) / f"{word()}_{number}{ending}").write_text(f"pub fn number() -> u32 {{\n    {number}\n}}\n")
    (top / ".gitignore").write_text("".join(f"{pattern()}\n" for _ in range(PATTERNS)))


if __name__ == "__main__":
    if len(sys.argv) != 2:
        sys.exit(__doc__)
    main(pathlib.Path(sys.argv[1]))

#!/usr/bin/env python3
"""Draws the crates of crates.txt, each above all crates that it uses. The picture is crates.svg; docs/proof/ARCHITECTURE.md has the counts.

    docs/pictures/crates.py            writes the file beside this script, and the sentence with the counts
    docs/pictures/crates.py --check    fails if one of them would change

A line leads from a crate to one that it stands on, but for those that it also reaches by another. Each area, the word in front of the
first `_`, has a colour. Dark boxes are programs and the crates that people call; the others are parts that the prover or the gate wants
apart.
"""
import pathlib
import re
import sys

HERE = pathlib.Path(__file__).resolve().parent
TOP = HERE.parent.parent
PEOPLE = set(
    "timefd lint format c web parse items description date_format date_moment lang_convert lift laws test_uses lang_dialect".split()
)
# The colours of each area, of boxes for people and of others; "" are the crates without an area.
AREAS = {
    "": ("#1f5fa8", "#e6eff9"),
    "lang": ("#256b36", "#e3f3e6"),
    "date": ("#7d5200", "#f9efd8"),
    "lint": ("#9c2f2f", "#fae6e6"),
    "c": ("#5f3a94", "#eee7f7"),
    "bin": ("#4a4a4a", "#eeeeee"),
    "test": ("#00606a", "#e0f2f3"),
}
PAGE = TOP / "docs/proof/ARCHITECTURE.md"
PREFIX, WIDE, ROW, HIGH, GAP, CHAR, PAD = "timefd_", 800, 62, 26, 16, 8, 20
STYLE = (
    "rect{fill:#fff;stroke:#333;stroke-width:1.2}.page{stroke:none}line{stroke:#9aa5b1;stroke-width:1.2}"
    "text{font:13px sans-serif;fill:#111;text-anchor:middle}.of{fill:#fff}"
)


def crates():
    """The crates of this repository that each crate uses."""
    found = {}
    for line in (TOP / "crates.txt").read_text().split("\n"):
        head, colon, rest = line.partition(":")
        if colon and not head.startswith("#"):
            found[head.split()[0]] = rest.split()
    return {short(name): [short(it) for it in below if it in found] for name, below in found.items()}


def short(name):
    return name.removeprefix(PREFIX)


def area(name):
    """The area of a crate by its short name."""
    first, under, _ = name.partition("_")
    return first if first in AREAS and (under or first == "c") else ""


def reach(below, name, known):
    """All crates that one uses, directly or not."""
    if name not in known:
        known[name] = set()
        for it in below[name]:
            known[name] |= {it} | reach(below, it, known)
    return known[name]


def lines(below, known):
    """Of the crates that each crate uses, those that it doesn't also use by another one."""
    return {name: [it for it in its if not any(it in known[other] for other in its)] for name, its in below.items()}


def heights(below, known):
    found = {}
    for name in sorted(below, key=lambda it: len(known[it])):
        found[name] = 1 + max((found[it] for it in below[name]), default=-1)
    return found


def rows(below, height):
    """The crates of each height, each roughly above those that it uses and below those that use it."""
    levels = [sorted(it for it in below if height[it] == level) for level in range(max(height.values()) + 1)]
    place = {it: at / len(level) for level in levels for at, it in enumerate(level)}
    above = {it: [up for up in below if it in below[up]] for it in below}
    for turn in range(40):
        for level in levels if turn % 2 else levels[::-1]:
            wanted = {it: [place[near] for near in below[it] + above[it]] for it in level}
            level.sort(key=lambda it: (sum(wanted[it]) / len(wanted[it]) if wanted[it] else place[it], it))
            place.update({it: (at + 0.5) / len(level) for at, it in enumerate(level)})
    return levels


def drawn():
    below = crates()
    known = {}
    for name in below:
        reach(below, name, known)
    straight = lines(below, known)
    levels = rows(straight, heights(below, known))
    size = {it: len(it) * CHAR + PAD for it in below}
    width = max(WIDE, *(sum(size[it] + GAP for it in level) + GAP for level in levels))
    tall = len(levels) * ROW
    at = {}
    for number, level in enumerate(levels):
        room = (width - sum(size[it] for it in level)) / (len(level) + 1)
        x = room
        for it in level:
            at[it] = (x + size[it] / 2, tall - ROW / 2 - number * ROW)
            x += size[it] + room
    out = [
        f'<svg xmlns="http://www.w3.org/2000/svg" viewBox="0 0 {width:.0f} {tall}" width="{width:.0f}" height="{tall}">',
        f"<style>{STYLE}</style>",
        f'<rect class="page" width="{width:.0f}" height="{tall}"/>',
    ]
    for name in sorted(straight):
        for it in straight[name]:
            (x, y), (to_x, to_y) = at[name], at[it]
            out.append(f'<line x1="{x:.0f}" y1="{y + HIGH / 2:.0f}" x2="{to_x:.0f}" y2="{to_y - HIGH / 2:.0f}"/>')
    for name, (x, y) in sorted(at.items()):
        dark, light = AREAS[area(name)]
        fill, words = (dark, "of") if name in PEOPLE else (light, "in")
        place = f'x="{x - size[name] / 2:.0f}" y="{y - HIGH / 2:.0f}" width="{size[name]}" height="{HIGH}" rx="4"'
        out.append(f'<rect style="fill:{fill}" {place}/>')
        out.append(f'<text class="{words}" x="{x:.0f}" y="{y + 5:.0f}">{name}</text>')
    return "\n".join(out + ["</svg>", ""])


def longest(below):
    """How many crates the longest chain has."""
    return max(heights(below, {name: reach(below, name, known) for known in [{}] for name in below}).values()) + 1


def counted():
    """The page with the crates, with its sentence on how many there are."""
    below = crates()
    uses = sum(map(len, below.values()))
    sentence = f"There are {len(below)} crates, {uses} uses of one by another, and at most {longest(below)} in a chain."
    return re.sub(r"There are \d+ crates, .*? in a chain\.", sentence, PAGE.read_text())


def main():
    now = {HERE / "crates.svg": drawn(), PAGE: counted()}
    if "--check" not in sys.argv:
        for file, text in now.items():
            file.write_text(text)
        return 0
    changed = [file.name for file, text in now.items() if not file.exists() or file.read_text() != text]
    for name in changed:
        print(f"docs/pictures/crates.py: {name} would change: call it without --check")
    return bool(changed)


if __name__ == "__main__":
    sys.exit(main())

#!/usr/bin/env python3
"""Draws the grammars of docs/LANGUAGES.md as railroad diagrams: one SVG for each language, and one for components.

    docs/pictures/grammar.py            writes the files beside this script
    docs/pictures/grammar.py --check    fails if a file would change

A grammar is a list of rows: a name and what it stands for, put together from the classes below. A round box holds bytes as
they are written, a square box names what is drawn in another row or said in words.
"""
import pathlib
import sys
from xml.sax.saxutils import escape

HERE = pathlib.Path(__file__).resolve().parent
GAP, ROW, HIGH, CHAR, TURN = 14, 12, 26, 8, 10
STYLE = (
    "rect{fill:#fff;stroke:#333;stroke-width:1.5}.bytes{fill:#e8f1fb}.page{stroke:none}"
    "path{fill:none;stroke:#333;stroke-width:1.5}circle{fill:#333}"
    "text{font:14px monospace;fill:#111;text-anchor:middle}.name{font-weight:bold;text-anchor:start}"
    ".words{font:13px sans-serif}"
)


class Box:
    """Bytes as they are written, or a name."""

    def __init__(self, text, kind):
        self.text, self.kind = text, kind
        self.width = len(text) * CHAR + 20
        self.up = self.down = HIGH // 2

    def draw(self, x, y):
        radius = HIGH // 2 if self.kind == "bytes" else 3
        style = "" if self.kind == "bytes" else ' class="words"'
        return (
            f'<rect class="{self.kind}" x="{x}" y="{y - HIGH // 2}" width="{self.width}" height="{HIGH}" rx="{radius}"/>'
            f'<text{style} x="{x + self.width / 2}" y="{y + 5}">{escape(self.text)}</text>'
        )


def written(text):
    return Box(text, "bytes")


def named(text):
    return Box(text, "named")


class Skip:
    """Nothing."""

    width, up, down = 0, 0, 0

    def draw(self, x, y):
        return ""


class Then:
    """One after another."""

    def __init__(self, *parts):
        self.parts = parts
        self.width = sum(it.width for it in parts) + GAP * (len(parts) - 1)
        self.up, self.down = max(it.up for it in parts), max(it.down for it in parts)

    def draw(self, x, y):
        out = ""
        for at, part in enumerate(self.parts):
            if at:
                out += f'<path d="M{x} {y}h{GAP}"/>'
                x += GAP
            out += part.draw(x, y)
            x += part.width
        return out


class Or:
    """One of several: the first is on the line, and the others are below it."""

    def __init__(self, *parts):
        self.parts = parts
        self.inner = max(it.width for it in parts)
        self.width = self.inner + 4 * TURN
        self.up = parts[0].up
        self.rows, y = [0], 0
        for before, part in zip(parts, parts[1:]):
            y += max(before.down + ROW + part.up, 2 * TURN)
            self.rows.append(y)
        self.down = y + parts[-1].down

    def draw(self, x, y):
        out, end = "", x + self.width
        for part, row in zip(self.parts, self.rows):
            left = x + 2 * TURN
            right = left + part.width
            if row == 0:
                out += f'<path d="M{x} {y}H{left}M{right} {y}H{end}"/>'
            else:
                low = y + row
                out += (
                    f'<path d="M{x} {y}q{TURN} 0 {TURN} {TURN}V{low - TURN}q0 {TURN} {TURN} {TURN}"/>'
                    f'<path d="M{right} {low}H{end - 2 * TURN}q{TURN} 0 {TURN} -{TURN}V{y + TURN}q0 -{TURN} {TURN} -{TURN}"/>'
                )
            out += part.draw(left, y + row)
        return out


class Again:
    """One or more of a part."""

    def __init__(self, part):
        self.part = part
        self.width = part.width + 2 * TURN
        self.up = part.up + ROW
        self.down = part.down

    def draw(self, x, y):
        left, right, top = x + TURN, x + self.width - TURN, y - self.part.up - ROW // 2
        return (
            f'<path d="M{x} {y}H{left}M{right} {y}H{x + self.width}"/>'
            f'<path d="M{right} {y}q{TURN} 0 {TURN} -{TURN}V{top + TURN}q0 -{TURN} -{TURN} -{TURN}H{left}'
            f'q-{TURN} 0 -{TURN} {TURN}V{y - TURN}q0 {TURN} {TURN} {TURN}"/>' + self.part.draw(left, y)
        )


def maybe(part):
    return Or(Skip(), part)


def any_of(*parts):
    """None or more, each one of these."""
    return Or(Skip(), Again(Or(*parts) if len(parts) > 1 else parts[0]))


def picture(rows):
    y, out, width = 10, "", 0
    for name, part in rows:
        y += 20
        out += f'<text class="name" x="10" y="{y}">{escape(name)}</text>'
        y += 14 + part.up
        out += f'<circle cx="16" cy="{y}" r="4"/><path d="M16 {y}H40"/>' + part.draw(40, y)
        end = 40 + part.width
        out += f'<path d="M{end} {y}h24"/><circle cx="{end + 24}" cy="{y}" r="4"/>'
        width = max(width, end + 40, 30 + 9 * len(name))
        y += part.down + 16
    return (
        f'<svg xmlns="http://www.w3.org/2000/svg" width="{width}" height="{y}" viewBox="0 0 {width} {y}">'
        f"<style>{STYLE}</style>" + f'<rect class="page" width="{width}" height="{y}"/>' + out + "</svg>\n"
    )


ESCAPE = Then(written("\\"), Or(written("\\"), written("["), written("]")))
RUN_1, RUN = named("run: bytes but [ ]"), named("run: bytes but [ ] \\")
WHITE, MAYBE_WHITE = Again(named("white byte")), any_of(named("white byte"))

PICTURES = {
    "version-1": [
        ("text", any_of(RUN_1, written("[["), written("]"), named("component"))),
        ("items inside a nested description", any_of(RUN_1, written("[["), named("component"))),
    ],
    "version-2": [
        ("text", any_of(RUN, ESCAPE, written("]"), named("component"))),
        ("items inside a nested description", any_of(RUN, ESCAPE, named("component"))),
    ],
    "version-3": [("text, and items inside a nested description", any_of(RUN, ESCAPE, named("component")))],
    "component": [
        (
            "component",
            Then(
                written("["),
                MAYBE_WHITE,
                named("name"),
                any_of(named("modifier")),
                any_of(named("nested description")),
                MAYBE_WHITE,
                written("]"),
            ),
        ),
        ("modifier", Then(WHITE, named("key: word bytes but :"), written(":"), named("value: word bytes"))),
        ("nested description", Then(MAYBE_WHITE, written("["), named("items"), written("]"))),
    ],
    "strftime": [
        (
            "text",
            any_of(
                named("run: bytes but %"),
                Then(written("%"), maybe(Or(written("_"), written("-"), written("0"))), named("letter")),
            ),
        ),
    ],
}


def main():
    stale = []
    for name, rows in PICTURES.items():
        file, drawn = HERE / f"{name}.svg", picture(rows)
        if "--check" in sys.argv[1:]:
            stale += [file.name] * (not file.exists() or file.read_text() != drawn)
        else:
            file.write_text(drawn)
    if stale:
        print(f"grammar.py: not as drawn: {', '.join(stale)}")
    return 1 if stale else 0


if __name__ == "__main__":
    sys.exit(main())

#!/usr/bin/env python3
"""Draws the two tables of RESULTS.md that have a column `Bytes` as bars: speeds.svg, beside this script.

    bench/picture.py            writes the file
    bench/picture.py --check    fails if the file would change

A bar is the time of a call over a text, over that of its peer over the same text: 1 is as fast as the peer, and less is faster.
"""
import pathlib
import re
import sys
from xml.sax.saxutils import escape

HERE = pathlib.Path(__file__).resolve().parent
UNITS = {"ns": 1.0, "µs": 1000.0}
COLOURS = ("#1f5fa8", "#5b9bd5", "#a9cbe8", "#c9c9c9")
CALLS = ("`timefd_read`", "`parse_borrowed`", "the crate's `parse`", "counted")
LEFT, UNIT, BAR, MOST = 250, 200, 11, 2.5


def tables(page):
    """Each table of the page: the words of its head, and those of its rows."""
    found, rows = [], []
    for line in page.split("\n") + [""]:
        if line.startswith("|"):
            rows.append([it.strip() for it in line.strip("|").split("|")])
        elif rows:
            found.append((rows[0], rows[2:]))
            rows = []
    return found


def nanoseconds(cell):
    number, unit = re.fullmatch(r"([\d.]+) (ns|µs)", cell).groups()
    return float(number) * UNITS[unit]


def group(head, rows, peers):
    """For each row its text, and the time of each call over that of its peer."""
    for row in rows:
        cells = dict(zip(head, row))
        yield cells[head[0]], [nanoseconds(cells[it]) / nanoseconds(cells[peer]) for it, peer in zip(CALLS, peers)]


def draw(title, lines, y):
    out = f'<text class="title" x="10" y="{y}">{escape(title)}</text>'
    x = LEFT
    for call, colour in zip(CALLS, COLOURS):
        out += f'<rect x="{x}" y="{y + 10}" width="12" height="12" fill="{colour}"/>'
        out += f'<text x="{x + 18}" y="{y + 21}">{escape(call.replace("`", ""))}</text>'
        x += 150
    y += 34
    top, bottom, bars = y, y + sum(BAR * len(ratios) + 9 for _, ratios in lines), ""
    for name, ratios in lines:
        bars += f'<text class="row" x="{LEFT - 10}" y="{y + BAR * len(ratios) / 2 + 5}">{escape(name)}</text>'
        for at, ratio in enumerate(ratios):
            width = min(ratio, MOST) * UNIT
            bars += f'<rect x="{LEFT}" y="{y + at * BAR}" width="{width:.1f}" height="{BAR - 1}" fill="{COLOURS[at]}"/>'
            bars += f'<text class="value" x="{LEFT + width + 5:.1f}" y="{y + at * BAR + 9}">{ratio:.2f}</text>'
        y += BAR * len(ratios) + 9
    for mark in range(int(MOST) + 1):
        at = LEFT + mark * UNIT
        style = "peer" if mark == 1 else "grid"
        out += f'<path class="{style}" d="M{at} {top - 4}V{bottom}"/>'
        out += f'<text class="mark" x="{at}" y="{bottom + 14}">{mark}</text>'
    out += bars
    return out, y + 40


def picture(page):
    found = tables(page)
    (first, first_rows), (second, second_rows) = [it for it in found if "Bytes" in it[0]]
    measured = next(rows for _, rows in found if rows and rows[0][0] == "Date")
    collected, counted = "`chrono`, in a `Vec`", "`chrono`, counted"
    when = {row[0]: row[1] for row in measured}
    note = "; ".join(when[it].replace("`", "") for it in ("Date", "Code", "Since") if it in when)
    out = f'<text class="note" x="10" y="20">{escape(note)}</text>'
    bars = list(group(first, first_rows, ["`time`"] * len(CALLS)))
    more, y = draw("Version 1: time over that of time 0.3.9 (1 is as fast, less is faster)", bars, 44)
    out += more
    bars = list(group(second, second_rows, [collected] * (len(CALLS) - 1) + [counted]))
    more, y = draw("Strftime: time over that of chrono 0.4.23, into a Vec, or counted as well", bars, y)
    style = (
        "text{font:13px sans-serif;fill:#111}.title{font-weight:bold}.row{text-anchor:end}.note{font-size:11px;fill:#555}"
        ".mark{text-anchor:middle;font-size:11px}.value{font-size:10px;paint-order:stroke;stroke:#fff;stroke-width:3px}"
        ".grid{stroke:#ddd}.peer{stroke:#c00;stroke-width:1.5}path{fill:none}"
    )
    width = LEFT + int(MOST * UNIT) + 60
    return (
        f'<svg xmlns="http://www.w3.org/2000/svg" width="{width}" height="{y}" viewBox="0 0 {width} {y}"><style>{style}</style>'
        f'<rect width="{width}" height="{y}" fill="#fff"/>{out}{more}</svg>\n'
    )


def main():
    drawn, file = picture((HERE / "RESULTS.md").read_text()), HERE / "speeds.svg"
    if "--check" in sys.argv[1:]:
        if not file.exists() or file.read_text() != drawn:
            print("picture.py: speeds.svg is not what RESULTS.md says")
            return 1
        return 0
    file.write_text(drawn)
    return 0


if __name__ == "__main__":
    sys.exit(main())

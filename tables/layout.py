"""How lines are broken: as `rt fmt` breaks Rattle code, as `rustfmt` breaks Rust, as specifications are broken."""
import re

WIDTH = 100
# How much brackets may have inside if they are on one line, and the longest line below a name.
SHORT = 60
BELOW = 72


def split(inside):
    """What is between the brackets of a call, cut at its own commas."""
    parts, depth = [""], 0
    for letter in inside:
        depth += (letter in "([{") - (letter in ")]}")
        if letter == "," and not depth:
            parts.append("")
        else:
            parts[-1] += letter
    return [part.strip() for part in parts]


def openings(value):
    """Where a value may be broken, from outside to inside: what is before, inside and after the brackets."""
    before, after = "", ""
    while found := re.fullmatch(r"([^\s(\[]*[(\[])(.*)([)\]]+)", value, re.S):
        before, parts, after = before + found[1], split(found[2]), found[3] + after
        yield before, parts, after
        if len(parts) > 1:
            break
        value = parts[0]


def arm(indent, pattern, value):
    """An arm of a match of Rattle: in one line, or broken at its innermost brackets that may be, or the value below."""
    begin, found = " " * indent, list(openings(value))
    line = f"{begin}{pattern} => {value},"
    if len(line) <= WIDTH and not (found and len(", ".join(found[-1][1])) > SHORT):
        return [line]
    for before, parts, after in reversed(found):
        first = f"{begin}{pattern} => {before}"
        if len(first) <= WIDTH:
            return [first, *(f"{begin}    {part}," for part in parts), f"{begin}{after},"]
    return [f"{begin}{pattern} =>", f"{begin}    {value},"]


def arm_of_rust(indent, pattern, value):
    """An arm of a match of Rust: in one line, or the value in a block, or each of its fields in a line."""
    begin = " " * indent
    line = f"{begin}{pattern} => {value},"
    if len(line) <= WIDTH:
        return [line]
    if len(f"{begin}    {value}") <= WIDTH:
        return [f"{begin}{pattern} => {{", f"{begin}    {value}", f"{begin}}}"]
    before, fields = value.removesuffix(" }").split(" { ", 1)
    return [f"{begin}{pattern} => {before} {{", *(f"{begin}    {it}," for it in split(fields)), f"{begin}}},"]


def arm_of_many(indent, patterns, value, is_rust=False):
    """An arm of several patterns: in one line, or the value in a block or (of Rattle) below, or each pattern in a line."""
    if len(patterns) == 1:
        return arm(indent, patterns[0], value)
    begin, all_of_them = " " * indent, " | ".join(patterns)
    if len(f"{begin}{all_of_them} => {value},") <= WIDTH:
        return [f"{begin}{all_of_them} => {value},"]
    if len(f"{begin}{all_of_them} => {{") <= WIDTH:
        return [f"{begin}{all_of_them} => {{", f"{begin}    {value}", f"{begin}}}"]
    if not is_rust and len(f"{begin}{all_of_them} =>") <= WIDTH:
        return [f"{begin}{all_of_them} =>", f"{begin}    {value},"]
    first, *more = patterns
    *between, last = arm(indent, f"| {more.pop()}", value)
    return [begin + first, *(f"{begin}| {it}" for it in more), *between, last]


def statement(path, names):
    """An import of Rattle: in one line, or the names in one, or in several, which are shorter by one."""
    if len(names) == 1:
        return [f"{path}::{names[0]};"]
    line, inside = f"{path}::{{{', '.join(names)}}};", f"    {', '.join(names)},"
    if len(line) <= WIDTH - 2:
        return [line]
    inner = [inside] if len(inside) <= WIDTH else filled("   ", [f"{it}," for it in names], 4, WIDTH - 1)
    return [f"{path}::{{", *inner, "};"]


def filled(first, parts, indent, width=WIDTH):
    """As many parts in each line as it has room for, the first ones after these words."""
    lines = [first]
    for part in parts:
        if len(lines[-1]) + 1 + len(part) > width:
            lines.append(" " * (indent - 1))
        lines[-1] += " " + part
    return lines


def equation(left, right, width=WIDTH):
    """A line of a definition, or two."""
    line = f"{left} = {right}"
    return [line] if len(line) <= width else [f"{left} =", f"    {right}"]


def broken(left, parts):
    """A row: in one line, or all below, or if that is too long, as much in each line as it has room for."""
    line = f"{left} {' '.join(parts)}"
    if len(line) <= WIDTH:
        return [line]
    below = f"    {' '.join(parts)}"
    return [left, below] if len(below) <= BELOW else filled(left, parts, 4)

// What mends a text with a fault.

import { ANY } from "./moment.mjs";
import { cutter } from "./places.mjs";

// Texts that may mend the fault, with what is done.
function changes(kind, text, fault) {
    const { cut, length } = cutter(text);
    const [before, at, after] = [cut(0, fault.start), cut(fault.start, fault.end), cut(fault.end, length)];
    const found = [];
    if (fault.nearest !== "") found.push([`Change to ${fault.nearest}`, before + fault.nearest + after]);
    if (kind === 4) {
        found.push(["Write a percent sign", `${before.replace(/%$/, "")}%%${after}`]);
        found.push(["Leave it out", before.replace(/%[^%]?$/, "") + after]);
        return found;
    }
    const escape = kind === 1 ? "[" : "\\";
    const opened = (before + at).lastIndexOf("[");
    const closed = (at + after).indexOf("]");
    const word = /^[^\s\]]*/.exec(at + after)[0] || at;
    found.push(["Close the bracket", `${text}]`]);
    found.push(["Escape the bracket", `${before}${escape}${at}${after}`]);
    if (opened >= 0) found.push(["Escape the bracket", text.slice(0, opened) + escape + text.slice(opened)]);
    found.push([`Leave out ${word}`, before.replace(/\s+$/, "") + (at + after).slice(word.length)]);
    if (opened >= 0 && closed >= 0) found.push(["Leave out the bracket", text.slice(0, opened) + text.slice(before.length + closed + 1)]);
    found.push(["Write a backslash", `${before.replace(/\\$/, "")}\\\\${at === "\\" ? "" : at}${after}`]);
    return found;
}

// Those of them that mend the text; or else those after which its fault is further on.
export function mends(report, kind, text, fault) {
    const tried = new Map();
    for (const [words, changed] of changes(kind, text, fault)) {
        if (changed === text || tried.has(changed)) continue;
        const { said } = report(kind, ANY, changed);
        if (said !== null) tried.set(changed, { words, changed, whole: said.accepted, further: !said.accepted && said.start > fault.end });
    }
    const all = [...tried.values()];
    const whole = all.filter((it) => it.whole);
    return (whole.length > 0 ? whole : all.filter((it) => it.further)).slice(0, 3);
}

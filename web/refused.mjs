// What the page shows of a refused text: its bytes at fault, what helps, and buttons that mend it.

import { by, button, made } from "./dom.mjs";
import { mends } from "./mend.mjs";
import { cutter } from "./places.mjs";

// `open` opens a mended text.
export function showFault(timefd, kind, text, fault, open) {
    const { cut, length } = cutter(text);
    const excerpt = made("div", undefined, "text");
    const from = cut(0, fault.start).slice(-60);
    excerpt.append(from, made("mark", fault.end > fault.start ? cut(fault.start, fault.end) : "\u00a0"), cut(fault.end, length).slice(0, 60));
    const where = fault.end > fault.start ? `bytes ${fault.start} to ${fault.end}` : `byte ${fault.start}`;
    const buttons = made("div", undefined, "mends");
    for (const { words, changed, whole } of mends(timefd.report, kind, text, fault)) {
        buttons.append(button(words, () => open(kind, changed), whole && buttons.childElementCount === 0 ? "whole" : "partly"));
    }
    by("fault").replaceChildren(excerpt, made("p", fault.help, "help"), made("p", `${where}, ${fault.code}`, "where"), buttons);
}

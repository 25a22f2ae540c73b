// What the page shows of an accepted text: what it writes, its parts, and later versions of it.

import { by, button, copied, made, seen } from "./dom.mjs";
import { cutter } from "./places.mjs";
import { segments } from "./tree.mjs";

// The most parts that are shown.
export const MOST_PARTS = 300;

export function showOutput(said, at, writes, names) {
    const output = by("output");
    output.className = "";
    if (at === null || said === null) {
        output.className = "none";
        output.textContent = said === null ? "Nothing: there is no such description." : "The fields below hold no moment.";
    } else if (said.written === null) {
        output.className = "none";
        output.textContent = "Nothing: a component can't show this moment.";
    } else {
        const tops = said.nodes.slice(0, MOST_PARTS).flatMap((node, place) => (node.depth === 0 ? [place] : []));
        const parts = said.nodes.length > MOST_PARTS ? [] : tops.flatMap((place) => segments(said.nodes, writes, place));
        if (parts.map((part) => part.text).join("") !== said.written) output.textContent = said.written;
        else output.replaceChildren(...parts.map(({ text, place }) => inked(text, names[place], place)));
    }
}

export function inked(text, name, place) {
    const it = made("b", text, name);
    it.dataset.place = place;
    return it;
}

export function showRows(text, said, writes, names) {
    const { cut } = cutter(text);
    let letter = 0;
    const rows = said.nodes.slice(0, MOST_PARTS).map((node, place) => {
        const row = document.createElement("tr");
        const isMember = node.start === node.end;
        if (!isMember) letter = place;
        const piece = isMember ? made("span", "") : button(seen(cut(node.start, node.end)), () => selectBytes(text, node), `text ${names[place]}`);
        if (!isMember) piece.setAttribute("aria-label", `Select ${cut(node.start, node.end)}`);
        const [head, set] = node.words.split(/(?=, by default$|, set: )/);
        const meaning = made("td", head, "meaning");
        if (set) meaning.append(made("span", set.slice(2), "set"));
        const shown = isMember ? writes(node, said.nodes[letter], place - letter - 1) : writes(node);
        row.append(made("td", undefined, "piece"), meaning, made("td", seen(shown), "writes"), made("td", node.bytes, "number bytes"));
        row.append(made("td", isMember ? "" : `${node.start} to ${node.end}`, "number at"));
        row.cells[0].style.paddingLeft = `${Math.min(node.depth, 12) * 0.9}rem`;
        row.cells[0].append(piece);
        row.onmouseenter = () => near(place);
        row.onmouseleave = () => near(-1);
        return row;
    });
    by("rows").replaceChildren(...rows);
    const left = said.nodes.length - rows.length;
    by("sum").textContent = `Reserves ${said.bytes} byte${said.bytes === 1 ? "" : "s"} in all.${left > 0 ? ` ${left} more parts are not shown.` : ""}`;
}

// Marks the part at a position in the field and in what is written.
function near(place) {
    document.querySelectorAll("[data-place]").forEach((it) => it.classList.toggle("near", Number(it.dataset.place) === place));
}

function selectBytes(text, node) {
    const { cut } = cutter(text);
    const start = cut(0, node.start).length;
    by("text").focus();
    by("text").setSelectionRange(start, start + cut(node.start, node.end).length);
}

// The description as later versions write it. `open` opens one.
export function showLater(kind, text, said, open) {
    const all = [];
    const opened = (to, other) => button(to === kind ? "Use it" : `Open as version ${to}`, () => open(to, other));
    if (said.version_2 !== null) all.push(copied("Version 2", said.version_2, opened(2, said.version_2)));
    if (kind !== 3) all.push(copied("Version 3", said.version_3, opened(3, said.version_3)));
    else if (said.version_3 !== text) all.push(copied("Normal form", said.version_3, opened(3, said.version_3)));
    else all.push(made("p", "This is version 3, the latest, in its normal form."));
    by("versions").replaceChildren(...all);
}

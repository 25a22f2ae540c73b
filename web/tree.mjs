// The parts of an accepted text.

import { cutter } from "./places.mjs";

// The colour of each node: one for each component in turn.
export function colours(nodes) {
    let next = 0;
    return nodes.map((node) => (node.kind === "component" || node.kind === "several" ? `c${next++ % 6}` : "lit"));
}

// What a part of the text writes by itself, and what the members of a composite letter do: these have no text of their own, but the
// letter's text of version 3 has one for each.
export function writer(report, kind, text, at) {
    const { cut } = cutter(text);
    const known = new Map();
    const written = (language, part) => {
        const key = `${language}:${part}`;
        if (!known.has(key)) known.set(key, report(language, at, part).said?.written ?? "");
        return known.get(key);
    };
    const memberOf = (letter, which) => {
        const { said } = report(4, at, letter);
        const later = report(3, at, said.version_3).said;
        const node = later.nodes[which];
        return later.nodes.length !== said.nodes.length - 1 ? "" : node.kind === "literal" ? node.example : written(3, cutter(said.version_3).cut(node.start, node.end));
    };
    return (node, letter, which) => {
        if (letter !== undefined) return memberOf(cut(letter.start, letter.end), which);
        if (node.kind === "literal") return node.example;
        return node.kind === "description" ? written(3, cut(node.start + 1, node.end - 1)) : written(node.depth > 0 ? 3 : kind, cut(node.start, node.end));
    };
}

// The positions of the nodes that are directly in the node at a position.
function members(nodes, place) {
    const found = [];
    for (let next = place + 1; next < nodes.length && nodes[next].depth > nodes[place].depth; next += 1) {
        if (nodes[next].depth === nodes[place].depth + 1) found.push(next);
    }
    return found;
}

// What is written of a node, cut into the parts that are coloured.
export function segments(nodes, writes, place) {
    const text = writes(nodes[place]);
    const inner = nodes[place].kind === "several" ? [] : members(nodes, place);
    for (const some of [inner, inner.slice(0, 1)]) {
        const parts = some.flatMap((next) => segments(nodes, writes, next));
        if (parts.length > 0 && parts.map((part) => part.text).join("") === text) return parts;
    }
    return [{ text, place }];
}

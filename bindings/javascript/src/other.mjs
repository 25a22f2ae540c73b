// Formats of other languages, and the descriptions that texts may be written by.

import { ConversionError, FormatError, spanOf } from "./errors.mjs";
import { convert, formatOf, guessed, report } from "./library.mjs";
import { EPOCH } from "./moment.mjs";
import { cutter } from "./places.mjs";
import { wellFormed } from "./texts.mjs";
import { swapped } from "./timefd.mjs";

const NAMES = ["python", "c", "gnu", "chrono", "jiff", "ruby", "java", "go", "moment"];
const VERSION_3 = 3;

export function convertFormat(language, text) {
    const said = convert(known(language), wellFormed(text, "the format"));
    const traps = said.traps.map(({ trap, message, help, ...bytes }) => ({ trap, message, help, span: spanOf(text, bytes), bytes }));
    if (!said.converted) throw new ConversionError(text, language, { ...said, traps });
    return { text: said.version_3, firstYear: said.first_year, wholeMinutes: said.whole_minutes, traps };
}

export function formatFor(language, description) {
    const name = known(language);
    const { nodes, version_3 } = accepted(wellFormed(description, "the description"));
    const first = formatOf(name, description);
    const plain = withoutRanges(version_3);
    const said = first.converted ? first : formatOf(name, plain);
    if (said.converted) return { text: said.format, firstYear: said.first_year, wholeMinutes: said.whole_minutes };
    throw new ConversionError(description, language, { message: said.message, ...lacking(description, nodes, plain, said.start) });
}

export function guess(texts) {
    if (!Array.isArray(texts) || texts.length === 0) throw new TypeError("the texts are no array of at least one text");
    const said = guessed(texts.map((text) => `${oneLine(text)}\n`).join(""));
    return said.guesses.map(({ description, undecided }) => ({ description, undecided, warning: swapped(undecided, said.texts) }));
}

function known(language) {
    if (!NAMES.includes(language)) throw new TypeError(`language is ${String(language)}: take one of ${NAMES.join(", ")}`);
    return language;
}

function oneLine(text) {
    if (/[\n\r]/.test(wellFormed(text, "a text"))) throw new TypeError("a text has a line break: give each line by itself");
    return text;
}

function accepted(description) {
    const said = report(VERSION_3, EPOCH, description);
    if (!said.accepted) throw new FormatError(description, said);
    return said;
}

const outer = (nodes) => nodes.filter((node) => node.depth === 0);
const brackets = (nodes) => outer(nodes).filter((node) => node.kind !== "literal");

// A normal form as the tables of other languages have it: they have years without a range.
function withoutRanges(normal) {
    const { cut } = cutter(normal);
    const parts = outer(accepted(normal).nodes).map(({ kind, start, end }) => [kind, cut(start, end)]);
    return parts.map(([kind, part]) => (kind === "component" ? part.replace(" range:standard", "") : part)).join("");
}

// The component that the language lacks, as it is in the description: the one at the same position as in the text that was tried.
function lacking(description, nodes, plain, start) {
    if (start === undefined) return {};
    const index = brackets(accepted(plain).nodes).findIndex((node) => node.start === start);
    const node = brackets(nodes)[index];
    return { component: cutter(description).cut(node.start, node.end), start: node.start };
}

// What a text shows that is read by the description, or why it doesn't read.

import { by, made } from "./dom.mjs";
import { cutter } from "./places.mjs";

// What the text in the field below shows by the description.
export function showReading(timefd, kind, description) {
    const text = by("shown").value;
    const { status, said } = text === "" ? {} : timefd.read(kind, description, text);
    by("shown").setAttribute("aria-invalid", String(text !== "" && !said?.read));
    if (text === "") {
        by("reading").replaceChildren(made("p", "Type what it might write, and see the moment that it reads.", "none"));
    } else if (said === null) {
        by("reading").replaceChildren(made("p", `Nothing: ${status}.`, "none"));
    } else if (said.read) {
        by("reading").replaceChildren(made("output", said.moment === "" ? "It reads, and shows no moment." : said.moment));
    } else {
        by("reading").replaceChildren(...unread(text, said));
    }
}

// The text with the byte at which it doesn't read, and why. Where all was read there is no such byte.
function unread(text, said) {
    const words = made("p", `${said.message}${said.start === undefined ? "" : `, at byte ${said.start}`}`, "why");
    if (said.start === undefined) return [words];
    const { cut, length } = cutter(text);
    const after = cut(said.start, length);
    const first = String.fromCodePoint(...[after.codePointAt(0)].filter((it) => it !== undefined));
    const excerpt = made("div", undefined, "text");
    excerpt.append(cut(0, said.start).slice(-60), made("mark", first === "" ? "\u00a0" : first), after.slice(first.length, first.length + 60));
    return [excerpt, words];
}

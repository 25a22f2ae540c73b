// A format of any language: which languages read it, and what each writes by it. And dates, whose description is looked for.

import { by, button, copied, made } from "./dom.mjs";
import { LANGUAGES, OTHERS } from "./examples.mjs";
import { cutter } from "./places.mjs";
import { ANY } from "./moment.mjs";
import { swapped } from "./timefd.mjs";

const counted = (count, one, several) => `${count} ${count === 1 ? one : several}`;

// What a language of `time` makes of a text.
function own(timefd, kind, text) {
    const { status, said } = timefd.report(kind, ANY, text);
    if (said === null) return { why: status };
    if (!said.accepted) return { why: said.message };
    return { description: kind === 3 ? text : said.version_3, notes: [] };
}

// What another language makes of a text.
function other(timefd, name, text) {
    const { status, said } = timefd.convert(name, text);
    if (said === null) return { why: status };
    const { cut } = cutter(text);
    const traps = said.traps.map(({ start, end, message, help }) => `${cut(start, end)}: ${message}. ${help}`);
    if (!said.converted) return { why: [`at byte ${said.start}: ${said.message}. ${said.help}`, ...traps].join(" ") };
    return { description: said.version_3, notes: [...limits(said), ...traps] };
}

// Of which moments a description writes the same as the format, where it isn't so of all.
function limits({ first_year, whole_minutes }) {
    const words = [first_year > 0 ? `from the year ${first_year} on` : "", whole_minutes ? "of offsets of whole minutes" : ""].filter((it) => it !== "");
    return words.length > 0 ? [`It writes the same ${words.join(", ")}.`] : [];
}

// What each language makes of a text: its description in version 3, what that writes of a moment, and what is to be known of it; or
// why the language doesn't read it.
function readings(timefd, at, text) {
    const all = [
        ...Object.entries(LANGUAGES).map(([kind, name]) => ({ name, ...own(timefd, Number(kind), text) })),
        ...Object.entries(OTHERS).map(([key, name]) => ({ name, ...other(timefd, key, text) })),
    ];
    return all.map((it) => (it.why === undefined ? { ...it, ...writing(timefd, at, it.description) } : it));
}

function writing(timefd, at, description) {
    const { said } = timefd.report(3, at ?? ANY, description);
    const isText = said !== null && said.nodes.every((node) => node.kind === "literal");
    if (at === null) return { isText, writes: "The fields below hold no moment." };
    return { isText, writes: said === null || said.written === null ? "It can't write this moment." : `It writes ${said.written}` };
}

// Readings that are alike, with the names of their languages.
function grouped(all) {
    const groups = new Map();
    for (const it of all) {
        const key = JSON.stringify([it.description, it.notes]);
        groups.set(key, { ...it, names: [...(groups.get(key)?.names ?? []), it.name] });
    }
    return [...groups.values()];
}

// Shows what each language makes of the text in the field. `take` takes a description of version 3 over.
export function showReaders(timefd, at, take) {
    const text = by("any").value;
    const all = text === "" ? [] : readings(timefd, at, text);
    const [refused, read] = [all.filter((it) => it.why !== undefined), all.filter((it) => it.why === undefined)];
    const parts = read.filter((it) => !it.isText);
    by("readers").textContent = text === "" ? "Python, C, GNU date, chrono, jiff, Ruby, Java, Go, moment.js, strftime or Rust's time." : sumOf(parts);
    by("read").replaceChildren(
        ...grouped(parts).map((it) => described(it.names.join(", "), it.description, [it.writes, ...it.notes], take)),
        ...folded("It has no component in", read.filter((it) => it.isText), (it) => it.name),
        ...folded("It isn't read by", refused, (it) => `${it.name}: ${it.why}`),
    );
}

const sumOf = (parts) => (parts.length === 0 ? "No language reads a date in it." : `${counted(parts.length, "language reads", "languages read")} it.`);

// A description with what is to be known of it, and a button that takes it over.
function described(title, description, notes, take) {
    const use = button("Use it", () => take(description));
    use.setAttribute("aria-label", `Use ${description}`);
    const it = copied(title, description, use);
    it.append(...notes.map((note) => made("p", note)));
    return it;
}

// A list that is opened by a click, where it holds anything.
function folded(title, all, words) {
    if (all.length === 0) return [];
    const [it, list] = [made("details"), made("ul")];
    list.append(...all.map((one) => made("li", words(one))));
    it.append(made("summary", `${title} ${counted(all.length, "language", "languages")}`), list);
    return [it];
}

// Shows the descriptions that the dates in the field may be written by.
export function showGuesses(timefd, take) {
    const lines = by("dates").value.split("\n").filter((line) => line !== "");
    const { status, said } = lines.length === 0 ? {} : timefd.guess(lines.map((line) => `${line}\n`).join(""));
    const found = said?.guesses ?? [];
    by("guessed").textContent = guessSum(lines, status, found);
    by("guesses").replaceChildren(
        ...found.map(({ description, undecided }, index) => {
            const warning = swapped(undecided, said.texts);
            return described(index === 0 ? "Likeliest" : "Or", description, warning === null ? [] : [`${warning[0].toUpperCase()}${warning.slice(1)}.`], take);
        }),
    );
}

function guessSum(lines, status, found) {
    if (lines.length === 0) return "Type some that one description has to read, such as 2026-11-23.";
    if (status !== "reported") return `Nothing: ${status}.`;
    return found.length === 0 ? "No description that is known reads all of them." : `${counted(found.length, "description reads", "descriptions read")} all of them.`;
}

import { load } from "./timefd.mjs";
import { MOST_PARTS, inked, showLater, showOutput, showRows } from "./accepted.mjs";
import { by, button, copied, copyText, made, seen } from "./dom.mjs";
import { EXAMPLES, LANGUAGES, LETTERS, PARTS } from "./examples.mjs";
import { codeLines } from "./lines.mjs";
import { ANY, moment, setMoment } from "./moment.mjs";
import { showGuesses, showReaders } from "./other.mjs";
import { cutter } from "./places.mjs";
import { showReading } from "./reading.mjs";
import { showFault } from "./refused.mjs";
import { colours, writer } from "./tree.mjs";

// How long a text may be to be read at each key. A longer one is read a little later.
const LONG = 20000;
const DELAY = 200;

const language = () => Number(document.querySelector("input[name=kind]:checked").value);
let timefd;

// The field

function ink(text, said, names) {
    const parts = [];
    const { cut, length } = cutter(text);
    let done = 0;
    const push = (start, end, make) => {
        if (start < done) return;
        parts.push(document.createTextNode(cut(done, start)), make(cut(start, end)));
        done = end;
    };
    if (said !== null && said.accepted) {
        said.nodes.slice(0, MOST_PARTS).forEach((node, place) => {
            if (node.end > node.start && ["component", "several", "literal"].includes(node.kind)) push(node.start, node.end, (it) => inked(it, names[place], place));
        });
    } else if (said !== null) {
        push(said.start, said.end, (it) => made("mark", it === "" ? "\u200b" : it));
    }
    parts.push(document.createTextNode(`${cut(done, length)}\n`));
    by("ink").replaceChildren(...parts);
    by("ink").scrollTop = by("text").scrollTop;
}

function verdict(name, word, words) {
    by("verdict").className = name;
    by("verdict").replaceChildren(made("span", word, "word"), made("span", words));
    document.querySelector(".field").className = `field ${name}`;
}

function answer() {
    const [kind, text, at] = [language(), by("text").value, moment()];
    history.replaceState(null, "", `#${kind}:${encodeURIComponent(text)}`);
    const began = performance.now();
    const { status, said } = timefd.report(kind, at ?? ANY, text);
    const took = performance.now() - began;
    const accepted = said !== null && said.accepted;
    const names = accepted ? colours(said.nodes) : [];
    ink(text, said, names);
    showReference(kind, at ?? ANY);
    showReaders(timefd, at, take);
    ["written", "back", "parts", "later", "code"].forEach((id) => (by(id).hidden = !accepted));
    by("fault").hidden = said === null || accepted;
    by("took").textContent = `${new TextEncoder().encode(text).length} bytes read in ${took.toFixed(1)} ms, with ${Math.round(timefd.memory() / 1024)} KiB of memory.`;
    if (said === null) {
        verdict("failed", status === "out of memory" ? "Out of memory" : "Failed", status === "out of memory" ? "The browser gives no more memory for this text." : status);
    } else if (!accepted) {
        verdict("refused", "Refused", `${said.message}, in ${LANGUAGES[kind]}`);
        showFault(timefd, kind, text, said, openText);
    } else {
        verdict("accepted", "Accepted", `in ${LANGUAGES[kind]}; writes at most ${said.bytes} byte${said.bytes === 1 ? "" : "s"}`);
        const writes = writer(timefd.report, kind, text, at ?? ANY);
        showOutput(said, at, writes, names);
        showReading(timefd, kind, text);
        showRows(text, said, writes, names);
        showLater(kind, text, said, openText);
        by("lines").replaceChildren(...codeLines(kind, text, at ?? ANY).map(([title, lines]) => copied(title, lines)));
    }
}

let waiting;
function answerSoon() {
    clearTimeout(waiting);
    if (by("text").value.length < LONG) answer();
    else waiting = setTimeout(answer, DELAY);
}

function show(kind, text, focuses) {
    document.querySelector(`input[name=kind][value="${kind}"]`).checked = true;
    const field = by("text");
    if (focuses) {
        field.focus();
        field.select();
        put(text);
    } else {
        field.value = text;
    }
    answer();
}

// Takes a description over into the field.
const openText = (kind, text) => show(kind, text, true);
const take = (text) => openText(3, text);

// Puts a text in place of what is selected in the field, so that the browser's "undo" takes it back.
function put(text) {
    const done = text === "" ? document.execCommand("delete") : document.execCommand("insertText", false, text);
    if (!done) by("text").setRangeText(text, by("text").selectionStart, by("text").selectionEnd, "end");
}

// The parts that may be put into the field: those that the language accepts, with what they write.
let listed = "";
function showReference(kind, at) {
    const key = `${kind} ${JSON.stringify(at)}`;
    if (key === listed) return;
    listed = key;
    const all = (kind === 4 ? LETTERS.split(" ") : PARTS).flatMap((part) => {
        const { said } = timefd.report(kind, at, part);
        if (said === null || !said.accepted) return [];
        const it = button(part, () => (by("text").focus(), put(part), answer()));
        it.append(made("span", seen(said.written ?? "")));
        return [it];
    });
    by("reference").replaceChildren(...all);
}

// The link holds language and text.
function asked() {
    const found = /^#([1-4]):(.*)$/s.exec(location.hash);
    try {
        if (found) return show(Number(found[1]), decodeURIComponent(found[2]), false);
    } catch {
        // The link is cut off, or somebody made it up.
    }
    answer();
}

function listen() {
    setMoment(new Date());
    by("examples").append(...EXAMPLES.map(([name, kind, text]) => button(name, () => show(kind, text, true))));
    document.querySelectorAll("#kinds input").forEach((it) => it.addEventListener("input", answer));
    by("text").addEventListener("input", answerSoon);
    by("text").addEventListener("scroll", () => (by("ink").scrollTop = by("text").scrollTop));
    by("any").addEventListener("input", () => showReaders(timefd, moment(), take));
    by("dates").addEventListener("input", () => showGuesses(timefd, take));
    by("shown").addEventListener("input", () => showReading(timefd, language(), by("text").value));
    by("moment").addEventListener("input", answer);
    by("moment").addEventListener("submit", (event) => event.preventDefault());
    by("now").onclick = () => (setMoment(new Date()), answer());
    by("link").onclick = () => copyText(by("link"), location.href);
    addEventListener("hashchange", asked);
    showGuesses(timefd, take);
}

try {
    timefd = await load(Uint8Array.from(atob("/*MODULE*/"), (c) => c.charCodeAt(0)));
    listen();
    asked();
    document.documentElement.dataset.ready = "yes";
} catch (error) {
    verdict("failed", "Failed", error instanceof WebAssembly.CompileError ? "This browser is too old for the page's WebAssembly: take Chromium 91, Firefox 89, Safari 16.4, or a later one." : String(error));
}

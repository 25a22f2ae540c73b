// Asks the module of WebAssembly the rows of the page's library, as gate/web-rows asks that library in C.

const FIELD = /b?"((?:[^"\\]|\\.)*)"(?:\*(\d+))?|-?\d+/gy;
const ESCAPES = new Map([["\\", 0x5c], ['"', 0x22], ["n", 0x0a], ["r", 0x0d], ["t", 0x09], ["0", 0]]);
const STATUSES = ["reported", "not UTF-8", "out of memory", "no language", "out of range"];

// Each row with what the module answers and what it has to.
export function moduleRows(calls, questions, answers) {
    const wanted = answers.split("\n");
    return questions.split("\n").flatMap((line, at) => {
        if (line === "" || line.startsWith("#")) return [];
        const [name, ...fields] = fieldsOf(line);
        return [{ name: line.slice(0, 80), wanted: wanted[at], got: () => answered(calls, name, fields) }];
    });
}

function answered(calls, name, fields) {
    const [language, text, ...others] = fields;
    switch (name) {
        case "report":
            return objectOrStatus(calls.report(language, momentOf(others), text));
        case "length":
            return lengthOf(calls.report(language, momentOf(others), text));
        case "read":
            return objectOrStatus(calls.read(language, text, others[0]));
        case "convert":
            return objectOrStatus(calls.convert(...fields));
        case "format_for":
            return objectOrStatus(calls.formatFor(...fields));
        case "guess":
            return objectOrStatus(calls.guess(...fields));
        default:
            throw new Error(`no call ${name}`);
    }
}

const objectOrStatus = ({ status, json }) => json ?? `status ${STATUSES.indexOf(status)} value 0`;
const lengthOf = ({ status, json }) => `status ${STATUSES.indexOf(status)} value ${new TextEncoder().encode(json).length}`;

function momentOf([year, nanosecond, offsetSeconds, month, day, hour, minute, second]) {
    return { year, nanosecond, offsetSeconds, month, day, hour, minute, second };
}

// A call's name, and its numbers and bytes.
function fieldsOf(line) {
    const space = line.indexOf(" ");
    const fields = [line.slice(0, space)];
    FIELD.lastIndex = space + 1;
    while (FIELD.lastIndex < line.length) {
        const found = FIELD.exec(line);
        if (found === null) throw new Error(`not understood: ${line}`);
        fields.push(found[1] === undefined ? Number(found[0]) : bytesOf(found[1], Number(found[2] ?? 1)));
        FIELD.lastIndex += 1;
    }
    return fields;
}

// The bytes of a literal without its quotes, so many times.
function bytesOf(literal, count) {
    const parts = literal.match(/\\x[\da-f]{2}|\\.|[^\\]+/gsu) ?? [];
    const once = parts.flatMap((part) => (part.startsWith("\\") ? [escaped(part.slice(1))] : [...new TextEncoder().encode(part)]));
    const all = new Uint8Array(once.length * count);
    for (let at = 0; at < all.length; at += once.length) all.set(once, at);
    return all;
}

function escaped(letters) {
    if (letters.startsWith("x")) return parseInt(letters.slice(1), 16);
    if (!ESCAPES.has(letters)) throw new Error(`no escape \\${letters}`);
    return ESCAPES.get(letters);
}

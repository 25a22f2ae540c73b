// Calls the readers in a WebAssembly module.

const STATUSES = ["reported", "not UTF-8", "out of memory", "no language", "out of range"];

// The sizes of what is handed over, and how much room a report gets at first.
const MOMENT = 20;
const ANSWER = 16;
const ROOM = 16384;

// Gives the calls of a module, from its bytes. It needs nothing from its host.
export async function load(bytes) {
    return callsOf((await WebAssembly.instantiate(bytes, {})).instance);
}

// The same, at once. In a browser a script that draws a page may not do this.
export function loadNow(bytes) {
    return callsOf(new WebAssembly.Instance(new WebAssembly.Module(bytes)));
}

function callsOf(instance) {
    const calls = instance.exports;
    const bytesAt = (at, len) => new Uint8Array(calls.memory.buffer, Number(at), len);
    const numbersAt = (at, len) => new DataView(calls.memory.buffer, Number(at), len);

    // Runs with blocks of these sizes, which are given back. If memory ran out it answers null.
    const withBlocks = (sizes, run) => {
        const blocks = sizes.map((size) => calls.timefd_room(BigInt(size)));
        const all = blocks.every((block) => block !== 0n);
        try {
            return all ? run(...blocks) : null;
        } finally {
            blocks.forEach((block) => block !== 0n && calls.timefd_give_back(block));
        }
    };

    const writeMoment = (at, moment) => {
        const fields = numbersAt(at, MOMENT);
        fields.setInt32(0, moment.year, true);
        fields.setUint32(4, moment.nanosecond, true);
        fields.setInt32(8, moment.offsetSeconds, true);
        [moment.month, moment.day, moment.hour, moment.minute, moment.second].forEach((value, place) => fields.setUint8(12 + place, value));
    };

    // What a call left in `out`, whose room is this.
    const outcome = (answer, out, room) => {
        const numbers = numbersAt(answer, ANSWER);
        const [status, len] = [STATUSES[numbers.getUint32(0, true)], Number(numbers.getBigUint64(8, true))];
        const json = status === "reported" && len <= room ? new TextDecoder().decode(bytesAt(out, len)) : null;
        return { status, len, json };
    };

    const reported = (language, moment, bytes, room) =>
        withBlocks([bytes.length, MOMENT, room, ANSWER], (text, fields, out, answer) => {
            bytesAt(text, bytes.length).set(bytes);
            writeMoment(fields, moment);
            calls.timefd_web_report(language, text, BigInt(bytes.length), fields, out, BigInt(room), answer);
            return outcome(answer, out, room);
        });

    // Runs a call that is given these texts, in bytes.
    const given = (call, texts, room) =>
        withBlocks([...texts.map((bytes) => bytes.length), room, ANSWER], (...blocks) => {
            const [out, answer] = blocks.slice(-2);
            const slices = texts.flatMap((bytes, index) => {
                bytesAt(blocks[index], bytes.length).set(bytes);
                return [blocks[index], BigInt(bytes.length)];
            });
            call(...slices, out, BigInt(room), answer);
            return outcome(answer, out, room);
        });

    // Runs a call with some room, and again if its object needs more: the status, and the object as it was written, `json`,
    // and read, `said`.
    const answered = (run) => {
        let it = run(ROOM);
        if (it !== null && it.status === "reported" && it.len > ROOM) it = run(it.len);
        if (it === null) return { status: "out of memory", json: null, said: null };
        return { status: it.status, json: it.json, said: it.json === null ? null : JSON.parse(it.json) };
    };

    const bytesOf = (text) => (typeof text === "string" ? new TextEncoder().encode(text) : text);
    const asked = (call, ...texts) => answered((room) => given(call, texts.map(bytesOf), room));

    return {
        memory: () => calls.memory.buffer.byteLength,
        // What a text is as one of the language with this number, and what it writes of the moment.
        report: (language, moment, text) => answered((room) => reported(language, moment, bytesOf(text), room)),
        // What a text shows by a description of the language with this number.
        read: (language, description, text) => asked((...words) => calls.timefd_web_read(language, ...words), description, text),
        // What a format of the other language with this name is in version 3.
        convert: (name, format) => asked(calls.timefd_web_convert, name, format),
        // What a description of version 3 is as a format of the other language with this name.
        formatFor: (name, description) => asked(calls.timefd_web_format_for, name, description),
        // The descriptions that the lines of a text may be written by.
        guess: (lines) => asked(calls.timefd_web_guess, lines),
    };
}

// The warning about a description, if some of the texts don't show which number is the day and which is the month; or null.
export function swapped(undecided, texts) {
    return undecided === 0 ? null : `day and month may be swapped: ${undecided} of ${texts} texts leave it open`;
}

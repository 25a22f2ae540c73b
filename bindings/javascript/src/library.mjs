// The calls of the module of WebAssembly, and what they answer.

let calls;

// Sets the calls. Each entry of the package does so before anything else is called.
export function start(loaded) {
    calls = loaded;
}

// What the text is in a language, and what it writes for the moment's numbers.
export const report = (language, numbers, text) => object(calls.report(language, numbers, text));

// What the text shows by a description of a language.
export const read = (language, description, text) => object(calls.read(language, description, text));

// What a format of another language is in version 3.
export const convert = (name, format) => object(calls.convert(name, format));

// What a description of version 3 is as a format of another language.
export const formatOf = (name, description) => object(calls.formatFor(name, description));

// The descriptions that lines may be written by.
export const guessed = (lines) => object(calls.guess(lines));

function object({ status, said }) {
    if (said !== null) return said;
    if (status === "out of memory") throw new RangeError("timefd: out of memory");
    if (status === "out of range") throw new RangeError("the month has no such day");
    throw new Error(`timefd: ${status}`);
}

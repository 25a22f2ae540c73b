// A format that is kept, and writes and reads moments.

import { FormatError, ReadError, WriteError } from "./errors.mjs";
import { read, report } from "./library.mjs";
import { EPOCH, Moment, numbersOf } from "./moment.mjs";
import { wellFormed } from "./texts.mjs";

// The languages, by the numbers that the module has for them.
const LANGUAGES = new Map([[1, 1], [2, 2], [3, 3], ["strftime", 4]]);

export class Format {
    #text;
    #language;
    #number;
    #maxBytes;
    #version3;

    constructor(text, { language = 3 } = {}) {
        const number = LANGUAGES.get(language);
        if (number === undefined) throw new TypeError(`language is ${String(language)}: take 1, 2, 3 or "strftime"`);
        const said = report(number, EPOCH, wellFormed(text, "the format"));
        if (!said.accepted) throw new FormatError(text, said);
        [this.#text, this.#language, this.#number, this.#maxBytes, this.#version3] = [text, language, number, said.bytes, said.version_3];
    }

    get text() {
        return this.#text;
    }

    get language() {
        return this.#language;
    }

    get maxBytes() {
        return this.#maxBytes;
    }

    get version3() {
        return this.#version3;
    }

    format(moment) {
        const { written } = report(this.#number, numbersOf(moment), this.#text);
        if (written === null) throw new WriteError(this.#text);
        return written;
    }

    read(text) {
        const said = read(this.#number, this.#text, wellFormed(text, "what is read"));
        if (!said.read) throw new ReadError(text, said);
        return Moment.parse(said.moment);
    }

    toString() {
        return this.#text;
    }
}

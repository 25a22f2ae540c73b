// Why a text isn't a format, why a format writes nothing, why it can't read a text, and why it can't be converted.

import { cutter } from "./places.mjs";

// The index of the code unit in which a byte of the text is.
const unitAt = (text, byte) => cutter(text).cut(0, byte).length;

// The code units of some bytes of the text.
export const spanOf = (text, { start, end }) => ({ start: unitAt(text, start), end: unitAt(text, end) });

export class FormatError extends Error {
    constructor(text, { message, code, help, nearest, start, end }) {
        super(message);
        this.text = text;
        this.code = code;
        this.help = help;
        this.nearest = nearest === "" ? null : nearest;
        this.span = spanOf(text, { start, end });
        this.bytes = { start, end };
    }
}

export class WriteError extends Error {
    constructor(format) {
        super(`a component of \`${format}\` can't show this moment`);
        this.format = format;
    }
}

export class ReadError extends Error {
    constructor(text, { message, component = "", start = null }) {
        const index = start === null ? null : unitAt(text, start);
        super(index === null ? message : `${message}, at index ${index}`);
        this.text = text;
        this.component = component === "" ? null : component;
        this.index = index;
        this.byte = start;
    }
}

export class ConversionError extends Error {
    constructor(text, language, { message, reason = null, help = null, component = null, start = null, traps = [] }) {
        super(component === null ? message : `${message}: ${component}`);
        this.text = text;
        this.language = language;
        this.reason = reason;
        this.help = help;
        this.component = component;
        this.index = start === null ? null : unitAt(text, start);
        this.byte = start;
        this.traps = traps;
    }
}

[FormatError, WriteError, ReadError, ConversionError].forEach((it) => Object.defineProperty(it.prototype, "name", { value: it.name, configurable: true, writable: true }));

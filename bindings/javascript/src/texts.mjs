// Texts that are given.

const LONE_SURROGATE = /\p{Surrogate}/u;

// The text, where UTF-8 has it.
export function wellFormed(text, what) {
    if (typeof text !== "string") throw new TypeError(`${what} is ${kindOf(text)}: give a string`);
    const at = text.search(LONE_SURROGATE);
    if (at >= 0) throw new TypeError(`${what} has half a character at index ${at}: a lone surrogate can't be UTF-8`);
    return text;
}

const kindOf = (value) => (value === null ? "null" : `of type ${typeof value}`);

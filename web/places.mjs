// Cuts a text at byte indices: the readers count bytes of UTF-8, and JavaScript code units of UTF-16.
export function cutter(text) {
    const bytes = new TextEncoder().encode(text);
    const decoder = new TextDecoder("utf-8", { ignoreBOM: true });
    return { length: bytes.length, cut: (start, end) => decoder.decode(bytes.subarray(start, end)) };
}

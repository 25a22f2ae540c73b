// Lines of programs that use the text.

const hex = (c) => c.codePointAt(0).toString(16);
const rustText = (text) => `"${text.replace(/["\\]/g, "\\$&").replace(/\n/g, "\\n").replace(/\p{C}/gu, (c) => `\\u{${hex(c)}}`)}"`;
const cText = (text) => `"${text.replace(/["\\]/g, "\\$&").replace(/\n/g, "\\n").replace(/\?\?/g, "?\\?").replace(/[\x00-\x1f\x7f]/g, (c) => `\\${c.codePointAt(0).toString(8).padStart(3, "0")}`)}"`;
const IN_RUST = { 1: "Version::One", 2: "Version::Two", 3: "Version::Three", 4: "Language::Strftime" };
const KINDS = { 1: "TIMEFD_VERSION_1", 2: "TIMEFD_VERSION_2", 3: "TIMEFD_VERSION_3", 4: "TIMEFD_STRFTIME" };

// Titles and lines: of the crate `time`, and of this library from Rust and from C.
export function codeLines(kind, text, at) {
    const rust = rustText(text);
    const time = kind === 4 ? `time::format_description::parse_strftime_borrowed(${rust})?` : `time::format_description::parse_borrowed::<${kind}>(${rust})?`;
    const format = `timefd::format(timefd::${IN_RUST[kind]}, ${rust}, &moment)?`;
    const c = [`const char text[] = ${cText(text)};`, `timefd_moment moment = {.known = 7, .year = ${at.year}, .month = ${at.month}, .day = ${at.day},`,
        `    .hour = ${at.hour}, .minute = ${at.minute}, .second = ${at.second}, .nanosecond = ${at.nanosecond}, .offset_seconds = ${at.offsetSeconds}};`,
        `timefd_format_answer answer = timefd_format(${KINDS[kind]}, (const uint8_t *)text, sizeof text - 1, &moment, buffer, sizeof buffer);`];
    return [["Rust, time", `let description = ${time};`], ["Rust, timefd", `let written = ${format};`], ["C, timefd", c.join("\n")]];
}

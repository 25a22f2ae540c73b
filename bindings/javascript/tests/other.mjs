// Checks of formats of other languages, and of texts whose description is looked for.

import { caught } from "./caught.mjs";
import { CONVERTED, FORMATS, GUESSED, LACKING, TRAPS, UNCONVERTED } from "./rows.mjs";

export function otherChecks(timefd) {
    return [
        ...CONVERTED.map((row) => ({ name: `converted: ${row[0]} ${row[1]}`, run: () => converted(timefd, ...row) })),
        ...UNCONVERTED.map((row) => ({ name: `not converted: ${row[0]} ${row[1]}`, run: () => unconverted(timefd, ...row) })),
        ...TRAPS.map((row) => ({ name: `traps: ${row[0]} ${row[1]}`, run: () => trapped(timefd, ...row) })),
        ...FORMATS.map((row) => ({ name: `format for ${row[0]}: ${row[1]}`, run: () => formatted(timefd, ...row) })),
        ...LACKING.map((row) => ({ name: `no format for ${row[0]}: ${row[1]}`, run: () => lacking(timefd, ...row) })),
        ...GUESSED.map((row) => ({ name: `guessed: ${row[0]}`, run: () => guessed(timefd, ...row) })),
    ];
}

function converted({ convertFormat }, language, text, wanted, firstYear, wholeMinutes) {
    const it = convertFormat(language, text);
    return [[it.text, it.firstYear, it.wholeMinutes], [wanted, firstYear, wholeMinutes]];
}

function unconverted({ ConversionError, convertFormat }, language, text, reason, index, byte, traps) {
    const error = caught(() => convertFormat(language, text));
    const said = [error instanceof ConversionError, error.name, error.text, error.language, error.reason, error.component, error.index, error.byte];
    const found = error.traps.map(({ trap, bytes }) => [trap, bytes.start, bytes.end]);
    return [[...said, found, error.message !== "" && error.help !== ""], [true, "ConversionError", text, language, reason, null, index, byte, traps, true]];
}

const trapped = ({ convertFormat }, language, text, wanted) => [convertFormat(language, text).traps.map(({ trap, span }) => [trap, span.start, span.end]), wanted];

function formatted({ formatFor }, language, description, wanted, firstYear) {
    const it = formatFor(language, description);
    return [[it.text, it.firstYear], [wanted, firstYear]];
}

function lacking({ ConversionError, formatFor }, language, description, component, index, byte) {
    const error = caught(() => formatFor(language, description));
    const said = [error instanceof ConversionError, error.reason, error.component, error.index, error.byte, error.message.includes(component ?? "side by side")];
    return [said, [true, null, component, index, byte, true]];
}

function guessed({ guess }, texts, wanted) {
    const found = guess(texts);
    const open = found.filter((it) => it.warning !== null).map((it) => it.warning);
    const sentences = wanted.filter((it) => it[1] > 0).map((it) => `day and month may be swapped: ${it[1]} of ${texts.length} texts leave it open`);
    return [[found.map((it) => [it.description, it.undecided]), open], [wanted, sentences]];
}

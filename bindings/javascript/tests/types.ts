// What the types allow, and what they refuse.   tsc --noEmit --strict

import { ConversionError, Format, FormatError, Moment, ReadError, WriteError, convertFormat, formatFor, guess } from "timefd";
import type { Converted, FaultCode, Guess, Language, MomentParts, OtherLanguage, Span, Trap } from "timefd";

const language: Language = "strftime";
const format: Format = new Format("%Y", { language });
const parts: MomentParts = { date: { year: 2026, month: 11, day: 23 }, time: { hour: 5, minute: 36, second: 7 }, offsetSeconds: 0 };
const written: string = format.format(parts) + format.format(new Date()) + format.format(Moment.of(new Date(), 0));
const bytes: number = format.maxBytes;
const moment: Moment = format.read(written);
const year: number | undefined = moment.date?.year;
const nanosecond: number | undefined = moment.time?.nanosecond;
const date: Date = moment.toDate();

const java: OtherLanguage = "java";
const converted = convertFormat(java, "dd.MM.yy");
const traps: readonly Trap[] = converted.traps;
const back: Converted = formatFor("go", converted.text);
const guesses: Guess[] = guess(["2026-11-23"]);

export function spanOf(error: unknown): Span | number | string | null {
    if (error instanceof FormatError) {
        const code: FaultCode = error.code;
        return code === "unknown-name" ? error.span : error.nearest;
    }
    if (error instanceof ReadError) return error.index;
    if (error instanceof ConversionError) return error.component ?? error.reason;
    return error instanceof WriteError ? error.format : null;
}

// @ts-expect-error There is no such language.
new Format("", { language: 4 });
// @ts-expect-error A text is no moment.
format.format("2026-11-23");
// @ts-expect-error A moment doesn't change.
moment.date = null;
// @ts-expect-error Not each moment has a date.
moment.date.year;
// @ts-expect-error There is no such language.
convertFormat("perl", "");
// @ts-expect-error One text is no list of texts.
guess("2026-11-23");
console.log(traps, back.firstYear, guesses[0].warning, bytes, year, nanosecond, date);

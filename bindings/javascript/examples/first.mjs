// Writes a date, reads one, and shows what is wrong with a format.

import { Format, FormatError } from "timefd";

const dotted = new Format("[day].[month].[year]");
console.log(dotted.format(new Date(2026, 10, 23))); // 23.11.2026

const moment = new Format("%d/%m/%Y", { language: "strftime" }).read("23/11/2026");
console.log(moment.date); // { year: 2026, month: 11, day: 23 }
console.log(dotted.format(moment.toDate())); // 23.11.2026

try {
    new Format("[year]-[mnth]");
} catch (error) {
    if (!(error instanceof FormatError)) throw error;
    const { start, end } = error.span;
    console.log(`${error.text.slice(start, end)}: ${error.help}`); // mnth: the nearest name is `month`
}

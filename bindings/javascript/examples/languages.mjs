// Takes formats of other languages, and finds the description of dates.

import { ConversionError, convertFormat, formatFor, guess } from "timefd";

console.log(convertFormat("java", "dd.MM.yyyy").text); // [day].[month].[year]
console.log(formatFor("go", "[day padding:none] [month repr:short] [year]").text); // 2 Jan 2006
console.log(guess(["05/03/2026", "23/11/2026"])[0].description); // [day]/[month]/[year]

for (const { message, span } of convertFormat("python", "%I:%M").traps) {
    console.log(`${span.start} to ${span.end}: ${message}`); // 0 to 2: the hour runs from 1 to 12, and nothing writes AM or PM
}

try {
    formatFor("java", "[week_number]");
} catch (error) {
    if (!(error instanceof ConversionError)) throw error;
    console.log(error.message); // no directive writes this component: [week_number]
}

// Rewrites the dates in the first column of CSV:   node column.mjs FROM TO < IN.csv
// A line whose date isn't read stays as it is, and standard error says why.

import { createInterface } from "node:readline";
import { Format, ReadError } from "timefd";

const [from, to] = (process.argv.length > 2 ? process.argv.slice(2) : ["[day]/[month]/[year]", "[year]-[month]-[day]"]).map((it) => new Format(it));
let number = 0;
for await (const line of createInterface({ input: process.stdin })) {
    number += 1;
    const [date, ...others] = line.split(",");
    try {
        console.log([to.format(from.read(date).toDate()), ...others].join(","));
    } catch (error) {
        if (!(error instanceof ReadError)) throw error;
        console.log(line);
        console.error(`line ${number}: ${error.message}`);
    }
}

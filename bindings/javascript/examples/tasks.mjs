// Three tasks with formats of dates:
//
//     node tasks.mjs log CONFIG [MOMENT] < MESSAGES    writes each line after the time, by the format under `timestamp` of a TOML file
//     node tasks.mjs column FROM TO < IN.csv           rewrites the dates of the first column; a line whose date isn't read stays as it is
//     node tasks.mjs check < FORMATS                   says of each format how long a date gets, or what is wrong

import { readFileSync } from "node:fs";
import { Format, FormatError, Moment } from "timefd";

const lines = () => readFileSync(0, "utf8").split("\n").slice(0, -1);
const refused = (error) => error.message + (error.nearest ? `; the nearest word is \`${error.nearest}\`` : "");

/** A format, or why a text is none. */
function parsed(text) {
    try {
        return { format: new Format(text) };
    } catch (error) {
        if (error instanceof FormatError) return { refused: refused(error) };
        throw error;
    }
}

function log(config, moment) {
    const text = readFileSync(config, "utf8").match(/^timestamp = "(.*)"$/m)[1];
    const { format, refused } = parsed(text);
    if (refused) {
        console.error(refused);
        process.exitCode = 1;
        return;
    }
    const now = moment ? Moment.parse(moment) : Moment.of(new Date());
    for (const line of lines()) console.log(`${format.format(now)} ${line}`);
}

function column(from, to) {
    const [source, target] = [new Format(from), new Format(to)];
    lines().forEach((line, index) => {
        const [date, ...others] = line.split(",");
        try {
            console.log([target.format(source.read(date).toDate()), ...others].join(","));
        } catch (error) {
            console.log(line);
            console.error(`line ${index + 1}: ${error.message}`);
        }
    });
}

function check() {
    for (const text of lines()) {
        const { format, refused } = parsed(text);
        console.log(`${text}: ${refused ?? `at most ${format.maxBytes} bytes`}`);
    }
}

const [task, ...words] = process.argv.slice(2);
({ log, column, check })[task](...words);

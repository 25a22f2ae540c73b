// Compares what the package and its module answer with rows. Each check is a name, and what differs, or null.

import { caught } from "./caught.mjs";
import { CLOCKS, INSTANTS, READ, REFUSED, THROWN, UNREAD, WRITTEN } from "./rows.mjs";
import { otherChecks } from "./other.mjs";
import { moduleRows } from "./module.mjs";

export function allChecks(timefd, load, questions, answers) {
    return [
        ...WRITTEN.map((row) => check(`written: ${row[1]}`, () => written(timefd, ...row))),
        ...CLOCKS.map((row) => check(`by a clock: ${row[0]}`, () => byClock(timefd, ...row))),
        ...REFUSED.map((row) => check(`refused: ${row[1]}`, () => refused(timefd, ...row))),
        ...READ.map((row) => check(`read: ${row[2]}`, () => read(timefd, ...row))),
        ...UNREAD.map((row) => check(`not read: ${row[2]}`, () => unread(timefd, ...row))),
        ...THROWN.map(([name, run, error, part]) => check(name, () => thrown(() => run(timefd), error, part))),
        ...INSTANTS.map((row) => check(`as a Date: ${row[0]}`, () => instant(timefd, ...row))),
        check("what a format says of itself", () => itself(timefd)),
        check("Temporal", () => temporal(timefd)),
        ...otherChecks(timefd).map(({ name, run }) => check(name, run)),
        ...moduleRows(load, questions, answers).map(({ name, got, wanted }) => check(name, () => [got(), wanted])),
    ];
}

// Runs a check: the two that it gives have to be the same.
function check(name, run) {
    try {
        const [got, wanted] = run().map((it) => JSON.stringify(it));
        return { name, differs: got === wanted ? null : `got ${got}, wanted ${wanted}` };
    } catch (error) {
        return { name, differs: String(error?.stack ?? error) };
    }
}

const written = ({ Format }, language, text, moment, wanted) => [new Format(text, { language }).format(moment), wanted];

function byClock({ Format, Moment }, text, milliseconds, here, inUtc) {
    const [format, date] = [new Format(text), new Date(milliseconds)];
    return [[format.format(date), format.format(Moment.of(date, 0))], [here, inUtc]];
}

function refused({ Format, FormatError }, language, text, code, [start, end], [first, last], nearest) {
    const error = caught(() => new Format(text, { language }));
    const said = [error instanceof FormatError, error.name, error.text, error.code, error.span, error.bytes, error.nearest];
    return [said, [true, "FormatError", text, code, { start, end }, { start: first, end: last }, nearest]];
}

function read({ Format, Moment }, language, text, shown, wanted) {
    const moment = new Format(text, { language }).read(shown);
    return [[String(moment), moment instanceof Moment, String(Moment.parse(wanted))], [wanted, true, wanted]];
}

function unread({ Format, ReadError }, language, text, shown, component, index, byte) {
    const error = caught(() => new Format(text, { language }).read(shown));
    const said = [error instanceof ReadError, error.name, error.text, error.component, error.index, error.byte, error.message.includes(`index ${index}`)];
    return [said, [true, "ReadError", shown, component, index, byte, index !== null]];
}

function thrown(run, name, part) {
    const error = caught(run);
    return [[error.name, error.message.includes(part) ? part : error.message], [name, part]];
}

const instant = ({ Moment }, text, milliseconds) => [Moment.parse(text).toDate().getTime(), milliseconds];

function itself({ Format }) {
    const [format, other] = [new Format("[day padding:zero]-[month]"), new Format("%d/%m/%y", { language: "strftime" })];
    return [
        [String(format), format.text, format.language, format.maxBytes, format.version3, other.language, other.version3],
        ["[day padding:zero]-[month]", "[day padding:zero]-[month]", 3, 5, "[day]-[month]", "strftime", "[day]/[month]/[year repr:last_two]"],
    ];
}

function temporal({ Format }) {
    if (typeof Temporal === "undefined") return ["", ""];
    const moment = Temporal.ZonedDateTime.from("2026-11-23T05:36:07.000000004+05:45[Asia/Kathmandu]").withCalendar("buddhist");
    const text = "[year]-[month]-[day]T[hour]:[minute]:[second].[subsecond digits:9][offset_hour sign:mandatory]:[offset_minute]";
    return [new Format(text).format(moment), "2026-11-23T05:36:07.000000004+05:45"];
}

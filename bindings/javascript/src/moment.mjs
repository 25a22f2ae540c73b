// A date, a time of day and an offset from UTC, as far as they are known.

const RANGES = {
    year: [-999999, 999999],
    month: [1, 12],
    day: [1, 31],
    hour: [0, 23],
    minute: [0, 59],
    second: [0, 59],
    nanosecond: [0, 999999999],
    offsetSeconds: [-93599, 93599],
};
const SHOWN = /^(?:([+-]?\d{4,})-(\d\d)-(\d\d))?T?(?:(\d\d):(\d\d):(\d\d)(?:\.(\d{9}))?)?(?:([+-])(\d\d):(\d\d)(?::(\d\d))?)?$/;

export class Moment {
    constructor({ date = null, time = null, offsetSeconds = null } = {}) {
        this.date = date === null ? null : fieldsIn(date, ["year", "month", "day"]);
        this.time = time === null ? null : fieldsIn({ nanosecond: 0, ...time }, ["hour", "minute", "second", "nanosecond"]);
        this.offsetSeconds = offsetSeconds === null ? null : inRange("offsetSeconds", offsetSeconds);
        Object.freeze(this);
    }

    // What a clock shows at an instant: the one of this machine, or one that is so many seconds ahead of UTC.
    static of(instant, offsetSeconds) {
        if (isZoned(instant)) return ofZoned(instant);
        const milliseconds = millisecondsOf(instant);
        const offset = offsetSeconds === undefined ? offsetHere(instant) : inRange("offsetSeconds", offsetSeconds);
        const shown = new Date(milliseconds + 1000 * offset);
        const date = { year: shown.getUTCFullYear(), month: shown.getUTCMonth() + 1, day: shown.getUTCDate() };
        const time = { hour: shown.getUTCHours(), minute: shown.getUTCMinutes(), second: shown.getUTCSeconds() };
        return new Moment({ date, time: { ...time, nanosecond: 1000000 * shown.getUTCMilliseconds() }, offsetSeconds: offset });
    }

    // The moment that this text shows, in the form that toString writes.
    static parse(text) {
        const found = SHOWN.exec(text);
        if (found === null) throw new RangeError(`\`${text}\` is no moment as toString writes them`);
        const [year, month, day, hour, minute, second, nanosecond = 0] = found.slice(1, 8).map((it) => (it === undefined ? undefined : Number(it)));
        const [sign, hours, minutes, seconds = "0"] = found.slice(8);
        return new Moment({
            date: year === undefined ? null : { year, month, day },
            time: hour === undefined ? null : { hour, minute, second, nanosecond },
            offsetSeconds: sign === undefined ? null : Number(`${sign}1`) * (3600 * Number(hours) + 60 * Number(minutes) + Number(seconds)),
        });
    }

    toDate() {
        if (this.date === null) throw new TypeError(`\`${this}\` has no date, and a Date wants one`);
        const { year, month, day } = this.date;
        const { hour, minute, second, nanosecond } = this.time ?? { hour: 0, minute: 0, second: 0, nanosecond: 0 };
        const milliseconds = Math.floor(nanosecond / 1000000);
        // A year below 100 is one of the twentieth century for the constructor.
        const made = new Date(0);
        if (this.offsetSeconds === null) {
            made.setFullYear(year, month - 1, day);
            made.setHours(hour, minute, second, milliseconds);
        } else {
            made.setUTCFullYear(year, month - 1, day);
            made.setUTCHours(hour, minute, second - this.offsetSeconds, milliseconds);
        }
        return made;
    }

    toString() {
        return `${dateText(this.date)}${this.date && this.time ? "T" : ""}${timeText(this.time)}${offsetText(this.offsetSeconds)}`;
    }
}

// The numbers of a moment that the module writes: those of a whole one.
export function numbersOf(moment) {
    if (moment instanceof Date || isZoned(moment)) return numbersOf(Moment.of(moment));
    if (typeof moment !== "object" || moment === null) throw new TypeError("what is written is no moment: give a Date or a Moment");
    const { date, time, offsetSeconds } = moment instanceof Moment ? moment : new Moment(moment);
    const missing = [["date", date], ["time", time], ["offsetSeconds", offsetSeconds]].find(([, value]) => value === null);
    if (missing) throw new TypeError(`the moment has no ${missing[0]}: give one that is whole, or a Date, as toDate() makes`);
    return { ...date, ...time, offsetSeconds };
}

function fieldsIn(given, names) {
    return Object.freeze(Object.fromEntries(names.map((name) => [name, inRange(name, given[name])])));
}

function inRange(name, number) {
    const [least, most] = RANGES[name];
    if (!Number.isInteger(number)) throw new TypeError(`${name} is ${String(number)}: give a whole number`);
    if (number < least || number > most) throw new RangeError(`${name} is ${number}: give one from ${least} to ${most}`);
    return number;
}

function millisecondsOf(instant) {
    if (!(instant instanceof Date)) throw new TypeError("the instant is no Date");
    if (Number.isNaN(instant.getTime())) throw new RangeError("the Date is invalid");
    return instant.getTime();
}

// How many seconds the clock of this machine is ahead of UTC. getTimezoneOffset has only minutes.
function offsetHere(instant) {
    const shown = new Date(0);
    shown.setUTCFullYear(instant.getFullYear(), instant.getMonth(), instant.getDate());
    shown.setUTCHours(instant.getHours(), instant.getMinutes(), instant.getSeconds(), instant.getMilliseconds());
    return Math.round((shown.getTime() - millisecondsOf(instant)) / 1000);
}

const isZoned = (value) => typeof Temporal !== "undefined" && value instanceof Temporal.ZonedDateTime;

function ofZoned(value) {
    const { year, month, day, hour, minute, second, millisecond, microsecond, nanosecond, offsetNanoseconds } = value.withCalendar("iso8601");
    const time = { hour, minute, second, nanosecond: 1000000 * millisecond + 1000 * microsecond + nanosecond };
    return new Moment({ date: { year, month, day }, time, offsetSeconds: Math.trunc(offsetNanoseconds / 1e9) });
}

const two = (number) => String(number).padStart(2, "0");
const yearText = (year) => `${year < 0 ? "-" : year > 9999 ? "+" : ""}${String(Math.abs(year)).padStart(4, "0")}`;
const dateText = (date) => (date === null ? "" : `${yearText(date.year)}-${two(date.month)}-${two(date.day)}`);
const fractionText = (nanosecond) => (nanosecond === 0 ? "" : `.${String(nanosecond).padStart(9, "0")}`);
const timeText = (time) => (time === null ? "" : `${two(time.hour)}:${two(time.minute)}:${two(time.second)}${fractionText(time.nanosecond)}`);

function offsetText(offset) {
    if (offset === null) return "";
    const seconds = Math.abs(offset);
    const rest = seconds % 60 === 0 ? "" : `:${two(seconds % 60)}`;
    return `${offset < 0 ? "-" : "+"}${two(Math.floor(seconds / 3600))}:${two(Math.floor(seconds / 60) % 60)}${rest}`;
}

// The start of 1970, in numbers: a moment that a format is checked with.
export const EPOCH = numbersOf(Moment.of(new Date(0), 0));

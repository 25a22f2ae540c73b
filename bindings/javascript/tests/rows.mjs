// What the package's calls come to: rows of what is given and what is wanted.

// Monday, 23 November 2026, at 5:36:07 and half a second, an hour ahead of UTC.
const MONDAY = { date: { year: 2026, month: 11, day: 23 }, time: { hour: 5, minute: 36, second: 7, nanosecond: 500000000 }, offsetSeconds: 3600 };
const inYear = (year) => ({ ...MONDAY, date: { year, month: 2, day: 28 } });

// Language, format, moment, text: those of strftime are what GNU date writes, and all others the tables' own.
export const WRITTEN = [
    [3, "[day].[month].[year]", MONDAY, "23.11.2026"],
    [3, "[weekday], [day] [month repr:long] [year]", MONDAY, "Monday, 23 November 2026"],
    [3, "[subsecond digits:3] [offset_hour sign:mandatory]:[offset_minute]", MONDAY, "500 +01:00"],
    [3, "né le 日😀 [day]", MONDAY, "né le 日😀 23"],
    [3, "", MONDAY, ""],
    [3, "[year]", inYear(-1), "-0001"],
    [3, "[year range:extended]", inYear(12026), "+12026"],
    [2, "[hour repr:12 padding:none]:[minute] [period case:lower]", MONDAY, "5:36 am"],
    [1, "[[[year]", MONDAY, "[2026"],
    ["strftime", "%A %j %H:%M:%S %z", MONDAY, "Monday 327 05:36:07 +0100"],
    ["strftime", "%s", MONDAY, "1795408567"],
];

// A format, an instant in milliseconds, what a Date of it writes on a clock five and a half hours ahead of UTC, and in UTC.
export const CLOCKS = [
    ["[year]-[month]-[day] [hour]:[minute]:[second].[subsecond digits:3]", Date.UTC(2026, 10, 23, 23, 36, 7, 45), "2026-11-24 05:06:07.045", "2026-11-23 23:36:07.045"],
    ["[offset_hour sign:mandatory]:[offset_minute]", Date.UTC(2026, 10, 23), "+05:30", "+00:00"],
    ["[unix_timestamp precision:millisecond]", Date.UTC(1969, 11, 31, 23, 59, 59, 1), "-999", "-999"],
];

// Language, text: the fault's code, its code units, its bytes, and the nearest word.
export const REFUSED = [
    [3, "[year]-[mnth]-[day]", "unknown-name", [8, 12], [8, 12], "month"],
    [3, "né le [mnth]", "unknown-name", [7, 11], [8, 12], "month"],
    [3, "😀[day padding:zro]", "invalid-modifier", [15, 18], [17, 20], "zero"],
    [3, "\ufeff[day", "unclosed-bracket", [1, 2], [3, 4], null],
    ["strftime", "é %Z", "unsupported-letter", [3, 4], [4, 5], null],
];

// Language, format, text, and the moment that it shows.
export const READ = [
    [3, "[year]-[month]-[day] [hour]:[minute] [offset_hour sign:mandatory]:[offset_minute]", "2026-02-03 09:05 -03:30", "2026-02-03T09:05:00-03:30"],
    [1, "[Year]-[ordinal]", "2024-366", "2024-12-31"],
    [2, "[hour repr:12]:[minute] [period]\\[", "12:00 AM[", "00:00:00"],
    [3, "[hour]:[minute]:[second].[subsecond]", "23:59:59.000000001", "23:59:59.000000001"],
    [3, "[year range:extended]-[month]-[day]", "-012026-01-02", "-12026-01-02"],
    [3, "[year range:extended]-[month]-[day]", "+012026-01-02", "+12026-01-02"],
    [3, "[offset_hour sign:mandatory]:[offset_minute]:[offset_second]", "-00:30:05", "-00:30:05"],
    ["strftime", "%d %B %Y", "29 February 2024", "2024-02-29"],
    [3, "x", "x", ""],
];

// Language, format, text: the component that doesn't read, its code unit, its byte.
export const UNREAD = [
    [3, "é[year]-[month]", "é2026-13", "month", 6, 7],
    [3, "😀 [day] [day]", "😀 03 04", "day", 6, 8],
    [3, "[year]-[month]", "2026/02", null, 4, 4],
    [3, "[hour]", "09:05", null, 2, 2],
    [3, "[year]-[month]", "2026-02", null, null, null],
    [3, "[year]-[month]-[day] [weekday]", "2026-02-03 Monday", null, null, null],
];

// What is refused, by the name of its error and a part of its sentence.
const DAY = "[year]-[month]-[day]";
export const THROWN = [
    ["a format that is no string", ({ Format }) => new Format(3), "TypeError", "the format is of type number: give a string"],
    ["a format with half a character", ({ Format }) => new Format("x\ud800"), "TypeError", "index 1"],
    ["a language that there isn't", ({ Format }) => new Format("", { language: 4 }), "TypeError", 'take 1, 2, 3 or "strftime"'],
    ["a text that is none", ({ Format }) => new Format(DAY).read(null), "TypeError", "what is read is null: give a string"],
    ["a moment that is none", ({ Format }) => new Format(DAY).format("2026-11-23"), "TypeError", "give a Date or a Moment"],
    ["an invalid Date", ({ Format }) => new Format(DAY).format(new Date(NaN)), "RangeError", "the Date is invalid"],
    ["a moment without a time", ({ Format }) => new Format(DAY).format({ date: MONDAY.date }), "TypeError", "the moment has no time"],
    ["a month of text", ({ Moment }) => new Moment({ date: { year: 2026, month: "11", day: 23 } }), "TypeError", "month is 11: give a whole number"],
    ["month 257", ({ Moment }) => new Moment({ date: { year: 2026, month: 257, day: 23 } }), "RangeError", "give one from 1 to 12"],
    ["31 February", ({ Format }) => new Format(DAY).format({ ...MONDAY, date: { year: 2026, month: 2, day: 31 } }), "RangeError", "the month has no such day"],
    ["a year that [year range:standard] can't show", ({ Format }) => new Format("[year range:standard]").format(inYear(12026)), "WriteError", "can't show this moment"],
    ["a Date of a time alone", ({ Moment }) => Moment.parse("09:05:00").toDate(), "TypeError", "has no date"],
    ["a language of no formats", ({ convertFormat }) => convertFormat("perl", "%d"), "TypeError", "language is perl: take one of python, c, gnu"],
    ["a format that is none", ({ convertFormat }) => convertFormat("python", 3), "TypeError", "the format is of type number: give a string"],
    ["a description that is none", ({ formatFor }) => formatFor("java", "[mnth]"), "FormatError", "mnth"],
    ["no texts", ({ guess }) => guess([]), "TypeError", "no array of at least one text"],
    ["a text of two lines", ({ guess }) => guess(["a\nb"]), "TypeError", "give each line by itself"],
    ["a moment in another form", ({ Moment }) => Moment.parse("23.11.2026"), "RangeError", "is no moment"],
];

// A moment's text, and the same instant in milliseconds on a clock five and a half hours ahead of UTC.
export const INSTANTS = [
    ["2026-11-23", Date.UTC(2026, 10, 22, 18, 30)],
    ["2026-11-23T05:36:07.045999999", Date.UTC(2026, 10, 23, 0, 6, 7, 45)],
    ["2026-11-23T05:36:07-01:00", Date.UTC(2026, 10, 23, 6, 36, 7)],
    ["0099-03-01T00:00:00+00:00", Date.parse("0099-03-01T00:00:00Z")],
    ["-0001-03-01T00:00:00+00:00", Date.parse("-000001-03-01T00:00:00Z")],
];

// A format of another language, as measured with the real program: its text in version 3, the first year, and whether it writes the same
// of offsets of whole minutes alone.
export const CONVERTED = [
    ["python", "%d.%m. %H:%M", "[day].[month]. [hour]:[minute]", 0, false],
    ["python", "%Y-%m-%d", "[year]-[month]-[day]", 1000, false],
    ["python", "%z", "[offset_hour sign:mandatory][offset_minute]", 0, true],
    ["c", "%-d %b %R", "[day padding:none] [month repr:short] [hour]:[minute]", 0, false],
    ["gnu", "%S.%3N", "[second].[subsecond digits:3]", 0, false],
    ["chrono", "%e%.3f", "[day padding:space].[subsecond digits:3]", 0, false],
    ["jiff", "%j, %I %p", "[ordinal], [hour repr:12] [period]", 0, false],
    ["ruby", "%S.%L", "[second].[subsecond digits:3]", 0, false],
    ["java", "d. 'um' HH", "[day padding:none]. um [hour]", 0, false],
    ["go", "2 Jan", "[day padding:none] [month repr:short]", 0, false],
    ["moment", "YYYY-MM-DD[T]HH", "[year]-[month]-[day]T[hour]", 0, false],
];

// A format of another language that is refused: the reason, the code unit and the byte; and its traps, each with its bytes.
export const UNCONVERTED = [
    ["python", "é %Z", "zone-name", 2, 3, []],
    ["java", "'é' QQ", "quarter", 4, 5, []],
    ["java", "YYYY-MM-dd", "local-week", 0, 0, [["week-year-beside-month", 0, 4]]],
];

// Formats with traps, and the code units of these.
export const TRAPS = [
    ["java", "'é' dd.MM.yy", [["year-without-century", 10, 12]]],
    ["ruby", "%I%n%w", [["hour-without-period", 0, 2], ["weekday-from-zero", 4, 6]]],
    ["go", "15:04:05", []],
];

// A description of version 3, the format of another language, and the first year. The last ones aren't in the normal form.
export const FORMATS = [
    ["python", "[day] [month repr:long] [year]", "%d %B %Y", 1000],
    ["java", "[day]. [month repr:long] [year]", "dd. MMMM uuuu", 0],
    ["go", "[day padding:none] [month repr:short] [year]", "2 Jan 2006", 0],
    ["moment", "[year]-[month]-[day]T[hour]", "YYYY-MM-DD[T]HH", 0],
    ["java", "[ year range:standard ]-[month padding:zero]", "uuuu-MM", 0],
    ["moment", "\\[[year range:standard]", "[[]YYYY", 0],
];

// A description that the language has no format for: the component that it lacks, its code unit and its byte.
export const LACKING = [
    ["java", "é [week_number]", "[week_number]", 2, 3],
    ["python", "[day padding:zero] [subsecond digits:3]", "[subsecond digits:3]", 19, 19],
    ["python", "[optional [[day]]]", "[optional [[day]]]", 0, 0],
    ["go", "[day]2", null, null, null],
];

// Texts, the descriptions that they may be written by, and how many of them leave day and month open.
export const GUESSED = [
    [["2026-11-23", "2024-02-29"], [["[year]-[month]-[day]", 0]]],
    [["05/03/2026", "23/11/2026", "31/12/2026"], [["[day]/[month]/[year]", 1]]],
    [["05/03/2026", "06/03/2026"], [["[day]/[month]/[year]", 2], ["[month]/[day]/[year]", 2]]],
    [["2026-11-23", "23.11.2026"], []],
    [[""], []],
];

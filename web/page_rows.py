"""What web/try-page types into the page, and what the page has to show; and the scripts that read it off the page."""

SHOWN = """
const text = (css) => document.querySelector(css)?.textContent ?? null;
const all = (css) => [...document.querySelectorAll(css)].map((it) => it.textContent);
const open = (id) => !document.getElementById(id).hidden;
return {
    text: document.querySelector("#text").value, kind: document.querySelector("input[name=kind]:checked").value,
    word: text("#verdict .word"), verdict: text("#verdict span:last-child"), output: open("written") ? text("#output") : null,
    mark: open("fault") ? text("#fault mark") : null, help: open("fault") ? text("#fault .help") : null,
    mends: open("fault") ? all("#fault .mends button") : [], rows: open("parts") ? all("#rows tr").length : 0, sum: text("#sum"),
    later: open("later") ? all("#versions pre") : [], code: open("code") ? all("#lines pre") : [], ink: text("#ink"),
};
"""

READING = """
const text = (css) => document.querySelector(css)?.textContent ?? null;
return { sentence: text("#reading output, #reading p"), mark: text("#reading mark"), invalid: document.querySelector("#shown").getAttribute("aria-invalid") };
"""

# Kinds and texts, and what the page shows of them at 3 February 2026, 9:05:07.000000004, an hour ahead of UTC. In a text that is
# typed a `[` and all else is a key of its own.
ACCEPTED = [
    (3, "[month]-[day]T[hour]:[minute][optional [:[second]]]", "02-03T09:05:07", 14, []),
    (3, "[year]-[month]-[day]", "2026-02-03", 11, ["[year range:standard]-[month]-[day]"]),
    (3, "[day padding:zero]", "03", 2, ["[day]"]),
    (1, "[[[Year] at [hour repr:12] [period]", "[2026 at 09 AM", 17, ["\\[[Year] at [hour repr:12] [period]", "\\[[year range:extended] at [hour repr:12] [period]"]),
    (2, "[Month repr:Long] \\[é", "February [é", 13, ["[month repr:long] \\[é"]),
    (4, "%A, %e %B %Y", "Tuesday,  3 February 2026", 31, ["[weekday], [day padding:space] [month repr:long] [year range:extended]"]),
    (4, "%H:%M:%S %z", "09:05:07 +0100", None, None),
    (3, "[subsecond digits:9] [offset_hour sign:mandatory]:[offset_minute]", "000000004 +01:00", None, []),
    (3, "", "", 0, []),
]
REFUSED = [
    (3, "é [year]-[mnth]-[day]", "invalid component name `mnth` at byte index 11, in version 3", "mnth", "the nearest name is `month`", "é [year]-[month]-[day]"),
    (3, "[day padding:zreo]", "invalid modifier `zreo` at byte index 13, in version 3", "zreo", "the nearest value is `zero`", "[day padding:zero]"),
    (3, "[year] [day", None, None, None, "[year] [day]"),
    (4, "%Z", "component is not supported at byte index 1, in strftime", "Z", "names of time zones aren't known: `%z` writes the offset from UTC", None),
]
# Kinds, descriptions and texts that are read by them: the moment, or why there is none, and what is marked. Of a sentence alone no
# byte is marked.
DAY = "[year]-[month]-[day]"
READ = [
    (3, f"{DAY} [hour]:[minute]:[second] [offset_hour sign:mandatory]:[offset_minute]", "2026-02-03 09:05:07 +01:00", "2026-02-03T09:05:07+01:00", None),
    (3, DAY, "2026-02-03", "2026-02-03", None),
    (4, "%d %B %Y", "03 February 2026", "2026-02-03", None),
    (1, "[year]-[ordinal]", "2026-034", "2026-02-03", None),
    (3, DAY, "2026-1x-03", "the component `month` was expected here, at byte 5", "1"),
    (3, DAY, "2026/02/03", "another text was expected here, at byte 4", "/"),
    (3, DAY, "2026-02-03 é", "nothing may follow here, at byte 10", " "),
    (3, f"é{DAY}", "é2026-02", "another text was expected here, at byte 9", "\u00a0"),
    (3, "[day] [day]", "03 04", "the component `day` has a different value here, at byte 3", "0"),
    (3, f"[weekday] {DAY}", "Monday 2026-02-03", "the weekday disagrees with what else was read", None),
    (3, "[year]-[month]", "2026-02", "the day was not read", None),
    (3, DAY, "<b>&lt;\"'\\", "the component `year` was expected here, at byte 0", "<"),
]
# Formats of any language: the languages that read components of them, the descriptions of version 3, and what is said of each.
OTHERS = """
const all = (css, from = document) => [...from.querySelectorAll(css)].map((it) => it.textContent);
return { sum: document.querySelector("#readers").textContent, found: [...document.querySelectorAll("#read .copied")].map((it) => [all("h3", it)[0], all("pre", it)[0], ...all("p", it)]),
    lists: [...document.querySelectorAll("#read details")].map((it) => [all("summary", it)[0], all("li", it)]) };
"""
ANY = [
    ("%d/%b/%Y:%H:%M:%S", [
        ["strftime", "[day]/[month repr:short]/[year range:extended]:[hour]:[minute]:[second]", "It writes 03/Feb/2026:09:05:07"],
        ["Python, C", "[day]/[month repr:short]/[year]:[hour]:[minute]:[second]", "It writes 03/Feb/2026:09:05:07", "It writes the same from the year 1000 on."],
    ]),
    ("dd.MM.yy", [
        ["Java", "[day].[month].[year repr:last_two]", "It writes 03.02.26", "It writes the same from the year 1 on.",
         "yy: nothing gives the century of the year. Write the year with four digits."],
    ]),
    ("2 Jan 2006", [["Go", "[day padding:none] [month repr:short] [year]", "It writes 3 Feb 2026"]]),
    ("[year]-[month]", [["version 1, version 2", "[year range:extended]-[month]", "It writes 2026-02"], ["version 3", "[year]-[month]", "It writes 2026-02"]]),
]
GUESSES = """
const all = (css, from = document) => [...from.querySelectorAll(css)].map((it) => it.textContent);
return { sum: document.querySelector("#guessed").textContent, found: [...document.querySelectorAll("#guesses .copied")].map((it) => [...all("pre", it), ...all("p", it)]) };
"""
DATES = [
    ("2026-11-23\n2024-02-29", "1 description reads all of them.", [["[year]-[month]-[day]"]]),
    ("05/03/2026\n06/03/2026", "2 descriptions read all of them.", [
        [f"[{first}]/[{second}]/[year]", "Day and month may be swapped: 2 of 2 texts leave it open."] for first, second in (("day", "month"), ("month", "day"))]),
    ("2026-11-23\n\n23.11.2026", "No description that is known reads all of them.", []),
]

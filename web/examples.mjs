// What the page begins with.

export const LANGUAGES = { 1: "version 1", 2: "version 2", 3: "version 3", 4: "strftime" };

// The languages whose formats are converted to version 3.
export const OTHERS = { python: "Python", c: "C", gnu: "GNU date", chrono: "chrono", jiff: "jiff", ruby: "Ruby", java: "Java", go: "Go", moment: "moment.js" };

export const EXAMPLES = [
    ["ISO 8601", 3, "[year]-[month]-[day]"],
    ["RFC 3339", 3, "[year]-[month]-[day]T[hour]:[minute]:[second][offset_hour sign:mandatory]:[offset_minute]"],
    ["RFC 2822", 3, "[weekday repr:short], [day padding:none] [month repr:short] [year] [hour]:[minute]:[second] [offset_hour sign:mandatory][offset_minute]"],
    ["Log line", 3, "[year]-[month]-[day] [hour]:[minute]:[second].[subsecond digits:3]"],
    ["Web server log", 4, "%d/%b/%Y:%H:%M:%S %z"],
    ["Optional seconds", 3, "[hour]:[minute][optional [:[second]]]"],
    ["Twelve hours", 2, "[hour repr:12 padding:none]:[minute] [period case:lower]"],
    ["From version 1", 1, "[[[Year]] week [week_number]"],
    ["A mistake", 3, "[year]-[mnth]-[day]"],
];

// What may be put into a description. The page shows those that the language accepts.
export const PARTS = ["[year]", "[year repr:last_two]", "[month]", "[month repr:long]", "[month repr:short]", "[day]", "[day padding:none]", "[weekday]",
    "[weekday repr:short]", "[ordinal]", "[week_number]", "[hour]", "[hour repr:12]", "[period]", "[period case:lower]", "[minute]", "[second]",
    "[subsecond]", "[subsecond digits:3]", "[offset_hour sign:mandatory]", "[offset_minute]", "[offset_second]", "[unix_timestamp]",
    "[unix_timestamp precision:millisecond]", "[ignore count:1]", "[end]", "[optional [:[second]]]", "[first [[period]] [[hour]]]"];
export const LETTERS = "%Y %y %C %G %g %m %B %b %h %d %e %j %A %a %u %w %U %V %W %H %I %k %l %M %S %p %P %r %R %T %c %D %F %x %X %s %z %n %t %%";

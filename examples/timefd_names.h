/* The names and the sentences of the numbers in timefd.h:

       printf("%s\n", timefd_fault_name(TIMEFD_FAULT_UNKNOWN_NAME));    unknown-name

   They are those that the linter and timefd_format write. For a number that isn't in the header you get the empty text.

   The functions are compiled into the program that calls them; the library has none of them. */

#ifndef TIMEFD_NAMES_H
#define TIMEFD_NAMES_H

#include "timefd_text.h"

#include <stdio.h>

#ifdef __cplusplus
extern "C" {
#endif

/* Answers what a status means: "memory ran out". What is wrong with a refused text, timefd_check writes. */
static inline const char *timefd_status_sentence(uint32_t status) {
    switch (status) {
    case TIMEFD_ACCEPTED: return "the text is accepted";
    case TIMEFD_REFUSED: return "the text is no format description";
    case TIMEFD_NOT_UTF8: return "the bytes aren't UTF-8";
    case TIMEFD_NO_MEMORY: return "memory ran out";
    case TIMEFD_UNKNOWN_KIND: return "there is no language with this number";
    case TIMEFD_UNSHOWN: return "a component shows nothing of the moment";
    case TIMEFD_OUT_OF_RANGE: return "a number of the moment is out of its range";
    case TIMEFD_NO_CONVERSION: return "a conversion leads to version 3, and from version 1 to version 2";
    case TIMEFD_NO_DESCRIPTION: return "the nodes are no format description";
    case TIMEFD_UNREAD: return "a part of the date doesn't read by the format description";
    case TIMEFD_CONTRADICTION: return "no moment has all that was read";
    case TIMEFD_MISSING: return "too little was read for a moment";
    case TIMEFD_DATE_NOT_UTF8: return "the bytes of the date are no UTF-8";
    }
    return "";
}

/* Answers the name of a fault as the linter writes it: "unclosed-bracket". */
static inline const char *timefd_fault_name(uint32_t code) {
    switch (code) {
    case TIMEFD_FAULT_UNCLOSED_BRACKET: return "unclosed-bracket";
    case TIMEFD_FAULT_UNKNOWN_NAME: return "unknown-name";
    case TIMEFD_FAULT_INVALID_MODIFIER: return "invalid-modifier";
    case TIMEFD_FAULT_MISSING_NAME: return "missing-name";
    case TIMEFD_FAULT_MISSING_MODIFIER: return "missing-modifier";
    case TIMEFD_FAULT_INVALID_ESCAPE: return "invalid-escape";
    case TIMEFD_FAULT_UNESCAPED_BRACKET: return "unescaped-bracket";
    case TIMEFD_FAULT_MISSING_SPACE: return "missing-space";
    case TIMEFD_FAULT_MISSING_DESCRIPTION: return "missing-description";
    case TIMEFD_FAULT_MISSING_ALTERNATIVE: return "missing-alternative";
    case TIMEFD_FAULT_NESTED_TOO_DEEP: return "nested-too-deep";
    case TIMEFD_FAULT_SEVERAL_DESCRIPTIONS: return "several-descriptions";
    case TIMEFD_FAULT_OPTIONAL_ITEM: return "optional-item";
    case TIMEFD_FAULT_FIRST_ITEM: return "first-item";
    case TIMEFD_FAULT_UNSUPPORTED_FLAG: return "unsupported-flag";
    case TIMEFD_FAULT_UNSUPPORTED_LETTER: return "unsupported-letter";
    case TIMEFD_FAULT_NESTED_IN_COMPONENT: return "nested-in-component";
    case TIMEFD_FAULT_DUPLICATE_MODIFIER: return "duplicate-modifier";
    case TIMEFD_FAULT_REFUSED_MODIFIER: return "refused-modifier";
    }
    return "";
}

/* Answers the name that a component's bracket begins with: "month" for each of the three months. */
static inline const char *timefd_component_name(uint32_t component) {
    switch (component) {
    case TIMEFD_DAY: return "day";
    case TIMEFD_MONTH_SHORT:
    case TIMEFD_MONTH_LONG:
    case TIMEFD_MONTH_NUMERICAL: return "month";
    case TIMEFD_ORDINAL: return "ordinal";
    case TIMEFD_WEEKDAY_SHORT:
    case TIMEFD_WEEKDAY_LONG:
    case TIMEFD_WEEKDAY_SUNDAY:
    case TIMEFD_WEEKDAY_MONDAY: return "weekday";
    case TIMEFD_WEEK_NUMBER_ISO:
    case TIMEFD_WEEK_NUMBER_SUNDAY:
    case TIMEFD_WEEK_NUMBER_MONDAY: return "week_number";
    case TIMEFD_CALENDAR_YEAR_FULL_EXTENDED_RANGE:
    case TIMEFD_CALENDAR_YEAR_FULL_STANDARD_RANGE:
    case TIMEFD_CALENDAR_YEAR_CENTURY_EXTENDED_RANGE:
    case TIMEFD_CALENDAR_YEAR_CENTURY_STANDARD_RANGE:
    case TIMEFD_ISO_YEAR_FULL_EXTENDED_RANGE:
    case TIMEFD_ISO_YEAR_FULL_STANDARD_RANGE:
    case TIMEFD_ISO_YEAR_CENTURY_EXTENDED_RANGE:
    case TIMEFD_ISO_YEAR_CENTURY_STANDARD_RANGE:
    case TIMEFD_CALENDAR_YEAR_LAST_TWO:
    case TIMEFD_ISO_YEAR_LAST_TWO: return "year";
    case TIMEFD_HOUR_12:
    case TIMEFD_HOUR_24: return "hour";
    case TIMEFD_MINUTE: return "minute";
    case TIMEFD_PERIOD: return "period";
    case TIMEFD_SECOND: return "second";
    case TIMEFD_SUBSECOND: return "subsecond";
    case TIMEFD_OFFSET_HOUR: return "offset_hour";
    case TIMEFD_OFFSET_MINUTE: return "offset_minute";
    case TIMEFD_OFFSET_SECOND: return "offset_second";
    case TIMEFD_IGNORE: return "ignore";
    case TIMEFD_UNIX_TIMESTAMP_SECOND:
    case TIMEFD_UNIX_TIMESTAMP_MILLISECOND:
    case TIMEFD_UNIX_TIMESTAMP_MICROSECOND:
    case TIMEFD_UNIX_TIMESTAMP_NANOSECOND: return "unix_timestamp";
    case TIMEFD_END: return "end";
    }
    return "";
}

/* Answers the name of a reason why a part of a format has no text of version 3: "zone-name". */
static inline const char *timefd_reason_name(uint32_t reason) {
    switch (reason) {
    case TIMEFD_REASON_BACKSLASH: return "backslash";
    case TIMEFD_REASON_CAPITALS: return "capitals";
    case TIMEFD_REASON_DATETIME_ONLY: return "datetime-only";
    case TIMEFD_REASON_DAY_PERIOD: return "day-period";
    case TIMEFD_REASON_ERA: return "era";
    case TIMEFD_REASON_FLAG: return "flag";
    case TIMEFD_REASON_FRACTION_WIDTH: return "fraction-width";
    case TIMEFD_REASON_GMT_OFFSET: return "gmt-offset";
    case TIMEFD_REASON_HOUR_FROM_0_OR_24: return "hour-from-0-or-24";
    case TIMEFD_REASON_JULIAN_DAY: return "julian-day";
    case TIMEFD_REASON_LOCAL_TIME: return "local-time";
    case TIMEFD_REASON_LOCAL_WEEK: return "local-week";
    case TIMEFD_REASON_LOCALE: return "locale";
    case TIMEFD_REASON_NARROW_NAME: return "narrow-name";
    case TIMEFD_REASON_OPTIONAL_PART: return "optional-part";
    case TIMEFD_REASON_ORDINAL_SUFFIX: return "ordinal-suffix";
    case TIMEFD_REASON_PAD_LETTER: return "pad-letter";
    case TIMEFD_REASON_PLATFORM: return "platform";
    case TIMEFD_REASON_QUARTER: return "quarter";
    case TIMEFD_REASON_READING_ONLY: return "reading-only";
    case TIMEFD_REASON_RESERVED: return "reserved";
    case TIMEFD_REASON_TOO_MANY_LETTERS: return "too-many-letters";
    case TIMEFD_REASON_TWO_DIGIT_YEAR: return "two-digit-year";
    case TIMEFD_REASON_TWO_LETTER_NAME: return "two-letter-name";
    case TIMEFD_REASON_UNCLOSED_QUOTE: return "unclosed-quote";
    case TIMEFD_REASON_UNIT_OF_DAY: return "unit-of-day";
    case TIMEFD_REASON_UNKNOWN_DIRECTIVE: return "unknown-directive";
    case TIMEFD_REASON_UNKNOWN_LETTER: return "unknown-letter";
    case TIMEFD_REASON_UNSUPPORTED: return "unsupported";
    case TIMEFD_REASON_VARIABLE_FRACTION: return "variable-fraction";
    case TIMEFD_REASON_VARIABLE_OFFSET: return "variable-offset";
    case TIMEFD_REASON_VARIABLE_WIDTH: return "variable-width";
    case TIMEFD_REASON_WEEK_OF_MONTH: return "week-of-month";
    case TIMEFD_REASON_WIDTH: return "width";
    case TIMEFD_REASON_Z_FOR_UTC: return "z-for-utc";
    case TIMEFD_REASON_ZONE_NAME: return "zone-name";
    }
    return "";
}

/* Answers what a reason means: "it writes the name of a time zone". */
static inline const char *timefd_reason_sentence(uint32_t reason) {
    switch (reason) {
    case TIMEFD_REASON_BACKSLASH: return "a `\\` takes the meaning of the next token away";
    case TIMEFD_REASON_CAPITALS: return "it writes a name in capitals, or changes their case";
    case TIMEFD_REASON_DATETIME_ONLY: return "Ruby's `DateTime` alone has it";
    case TIMEFD_REASON_DAY_PERIOD: return "it writes a period of the day, like `in the morning`";
    case TIMEFD_REASON_ERA: return "it writes an era, and version 3 has none";
    case TIMEFD_REASON_FLAG: return "this directive takes no such flag, and none with a width";
    case TIMEFD_REASON_FRACTION_WIDTH: return "it writes a fraction of a second of more than nine digits";
    case TIMEFD_REASON_GMT_OFFSET: return "it writes an offset as `GMT+1`";
    case TIMEFD_REASON_HOUR_FROM_0_OR_24: return "it counts hours from 0 to 11 or from 1 to 24";
    case TIMEFD_REASON_JULIAN_DAY: return "it counts days from a day long ago";
    case TIMEFD_REASON_LOCAL_TIME: return "it depends on the time zone of the process";
    case TIMEFD_REASON_LOCAL_WEEK: return "it counts weeks or weekdays as a locale does, or writes the year of such weeks";
    case TIMEFD_REASON_LOCALE: return "what it writes depends on the locale";
    case TIMEFD_REASON_NARROW_NAME: return "it writes the first letter of a name";
    case TIMEFD_REASON_OPTIONAL_PART: return "a part in `[` and `]` is optional";
    case TIMEFD_REASON_ORDINAL_SUFFIX: return "it writes a number like `1st`";
    case TIMEFD_REASON_PAD_LETTER: return "it pads the next letter to a width";
    case TIMEFD_REASON_PLATFORM: return "platforms differ in what it writes";
    case TIMEFD_REASON_QUARTER: return "it writes a quarter, and version 3 has none";
    case TIMEFD_REASON_READING_ONLY: return "it can be read, and not be written";
    case TIMEFD_REASON_RESERVED: return "the character is reserved";
    case TIMEFD_REASON_TOO_MANY_LETTERS: return "no pattern repeats this letter so often";
    case TIMEFD_REASON_TWO_DIGIT_YEAR: return "it reads two digits of a year, which leave the century open";
    case TIMEFD_REASON_TWO_LETTER_NAME: return "it writes a weekday in two letters";
    case TIMEFD_REASON_UNCLOSED_QUOTE: return "no quote closes this one";
    case TIMEFD_REASON_UNIT_OF_DAY: return "it counts milliseconds or nanoseconds from midnight on";
    case TIMEFD_REASON_UNKNOWN_DIRECTIVE: return "the dialect has no such directive";
    case TIMEFD_REASON_UNKNOWN_LETTER: return "the letter has no meaning and isn't quoted";
    case TIMEFD_REASON_UNSUPPORTED: return "libraries differ in what it means, or lack it";
    case TIMEFD_REASON_VARIABLE_FRACTION: return "it writes as many digits of a fraction as it has, or none";
    case TIMEFD_REASON_VARIABLE_OFFSET: return "it writes as much of an offset as there is";
    case TIMEFD_REASON_VARIABLE_WIDTH: return "its width depends on the value";
    case TIMEFD_REASON_WEEK_OF_MONTH: return "it counts weeks or weekdays within the month";
    case TIMEFD_REASON_WIDTH: return "no component of version 3 has this width";
    case TIMEFD_REASON_Z_FOR_UTC: return "it writes `Z` for an offset of zero";
    case TIMEFD_REASON_ZONE_NAME: return "it writes the name of a time zone";
    }
    return "";
}

/* Answers what to do about a reason: "Write the offset, or the name as a literal." */
static inline const char *timefd_reason_cure(uint32_t reason) {
    switch (reason) {
    case TIMEFD_REASON_BACKSLASH: return "Write the text between `[` and `]`.";
    case TIMEFD_REASON_CAPITALS: return "Write the name without the flag, and change its case afterwards.";
    case TIMEFD_REASON_DATETIME_ONLY: return "Write a directive that `Time` has too.";
    case TIMEFD_REASON_DAY_PERIOD: return "Write `a`, for AM and PM.";
    case TIMEFD_REASON_ERA: return "Write the year alone, or the era as a literal.";
    case TIMEFD_REASON_FLAG: return "Leave the flag and the width out, or choose another directive.";
    case TIMEFD_REASON_FRACTION_WIDTH: return "Write at most nine digits.";
    case TIMEFD_REASON_GMT_OFFSET: return "Write the offset in digits.";
    case TIMEFD_REASON_HOUR_FROM_0_OR_24: return "Write the hour of 24 from 0 on, or of 12 from 1 on.";
    case TIMEFD_REASON_JULIAN_DAY: return "Count the days in a program.";
    case TIMEFD_REASON_LOCAL_TIME: return "Write a directive that depends on the moment alone.";
    case TIMEFD_REASON_LOCAL_WEEK: return "Write the week of ISO 8601, or the year of the calendar.";
    case TIMEFD_REASON_LOCALE: return "Write each part by a directive of its own.";
    case TIMEFD_REASON_NARROW_NAME: return "Write the short name.";
    case TIMEFD_REASON_OPTIONAL_PART: return "Convert the part alone, and put its text into `[optional [..]]`.";
    case TIMEFD_REASON_ORDINAL_SUFFIX: return "Write the number alone.";
    case TIMEFD_REASON_PAD_LETTER: return "Write the next letter as often as it has digits.";
    case TIMEFD_REASON_PLATFORM: return "Write a directive that all platforms have.";
    case TIMEFD_REASON_QUARTER: return "Write the month, or count the quarter in a program.";
    case TIMEFD_REASON_READING_ONLY: return "Write a directive for writing.";
    case TIMEFD_REASON_RESERVED: return "Quote it if it is meant as text, or leave it out.";
    case TIMEFD_REASON_TOO_MANY_LETTERS: return "Write fewer of them.";
    case TIMEFD_REASON_TWO_DIGIT_YEAR: return "Read by a format with all digits of the year.";
    case TIMEFD_REASON_TWO_LETTER_NAME: return "Write the short name, of three letters.";
    case TIMEFD_REASON_UNCLOSED_QUOTE: return "Close it; write a literal quote twice.";
    case TIMEFD_REASON_UNIT_OF_DAY: return "Write hour, minute, second and fraction.";
    case TIMEFD_REASON_UNKNOWN_DIRECTIVE: return "Write one that it has; write a literal `%` twice.";
    case TIMEFD_REASON_UNKNOWN_LETTER: return "Quote it if it is meant as text.";
    case TIMEFD_REASON_UNSUPPORTED: return "Write a directive that has one meaning.";
    case TIMEFD_REASON_VARIABLE_FRACTION: return "Write a fixed number of digits.";
    case TIMEFD_REASON_VARIABLE_OFFSET: return "Write the offset with its minutes.";
    case TIMEFD_REASON_VARIABLE_WIDTH: return "Write the value with a fixed width.";
    case TIMEFD_REASON_WEEK_OF_MONTH: return "Write the day of the month.";
    case TIMEFD_REASON_WIDTH: return "Leave the width out, and write what it fills as a literal, like `0[day]` for `%3d`.";
    case TIMEFD_REASON_Z_FOR_UTC: return "Write the offset in digits, or `Z` as a literal where each moment is one of UTC.";
    case TIMEFD_REASON_ZONE_NAME: return "Write the offset, or the name as a literal.";
    }
    return "";
}

/* Answers why a component shows nothing: "the value has no date". */
static inline const char *timefd_unshown_sentence(uint32_t reason) {
    switch (reason) {
    case TIMEFD_NO_DATE: return "the value has no date";
    case TIMEFD_NO_TIME: return "the value has no time of day";
    case TIMEFD_NO_OFFSET: return "the value has no offset from UTC";
    case TIMEFD_YEAR_TOO_LONG: return "the year has too many digits";
    case TIMEFD_INSTANT_OUT_OF_RANGE: return "the instant is in no year from -999999 to 999999 of UTC";
    }
    return "";
}

/* Answers the range of a number of a moment: "month must be in the range 1..=12". */
static inline const char *timefd_range_sentence(uint32_t reason) {
    switch (reason) {
    case TIMEFD_RANGE_YEAR: return "year must be in the range -999999..=999999";
    case TIMEFD_RANGE_MONTH: return "month must be in the range 1..=12";
    case TIMEFD_RANGE_DAY: return "the month has no such day";
    case TIMEFD_RANGE_HOUR: return "hour must be in the range 0..=23";
    case TIMEFD_RANGE_MINUTE: return "minute must be in the range 0..=59";
    case TIMEFD_RANGE_SECOND: return "second must be in the range 0..=59";
    case TIMEFD_RANGE_NANOSECOND: return "nanosecond must be in the range 0..=999999999";
    case TIMEFD_RANGE_OFFSET: return "offset must be less than 26 hours from UTC";
    }
    return "";
}

/* Answers the name of a part of a moment: "day of the year". */
static inline const char *timefd_part_name(uint32_t part) {
    switch (part) {
    case TIMEFD_PART_DAY: return "day";
    case TIMEFD_PART_MONTH: return "month";
    case TIMEFD_PART_ORDINAL: return "day of the year";
    case TIMEFD_PART_WEEKDAY: return "weekday";
    case TIMEFD_PART_ISO_WEEK: return "ISO week";
    case TIMEFD_PART_SUNDAY_WEEK: return "week from Sunday";
    case TIMEFD_PART_MONDAY_WEEK: return "week from Monday";
    case TIMEFD_PART_YEAR_LAST_TWO: return "last two digits of the year";
    case TIMEFD_PART_CENTURY: return "century";
    case TIMEFD_PART_YEAR: return "year";
    case TIMEFD_PART_ISO_YEAR_LAST_TWO: return "last two digits of the ISO year";
    case TIMEFD_PART_ISO_CENTURY: return "century of the ISO year";
    case TIMEFD_PART_ISO_YEAR: return "ISO year";
    case TIMEFD_PART_HOUR: return "hour";
    case TIMEFD_PART_HOUR_12: return "hour of twelve";
    case TIMEFD_PART_PERIOD: return "period";
    case TIMEFD_PART_MINUTE: return "minute";
    case TIMEFD_PART_SECOND: return "second";
    case TIMEFD_PART_SUBSECOND: return "fraction of a second";
    case TIMEFD_PART_OFFSET_HOUR: return "hour of the offset";
    case TIMEFD_PART_OFFSET_MINUTE: return "minute of the offset";
    case TIMEFD_PART_OFFSET_SECOND: return "second of the offset";
    case TIMEFD_PART_UNIX_SECOND: return "Unix timestamp in seconds";
    case TIMEFD_PART_UNIX_MILLISECOND: return "Unix timestamp in milliseconds";
    case TIMEFD_PART_UNIX_MICROSECOND: return "Unix timestamp in microseconds";
    case TIMEFD_PART_UNIX_NANOSECOND: return "Unix timestamp in nanoseconds";
    }
    return "";
}

/* Writes the sentence of the fault of a refused text, and answers its length. */
static inline size_t timefd_private_fault_sentence(uint32_t kind, const char *text, char *sentence, size_t room) {
    timefd_answer answer;
    timefd_check_text(kind, text, sentence, room, &answer);
    return answer.sentence_len;
}

/* Writes why timefd_format_text or timefd_format_nodes_text wrote nothing, with a 0 at the end. Answers how many bytes the whole
   sentence has without the 0; if there is too little room, the sentence is cut. `kind` and `text` are those that the call had; after a
   call by nodes the text may be null.

       char sentence[128];
       timefd_format_sentence(TIMEFD_VERSION_3, "[hour]", &answer, sentence, sizeof sentence);
       puts(sentence);    the component `hour` shows nothing: the value has no time of day */
static inline size_t timefd_format_sentence(uint32_t kind, const char *text, const timefd_format_answer *answer, char *sentence,
                                            size_t room) {
    if (answer->status == TIMEFD_REFUSED) {
        return timefd_private_fault_sentence(kind, text, sentence, room);
    }
    if (answer->status == TIMEFD_UNSHOWN) {
        return (size_t)snprintf(sentence, room, "the component `%s` shows nothing: %s", timefd_component_name(answer->component),
                                timefd_unshown_sentence(answer->reason));
    }
    if (answer->status == TIMEFD_OUT_OF_RANGE) {
        return (size_t)snprintf(sentence, room, "%s", timefd_range_sentence(answer->reason));
    }
    if (answer->status == TIMEFD_ACCEPTED && answer->written < answer->value) {
        return (size_t)snprintf(sentence, room, "the buffer has no room for the text");
    }
    return (size_t)snprintf(sentence, room, "%s", timefd_status_sentence(answer->status));
}

/* Writes why timefd_read_date_text read no moment, as timefd_format_sentence does.

       puts(sentence);    the component `month` was expected at byte 3 */
static inline size_t timefd_read_date_sentence(uint32_t kind, const char *text, const timefd_date_answer *answer, char *sentence,
                                               size_t room) {
    const char *component = timefd_component_name(answer->component);
    const char *part = timefd_part_name(answer->part);
    switch (answer->reason) {
    case TIMEFD_READS_NOTHING:
        return (size_t)snprintf(sentence, room, "the component `%s` was expected at byte %zu", component, answer->value);
    case TIMEFD_READS_ANOTHER_VALUE:
        return (size_t)snprintf(sentence, room, "the component `%s` has a different value at byte %zu", component,
                                answer->value);
    case TIMEFD_ANOTHER_TEXT:
        return (size_t)snprintf(sentence, room, "another text was expected at byte %zu", answer->value);
    case TIMEFD_TEXT_FOLLOWS:
        return (size_t)snprintf(sentence, room, "nothing may follow at byte %zu", answer->value);
    }
    if (answer->status == TIMEFD_REFUSED) {
        return timefd_private_fault_sentence(kind, text, sentence, room);
    }
    if (answer->status == TIMEFD_MISSING) {
        return (size_t)snprintf(sentence, room, "the %s was not read", part);
    }
    if (answer->status == TIMEFD_CONTRADICTION) {
        return (size_t)snprintf(sentence, room, "the %s disagrees with what else was read", part);
    }
    return (size_t)snprintf(sentence, room, "%s", timefd_status_sentence(answer->status));
}

#ifdef __cplusplus
}
#endif

#endif

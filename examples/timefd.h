/* The calls of libtimefd.a and libtimefd.so: they check format descriptions, give their nodes, convert them, and write and read
   dates by them.

       const char *text = "[year]-[month]-[day]";
       timefd_answer answer = timefd_judge(TIMEFD_VERSION_3, (const uint8_t *)text, strlen(text));
       if (answer.status == TIMEFD_ACCEPTED) { .. }

   Three more headers are over this one: timefd_text.h for texts of `char`, with a 0 at their end or with a length, timefd_time.h for
   the times of <time.h>, and timefd_names.h for the names and sentences of the numbers here.

   What every call needs, beside what it says itself:

   - A pointer may be null where its length is 0, and nowhere else. A length is at most PTRDIFF_MAX, and of nodes at most
     PTRDIFF_MAX / sizeof(timefd_node).
   - A text needs no 0 at its end. Nobody writes to it while the call runs.
   - The bytes or nodes of a buffer have been set to some value before. While the call runs, nobody else reads or writes them. A buffer
     overlaps no other buffer, and nothing that the call reads.
   - The call doesn't come from a signal handler, nor from the forked child of a process with threads.
   - It has 112 KiB of stack: a text that is nested 127 deep takes about 70 of them. timefd_convert, timefd_read_date and
     timefd_read_nodes need more.

   What every call promises:

   - It frees all memory that it takes by malloc and realloc. It keeps no pointer. Calls on several threads share only the allocator.
   - It changes only the front of a buffer, as far as it writes. It puts no 0 after a text. */

#ifndef TIMEFD_H
#define TIMEFD_H

#include <stdbool.h>
#include <stddef.h>
#include <stdint.h>

#ifdef __cplusplus
extern "C" {
#endif

/* The number of this header's version, 0.2.0: a million for each major one, a thousand for each minor one. */
#define TIMEFD_VERSION 2000u

/* The number of the library's version. If it isn't TIMEFD_VERSION, this is the header of another library. */
uint32_t timefd_version(void);

/* The languages: the three versions of format descriptions, and the conversion specifications of strftime. */
#define TIMEFD_VERSION_1 1u
#define TIMEFD_VERSION_2 2u
#define TIMEFD_VERSION_3 3u
#define TIMEFD_STRFTIME 4u

/* The text is a description. The value is the number of its items; in version 3 it is the number of bytes that the description
   reserves: the longest text that is written by it has so many. From timefd_v1_to_v2, timefd_v2_to_v3, timefd_convert and
   timefd_convert_format the value is the length of the result, in bytes. */
#define TIMEFD_ACCEPTED 0u

/* The text isn't a description. The value is the index of the fault: how many bytes of the text are before it. It is at most the
   text's length, and between two characters. From timefd_convert_format: a part of the format has no text of version 3. */
#define TIMEFD_REFUSED 1u

/* The bytes aren't UTF-8. The value is 0. From timefd_read_nodes: a literal isn't UTF-8 by itself. */
#define TIMEFD_NOT_UTF8 2u

/* malloc or realloc gave no memory. The value is 0. A text with a fault is still refused for it: its fault and its sentence take no
   memory. timefd_judge and timefd_check answer this only for texts of version 3. */
#define TIMEFD_NO_MEMORY 3u

/* No language has the number, whatever the bytes are. The value is 0. From timefd_convert_format: no dialect has it. */
#define TIMEFD_UNKNOWN_KIND 4u

/* Only from timefd_format and timefd_format_nodes: a component of the description shows nothing of the moment. The value is 0. */
#define TIMEFD_UNSHOWN 5u

/* Only from these two: a number of the moment is out of its range, whatever the text or the nodes are. The value is 0. */
#define TIMEFD_OUT_OF_RANGE 6u

/* Only from timefd_convert: there is no conversion between these two languages, whatever the bytes are. The value is 0. */
#define TIMEFD_NO_CONVERSION 7u

/* Only from timefd_format_nodes and timefd_read_nodes: the nodes aren't a description. The value is the index of the first node that
   isn't part of one: one of its numbers means nothing, its bytes aren't all among the literals, or it takes more members than there
   are before it. */
#define TIMEFD_NO_DESCRIPTION 8u

/* Only from timefd_read_date and timefd_read_nodes: a part of the date doesn't match the description. The value is the index of the
   first such part: how many bytes of the date are before it. */
#define TIMEFD_UNREAD 9u

/* Only from these two: the whole date was read, and no moment has everything that was read. The value is 0. */
#define TIMEFD_CONTRADICTION 10u

/* Only from these two: the whole date was read, and it is too little for a moment. The value is 0. */
#define TIMEFD_MISSING 11u

/* Only from these two: the bytes of the date aren't UTF-8. The value is 0. A fault of the description isn't reported then; but bytes
   of the description that aren't UTF-8 are, and so are nodes that aren't a description. */
#define TIMEFD_DATE_NOT_UTF8 12u

/* The answer on a text. Its status is one of the first five, or from timefd_convert also TIMEFD_NO_CONVERSION. */
typedef struct timefd_answer {
    uint32_t status;
    size_t value;

    /* From timefd_check and timefd_diagnose, if the status is TIMEFD_REFUSED: how many bytes the whole sentence of the fault has.
       Otherwise 0. */
    size_t sentence_len;

    /* How many bytes were written to the buffer. If the room is too little, these are fewer than the sentence or the result has. */
    size_t written;
} timefd_answer;

/* Checks the `len` bytes at `text` in the language `kind`.

       "[year]-[month]-[day]" in version 3    TIMEFD_ACCEPTED, value 11
       "[mnth]" in version 3                  TIMEFD_REFUSED, value 1 */
timefd_answer timefd_judge(uint32_t kind, const uint8_t *text, size_t len);

/* Checks a text as timefd_judge does. If the text is refused, writes the sentence of its fault, in UTF-8, to the `room` bytes at
   `sentence`: all of it, or as many characters as there is room for. Otherwise it writes nothing.

       "[mnth]" in version 3    invalid component name `mnth` at byte index 1 */
timefd_answer timefd_check(uint32_t kind, const uint8_t *text, size_t len, uint8_t *sentence, size_t room);

/* Which fault a text has. timefd_names.h has the names that the linter gives to faults. */
#define TIMEFD_FAULT_UNCLOSED_BRACKET 1u     /* a bracket has no end */
#define TIMEFD_FAULT_UNKNOWN_NAME 2u         /* a bracket has the name of no component, or strftime has no such letter */
#define TIMEFD_FAULT_INVALID_MODIFIER 3u     /* a word is no modifier of its component, or no key and value */
#define TIMEFD_FAULT_MISSING_NAME 4u         /* a bracket has no name */
#define TIMEFD_FAULT_MISSING_MODIFIER 5u     /* a component lacks a modifier that it needs */
#define TIMEFD_FAULT_INVALID_ESCAPE 6u       /* what follows a backslash or a percent sign is nothing that it takes */
#define TIMEFD_FAULT_UNESCAPED_BRACKET 7u    /* a `]` stands alone, and version 3 needs a backslash before it */
#define TIMEFD_FAULT_MISSING_SPACE 8u        /* a nested description touches the word before it */
#define TIMEFD_FAULT_MISSING_DESCRIPTION 9u  /* `optional` has no nested description */
#define TIMEFD_FAULT_MISSING_ALTERNATIVE 10u /* `first` has none */
#define TIMEFD_FAULT_NESTED_TOO_DEEP 11u     /* a nested description stands inside too many */
#define TIMEFD_FAULT_SEVERAL_DESCRIPTIONS 12u /* `optional` has more than one nested description */
#define TIMEFD_FAULT_OPTIONAL_ITEM 13u       /* `optional` stands in a version that lacks it */
#define TIMEFD_FAULT_FIRST_ITEM 14u          /* `first` stands in a version that lacks it */
#define TIMEFD_FAULT_UNSUPPORTED_FLAG 15u    /* a flag of strftime that is not read */
#define TIMEFD_FAULT_UNSUPPORTED_LETTER 16u  /* a letter of strftime that is not read */
#define TIMEFD_FAULT_NESTED_IN_COMPONENT 17u /* a component has a nested description, but takes none */
#define TIMEFD_FAULT_DUPLICATE_MODIFIER 18u  /* a bracket has a key twice, and version 3 takes it once */
#define TIMEFD_FAULT_REFUSED_MODIFIER 19u    /* a key stands beside a value of another key that excludes it */

/* A fault, beside its sentence. If the text isn't refused, all of it is 0. */
typedef struct timefd_fault {
    uint32_t code;          /* one of the faults above */
    bool out_of_memory;     /* whether memory ran out for the nearest word: then there is none, and all else is as always */
    size_t start;           /* the bytes at fault, from the index of the fault on, */
    size_t end;             /* up to the end of the name, the key or the value there, or else of the one character there */
    size_t nearest_len;     /* how many bytes the nearest word has that is allowed there; 0 if none is near */
    size_t nearest_written; /* how many of them were written: all of them, or none */
} timefd_fault;

/* The answer on a text, with its whole fault. */
typedef struct timefd_diagnosis {
    timefd_answer answer; /* what timefd_check answers */
    timefd_fault fault;
} timefd_diagnosis;

/* Checks a text and writes its sentence as timefd_check does. Also answers which fault a refused text has, which bytes are at fault,
   and how long the nearest word is: of the names, keys or values that are allowed there, whatever the case of the word at fault.
   For strftime there is none. It writes that word to the `word_room` bytes at `word` if they have room for all of it: 16 bytes are
   always enough.

       "[mnth]" in version 3    TIMEFD_FAULT_UNKNOWN_NAME, the bytes from 1 to 5, and the word `month` */
timefd_diagnosis timefd_diagnose(uint32_t kind, const uint8_t *text, size_t len, uint8_t *sentence, size_t room, uint8_t *word,
                                 size_t word_room);

/* What is suspect in a description that is accepted. The names are those that the linter has, in small letters and with `-`. */
#define TIMEFD_WARNING_NO_COMPONENT 1u             /* it has no component, so it writes every moment alike */
#define TIMEFD_WARNING_OTHER_LANGUAGE 2u           /* some of its text is a component in another language */
#define TIMEFD_WARNING_MONTH_FOR_MINUTE 3u         /* a month stands after an hour, and there is no minute */
#define TIMEFD_WARNING_MINUTE_FOR_MONTH 4u         /* a minute stands after a year, and there is no month */
#define TIMEFD_WARNING_HOUR_WITHOUT_PERIOD 5u      /* it has an hour of twelve, and neither a period nor an hour of 24 */
#define TIMEFD_WARNING_PERIOD_WITH_24_HOURS 6u     /* it has a period, and an hour of 24 but none of twelve */
#define TIMEFD_WARNING_SUBSECOND_WITHOUT_SECOND 7u /* it has a fraction of a second, and no second */
#define TIMEFD_WARNING_WEEK_WITH_CALENDAR_YEAR 8u  /* it has an ISO week and a calendar year, and no ISO year */
#define TIMEFD_WARNING_DATE_WITH_ISO_YEAR 9u       /* it has a month or a day and an ISO year, and no calendar year */
#define TIMEFD_WARNING_SHOWN_TWICE 10u             /* it shows something twice */
#define TIMEFD_WARNING_UNDETERMINED_DATE 11u       /* it has parts of a date that don't determine one */
#define TIMEFD_WARNING_UNSETTLED_WIDTH 12u         /* a number of varying width touches a digit */
#define TIMEFD_WARNING_UNSETTLED_YEAR 13u          /* a year that may have more than four digits touches a digit */
#define TIMEFD_WARNING_DEPRECATED_COMPONENT 14u    /* a deprecated component; no text is read as one */

/* The most warnings that a description can have: one of each. */
#define TIMEFD_MOST_WARNINGS 14u

/* A warning of a description, and the bytes that it is about. Each of the warnings above is about the whole text. */
typedef struct timefd_warning {
    uint32_t code; /* one of the warnings above */
    size_t start;  /* the index of the first of the bytes, */
    size_t end;    /* and the index after the last one */
} timefd_warning;

/* The answer on a text whose warnings are asked for. */
typedef struct timefd_warnings_answer {
    uint32_t status; /* one of the five, and the value that timefd_judge has */
    size_t value;
    size_t count;   /* how many warnings an accepted text has, or else 0 */
    size_t written; /* how many of them were written: the first ones */
} timefd_warnings_answer;

/* Checks a text as timefd_judge does, and writes the warnings of an accepted one to the front of the `room` warnings at `warnings`: all
   of them, in the order of their numbers, or as many as there is room for. A room of TIMEFD_MOST_WARNINGS is always enough.

       "%Y-%m-%d" in version 3    TIMEFD_WARNING_NO_COMPONENT and TIMEFD_WARNING_OTHER_LANGUAGE: it writes every moment as %Y-%m-%d

   The rest of the buffer stays as it was, and so does all of it unless the status is TIMEFD_ACCEPTED. In any language memory may run
   out. `room` is at most PTRDIFF_MAX / sizeof(timefd_warning). */
timefd_warnings_answer timefd_warnings(uint32_t kind, const uint8_t *text, size_t len, timefd_warning *warnings, size_t room);

/* Converts the `len` bytes at `text` from version 1 to version 2, with the same items, and writes the result to the `room` bytes
   at `buffer` if they have room for all of it: 2 * len bytes are always enough. The value is the length of the result, written or
   not. A text that timefd_judge refuses as version 1 is refused for the same fault, and nothing is written. The status is never
   TIMEFD_UNKNOWN_KIND.

       a]b    a\]b */
timefd_answer timefd_v1_to_v2(const uint8_t *text, size_t len, uint8_t *buffer, size_t room);

/* Converts the `len` bytes at `text` from version 2 to version 3, with the same items, as timefd_v1_to_v2 does, with the faults
   of version 2. But no room is always enough: if it is too little, the value is how much the result needs.

       [YEAR]    [year range:extended]

   The result has small letters and its modifiers in one order. It has only those modifiers that differ from version 3's default, and
   the range of each year that has one. A `\` stands before each `[`, `]` and `\` of a literal. Versions 2 and 3 parse the result
   alike, and a second conversion changes nothing. */
timefd_answer timefd_v2_to_v3(const uint8_t *text, size_t len, uint8_t *buffer, size_t room);

/* Converts the `len` bytes at `text` from the language `from` to the language `to`, with the same items, as timefd_v1_to_v2 does,
   with the faults of the language `from`.

       %d.%m. from strftime to version 3    [day].[month].

   Version 1 is converted to versions 2 and 3, version 2 and strftime to version 3, and version 3 to its normal form, which is the same
   for all descriptions that mean the same. No other pair has a conversion: then the status is TIMEFD_NO_CONVERSION, or
   TIMEFD_UNKNOWN_KIND if `from` or `to` isn't a language.

   To version 2 it writes what timefd_v1_to_v2 does, and 2 * len bytes are always enough. From version 2 it writes what timefd_v2_to_v3
   does. From strftime 53 * len bytes are always enough. Conversions from version 1 and from strftime make one literal of those side by
   side; those from strftime also write a composite letter part by part.

   From version 3 it needs 192 KiB of stack: a text that is nested 127 deep takes up to 155 of them. */
timefd_answer timefd_convert(uint32_t from, uint32_t to, const uint8_t *text, size_t len, uint8_t *buffer, size_t room);

/* The dialects: languages and libraries whose formats are converted to version 3. None has the number of a language. */
#define TIMEFD_PYTHON 101u /* strftime of Python's datetime */
#define TIMEFD_C 102u      /* strftime of C, as glibc has it */
#define TIMEFD_GNU 103u    /* date of GNU coreutils */
#define TIMEFD_CHRONO 104u /* format of chrono, for Rust */
#define TIMEFD_JIFF 105u   /* strftime of jiff, for Rust */
#define TIMEFD_RUBY 106u   /* strftime of Ruby's Time */
#define TIMEFD_JAVA 107u   /* patterns of Java's DateTimeFormatter */
#define TIMEFD_GO 108u     /* layouts of Go's time */
#define TIMEFD_MOMENT 109u /* tokens of moment.js, for JavaScript */

/* Why a part of a format has no text of version 3. timefd_names.h has a sentence on each reason, and what to do. */
#define TIMEFD_REASON_BACKSLASH 1u          /* a `\` takes the meaning of the next token away */
#define TIMEFD_REASON_CAPITALS 2u           /* it writes a name in capitals, or changes their case */
#define TIMEFD_REASON_DATETIME_ONLY 3u      /* Ruby's `DateTime` alone has it */
#define TIMEFD_REASON_DAY_PERIOD 4u         /* it writes a period of the day, like `in the morning` */
#define TIMEFD_REASON_ERA 5u                /* it writes an era, and version 3 has none */
#define TIMEFD_REASON_FLAG 6u               /* this directive takes no such flag, and none with a width */
#define TIMEFD_REASON_FRACTION_WIDTH 7u     /* it writes a fraction of a second of more than nine digits */
#define TIMEFD_REASON_GMT_OFFSET 8u         /* it writes an offset as `GMT+1` */
#define TIMEFD_REASON_HOUR_FROM_0_OR_24 9u  /* it counts hours from 0 to 11 or from 1 to 24 */
#define TIMEFD_REASON_JULIAN_DAY 10u        /* it counts days from a day long ago */
#define TIMEFD_REASON_LOCAL_TIME 11u        /* it depends on the time zone of the process */
#define TIMEFD_REASON_LOCAL_WEEK 12u        /* it counts weeks or weekdays as a locale does, or writes the year of such weeks */
#define TIMEFD_REASON_LOCALE 13u            /* what it writes depends on the locale */
#define TIMEFD_REASON_NARROW_NAME 14u       /* it writes the first letter of a name */
#define TIMEFD_REASON_OPTIONAL_PART 15u     /* a part in `[` and `]` is optional */
#define TIMEFD_REASON_ORDINAL_SUFFIX 16u    /* it writes a number like `1st` */
#define TIMEFD_REASON_PAD_LETTER 17u        /* it pads the next letter to a width */
#define TIMEFD_REASON_PLATFORM 18u          /* platforms differ in what it writes */
#define TIMEFD_REASON_QUARTER 19u           /* it writes a quarter, and version 3 has none */
#define TIMEFD_REASON_READING_ONLY 20u      /* it can be read, and not be written */
#define TIMEFD_REASON_RESERVED 21u          /* the character is reserved */
#define TIMEFD_REASON_TOO_MANY_LETTERS 22u  /* no pattern repeats this letter so often */
#define TIMEFD_REASON_TWO_DIGIT_YEAR 36u    /* it reads two digits of a year, which leave the century open */
#define TIMEFD_REASON_TWO_LETTER_NAME 23u   /* it writes a weekday in two letters */
#define TIMEFD_REASON_UNCLOSED_QUOTE 24u    /* no quote closes this one */
#define TIMEFD_REASON_UNIT_OF_DAY 25u       /* it counts milliseconds or nanoseconds from midnight on */
#define TIMEFD_REASON_UNKNOWN_DIRECTIVE 26u /* the dialect has no such directive */
#define TIMEFD_REASON_UNKNOWN_LETTER 27u    /* the letter has no meaning and isn't quoted */
#define TIMEFD_REASON_UNSUPPORTED 28u       /* libraries differ in what it means, or lack it */
#define TIMEFD_REASON_VARIABLE_FRACTION 29u /* it writes as many digits of a fraction as it has, or none */
#define TIMEFD_REASON_VARIABLE_OFFSET 30u   /* it writes as much of an offset as there is */
#define TIMEFD_REASON_VARIABLE_WIDTH 31u    /* its width depends on the value */
#define TIMEFD_REASON_WEEK_OF_MONTH 32u     /* it counts weeks or weekdays within the month */
#define TIMEFD_REASON_WIDTH 33u             /* no component of version 3 has this width */
#define TIMEFD_REASON_Z_FOR_UTC 34u         /* it writes `Z` for an offset of zero */
#define TIMEFD_REASON_ZONE_NAME 35u         /* it writes the name of a time zone */

/* The answer on a format of a dialect. */
typedef struct timefd_convert_answer {
    uint32_t status; /* one of the first five; TIMEFD_UNKNOWN_KIND if no dialect has the number */
    uint32_t reason; /* if the format is refused, one of the reasons above; else 0 */

    /* The length of the text of version 3 in bytes. If the format is refused, how many of its bytes are before the first part that has
       no text. Else 0. */
    size_t value;

    size_t written;      /* how many bytes were written: all of the text, or none */
    uint32_t first_year; /* the text writes the same as the format from this year on, up to the year 9999; 0 if it isn't accepted */
    bool whole_minutes;  /* whether it does so only if the offset has no seconds */
} timefd_convert_answer;

/* Converts the `len` bytes at `format`, a format of the dialect with this number, to a text of version 3 that writes the same, and
   writes that to the `room` bytes at `buffer` if they have room for all of it. Else the buffer stays as it was, and the value says
   how much room the text needs.

       %d.%m.%Y of TIMEFD_PYTHON    [day].[month].[year], from the year 1000 on
       QQ yyyy of TIMEFD_JAVA       TIMEFD_REFUSED, TIMEFD_REASON_QUARTER, value 0

   The first part, from the left, that has no text is refused, and nothing is written. With any format memory may run out. */
timefd_convert_answer timefd_convert_format(uint32_t dialect, const uint8_t *format, size_t len, uint8_t *buffer, size_t room);

/* What a node is. */
#define TIMEFD_LITERAL 1u   /* bytes of the buffer of literals, as they stand */
#define TIMEFD_COMPONENT 2u /* a component with its modifiers */
#define TIMEFD_COMPOUND 3u  /* its members in turn */
#define TIMEFD_OPTIONAL 4u  /* one member, which a parser may skip */
#define TIMEFD_FIRST 5u     /* alternatives: a parser takes the first that fits, a formatter the first of all */
#define TIMEFD_COMPOSITE 6u /* only from timefd_read_composites: a composite letter of strftime, whose list is elsewhere */

/* The components. One that Rust's crate `time` calls deprecated comes as the one that it stands for. */
#define TIMEFD_DAY 1u
#define TIMEFD_MONTH_SHORT 2u
#define TIMEFD_MONTH_LONG 3u
#define TIMEFD_MONTH_NUMERICAL 4u
#define TIMEFD_ORDINAL 5u
#define TIMEFD_WEEKDAY_SHORT 6u
#define TIMEFD_WEEKDAY_LONG 7u
#define TIMEFD_WEEKDAY_SUNDAY 8u
#define TIMEFD_WEEKDAY_MONDAY 9u
#define TIMEFD_WEEK_NUMBER_ISO 10u
#define TIMEFD_WEEK_NUMBER_SUNDAY 11u
#define TIMEFD_WEEK_NUMBER_MONDAY 12u
#define TIMEFD_CALENDAR_YEAR_FULL_EXTENDED_RANGE 13u
#define TIMEFD_CALENDAR_YEAR_FULL_STANDARD_RANGE 14u
#define TIMEFD_CALENDAR_YEAR_CENTURY_EXTENDED_RANGE 15u
#define TIMEFD_CALENDAR_YEAR_CENTURY_STANDARD_RANGE 16u
#define TIMEFD_ISO_YEAR_FULL_EXTENDED_RANGE 17u
#define TIMEFD_ISO_YEAR_FULL_STANDARD_RANGE 18u
#define TIMEFD_ISO_YEAR_CENTURY_EXTENDED_RANGE 19u
#define TIMEFD_ISO_YEAR_CENTURY_STANDARD_RANGE 20u
#define TIMEFD_CALENDAR_YEAR_LAST_TWO 21u
#define TIMEFD_ISO_YEAR_LAST_TWO 22u
#define TIMEFD_HOUR_12 23u
#define TIMEFD_HOUR_24 24u
#define TIMEFD_MINUTE 25u
#define TIMEFD_PERIOD 26u
#define TIMEFD_SECOND 27u
#define TIMEFD_SUBSECOND 28u
#define TIMEFD_OFFSET_HOUR 29u
#define TIMEFD_OFFSET_MINUTE 30u
#define TIMEFD_OFFSET_SECOND 31u
#define TIMEFD_IGNORE 32u
#define TIMEFD_UNIX_TIMESTAMP_SECOND 33u
#define TIMEFD_UNIX_TIMESTAMP_MILLISECOND 34u
#define TIMEFD_UNIX_TIMESTAMP_MICROSECOND 35u
#define TIMEFD_UNIX_TIMESTAMP_NANOSECOND 36u
#define TIMEFD_END 37u

/* The values of modifiers. A modifier that the component doesn't have is 0. */
#define TIMEFD_PADDING_SPACE 1u
#define TIMEFD_PADDING_ZERO 2u
#define TIMEFD_PADDING_NONE 3u
#define TIMEFD_FALSE 1u
#define TIMEFD_TRUE 2u
#define TIMEFD_ONE_OR_MORE 10u /* digits; else 1 to 9 */
#define TIMEFD_PROHIBIT 1u     /* trailing input is refused */
#define TIMEFD_DISCARD 2u      /* trailing input is dropped */

/* A part of a description. */
typedef struct timefd_node {
    uint8_t what;              /* one of the six above */
    uint8_t component;         /* which component, or 0 */
    uint8_t padding;           /* TIMEFD_PADDING_SPACE, TIMEFD_PADDING_ZERO or TIMEFD_PADDING_NONE */
    uint8_t sign_is_mandatory; /* TIMEFD_FALSE or TIMEFD_TRUE, as the next three */
    uint8_t case_sensitive;
    uint8_t one_indexed;
    uint8_t is_uppercase;
    uint8_t digits;         /* 1 to 9, or TIMEFD_ONE_OR_MORE */
    uint8_t trailing_input; /* TIMEFD_PROHIBIT or TIMEFD_DISCARD */
    uint8_t format;         /* of an optional: whether a formatter writes it, TIMEFD_FALSE or TIMEFD_TRUE */
    uint16_t ignored;       /* how many bytes a parser skips, 1 to 65535 */
    uint32_t bytes;         /* the bytes that are reserved for it, the length of the longest text that it can be shown as;
                               UINT32_MAX if there are more */
    size_t start;           /* of a literal the index of its first byte in the buffer of literals; of any other node the index
                               of the first node of its members, or its own index if it has none */
    size_t count;           /* how many bytes a literal has, and how many members any other node */
} timefd_node;

/* The answer of timefd_read on a text. */
typedef struct timefd_read_answer {
    uint32_t status; /* one of the five, and the value that timefd_judge has */
    size_t value;
    size_t nodes;    /* how many nodes an accepted text has, or else 0 */
    size_t literals; /* how many bytes its literals have together, or else 0 */
    bool written;    /* whether both buffers had room for all of them */
    size_t bytes;    /* the length of the longest text that a description can write, in every language: a buffer of that length
                        is never too short. SIZE_MAX if there are more, and 0 if the text isn't accepted. In version 3 it is
                        the value. */
} timefd_read_answer;

/* Checks a text as timefd_judge does, and writes the nodes of a description to the `node_room` nodes at `nodes`, and the bytes of
   its literals in turn to the `literal_room` bytes at `literals`, with no 0 between them.

       "due [day]" in version 3    a literal, a component, and a compound of these two; the literals are "due "

   If either has no room for all, or the text is refused, what both hold afterwards means nothing. The answer says how much room is
   needed, so a program may call again with more. These are always enough: for version 3 len + 1 nodes, for versions 1 and 2 len
   nodes, and for each of these len bytes of literals; for strftime 7 * len nodes and 3 * len bytes. Only nested descriptions of
   version 3 take memory.

   Each node comes after those of its members. In version 3 the last node is the whole description: its one part, or else a compound;
   the empty text is a compound without members. The members of node i are found from the last one back: the last one is node i - 1.
   If a member is node k, the member before it is node start - 1, with the `start` of node k; or node k - 1 if node k is a literal or a
   component, which have no nodes but their own. In versions 1 and 2 and in strftime the nodes are those of the items in turn; versions
   1 and 2 have only literals and components, and strftime has compounds of these too. */
timefd_read_answer timefd_read(uint32_t kind, const uint8_t *text, size_t len, timefd_node *nodes, size_t node_room,
                               uint8_t *literals, size_t literal_room);

/* Reads a text as timefd_read does, with a limit on nesting: at most `limit` nested descriptions may stand around one another. With 0
   none may be nested; 127 is the limit of each call that is handed none, and a greater number counts as 127. The limit bounds how deep a program
   goes that walks the nodes.

       "[optional [[day]]]" in version 3, with the limit 0    TIMEFD_REFUSED, value 10

   A text that nests more is refused at the `[` of the first nested description inside too many, unless it is refused for something
   before that. Versions 1 and 2, which take no nested descriptions, have the limit too; strftime nests none. timefd_check and
   timefd_diagnose don't report this fault if the limit 127 allows the text. */
timefd_read_answer timefd_read_within(uint32_t kind, uint32_t limit, const uint8_t *text, size_t len, timefd_node *nodes,
                                      size_t node_room, uint8_t *literals, size_t literal_room);

/* All composite letters in one text of strftime, and how many nodes and bytes of literals timefd_read writes for it. */
#define TIMEFD_COMPOSITES "%c%D%F%r%R%T%z"
#define TIMEFD_COMPOSITE_NODES 47u
#define TIMEFD_COMPOSITE_LITERALS 16u

/* Reads a text of strftime as timefd_read does, but a composite letter is one node, a TIMEFD_COMPOSITE. Its `start` and `count`
   are those of its list among the nodes of TIMEFD_COMPOSITES. A program reads these nodes once, by timefd_read, into two buffers of
   their own, which have the literals of the lists too.

       "%F %H"    three nodes: a composite, a literal and a component

   So there are as many nodes as items: len nodes and len bytes of literals are always enough. The status is never
   TIMEFD_UNKNOWN_KIND, and no memory is taken. timefd_format_nodes and timefd_read_nodes take only nodes of timefd_read: for them a
   composite isn't part of a description. */
timefd_read_answer timefd_read_composites(const uint8_t *text, size_t len, timefd_node *nodes, size_t node_room,
                                          uint8_t *literals, size_t literal_room);

/* What is known of a moment, in `known`: one of these, or several joined by |. */
#define TIMEFD_HAS_DATE 1u
#define TIMEFD_HAS_TIME 2u
#define TIMEFD_HAS_OFFSET 4u

/* A date, a time of day, an offset from UTC, or some of these. No call looks at the fields of what isn't known. */
typedef struct timefd_moment {
    uint32_t known;
    int32_t year;           /* -999999 to 999999 */
    uint32_t nanosecond;    /* 0 to 999999999 */
    int32_t offset_seconds; /* how many seconds the clock is ahead of UTC; negative if it is behind. Less than 26 hours either way */
    uint8_t month;          /* 1 to 12 */
    uint8_t day;            /* 1 to the month's last */
    uint8_t hour;           /* 0 to 23 */
    uint8_t minute;         /* 0 to 59 */
    uint8_t second;         /* 0 to 59 */
} timefd_moment;

/* Why a component shows nothing: the moment has no date, no time of day, or no offset; the component doesn't show years of so many
   digits; the instant isn't in the years -999999 to 999999 of UTC. */
#define TIMEFD_NO_DATE 1u
#define TIMEFD_NO_TIME 2u
#define TIMEFD_NO_OFFSET 3u
#define TIMEFD_YEAR_TOO_LONG 4u
#define TIMEFD_INSTANT_OUT_OF_RANGE 5u

/* Which number of a moment is out of its range. In this order the first one is reported. */
#define TIMEFD_RANGE_YEAR 1u
#define TIMEFD_RANGE_MONTH 2u
#define TIMEFD_RANGE_DAY 3u
#define TIMEFD_RANGE_HOUR 4u
#define TIMEFD_RANGE_MINUTE 5u
#define TIMEFD_RANGE_SECOND 6u
#define TIMEFD_RANGE_NANOSECOND 7u
#define TIMEFD_RANGE_OFFSET 8u

/* The answer on a text, or on nodes, that a moment is written by. */
typedef struct timefd_format_answer {
    uint32_t status;
    uint32_t reason;    /* why a component shows nothing, or which number is out of its range, or else 0 */
    uint32_t component; /* which component shows nothing, by its number in nodes, or else 0. It is the first such one. */
    size_t value;       /* how many bytes the text has that was to be written; with TIMEFD_REFUSED the index of the fault, with
                           TIMEFD_NO_DESCRIPTION that of the node; or else 0 */
    size_t written;     /* how many bytes were written: all of the text, or none */
} timefd_format_answer;

/* Writes the moment by the description, the `len` bytes at `text` in the language `kind`, to the `room` bytes at `buffer` if they
   have room for all of it. Else it writes nothing, and the value is how much room is needed. In version 3 the value of timefd_judge
   is always enough room. What is written is UTF-8.

       "[day].[month].[year]" in version 3, and 2026-11-23    23.11.2026 */
timefd_format_answer timefd_format(uint32_t kind, const uint8_t *text, size_t len, const timefd_moment *moment, uint8_t *buffer,
                                   size_t room);

/* Writes a moment as timefd_format does, with a limit on nesting: see timefd_read_within. */
timefd_format_answer timefd_format_within(uint32_t kind, uint32_t limit, const uint8_t *text, size_t len,
                                          const timefd_moment *moment, uint8_t *buffer, size_t room);

/* Writes the moment by nodes that timefd_read wrote, or by others of that form, and the bytes of their literals. It writes what
   timefd_format writes by the text that the nodes were read from. It takes no memory, and no more stack for deeper nesting. The only
   statuses are TIMEFD_ACCEPTED, TIMEFD_UNSHOWN, TIMEFD_OUT_OF_RANGE and TIMEFD_NO_DESCRIPTION.

   Of a node with members it looks at `count`, which is 1 for an optional, and neither at `start` nor at `bytes`; nor does it look at a
   number that the node's component doesn't have. If the text would have more than SIZE_MAX bytes, the value is SIZE_MAX. What is
   written is UTF-8 if the literals are. */
timefd_format_answer timefd_format_nodes(const timefd_node *nodes, size_t node_count, const uint8_t *literals,
                                         size_t literal_count, const timefd_moment *moment, uint8_t *buffer, size_t room);

/* Why a part of a date doesn't match: the component can't read what comes next; the component was read before, and has another value
   here; the date doesn't go on with the literal text of the description; the description has ended, and the date goes on. */
#define TIMEFD_READS_NOTHING 1u
#define TIMEFD_READS_ANOTHER_VALUE 2u
#define TIMEFD_ANOTHER_TEXT 3u
#define TIMEFD_TEXT_FOLLOWS 4u

/* What can be read of a moment. Several components read the same part, and of a year its century and its last two digits are
   parts of their own. */
#define TIMEFD_PART_DAY 1u
#define TIMEFD_PART_MONTH 2u
#define TIMEFD_PART_ORDINAL 3u
#define TIMEFD_PART_WEEKDAY 4u
#define TIMEFD_PART_ISO_WEEK 5u
#define TIMEFD_PART_SUNDAY_WEEK 6u
#define TIMEFD_PART_MONDAY_WEEK 7u
#define TIMEFD_PART_YEAR_LAST_TWO 8u
#define TIMEFD_PART_CENTURY 9u
#define TIMEFD_PART_YEAR 10u
#define TIMEFD_PART_ISO_YEAR_LAST_TWO 11u
#define TIMEFD_PART_ISO_CENTURY 12u
#define TIMEFD_PART_ISO_YEAR 13u
#define TIMEFD_PART_HOUR 14u
#define TIMEFD_PART_HOUR_12 15u
#define TIMEFD_PART_PERIOD 16u
#define TIMEFD_PART_MINUTE 17u
#define TIMEFD_PART_SECOND 18u
#define TIMEFD_PART_SUBSECOND 19u
#define TIMEFD_PART_OFFSET_HOUR 20u
#define TIMEFD_PART_OFFSET_MINUTE 21u
#define TIMEFD_PART_OFFSET_SECOND 22u
#define TIMEFD_PART_UNIX_SECOND 23u
#define TIMEFD_PART_UNIX_MILLISECOND 24u
#define TIMEFD_PART_UNIX_MICROSECOND 25u
#define TIMEFD_PART_UNIX_NANOSECOND 26u

/* The answer on a date that is read. */
typedef struct timefd_date_answer {
    uint32_t status;
    uint32_t reason;      /* with TIMEFD_UNREAD why, or else 0 */
    uint32_t component;   /* with TIMEFD_UNREAD the component that doesn't match, by its number in nodes, or 0 for a literal or the
                             description's end; with any other status 0 */
    uint32_t part;        /* with TIMEFD_MISSING a part that wasn't read, with TIMEFD_CONTRADICTION one that contradicts others, or
                             else 0 */
    size_t value;         /* with TIMEFD_REFUSED the index of the description's fault, with TIMEFD_UNREAD an index in the date, with
                             TIMEFD_NO_DESCRIPTION the index of the node, or else 0 */
    timefd_moment moment; /* what was read; with any other status than TIMEFD_ACCEPTED nothing is known. The fields of what isn't
                             known are 0. */
} timefd_date_answer;

/* Reads the `date_len` bytes at `date` by the description, the `len` bytes at `text` in the language `kind`. The two may overlap.

       "23/11/2026" by "[day]/[month]/[year]" in version 3    TIMEFD_ACCEPTED, and the moment 2026-11-23
       "31/02/2026" by the same                               TIMEFD_CONTRADICTION, and TIMEFD_PART_DAY

   All of the date is read, unless an `end` drops what follows. A number that is padded is read in its full width: `[day]` reads
   "01", and not "1". Any other number takes as many digits as it can, so two of them need something between them. A name is read in
   any case if the description says so. An `optional` is skipped if its member doesn't match, and of the members of a `first` the
   first that matches is taken.

   A date, a time of day or an offset is known if something of it was read; after a Unix timestamp all three are. If a part was read
   twice, like a weekday beside a date, both have to agree; else the status is TIMEFD_CONTRADICTION. A description with a fault is
   refused for it, whatever the date is as long as it is UTF-8, and timefd_diagnose reports the whole fault. In any language memory may
   run out.

   It takes 2 KiB of stack for each level of nesting in version 3. So it needs 256 KiB for a description that is nested 127 deep, and
   stays within the 112 KiB for one that is nested forty deep. */
timefd_date_answer timefd_read_date(uint32_t kind, const uint8_t *text, size_t len, const uint8_t *date, size_t date_len);

/* Reads a date as timefd_read_date does, with a limit on nesting: see timefd_read_within. So a program that may use 112 KiB of stack
   reads by the descriptions of others with the limit 40. */
timefd_date_answer timefd_read_date_within(uint32_t kind, uint32_t limit, const uint8_t *text, size_t len, const uint8_t *date,
                                           size_t date_len);

/* Reads the `date_len` bytes at `date` by nodes that timefd_read wrote, or by others of that form, and the bytes of their literals. It
   reads what timefd_read_date reads by the text that the nodes were read from: so a program parses a description once. The statuses
   are TIMEFD_ACCEPTED, TIMEFD_NO_MEMORY, TIMEFD_NO_DESCRIPTION, TIMEFD_UNREAD, TIMEFD_CONTRADICTION, TIMEFD_MISSING,
   TIMEFD_DATE_NOT_UTF8, and TIMEFD_NOT_UTF8 if a literal isn't UTF-8 by itself.

   Of a node with members it looks at `count`, which is 1 for an optional, and neither at `start` nor at `bytes`; nor does it look at a
   number that the node's component doesn't have. If a date is read by literals and by numbers of two digits, and of four for a year,
   it takes no memory. Else it takes memory for a list of the nodes, and 2 KiB of stack for each level of nesting. It has no limit on
   nesting: the nodes of timefd_read are nested at most 127 deep, and those of timefd_read_within as deep as its limit allows. */
timefd_date_answer timefd_read_nodes(const timefd_node *nodes, size_t node_count, const uint8_t *literals, size_t literal_count,
                                     const uint8_t *date, size_t date_len);

/* The same calls with their answers by pointer, for a program that also runs with later versions of the shared library. `size` is the
   size of the answer in the program's own header:

       timefd_answer answer;
       timefd_judge_into(TIMEFD_VERSION_3, text, len, &answer, sizeof answer);

   Later versions put new fields after those that an answer or timefd_fault has here, and don't change timefd_node, timefd_warning or
   timefd_moment. A program that is older than its library gets the fields that it knows. One that is newer gets 0 in those that the
   library lacks. So a new field breaks nothing. The bytes at `answer` need not have been set before, and overlap nothing else. These
   calls pass on what the calls above answer; they are written in C, and only tested. */
void timefd_judge_into(uint32_t kind, const uint8_t *text, size_t len, timefd_answer *answer, size_t size);
void timefd_check_into(uint32_t kind, const uint8_t *text, size_t len, uint8_t *sentence, size_t room, timefd_answer *answer,
                       size_t size);
void timefd_diagnose_into(uint32_t kind, const uint8_t *text, size_t len, uint8_t *sentence, size_t room, uint8_t *word,
                          size_t word_room, timefd_answer *answer, size_t size, timefd_fault *fault, size_t fault_size);
void timefd_warnings_into(uint32_t kind, const uint8_t *text, size_t len, timefd_warning *warnings, size_t room,
                          timefd_warnings_answer *answer, size_t size);
void timefd_v1_to_v2_into(const uint8_t *text, size_t len, uint8_t *buffer, size_t room, timefd_answer *answer, size_t size);
void timefd_v2_to_v3_into(const uint8_t *text, size_t len, uint8_t *buffer, size_t room, timefd_answer *answer, size_t size);
void timefd_convert_into(uint32_t from, uint32_t to, const uint8_t *text, size_t len, uint8_t *buffer, size_t room,
                         timefd_answer *answer, size_t size);
void timefd_convert_format_into(uint32_t dialect, const uint8_t *format, size_t len, uint8_t *buffer, size_t room,
                                timefd_convert_answer *answer, size_t size);
void timefd_read_into(uint32_t kind, const uint8_t *text, size_t len, timefd_node *nodes, size_t node_room, uint8_t *literals,
                      size_t literal_room, timefd_read_answer *answer, size_t size);
void timefd_read_within_into(uint32_t kind, uint32_t limit, const uint8_t *text, size_t len, timefd_node *nodes, size_t node_room,
                             uint8_t *literals, size_t literal_room, timefd_read_answer *answer, size_t size);
void timefd_read_composites_into(const uint8_t *text, size_t len, timefd_node *nodes, size_t node_room, uint8_t *literals,
                                 size_t literal_room, timefd_read_answer *answer, size_t size);
void timefd_format_into(uint32_t kind, const uint8_t *text, size_t len, const timefd_moment *moment, uint8_t *buffer, size_t room,
                        timefd_format_answer *answer, size_t size);
void timefd_format_within_into(uint32_t kind, uint32_t limit, const uint8_t *text, size_t len, const timefd_moment *moment,
                               uint8_t *buffer, size_t room, timefd_format_answer *answer, size_t size);
void timefd_format_nodes_into(const timefd_node *nodes, size_t node_count, const uint8_t *literals, size_t literal_count,
                              const timefd_moment *moment, uint8_t *buffer, size_t room, timefd_format_answer *answer,
                              size_t size);
void timefd_read_date_into(uint32_t kind, const uint8_t *text, size_t len, const uint8_t *date, size_t date_len,
                           timefd_date_answer *answer, size_t size);
void timefd_read_date_within_into(uint32_t kind, uint32_t limit, const uint8_t *text, size_t len, const uint8_t *date,
                                  size_t date_len, timefd_date_answer *answer, size_t size);
void timefd_read_nodes_into(const timefd_node *nodes, size_t node_count, const uint8_t *literals, size_t literal_count,
                            const uint8_t *date, size_t date_len, timefd_date_answer *answer, size_t size);

/* The position of each field, on which the library and this compiler have to agree. */
#ifdef __cplusplus
#define TIMEFD_IS(what) static_assert(what, #what)
#elif __STDC_VERSION__ >= 201112L
#define TIMEFD_IS(what) _Static_assert(what, #what)
#else
#define TIMEFD_IS(what) extern char timefd_private_is[(what) ? 1 : -1]
#endif
#define TIMEFD_FIELD(type, field, start, bytes) \
    TIMEFD_IS(offsetof(type, field) == (start) && sizeof(((type *)0)->field) == (bytes))

TIMEFD_FIELD(timefd_answer, status, 0, 4);
TIMEFD_FIELD(timefd_answer, value, 8, 8);
TIMEFD_FIELD(timefd_answer, sentence_len, 16, 8);
TIMEFD_FIELD(timefd_answer, written, 24, 8);
TIMEFD_IS(sizeof(timefd_answer) == 32);

TIMEFD_FIELD(timefd_fault, code, 0, 4);
TIMEFD_FIELD(timefd_fault, out_of_memory, 4, 1);
TIMEFD_FIELD(timefd_fault, start, 8, 8);
TIMEFD_FIELD(timefd_fault, end, 16, 8);
TIMEFD_FIELD(timefd_fault, nearest_len, 24, 8);
TIMEFD_FIELD(timefd_fault, nearest_written, 32, 8);
TIMEFD_IS(sizeof(timefd_fault) == 40);

TIMEFD_FIELD(timefd_diagnosis, answer, 0, 32);
TIMEFD_FIELD(timefd_diagnosis, fault, 32, 40);
TIMEFD_IS(sizeof(timefd_diagnosis) == 72);

TIMEFD_FIELD(timefd_warning, code, 0, 4);
TIMEFD_FIELD(timefd_warning, start, 8, 8);
TIMEFD_FIELD(timefd_warning, end, 16, 8);
TIMEFD_IS(sizeof(timefd_warning) == 24);

TIMEFD_FIELD(timefd_warnings_answer, status, 0, 4);
TIMEFD_FIELD(timefd_warnings_answer, value, 8, 8);
TIMEFD_FIELD(timefd_warnings_answer, count, 16, 8);
TIMEFD_FIELD(timefd_warnings_answer, written, 24, 8);
TIMEFD_IS(sizeof(timefd_warnings_answer) == 32);

TIMEFD_FIELD(timefd_convert_answer, status, 0, 4);
TIMEFD_FIELD(timefd_convert_answer, reason, 4, 4);
TIMEFD_FIELD(timefd_convert_answer, value, 8, 8);
TIMEFD_FIELD(timefd_convert_answer, written, 16, 8);
TIMEFD_FIELD(timefd_convert_answer, first_year, 24, 4);
TIMEFD_FIELD(timefd_convert_answer, whole_minutes, 28, 1);
TIMEFD_IS(sizeof(timefd_convert_answer) == 32);

TIMEFD_FIELD(timefd_node, what, 0, 1);
TIMEFD_FIELD(timefd_node, component, 1, 1);
TIMEFD_FIELD(timefd_node, padding, 2, 1);
TIMEFD_FIELD(timefd_node, sign_is_mandatory, 3, 1);
TIMEFD_FIELD(timefd_node, case_sensitive, 4, 1);
TIMEFD_FIELD(timefd_node, one_indexed, 5, 1);
TIMEFD_FIELD(timefd_node, is_uppercase, 6, 1);
TIMEFD_FIELD(timefd_node, digits, 7, 1);
TIMEFD_FIELD(timefd_node, trailing_input, 8, 1);
TIMEFD_FIELD(timefd_node, format, 9, 1);
TIMEFD_FIELD(timefd_node, ignored, 10, 2);
TIMEFD_FIELD(timefd_node, bytes, 12, 4);
TIMEFD_FIELD(timefd_node, start, 16, 8);
TIMEFD_FIELD(timefd_node, count, 24, 8);
TIMEFD_IS(sizeof(timefd_node) == 32);

TIMEFD_FIELD(timefd_read_answer, status, 0, 4);
TIMEFD_FIELD(timefd_read_answer, value, 8, 8);
TIMEFD_FIELD(timefd_read_answer, nodes, 16, 8);
TIMEFD_FIELD(timefd_read_answer, literals, 24, 8);
TIMEFD_FIELD(timefd_read_answer, written, 32, 1);
TIMEFD_FIELD(timefd_read_answer, bytes, 40, 8);
TIMEFD_IS(sizeof(timefd_read_answer) == 48);

TIMEFD_FIELD(timefd_moment, known, 0, 4);
TIMEFD_FIELD(timefd_moment, year, 4, 4);
TIMEFD_FIELD(timefd_moment, nanosecond, 8, 4);
TIMEFD_FIELD(timefd_moment, offset_seconds, 12, 4);
TIMEFD_FIELD(timefd_moment, month, 16, 1);
TIMEFD_FIELD(timefd_moment, day, 17, 1);
TIMEFD_FIELD(timefd_moment, hour, 18, 1);
TIMEFD_FIELD(timefd_moment, minute, 19, 1);
TIMEFD_FIELD(timefd_moment, second, 20, 1);
TIMEFD_IS(sizeof(timefd_moment) == 24);

TIMEFD_FIELD(timefd_format_answer, status, 0, 4);
TIMEFD_FIELD(timefd_format_answer, reason, 4, 4);
TIMEFD_FIELD(timefd_format_answer, component, 8, 4);
TIMEFD_FIELD(timefd_format_answer, value, 16, 8);
TIMEFD_FIELD(timefd_format_answer, written, 24, 8);
TIMEFD_IS(sizeof(timefd_format_answer) == 32);

TIMEFD_FIELD(timefd_date_answer, status, 0, 4);
TIMEFD_FIELD(timefd_date_answer, reason, 4, 4);
TIMEFD_FIELD(timefd_date_answer, component, 8, 4);
TIMEFD_FIELD(timefd_date_answer, part, 12, 4);
TIMEFD_FIELD(timefd_date_answer, value, 16, 8);
TIMEFD_FIELD(timefd_date_answer, moment, 24, 24);
TIMEFD_IS(sizeof(timefd_date_answer) == 48);

#undef TIMEFD_FIELD
#undef TIMEFD_IS

#ifdef __cplusplus
}
#endif

#endif

/* What holds of a format of another language, and of its text of version 3. */

#include "fuzz.h"

#include <string.h>

#define append_one_of(text, words) append_word(text, (words)[random_below(sizeof(words) / sizeof((words)[0]))])

static const char *const FLAGS[] = {"", "", "", "", "-", "_", "0", "^", "#", ":", "::", "E", "O", ".", ".3", "3", "9"};
static const char *const LITERALS[] = {" ", "-", ":", "/", "T", ", ", "at", "[", "]", "\\", "'", "''", "[a]", "'um'", "\xc3\xa9", "\n", "%", "%%"};
static const char *const LAYOUTS[] = {
    "2006", "06", "01", "1", "Jan", "January", "02", "2", "_2", "002", "__2", "15", "03", "3", "04", "4", "05", "5", "PM", "pm",
    "Mon", "Monday", "MST", "-0700", "-07:00", "-07", "Z07:00", ".000", ",000", ".999", "Januar", "Jane", "20", "0",
};

static bool is_percent(uint32_t dialect) {
    return dialect <= TIMEFD_RUBY;
}

/* A directive with a flag, a run of one letter, or a part of the reference time. */
static void append_part(uint32_t dialect, struct text *text) {
    uint8_t letter = (uint8_t)((one_in(2) ? 'a' : 'A') + random_below(26));
    if (is_percent(dialect)) {
        append_word(text, "%");
        append_one_of(text, FLAGS);
        append(text, &letter, 1);
    } else if (dialect == TIMEFD_GO) {
        append_one_of(text, LAYOUTS);
    } else {
        static const char LETTERS[] = "yYuMLdDHhmsSaEexXZAQwWGgkKnNvVoT";
        letter = one_in(4) ? letter : (uint8_t)LETTERS[random_below(sizeof LETTERS - 1)];
        for (size_t left = 1 + random_below(5); left > 0; left--) {
            append(text, &letter, 1);
        }
    }
}

static void make_format(uint32_t dialect, struct text *text) {
    text->len = 0;
    for (size_t left = random_below(10); left > 0; left--) {
        append_part(dialect, text);
        if (one_in(2)) {
            append_one_of(text, LITERALS);
        }
    }
}

static bool is_same(timefd_convert_answer one, timefd_convert_answer other) {
    return one.status == other.status && one.reason == other.reason && one.value == other.value &&
           one.first_year == other.first_year && one.whole_minutes == other.whole_minutes;
}

static void check_refused(uint32_t dialect, const struct text *text, timefd_convert_answer answer) {
    expect(answer.reason >= TIMEFD_REASON_BACKSLASH && answer.reason <= TIMEFD_REASON_TWO_DIGIT_YEAR, dialect, text, "a reason of the header");
    expect(answer.value < text->len && is_boundary(text->bytes, text->len, answer.value), dialect, text, "an index in the format, between characters");
    expect(answer.written == 0 && answer.first_year == 0 && !answer.whole_minutes, dialect, text, "nothing written of what is refused");
}

/* What stands before the part that is refused is accepted. */
static void check_front(uint32_t dialect, const struct text *text, size_t len) {
    static struct text front;
    static struct buffer buffer;
    front.len = 0;
    append(&front, text->bytes, len);
    timefd_convert_answer answer = convert_format(dialect, &front, &buffer, ROOM);
    bool is_go = dialect == TIMEFD_GO; /* a part may be one only where no digit or small letter follows */
    bool is_open = dialect == TIMEFD_JAVA || dialect == TIMEFD_MOMENT; /* quotes and runs go on */
    expect(is_go || is_open || answer.status == TIMEFD_ACCEPTED, dialect, text, "that what stands before the refused part is accepted");
}

/* Version 3 accepts the text, and its normal form is its own, and writes a moment alike. */
static void check_text_of(uint32_t dialect, const struct text *text, const struct text *converted) {
    static struct buffer printed, again, old, new;
    static struct text normal;
    expect(judge(TIMEFD_VERSION_3, converted).status == TIMEFD_ACCEPTED, dialect, text, "a text of version 3");
    timefd_answer answer = modernize(TIMEFD_VERSION_3, converted, &printed, ROOM);
    expect(answer.status == TIMEFD_ACCEPTED && answer.written == answer.value, dialect, text, "a normal form");
    normal.len = 0;
    append(&normal, printed.guarded + GUARD, answer.written);
    answer = modernize(TIMEFD_VERSION_3, &normal, &again, ROOM);
    expect(answer.written == normal.len && memcmp(again.guarded + GUARD, normal.bytes, normal.len) == 0, dialect, text,
           "a normal form that stays");
    timefd_format_answer before = show(TIMEFD_VERSION_3, converted, &old);
    timefd_format_answer after = show(TIMEFD_VERSION_3, &normal, &new);
    expect(before.status == after.status && before.written == after.written &&
               memcmp(old.guarded, new.guarded, GUARD + before.written) == 0,
           dialect, text, "that its normal form writes a moment alike");
}

static void check_accepted(uint32_t dialect, const struct text *text, const struct buffer *buffer, timefd_convert_answer answer) {
    static struct text converted;
    static struct buffer small;
    expect(answer.reason == 0, dialect, text, "no reason of what is accepted");
    expect(answer.written == (answer.value <= ROOM ? answer.value : 0), dialect, text, "all to be written where there is room");
    if (answer.value > 0) {
        timefd_convert_answer shorter = convert_format(dialect, text, &small, random_below(answer.value));
        expect(is_same(answer, shorter) && shorter.written == 0, dialect, text, "nothing written where there is no room");
    }
    if (answer.written == answer.value && answer.value <= LONGEST) {
        converted.len = 0;
        append(&converted, buffer->guarded + GUARD, answer.written);
        check_text_of(dialect, text, &converted);
    }
}

timefd_convert_answer check_dialect(uint32_t dialect) {
    static struct text text;
    static struct buffer buffer;
    make_format(dialect, &text);
    timefd_convert_answer answer = convert_format(dialect, &text, &buffer, ROOM);
    if (answer.status == TIMEFD_ACCEPTED) {
        check_accepted(dialect, &text, &buffer, answer);
    } else {
        expect(answer.status == TIMEFD_REFUSED, dialect, &text, "a format to be accepted or refused");
        check_refused(dialect, &text, answer);
        check_front(dialect, &text, answer.value);
    }
    return answer;
}

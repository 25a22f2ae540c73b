/* What is answered of a date has to fit it, and what is said of the text that it is read by. */

#include "fuzz.h"

#include <string.h>

static bool is_zero(timefd_moment moment) {
    return moment.year == 0 && moment.nanosecond == 0 && moment.offset_seconds == 0 &&
           moment.month == 0 && moment.day == 0 && moment.hour == 0 && moment.minute == 0 &&
           moment.second == 0;
}

/* The moment without what is known of it. */
static timefd_moment unknown_of(timefd_moment moment) {
    if ((moment.known & TIMEFD_HAS_DATE) != 0) {
        moment.year = 0;
        moment.month = moment.day = 0;
    }
    if ((moment.known & TIMEFD_HAS_TIME) != 0) {
        moment.nanosecond = 0;
        moment.hour = moment.minute = moment.second = 0;
    }
    if ((moment.known & TIMEFD_HAS_OFFSET) != 0) {
        moment.offset_seconds = 0;
    }
    return moment;
}

static bool is_in(uint32_t number, uint32_t first, uint32_t last) {
    return number >= first && number <= last;
}

/* Nothing is reported but what belongs to the status. */
static bool is_in_form(timefd_date_answer answer, const struct text *date) {
    bool is_unread = answer.status == TIMEFD_UNREAD;
    bool has_component =
        answer.reason == TIMEFD_READS_NOTHING || answer.reason == TIMEFD_READS_ANOTHER_VALUE;
    bool is_none = answer.status == TIMEFD_CONTRADICTION || answer.status == TIMEFD_MISSING;
    return (answer.status == TIMEFD_ACCEPTED || is_unread || is_none) &&
           is_in(answer.reason, TIMEFD_READS_NOTHING, TIMEFD_TEXT_FOLLOWS) == is_unread &&
           is_in(answer.component, TIMEFD_DAY, TIMEFD_END) == has_component &&
           is_in(answer.part, TIMEFD_PART_DAY, TIMEFD_PART_UNIX_NANOSECOND) == is_none &&
           (is_unread ? answer.value <= date->len : answer.value == 0) && answer.moment.known < 8 &&
           (answer.status == TIMEFD_ACCEPTED || answer.moment.known == 0) &&
           is_zero(unknown_of(answer.moment));
}

/* What was read is a moment: no number of it is out of its range. */
static void check_moment(uint32_t kind, const struct text *text, timefd_moment moment) {
    static struct buffer buffer;
    timefd_format_answer shown = format(kind, text, &moment, &buffer, ROOM);
    expect(shown.status == TIMEFD_ACCEPTED || shown.status == TIMEFD_UNSHOWN, kind, text,
           "a moment that was read to be one");
}

/* The nodes of the text read the same. */
static void check_by_nodes(uint32_t kind, const struct text *text, const struct text *date, timefd_date_answer by_text) {
    static struct node_buffers nodes;
    timefd_read_answer read = read_nodes(kind, text, &nodes, NODES_A_BYTE * (text->len + 1), LITERALS_A_BYTE * (text->len + 1));
    timefd_date_answer answer = read_date_by_nodes(kind, text, &nodes, read, date);
    const timefd_moment *one = &answer.moment, *other = &by_text.moment;
    expect(answer.status == by_text.status && answer.reason == by_text.reason && answer.component == by_text.component &&
               answer.part == by_text.part && answer.value == by_text.value && one->known == other->known &&
               one->year == other->year && one->nanosecond == other->nanosecond &&
               one->offset_seconds == other->offset_seconds && one->month == other->month && one->day == other->day &&
               one->hour == other->hour && one->minute == other->minute && one->second == other->second,
           kind, text, "the same to be read by nodes");
}

static void check_read(uint32_t kind, const struct text *text, const struct text *date) {
    timefd_date_answer answer = read_date(kind, text, date);
    expect(is_in_form(answer, date), kind, text, "a date to be read, or why it is not");
    check_by_nodes(kind, text, date, answer);
    if (answer.status == TIMEFD_ACCEPTED) {
        check_moment(kind, text, answer.moment);
    }
}

/* A text that is refused is so for its fault, whatever the date is. */
static void check_refused(uint32_t kind, const struct text *text, const struct text *date,
                          timefd_answer judged) {
    timefd_date_answer answer = read_date(kind, text, date);
    expect(answer.status == judged.status && answer.value == judged.value && answer.reason == 0 &&
               answer.component == 0 && answer.part == 0 && answer.moment.known == 0,
           kind, text, "the fault of timefd_judge from timefd_read_date");
}

void check_date(uint32_t kind, const struct text *text, timefd_answer judged) {
    static struct text date;
    static struct buffer buffer;
    date.len = 0;
    if (judged.status != TIMEFD_ACCEPTED) {
        check_refused(kind, text, &date, judged);
        return;
    }
    check_read(kind, text, &date);
    timefd_format_answer shown = show(kind, text, &buffer);
    date.len = shown.written;
    memcpy(date.bytes, buffer.guarded + GUARD, date.len);
    check_read(kind, text, &date);
    append_word(&date, "1");
    check_read(kind, text, &date);
}

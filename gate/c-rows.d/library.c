/* Answers the rows of library.in, which gate/c-rows compares with library.out. */

#include "library.h"

#include <inttypes.h>
#include <stdio.h>
#include <string.h>

uint32_t kind_of(const struct field *fields) {
    return (uint32_t)fields[0].number;
}

/* statuses: those that every call may answer. */
static const char *statuses(const struct field *fields) {
    (void)fields;
    printf("%u %u %u %u %u", TIMEFD_ACCEPTED, TIMEFD_REFUSED, TIMEFD_NOT_UTF8, TIMEFD_NO_MEMORY, TIMEFD_UNKNOWN_KIND);
    return NULL;
}

/* judge KIND TEXT: timefd_judge and timefd_check answer alike, and without a fault nothing is written. */
static const char *judge(const struct field *fields) {
    uint8_t buffer[ROOM];
    memset(buffer, '.', ROOM);
    timefd_answer judged = timefd_judge(kind_of(fields), fields[1].bytes, fields[1].len);
    timefd_answer checked = timefd_check(kind_of(fields), fields[1].bytes, fields[1].len, buffer, 8);
    if (checked.status != judged.status || checked.value != judged.value) {
        return "timefd_check answers otherwise";
    }
    bool is_silent = checked.sentence_len == 0 && checked.written == 0 && is_kept(buffer, 0, ROOM);
    if (judged.sentence_len != 0 || judged.written != 0 || (judged.status != TIMEFD_REFUSED && !is_silent)) {
        return "there is a sentence";
    }
    print_answer(judged.status, judged.value);
    return NULL;
}

/* sentence KIND TEXT ROOM: how long the sentence is, how much of it is written, and that. */
static const char *sentence_in(const struct field *fields) {
    uint8_t buffer[ROOM];
    size_t room = (size_t)fields[2].number;
    if (room > ROOM) {
        return "no buffer has so much room";
    }
    memset(buffer, '.', ROOM);
    timefd_answer answer = timefd_check(kind_of(fields), fields[1].bytes, fields[1].len, buffer, room);
    if (answer.written > room || !is_kept(buffer, answer.written, ROOM)) {
        return "bytes after what was written have changed";
    }
    printf("%zu %zu ", answer.sentence_len, answer.written);
    print_text(buffer, answer.written);
    return NULL;
}

/* sentence KIND TEXT: all of it, in a buffer with more room than it needs and in one with just as much. */
static const char *sentence(const struct field *fields) {
    uint8_t long_one[ROOM], just[ROOM];
    memset(long_one, '.', ROOM);
    memset(just, '.', ROOM);
    timefd_answer answer = timefd_check(kind_of(fields), fields[1].bytes, fields[1].len, long_one, ROOM);
    size_t len = answer.sentence_len;
    if (len > ROOM || answer.written != len || !is_kept(long_one, len, ROOM)) {
        return "the sentence isn't written";
    }
    answer = timefd_check(kind_of(fields), fields[1].bytes, fields[1].len, just, len);
    if (answer.sentence_len != len || answer.written != len || memcmp(just, long_one, ROOM) != 0) {
        return "the sentence isn't written to a buffer of its length";
    }
    print_text(just, len);
    return NULL;
}

/* No conversion has a sentence. */
static struct written conversion(timefd_answer answer) {
    return (struct written){answer.status, answer.value, answer.written + answer.sentence_len};
}

static struct written lift(const struct field *fields, uint8_t *buffer, size_t room) {
    return conversion(timefd_v1_to_v2(fields[0].bytes, fields[0].len, buffer, room));
}

static struct written modernize(const struct field *fields, uint8_t *buffer, size_t room) {
    return conversion(timefd_v2_to_v3(fields[0].bytes, fields[0].len, buffer, room));
}

/* v1_to_v2 TEXT: the text of version 2. */
static const char *v1_to_v2(const struct field *fields) {
    return write_whole(lift, fields, print_text);
}

/* v2_to_v3 TEXT: the text of version 3. */
static const char *v2_to_v3(const struct field *fields) {
    return write_whole(modernize, fields, print_text);
}

static timefd_convert_answer convert_answer(const struct field *fields, uint8_t *buffer, size_t room) {
    return timefd_convert_format(kind_of(fields), fields[1].bytes, fields[1].len, buffer, room);
}

static struct written convert_format_in(const struct field *fields, uint8_t *buffer, size_t room) {
    timefd_convert_answer answer = convert_answer(fields, buffer, room);
    return (struct written){answer.status, answer.value, answer.written};
}

/* convert_format DIALECT FORMAT: the text of version 3, and of which moments it writes the same. */
static const char *convert_format(const struct field *fields) {
    uint8_t none[1] = {0};
    timefd_convert_answer answer = convert_answer(fields, none, 0);
    const struct number numbers[] = {
        NUMBER(answer, reason), NUMBER(answer, first_year), NUMBER(answer, whole_minutes), {0}};
    const char *complaint = write_whole(convert_format_in, fields, print_text);
    if (!complaint) {
        print_numbers(numbers);
    }
    return complaint;
}

static timefd_format_answer format_answer(const struct field *fields, uint8_t *buffer, size_t room) {
    timefd_moment moment = moment_of(fields + 2);
    return timefd_format(kind_of(fields), fields[1].bytes, fields[1].len, &moment, buffer, room);
}

static struct written format_in(const struct field *fields, uint8_t *buffer, size_t room) {
    timefd_format_answer answer = format_answer(fields, buffer, room);
    return (struct written){answer.status, answer.value, answer.written};
}

/* format KIND TEXT MOMENT */
static const char *format(const struct field *fields) {
    uint8_t none[1] = {0};
    timefd_format_answer answer = format_answer(fields, none, 0);
    const struct number numbers[] = {NUMBER(answer, reason), NUMBER(answer, component), {0}};
    const char *complaint = write_whole(format_in, fields, print_text);
    if (!complaint) {
        print_numbers(numbers);
    }
    return complaint;
}

/* read_date KIND TEXT DATE */
static const char *read_date(const struct field *fields) {
    const struct field *text = &fields[1], *date = &fields[2];
    timefd_date_answer answer = timefd_read_date(kind_of(fields), text->bytes, text->len, date->bytes, date->len);
    print_answer(answer.status, answer.value);
    const timefd_moment read = answer.moment;
    const struct number numbers[] = {
        NUMBER(answer, reason), NUMBER(answer, component), NUMBER(answer, part), NUMBER(read, known), NUMBER(read, year),
        NUMBER(read, nanosecond), NUMBER(read, offset_seconds), NUMBER(read, month), NUMBER(read, day), NUMBER(read, hour),
        NUMBER(read, minute), NUMBER(read, second), {0},
    };
    print_numbers(numbers);
    return NULL;
}

/* Whether nothing stands from one of so many warnings on. */
static bool is_blank(const timefd_warning *warnings, size_t from, size_t to) {
    for (size_t i = from; i < to; i++) {
        if (warnings[i].code != 0 || warnings[i].start != 0 || warnings[i].end != 0) {
            return false;
        }
    }
    return true;
}

/* warnings KIND TEXT ROOM: how many a text has, and the numbers and bytes of those for which there is room. */
static const char *warnings_in(const struct field *fields) {
    timefd_warning warnings[TIMEFD_MOST_WARNINGS + 1] = {0};
    size_t most = TIMEFD_MOST_WARNINGS + 1, room = (size_t)fields[2].number;
    if (room > most) {
        return "no buffer has so much room";
    }
    timefd_warnings_answer answer = timefd_warnings(kind_of(fields), fields[1].bytes, fields[1].len, warnings, room);
    timefd_answer judged = timefd_judge(kind_of(fields), fields[1].bytes, fields[1].len);
    if (answer.status != judged.status || answer.value != judged.value) {
        return "timefd_judge answers otherwise";
    }
    if (answer.written != (answer.count < room ? answer.count : room) || !is_blank(warnings, answer.written, most)) {
        return "another number of warnings is written";
    }
    print_answer(answer.status, answer.value);
    printf(" count %zu", answer.count);
    for (size_t i = 0; i < answer.written; i++) {
        printf(" %u %zu..%zu", warnings[i].code, warnings[i].start, warnings[i].end);
    }
    return NULL;
}

/* warnings KIND TEXT: all of them. */
static const char *warnings(const struct field *fields) {
    const struct field with_room[] = {fields[0], fields[1], {.number = TIMEFD_MOST_WARNINGS}};
    return warnings_in(with_room);
}

int main(void) {
    static const struct call calls[] = {
        {"statuses", "", statuses},
        {"judge", "nt", judge},
        {"sentence", "nt", sentence},
        {"sentence", "ntn", sentence_in},
        {"v1_to_v2", "t", v1_to_v2},
        {"v2_to_v3", "t", v2_to_v3},
        {"convert_format", "nt", convert_format},
        {"nodes", "nt", nodes_of},
        {"nodes", "ntnn", nodes_in},
        {"composites", "t", composites},
        {"composites", "tnn", composites_in},
        {"longest", "nt", longest},
        {"within", "nnt", within},
        {"format", "ntnnnnnnnnn", format},
        {"read_date", "ntt", read_date},
        {"warnings", "nt", warnings},
        {"warnings", "ntn", warnings_in},
        {0},
    };
    return answer_rows(calls);
}

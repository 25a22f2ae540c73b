/* Rows about timefd_names.h. */

#include "headers.h"

#include <stdio.h>
#include <string.h>

/* How many bytes a buffer has. No sentence needs as many. */
enum { ROOM = 128 };

/* fault_name KIND TEXT: the name of the text's fault. */
const char *fault_name(const struct field *fields) {
    timefd_diagnosis it = timefd_diagnose(kind_of(fields), fields[1].bytes, fields[1].len, NULL, 0, NULL, 0);
    fputs(timefd_fault_name(it.fault.code), stdout);
    return NULL;
}

/* component_name TEXT: the number and the name of the one component of a text of version 3. */
const char *component_name(const struct field *fields) {
    timefd_node node;
    memset(&node, 0, sizeof node);
    timefd_read_answer read = timefd_read(TIMEFD_VERSION_3, fields[0].bytes, fields[0].len, &node, 1, NULL, 0);
    if (!read.written || node.what != TIMEFD_COMPONENT) {
        return "the text is no component";
    }
    printf("%d %s", node.component, timefd_component_name(node.component));
    return NULL;
}

const char *status_sentence(const struct field *fields) {
    fputs(timefd_status_sentence((uint32_t)fields[0].number), stdout);
    return NULL;
}

/* reason DIALECT FORMAT: why the format is refused: the name, what that says, and what to do. */
const char *reason(const struct field *fields) {
    timefd_convert_answer answer = timefd_convert_format(kind_of(fields), fields[1].bytes, fields[1].len, NULL, 0);
    printf("%s: %s. %s", timefd_reason_name(answer.reason), timefd_reason_sentence(answer.reason),
           timefd_reason_cure(answer.reason));
    return NULL;
}

const char *unshown_sentence(const struct field *fields) {
    fputs(timefd_unshown_sentence((uint32_t)fields[0].number), stdout);
    return NULL;
}

const char *range_sentence(const struct field *fields) {
    fputs(timefd_range_sentence((uint32_t)fields[0].number), stdout);
    return NULL;
}

const char *part_name(const struct field *fields) {
    fputs(timefd_part_name((uint32_t)fields[0].number), stdout);
    return NULL;
}

typedef size_t writer_of_sentence(const struct field *fields, const void *answer, char *sentence, size_t room);

/* Prints the sentence of an answer, which is cut where the room ends, or says what is wrong with it. */
static const char *print_sentence(writer_of_sentence *write, const struct field *fields, const void *answer) {
    char whole[ROOM], cut[ROOM];
    size_t len = write(fields, answer, whole, ROOM);
    if (len >= ROOM || strlen(whole) != len) {
        return "the sentence has another length than is answered";
    }
    for (size_t room = 1; room < ROOM; room++) {
        size_t cut_len = len < room ? len : room - 1;
        if (write(fields, answer, cut, room) != len || strlen(cut) != cut_len || memcmp(cut, whole, cut_len) != 0) {
            return "the sentence isn't cut where the room ends";
        }
    }
    fputs(whole, stdout);
    return write(fields, answer, NULL, 0) == len ? NULL : "the sentence has another length without room";
}

static size_t write_format_sentence(const struct field *fields, const void *answer, char *sentence, size_t room) {
    return timefd_format_sentence(kind_of(fields), text_of(&fields[1]), answer, sentence, room);
}

/* format_sentence KIND TEXT MOMENT: why nothing is written into a buffer without room. */
const char *format_sentence(const struct field *fields) {
    timefd_moment moment = moment_of(fields + 2);
    timefd_format_answer answer = timefd_format(kind_of(fields), fields[1].bytes, fields[1].len, &moment, NULL, 0);
    return print_sentence(write_format_sentence, fields, &answer);
}

static size_t write_read_date_sentence(const struct field *fields, const void *answer, char *sentence, size_t room) {
    return timefd_read_date_sentence(kind_of(fields), text_of(&fields[1]), answer, sentence, room);
}

/* read_date_sentence KIND TEXT DATE */
const char *read_date_sentence(const struct field *fields) {
    const struct field *text = &fields[1], *date = &fields[2];
    timefd_date_answer answer = timefd_read_date(kind_of(fields), text->bytes, text->len, date->bytes, date->len);
    return print_sentence(write_read_date_sentence, fields, &answer);
}

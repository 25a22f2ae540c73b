/* Rows about timefd_text.h. Each asks the call over bytes too, and the one over characters of a longer text, and finds the same
   answer. */

#include "headers.h"

#include <stdio.h>
#include <stdlib.h>
#include <string.h>

/* How many bytes a buffer has, and how many nodes. No row needs as many. */
enum { ROOM = 128, NODES = 32, LONGER = 1024 };

static const char *const OTHERWISE = "the call over bytes answers otherwise";
static const char *const OTHER_CHARS = "the call over characters of a longer text answers otherwise";

/* A longer text that begins with the one of a field, for calls that are given its length. No 0 is at its end. There is room for two. */
static const char *longer(const struct field *field) {
    static char rooms[2][LONGER];
    static int next;
    char *room = rooms[next++ % 2];
    memset(room, '[', LONGER);
    memcpy(room, field->bytes, field->len < LONGER ? field->len : LONGER);
    return room;
}

static bool is_same_answer(timefd_answer one, timefd_answer other) {
    return one.status == other.status && one.value == other.value && one.sentence_len == other.sentence_len;
}

/* Whether the buffer begins with the text and is 0 from there on, where the text has room, and else is 0. */
static bool has_text(const char *buffer, size_t room, const uint8_t *text, size_t len) {
    size_t end = len < room ? len : 0;
    if (memcmp(buffer, text, end) != 0) {
        return false;
    }
    while (end < room && buffer[end] == 0) {
        end++;
    }
    return end == room && buffer[room] == '.';
}

const char *judge_text(const struct field *fields) {
    timefd_answer wanted = timefd_judge(kind_of(fields), fields[1].bytes, fields[1].len), answer;
    bool is_accepted = timefd_judge_text(kind_of(fields), text_of(&fields[1]), &answer);
    if (!is_same_answer(answer, wanted) || timefd_judge_text(kind_of(fields), text_of(&fields[1]), NULL) != is_accepted) {
        return OTHERWISE;
    }
    if (timefd_judge_chars(kind_of(fields), longer(&fields[1]), fields[1].len, &answer) != is_accepted ||
        !is_same_answer(answer, wanted)) {
        return OTHER_CHARS;
    }
    printf("%s ", is_accepted ? "true" : "false");
    print_answer(answer.status, answer.value);
    return NULL;
}

/* check_text KIND TEXT ROOM: the sentence, or as much of it as there is room for. */
const char *check_text(const struct field *fields) {
    size_t room = (size_t)fields[2].number, len = room ? room - 1 : 0;
    char buffer[ROOM];
    uint8_t bytes[ROOM] = {0};
    if (room >= ROOM) {
        return "no buffer has so much room";
    }
    memset(buffer, '.', ROOM);
    timefd_answer wanted = timefd_check(kind_of(fields), fields[1].bytes, fields[1].len, bytes, len), answer;
    bool is_accepted = timefd_check_text(kind_of(fields), text_of(&fields[1]), buffer, room, &answer);
    if (!is_same_answer(answer, wanted) || answer.written != wanted.written || !has_text(buffer, room, bytes, wanted.written)) {
        return OTHERWISE;
    }
    memset(buffer, '.', ROOM);
    if (timefd_check_chars(kind_of(fields), longer(&fields[1]), fields[1].len, buffer, room, &answer) != is_accepted ||
        !is_same_answer(answer, wanted) || !has_text(buffer, room, bytes, wanted.written)) {
        return OTHER_CHARS;
    }
    printf("%s %zu %zu ", is_accepted ? "true" : "false", answer.sentence_len, answer.written);
    print_text(bytes, wanted.written);
    return NULL;
}

/* diagnose_text KIND TEXT: the sentence, the bytes at fault and the nearest word, which isn't written where a byte is wanting. */
const char *diagnose_text(const struct field *fields) {
    char sentence[ROOM + 1], word[ROOM + 1];
    memset(sentence, '.', sizeof sentence);
    memset(word, '.', sizeof word);
    timefd_diagnosis it;
    bool is_accepted = timefd_diagnose_text(kind_of(fields), text_of(&fields[1]), sentence, ROOM, word, 17, &it);
    if (is_accepted != (it.answer.status == TIMEFD_ACCEPTED) || strlen(sentence) != it.answer.sentence_len ||
        strlen(word) != it.fault.nearest_len || !has_text(word, 17, (const uint8_t *)word, it.fault.nearest_len)) {
        return "a buffer holds something else";
    }
    char little[ROOM + 1];
    memset(little, '.', sizeof little);
    timefd_diagnose_text(kind_of(fields), text_of(&fields[1]), sentence, ROOM, little, it.fault.nearest_len, NULL);
    if (!has_text(little, it.fault.nearest_len, (const uint8_t *)word, it.fault.nearest_len)) {
        return "a buffer without room for the word holds something";
    }
    char same[ROOM + 1];
    timefd_diagnosis other;
    if (timefd_diagnose_chars(kind_of(fields), longer(&fields[1]), fields[1].len, same, ROOM, little, 17, &other) != is_accepted ||
        strcmp(same, sentence) != 0 || strcmp(little, word) != 0 || other.fault.code != it.fault.code ||
        other.fault.start != it.fault.start || other.fault.end != it.fault.end) {
        return OTHER_CHARS;
    }
    print_text((const uint8_t *)sentence, strlen(sentence));
    printf(" %zu %zu ", it.fault.start, it.fault.end);
    print_text((const uint8_t *)word, strlen(word));
    return NULL;
}

/* warnings_text KIND TEXT: the numbers of the warnings, and whether a room for one less has all. */
const char *warnings_text(const struct field *fields) {
    timefd_warning all[TIMEFD_MOST_WARNINGS] = {{0}}, same[TIMEFD_MOST_WARNINGS] = {{0}}, little[TIMEFD_MOST_WARNINGS] = {{0}};
    timefd_warnings_answer answer, other;
    bool has_all = timefd_warnings_text(kind_of(fields), text_of(&fields[1]), all, TIMEFD_MOST_WARNINGS, &answer);
    size_t room = answer.count ? answer.count - 1 : 0;
    bool has_room = timefd_warnings_text(kind_of(fields), text_of(&fields[1]), little, room, NULL);
    if (timefd_warnings_chars(kind_of(fields), longer(&fields[1]), fields[1].len, same, TIMEFD_MOST_WARNINGS, &other) != has_all ||
        other.status != answer.status || other.value != answer.value || other.count != answer.count ||
        memcmp(all, same, sizeof all) != 0) {
        return OTHER_CHARS;
    }
    timefd_warnings_answer wanted = timefd_warnings(kind_of(fields), fields[1].bytes, fields[1].len, same, TIMEFD_MOST_WARNINGS);
    if (wanted.status != answer.status || wanted.value != answer.value || wanted.count != answer.count) {
        return OTHERWISE;
    }
    printf("%s %s", has_all ? "true" : "false", has_room ? "true" : "false");
    for (size_t i = 0; i < answer.written; i++) {
        printf(" %u", (unsigned)all[i].code);
    }
    return NULL;
}

typedef timefd_format_answer writer_of_bytes(const struct field *fields, uint8_t *buffer, size_t room);
typedef bool writer_of_text(const struct field *fields, char *buffer, size_t room, timefd_format_answer *answer);

/* Has a text written into each room, from none to more than it needs; and prints it, or why there is none. */
static const char *write_in_each_room(writer_of_bytes *write_bytes, writer_of_text *write_text, writer_of_text *write_chars,
                                      const struct field *fields) {
    uint8_t bytes[ROOM] = {0};
    timefd_format_answer wanted = write_bytes(fields, bytes, ROOM), answer;
    size_t len = wanted.status == TIMEFD_ACCEPTED ? wanted.value : 0;
    for (size_t room = 0; room < ROOM; room++) {
        char buffer[ROOM];
        memset(buffer, '.', ROOM);
        bool is_written = write_text(fields, buffer, room, &answer);
        if (is_written != (wanted.status == TIMEFD_ACCEPTED && len < room) || !has_text(buffer, room, bytes, len)) {
            return "the buffer holds something else than the text that has room";
        }
        if (answer.status != wanted.status || answer.value != wanted.value || answer.reason != wanted.reason ||
            answer.component != wanted.component || write_text(fields, buffer, room, NULL) != is_written) {
            return OTHERWISE;
        }
        memset(buffer, '.', ROOM);
        if (write_chars(fields, buffer, room, &answer) != is_written || !has_text(buffer, room, bytes, len) ||
            answer.status != wanted.status || answer.value != wanted.value) {
            return OTHER_CHARS;
        }
    }
    if (wanted.status == TIMEFD_ACCEPTED) {
        print_text(bytes, len);
    } else {
        print_answer(wanted.status, wanted.value);
    }
    return NULL;
}

static timefd_format_answer as_format(timefd_answer answer) {
    return (timefd_format_answer){.status = answer.status, .value = answer.value, .written = answer.written};
}

static timefd_format_answer convert_bytes(const struct field *fields, uint8_t *buffer, size_t room) {
    uint32_t to = (uint32_t)fields[1].number;
    return as_format(timefd_convert(kind_of(fields), to, fields[2].bytes, fields[2].len, buffer, room));
}

static bool convert_to_text(const struct field *fields, char *buffer, size_t room, timefd_format_answer *answer) {
    uint32_t to = (uint32_t)fields[1].number;
    timefd_answer converted = {0};
    bool is_written = timefd_convert_text(kind_of(fields), to, text_of(&fields[2]), buffer, room, answer ? &converted : NULL);
    if (answer) {
        *answer = as_format(converted);
    }
    return is_written;
}

static bool convert_chars(const struct field *fields, char *buffer, size_t room, timefd_format_answer *answer) {
    uint32_t to = (uint32_t)fields[1].number;
    timefd_answer converted;
    bool is_written =
        timefd_convert_chars(kind_of(fields), to, longer(&fields[2]), fields[2].len, buffer, room, &converted);
    *answer = as_format(converted);
    return is_written;
}

const char *convert_text(const struct field *fields) {
    return write_in_each_room(convert_bytes, convert_to_text, convert_chars, fields);
}

static timefd_format_answer as_written(timefd_convert_answer answer) {
    return (timefd_format_answer){
        .status = answer.status, .reason = answer.reason, .value = answer.value, .written = answer.written};
}

static timefd_format_answer convert_format_bytes(const struct field *fields, uint8_t *buffer, size_t room) {
    return as_written(timefd_convert_format(kind_of(fields), fields[1].bytes, fields[1].len, buffer, room));
}

static bool convert_format_to_text(const struct field *fields, char *buffer, size_t room, timefd_format_answer *answer) {
    timefd_convert_answer converted = {0};
    bool is_written =
        timefd_convert_format_text(kind_of(fields), text_of(&fields[1]), buffer, room, answer ? &converted : NULL);
    if (answer) {
        *answer = as_written(converted);
    }
    return is_written;
}

static bool convert_format_of_chars(const struct field *fields, char *buffer, size_t room, timefd_format_answer *answer) {
    timefd_convert_answer converted;
    bool is_written =
        timefd_convert_format_chars(kind_of(fields), longer(&fields[1]), fields[1].len, buffer, room, &converted);
    *answer = as_written(converted);
    return is_written;
}

/* convert_format_text DIALECT FORMAT */
const char *convert_format_text(const struct field *fields) {
    return write_in_each_room(convert_format_bytes, convert_format_to_text, convert_format_of_chars, fields);
}

static timefd_format_answer format_bytes(const struct field *fields, uint8_t *buffer, size_t room) {
    timefd_moment moment = moment_of(fields + 2);
    return timefd_format(kind_of(fields), fields[1].bytes, fields[1].len, &moment, buffer, room);
}

static bool format_to_text(const struct field *fields, char *buffer, size_t room, timefd_format_answer *answer) {
    timefd_moment moment = moment_of(fields + 2);
    return timefd_format_text(kind_of(fields), text_of(&fields[1]), &moment, buffer, room, answer);
}

static bool format_chars(const struct field *fields, char *buffer, size_t room, timefd_format_answer *answer) {
    timefd_moment moment = moment_of(fields + 2);
    return timefd_format_chars(kind_of(fields), longer(&fields[1]), fields[1].len, &moment, buffer, room, answer);
}

const char *format_text(const struct field *fields) {
    return write_in_each_room(format_bytes, format_to_text, format_chars, fields);
}

static bool format_nodes_to_text(const struct field *fields, char *buffer, size_t room, timefd_format_answer *answer) {
    timefd_node nodes[NODES];
    uint8_t literals[ROOM] = {0};
    timefd_read_answer read;
    memset(nodes, 0, sizeof nodes);
    timefd_moment moment = moment_of(fields + 2);
    return timefd_read_text(kind_of(fields), text_of(&fields[1]), nodes, NODES, literals, ROOM, &read) &&
           timefd_format_nodes_text(nodes, read.nodes, literals, read.literals, &moment, buffer, room, answer);
}

/* The nodes of the text by its length, and what is written by these. */
static bool format_nodes_of_chars(const struct field *fields, char *buffer, size_t room, timefd_format_answer *answer) {
    timefd_node nodes[NODES];
    uint8_t literals[ROOM] = {0};
    timefd_read_answer read;
    memset(nodes, 0, sizeof nodes);
    timefd_moment moment = moment_of(fields + 2);
    return timefd_read_chars(kind_of(fields), longer(&fields[1]), fields[1].len, nodes, NODES, literals, ROOM, &read) &&
           timefd_format_nodes_text(nodes, read.nodes, literals, read.literals, &moment, buffer, room, answer);
}

/* format_nodes_text KIND TEXT MOMENT: the text is a description. */
const char *format_nodes_text(const struct field *fields) {
    return write_in_each_room(format_bytes, format_nodes_to_text, format_nodes_of_chars, fields);
}

/* read_text KIND TEXT: how many nodes and literals are written, and whether a node less has room for them. */
const char *read_text(const struct field *fields) {
    timefd_node nodes[NODES];
    uint8_t literals[ROOM] = {0};
    memset(nodes, 0, sizeof nodes);
    timefd_read_answer answer, little;
    bool is_read = timefd_read_text(kind_of(fields), text_of(&fields[1]), nodes, NODES, literals, ROOM, &answer);
    size_t room = answer.nodes ? answer.nodes - 1 : 0;
    bool has_room = timefd_read_text(kind_of(fields), text_of(&fields[1]), nodes, room, literals, ROOM, &little);
    if (timefd_read_text(kind_of(fields), text_of(&fields[1]), nodes, NODES, literals, ROOM, NULL) != is_read ||
        little.nodes != answer.nodes) {
        return "what is answered depends on the room";
    }
    printf("%s %s nodes %zu literals %zu", is_read ? "true" : "false", has_room ? "true" : "false", answer.nodes, answer.literals);
    return NULL;
}

/* Whether a text is read with a limit, and as one with composite letters, by its length as by the 0 at its end. */
static bool is_read_alike(const struct field *fields, uint32_t limit) {
    timefd_node nodes[NODES], others[NODES];
    uint8_t literals[ROOM] = {0}, other_literals[ROOM] = {0};
    timefd_read_answer one, other;
    memset(nodes, 0, sizeof nodes);
    memset(others, 0, sizeof others);
    const char *text = text_of(&fields[1]), *front = longer(&fields[1]);
    size_t len = fields[1].len;
    bool is_same = timefd_read_within_text(kind_of(fields), limit, text, nodes, NODES, literals, ROOM, &one) ==
                       timefd_read_within_chars(kind_of(fields), limit, front, len, others, NODES, other_literals, ROOM, &other) &&
                   one.status == other.status && one.value == other.value && one.nodes == other.nodes;
    is_same = is_same && (one.status != TIMEFD_ACCEPTED || memcmp(nodes, others, sizeof nodes) == 0);
    return is_same && timefd_read_composites_text(text, nodes, NODES, literals, ROOM, &one) ==
                          timefd_read_composites_chars(front, len, others, NODES, other_literals, ROOM, &other) &&
           one.status == other.status && one.value == other.value && one.nodes == other.nodes;
}

/* Whether the calls for texts that end with 0 and those with a length write, and read, the same within the limit. */
static bool is_limited_alike(const struct field *fields, uint32_t limit) {
    const timefd_moment nothing = {.known = 0};
    const char *text = text_of(&fields[1]), *front = longer(&fields[1]);
    size_t len = fields[1].len;
    char buffer[ROOM], other_buffer[ROOM];
    timefd_format_answer one, other;
    timefd_date_answer date, other_date;
    bool is_written = timefd_format_within_text(kind_of(fields), limit, text, &nothing, buffer, ROOM, &one);
    bool is_read = timefd_read_date_within_text(kind_of(fields), limit, text, "", &date);
    return is_written == timefd_format_within_chars(kind_of(fields), limit, front, len, &nothing, other_buffer, ROOM, &other) &&
           one.status == other.status && one.value == other.value && strcmp(buffer, other_buffer) == 0 &&
           is_read == timefd_read_date_within_chars(kind_of(fields), limit, front, len, "", 0, &other_date) &&
           date.status == other_date.status && date.value == other_date.value;
}

/* read_within_text KIND TEXT LIMIT: whether the nodes are written. */
const char *read_within_text(const struct field *fields) {
    timefd_node nodes[NODES];
    uint8_t literals[ROOM] = {0};
    uint32_t limit = (uint32_t)fields[2].number;
    timefd_read_answer answer;
    memset(nodes, 0, sizeof nodes);
    bool is_read = timefd_read_within_text(kind_of(fields), limit, text_of(&fields[1]), nodes, NODES, literals, ROOM, &answer);
    if (!is_read_alike(fields, limit) || !is_limited_alike(fields, limit)) {
        return OTHER_CHARS;
    }
    printf("%s ", is_read ? "true" : "false");
    print_answer(answer.status, answer.value);
    return NULL;
}

/* read_composites_text TEXT: how many nodes there are of a text of strftime, and how many of them are composite letters. */
const char *read_composites_text(const struct field *fields) {
    timefd_node nodes[NODES];
    uint8_t literals[ROOM] = {0};
    timefd_read_answer answer;
    memset(nodes, 0, sizeof nodes);
    size_t composites = 0;
    bool is_read = timefd_read_composites_text(text_of(&fields[0]), nodes, NODES, literals, ROOM, &answer);
    for (size_t i = 0; is_read && i < answer.nodes; i++) {
        composites += nodes[i].what == TIMEFD_COMPOSITE;
    }
    printf("%s nodes %zu composites %zu", is_read ? "true" : "false", answer.nodes, composites);
    return NULL;
}

/* Whether both answers on a date are the same. */
static bool is_same_date(timefd_date_answer one, timefd_date_answer other) {
    return one.status == other.status && one.value == other.value && one.reason == other.reason && one.part == other.part &&
           memcmp(&one.moment, &other.moment, sizeof one.moment) == 0;
}

/* Whether the date reads by nodes as by their text. */
static bool is_read_by_nodes(const struct field *fields, const char *date, timefd_date_answer wanted) {
    timefd_node nodes[NODES];
    uint8_t literals[ROOM] = {0};
    timefd_read_answer read;
    timefd_date_answer answer;
    memset(nodes, 0, sizeof nodes);
    if (!timefd_read_text(kind_of(fields), text_of(&fields[1]), nodes, NODES, literals, ROOM, &read)) {
        return wanted.status != TIMEFD_ACCEPTED;
    }
    bool is_read = timefd_read_nodes_text(nodes, read.nodes, literals, read.literals, date, &answer);
    return is_read == (wanted.status == TIMEFD_ACCEPTED) && is_same_date(answer, wanted) &&
           timefd_read_nodes_chars(nodes, read.nodes, literals, read.literals, longer(&fields[2]), fields[2].len, &answer) == is_read &&
           is_same_date(answer, wanted);
}

const char *read_date_text(const struct field *fields) {
    const char *text = text_of(&fields[1]), *date = text_of(&fields[2]);
    timefd_date_answer answer, other;
    bool is_read = timefd_read_date_text(kind_of(fields), text, date, &answer);
    if (timefd_read_date_text(kind_of(fields), text, date, NULL) != is_read) {
        return OTHERWISE;
    }
    const char *front = longer(&fields[1]), *begun = longer(&fields[2]);
    if (timefd_read_date_chars(kind_of(fields), front, fields[1].len, begun, fields[2].len, &other) != is_read ||
        !is_same_date(answer, other)) {
        return OTHER_CHARS;
    }
    if (!is_read_by_nodes(fields, date, answer)) {
        return "the call by nodes answers otherwise";
    }
    printf("%s ", is_read ? "true" : "false");
    if (is_read) {
        print_moment(answer.moment);
    } else {
        print_answer(answer.status, answer.value);
    }
    return NULL;
}

/* Functions of the library, each in a call that looks at what stands around it. */

#include "fuzz.h"

#include <stdlib.h>
#include <string.h>

void *__real_malloc(size_t size);
void *__real_realloc(void *block, size_t size);
void __real_free(void *block);
void *__wrap_malloc(size_t size);
void *__wrap_realloc(void *block, size_t size);
void __wrap_free(void *block);

/* No UTF-8 has this byte, so no call writes it. */
enum { FILL = 0xff };

/* How many blocks were taken more often than freed since the call began. */
static long held;

void *__wrap_malloc(size_t size) {
    void *block = __real_malloc(size);
    held += block != NULL;
    return block;
}

void *__wrap_realloc(void *block, size_t size) {
    void *moved = __real_realloc(block, size);
    held += block == NULL && moved != NULL;
    return moved;
}

void __wrap_free(void *block) {
    held -= block != NULL;
    __real_free(block);
}

/* The text in a block of exactly its length, so that a memory checker notices what is read after
   it. */
static uint8_t *exact_copy(uint32_t kind, const struct text *text) {
    remember(kind, text);
    uint8_t *bytes = __real_malloc(text->len + (text->len == 0));
    if (bytes == NULL) {
        abort();
    }
    memcpy(bytes, text->bytes, text->len);
    held = 0;
    return bytes;
}

static void take_back(uint32_t kind, const struct text *text, uint8_t *bytes) {
    expect(held == 0, kind, text, "all memory to be freed once");
    expect(memcmp(bytes, text->bytes, text->len) == 0, kind, text,
           "that the text is not written to");
    __real_free(bytes);
}

static bool is_filled(const uint8_t *bytes, size_t len) {
    for (size_t i = 0; i < len; i++) {
        if (bytes[i] != FILL) {
            return false;
        }
    }
    return true;
}

/* Fills what a call with this room may reach by a mistake, and gives the buffer that it is for. */
static uint8_t *fill(struct buffer *buffer, size_t room) {
    memset(buffer->guarded, FILL, GUARD + room + GUARD);
    return buffer->guarded + GUARD;
}

static void check_filled(uint32_t kind, const struct text *text, const struct buffer *buffer,
                         size_t room, size_t written) {
    const uint8_t *front = buffer->guarded + GUARD;
    bool is_kept = written <= room && is_filled(buffer->guarded, GUARD) &&
                   is_filled(front + written, room - written + GUARD);
    expect(is_kept, kind, text, "that nothing is written but the bytes that are reported");
}

timefd_answer judge(uint32_t kind, const struct text *text) {
    uint8_t *bytes = exact_copy(kind, text);
    timefd_answer answer = timefd_judge(kind, bytes, text->len);
    take_back(kind, text, bytes);
    return answer;
}

timefd_answer check(uint32_t kind, const struct text *text, struct buffer *sentence,
                    size_t room) {
    uint8_t *bytes = exact_copy(kind, text);
    uint8_t *front = fill(sentence, room);
    timefd_answer answer = timefd_check(kind, bytes, text->len, front, room);
    take_back(kind, text, bytes);
    check_filled(kind, text, sentence, room, answer.written);
    return answer;
}

timefd_diagnosis diagnose(uint32_t kind, const struct text *text, struct buffer *sentence,
                          size_t room, struct buffer *word, size_t word_room) {
    uint8_t *bytes = exact_copy(kind, text);
    uint8_t *front = fill(sentence, room);
    uint8_t *word_front = fill(word, word_room);
    timefd_diagnosis diagnosis =
        timefd_diagnose(kind, bytes, text->len, front, room, word_front, word_room);
    take_back(kind, text, bytes);
    check_filled(kind, text, sentence, room, diagnosis.answer.written);
    check_filled(kind, text, word, word_room, diagnosis.fault.nearest_written);
    return diagnosis;
}

timefd_answer convert(const struct text *text, struct buffer *buffer, size_t room) {
    uint8_t *bytes = exact_copy(0, text);
    uint8_t *front = fill(buffer, room);
    timefd_answer answer = timefd_v1_to_v2(bytes, text->len, front, room);
    take_back(0, text, bytes);
    check_filled(0, text, buffer, room, answer.written);
    return answer;
}

timefd_answer modernize(uint32_t kind, const struct text *text, struct buffer *buffer, size_t room) {
    uint8_t *bytes = exact_copy(kind, text);
    uint8_t *front = fill(buffer, room);
    timefd_answer answer =
        timefd_convert(kind, TIMEFD_VERSION_3, bytes, text->len, front, room);
    take_back(kind, text, bytes);
    check_filled(kind, text, buffer, room, answer.written);
    return answer;
}

timefd_convert_answer convert_format(uint32_t dialect, const struct text *text, struct buffer *buffer, size_t room) {
    uint8_t *bytes = exact_copy(dialect, text);
    uint8_t *front = fill(buffer, room);
    timefd_convert_answer answer = timefd_convert_format(dialect, bytes, text->len, front, room);
    take_back(dialect, text, bytes);
    check_filled(dialect, text, buffer, room, answer.written);
    return answer;
}

timefd_format_answer format(uint32_t kind, const struct text *text, const timefd_moment *moment,
                            struct buffer *buffer, size_t room) {
    uint8_t *bytes = exact_copy(kind, text);
    uint8_t *front = fill(buffer, room);
    timefd_format_answer answer = timefd_format(kind, bytes, text->len, moment, front, room);
    take_back(kind, text, bytes);
    check_filled(kind, text, buffer, room, answer.written);
    return answer;
}

timefd_format_answer format_nodes(uint32_t kind, const struct text *text,
                                  const struct node_buffers *buffers, timefd_read_answer read,
                                  const timefd_moment *moment, struct buffer *buffer, size_t room) {
    uint8_t *front = fill(buffer, room);
    timefd_format_answer answer =
        timefd_format_nodes(buffers->nodes + 1, read.nodes, buffers->literals + GUARD, read.literals,
                            moment, front, room);
    check_filled(kind, text, buffer, room, answer.written);
    return answer;
}

timefd_date_answer read_date(uint32_t kind, const struct text *text, const struct text *date) {
    uint8_t *bytes = exact_copy(kind, text);
    uint8_t *date_bytes = __real_malloc(date->len + (date->len == 0));
    if (date_bytes == NULL) {
        abort();
    }
    memcpy(date_bytes, date->bytes, date->len);
    timefd_date_answer answer = timefd_read_date(kind, bytes, text->len, date_bytes, date->len);
    expect(memcmp(date_bytes, date->bytes, date->len) == 0, kind, text,
           "that the date is not written to");
    __real_free(date_bytes);
    take_back(kind, text, bytes);
    return answer;
}

timefd_date_answer read_date_by_nodes(uint32_t kind, const struct text *text,
                                      const struct node_buffers *buffers, timefd_read_answer read,
                                      const struct text *date) {
    uint8_t *date_bytes = exact_copy(kind, date);
    timefd_date_answer answer =
        timefd_read_nodes(buffers->nodes + 1, read.nodes, buffers->literals + GUARD, read.literals,
                          date_bytes, date->len);
    take_back(kind, date, date_bytes);
    remember(kind, text);
    return answer;
}

timefd_read_answer read_within(uint32_t kind, uint32_t limit, const struct text *text) {
    uint8_t *bytes = exact_copy(kind, text);
    timefd_read_answer answer = timefd_read_within(kind, limit, bytes, text->len, NULL, 0, NULL, 0);
    take_back(kind, text, bytes);
    return answer;
}

/* Reads nodes, with one for a composite letter of strftime or with its members. */
static timefd_read_answer read_into(uint32_t kind, bool composes, const struct text *text,
                                    struct node_buffers *buffers, size_t node_room, size_t literal_room) {
    uint8_t *bytes = exact_copy(kind, text);
    size_t filled_len = (1 + node_room + 1) * sizeof(timefd_node);
    memset(buffers->nodes, FILL, filled_len);
    memset(buffers->literals, FILL, GUARD + literal_room + GUARD);
    timefd_node *nodes_front = buffers->nodes + 1;
    uint8_t *literals_front = buffers->literals + GUARD;
    timefd_read_answer answer =
        composes ? timefd_read_composites(bytes, text->len, nodes_front, node_room, literals_front, literal_room)
                 : timefd_read(kind, bytes, text->len, nodes_front, node_room, literals_front, literal_room);
    take_back(kind, text, bytes);
    /* What buffers hold that are too short, or after a text is refused, isn't defined. */
    bool is_defined = answer.written || answer.status == TIMEFD_NOT_UTF8;
    size_t nodes = is_defined ? answer.nodes : node_room;
    size_t literals = is_defined ? answer.literals : literal_room;
    const uint8_t *filled = (const uint8_t *)buffers->nodes;
    size_t end = (1 + nodes) * sizeof(timefd_node);
    bool is_kept = nodes <= node_room && literals <= literal_room &&
                   is_filled(filled, sizeof(timefd_node)) && is_filled(filled + end, filled_len - end) &&
                   is_filled(buffers->literals, GUARD) &&
                   is_filled(buffers->literals + GUARD + literals, literal_room - literals + GUARD);
    expect(is_kept, kind, text, "that nothing is written but the nodes and literals that are reported");
    return answer;
}

timefd_read_answer read_nodes(uint32_t kind, const struct text *text, struct node_buffers *buffers,
                              size_t node_room, size_t literal_room) {
    return read_into(kind, false, text, buffers, node_room, literal_room);
}

timefd_read_answer read_composites(const struct text *text, struct node_buffers *buffers, size_t node_room,
                                   size_t literal_room) {
    return read_into(TIMEFD_STRFTIME, true, text, buffers, node_room, literal_room);
}

/* Answers by pointer are those by value: all of a structure as the header has it, its front for a program that knows fewer fields, and
   0 after it for one that knows more. */

#include <stdio.h>
#include <string.h>

#include "../examples/timefd.h"

#define MORE 16
#define ROOM 64
#define TEXT(text) (const uint8_t *)(text), strlen(text)

static int failed;

/* Fields side by side: where they begin, and how many bytes they have; the last one has none. */
struct fields {
    size_t start, len;
};

static const struct fields ANSWER[] = {{0, 4}, {8, 24}, {0}};
static const struct fields FAULT[] = {{0, 5}, {8, 32}, {0}};
static const struct fields READ[] = {{0, 4}, {8, 25}, {40, 8}, {0}};
static const struct fields FORMAT[] = {{0, 12}, {16, 16}, {0}};
static const struct fields CONVERT[] = {{0, 29}, {0}};
static const struct fields DATE[] = {{0, 45}, {0}};

/* Whether so many bytes of the answer were written, with 0 after what is known, and nothing after these. */
static bool is_passed_on(const uint8_t *got, size_t size, const void *whole, size_t known, const struct fields *fields) {
    for (const struct fields *it = fields; it->len != 0; it++) {
        size_t end = it->start + it->len < size ? it->start + it->len : size;
        if (end > it->start && memcmp(got + it->start, (const uint8_t *)whole + it->start, end - it->start) != 0)
            return false;
    }
    for (size_t at = known; at < known + MORE; at++)
        if (got[at] != (at < size ? 0 : '.'))
            return false;
    return size >= known || got[size] == '.';
}

static void expect(const char *name, bool holds) {
    if (!holds) {
        fprintf(stderr, "gate/answers: %s\n", name);
        failed++;
    }
}

/* Calls `name` with both ways to answer, for programs that know fewer fields, all and more. */
#define EXPECT(name, type, fields, ...)                                                             \
    do {                                                                                            \
        type whole = timefd_##name(__VA_ARGS__);                                                    \
        const size_t sizes[] = {0, 4, 8, sizeof whole, sizeof whole + MORE};                        \
        for (size_t i = 0; i < sizeof sizes / sizeof sizes[0]; i++) {                               \
            union {                                                                                 \
                type answer;                                                                        \
                uint8_t bytes[sizeof(type) + MORE];                                                 \
            } got;                                                                                  \
            memset(&got, '.', sizeof got);                                                          \
            timefd_##name##_into(__VA_ARGS__, &got.answer, sizes[i]);                               \
            expect(#name, is_passed_on(got.bytes, sizes[i], &whole, sizeof whole, fields));         \
        }                                                                                           \
    } while (0)

/* A fault is on its own, so that new fields after the answer don't move it. */
static void try_diagnose(const char *text) {
    uint8_t sentence[ROOM] = {0}, word[ROOM] = {0}, fault[sizeof(timefd_fault) + MORE], answer[sizeof(timefd_answer) + MORE];
    timefd_diagnosis whole = timefd_diagnose(TIMEFD_VERSION_3, TEXT(text), sentence, ROOM, word, ROOM);
    for (size_t size = 0; size <= sizeof fault; size += 4) {
        memset(answer, '.', sizeof answer);
        memset(fault, '.', sizeof fault);
        timefd_diagnose_into(TIMEFD_VERSION_3, TEXT(text), sentence, ROOM, word, ROOM, (timefd_answer *)(void *)answer,
                             sizeof answer, (timefd_fault *)(void *)fault, size);
        expect("diagnose", is_passed_on(answer, sizeof answer, &whole.answer, sizeof whole.answer, ANSWER) &&
                               is_passed_on(fault, size, &whole.fault, sizeof whole.fault, FAULT));
    }
}

static void try_texts(const char *text) {
    static const timefd_moment MOMENT = {.known = TIMEFD_HAS_DATE, .year = 2026, .month = 11, .day = 23};
    uint8_t buffer[ROOM] = {0}, literals[ROOM] = {0};
    timefd_node nodes[ROOM];
    timefd_warning warnings[ROOM];
    memset(nodes, 0, sizeof nodes);
    memset(warnings, 0, sizeof warnings);
    for (uint32_t kind = 0; kind <= TIMEFD_STRFTIME; kind++) {
        EXPECT(judge, timefd_answer, ANSWER, kind, TEXT(text));
        EXPECT(check, timefd_answer, ANSWER, kind, TEXT(text), buffer, ROOM);
        EXPECT(warnings, timefd_warnings_answer, ANSWER, kind, TEXT(text), warnings, ROOM);
        EXPECT(convert, timefd_answer, ANSWER, kind, TIMEFD_VERSION_3, TEXT(text), buffer, ROOM);
        EXPECT(read, timefd_read_answer, READ, kind, TEXT(text), nodes, ROOM, literals, ROOM);
        EXPECT(read_within, timefd_read_answer, READ, kind, 0, TEXT(text), nodes, ROOM, literals, ROOM);
        EXPECT(format, timefd_format_answer, FORMAT, kind, TEXT(text), &MOMENT, buffer, ROOM);
        EXPECT(read_date, timefd_date_answer, DATE, kind, TEXT(text), TEXT("23.11.2026"));
    }
    for (uint32_t dialect = TIMEFD_PYTHON; dialect <= TIMEFD_MOMENT + 1; dialect++) {
        EXPECT(convert_format, timefd_convert_answer, CONVERT, dialect, TEXT(text), buffer, ROOM);
    }
    EXPECT(v1_to_v2, timefd_answer, ANSWER, TEXT(text), buffer, ROOM);
    EXPECT(v2_to_v3, timefd_answer, ANSWER, TEXT(text), buffer, ROOM);
    EXPECT(read_composites, timefd_read_answer, READ, TEXT(text), nodes, ROOM, literals, ROOM);
    timefd_read_answer read = timefd_read(TIMEFD_VERSION_3, TEXT(text), nodes, ROOM, literals, ROOM);
    size_t count = read.written ? read.nodes : 0;
    EXPECT(format_nodes, timefd_format_answer, FORMAT, nodes, count, literals, ROOM, &MOMENT, buffer, ROOM);
    EXPECT(read_nodes, timefd_date_answer, DATE, nodes, count, literals, ROOM, TEXT("23.11.2026"));
}

int main(void) {
    static const char *const TEXTS[] = {"", "[day].[month].[year]", "[hour]", "[optional [[day]]]", "[year]-[mnth]", "%d.%m.%Y", "[day"};
    for (size_t i = 0; i < sizeof TEXTS / sizeof TEXTS[0]; i++) {
        try_texts(TEXTS[i]);
        try_diagnose(TEXTS[i]);
    }
    printf("gate/answers: answers by pointer, %d failed\n", failed);
    return failed != 0;
}

/* Calls the library over texts of each family nested as deep as they may be, and deeper, and measures how much stack each call
   takes: no more than timefd.h names, and for each level no more than the bounds here. */
#define _GNU_SOURCE
#include "../examples/timefd.h"

#include <pthread.h>
#include <stdio.h>
#include <stdlib.h>
#include <string.h>
#include <sys/mman.h>

enum { DEEPEST = 127, HALF = 63, DEEPER = 20000, SHORT = 512, LIMITED = 40, BUFFER = 8192, NODES = 2048, STACK = 2048 * 1024, GUARD = 64 * 1024, UNTOUCHED = 0xA5 };

/* What nests: so many fronts, the inside, so many backs; and likewise a date that is read by it to its end. */
struct family {
    const char *name;
    const char *front, *inside, *back;
    const char *date_front, *date_inside;
    uint32_t read; /* the status of that date: a day alone is no date */
};

static const struct family FAMILIES[] = {
    {"optional", "[optional [", "[day padding:none]", "]]", "", "x", TIMEFD_UNREAD},
    {"optional in text", "[optional [a", "[day]", "b]]", "a", "23", TIMEFD_UNREAD},
    {"first of one", "[first [", "x", "]]", "", "x", TIMEFD_ACCEPTED},
    {"first of a day", "[first [", "[day]", "]]", "", "23", TIMEFD_MISSING},
    {"first in text", "[first [a", "[day]", "]]", "a", "23", TIMEFD_MISSING},
    {"first of three", "[first [a] [b", "c", "] [d]]", "b", "c", TIMEFD_ACCEPTED},
    {"first in front", "[first [", "[day]", "] [a] [b] [c]]", "", "23", TIMEFD_MISSING},
    {"first at the end", "[first [a] [b] [c] [", "[day]", "]]", "", "23", TIMEFD_MISSING},
};

enum { FAMILY_COUNT = sizeof FAMILIES / sizeof *FAMILIES };

/* A text, its nodes, and a date. */
struct given {
    const struct family *family;
    size_t depth;
    int closed;
    char *text;
    size_t len;
    char *date;
    size_t date_len;
    timefd_node nodes[NODES];
    uint8_t literals[BUFFER];
    timefd_read_answer read;
};

static const timefd_moment MOMENT = {.known = TIMEFD_HAS_DATE, .year = 2026, .month = 11, .day = 23};
static struct given given;
static uint8_t buffer[BUFFER];
static int failed;

static char *repeated(const char *front, const char *inside, const char *back, size_t depth, size_t *len) {
    char *made = malloc(depth * (strlen(front) + strlen(back)) + strlen(inside) + 1), *end = made;
    if (made == NULL)
        exit(2);
    for (size_t at = 0; at < depth; at++)
        end = stpcpy(end, front);
    end = stpcpy(end, inside);
    for (size_t at = 0; at < depth; at++)
        end = stpcpy(end, back);
    *len = (size_t)(end - made);
    return made;
}

static const uint8_t *text(void) {
    return (const uint8_t *)given.text;
}

/* Takes a text so deep for that of the calls; its closing brackets only where asked. */
static void give(const struct family *family, size_t depth, int closed) {
    free(given.text);
    free(given.date);
    given.family = family;
    given.depth = depth;
    given.closed = closed;
    given.text = repeated(family->front, family->inside, closed ? family->back : "", depth, &given.len);
    given.date = repeated(family->date_front, family->date_inside, "", depth, &given.date_len);
    given.read = timefd_read(TIMEFD_VERSION_3, text(), given.len, given.nodes, NODES, given.literals, BUFFER);
    if (given.read.status == TIMEFD_ACCEPTED && !given.read.written)
        exit(2);
}

static void expect(const char *what, uint32_t kind, uint32_t expected, uint32_t status) {
    if (status != expected) {
        printf("stack: %s of kind %u, %s, %zu deep, answered status %u, not %u\n", what, kind, given.family->name, given.depth, status,
               expected);
        failed = 1;
    }
}

static uint32_t accepted(uint32_t kind) {
    return kind == TIMEFD_VERSION_3 && given.closed && given.depth <= DEEPEST ? TIMEFD_ACCEPTED : TIMEFD_REFUSED;
}

#define EACH_VERSION(kind) uint32_t kind = TIMEFD_VERSION_1; kind <= TIMEFD_VERSION_3; kind++

static void *judge(void *unused) {
    for (EACH_VERSION(kind))
        expect("judge", kind, accepted(kind), timefd_judge(kind, text(), given.len).status);
    return unused;
}

static void *check(void *unused) {
    for (EACH_VERSION(kind))
        expect("check", kind, accepted(kind), timefd_check(kind, text(), given.len, buffer, BUFFER).status);
    return unused;
}

static void *diagnose(void *unused) {
    for (EACH_VERSION(kind))
        expect("diagnose", kind, accepted(kind),
               timefd_diagnose(kind, text(), given.len, buffer, BUFFER / 2, buffer + BUFFER / 2, BUFFER / 2).answer.status);
    return unused;
}

static void *warnings(void *unused) {
    for (EACH_VERSION(kind))
        expect("warnings", kind, accepted(kind), timefd_warnings(kind, text(), given.len, NULL, 0).status);
    return unused;
}

static void *read_texts(void *unused) {
    for (EACH_VERSION(kind)) {
        expect("read", kind, accepted(kind), timefd_read(kind, text(), given.len, NULL, 0, NULL, 0).status);
        expect("read_within", kind, accepted(kind), timefd_read_within(kind, UINT32_MAX, text(), given.len, NULL, 0, NULL, 0).status);
    }
    return unused;
}

static void *format(void *unused) {
    for (EACH_VERSION(kind))
        expect("format", kind, accepted(kind), timefd_format(kind, text(), given.len, &MOMENT, buffer, BUFFER).status);
    return unused;
}

static void *format_within(void *unused) {
    for (EACH_VERSION(kind))
        expect("format_within", kind, accepted(kind),
               timefd_format_within(kind, UINT32_MAX, text(), given.len, &MOMENT, buffer, BUFFER).status);
    return unused;
}

/* What was read of a text writes what the text writes. */
static void *format_nodes(void *unused) {
    if (given.read.status == TIMEFD_ACCEPTED)
        expect("format_nodes", TIMEFD_VERSION_3, TIMEFD_ACCEPTED,
               timefd_format_nodes(given.nodes, given.read.nodes, given.literals, given.read.literals, &MOMENT, buffer, BUFFER).status);
    return unused;
}

static void *convert_old(void *unused) {
    expect("v1_to_v2", TIMEFD_VERSION_1, TIMEFD_REFUSED, timefd_v1_to_v2(text(), given.len, buffer, BUFFER).status);
    expect("v2_to_v3", TIMEFD_VERSION_2, TIMEFD_REFUSED, timefd_v2_to_v3(text(), given.len, buffer, BUFFER).status);
    return unused;
}

/* Formats of other languages nest nothing: a short one is as good as a long one. */
static void *convert_formats(void *unused) {
    for (uint32_t dialect = TIMEFD_PYTHON; dialect <= TIMEFD_MOMENT; dialect++)
        timefd_convert_format(dialect, text(), given.len < SHORT ? given.len : SHORT, buffer, BUFFER);
    return unused;
}

static void *convert(void *unused) {
    for (EACH_VERSION(kind))
        expect("convert", kind, accepted(kind), timefd_convert(kind, TIMEFD_VERSION_3, text(), given.len, buffer, BUFFER).status);
    return unused;
}

static void *read_date(void *unused) {
    const uint8_t *date = (const uint8_t *)given.date;
    for (EACH_VERSION(kind))
        expect("read_date", kind, accepted(kind) == TIMEFD_ACCEPTED ? given.family->read : TIMEFD_REFUSED,
               timefd_read_date(kind, text(), given.len, date, given.date_len).status);
    return unused;
}

/* With a limit on nesting it needs no more stack than most calls. */
static void *read_date_within(void *unused) {
    const uint8_t *date = (const uint8_t *)given.date;
    for (EACH_VERSION(kind))
        expect("read_date_within", kind, accepted(kind) == TIMEFD_ACCEPTED && given.depth <= LIMITED ? given.family->read : TIMEFD_REFUSED,
               timefd_read_date_within(kind, LIMITED, text(), given.len, date, given.date_len).status);
    return unused;
}

static void *read_nodes(void *unused) {
    const uint8_t *date = (const uint8_t *)given.date;
    if (given.read.status == TIMEFD_ACCEPTED)
        expect("read_nodes", TIMEFD_VERSION_3, given.family->read,
               timefd_read_nodes(given.nodes, given.read.nodes, given.literals, given.read.literals, date, given.date_len).status);
    return unused;
}

/* What a level of a text may take to be parsed: what it takes on this processor. */
#ifdef __aarch64__
#define PARSED 528
#else
#define PARSED 496
#endif

/* A call, the stack that it has by timefd.h, and how much of it a level may take at most. */
static const struct {
    const char *name;
    void *(*function)(void *);
    size_t stack;
    size_t level;
} CALLS[] = {
    {"judge", judge, 112 * 1024, PARSED},
    {"check", check, 112 * 1024, PARSED},
    {"diagnose", diagnose, 112 * 1024, PARSED},
    {"warnings", warnings, 112 * 1024, PARSED},
    {"read", read_texts, 112 * 1024, PARSED},
    {"format", format, 112 * 1024, PARSED},
    {"format_within", format_within, 112 * 1024, PARSED},
    {"format_nodes", format_nodes, 112 * 1024, 0},
    {"v1_to_v2", convert_old, 112 * 1024, PARSED},
    {"convert_format", convert_formats, 112 * 1024, 0},
    {"convert", convert, 192 * 1024, 1200},
    {"read_date", read_date, 256 * 1024, 1980},
    {"read_date_within", read_date_within, 112 * 1024, PARSED},
    {"read_nodes", read_nodes, 256 * 1024, 1980},
};

enum { CALL_COUNT = sizeof CALLS / sizeof *CALLS };

/* Runs a call on a thread of its own, and answers how much of its stack was touched. */
static size_t taken(void *(*function)(void *)) {
    pthread_attr_t attributes;
    pthread_t thread;
    size_t left = 0;
    uint8_t *memory = mmap(NULL, GUARD + STACK, PROT_READ | PROT_WRITE, MAP_PRIVATE | MAP_ANONYMOUS, -1, 0);
    if (memory == MAP_FAILED || mprotect(memory, GUARD, PROT_NONE) != 0)
        exit(2);
    memset(memory + GUARD, UNTOUCHED, STACK);
    if (pthread_attr_init(&attributes) != 0 || pthread_attr_setstack(&attributes, memory + GUARD, STACK) != 0 ||
        pthread_create(&thread, &attributes, function, NULL) != 0 || pthread_join(thread, NULL) != 0)
        exit(2);
    while (left < STACK && memory[GUARD + left] == UNTOUCHED)
        left++;
    munmap(memory, GUARD + STACK);
    return STACK - left;
}

/* What a call takes over a text so deep. */
static size_t taken_by(size_t call, const struct family *family, size_t depth, int closed) {
    give(family, depth, closed);
    size_t touched = taken(CALLS[call].function);
    if (touched > CALLS[call].stack) {
        printf("stack: %s takes %zu bytes of stack over %s, %zu deep, not at most %zu\n", CALLS[call].name, touched, family->name, depth,
               CALLS[call].stack);
        failed = 1;
    }
    return touched;
}

/* What each level of a family's text takes, between two deep texts: a short one goes other ways. */
static size_t measure(size_t call, const struct family *family) {
    size_t shallow = taken_by(call, family, HALF, 1), deep = taken_by(call, family, DEEPEST, 1);
    size_t level = deep < shallow ? 0 : (deep - shallow) / (DEEPEST - HALF);
    taken_by(call, family, 1, 1);
    taken_by(call, family, LIMITED, 1);
    if (level > CALLS[call].level) {
        printf("stack: %s takes %zu bytes for each level of %s, not at most %zu\n", CALLS[call].name, level, family->name,
               CALLS[call].level);
        failed = 1;
    }
    taken_by(call, family, DEEPEST, 0);
    taken_by(call, family, DEEPER, 1);
    return level;
}

int main(void) {
    printf("stack: bytes a level, %d deep, of %d families:", DEEPEST, FAMILY_COUNT);
    for (size_t call = 0; call < CALL_COUNT; call++) {
        size_t most = 0;
        for (size_t at = 0; at < FAMILY_COUNT; at++) {
            size_t level = measure(call, &FAMILIES[at]);
            most = level > most ? level : most;
        }
        printf(" %s %zu", CALLS[call].name, most);
    }
    printf("\n");
    free(given.text);
    free(given.date);
    return failed;
}

/* Prints how much stack a call of the static library takes over nested texts. `memory.sh` builds and runs it. */

#include "texts.h"

#include <pthread.h>
#include <stdio.h>
#include <stdlib.h>
#include <string.h>

enum { ROOM = 1 << 20, PAINT = 0xa5, SHALLOW = 27 };

static const char OPENING[] = "[optional [", INSIDE[] = "[day padding:none]", CLOSING[] = "]]";

struct call {
    uint32_t kind;
    struct text text;
};

/* So many nested descriptions around a component with a modifier. */
static struct text nested(size_t depth) {
    struct text text = {.bytes = calloc(depth + 2, sizeof OPENING + sizeof CLOSING), .parts = depth};
    if (text.bytes == NULL) {
        exit(2);
    }
    for (size_t i = 0; i < depth; i++) {
        strcat(text.bytes, OPENING);
    }
    strcat(text.bytes, INSIDE);
    for (size_t i = 0; i < depth; i++) {
        strcat(text.bytes, CLOSING);
    }
    text.len = strlen(text.bytes);
    return text;
}

static void *judge(void *of) {
    const struct call *call = of;
    if (call->text.len > 0) {
        timefd_judge(call->kind, (const uint8_t *)call->text.bytes, call->text.len);
    }
    return NULL;
}

/* How many bytes of its stack a thread wrote to that makes the call. */
static size_t written_by(struct call call) {
    static _Alignas(4096) unsigned char stack[ROOM];
    pthread_attr_t attributes;
    pthread_t thread;
    memset(stack, PAINT, ROOM);
    if (pthread_attr_init(&attributes) != 0 || pthread_attr_setstack(&attributes, stack, ROOM) != 0 ||
        pthread_create(&thread, &attributes, judge, &call) != 0 || pthread_join(thread, NULL) != 0) {
        exit(2);
    }
    size_t untouched = 0;
    while (untouched < ROOM && stack[untouched] == PAINT) {
        untouched++;
    }
    return ROOM - untouched;
}

/* The same without what the thread takes for itself. */
static size_t taken(uint32_t kind, size_t depth) {
    struct call call = {kind, nested(depth)};
    size_t with = written_by(call);
    free(call.text.bytes);
    return with - written_by((struct call){.kind = kind});
}

int main(void) {
    puts("| Language | Stack of a text nested 127 deep | Of each nested description |\n|---|---|---|");
    for (uint32_t kind = TIMEFD_VERSION_1; kind <= TIMEFD_VERSION_3; kind++) {
        size_t deep = taken(kind, NESTING_LIMIT), shallow = taken(kind, SHALLOW);
        printf("| %s | %zu bytes | %zu bytes |\n", LANGUAGES[kind], deep, (deep - shallow) / (NESTING_LIMIT - SHALLOW));
    }
    return 0;
}

#include "texts.h"

#include <stdio.h>
#include <stdlib.h>
#include <string.h>

const char *const LANGUAGES[] = {"", "1", "2", "3", "strftime"};

static char deepest[13 * NESTING_LIMIT + 2];

static const char *deepest_description(void) {
    if (deepest[0] == '\0') {
        for (int i = 0; i < NESTING_LIMIT; i++) {
            strcat(deepest, "[optional [");
        }
        strcat(deepest, "x");
        for (int i = 0; i < NESTING_LIMIT; i++) {
            strcat(deepest, "]]");
        }
    }
    return deepest;
}

static void *allocate(size_t len) {
    void *bytes = malloc(len);
    if (bytes == NULL) {
        fprintf(stderr, "no memory for a text of %zu bytes\n", len);
        exit(2);
    }
    return bytes;
}

struct text make_text(const struct family *family, size_t size) {
    const char *part = family->part == NULL ? deepest_description() : family->part;
    size_t opening = strlen(family->opening), each = strlen(part), closing = strlen(family->closing);
    struct text text = {.parts = (size + each - 1) / each};
    text.len = opening + text.parts * each + closing;
    text.bytes = allocate(text.len);
    memcpy(text.bytes, family->opening, opening);
    for (size_t i = 0; i < text.parts; i++) {
        memcpy(text.bytes + opening + i * each, part, each);
    }
    memcpy(text.bytes + text.len - closing, family->closing, closing);
    return text;
}

bool is_expected(const struct family *family, const struct text *text, timefd_answer answer) {
    return answer.status == family->status && answer.value == family->each * text->parts + family->beside;
}

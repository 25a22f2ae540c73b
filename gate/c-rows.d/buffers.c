#include "buffers.h"

#include <inttypes.h>
#include <stdio.h>
#include <stdlib.h>
#include <string.h>

/* How much longer than the text the longest buffer is. */
enum { SPARE = 24 };

void print_text(const uint8_t *bytes, size_t len) {
    putchar('"');
    for (size_t i = 0; i < len; i++) {
        static const char escaped[] = "\n\t\r\0\"\\", letters[] = "ntr0\"\\";
        const char *found = memchr(escaped, bytes[i], sizeof escaped - 1);
        if (found) {
            printf("\\%c", letters[found - escaped]);
        } else {
            printf(bytes[i] < ' ' ? "\\u{%x}" : "%c", bytes[i]);
        }
    }
    putchar('"');
}

void print_answer(uint32_t status, size_t value) {
    printf("status %" PRIu32 " value %zu", status, value);
}

bool is_kept(const uint8_t *bytes, size_t from, size_t to) {
    while (from < to && bytes[from] == '.') {
        from++;
    }
    return from >= to;
}

const char *write_whole(writer *write, const struct field *fields, void (*print)(const uint8_t *, size_t)) {
    uint8_t none[1] = {'.'};
    struct written wanted = write(fields, none, 0);
    size_t len = wanted.status == 0 ? wanted.value : 0;
    size_t rooms[] = {len + SPARE, len, len ? len - 1 : 0, 0};
    uint8_t *text = malloc(len + SPARE), *buffer = malloc(len + SPARE);
    const char *complaint = NULL;
    for (size_t i = 0; i < sizeof rooms / sizeof *rooms; i++) {
        uint8_t *to = i == 0 ? text : buffer;
        size_t fits = rooms[i] < len ? 0 : len;
        memset(to, '.', len + SPARE);
        struct written answer = write(fields, to, rooms[i]);
        if (answer.status != wanted.status || answer.value != wanted.value || answer.written != fits) {
            complaint = "what is answered depends on the room";
        } else if (memcmp(to, text, fits) != 0 || !is_kept(to, fits, len + SPARE)) {
            complaint = "the buffer holds something else than the text that fits it";
        }
    }
    if (!complaint && wanted.status == 0) {
        print(text, len);
    } else if (!complaint) {
        print_answer(wanted.status, wanted.value);
    }
    free(text);
    free(buffer);
    return complaint;
}

/* Texts, which are bytes of a bounded length. */

#define _GNU_SOURCE
#include "fuzz.h"

#include <stdio.h>
#include <string.h>

void append(struct text *text, const uint8_t *bytes, size_t len) {
    if (text->len + len <= LONGEST) {
        memcpy(text->bytes + text->len, bytes, len);
        text->len += len;
    }
}

void append_word(struct text *text, const char *word) {
    append(text, (const uint8_t *)word, strlen(word));
}

bool has_word(const struct text *text, const char *word) {
    return memmem(text->bytes, text->len, word, strlen(word)) != NULL;
}

/* Prints it as Rust and C write it. */
void print_escaped(const struct text *text) {
    putchar('"');
    for (size_t i = 0; i < text->len; i++) {
        uint8_t byte = text->bytes[i];
        if (byte == '"' || byte == '\\') {
            printf("\\%c", byte);
        } else if (byte >= ' ' && byte <= '~') {
            putchar(byte);
        } else {
            printf("\\x%02x", byte);
        }
    }
    putchar('"');
}

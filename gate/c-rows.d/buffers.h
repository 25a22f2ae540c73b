/* What a call writes to a buffer of dots: whether it writes all of it, and nothing else. */

#ifndef BUFFERS_H
#define BUFFERS_H

#include "rows.h"

/* Prints a text as Rust's `{:?}` does. */
void print_text(const uint8_t *bytes, size_t len);

void print_answer(uint32_t status, size_t value);

/* Whether the bytes from one on up to another are still dots. */
bool is_kept(const uint8_t *bytes, size_t from, size_t to);

/* What a call answers that writes a text whole or not at all: its status, 0 where there is a text, its value, which is the text's
   length then, and how much was written. */
struct written {
    uint32_t status;
    size_t value;
    size_t written;
};

typedef struct written writer(const struct field *fields, uint8_t *buffer, size_t room);

/* Has a call write into more room than it needs, just as much, a byte less, and none; and has the text printed, or prints the status
   and the value. Each time the text is written where it fits, and the rest of the buffer is kept; else it returns what is wrong. */
const char *write_whole(writer *write, const struct field *fields, void (*print)(const uint8_t *, size_t));

#endif

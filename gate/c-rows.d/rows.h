/* Tables of what a library answers. Each line asks one thing: the name of a call, and its fields after it, with a space in between. A
   field is a number, or a text as Rust's literals have it: in double quotes, with their escapes, perhaps with a `b` in front, and
   with `*COUNT` after it where the text is repeated. Empty lines, and those that begin with `#`, are printed as they are; any other
   line is answered by one line, which begins with `error: ` if it isn't understood, or if a call contradicts itself. */

#ifndef ROWS_H
#define ROWS_H

#include <stdbool.h>
#include <stddef.h>
#include <stdint.h>

/* A field: the bytes of a text, with a 0 after them, or a number. */
struct field {
    uint8_t *bytes;
    size_t len;
    long long number;
    bool is_text;
};

/* A call by its name and its fields, with `n` for each number and `t` for each text. It prints what is answered, or returns what is
   wrong with that. */
struct call {
    const char *name;
    const char *shape;
    const char *(*answer)(const struct field *fields);
};

/* Answers each line of standard input, by the calls up to one without a name, and returns the status that the program ends with. */
int answer_rows(const struct call *calls);

#endif

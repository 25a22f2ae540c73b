#include "rows.h"

#include <ctype.h>
#include <stdio.h>
#include <stdlib.h>
#include <string.h>

enum { FIELDS = 12 };

static void push(struct field *field, unsigned byte) {
    field->bytes[field->len++] = (uint8_t)byte;
}

/* Appends a character as UTF-8. */
static void push_character(struct field *field, unsigned long it) {
    if (it < 0x80) {
        push(field, (unsigned)it);
        return;
    }
    int more = it < 0x800 ? 1 : it < 0x10000 ? 2 : 3;
    static const unsigned first[] = {0, 0xc0, 0xe0, 0xf0};
    push(field, first[more] | (unsigned)(it >> (6 * more)));
    while (more-- > 0) {
        push(field, 0x80 | ((it >> (6 * more)) & 0x3f));
    }
}

/* Appends what an escape stands for, and returns what follows it, or NULL if there is no such escape. */
static const char *take_escape(const char *rest, struct field *field) {
    static const char letters[] = "ntr0\\\"'", meant[] = "\n\t\r\0\\\"'";
    const char *simple = *rest ? strchr(letters, *rest) : NULL;
    if (simple) {
        push(field, (uint8_t)meant[simple - letters]);
        return rest + 1;
    }
    unsigned byte;
    unsigned long character;
    int taken = 0;
    if (*rest == 'x' && isxdigit((unsigned char)rest[1]) && sscanf(rest, "x%2x%n", &byte, &taken) == 1 && taken == 3) {
        push(field, byte);
        return rest + taken;
    }
    if (sscanf(rest, "u{%6lx}%n", &character, &taken) == 1 && taken > 0 && character <= 0x10ffff) {
        push_character(field, character);
        return rest + taken;
    }
    return NULL;
}

/* Repeats the text that stands in a field. */
static void repeat(struct field *field, size_t count) {
    size_t len = field->len;
    field->bytes = realloc(field->bytes, len * count + 1);
    for (size_t i = 1; i < count; i++) {
        memcpy(field->bytes + i * len, field->bytes, len);
    }
    field->len = len * count;
}

/* Takes a text after its first quote, and returns what follows it, or NULL where it has no end, or an escape or a count that is none. */
static const char *take_text(const char *rest, struct field *field) {
    field->is_text = true;
    while (*rest != '"') {
        if (*rest == '\0') {
            return NULL;
        }
        if (*rest != '\\') {
            push(field, (uint8_t)*rest++);
        } else if ((rest = take_escape(rest + 1, field)) == NULL) {
            return NULL;
        }
    }
    rest++;
    if (*rest == '*') {
        char *end;
        size_t count = strtoull(rest + 1, &end, 10);
        if (count == 0) {
            return NULL;
        }
        repeat(field, count);
        rest = end;
    }
    field->bytes[field->len] = 0;
    return rest;
}

/* Takes the next field, and returns what follows it, or NULL where it is neither a text nor a number. */
static const char *take_field(const char *rest, struct field *field) {
    field->bytes = malloc(strlen(rest) + 1);
    if (*rest == '"' || strncmp(rest, "b\"", 2) == 0) {
        rest = take_text(strchr(rest, '"') + 1, field);
    } else if (*rest == '-' || isdigit((unsigned char)*rest)) {
        char *end;
        field->number = strtoll(rest, &end, 10);
        rest = end;
    } else {
        return NULL;
    }
    return rest && (*rest == ' ' || *rest == '\t' || *rest == '\0') ? rest : NULL;
}

static bool has_shape(const struct field *fields, size_t count, const char *shape) {
    for (size_t i = 0; i < count; i++) {
        if (shape[i] != (fields[i].is_text ? 't' : 'n')) {
            return false;
        }
    }
    return shape[count] == '\0';
}

/* Answers a row whose fields are taken, and returns what is wrong. */
static const char *answer_call(const struct call *calls, const char *name, const struct field *fields, size_t count) {
    bool is_known = false;
    for (; calls->name; calls++) {
        if (strcmp(calls->name, name) == 0) {
            is_known = true;
            if (has_shape(fields, count, calls->shape)) {
                return calls->answer(fields);
            }
        }
    }
    return is_known ? "the call takes other fields" : "there is no call of that name";
}

/* Takes a row apart and answers it. */
static const char *answer_row(const struct call *calls, char *line) {
    struct field fields[FIELDS] = {{0}};
    size_t count = 0;
    const char *complaint = NULL, *rest = line + strcspn(line, " \t");
    while (!complaint && *rest != '\0') {
        if (count == FIELDS) {
            complaint = "there are too many fields";
        } else if ((rest = take_field(rest + 1, &fields[count++])) == NULL) {
            complaint = "a field is neither a number nor a text in double quotes";
        }
    }
    line[strcspn(line, " \t")] = '\0';
    complaint = complaint ? complaint : answer_call(calls, line, fields, count);
    for (size_t i = 0; i < count; i++) {
        free(fields[i].bytes);
    }
    return complaint;
}

int answer_rows(const struct call *calls) {
    char *line = NULL;
    size_t room = 0;
    while (getline(&line, &room, stdin) != -1) {
        line[strcspn(line, "\n")] = '\0';
        bool is_comment = *line == '\0' || *line == '#';
        const char *complaint = is_comment ? line : answer_row(calls, line);
        if (complaint) {
            printf("%s%s", is_comment ? "" : "error: ", complaint);
        }
        putchar('\n');
    }
    free(line);
    return ferror(stdin) || fflush(stdout) ? 1 : 0;
}

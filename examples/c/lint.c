/* A linter: shows which lines of a file are no descriptions of version 3, and where. ../run.sh builds and runs it.

   lint FILE: the exit status is 0 if all lines are descriptions, 1 if one isn't, 2 if that isn't known. */

#define _POSIX_C_SOURCE 200809L

#include "timefd.h"

#include <stdbool.h>
#include <stdio.h>
#include <stdlib.h>
#include <sys/types.h>

/* The most bytes that are shown of a sentence. */
enum { MOST_ROOM = 256 };

/* Whether a character begins with this byte, in UTF-8. */
static bool begins_character(char byte) {
    return ((unsigned char)byte & 0xC0) != 0x80;
}

/* The column of the byte at an index, in characters, from 1. */
static size_t column_of(const char *line, size_t index) {
    size_t column = 1;
    for (size_t i = 0; i < index; i++) {
        column += begins_character(line[i]);
    }
    return column;
}

/* The line, and a caret under the byte at an index. A tab before it stays one, so that the caret stands right. */
static void print_caret(const char *line, size_t len, size_t index) {
    printf("%.*s\n", (int)len, line);
    for (size_t i = 0; i < index; i++) {
        if (begins_character(line[i])) {
            putchar(line[i] == '\t' ? '\t' : ' ');
        }
    }
    puts("^");
}

/* Shows what is wrong with a line, and answers the exit status that this alone would give. */
static int lint_line(const char *file, size_t number, const char *line, size_t len) {
    uint8_t sentence[MOST_ROOM] = {0};
    timefd_answer answer = timefd_check(TIMEFD_VERSION_3, (const uint8_t *)line, len, sentence, sizeof sentence);
    switch (answer.status) {
    case TIMEFD_ACCEPTED:
        return 0;
    case TIMEFD_REFUSED:
        printf("%s:%zu:%zu: %.*s\n", file, number, column_of(line, answer.value), (int)answer.written,
               (const char *)sentence);
        print_caret(line, len, answer.value);
        return 1;
    case TIMEFD_NOT_UTF8:
        printf("%s:%zu: no UTF-8\n", file, number);
        return 1;
    default:
        printf("%s:%zu: out of memory\n", file, number);
        return 2;
    }
}

int main(int count, char **words) {
    FILE *file = count == 2 ? fopen(words[1], "r") : NULL;
    if (file == NULL) {
        fputs("lint FILE: give it a file that can be read\n", stderr);
        return 2;
    }
    char *line = NULL;
    size_t room = 0;
    ssize_t len;
    int status = 0;
    for (size_t number = 1; (len = getline(&line, &room, file)) >= 0; number++) {
        size_t shown = len > 0 && line[len - 1] == '\n' ? (size_t)len - 1 : (size_t)len;
        int found = lint_line(words[1], number, line, shown);
        status = found > status ? found : status;
    }
    if (!feof(file)) {
        status = 2;
    }
    free(line);
    fclose(file);
    return status;
}

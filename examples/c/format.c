/* Writes dates by descriptions. ../run.sh builds and runs it.

   format FILE: each line of the file is a language, the eight numbers of a date and, after a bar,
   a description. */

#define _POSIX_C_SOURCE 200809L

#include "timefd.h"

#include <inttypes.h>
#include <stdio.h>
#include <stdlib.h>
#include <string.h>

/* The most bytes of a sentence, and of a text that is written, that this program has room for. */
enum { ROOM = 512 };

static void print_fault(uint32_t kind, const uint8_t *text, size_t len) {
    uint8_t sentence[ROOM] = {0};
    timefd_answer answer = timefd_check(kind, text, len, sentence, sizeof sentence);
    printf("%.*s\n", (int)answer.written, (const char *)sentence);
}

/* Prints the date as the description says. */
static void print_date(uint32_t kind, const char *text, const timefd_moment *moment) {
    const uint8_t *bytes = (const uint8_t *)text;
    size_t len = strlen(text);
    uint8_t buffer[ROOM] = {0};
    timefd_format_answer answer =
        timefd_format(kind, bytes, len, moment, buffer, sizeof buffer);
    if (answer.status == TIMEFD_REFUSED) {
        print_fault(kind, bytes, len);
    } else if (answer.status == TIMEFD_OUT_OF_RANGE) {
        puts("there is no such date");
    } else if (answer.status == TIMEFD_UNSHOWN) {
        puts(answer.reason == TIMEFD_YEAR_TOO_LONG ? "the year has too many digits"
                                                   : "the instant is in no year that is shown");
    } else if (answer.status != TIMEFD_ACCEPTED) {
        puts("out of memory");
    } else if (answer.written < answer.value) {
        puts("the text is too long");
    } else {
        printf("\"%.*s\"\n", (int)answer.written, (const char *)buffer);
    }
}

/* The number of a language, or 0. */
static uint32_t kind_of(const char *word) {
    static const char *const WORDS[] = {"1", "2", "3", "strftime"};
    for (uint32_t i = 0; i < 4; i++) {
        if (strcmp(word, WORDS[i]) == 0) {
            return i + 1;
        }
    }
    return 0;
}

static void print_line(char *line) {
    char language[16] = "";
    timefd_moment moment = {.known = TIMEFD_HAS_DATE | TIMEFD_HAS_TIME | TIMEFD_HAS_OFFSET};
    char *text = strchr(line, '|');
    line[strcspn(line, "\n")] = 0;
    int read = sscanf(line, "%15s %" SCNd32 " %" SCNu8 " %" SCNu8 " %" SCNu8 " %" SCNu8 " %" SCNu8
                            " %" SCNu32 " %" SCNd32,
                      language, &moment.year, &moment.month, &moment.day, &moment.hour,
                      &moment.minute, &moment.second, &moment.nanosecond, &moment.offset_seconds);
    uint32_t kind = kind_of(language);
    if (text == NULL || read != 9 || kind == 0) {
        puts("a line is a language, eight numbers, a bar and a description");
    } else {
        print_date(kind, text + 1, &moment);
    }
}

int main(int count, char **words) {
    FILE *file = count == 2 ? fopen(words[1], "r") : NULL;
    if (file == NULL || timefd_version() != TIMEFD_VERSION) {
        fputs("format FILE: give it a file that can be read, and the library of its header\n",
              stderr);
        return 2;
    }
    char *line = NULL;
    size_t room = 0;
    while (getline(&line, &room, file) >= 0) {
        print_line(line);
    }
    int status = feof(file) ? 0 : 2;
    free(line);
    fclose(file);
    return status;
}

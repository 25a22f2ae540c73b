/* Reads dates by one description, and writes them by another. ../run.sh builds and runs it.

   redate FILE: each line of the file is a description to read by, a date and a description to write
   by, with bars between them. Both descriptions are of version 3. */

#define _POSIX_C_SOURCE 200809L

#include "timefd_names.h"
#include "timefd_text.h"

#include <stdio.h>
#include <stdlib.h>
#include <string.h>

/* The most bytes that a text or a sentence has here. */
enum { ROOM = 512 };

/* Prints the date as the second description writes it, or why it is not read, or not written. */
static void print_date(const char *text, const char *date, const char *wanted) {
    char line[ROOM];
    timefd_date_answer read;
    timefd_format_answer written;
    if (!timefd_read_date_text(TIMEFD_VERSION_3, text, date, &read)) {
        timefd_read_date_sentence(TIMEFD_VERSION_3, text, &read, line, sizeof line);
    } else if (!timefd_format_text(TIMEFD_VERSION_3, wanted, &read.moment, line, sizeof line,
                                   &written)) {
        timefd_format_sentence(TIMEFD_VERSION_3, wanted, &written, line, sizeof line);
    }
    puts(line);
}

static void print_line(char *line) {
    line[strcspn(line, "\n")] = 0;
    char *date = strchr(line, '|');
    char *wanted = date == NULL ? NULL : strchr(date + 1, '|');
    if (wanted == NULL) {
        puts("a line is a description, a date and a description");
        return;
    }
    *date++ = 0;
    *wanted++ = 0;
    print_date(line, date, wanted);
}

int main(int count, char **words) {
    FILE *file = count == 2 ? fopen(words[1], "r") : NULL;
    if (file == NULL || timefd_version() != TIMEFD_VERSION) {
        fputs("redate FILE: give it a file that can be read, and the library of its header\n",
              stderr);
        return 2;
    }
    char *line = NULL;
    size_t room = 0;
    while (getline(&line, &room, file) >= 0) {
        print_line(line);
    }
    int status = feof(file) ? 0 : 2;
    free(line);
    fclose(file);
    return status;
}

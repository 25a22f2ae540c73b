/* Three tasks with formats of dates. ../run.sh builds and runs it.

   tasks log CONFIG [MOMENT] < MESSAGES    writes each line after the time, by the format under `timestamp` of a TOML file
   tasks column FROM TO < IN.csv           rewrites the dates of the first column; a line whose date isn't read stays as it is
   tasks check < FORMATS                   says for each format how long a date gets, or what is wrong */

#define _POSIX_C_SOURCE 200809L

#include "timefd_names.h"
#include "timefd_text.h"
#include "timefd_time.h"

#include <stdio.h>
#include <stdlib.h>
#include <string.h>

/* The most bytes that a line, a text or a sentence has here. */
enum { ROOM = 1024 };

#define RFC_3339 "[year]-[month]-[day]T[hour]:[minute]:[second][offset_hour sign:mandatory]:[offset_minute]"

/* A line of a file, without its end. */
static bool next_line(FILE *file, char *line) {
    if (fgets(line, ROOM, file) == NULL)
        return false;
    line[strcspn(line, "\n")] = 0;
    return true;
}

/* Whether a text is a format; if it isn't, writes what is wrong, after `front`. */
static bool is_format(const char *front, const char *text, timefd_diagnosis *found, FILE *to) {
    char sentence[ROOM], word[32];
    bool is_one = timefd_diagnose_text(TIMEFD_VERSION_3, text, sentence, sizeof sentence, word, sizeof word, found);
    if (!is_one)
        fprintf(to, *word ? "%s%s; the nearest word is `%s`\n" : "%s%s\n", front, sentence, word);
    return is_one;
}

static int log_lines(const char *config, const char *moment) {
    char line[ROOM], text[ROOM] = "", written[ROOM];
    timefd_diagnosis found;
    timefd_date_answer now = {.moment = timefd_moment_of_time(time(NULL), 0)};
    FILE *file = fopen(config, "r");
    while (file != NULL && next_line(file, line))
        if (sscanf(line, "timestamp = \"%1000[^\"]\"", text) == 1)
            break;
    if (file == NULL || fclose(file) != 0 || !is_format("", text, &found, stderr))
        return 1;
    if (moment != NULL && !timefd_read_date_text(TIMEFD_VERSION_3, RFC_3339, moment, &now))
        return 1;
    while (next_line(stdin, line) && timefd_format_text(TIMEFD_VERSION_3, text, &now.moment, written, sizeof written, NULL))
        printf("%s %s\n", written, line);
    return 0;
}

static int rewrite_column(const char *from, const char *to) {
    char line[ROOM], text[ROOM];
    timefd_date_answer read;
    for (int number = 1; next_line(stdin, line); number++) {
        size_t len = strcspn(line, ",");
        if (timefd_read_date_chars(TIMEFD_VERSION_3, from, strlen(from), line, len, &read) &&
            timefd_format_text(TIMEFD_VERSION_3, to, &read.moment, text, sizeof text, NULL)) {
            printf("%s%s\n", text, line + len);
            continue;
        }
        timefd_read_date_sentence(TIMEFD_VERSION_3, from, &read, text, sizeof text);
        fprintf(stderr, "line %d: %s\n", number, text);
        puts(line);
    }
    return 0;
}

static int check_formats(void) {
    char line[ROOM], front[ROOM + 2];
    timefd_diagnosis found;
    while (next_line(stdin, line)) {
        snprintf(front, sizeof front, "%s: ", line);
        if (is_format(front, line, &found, stdout))
            printf("%sat most %zu bytes\n", front, found.answer.value);
    }
    return 0;
}

int main(int count, char **words) {
    if (count > 2 && strcmp(words[1], "log") == 0)
        return log_lines(words[2], count > 3 ? words[3] : NULL);
    if (count == 4 && strcmp(words[1], "column") == 0)
        return rewrite_column(words[2], words[3]);
    if (count == 2 && strcmp(words[1], "check") == 0)
        return check_formats();
    fputs("usage: tasks log CONFIG [MOMENT] | tasks column FROM TO | tasks check\n", stderr);
    return 2;
}

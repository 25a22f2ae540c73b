/* Compares what timefd_format writes by strftime's letters with what the C library's strftime writes in the locale "C", on
   random dates in UTC. strftime.sh builds and runs it.

   strftime [COUNT]: so many dates for each letter, by default 20000. */

#define _GNU_SOURCE

#include "../examples/timefd.h"

#include <locale.h>
#include <stdio.h>
#include <stdlib.h>
#include <string.h>
#include <time.h>

enum { ROOM = 128 };

static const char LETTERS[] = "abcdefghijklmnopqrstuvwxyzABCDEFGHIJKLMNOPQRSTUVWXYZ%";

static uint64_t state = 20261124;

static uint32_t below(uint32_t end) {
    state ^= state << 13;
    state ^= state >> 7;
    state ^= state << 17;
    return (uint32_t)((state >> 16) % end);
}

/* A date and time of the years 1000 to 9999, in UTC, both ways. */
static void make(timefd_moment *moment, struct tm *broken) {
    time_t seconds = (time_t)(((uint64_t)below(UINT32_MAX) << 16 | below(65536)) % 284012524800u) - 30610224000;
    gmtime_r(&seconds, broken);
    *moment = (timefd_moment){
        .known = TIMEFD_HAS_DATE | TIMEFD_HAS_TIME | TIMEFD_HAS_OFFSET,
        .year = broken->tm_year + 1900,
        .month = (uint8_t)(broken->tm_mon + 1),
        .day = (uint8_t)broken->tm_mday,
        .hour = (uint8_t)broken->tm_hour,
        .minute = (uint8_t)broken->tm_min,
        .second = (uint8_t)broken->tm_sec,
    };
}

/* Whether both write the same of each date. Else the first one that differs is printed. */
static int is_same(const char *text, unsigned count) {
    for (unsigned i = 0; i < count; i++) {
        timefd_moment moment;
        struct tm broken;
        uint8_t ours[ROOM] = {0};
        char theirs[ROOM] = {0};
        make(&moment, &broken);
        timefd_format_answer answer =
            timefd_format(TIMEFD_STRFTIME, (const uint8_t *)text, strlen(text), &moment, ours, ROOM - 1);
        strftime(theirs, ROOM, text, &broken);
        if (answer.status != TIMEFD_ACCEPTED || strcmp((const char *)ours, theirs) != 0) {
            printf("%s  here \"%s\", C \"%s\", of %04d-%02d-%02d %02d:%02d:%02d\n", text, (const char *)ours, theirs,
                   moment.year, moment.month, moment.day, moment.hour, moment.minute, moment.second);
            return 0;
        }
    }
    return 1;
}

int main(int count, char **words) {
    unsigned dates = count == 2 ? (unsigned)strtoul(words[1], NULL, 10) : 20000;
    char same[sizeof LETTERS] = "", refused[sizeof LETTERS] = "";
    size_t same_count = 0, refused_count = 0;
    setlocale(LC_ALL, "C");
    for (const char *letter = LETTERS; *letter != 0; letter++) {
        char text[] = {'%', *letter, 0};
        if (timefd_judge(TIMEFD_STRFTIME, (const uint8_t *)text, 2).status != TIMEFD_ACCEPTED) {
            refused[refused_count++] = *letter;
        } else if (is_same(text, dates)) {
            same[same_count++] = *letter;
        }
    }
    printf("the same on %u dates each: %s\nrefused here: %s\n", dates, same, refused);
    return 0;
}

/* Writes a date. ../run.sh builds and runs it. */

#include "timefd.h"

#include <stdio.h>
#include <string.h>

int main(void) {
    const char *text = "[day].[month].[year]";
    timefd_moment day = {.known = TIMEFD_HAS_DATE, .year = 2026, .month = 11, .day = 23};
    uint8_t date[32];
    timefd_format_answer answer = timefd_format(
        TIMEFD_VERSION_3, (const uint8_t *)text, strlen(text), &day, date, sizeof date);
    if (answer.status != TIMEFD_ACCEPTED || answer.written < answer.value) {
        return 1;
    }
    printf("%.*s\n", (int)answer.written, (const char *)date);
    return 0;
}

/* Asks how many bytes a date needs. ../run.sh builds and runs it. */

#include "timefd.h"

#include <stdio.h>
#include <string.h>

int main(void) {
    const char *text = "[year]-[month]-[day]";
    timefd_answer answer = timefd_judge(TIMEFD_VERSION_3, (const uint8_t *)text, strlen(text));
    if (answer.status == TIMEFD_ACCEPTED) {
        printf("at most %zu bytes\n", answer.value);
    }
    return 0;
}

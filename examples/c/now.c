/* Prints today's date. ../run.sh builds and runs it. */

#include "timefd_text.h"
#include "timefd_time.h"

#include <stdio.h>

int main(void) {
    char text[64];
    timefd_moment now = timefd_moment_of_time(time(NULL), 0);
    if (timefd_format_text(TIMEFD_VERSION_3, "[weekday], [day] [month repr:long] [year]", &now, text,
                           sizeof text, NULL)) {
        puts(text);
    }
    return 0;
}

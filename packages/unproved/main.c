/* The start of a program that isn't proved. After what `--version` writes, it says so, unless TIMEFD_UNPROVED is set: tests set it,
   because they compare with what proved programs write. */

#include <stdio.h>
#include <stdlib.h>
#include <string.h>

int unproved_main(void);

int main(int count, char **words) {
    int status = unproved_main();
    int asks = count == 2 && (strcmp(words[1], "--version") == 0 || strcmp(words[1], "-V") == 0);
    if (status == 0 && asks && getenv("TIMEFD_UNPROVED") == NULL) {
        puts("unproved: ./build made it for trying");
    }
    return status;
}

/* The sentence of a fault, cut at its index. */

#define _GNU_SOURCE
#include "fuzz.h"

#include <stdio.h>
#include <string.h>

static const char MARK[] = " at byte index ";

/* The sentence of a refused text. False where it has not the form that docs/proof/TABLES.md gives. */
bool cut_sentence(const uint8_t *bytes, size_t len, size_t index, struct sentence *sentence) {
    char number[24];
    size_t digits = (size_t)snprintf(number, sizeof number, "%zu", index);
    size_t mark = sizeof MARK - 1;
    const uint8_t *found = memmem(bytes, len, MARK, mark);
    if (found == NULL) {
        return false;
    }
    size_t front = (size_t)(found - bytes) + mark;
    if (len < front + digits || memcmp(bytes + front, number, digits) != 0) {
        return false;
    }
    *sentence = (struct sentence){bytes, front, bytes + front + digits, len - front - digits};
    return memmem(sentence->rest, sentence->rest_len, MARK, mark) == NULL;
}

/* Rewrites a few texts of version 1 as ones of version 2, one of version 2 as one of version 3, and one of each language in
   version 3's normal form. ../run.sh builds and runs it. */

#include "timefd.h"

#include <stdio.h>
#include <stdlib.h>
#include <string.h>

static const char *const TEXTS[] = {
    "", "[[day]]", "[[[day]]\\", "a]b", "\xc3\xa9\\\xc3\xa9", "[YEAR Repr:Century]", "[optional [x]]", "a[day", "\xff",
};

/* What is said where no text was written. */
static void print_refusal(timefd_answer answer) {
    switch (answer.status) {
    case TIMEFD_REFUSED:
        printf("refused at %zu\n", answer.value);
        break;
    case TIMEFD_NOT_UTF8:
        puts("no UTF-8");
        break;
    default:
        puts("out of memory");
    }
}

static void print_converted(const char *text) {
    size_t len = strlen(text);
    size_t room = 2 * len;
    uint8_t *buffer = calloc(room + 1, 1); /* one more, since no pointer may be null */
    if (buffer == NULL) {
        puts("out of memory");
        return;
    }
    timefd_answer answer = timefd_v1_to_v2((const uint8_t *)text, len, buffer, room);
    if (answer.status == TIMEFD_ACCEPTED) {
        printf("\"%s\" is \"%.*s\"\n", text, (int)answer.written, (const char *)buffer);
    } else {
        print_refusal(answer);
    }
    free(buffer);
}

/* A buffer that is too short is kept, and the answer says how long it has to be. */
static void print_short(const char *text) {
    uint8_t buffer[] = "....";
    timefd_answer answer = timefd_v1_to_v2((const uint8_t *)text, strlen(text), buffer, 4);
    if (answer.status == TIMEFD_ACCEPTED) {
        printf("\"%s\" needs %zu bytes, and of 4 got %zu: \"%s\"\n", text, answer.value, answer.written,
               (const char *)buffer);
    } else {
        print_refusal(answer);
    }
}

/* How long the text of version 3 is, is asked first. */
static void print_modern(const char *text) {
    size_t len = strlen(text);
    uint8_t none = 0;
    timefd_answer answer = timefd_v2_to_v3((const uint8_t *)text, len, &none, 0);
    uint8_t *buffer = calloc(answer.value + 1, 1);
    if (buffer == NULL) {
        puts("out of memory");
        return;
    }
    answer = timefd_v2_to_v3((const uint8_t *)text, len, buffer, answer.value);
    if (answer.status == TIMEFD_ACCEPTED) {
        printf("\"%s\" is \"%.*s\" in version 3\n", text, (int)answer.written, (const char *)buffer);
    } else {
        print_refusal(answer);
    }
    free(buffer);
}

/* The same from any language to any other, where a conversion leads there. */
static void print_between(uint32_t from, uint32_t to, const char *text) {
    size_t len = strlen(text);
    uint8_t none = 0;
    timefd_answer answer = timefd_convert(from, to, (const uint8_t *)text, len, &none, 0);
    uint8_t *buffer = calloc(answer.value + 1, 1);
    if (buffer == NULL) {
        puts("out of memory");
        return;
    }
    answer = timefd_convert(from, to, (const uint8_t *)text, len, buffer, answer.value);
    switch (answer.status) {
    case TIMEFD_ACCEPTED:
        printf("\"%s\" goes from %u to %u as \"%.*s\"\n", text, from, to, (int)answer.written, (const char *)buffer);
        break;
    case TIMEFD_NO_CONVERSION:
        printf("nothing goes from %u to %u\n", from, to);
        break;
    case TIMEFD_UNKNOWN_KIND:
        printf("%u or %u is no language\n", from, to);
        break;
    default:
        print_refusal(answer);
    }
    free(buffer);
}

int main(void) {
    for (size_t i = 0; i < sizeof TEXTS / sizeof TEXTS[0]; i++) {
        print_converted(TEXTS[i]);
    }
    print_short("a]b");
    print_short("a]]b");
    print_modern("[YEAR] a]b");
    print_modern("a[day");
    print_between(TIMEFD_VERSION_1, TIMEFD_VERSION_3, "[[[YEAR]]");
    print_between(TIMEFD_VERSION_3, TIMEFD_VERSION_3, "[optional  [[ day padding:zero ]]]");
    print_between(TIMEFD_STRFTIME, TIMEFD_VERSION_3, "%F 100%%");
    print_between(TIMEFD_VERSION_3, TIMEFD_VERSION_3, "a[day");
    print_between(TIMEFD_VERSION_3, TIMEFD_VERSION_2, "[day]");
    print_between(5, TIMEFD_VERSION_3, "[day]");
    return 0;
}

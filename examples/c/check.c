/* Prints what a few texts are. ../run.sh builds and runs it. */

#include "timefd.h"

#include <inttypes.h>
#include <stdio.h>
#include <string.h>

enum { MOST_ROOM = 64 };

struct sample {
    uint32_t kind;
    const char *text;
    size_t room; /* for the sentence, in bytes */
};

static const struct sample SAMPLES[] = {
    {TIMEFD_VERSION_1, "", MOST_ROOM},
    {TIMEFD_VERSION_1, "[[[day]", MOST_ROOM},
    {TIMEFD_VERSION_1, "[foo bar", MOST_ROOM},
    {TIMEFD_VERSION_2, "\\[[day]]", MOST_ROOM},
    {TIMEFD_VERSION_2, "[day][foo]", MOST_ROOM},
    {TIMEFD_VERSION_3, "due [day]", MOST_ROOM},
    {TIMEFD_VERSION_3, "[year]-[month]-[day]", MOST_ROOM},
    {TIMEFD_VERSION_3, "due [day", MOST_ROOM},
    {TIMEFD_VERSION_3, "due [day", 16},
    {TIMEFD_VERSION_3, "due [day", 0},
    {TIMEFD_VERSION_3, "[\xc3\xa9]", MOST_ROOM},
    {TIMEFD_VERSION_3, "[\xc3\xa9]", 25},
    {TIMEFD_STRFTIME, "%Y-%m-%d", MOST_ROOM},
    {TIMEFD_STRFTIME, "%O", MOST_ROOM},
    {TIMEFD_STRFTIME, "\xff", MOST_ROOM},
    {5, "[day]", MOST_ROOM},
};

/* The sentence of a refused text, as far as there is room for it. */
static void print_sentence(const struct sample *sample) {
    uint8_t sentence[MOST_ROOM] = {0};
    timefd_answer answer =
        timefd_check(sample->kind, (const uint8_t *)sample->text, strlen(sample->text), sentence, sample->room);
    if (answer.status != TIMEFD_REFUSED) {
        puts("out of memory");
        return;
    }
    printf("refused at %zu, \"%.*s\", %zu of %zu bytes\n", answer.value, (int)answer.written, (const char *)sentence,
           answer.written, answer.sentence_len);
}

static void print_sample(const struct sample *sample) {
    timefd_answer answer = timefd_judge(sample->kind, (const uint8_t *)sample->text, strlen(sample->text));
    printf("%" PRIu32 ": ", sample->kind);
    switch (answer.status) {
    case TIMEFD_ACCEPTED:
        printf("accepted, %zu %s\n", answer.value, sample->kind == TIMEFD_VERSION_3 ? "bytes" : "items");
        break;
    case TIMEFD_REFUSED:
        print_sentence(sample);
        break;
    case TIMEFD_NOT_UTF8:
        puts("no UTF-8");
        break;
    case TIMEFD_NO_MEMORY:
        puts("out of memory");
        break;
    default:
        puts("unknown kind");
    }
}

int main(void) {
    for (size_t i = 0; i < sizeof SAMPLES / sizeof SAMPLES[0]; i++) {
        print_sample(&SAMPLES[i]);
    }
    return 0;
}

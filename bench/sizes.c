/* Prints how fast texts of the given sizes are read, and how much memory that takes; or with `--large` reads
   a literal of over 4 GiB with a fault after it. `sizes.sh` builds and runs it. */

#include "sizes.h"

#include <stdio.h>
#include <stdlib.h>
#include <string.h>
#include <sys/resource.h>
#include <sys/wait.h>
#include <time.h>
#include <unistd.h>

enum { CALLS = 5 };

/* What one text took. */
struct taken {
    bool is_right;
    double seconds;
    double memory; /* in bytes */
};

static double processor_seconds(void) {
    struct timespec now;
    clock_gettime(CLOCK_PROCESS_CPUTIME_ID, &now);
    return (double)now.tv_sec + (double)now.tv_nsec * 1e-9;
}

/* The most memory that the process has held up to now, in bytes. */
static double most_memory(void) {
    struct rusage used;
    getrusage(RUSAGE_SELF, &used);
    return (double)used.ru_maxrss * 1024;
}

/* Reads the text a few times: the least time of these, and the memory that the process held beyond the text. */
static struct taken take(const struct family *family, uint32_t kind, size_t size) {
    struct text text = make_text(family, size);
    struct taken taken = {.is_right = true, .seconds = 1e9};
    double before = most_memory();
    for (int i = 0; i < CALLS; i++) {
        double begun = processor_seconds();
        timefd_answer answer = timefd_judge(kind, (const uint8_t *)text.bytes, text.len);
        double seconds = processor_seconds() - begun;
        taken.seconds = seconds < taken.seconds ? seconds : taken.seconds;
        taken.is_right = taken.is_right && is_expected(family, &text, answer);
    }
    taken.memory = most_memory() - before;
    free(text.bytes);
    return taken;
}

/* The same in a process of its own, whose memory nothing else has grown. */
static struct taken take_apart(const struct family *family, uint32_t kind, size_t size) {
    struct taken taken = {.is_right = false};
    int ends[2];
    if (pipe(ends) != 0) {
        return taken;
    }
    pid_t child = fork();
    if (child == 0) {
        taken = take(family, kind, size);
        _exit(write(ends[1], &taken, sizeof taken) == sizeof taken ? 0 : 1);
    }
    close(ends[1]);
    if (child < 0 || read(ends[0], &taken, sizeof taken) != sizeof taken) {
        taken.is_right = false;
    }
    close(ends[0]);
    waitpid(child, NULL, 0);
    return taken;
}

/* Prints a line of the table, and answers whether each answer was the expected one. */
static bool print_row(const struct family *family, uint32_t kind, char **sizes) {
    bool is_right = true;
    printf("| %s | %s |", family->name, LANGUAGES[kind]);
    for (; *sizes != NULL; sizes++) {
        size_t size = strtoul(*sizes, NULL, 10);
        struct taken taken = take_apart(family, kind, size);
        printf(" %.0f | %.1f |", (double)size / taken.seconds / 1e6, taken.memory / (double)size);
        is_right = is_right && taken.is_right;
    }
    puts(is_right ? "" : " **another answer**");
    fflush(stdout);
    return is_right;
}

static void print_heading(char **sizes) {
    printf("| Text | Language |");
    for (char **size = sizes; *size != NULL; size++) {
        printf(" MB/s of %g MB | Memory a byte |", strtod(*size, NULL) / 1e6);
    }
    printf("\n|---|---|");
    for (char **size = sizes; *size != NULL; size++) {
        printf("---|---|");
    }
    puts("");
}

static bool print_table(char **sizes) {
    bool is_right = true;
    print_heading(sizes);
    for (size_t i = 0; i < sizeof FAMILIES / sizeof FAMILIES[0]; i++) {
        for (uint32_t kind = TIMEFD_VERSION_1; kind <= TIMEFD_STRFTIME; kind++) {
            if (FAMILIES[i].languages & 1u << kind) {
                is_right = print_row(&FAMILIES[i], kind, sizes) && is_right;
            }
        }
    }
    return is_right;
}

/* Reads a literal of 2^32 + 1 bytes with a fault after it, in each version. */
static bool print_large(void) {
    static const struct family LARGE = {
        "a literal of over 4 GiB, and a fault after it", VERSIONS, "", "a", "[foo]", TIMEFD_REFUSED, 1, 1};
    bool is_right = true;
    struct text text = make_text(&LARGE, ((size_t)1 << 32) + 1);
    for (uint32_t kind = TIMEFD_VERSION_1; kind <= TIMEFD_VERSION_3; kind++) {
        uint8_t sentence[128] = {0};
        double before = most_memory(), begun = processor_seconds();
        timefd_answer answer = timefd_check(kind, (const uint8_t *)text.bytes, text.len, sentence, sizeof sentence);
        double seconds = processor_seconds() - begun;
        printf("version %u: %.*s; %.0f MB/s, %.0f bytes of memory\n", kind, (int)answer.written, (const char *)sentence,
               (double)text.len / seconds / 1e6, most_memory() - before);
        is_right = is_right && is_expected(&LARGE, &text, answer);
    }
    free(text.bytes);
    return is_right;
}

int main(int count, char **words) {
    bool is_large = count == 2 && strcmp(words[1], "--large") == 0;
    bool is_right = is_large ? print_large() : print_table(words + 1);
    if (!is_right) {
        fputs("sizes: another answer than the expected one\n", stderr);
    }
    return is_right ? 0 : 1;
}

/* Prints how much memory a reader takes at most, for each byte of texts of eleven kinds and four sizes, beside `time` and
   `chrono` if they are linked in. `memory.sh` builds and runs it, with malloc, calloc, realloc and free of everything that
   is linked replaced by the functions below. */

#include "memory.h"

#include <malloc.h>
#include <stdio.h>
#include <stdlib.h>

enum { NOT_READ = -1 };

static const size_t SIZES[] = {1000, 10000, 100000, 1000000};
enum { SIZE_COUNT = sizeof SIZES / sizeof SIZES[0] };

void *__real_malloc(size_t size);
void *__real_calloc(size_t count, size_t size);
void *__real_realloc(void *block, size_t size);
void __real_free(void *block);
void *__wrap_malloc(size_t size);
void *__wrap_calloc(size_t count, size_t size);
void *__wrap_realloc(void *block, size_t size);
void __wrap_free(void *block);

static size_t held; /* how many bytes the blocks have that are not freed */
static size_t most; /* how many they had at most since this was last set */

static void *grown_by(void *block) {
    held += malloc_usable_size(block);
    most = held > most ? held : most;
    return block;
}

void *__wrap_malloc(size_t size) {
    return grown_by(__real_malloc(size));
}

void *__wrap_calloc(size_t count, size_t size) {
    return grown_by(__real_calloc(count, size));
}

/* A block that grows counts once, though it is copied if it can't stay. */
void *__wrap_realloc(void *block, size_t size) {
    size_t before = malloc_usable_size(block);
    void *moved = __real_realloc(block, size);
    if (moved != NULL) {
        held -= before;
        grown_by(moved);
    }
    return moved;
}

void __wrap_free(void *block) {
    held -= malloc_usable_size(block);
    __real_free(block);
}

/* Another reader of the language, which answers whether it takes the text. */
typedef bool peer(const uint8_t *bytes, size_t len);

#ifdef WITH_PEERS
peer peer_time, peer_chrono;
#endif

static peer *peer_of(uint32_t kind) {
#ifdef WITH_PEERS
    if (kind == TIMEFD_VERSION_1) {
        return peer_time;
    }
    if (kind == TIMEFD_STRFTIME) {
        return peer_chrono;
    }
#endif
    (void)kind;
    return NULL;
}

/* What a reader held at most, in bytes for each byte of the text, where it took the text as it was to. */
static double per_byte(const struct text *text, size_t before, bool is_right) {
    if (held != before) {
        fputs("memory: not all was freed\n", stderr);
        exit(1);
    }
    return is_right ? (double)(most - before) / (double)text->len : NOT_READ;
}

static double of_library(const struct family *family, const struct text *text, uint32_t kind) {
    size_t before = most = held;
    timefd_answer answer = timefd_judge(kind, (const uint8_t *)text->bytes, text->len);
    return per_byte(text, before, is_expected(family, text, answer));
}

static double of_peer(const struct family *family, const struct text *text, peer *reads) {
    size_t before = most = held;
    bool is_accepted = reads((const uint8_t *)text->bytes, text->len);
    return per_byte(text, before, is_accepted == (family->status == TIMEFD_ACCEPTED));
}

static void print_figure(double figure) {
    if (figure == NOT_READ) {
        printf(" - |");
    } else {
        printf(" %.2f |", figure);
    }
}

/* Prints a line of the table, and answers whether each answer was the expected one. */
static bool print_row(const struct family *family, uint32_t kind) {
    bool is_right = true;
    double beside[SIZE_COUNT];
    peer *reads = peer_of(kind);
    printf("| %s | %s |", family->name, LANGUAGES[kind]);
    for (size_t i = 0; i < SIZE_COUNT; i++) {
        struct text text = make_text(family, SIZES[i]);
        double figure = of_library(family, &text, kind);
        beside[i] = reads == NULL ? NOT_READ : of_peer(family, &text, reads);
        is_right = is_right && figure != NOT_READ;
        print_figure(figure);
        free(text.bytes);
    }
    for (size_t i = 0; i < SIZE_COUNT; i++) {
        print_figure(beside[i]);
    }
    puts("");
    return is_right;
}

static void print_heading(void) {
    printf("| Text | Language | 1 kB | 10 kB | 100 kB | 1 MB | beside it, 1 kB | 10 kB | 100 kB | 1 MB |\n|---|---|");
    for (size_t i = 0; i < 2 * SIZE_COUNT; i++) {
        printf("---|");
    }
    puts("");
}

int main(void) {
    bool is_right = true;
    setvbuf(stdout, NULL, _IONBF, 0);
    print_heading();
    for (size_t i = 0; i < sizeof FAMILIES / sizeof FAMILIES[0]; i++) {
        for (uint32_t kind = TIMEFD_VERSION_1; kind <= TIMEFD_STRFTIME; kind++) {
            if (FAMILIES[i].languages & 1u << kind) {
                is_right = print_row(&FAMILIES[i], kind) && is_right;
            }
        }
    }
    if (!is_right) {
        fputs("memory: another answer than the expected one\n", stderr);
    }
    return is_right ? 0 : 1;
}

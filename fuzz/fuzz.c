/* Tries texts in each language, and compares what the static library says of them with what it says
   of others. run.sh builds it and runs it: fuzz COUNT SEED. */

#include "fuzz.h"

#include <stdio.h>
#include <stdlib.h>

enum { KEPT = 256 };

/* Accepted texts of one language, for others to be joined with. The first one is empty. */
struct kept {
    size_t count;
    struct text texts[KEPT];
};

static struct kept kept;

/* How many texts there were with each status. */
struct tally {
    size_t tried;
    size_t ends[TIMEFD_UNKNOWN_KIND + 1];
};

static const struct text *choose_kept(void) {
    return &kept.texts[random_below(kept.count)];
}

/* Keeps a text, in place of another if there is no room. */
static void keep(const struct text *text) {
    struct text *place = &kept.texts[kept.count < KEPT ? kept.count++ : random_below(KEPT)];
    place->len = 0;
    append(place, text->bytes, text->len);
}

static void try_text(uint32_t kind, const struct text *text, struct tally *tally) {
    timefd_answer answer = check_text(kind, text);
    check_pair(kind, choose_kept(), text);
    check_versions(kind, text);
    if (answer.status == TIMEFD_ACCEPTED) {
        keep(text);
    }
    tally->tried++;
    if (answer.status <= TIMEFD_UNKNOWN_KIND) {
        tally->ends[answer.status]++;
    }
}

/* An accepted text with up to three changes. */
static void make_mutated(struct text *text) {
    const struct text *chosen = choose_kept();
    text->len = 0;
    append(text, chosen->bytes, chosen->len);
    for (size_t left = 1 + random_below(3); left > 0; left--) {
        mutate(text);
    }
}

/* Tries so many texts of each sort. */
static struct tally try_language(uint32_t kind, size_t count) {
    static struct text text;
    struct tally tally = {.tried = 0};
    kept.texts[0].len = 0;
    kept.count = 1;
    for (size_t number = 0; number < count; number++) {
        make_short(kind, number, &text);
        try_text(kind, &text, &tally);
        make_of_tokens(kind, number, &text);
        try_text(kind, &text, &tally);
        make_random(kind, &text);
        try_text(kind, &text, &tally);
        make_mutated(&text);
        try_text(kind, &text, &tally);
    }
    return tally;
}

static void print_tally(uint32_t kind, const struct tally *tally) {
    printf("%s: %zu texts, %zu accepted, %zu refused, %zu no UTF-8\n", language_name(kind),
           tally->tried, tally->ends[TIMEFD_ACCEPTED], tally->ends[TIMEFD_REFUSED],
           tally->ends[TIMEFD_NOT_UTF8]);
    fflush(stdout);
}

/* Tries so many formats of each other language. */
static void try_dialects(size_t count) {
    for (uint32_t dialect = TIMEFD_PYTHON; dialect <= TIMEFD_MOMENT; dialect++) {
        size_t accepted = 0;
        for (size_t left = count; left > 0; left--) {
            accepted += check_dialect(dialect).status == TIMEFD_ACCEPTED;
        }
        printf("%s: %zu formats, %zu accepted\n", language_name(dialect), count, accepted);
        fflush(stdout);
    }
}

/* The number that a word is, or the end. */
static size_t number_of(const char *word) {
    char *end;
    unsigned long long number = strtoull(word, &end, 10);
    if (*word == '\0' || *end != '\0') {
        fprintf(stderr, "fuzz: %s is no number\n", word);
        exit(2);
    }
    return (size_t)number;
}

int main(int argc, char **words) {
    if (argc != 3) {
        fputs("fuzz: COUNT and SEED are wanted\n", stderr);
        return 2;
    }
    size_t count = number_of(words[1]);
    seed_random(number_of(words[2]));
    report_ends();
    for (uint32_t kind = TIMEFD_VERSION_1; kind <= TIMEFD_STRFTIME; kind++) {
        struct tally tally = try_language(kind, count);
        print_tally(kind, &tally);
    }
    try_dialects(count);
    printf("%zu findings\n", finding_count());
    return finding_count() == 0 ? 0 : 1;
}

/* What was found: a text, and what was expected of it. */

#include "fuzz.h"

#include <signal.h>
#include <stdio.h>
#include <stdlib.h>

/* After so many findings the run ends. */
enum { MOST_FINDINGS = 20 };

static size_t findings;
static uint32_t last_kind;
static const struct text *last_text;

size_t finding_count(void) {
    return findings;
}

const char *language_name(uint32_t kind) {
    static const char *const NAMES[] = {
        "v1_to_v2", "version 1", "version 2", "version 3", "strftime",
    };
    static const char *const DIALECTS[] = {"python", "c", "gnu", "chrono", "jiff", "ruby", "java", "go", "moment"};
    if (kind >= TIMEFD_PYTHON && kind <= TIMEFD_MOMENT) {
        return DIALECTS[kind - TIMEFD_PYTHON];
    }
    return kind <= LANGUAGES ? NAMES[kind] : "another kind";
}

void expect(bool holds, uint32_t kind, const struct text *text, const char *expected) {
    if (holds) {
        return;
    }
    findings++;
    printf("finding: %s: ", language_name(kind));
    print_escaped(text);
    printf(": expected %s\n", expected);
    fflush(stdout);
    if (findings == MOST_FINDINGS) {
        printf("%zu findings, and no further text was tried\n", findings);
        exit(1);
    }
}

void remember(uint32_t kind, const struct text *text) {
    last_kind = kind;
    last_text = text;
}

/* A call that crashes, or that doesn't come back until somebody ends the run: prints its text. */
static void end(int signal) {
    printf("ended by signal %d", signal);
    if (last_text != NULL) {
        printf(" at %s: ", language_name(last_kind));
        print_escaped(last_text);
    }
    puts("");
    fflush(stdout);
    _Exit(1);
}

void report_ends(void) {
    static const int SIGNALS[] = {SIGSEGV, SIGBUS, SIGILL, SIGFPE, SIGABRT, SIGTERM, SIGINT};
    for (size_t i = 0; i < sizeof SIGNALS / sizeof SIGNALS[0]; i++) {
        signal(SIGNALS[i], end);
    }
}

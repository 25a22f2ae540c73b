/* Texts of any size, which repeat a part between an opening and a closing, and the expected answers. */

#ifndef TEXTS_H
#define TEXTS_H

#include "../examples/timefd.h"

#include <stdbool.h>

/* The depth at which nested descriptions are too many. */
enum { NESTING_LIMIT = 127 };

/* Sets of languages. */
enum {
    ONE = 1 << TIMEFD_VERSION_1,
    TWO = 1 << TIMEFD_VERSION_2,
    THREE = 1 << TIMEFD_VERSION_3,
    STRFTIME = 1 << TIMEFD_STRFTIME,
    VERSIONS = ONE | TWO | THREE,
};

struct family {
    const char *name;
    unsigned languages;
    const char *opening;
    const char *part; /* none: the deepest accepted description */
    const char *closing;

    /* The expected answer: the value is so much for each part, and so much beside that. */
    uint32_t status;
    size_t each;
    size_t beside;
};

struct text {
    char *bytes;
    size_t len;
    size_t parts;
};

/* The names of the languages, by their numbers. */
extern const char *const LANGUAGES[];

/* The text of a family, of at least so many bytes. If memory runs out the process ends. */
struct text make_text(const struct family *family, size_t size);

/* Whether the answer is the one that the text of the family is to have. */
bool is_expected(const struct family *family, const struct text *text, timefd_answer answer);

#endif

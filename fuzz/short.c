/* All texts of the symbols of a table, the short ones first. */

#include "fuzz.h"

enum { MOST_SYMBOLS = 20 };

/* The symbols of versions 1, 2 and 3, and of strftime. */
struct symbols {
    const char *of_versions[MOST_SYMBOLS];
    const char *of_strftime[MOST_SYMBOLS];
};

static const struct symbols BYTES = {
    {"[", "]", "\\", "a", " ", ":", "\xc3\xa9"},
    {"%", "d", "_", "0", "-", "a", "\xc3\xa9"},
};

static const struct symbols TOKENS = {
    {"[", "]", "\\", " ", "[day", "[optional", "[first", "[month", "[ignore", " padding:none",
     " repr:short", " repr:Long", " count:3", " format:false", "\xc3"},
    {"%", "%d", "%-", "%_e", "%O", "%Z", "%c", "%%", "x", "0", "\n", "\xc3\xa9", "\xa9"},
};

static size_t count_symbols(const char *const *symbols) {
    size_t count = 0;
    while (count < MOST_SYMBOLS && symbols[count] != NULL) {
        count++;
    }
    return count;
}

/* The text with this number: 0 is the empty one, and after all texts of so many symbols come those
   of one more. */
static void make(const struct symbols *table, uint32_t kind, size_t number, struct text *text) {
    const char *const *symbols = kind == TIMEFD_STRFTIME ? table->of_strftime : table->of_versions;
    size_t count = count_symbols(symbols);
    text->len = 0;
    while (number > 0) {
        append_word(text, symbols[(number - 1) % count]);
        number = (number - 1) / count;
    }
}

void make_short(uint32_t kind, size_t number, struct text *text) {
    make(&BYTES, kind, number, text);
}

void make_of_tokens(uint32_t kind, size_t number, struct text *text) {
    make(&TOKENS, kind, number, text);
}

/* Random texts, most of them descriptions or nearly such. */

#include "fuzz.h"

#include <string.h>

/* A component, and words that its head may have after the name. */
struct head {
    const char *name;
    const char *modifiers[8];
};

static const struct head HEADS[] = {
    {"day", {"padding:zero", "padding:space", "padding:none"}},
    {"end", {"trailing_input:prohibit", "trailing_input:discard"}},
    {"hour", {"padding:none", "repr:12", "repr:24"}},
    {"ignore", {"count:1", "count:65535", "count:+007", "count:0", "count:65536"}},
    {"minute", {"padding:zero"}},
    {"month", {"padding:space", "repr:numerical", "repr:long", "repr:short",
               "case_sensitive:false"}},
    {"offset_hour", {"sign:automatic", "sign:mandatory", "padding:none"}},
    {"offset_minute", {"padding:space"}},
    {"offset_second", {"padding:zero"}},
    {"ordinal", {"padding:none"}},
    {"period", {"case:lower", "case:upper", "case_sensitive:true"}},
    {"second", {"padding:none"}},
    {"subsecond", {"digits:1+", "digits:1", "digits:9", "digits:10"}},
    {"unix_timestamp", {"precision:second", "precision:millisecond", "precision:microsecond",
                        "precision:nanosecond", "sign:mandatory"}},
    {"weekday", {"repr:short", "repr:long", "repr:sunday", "repr:monday", "one_indexed:false",
                 "case_sensitive:false"}},
    {"week_number", {"padding:none", "repr:iso", "repr:sunday", "repr:monday"}},
    {"year", {"padding:none", "repr:full", "repr:century", "repr:last_two", "range:standard",
              "range:extended", "base:iso_week", "sign:mandatory"}},
    {"optional", {"format:true", "format:false"}},
    {"first", {NULL}},
    {"foo", {"bar", "a:b", ":", "padding:", ":zero", "padding:zero:x", "\xc3\xa9:\xe2\x82\xac"}},
};

/* `optional` and `first` are the two that may have nested descriptions. */
enum {
    HEAD_COUNT = sizeof HEADS / sizeof HEADS[0],
    NESTING = HEAD_COUNT - 3,
    NESTING_END = HEAD_COUNT - 1,
};

static const char *const WHITES[] = {" ", " ", " ", "\t", "\n", "\x0c", "\r", "  ", "\x0b"};
static const char *const RUNS[] = {
    "a", "-", ":", " ", "x y", "T", "%", "\x0b", "\x7f", "\xc3\xa9", "\xe2\x82\xac",
    "\xf0\x9f\x98\x80", "0123456789abcdefghijklmnopqrstuvwxyz",
};
static const char *const ESCAPES[] = {"[[", "\\[", "\\]", "\\\\", "\\", "]", "["};
static const char *const BROKEN[] = {
    "\xff", "\xc3", "\xa9", "\xe2\x82", "\xed\xa0\x80", "\xc0\x80", "\xf4\x90\x80\x80",
};
static const char *const FLAGS[] = {"", "", "", "_", "-", "0", "00"};

#define append_one_of(text, words) \
    append_word(text, (words)[random_below(sizeof(words) / sizeof((words)[0]))])

/* A word, a few times in another case. */
static void append_cased(struct text *text, const char *word) {
    size_t begun = text->len;
    append_word(text, word);
    if (one_in(12)) {
        for (size_t i = begun; i < text->len; i++) {
            bool is_letter = text->bytes[i] >= 'a' && text->bytes[i] <= 'z';
            text->bytes[i] -= is_letter && one_in(2) ? 0x20 : 0;
        }
    }
}

static void append_modifier(struct text *text, const struct head *head) {
    const struct head *of = one_in(20) ? &HEADS[random_below(HEAD_COUNT)] : head;
    size_t count = 0;
    while (count < 8 && of->modifiers[count] != NULL) {
        count++;
    }
    if (count > 0) {
        append_one_of(text, WHITES);
        append_cased(text, of->modifiers[random_below(count)]);
    }
}

static void append_pieces(struct text *text, size_t depth);

static void append_nested(struct text *text, size_t depth) {
    if (!one_in(20)) {
        append_one_of(text, WHITES);
    }
    append_word(text, "[");
    append_pieces(text, depth + 1);
    append_word(text, one_in(40) ? "" : "]");
}

/* How many nested descriptions a component gets: one most often where it may have some. */
static size_t choose_nested(size_t head) {
    bool may_nest = head >= NESTING && head < NESTING_END;
    return may_nest ? (one_in(4) ? random_below(4) : 1) : one_in(30);
}

static void append_component(struct text *text, size_t depth) {
    bool may_nest = depth < 4 && one_in(5);
    size_t chosen = may_nest ? NESTING + random_below(NESTING_END - NESTING)
                             : random_below(HEAD_COUNT);
    const struct head *head = &HEADS[chosen];
    append_word(text, "[");
    if (one_in(8)) {
        append_one_of(text, WHITES);
    }
    append_cased(text, head->name);
    for (size_t left = one_in(2) ? 0 : random_below(4); left > 0; left--) {
        append_modifier(text, head);
    }
    for (size_t left = depth < 6 ? choose_nested(chosen) : 0; left > 0; left--) {
        append_nested(text, depth);
    }
    if (one_in(8)) {
        append_one_of(text, WHITES);
    }
    append_word(text, one_in(40) ? "" : "]");
}

static void append_pieces(struct text *text, size_t depth) {
    for (size_t left = random_below(depth == 0 ? 8 : 4); left > 0; left--) {
        size_t choice = random_below(16);
        if (choice < 9) {
            append_component(text, depth);
        } else if (choice < 14) {
            append_one_of(text, RUNS);
        } else {
            append_one_of(text, ESCAPES);
        }
    }
}

/* Nested descriptions about as deep as the limit allows, some of them not closed. */
static void append_deep(struct text *text) {
    size_t depth = NESTING_LIMIT - 3 + random_below(6);
    for (size_t i = 0; i < depth; i++) {
        append_word(text, one_in(3) ? "[first [" : "[optional [");
    }
    append_pieces(text, 4);
    for (size_t i = one_in(4); i < depth; i++) {
        append_word(text, "]]");
    }
}

static void append_directives(struct text *text) {
    static const char LETTERS[] = "%ntaAbhBCdegGHIjklmMpPsSuUVwWyYcDxFrRTXzOZEfq_0- \x7f";
    for (size_t left = random_below(10); left > 0; left--) {
        if (one_in(3)) {
            append_one_of(text, RUNS);
        } else {
            append_word(text, "%");
            append_one_of(text, FLAGS);
            size_t letter = random_below(one_in(8) ? sizeof LETTERS - 1 : sizeof LETTERS - 11);
            append(text, (const uint8_t *)&LETTERS[letter], 1);
        }
    }
}

void make_random(uint32_t kind, struct text *text) {
    text->len = 0;
    if (kind == TIMEFD_STRFTIME) {
        append_directives(text);
    } else if (one_in(500)) {
        append_deep(text);
    } else {
        append_pieces(text, 0);
    }
    if (one_in(50)) {
        append_one_of(text, BROKEN);
    }
}

/* Deletes, doubles, swaps or inserts a byte. */
void mutate(struct text *text) {
    static const uint8_t BYTES[] = "[]\\ :%_-0ad9+\t\x0b\xc3\xa9\xff";
    size_t at = random_below(text->len + 1);
    uint8_t *here = text->bytes + at;
    size_t rest = text->len - at;
    size_t choice = random_below(4);
    if (choice == 0 && rest > 0) {
        memmove(here, here + 1, rest - 1);
        text->len--;
    } else if (choice == 1 && rest > 1) {
        uint8_t byte = here[0];
        here[0] = here[1];
        here[1] = byte;
    } else if (text->len < LONGEST) {
        uint8_t byte = choice == 2 && rest > 0 ? *here : BYTES[random_below(sizeof BYTES - 1)];
        memmove(here + 1, here, rest);
        *here = byte;
        text->len++;
    }
}

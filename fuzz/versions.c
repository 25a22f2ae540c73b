/* What becomes of a text in another version, in another case, or as a nested description. */

#include "fuzz.h"

/* Turns the case of some letters in the heads of an accepted text. Versions 1 and 2 accept no
   nested descriptions, so a bracket that is not escaped opens a head up to the next closing one. */
static void recase(uint32_t kind, struct text *text) {
    uint8_t escape = kind == TIMEFD_VERSION_1 ? '[' : '\\';
    bool is_head = false;
    for (size_t i = 0; i < text->len; i++) {
        uint8_t byte = text->bytes[i];
        bool is_letter = (byte | 0x20) >= 'a' && (byte | 0x20) <= 'z';
        if (is_head) {
            text->bytes[i] ^= is_letter && one_in(2) ? 0x20 : 0;
            is_head = byte != ']';
        } else if (byte == escape && i + 1 < text->len &&
                   (kind == TIMEFD_VERSION_2 || text->bytes[i + 1] == '[')) {
            i++;
        } else {
            is_head = byte == '[';
        }
    }
}

static void check_recased(uint32_t kind, const struct text *text, timefd_answer answer) {
    static struct text recased;
    recased.len = 0;
    append(&recased, text->bytes, text->len);
    recase(kind, &recased);
    timefd_answer given = judge(kind, &recased);
    expect(given.status == TIMEFD_ACCEPTED && given.value == answer.value, kind, &recased,
           "what the text is with heads in another case");
}

/* The text of version 2 has no fewer items: each backslash is one of its own there. */
static void check_converted(const struct text *text, const struct text *converted, size_t items) {
    timefd_answer answer = judge(TIMEFD_VERSION_2, converted);
    expect(answer.status == TIMEFD_ACCEPTED, 0, text, "a text that version 2 accepts");
    bool has_these = has_word(text, "\\") ? answer.value >= items : answer.value == items;
    expect(has_these, 0, text, "a text of version 2 with the same items");
}

/* A buffer of just the length, and one that is too short. */
static void check_rooms(const struct text *text, size_t len) {
    static struct buffer buffer;
    timefd_answer whole = convert(text, &buffer, len);
    expect(whole.status == TIMEFD_ACCEPTED && whole.value == len && whole.written == len, 0, text,
           "all of it in a buffer of just its length");
    timefd_answer none = convert(text, &buffer, random_below(len));
    expect(none.status == TIMEFD_ACCEPTED && none.value == len && none.written == 0, 0, text,
           "nothing written to a buffer that is too short");
}

static void check_conversion(const struct text *text, timefd_answer of_one) {
    static struct buffer buffer;
    static struct text converted;
    timefd_answer answer = convert(text, &buffer, 2 * text->len);
    expect(answer.status == of_one.status && answer.sentence_len == 0, 0, text,
           "the status that it has in version 1");
    if (answer.status != TIMEFD_ACCEPTED) {
        expect(answer.value == of_one.value && answer.written == 0, 0, text,
               "the index of version 1, and nothing written");
        return;
    }
    bool is_whole = answer.value <= 2 * text->len && answer.written == answer.value;
    expect(is_whole, 0, text, "at most twice the length, and all of it written");
    /* One that is longer than LONGEST is not looked at. */
    converted.len = 0;
    append(&converted, buffer.guarded + GUARD, answer.written);
    if (is_whole && converted.len > 0) {
        check_converted(text, &converted, of_one.value);
        check_rooms(text, converted.len);
    }
}

/* What version 3 accepts version 2 accepts, but for nested descriptions. */
static void check_relaxed(const struct text *text) {
    if (!has_word(text, "optional") && !has_word(text, "first")) {
        expect(judge(TIMEFD_VERSION_2, text).status == TIMEFD_ACCEPTED, TIMEFD_VERSION_2, text,
               "to be accepted as in version 3");
    }
}

/* A nested description reserves what it reserves outside. No text that is shorter than this is
   nested up to the limit. */
static void check_nested(const struct text *text, timefd_answer answer) {
    static struct text outer;
    if (text->len >= NESTING_LIMIT * (sizeof "[first []]" - 1)) {
        return;
    }
    outer.len = 0;
    append_word(&outer, one_in(2) ? "[optional [" : "[first [");
    append(&outer, text->bytes, text->len);
    append_word(&outer, "]]");
    timefd_answer given = judge(TIMEFD_VERSION_3, &outer);
    expect(given.status == TIMEFD_ACCEPTED && given.value == answer.value, TIMEFD_VERSION_3, &outer,
           "as many reserved bytes as the nested description has");
}

void check_versions(uint32_t kind, const struct text *text) {
    timefd_answer answer = judge(kind, text);
    if (kind == TIMEFD_VERSION_1) {
        check_conversion(text, answer);
    }
    if (answer.status != TIMEFD_ACCEPTED) {
        return;
    }
    if (kind == TIMEFD_VERSION_1 || kind == TIMEFD_VERSION_2) {
        check_recased(kind, text, answer);
    } else if (kind == TIMEFD_VERSION_3) {
        check_relaxed(text);
        check_nested(text, answer);
    }
}

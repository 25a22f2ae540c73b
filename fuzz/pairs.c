/* What has to hold for a text after an accepted one: the laws of joining and of shift. */

#include "fuzz.h"

#include <string.h>

static bool is_run_byte(uint32_t kind, uint8_t byte) {
    return byte != '[' && byte != ']' && (kind == TIMEFD_VERSION_1 || byte != '\\');
}

/* Whether an accepted text of strftime ends with a literal, and not with a directive. */
static bool ends_with_literal(const struct text *text) {
    bool is_literal = false;
    for (size_t i = 0; i < text->len; i++) {
        is_literal = text->bytes[i] != '%';
        if (!is_literal) {
            i += memchr("_-0", text->bytes[i + 1], 3) == NULL ? 1 : 2;
        }
    }
    return is_literal;
}

/* Whether the last piece of one accepted text and the first of another are runs, which become one
   literal. */
static bool are_joined(uint32_t kind, const struct text *first, const struct text *second) {
    if (first->len == 0 || second->len == 0) {
        return false;
    }
    if (kind == TIMEFD_STRFTIME) {
        return ends_with_literal(first) && second->bytes[0] != '%';
    }
    return is_run_byte(kind, first->bytes[first->len - 1]) && is_run_byte(kind, second->bytes[0]);
}

static bool is_same_but_for_index(const struct sentence *a, const struct sentence *b) {
    return a->front_len == b->front_len && memcmp(a->front, b->front, a->front_len) == 0 &&
           a->rest_len == b->rest_len && memcmp(a->rest, b->rest, a->rest_len) == 0;
}

static bool ask_for_sentence(uint32_t kind, const struct text *text, size_t index,
                             struct buffer *buffer, struct sentence *sentence) {
    timefd_answer answer = check(kind, text, buffer, text->len + SENTENCE);
    return cut_sentence(buffer->guarded + GUARD, answer.written, index, sentence);
}

/* Shift: the same sentence but for the index, which is further on by the length of the first. */
static void check_shifted(uint32_t kind, const struct text *joined, size_t index,
                          const struct text *second, size_t index_of_second) {
    static struct buffer buffer, buffer_of_second;
    struct sentence sentence, of_second;
    expect(index == joined->len - second->len + index_of_second, kind, joined,
           "the index of the second text's fault, further on by the length of the first");
    bool is_same = ask_for_sentence(kind, joined, index, &buffer, &sentence) &&
                   ask_for_sentence(kind, second, index_of_second, &buffer_of_second, &of_second) &&
                   is_same_but_for_index(&sentence, &of_second);
    expect(is_same, kind, joined, "the sentence of the second text's fault, but for the index");
}

/* The first text is accepted, and the second is any. */
void check_pair(uint32_t kind, const struct text *first, const struct text *second) {
    static struct text joined;
    if (first->len + second->len > LONGEST) {
        return;
    }
    joined.len = 0;
    append(&joined, first->bytes, first->len);
    append(&joined, second->bytes, second->len);
    timefd_answer answer = judge(kind, &joined);
    timefd_answer of_second = judge(kind, second);
    expect(answer.status == of_second.status, kind, &joined, "the status of the second text");
    if (answer.status != of_second.status) {
        return;
    }
    if (answer.status == TIMEFD_ACCEPTED) {
        size_t sum = judge(kind, first).value + of_second.value;
        size_t lost = kind != TIMEFD_VERSION_3 && are_joined(kind, first, second) ? 1 : 0;
        expect(answer.value == sum - lost, kind, &joined,
               "as many items or reserved bytes as both texts have");
    } else if (answer.status == TIMEFD_REFUSED) {
        check_shifted(kind, &joined, answer.value, second, of_second.value);
    }
}

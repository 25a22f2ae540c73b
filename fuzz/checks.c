/* What holds of one text in one language. */

#include "fuzz.h"

#include <string.h>

static bool is_same(timefd_answer a, timefd_answer b) {
    return a.status == b.status && a.value == b.value && a.sentence_len == b.sentence_len &&
           a.written == b.written;
}

static void check_value(uint32_t kind, const struct text *text, timefd_answer answer) {
    expect(answer.value <= text->len, kind, text, "a value of at most the length");
    switch (answer.status) {
    case TIMEFD_ACCEPTED:
        return;
    case TIMEFD_REFUSED:
        expect(is_boundary(text->bytes, text->len, answer.value), kind, text,
               "an index between two characters");
        return;
    case TIMEFD_NOT_UTF8:
        expect(answer.value == 0, kind, text, "the value 0 of what is no UTF-8");
        return;
    default:
        expect(false, kind, text, "to be accepted, refused or no UTF-8");
    }
}

/* What is said whatever the language is. */
static void check_bytes(uint32_t kind, const struct text *text, timefd_answer answer) {
    expect((answer.status == TIMEFD_NOT_UTF8) == !is_utf8(text), kind, text,
           "no UTF-8 where the bytes are none");
    timefd_answer unknown = judge(LANGUAGES + 1 + (uint32_t)random_below(UINT16_MAX), text);
    expect(is_same(unknown, (timefd_answer){.status = TIMEFD_UNKNOWN_KIND}), kind, text,
           "that an unknown kind is said to be one");
}

/* A sentence has its index once: at its end, with more after it only if a combination is refused. */
static void check_form(uint32_t kind, const struct text *text, const uint8_t *bytes,
                       timefd_answer answer) {
    struct sentence cut;
    if (!cut_sentence(bytes, answer.sentence_len, answer.value, &cut)) {
        expect(false, kind, text, "a sentence with the index of the answer");
        return;
    }
    bool has_context = cut.rest_len > 5 && memcmp(bytes, "the `", 5) == 0 &&
                       (memcmp(cut.rest, " for ", 5) == 0 || memcmp(cut.rest, " when", 5) == 0);
    expect(cut.rest_len == 0 || has_context, kind, text, "a sentence that ends with its index");
}

/* A buffer that is too short gets the longest front of the sentence that ends between two
   characters. */
static void check_short(uint32_t kind, const struct text *text, const uint8_t *full,
                        timefd_answer answer) {
    static struct buffer sentence;
    size_t room = random_below(answer.sentence_len);
    timefd_answer given = check(kind, text, &sentence, room);
    size_t most = room;
    while (!is_boundary(full, answer.sentence_len, most)) {
        most--;
    }
    answer.written = most;
    expect(is_same(given, answer), kind, text, "a front of the sentence that fills a short buffer");
    expect(memcmp(full, sentence.guarded + GUARD, most) == 0, kind, text,
           "the front of the sentence in a short buffer");
}

static void check_sentence(uint32_t kind, const struct text *text, timefd_answer judged) {
    static struct buffer sentence;
    const uint8_t *bytes = sentence.guarded + GUARD;
    size_t room = text->len + SENTENCE;
    timefd_answer answer = check(kind, text, &sentence, room);
    bool has_sentence = answer.status == TIMEFD_REFUSED && answer.sentence_len > 0 &&
                        answer.sentence_len <= room && answer.written == answer.sentence_len;
    if (has_sentence) {
        judged.sentence_len = judged.written = answer.sentence_len;
    }
    expect(is_same(answer, judged), kind, text,
           "the same answer from timefd_check, and all of the sentence");
    expect(has_sentence == (answer.status == TIMEFD_REFUSED), kind, text,
           "a sentence of what is refused, and of nothing else");
    check_diagnosis(kind, text, answer);
    if (has_sentence) {
        check_form(kind, text, bytes, answer);
        check_short(kind, text, bytes, answer);
    }
}

timefd_answer check_text(uint32_t kind, const struct text *text) {
    timefd_answer answer = judge(kind, text);
    expect(answer.sentence_len == 0 && answer.written == 0, kind, text,
           "no sentence of timefd_judge");
    check_value(kind, text, answer);
    check_bytes(kind, text, answer);
    check_sentence(kind, text, answer);
    check_nodes(kind, text, answer);
    check_format(kind, text, answer);
    check_date(kind, text, answer);
    check_modern(kind, text, answer);
    expect(is_same(judge(kind, text), answer), kind, text, "the same answer from a second call");
    return answer;
}

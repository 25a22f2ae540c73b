/* What has to hold for a fault that is reported whole. */

#include "fuzz.h"

/* The longest name, key or value that is allowed anywhere has room. */
enum { WORD = 16 };

static bool is_placed(const struct text *text, const timefd_fault *diagnosed, size_t index) {
    return diagnosed->start == index && diagnosed->start <= diagnosed->end && diagnosed->end <= text->len &&
           (diagnosed->start < diagnosed->end || diagnosed->start == text->len) &&
           is_boundary(text->bytes, text->len, diagnosed->start) && is_boundary(text->bytes, text->len, diagnosed->end);
}

static bool is_silent(const timefd_fault *diagnosed) {
    return diagnosed->code == 0 && diagnosed->start == 0 && diagnosed->end == 0 && diagnosed->nearest_len == 0 && diagnosed->nearest_written == 0;
}

/* `answer` is that of timefd_check with room for the whole sentence. */
void check_diagnosis(uint32_t kind, const struct text *text, timefd_answer answer) {
    static struct buffer sentence, word;
    timefd_diagnosis diagnosed = diagnose(kind, text, &sentence, text->len + SENTENCE, &word, WORD);
    const timefd_fault *fault = &diagnosed.fault;
    bool is_same = diagnosed.answer.status == answer.status && diagnosed.answer.value == answer.value &&
                   diagnosed.answer.sentence_len == answer.sentence_len && diagnosed.answer.written == answer.written;
    expect(is_same, kind, text, "the same answer from timefd_diagnose as from timefd_check");
    expect(!fault->out_of_memory, kind, text, "memory for the nearest word");
    if (answer.status != TIMEFD_REFUSED) {
        expect(is_silent(fault), kind, text, "no fault of what is not refused");
        return;
    }
    expect(fault->code >= TIMEFD_FAULT_UNCLOSED_BRACKET && fault->code <= TIMEFD_FAULT_REFUSED_MODIFIER, kind, text,
           "a fault of the header");
    expect(is_placed(text, fault, answer.value), kind, text, "bytes at fault from its index on, whole characters");
    expect(fault->nearest_len <= WORD && fault->nearest_written == fault->nearest_len, kind, text,
           "all of the nearest word");
    timefd_fault shorter = diagnose(kind, text, &sentence, 0, &word, fault->nearest_len / 2).fault;
    expect(shorter.nearest_len == fault->nearest_len && shorter.nearest_written == 0, kind, text,
           "nothing of a word that has no room");
}

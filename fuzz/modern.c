/* What a text is in version 3 has to mean the same, and to be its own normal form. */

#include "fuzz.h"

#include <string.h>

static struct buffer modern_buffer;
static struct text modern;

static bool has_bytes(const struct buffer *buffer, const struct text *text) {
    return memcmp(buffer->guarded + GUARD, text->bytes, text->len) == 0;
}

/* Both have as many bytes of literals and the same longest rendering. */
static void check_sizes(uint32_t kind, const struct text *text) {
    static struct node_buffers buffers;
    timefd_read_answer old = read_nodes(kind, text, &buffers, 0, 0);
    timefd_read_answer new = read_nodes(TIMEFD_VERSION_3, &modern, &buffers, 0, 0);
    expect(new.status == TIMEFD_ACCEPTED, kind, text, "that version 3 accepts what is converted to it");
    expect(new.literals == old.literals && new.bytes == old.bytes, kind, text,
           "as many bytes of literals and of the longest rendering in version 3");
}

/* Both write a moment alike. */
static void check_shown(uint32_t kind, const struct text *text) {
    static struct buffer old, new;
    timefd_format_answer before = show(kind, text, &old);
    timefd_format_answer after = show(TIMEFD_VERSION_3, &modern, &new);
    expect(after.value == before.value && after.written == before.written &&
               memcmp(old.guarded, new.guarded, GUARD + before.written) == 0,
           kind, text, "that its text of version 3 writes a moment as it does");
}

/* A second conversion changes nothing. */
static void check_again(uint32_t kind, const struct text *text) {
    static struct buffer again;
    timefd_answer answer = modernize(TIMEFD_VERSION_3, &modern, &again, modern.len);
    expect(answer.status == TIMEFD_ACCEPTED && answer.value == modern.len &&
               answer.written == modern.len && has_bytes(&again, &modern),
           kind, text, "that its text of version 3 is its own normal form");
}

/* A buffer that is too short stays as it was, and the same length is reported. */
static void check_no_room(uint32_t kind, const struct text *text, size_t len) {
    static struct buffer buffer;
    timefd_answer answer = modernize(kind, text, &buffer, random_below(len));
    expect(answer.status == TIMEFD_ACCEPTED && answer.value == len && answer.written == 0, kind,
           text, "nothing converted where there is no room, and the length of what would be");
}

void check_modern(uint32_t kind, const struct text *text, timefd_answer judged) {
    timefd_answer answer = modernize(kind, text, &modern_buffer, ROOM);
    expect(answer.status == judged.status && answer.sentence_len == 0, kind, text,
           "the same status from timefd_convert");
    if (judged.status != TIMEFD_ACCEPTED) {
        expect(answer.value == judged.value && answer.written == 0, kind, text,
               "the fault of timefd_judge from timefd_convert");
        return;
    }
    expect(answer.written == (answer.value <= ROOM ? answer.value : 0), kind, text,
           "all to be converted where there is room");
    if (answer.value > 0) {
        check_no_room(kind, text, answer.value);
    }
    if (answer.value > ROOM) {
        return;
    }
    modern.len = answer.written;
    memcpy(modern.bytes, modern_buffer.guarded + GUARD, modern.len);
    check_sizes(kind, text);
    check_shown(kind, text);
    check_again(kind, text);
}

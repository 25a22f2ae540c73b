/* What a text writes of a moment has to fit what is said of the text. */

#include "fuzz.h"

#include <string.h>

/* A moment with all three parts, of which every component shows something: 1 January 2021 is in the
   last week of the year before, and its clock is behind UTC. */
static const timefd_moment MOMENT = {
    .known = TIMEFD_HAS_DATE | TIMEFD_HAS_TIME | TIMEFD_HAS_OFFSET,
    .year = 2021,
    .month = 1,
    .day = 1,
    .nanosecond = 40,
    .offset_seconds = -1800,
};

timefd_format_answer show(uint32_t kind, const struct text *text, struct buffer *buffer) {
    return format(kind, text, &MOMENT, buffer, ROOM);
}

/* A buffer that is too short stays as it was, and the same length is reported. */
static void check_too_short(uint32_t kind, const struct text *text, timefd_format_answer whole) {
    static struct buffer buffer;
    size_t room = random_below(whole.value);
    timefd_format_answer answer = format(kind, text, &MOMENT, &buffer, room);
    expect(answer.status == TIMEFD_ACCEPTED && answer.value == whole.value && answer.written == 0,
           kind, text, "nothing written where there is no room, and the length of what would be");
}

static void check_written(uint32_t kind, const struct text *text, const struct buffer *buffer,
                          timefd_format_answer answer) {
    static struct text shown;
    shown.len = answer.written;
    memcpy(shown.bytes, buffer->guarded + GUARD, answer.written);
    expect(is_utf8(&shown), kind, text, "UTF-8 to be written");
    static struct buffer again;
    format(kind, text, &MOMENT, &again, ROOM);
    expect(memcmp(again.guarded + GUARD, shown.bytes, shown.len) == 0, kind, text,
           "the same bytes to be written twice");
}

/* What was read of the text writes the same, in the same room and in less. */
static void check_by_nodes(uint32_t kind, const struct text *text, const struct buffer *written,
                           timefd_format_answer whole) {
    static struct node_buffers nodes;
    static struct buffer buffer;
    timefd_read_answer read = read_nodes(kind, text, &nodes, NODES_A_BYTE * (text->len + 1),
                                         LITERALS_A_BYTE * (text->len + 1));
    expect(read.written, kind, text, "nodes to be read where there is room");
    timefd_format_answer answer = format_nodes(kind, text, &nodes, read, &MOMENT, &buffer, ROOM);
    expect(answer.status == TIMEFD_ACCEPTED && answer.value == whole.value &&
               answer.written == whole.written &&
               memcmp(buffer.guarded + GUARD, written->guarded + GUARD, whole.written) == 0,
           kind, text, "the same to be written by nodes");
    if (whole.value > 0) {
        size_t room = random_below(whole.value);
        answer = format_nodes(kind, text, &nodes, read, &MOMENT, &buffer, room);
        expect(answer.status == TIMEFD_ACCEPTED && answer.value == whole.value && answer.written == 0,
               kind, text, "nothing written by nodes where there is no room");
    }
}

void check_format(uint32_t kind, const struct text *text, timefd_answer judged) {
    static struct buffer buffer;
    timefd_format_answer answer = format(kind, text, &MOMENT, &buffer, ROOM);
    expect(answer.status == judged.status, kind, text, "the same status from timefd_format");
    expect(answer.reason == 0 && answer.component == 0, kind, text,
           "no component that shows nothing");
    if (judged.status != TIMEFD_ACCEPTED) {
        expect(answer.value == judged.value && answer.written == 0, kind, text,
               "the fault of timefd_judge from timefd_format");
        return;
    }
    expect(kind != TIMEFD_VERSION_3 || answer.value <= judged.value, kind, text,
           "no more bytes than are reserved");
    expect(answer.written == (answer.value <= ROOM ? answer.value : 0), kind, text,
           "all to be written where there is room");
    check_written(kind, text, &buffer, answer);
    check_by_nodes(kind, text, &buffer, answer);
    if (answer.value > 0) {
        check_too_short(kind, text, answer);
    }
}

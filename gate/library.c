/* Refuses each allocation of each call of the static library in turn, and compares nodes byte by byte. gate/library builds it,
   with malloc, realloc and free of the library replaced by the functions below, and runs it. */

#include "../examples/timefd.h"

#include <inttypes.h>
#include <stdbool.h>
#include <stdio.h>
#include <string.h>

enum { ROOM = 128, LIFT = 100, MODERN = 101, ONE_TO_THREE = 102, NORMAL = 103, OF_STRFTIME = 104 };

void *__real_malloc(size_t size);
void *__real_realloc(void *block, size_t size);
void __real_free(void *block);
void *__wrap_malloc(size_t size);
void *__wrap_realloc(void *block, size_t size);
void __wrap_free(void *block);

static size_t asked;   /* how many blocks a call asked for so far */
static size_t refused; /* which of them is refused, counted from 1, or 0 */
static size_t held;    /* how many blocks are not freed */

void *__wrap_malloc(size_t size) {
    asked++;
    void *block = asked == refused ? NULL : __real_malloc(size);
    held += block != NULL;
    return block;
}

void *__wrap_realloc(void *block, size_t size) {
    asked++;
    void *moved = asked == refused ? NULL : __real_realloc(block, size);
    held += block == NULL && moved != NULL;
    return moved;
}

void __wrap_free(void *block) {
    held -= block != NULL;
    __real_free(block);
}

struct sample {
    uint32_t kind; /* LIFT for timefd_v1_to_v2, MODERN for timefd_v2_to_v3, and the last three for timefd_convert to version 3 */
    const char *text;
};

/* What one call answered, and the bytes of its buffers. */
struct outcome {
    timefd_answer answer;
    timefd_read_answer read;
    timefd_format_answer format;
    timefd_diagnosis diagnosis;
    timefd_date_answer date;
    uint8_t buffer[ROOM];
    uint8_t word[ROOM];
    timefd_node nodes[ROOM];
};

enum call { CHECK_OR_CONVERT, READ, READ_WITHIN, FORMAT, DIAGNOSE, READ_DATE };

/* The limit of timefd_read_within: some texts nest more. */
enum { LIMIT = 1 };

/* What is read by each text: some read it, and of others a part of it doesn't read. */
static const char DATE[] = "2026-11-23 at 05:06:07";

/* A date and a time of day, of which a component of an offset shows nothing. */
static const timefd_moment MOMENT = {
    .known = TIMEFD_HAS_DATE | TIMEFD_HAS_TIME,
    .year = 2026,
    .month = 11,
    .day = 23,
    .hour = 5,
};

static const struct sample SAMPLES[] = {
    {LIFT, ""},
    {LIFT, "[[[day]]\\"},
    {LIFT, "a]b"},
    {LIFT, "]]]]]]]]]]]]]]]]]]]]]]]]]]]]]]]]]]]]]]]]]]]]]]]]"},
    {LIFT, "[YEAR Repr:Century]"},
    {LIFT, "[foo]"},
    {LIFT, "[optional [x]]"},
    {LIFT, "a[day"},
    {MODERN, ""},
    {MODERN, "[YEAR Repr:Century] a]b \\[ [hour repr:12 repr:24]"},
    {MODERN, "[ignore count:65535][year base:iso_week sign:mandatory]"},
    {MODERN, "[foo]"},
    {MODERN, "[optional [x]]"},
    {ONE_TO_THREE, ""},
    {ONE_TO_THREE, "[YEAR Repr:Century] a]b [[ [hour repr:12 repr:24]"},
    {ONE_TO_THREE, "[day][year] a [hour] b [minute]: [mnth]"},
    {ONE_TO_THREE, "[optional [x]]"},
    {NORMAL, ""},
    {NORMAL, "[first [a] [[day padding:zero]] [c[optional  [[year]-[month]]]]]"},
    {NORMAL, "\\[[ignore count:0007][year base:iso_week sign:mandatory]"},
    {NORMAL, "[optional [[day]]] [hour repr:99]"},
    {NORMAL, "[optional [[first [a] [[day]]"},
    {OF_STRFTIME, ""},
    {OF_STRFTIME, "[%c] and %Y-%m-%d"},
    {OF_STRFTIME, "%Y-%m-%d %Q"},
    {OF_STRFTIME, "%\xc3\xa9"},
    {TIMEFD_VERSION_1, "[[[day]"},
    {TIMEFD_VERSION_1, "[foo bar"},
    {TIMEFD_VERSION_2, "[year]-[month]-[day] at [hour]:[minute]:[second]"},
    {TIMEFD_VERSION_2, "[hour repr:99 repr:12]"},
    {TIMEFD_VERSION_3, "[first [a] [[day]] [c[optional [[year]-[month]]]]]"},
    {TIMEFD_VERSION_3, "x[optional format:false [[weekday]]]y[first [a] [bcd]]"},
    {TIMEFD_VERSION_3, "[hour repr:12 repr:24]"},
    {TIMEFD_STRFTIME, "%c and %Y-%m-%d"},
    {TIMEFD_STRFTIME, "%Y-%m-%d %z"},
    {TIMEFD_VERSION_2, "[day] [offset_hour]"},
    {TIMEFD_VERSION_3, "[first [[offset_hour]] [x]] [day]"},
    {TIMEFD_VERSION_3, "[first [a] [[mnth of a name that is longer than others]]]"},
    {TIMEFD_VERSION_3, "[mnthmnthmnthmnthmnthmnthmnthmnthmnthmnthmnthmnthmnthmnthmnthmnthmnth]"},
    {TIMEFD_VERSION_1, "[day][year] a [hour] b [minute]: [mnth]"},
    {TIMEFD_VERSION_2, "[day][year] a [hour] \\b"},
    {TIMEFD_VERSION_3, "[first [a] [b]]x[foo]"},
    {TIMEFD_VERSION_3, "[optional [[day]]] [hour repr:99]"},
    {TIMEFD_VERSION_3, "[optional [[first [a] [[day]]"},
    {TIMEFD_STRFTIME, "%O"},
    {TIMEFD_STRFTIME, "%Y-%m-%d %Q"},
    {TIMEFD_STRFTIME, "%\xc3\xa9"},
};

static timefd_answer answer_of(uint32_t kind, const uint8_t *text, size_t len, uint8_t *buffer) {
    switch (kind) {
    case LIFT:
        return timefd_v1_to_v2(text, len, buffer, ROOM);
    case MODERN:
        return timefd_v2_to_v3(text, len, buffer, ROOM);
    case ONE_TO_THREE:
        return timefd_convert(TIMEFD_VERSION_1, TIMEFD_VERSION_3, text, len, buffer, ROOM);
    case NORMAL:
        return timefd_convert(TIMEFD_VERSION_3, TIMEFD_VERSION_3, text, len, buffer, ROOM);
    case OF_STRFTIME:
        return timefd_convert(TIMEFD_STRFTIME, TIMEFD_VERSION_3, text, len, buffer, ROOM);
    default:
        return timefd_check(kind, text, len, buffer, ROOM);
    }
}

/* One call, whose allocation with this number is refused. */
static struct outcome outcome_of(enum call call, const struct sample *sample, size_t number) {
    struct outcome outcome;
    const uint8_t *text = (const uint8_t *)sample->text;
    size_t len = strlen(sample->text);
    memset(&outcome, 0, sizeof outcome);
    memset(outcome.buffer, '.', ROOM);
    memset(outcome.word, '.', ROOM);
    memset(outcome.nodes, '.', sizeof outcome.nodes);
    asked = 0;
    refused = number;
    if (call == READ || call == READ_WITHIN) {
        outcome.read = call == READ
                           ? timefd_read(sample->kind, text, len, outcome.nodes, ROOM, outcome.buffer, ROOM)
                           : timefd_read_within(sample->kind, LIMIT, text, len, outcome.nodes, ROOM, outcome.buffer, ROOM);
        refused = 0;
        if (!outcome.read.written) {
            /* Parts may stand in the buffers. */
            memset(outcome.buffer, '.', ROOM);
            memset(outcome.nodes, '.', sizeof outcome.nodes);
        }
        return outcome;
    }
    if (call == FORMAT) {
        outcome.format = timefd_format(sample->kind, text, len, &MOMENT, outcome.buffer, ROOM);
        refused = 0;
        return outcome;
    }
    if (call == READ_DATE) {
        outcome.date = timefd_read_date(sample->kind, text, len, (const uint8_t *)DATE, strlen(DATE));
        refused = 0;
        return outcome;
    }
    if (call == DIAGNOSE) {
        outcome.diagnosis = timefd_diagnose(sample->kind, text, len, outcome.buffer, ROOM, outcome.word, ROOM);
        refused = 0;
        return outcome;
    }
    outcome.answer = answer_of(sample->kind, text, len, outcome.buffer);
    refused = 0;
    return outcome;
}

static bool is_same_answer(const timefd_answer *a, const timefd_answer *b) {
    return a->status == b->status && a->value == b->value && a->sentence_len == b->sentence_len && a->written == b->written;
}

static bool is_same_fault(const timefd_fault *a, const timefd_fault *b) {
    return a->code == b->code && a->out_of_memory == b->out_of_memory && a->start == b->start && a->end == b->end &&
           a->nearest_len == b->nearest_len && a->nearest_written == b->nearest_written;
}

static bool is_same_moment(const timefd_moment *a, const timefd_moment *b) {
    return a->known == b->known && a->year == b->year && a->nanosecond == b->nanosecond &&
           a->offset_seconds == b->offset_seconds && a->month == b->month && a->day == b->day && a->hour == b->hour &&
           a->minute == b->minute && a->second == b->second;
}

static bool is_same_date(const timefd_date_answer *a, const timefd_date_answer *b) {
    return a->status == b->status && a->reason == b->reason && a->component == b->component && a->part == b->part &&
           a->value == b->value && is_same_moment(&a->moment, &b->moment);
}

static bool is_same(const struct outcome *a, const struct outcome *b) {
    return is_same_answer(&a->answer, &b->answer) && is_same_answer(&a->diagnosis.answer, &b->diagnosis.answer) &&
           is_same_fault(&a->diagnosis.fault, &b->diagnosis.fault) && is_same_date(&a->date, &b->date) &&
           memcmp(a->word, b->word, ROOM) == 0 && a->read.status == b->read.status && a->read.value == b->read.value && a->read.nodes == b->read.nodes &&
           a->read.literals == b->read.literals && a->read.written == b->read.written && a->read.bytes == b->read.bytes &&
           a->format.status == b->format.status && a->format.reason == b->format.reason &&
           a->format.component == b->format.component && a->format.value == b->format.value &&
           a->format.written == b->format.written && memcmp(a->buffer, b->buffer, ROOM) == 0 &&
           memcmp(a->nodes, b->nodes, sizeof a->nodes) == 0;
}

/* What a call answers whose memory ran out. */
static struct outcome out_of_memory(enum call call) {
    struct outcome out;
    memset(&out, 0, sizeof out);
    memset(out.buffer, '.', ROOM);
    memset(out.word, '.', ROOM);
    memset(out.nodes, '.', sizeof out.nodes);
    if (call == DIAGNOSE) {
        out.diagnosis.answer.status = TIMEFD_NO_MEMORY;
    } else if (call == READ || call == READ_WITHIN) {
        out.read.status = TIMEFD_NO_MEMORY;
    } else if (call == FORMAT) {
        out.format.status = TIMEFD_NO_MEMORY;
    } else if (call == READ_DATE) {
        out.date.status = TIMEFD_NO_MEMORY;
    } else {
        out.answer.status = TIMEFD_NO_MEMORY;
    }
    return out;
}

/* Whether a refused text takes no memory for its fault and its sentence: none but room for nodes in version 3, and for the
   items of a text of version 2 or of strftime that is converted. */
static bool takes_little(const struct sample *sample) {
    struct outcome ample = outcome_of(CHECK_OR_CONVERT, sample, 0);
    bool is_refused = ample.answer.status == TIMEFD_REFUSED;
    bool has_room = sample->kind == TIMEFD_VERSION_3 || sample->kind == MODERN || sample->kind == NORMAL || sample->kind == OF_STRFTIME;
    return !is_refused || asked <= (has_room ? 1 : 0);
}

/* If there was no memory for the nearest word of a fault, everything else is reported as always. */
static void take_word(struct outcome *ample, const struct outcome *one) {
    if (one->diagnosis.fault.out_of_memory) {
        ample->diagnosis.fault.out_of_memory = true;
        ample->diagnosis.fault.nearest_len = 0;
        ample->diagnosis.fault.nearest_written = 0;
        memset(ample->word, '.', ROOM);
    }
}

/* Whether each outcome is the ample one, or, where the text is not refused, that memory ran out and nothing else; and how
   many were refused. */
static bool holds(enum call call, const struct sample *sample, size_t *count) {
    struct outcome ample = outcome_of(call, sample, 0);
    struct outcome out = out_of_memory(call);
    uint32_t status = call == READ || call == READ_WITHIN ? ample.read.status
                      : call == FORMAT                    ? ample.format.status
                      : call == READ_DATE                 ? ample.date.status
                      : call == DIAGNOSE                  ? ample.diagnosis.answer.status
                                                          : ample.answer.status;
    bool may_run_out = status != TIMEFD_REFUSED;
    if (is_same(&ample, &out) || held != 0) {
        return false;
    }
    for (size_t number = 1;; number++) {
        struct outcome one = outcome_of(call, sample, number);
        bool none_refused = asked < number;
        struct outcome next = outcome_of(call, sample, 0);
        struct outcome wanted = ample;
        take_word(&wanted, &one);
        bool fits = is_same(&one, &wanted) || (may_run_out && !none_refused && is_same(&one, &out));
        if (!fits || (none_refused && one.diagnosis.fault.out_of_memory) || !is_same(&next, &ample) || held != 0) {
            return false;
        }
        if (none_refused) {
            return true;
        }
        ++*count;
    }
}

/* Nodes write what their text writes, the same is answered, and no memory is asked for. */
static bool writes_alike(const struct sample *sample) {
    struct outcome read = outcome_of(READ, sample, 0);
    struct outcome by_text = outcome_of(FORMAT, sample, 0);
    struct outcome by_nodes = outcome_of(FORMAT, sample, 0);
    if (!read.read.written) {
        return read.read.status != TIMEFD_ACCEPTED;
    }
    memset(by_nodes.buffer, '.', ROOM);
    asked = 0;
    by_nodes.format = timefd_format_nodes(read.nodes, read.read.nodes, read.buffer, read.read.literals, &MOMENT,
                                          by_nodes.buffer, ROOM);
    return asked == 0 && is_same(&by_nodes, &by_text);
}

/* Nodes read what their text reads, or say that memory ran out where an allocation is refused; and all is freed. */
static bool reads_alike(const struct sample *sample, size_t *count) {
    struct outcome read = outcome_of(READ, sample, 0);
    if (!read.read.written) {
        return read.read.status != TIMEFD_ACCEPTED;
    }
    timefd_date_answer by_text = outcome_of(READ_DATE, sample, 0).date;
    for (size_t number = 0;; number++) {
        asked = 0;
        refused = number;
        timefd_date_answer date = timefd_read_nodes(read.nodes, read.read.nodes, read.buffer, read.read.literals,
                                                    (const uint8_t *)DATE, strlen(DATE));
        bool was_refused = number != 0 && asked >= number;
        refused = 0;
        bool ran_out = was_refused && date.status == TIMEFD_NO_MEMORY;
        if (held != 0 || !(ran_out || is_same_date(&date, &by_text))) {
            return false;
        }
        if (number != 0 && !was_refused) {
            return true;
        }
        ++*count;
    }
}

/* Formats of other languages: some are accepted, and of others a part is refused, after one that takes memory or at once. */
static const struct foreign {
    uint32_t dialect;
    const char *format;
} FORMATS[] = {
    {TIMEFD_PYTHON, ""},
    {TIMEFD_PYTHON, "%Y-%m-%dT%H:%M:%S.%f%z"},
    {TIMEFD_PYTHON, "%d.%m.%Y %Z"},
    {TIMEFD_PYTHON, "%Z"},
    {TIMEFD_JAVA, "EEEE, d. MMMM uuuu 'um' HH:mm"},
    {TIMEFD_JAVA, "dd 'open"},
    {TIMEFD_GO, "Monday, 2 January 2006"},
    {TIMEFD_MOMENT, "dddd [at] HH:mm"},
};

static timefd_convert_answer convert_refusing(const struct foreign *given, uint8_t *buffer, size_t number) {
    memset(buffer, '.', ROOM);
    asked = 0;
    refused = number;
    timefd_convert_answer answer =
        timefd_convert_format(given->dialect, (const uint8_t *)given->format, strlen(given->format), buffer, ROOM);
    refused = 0;
    return answer;
}

static bool is_same_conversion(const timefd_convert_answer *a, const timefd_convert_answer *b) {
    return a->status == b->status && a->reason == b->reason && a->value == b->value && a->written == b->written &&
           a->first_year == b->first_year && a->whole_minutes == b->whole_minutes;
}

/* A format is converted as with ample memory, or memory ran out where an allocation is refused, and the buffer is kept; all is freed. */
static bool converts_alike(const struct foreign *given, size_t *count) {
    static const timefd_convert_answer OUT = {.status = TIMEFD_NO_MEMORY};
    uint8_t wanted[ROOM], buffer[ROOM], blank[ROOM];
    memset(blank, '.', ROOM);
    timefd_convert_answer ample = convert_refusing(given, wanted, 0);
    for (size_t number = 1; held == 0; number++) {
        timefd_convert_answer one = convert_refusing(given, buffer, number);
        bool was_refused = asked >= number;
        const timefd_convert_answer *expected = was_refused ? &OUT : &ample;
        if (!is_same_conversion(&one, expected) || memcmp(buffer, was_refused ? blank : wanted, ROOM) != 0) {
            return false;
        }
        if (!was_refused) {
            return held == 0;
        }
        ++*count;
    }
    return false;
}

/* A literal that ends inside a character is no text, and a date has to be one. */
static bool reads_texts_alone(void) {
    static const timefd_node HALF = {.what = TIMEFD_LITERAL, .count = 1}, WHOLE = {.what = TIMEFD_LITERAL, .count = 2};
    const uint8_t *accent = (const uint8_t *)"\303\251";
    return timefd_read_nodes(&HALF, 1, accent, 2, accent, 2).status == TIMEFD_NOT_UTF8 &&
           timefd_read_nodes(&WHOLE, 1, accent, 2, accent, 1).status == TIMEFD_DATE_NOT_UTF8 &&
           timefd_read_nodes(&WHOLE, 1, accent, 2, accent, 2).status == TIMEFD_ACCEPTED &&
           timefd_read_nodes(NULL, 0, NULL, 0, NULL, 0).status == TIMEFD_ACCEPTED;
}

/* A date of short numbers and literals takes no memory. */
static bool reads_short_numbers_at_once(void) {
    static const char TEXT[] = "[day] of [month]/[year]", OF_NODES[] = "23 of 11/2026";
    timefd_node nodes[8];
    uint8_t literals[8] = {0};
    memset(nodes, 0, sizeof nodes);
    timefd_read_answer read = timefd_read(TIMEFD_VERSION_3, (const uint8_t *)TEXT, strlen(TEXT), nodes, 8, literals, 8);
    asked = 0;
    timefd_date_answer date =
        timefd_read_nodes(nodes, read.nodes, literals, read.literals, (const uint8_t *)OF_NODES, strlen(OF_NODES));
    return read.written && asked == 0 && date.status == TIMEFD_ACCEPTED && date.moment.known == TIMEFD_HAS_DATE &&
           date.moment.year == 2026 && date.moment.month == 11 && date.moment.day == 23;
}

/* Texts of strftime, with each composite letter and none. */
static const char *const COMPOSED[] = {"", "%c", "%D%F", "at %r, %R or %T%z", "%x %X", "%Y-%m-%d", "100%% %n%c%t%D", "%c %Q"};

/* Whether the list that a composite node points at is what timefd_read writes in front of its own node. */
static bool is_same_composite(const timefd_node *one, const timefd_node *whole, const timefd_node *lists, const uint8_t *texts,
                              const uint8_t *literals) {
    if (whole->what != TIMEFD_COMPOUND || whole->count != one->count || whole->bytes != one->bytes) {
        return false;
    }
    for (size_t i = 0; i < one->count; i++) {
        timefd_node member = lists[one->start + i];
        timefd_node wanted = *(whole - one->count + i);
        if (member.what == TIMEFD_LITERAL &&
            memcmp(texts + member.start, literals + wanted.start, wanted.count) != 0) {
            return false;
        }
        member.start = wanted.start;
        if (memcmp(&member, &wanted, sizeof member) != 0) {
            return false;
        }
    }
    return true;
}

/* Whether a text read with one node for a composite letter is what it is read with their members, with no memory. */
static bool composes(const char *text) {
    timefd_node lists[TIMEFD_COMPOSITE_NODES], nodes[ROOM], all[ROOM];
    uint8_t texts[TIMEFD_COMPOSITE_LITERALS], bytes[ROOM], all_bytes[ROOM];
    memset(lists, '.', sizeof lists);
    memset(nodes, '.', sizeof nodes);
    memset(all, '.', sizeof all);
    memset(texts, '.', sizeof texts);
    memset(bytes, '.', sizeof bytes);
    memset(all_bytes, '.', sizeof all_bytes);
    asked = 0;
    timefd_read_answer listed =
        timefd_read(TIMEFD_STRFTIME, (const uint8_t *)TIMEFD_COMPOSITES, strlen(TIMEFD_COMPOSITES), lists,
                    TIMEFD_COMPOSITE_NODES, texts, TIMEFD_COMPOSITE_LITERALS);
    timefd_read_answer one = timefd_read_composites((const uint8_t *)text, strlen(text), nodes, ROOM, bytes, ROOM);
    timefd_read_answer whole =
        timefd_read(TIMEFD_STRFTIME, (const uint8_t *)text, strlen(text), all, ROOM, all_bytes, ROOM);
    if (asked != 0 || !listed.written || listed.nodes != TIMEFD_COMPOSITE_NODES || listed.literals != TIMEFD_COMPOSITE_LITERALS ||
        one.status != whole.status || one.value != whole.value || one.bytes != whole.bytes || one.written != whole.written) {
        return false;
    }
    size_t at = 0;
    for (size_t i = 0; i < one.nodes; i++, at++) {
        timefd_node node = nodes[i];
        if (node.what == TIMEFD_COMPOSITE) {
            at += node.count;
            if (!is_same_composite(&node, &all[at], lists, texts, all_bytes)) {
                return false;
            }
        } else if (node.what == TIMEFD_LITERAL) {
            if (node.count != all[at].count || memcmp(bytes + node.start, all_bytes + all[at].start, node.count) != 0) {
                return false;
            }
        } else if (node.component != all[at].component || node.start != i) {
            return false;
        }
    }
    return one.nodes == (one.status == TIMEFD_ACCEPTED ? one.value : 0) && at == whole.nodes;
}

/* Nodes that are no description, and the index of the one that is none. Each takes what it has no room for, or has a number that
   means nothing. */
struct wrong {
    timefd_node nodes[3];
    size_t count;
    size_t index;
};

#define DAY {.what = TIMEFD_COMPONENT, .component = TIMEFD_DAY, .padding = TIMEFD_PADDING_ZERO}

static const struct wrong WRONGS[] = {
    {{{.what = 0}}, 1, 0},
    {{{.what = 6}}, 1, 0},
    {{DAY, {.what = TIMEFD_COMPONENT, .component = TIMEFD_END + 1}}, 2, 1},
    {{DAY, {.what = TIMEFD_COMPONENT, .component = TIMEFD_DAY, .padding = 4}}, 2, 1},
    {{{.what = TIMEFD_COMPONENT, .component = TIMEFD_IGNORE, .ignored = 0}}, 1, 0},
    {{DAY, DAY, {.what = TIMEFD_COMPOUND, .count = 3}}, 3, 2},
    {{DAY, {.what = TIMEFD_FIRST, .count = 2}}, 2, 1},
    {{{.what = TIMEFD_OPTIONAL, .format = TIMEFD_TRUE}}, 1, 0},
    {{DAY, {.what = TIMEFD_OPTIONAL}}, 2, 1},
    {{DAY, {.what = TIMEFD_OPTIONAL, .format = TIMEFD_TRUE, .count = SIZE_MAX}}, 2, 1},
    {{DAY, {.what = TIMEFD_OPTIONAL, .format = TIMEFD_TRUE, .count = 0}}, 2, 1},
    {{DAY, DAY, {.what = TIMEFD_OPTIONAL, .format = TIMEFD_FALSE, .count = 2}}, 3, 2},
    {{{.what = TIMEFD_LITERAL, .count = 1}, {.what = TIMEFD_OPTIONAL, .format = TIMEFD_TRUE, .count = SIZE_MAX}}, 2, 1},
    {{{.what = TIMEFD_LITERAL, .start = 1, .count = 3}}, 1, 0},
    {{{.what = TIMEFD_LITERAL, .start = SIZE_MAX, .count = 3}}, 1, 0},
};

static bool is_no_description(const struct wrong *wrong) {
    uint8_t buffer[ROOM] = {'.'};
    timefd_format_answer answer =
        timefd_format_nodes(wrong->nodes, wrong->count, (const uint8_t *)"abc", 3, &MOMENT, buffer, ROOM);
    timefd_date_answer date = timefd_read_nodes(wrong->nodes, wrong->count, (const uint8_t *)"abc", 3, (const uint8_t *)"1", 1);
    return answer.status == TIMEFD_NO_DESCRIPTION && answer.value == wrong->index && answer.written == 0 && buffer[0] == '.' &&
           date.status == TIMEFD_NO_DESCRIPTION && date.value == wrong->index && date.moment.known == 0;
}

/* One node of a text, as its bytes: those of each field in turn, the lowest first. */
struct layout {
    uint32_t kind;
    const char *text;
    size_t index;
    const char *bytes;
};

#define ONE(a) a "\0\0\0\0\0\0\0"
#define FOUR(a) a "\0\0\0"
#define NO_MODIFIER "\0\0\0\0\0\0\0\0"
#define NONE "\0\0"

/* Each field has a value in one of them that none beside it has. */
static const struct layout LAYOUTS[] = {
    {TIMEFD_VERSION_2, "ab[day]cde", 2, "\1\0" NO_MODIFIER NONE FOUR("\3") ONE("\2") ONE("\3")},
    {TIMEFD_VERSION_3, "ab[day]cde", 3, "\3\0" NO_MODIFIER NONE FOUR("\7") ONE("\0") ONE("\3")},
    {TIMEFD_VERSION_3, "x[optional [ab]]", 2, "\4\0" "\0\0\0\0\0\0\0\2" NONE FOUR("\2") ONE("\1") ONE("\1")},
    {TIMEFD_VERSION_2, "x[day padding:none]", 1, "\2\1" "\3\0\0\0\0\0\0\0" NONE FOUR("\2") ONE("\1") ONE("\0")},
    {TIMEFD_VERSION_2, "[unix_timestamp sign:mandatory]", 0,
     "\2\41" "\0\2\0\0\0\0\0\0" NONE FOUR("\17") ONE("\0") ONE("\0")},
    {TIMEFD_VERSION_2, "[month repr:short case_sensitive:false]", 0,
     "\2\2" "\0\0\1\0\0\0\0\0" NONE FOUR("\3") ONE("\0") ONE("\0")},
    {TIMEFD_VERSION_2, "[weekday repr:sunday one_indexed:false]", 0,
     "\2\10" "\0\0\0\1\0\0\0\0" NONE FOUR("\1") ONE("\0") ONE("\0")},
    {TIMEFD_VERSION_2, "[period case:lower]", 0, "\2\32" "\0\0\2\0\1\0\0\0" NONE FOUR("\2") ONE("\0") ONE("\0")},
    {TIMEFD_VERSION_2, "[subsecond digits:7]", 0, "\2\34" "\0\0\0\0\0\7\0\0" NONE FOUR("\7") ONE("\0") ONE("\0")},
    {TIMEFD_VERSION_2, "[end trailing_input:discard]", 0,
     "\2\45" "\0\0\0\0\0\0\2\0" NONE FOUR("\0") ONE("\0") ONE("\0")},
    {TIMEFD_VERSION_2, "[ignore count:772]", 0, "\2\40" NO_MODIFIER "\4\3" FOUR("\0") ONE("\0") ONE("\0")},
};

/* Whether the node has these bytes: there are none between its fields. */
static bool is_laid_out(const struct layout *layout) {
    struct sample sample = {layout->kind, layout->text};
    struct outcome outcome = outcome_of(READ, &sample, 0);
    const uint8_t *node = (const uint8_t *)&outcome.nodes[layout->index];
    return outcome.read.written && outcome.read.nodes > layout->index &&
           memcmp(node, layout->bytes, sizeof(timefd_node)) == 0;
}

/* Faults, the bytes that are at fault, and the nearest word. */
struct expected {
    uint32_t kind;
    const char *text;
    uint32_t code;
    size_t start;
    size_t end;
    const char *nearest;
};

static const struct expected EXPECTED[] = {
    {TIMEFD_VERSION_3, "[year]-[mnth]", TIMEFD_FAULT_UNKNOWN_NAME, 8, 12, "month"},
    {TIMEFD_VERSION_2, "[hour padding:zreo]", TIMEFD_FAULT_INVALID_MODIFIER, 14, 18, "zero"},
    {TIMEFD_VERSION_2, "[hour PADING:zero]", TIMEFD_FAULT_INVALID_MODIFIER, 6, 12, "padding"},
    {TIMEFD_VERSION_3, "[foo]", TIMEFD_FAULT_UNKNOWN_NAME, 1, 4, ""},
    {TIMEFD_VERSION_3, "due [day", TIMEFD_FAULT_UNCLOSED_BRACKET, 4, 5, ""},
    {TIMEFD_VERSION_1, "[ignore]", TIMEFD_FAULT_MISSING_MODIFIER, 1, 7, ""},
    {TIMEFD_VERSION_3, "[hour repr:12 repr:24]", TIMEFD_FAULT_DUPLICATE_MODIFIER, 14, 18, ""},
    {TIMEFD_STRFTIME, "%Y %Q", TIMEFD_FAULT_UNKNOWN_NAME, 4, 5, ""},
    {TIMEFD_VERSION_3, "[day]", 0, 0, 0, ""},
};

/* Whether a diagnosis is so, with room for the word and with none. */
static bool is_as_expected(const struct expected *expected) {
    struct sample sample = {expected->kind, expected->text};
    struct outcome outcome = outcome_of(DIAGNOSE, &sample, 0);
    const timefd_fault *found = &outcome.diagnosis.fault;
    size_t len = strlen(expected->nearest);
    timefd_fault short_of_room =
        timefd_diagnose(expected->kind, (const uint8_t *)expected->text, strlen(expected->text), NULL, 0, NULL, 0).fault;
    return found->code == expected->code && found->start == expected->start && found->end == expected->end &&
           found->nearest_len == len && found->nearest_written == len && memcmp(outcome.word, expected->nearest, len) == 0 &&
           outcome.word[len] == '.' && short_of_room.nearest_len == len && short_of_room.nearest_written == 0;
}

/* Whether a text of each length has a byte seen that is no UTF-8, wherever it stands, and a letter of two bytes taken. */
static bool sees_each_byte(void) {
    enum { LONGEST = 200 };
    uint8_t text[LONGEST];
    for (size_t len = 1; len <= LONGEST; len++) {
        for (size_t at = 0; at < len; at++) {
            memset(text, 'a', len);
            text[at] = 0x80;
            bool is_seen = timefd_judge(TIMEFD_VERSION_1, text, len).status == TIMEFD_NOT_UTF8;
            if (at > 0) {
                text[at - 1] = 0xc3;
            }
            bool is_text = timefd_judge(TIMEFD_VERSION_1, text, len).status == TIMEFD_ACCEPTED;
            if (!is_seen || is_text != (at > 0)) {
                return false;
            }
        }
    }
    return true;
}

int main(void) {
    size_t failed = 0;
    size_t count = 0;
    if (!sees_each_byte()) {
        failed++;
        fprintf(stderr, "gate/library: a byte that is no UTF-8\n");
    }
    for (size_t i = 0; i < sizeof EXPECTED / sizeof EXPECTED[0]; i++) {
        if (!is_as_expected(&EXPECTED[i])) {
            failed++;
            fprintf(stderr, "gate/library: the fault of %s\n", EXPECTED[i].text);
        }
    }
    for (size_t i = 0; i < sizeof SAMPLES / sizeof SAMPLES[0]; i++) {
        bool is_read = SAMPLES[i].kind >= LIFT ||
                       (holds(READ, &SAMPLES[i], &count) && holds(READ_WITHIN, &SAMPLES[i], &count) &&
                        holds(FORMAT, &SAMPLES[i], &count) &&
                        holds(DIAGNOSE, &SAMPLES[i], &count) && holds(READ_DATE, &SAMPLES[i], &count) && writes_alike(&SAMPLES[i]) &&
                        reads_alike(&SAMPLES[i], &count));
        if (!holds(CHECK_OR_CONVERT, &SAMPLES[i], &count) || !is_read || !takes_little(&SAMPLES[i])) {
            failed++;
            fprintf(stderr, "gate/library: %" PRIu32 ": %s\n", SAMPLES[i].kind, SAMPLES[i].text);
        }
    }
    for (size_t i = 0; i < sizeof FORMATS / sizeof FORMATS[0]; i++) {
        if (!converts_alike(&FORMATS[i], &count)) {
            failed++;
            fprintf(stderr, "gate/library: %" PRIu32 ": %s\n", FORMATS[i].dialect, FORMATS[i].format);
        }
    }
    for (size_t i = 0; i < sizeof COMPOSED / sizeof COMPOSED[0]; i++) {
        if (!composes(COMPOSED[i])) {
            failed++;
            fprintf(stderr, "gate/library: the composite letters of %s\n", COMPOSED[i]);
        }
    }
    for (size_t i = 0; i < sizeof WRONGS / sizeof WRONGS[0]; i++) {
        if (!is_no_description(&WRONGS[i])) {
            failed++;
            fprintf(stderr, "gate/library: nodes %zu that are no description\n", i);
        }
    }
    if (!reads_texts_alone()) {
        failed++;
        fprintf(stderr, "gate/library: nodes whose literals are no texts\n");
    }
    if (!reads_short_numbers_at_once()) {
        failed++;
        fprintf(stderr, "gate/library: a date of short numbers\n");
    }
    for (size_t i = 0; i < sizeof LAYOUTS / sizeof LAYOUTS[0]; i++) {
        if (!is_laid_out(&LAYOUTS[i])) {
            failed++;
            fprintf(stderr, "gate/library: node %zu of %s\n", LAYOUTS[i].index, LAYOUTS[i].text);
        }
    }
    printf("gate/library: %zu refused allocations, %zu texts failed\n", count, failed);
    return failed != 0;
}

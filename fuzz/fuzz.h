/* What the parts of the fuzzer share. */

#ifndef FUZZ_H
#define FUZZ_H

#include "../examples/timefd.h"

#include <stdbool.h>

enum {
    LANGUAGES = 4,       /* their numbers are 1 to 4 */
    LONGEST = 4096,      /* no text that is tried is longer, in bytes */
    ROOM = 2 * LONGEST,  /* enough for each text of version 2, and for each sentence */
    GUARD = 16,          /* how many bytes there are before and after a buffer */
    SENTENCE = 256,      /* no sentence has so many bytes more than its text */
    NESTING_LIMIT = 127, /* how many nested descriptions may stand around one another */
    NODES_A_BYTE = 8,    /* no text has so many nodes for each byte, and so many more, */
    LITERALS_A_BYTE = 4, /* and no text so many bytes of literals */
    NODE_ROOM = NODES_A_BYTE * (ROOM + 1),
    LITERAL_ROOM = LITERALS_A_BYTE * (ROOM + 1),
};

struct text {
    size_t len;
    uint8_t bytes[ROOM];
};

/* A buffer that a call writes to, which begins after the first GUARD bytes. */
struct buffer {
    uint8_t guarded[GUARD + ROOM + GUARD];
};

/* The buffers of a call that writes nodes, each after a first node or the first GUARD bytes. */
struct node_buffers {
    timefd_node nodes[1 + NODE_ROOM + 1];
    uint8_t literals[GUARD + LITERAL_ROOM + GUARD];
};

/* The sentence of a fault: what comes before its index, and what comes after it. */
struct sentence {
    const uint8_t *front;
    size_t front_len;
    const uint8_t *rest;
    size_t rest_len;
};

/* random.c: numbers that the seed decides. */
void seed_random(uint64_t seed);
size_t random_below(size_t end);
bool one_in(size_t chances);

/* text.c: what is appended beyond LONGEST is dropped. */
void append(struct text *text, const uint8_t *bytes, size_t len);
void append_word(struct text *text, const char *word);
bool has_word(const struct text *text, const char *word);
void print_escaped(const struct text *text);

/* utf8.c */
bool is_utf8(const struct text *text);
bool is_boundary(const uint8_t *bytes, size_t len, size_t index);

/* short.c and grammar.c: texts to try. The first two give the text with this number among all that
   the symbols of a table make. */
void make_short(uint32_t kind, size_t number, struct text *text);
void make_of_tokens(uint32_t kind, size_t number, struct text *text);
void make_random(uint32_t kind, struct text *text);
void mutate(struct text *text);

/* sentence.c: false where the bytes are no sentence with this index. */
bool cut_sentence(const uint8_t *bytes, size_t len, size_t index, struct sentence *sentence);

/* findings.c: prints a text of which something else was expected, and counts it; and the text that
   the library was asked about last, where a signal ends the run. */
void expect(bool holds, uint32_t kind, const struct text *text, const char *expected);
size_t finding_count(void);
const char *language_name(uint32_t kind);
void remember(uint32_t kind, const struct text *text);
void report_ends(void);

/* calls.c: functions of the library. Each looks for memory that is not freed, for bytes
   that are written where none may be, and for a text that has changed. */
timefd_answer judge(uint32_t kind, const struct text *text);
timefd_answer check(uint32_t kind, const struct text *text, struct buffer *sentence, size_t room);
timefd_diagnosis diagnose(uint32_t kind, const struct text *text, struct buffer *sentence, size_t room,
                          struct buffer *word, size_t word_room);
timefd_answer convert(const struct text *text, struct buffer *buffer, size_t room);
timefd_answer modernize(uint32_t kind, const struct text *text, struct buffer *buffer, size_t room);
timefd_convert_answer convert_format(uint32_t dialect, const struct text *text, struct buffer *buffer, size_t room);
timefd_format_answer format(uint32_t kind, const struct text *text, const timefd_moment *moment,
                            struct buffer *buffer, size_t room);
timefd_format_answer format_nodes(uint32_t kind, const struct text *text,
                                  const struct node_buffers *buffers, timefd_read_answer read,
                                  const timefd_moment *moment, struct buffer *buffer, size_t room);
timefd_date_answer read_date(uint32_t kind, const struct text *text, const struct text *date);
timefd_date_answer read_date_by_nodes(uint32_t kind, const struct text *text,
                                      const struct node_buffers *buffers, timefd_read_answer read,
                                      const struct text *date);
timefd_read_answer read_within(uint32_t kind, uint32_t limit, const struct text *text); /* without room */
timefd_read_answer read_nodes(uint32_t kind, const struct text *text, struct node_buffers *buffers,
                              size_t node_room, size_t literal_room);
timefd_read_answer read_composites(const struct text *text, struct node_buffers *buffers, size_t node_room,
                                   size_t literal_room);

/* checks.c, diagnoses.c, nodes.c, formats.c, dates.c, modern.c, pairs.c and versions.c: what holds of one
   text, of its fault, of its nodes, of what it writes, of a date that it reads, of its text of version 3,
   of two texts, and of what becomes of a text that is changed. */
timefd_answer check_text(uint32_t kind, const struct text *text);
void check_diagnosis(uint32_t kind, const struct text *text, timefd_answer answer);
void check_nodes(uint32_t kind, const struct text *text, timefd_answer judged);
void check_format(uint32_t kind, const struct text *text, timefd_answer judged);
void check_date(uint32_t kind, const struct text *text, timefd_answer judged);
timefd_format_answer show(uint32_t kind, const struct text *text, struct buffer *buffer);
void check_modern(uint32_t kind, const struct text *text, timefd_answer judged);
void check_pair(uint32_t kind, const struct text *first, const struct text *second);
void check_versions(uint32_t kind, const struct text *text);

/* dialects.c: makes a format of another language, and looks at what becomes of it. */
timefd_convert_answer check_dialect(uint32_t dialect);

#endif

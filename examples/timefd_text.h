/* The calls of timefd.h over texts of `char`, as C and C++ have them:

       char text[32];
       if (timefd_format_text(TIMEFD_VERSION_3, "[day].[month].[year]", &moment, text, sizeof text, NULL)) {
           puts(text);
       }

   Each call has two functions. One that ends in `_text` takes texts that end with a 0. One that ends in `_chars` takes a text and its
   length; such a text may hold a 0, or be part of a longer text:

       const char *column = "23/11/2026,home";
       timefd_date_answer answer;
       timefd_read_date_chars(TIMEFD_VERSION_3, "[day]/[month]/[year]", 20, column, 10, &answer);

   Each function returns true if it did all of its work. It sets `answer`, which may be null, to what the call answers: why it didn't,
   how much room it needs, where a fault is. A text may be null only if its length is given as 0.

   A buffer of `room` bytes needs no first value. What is written ends with a 0, which takes room but isn't counted: a text of `value`
   bytes needs value + 1. If there is too little room, or nothing to write, the buffer holds the empty text. It may be null if `room`
   is 0.

   timefd_v1_to_v2 and timefd_v2_to_v3 have no functions here: timefd_convert_text does what they do.

   The functions are compiled into the program that calls them; the library has none of them. */

#ifndef TIMEFD_TEXT_H
#define TIMEFD_TEXT_H

#include "timefd.h"

#include <string.h>

#ifdef __cplusplus
extern "C" {
#endif

/* Clears the buffer, and answers how much room it has before a 0. */
static inline size_t timefd_private_clear(char *buffer, size_t room) {
    if (room == 0) {
        return 0;
    }
    memset(buffer, 0, room);
    return room - 1;
}

/* Whether the text is accepted, as timefd_judge says it.

       timefd_judge_text(TIMEFD_VERSION_3, "[year]-[month]-[day]", &answer)    true; answer.value is 11 */
static inline bool timefd_judge_chars(uint32_t kind, const char *text, size_t len, timefd_answer *answer) {
    const timefd_answer found = timefd_judge(kind, (const uint8_t *)text, len);
    if (answer) {
        *answer = found;
    }
    return found.status == TIMEFD_ACCEPTED;
}

static inline bool timefd_judge_text(uint32_t kind, const char *text, timefd_answer *answer) {
    return timefd_judge_chars(kind, text, strlen(text), answer);
}

/* Whether the text is accepted. If it is refused, `sentence` says what is wrong, as timefd_check writes it: as much of it as there is
   room for, in whole characters.

       char sentence[128];
       if (!timefd_check_text(TIMEFD_VERSION_3, "[mnth]", sentence, sizeof sentence, NULL)) {
           puts(sentence);    invalid component name `mnth` at byte index 1
       } */
static inline bool timefd_check_chars(uint32_t kind, const char *text, size_t len, char *sentence, size_t room,
                                      timefd_answer *answer) {
    const size_t free_room = timefd_private_clear(sentence, room);
    const timefd_answer found = timefd_check(kind, (const uint8_t *)text, len, (uint8_t *)sentence, free_room);
    if (answer) {
        *answer = found;
    }
    return found.status == TIMEFD_ACCEPTED;
}

static inline bool timefd_check_text(uint32_t kind, const char *text, char *sentence, size_t room, timefd_answer *answer) {
    return timefd_check_chars(kind, text, strlen(text), sentence, room, answer);
}

/* Whether the text is accepted, as timefd_check_text says it. For a refused text `word` also holds the nearest word that is allowed,
   or the empty text, and `diagnosis` the whole fault. A room of 17 bytes is enough for every word.

       timefd_diagnosis diagnosis;
       char word[17];
       timefd_diagnose_text(TIMEFD_VERSION_3, "[mnth]", NULL, 0, word, sizeof word, &diagnosis);
       puts(word);    month */
static inline bool timefd_diagnose_chars(uint32_t kind, const char *text, size_t len, char *sentence, size_t room, char *word,
                                         size_t word_room, timefd_diagnosis *diagnosis) {
    const size_t free_room = timefd_private_clear(sentence, room);
    const size_t free_word_room = timefd_private_clear(word, word_room);
    const timefd_diagnosis found = timefd_diagnose(kind, (const uint8_t *)text, len, (uint8_t *)sentence, free_room,
                                                   (uint8_t *)word, free_word_room);
    if (diagnosis) {
        *diagnosis = found;
    }
    return found.answer.status == TIMEFD_ACCEPTED;
}

static inline bool timefd_diagnose_text(uint32_t kind, const char *text, char *sentence, size_t room, char *word, size_t word_room,
                                        timefd_diagnosis *diagnosis) {
    return timefd_diagnose_chars(kind, text, strlen(text), sentence, room, word, word_room, diagnosis);
}

/* Whether `warnings` holds all warnings of an accepted text, as timefd_warnings writes them. answer->count says how many there are.

       timefd_warning warnings[TIMEFD_MOST_WARNINGS] = {{0}};
       timefd_warnings_answer answer;
       timefd_warnings_text(TIMEFD_VERSION_3, "%Y-%m-%d", warnings, TIMEFD_MOST_WARNINGS, &answer)    true; answer.count is 2 */
static inline bool timefd_warnings_chars(uint32_t kind, const char *text, size_t len, timefd_warning *warnings, size_t room,
                                         timefd_warnings_answer *answer) {
    const timefd_warnings_answer found = timefd_warnings(kind, (const uint8_t *)text, len, warnings, room);
    if (answer) {
        *answer = found;
    }
    return found.status == TIMEFD_ACCEPTED && found.written == found.count;
}

static inline bool timefd_warnings_text(uint32_t kind, const char *text, timefd_warning *warnings, size_t room,
                                        timefd_warnings_answer *answer) {
    return timefd_warnings_chars(kind, text, strlen(text), warnings, room, answer);
}

/* Whether `buffer` holds the text in the language `to`, as timefd_convert writes it.

       char buffer[64];
       timefd_convert_text(TIMEFD_STRFTIME, TIMEFD_VERSION_3, "%d.%m.", buffer, sizeof buffer, NULL);
       puts(buffer);    [day].[month]. */
static inline bool timefd_convert_chars(uint32_t from, uint32_t to, const char *text, size_t len, char *buffer, size_t room,
                                        timefd_answer *answer) {
    const size_t free_room = timefd_private_clear(buffer, room);
    const timefd_answer found = timefd_convert(from, to, (const uint8_t *)text, len, (uint8_t *)buffer, free_room);
    if (answer) {
        *answer = found;
    }
    return found.status == TIMEFD_ACCEPTED && found.value < room;
}

static inline bool timefd_convert_text(uint32_t from, uint32_t to, const char *text, char *buffer, size_t room,
                                       timefd_answer *answer) {
    return timefd_convert_chars(from, to, text, strlen(text), buffer, room, answer);
}

/* Whether `buffer` holds the text of version 3 that writes what the dialect writes by the format, as timefd_convert_format writes it.

       char buffer[64];
       timefd_convert_format_text(TIMEFD_JAVA, "dd.MM.", buffer, sizeof buffer, NULL);
       puts(buffer);    [day].[month]. */
static inline bool timefd_convert_format_chars(uint32_t dialect, const char *format, size_t len, char *buffer, size_t room,
                                               timefd_convert_answer *answer) {
    const size_t free_room = timefd_private_clear(buffer, room);
    const timefd_convert_answer found =
        timefd_convert_format(dialect, (const uint8_t *)format, len, (uint8_t *)buffer, free_room);
    if (answer) {
        *answer = found;
    }
    return found.status == TIMEFD_ACCEPTED && found.value < room;
}

static inline bool timefd_convert_format_text(uint32_t dialect, const char *format, char *buffer, size_t room,
                                              timefd_convert_answer *answer) {
    return timefd_convert_format_chars(dialect, format, strlen(format), buffer, room, answer);
}

/* Whether both buffers hold the description, as timefd_read writes its nodes and literals. The buffers have been set to some value
   before, and no 0 follows the literals. */
static inline bool timefd_read_chars(uint32_t kind, const char *text, size_t len, timefd_node *nodes, size_t node_room,
                                     uint8_t *literals, size_t literal_room, timefd_read_answer *answer) {
    const timefd_read_answer found =
        timefd_read(kind, (const uint8_t *)text, len, nodes, node_room, literals, literal_room);
    if (answer) {
        *answer = found;
    }
    return found.status == TIMEFD_ACCEPTED && found.written;
}

static inline bool timefd_read_text(uint32_t kind, const char *text, timefd_node *nodes, size_t node_room, uint8_t *literals,
                                    size_t literal_room, timefd_read_answer *answer) {
    return timefd_read_chars(kind, text, strlen(text), nodes, node_room, literals, literal_room, answer);
}

/* Whether both buffers hold the description, as timefd_read_within writes its nodes and literals: with at most `limit` nested
   descriptions around one another. */
static inline bool timefd_read_within_chars(uint32_t kind, uint32_t limit, const char *text, size_t len, timefd_node *nodes,
                                            size_t node_room, uint8_t *literals, size_t literal_room,
                                            timefd_read_answer *answer) {
    const timefd_read_answer found =
        timefd_read_within(kind, limit, (const uint8_t *)text, len, nodes, node_room, literals, literal_room);
    if (answer) {
        *answer = found;
    }
    return found.status == TIMEFD_ACCEPTED && found.written;
}

static inline bool timefd_read_within_text(uint32_t kind, uint32_t limit, const char *text, timefd_node *nodes, size_t node_room,
                                           uint8_t *literals, size_t literal_room, timefd_read_answer *answer) {
    return timefd_read_within_chars(kind, limit, text, strlen(text), nodes, node_room, literals, literal_room, answer);
}

/* Whether both buffers hold the text of strftime, as timefd_read_composites writes its nodes and literals: one node for each composite
   letter. */
static inline bool timefd_read_composites_chars(const char *text, size_t len, timefd_node *nodes, size_t node_room,
                                                uint8_t *literals, size_t literal_room, timefd_read_answer *answer) {
    const timefd_read_answer found =
        timefd_read_composites((const uint8_t *)text, len, nodes, node_room, literals, literal_room);
    if (answer) {
        *answer = found;
    }
    return found.status == TIMEFD_ACCEPTED && found.written;
}

static inline bool timefd_read_composites_text(const char *text, timefd_node *nodes, size_t node_room, uint8_t *literals,
                                               size_t literal_room, timefd_read_answer *answer) {
    return timefd_read_composites_chars(text, strlen(text), nodes, node_room, literals, literal_room, answer);
}

/* Whether `buffer` holds the moment, written by the description `text` as timefd_format does it. */
static inline bool timefd_format_chars(uint32_t kind, const char *text, size_t len, const timefd_moment *moment, char *buffer,
                                       size_t room, timefd_format_answer *answer) {
    const size_t free_room = timefd_private_clear(buffer, room);
    const timefd_format_answer found =
        timefd_format(kind, (const uint8_t *)text, len, moment, (uint8_t *)buffer, free_room);
    if (answer) {
        *answer = found;
    }
    return found.status == TIMEFD_ACCEPTED && found.value < room;
}

static inline bool timefd_format_text(uint32_t kind, const char *text, const timefd_moment *moment, char *buffer, size_t room,
                                      timefd_format_answer *answer) {
    return timefd_format_chars(kind, text, strlen(text), moment, buffer, room, answer);
}

/* Whether `buffer` holds the moment, written by the description `text` as timefd_format_within does it: with at most `limit` nested
   descriptions around one another. */
static inline bool timefd_format_within_chars(uint32_t kind, uint32_t limit, const char *text, size_t len,
                                              const timefd_moment *moment, char *buffer, size_t room,
                                              timefd_format_answer *answer) {
    const size_t free_room = timefd_private_clear(buffer, room);
    const timefd_format_answer found =
        timefd_format_within(kind, limit, (const uint8_t *)text, len, moment, (uint8_t *)buffer, free_room);
    if (answer) {
        *answer = found;
    }
    return found.status == TIMEFD_ACCEPTED && found.value < room;
}

static inline bool timefd_format_within_text(uint32_t kind, uint32_t limit, const char *text, const timefd_moment *moment,
                                             char *buffer, size_t room, timefd_format_answer *answer) {
    return timefd_format_within_chars(kind, limit, text, strlen(text), moment, buffer, room, answer);
}

/* Whether `buffer` holds the moment, written by nodes and their literals as timefd_format_nodes does it: the description isn't parsed
   again. It takes no text, so there is one such function. */
static inline bool timefd_format_nodes_text(const timefd_node *nodes, size_t node_count, const uint8_t *literals,
                                            size_t literal_count, const timefd_moment *moment, char *buffer, size_t room,
                                            timefd_format_answer *answer) {
    const size_t free_room = timefd_private_clear(buffer, room);
    const timefd_format_answer found =
        timefd_format_nodes(nodes, node_count, literals, literal_count, moment, (uint8_t *)buffer, free_room);
    if (answer) {
        *answer = found;
    }
    return found.status == TIMEFD_ACCEPTED && found.value < room;
}

/* Whether the date matches the description `text`, as timefd_read_date says it. Then answer->moment is what was read.

       timefd_date_answer answer;
       if (timefd_read_date_text(TIMEFD_VERSION_3, "[day]/[month]/[year]", "23/11/2026", &answer)) {
           printf("%d\n", (int)answer.moment.year);    2026
       } */
static inline bool timefd_read_date_chars(uint32_t kind, const char *text, size_t len, const char *date, size_t date_len,
                                          timefd_date_answer *answer) {
    const timefd_date_answer found =
        timefd_read_date(kind, (const uint8_t *)text, len, (const uint8_t *)date, date_len);
    if (answer) {
        *answer = found;
    }
    return found.status == TIMEFD_ACCEPTED;
}

static inline bool timefd_read_date_text(uint32_t kind, const char *text, const char *date, timefd_date_answer *answer) {
    return timefd_read_date_chars(kind, text, strlen(text), date, strlen(date), answer);
}

/* Whether the date matches the description `text`, as timefd_read_date_within says it: with at most `limit` nested descriptions around
   one another. Then answer->moment is what was read. */
static inline bool timefd_read_date_within_chars(uint32_t kind, uint32_t limit, const char *text, size_t len, const char *date,
                                                 size_t date_len, timefd_date_answer *answer) {
    const timefd_date_answer found =
        timefd_read_date_within(kind, limit, (const uint8_t *)text, len, (const uint8_t *)date, date_len);
    if (answer) {
        *answer = found;
    }
    return found.status == TIMEFD_ACCEPTED;
}

static inline bool timefd_read_date_within_text(uint32_t kind, uint32_t limit, const char *text, const char *date,
                                                timefd_date_answer *answer) {
    return timefd_read_date_within_chars(kind, limit, text, strlen(text), date, strlen(date), answer);
}

/* Whether the date matches nodes and their literals, as timefd_read_nodes says it: the description isn't parsed again. Then
   answer->moment is what was read. */
static inline bool timefd_read_nodes_chars(const timefd_node *nodes, size_t node_count, const uint8_t *literals,
                                           size_t literal_count, const char *date, size_t date_len, timefd_date_answer *answer) {
    const timefd_date_answer found =
        timefd_read_nodes(nodes, node_count, literals, literal_count, (const uint8_t *)date, date_len);
    if (answer) {
        *answer = found;
    }
    return found.status == TIMEFD_ACCEPTED;
}

static inline bool timefd_read_nodes_text(const timefd_node *nodes, size_t node_count, const uint8_t *literals,
                                          size_t literal_count, const char *date, timefd_date_answer *answer) {
    return timefd_read_nodes_chars(nodes, node_count, literals, literal_count, date, strlen(date), answer);
}

#ifdef __cplusplus
}
#endif

#endif

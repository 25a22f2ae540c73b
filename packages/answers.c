/* Answers by pointer: each call passes on what the call without `_into` answers, as much of it as the program's header knows. */

#include <string.h>

#include "timefd.h"

static void pass_on(void *to, size_t size, const void *answer, size_t known)
{
    size_t front = size < known ? size : known;
    memcpy(to, answer, front);
    memset((char *)to + front, 0, size - front);
}

void timefd_judge_into(uint32_t kind, const uint8_t *text, size_t len, timefd_answer *answer, size_t size)
{
    timefd_answer whole = timefd_judge(kind, text, len);
    pass_on(answer, size, &whole, sizeof whole);
}

void timefd_check_into(uint32_t kind, const uint8_t *text, size_t len, uint8_t *sentence, size_t room, timefd_answer *answer,
                       size_t size)
{
    timefd_answer whole = timefd_check(kind, text, len, sentence, room);
    pass_on(answer, size, &whole, sizeof whole);
}

void timefd_diagnose_into(uint32_t kind, const uint8_t *text, size_t len, uint8_t *sentence, size_t room, uint8_t *word,
                          size_t word_room, timefd_answer *answer, size_t size, timefd_fault *fault, size_t fault_size)
{
    timefd_diagnosis whole = timefd_diagnose(kind, text, len, sentence, room, word, word_room);
    pass_on(answer, size, &whole.answer, sizeof whole.answer);
    pass_on(fault, fault_size, &whole.fault, sizeof whole.fault);
}

void timefd_warnings_into(uint32_t kind, const uint8_t *text, size_t len, timefd_warning *warnings, size_t room,
                          timefd_warnings_answer *answer, size_t size)
{
    timefd_warnings_answer whole = timefd_warnings(kind, text, len, warnings, room);
    pass_on(answer, size, &whole, sizeof whole);
}

void timefd_v1_to_v2_into(const uint8_t *text, size_t len, uint8_t *buffer, size_t room, timefd_answer *answer, size_t size)
{
    timefd_answer whole = timefd_v1_to_v2(text, len, buffer, room);
    pass_on(answer, size, &whole, sizeof whole);
}

void timefd_v2_to_v3_into(const uint8_t *text, size_t len, uint8_t *buffer, size_t room, timefd_answer *answer, size_t size)
{
    timefd_answer whole = timefd_v2_to_v3(text, len, buffer, room);
    pass_on(answer, size, &whole, sizeof whole);
}

void timefd_convert_into(uint32_t from, uint32_t to, const uint8_t *text, size_t len, uint8_t *buffer, size_t room,
                         timefd_answer *answer, size_t size)
{
    timefd_answer whole = timefd_convert(from, to, text, len, buffer, room);
    pass_on(answer, size, &whole, sizeof whole);
}

void timefd_convert_format_into(uint32_t dialect, const uint8_t *format, size_t len, uint8_t *buffer, size_t room,
                                timefd_convert_answer *answer, size_t size)
{
    timefd_convert_answer whole = timefd_convert_format(dialect, format, len, buffer, room);
    pass_on(answer, size, &whole, sizeof whole);
}

void timefd_read_into(uint32_t kind, const uint8_t *text, size_t len, timefd_node *nodes, size_t node_room, uint8_t *literals,
                      size_t literal_room, timefd_read_answer *answer, size_t size)
{
    timefd_read_answer whole = timefd_read(kind, text, len, nodes, node_room, literals, literal_room);
    pass_on(answer, size, &whole, sizeof whole);
}

void timefd_read_within_into(uint32_t kind, uint32_t limit, const uint8_t *text, size_t len, timefd_node *nodes, size_t node_room,
                             uint8_t *literals, size_t literal_room, timefd_read_answer *answer, size_t size)
{
    timefd_read_answer whole = timefd_read_within(kind, limit, text, len, nodes, node_room, literals, literal_room);
    pass_on(answer, size, &whole, sizeof whole);
}

void timefd_read_composites_into(const uint8_t *text, size_t len, timefd_node *nodes, size_t node_room, uint8_t *literals,
                                 size_t literal_room, timefd_read_answer *answer, size_t size)
{
    timefd_read_answer whole = timefd_read_composites(text, len, nodes, node_room, literals, literal_room);
    pass_on(answer, size, &whole, sizeof whole);
}

void timefd_format_into(uint32_t kind, const uint8_t *text, size_t len, const timefd_moment *moment, uint8_t *buffer, size_t room,
                        timefd_format_answer *answer, size_t size)
{
    timefd_format_answer whole = timefd_format(kind, text, len, moment, buffer, room);
    pass_on(answer, size, &whole, sizeof whole);
}

void timefd_format_within_into(uint32_t kind, uint32_t limit, const uint8_t *text, size_t len, const timefd_moment *moment,
                               uint8_t *buffer, size_t room, timefd_format_answer *answer, size_t size)
{
    timefd_format_answer whole = timefd_format_within(kind, limit, text, len, moment, buffer, room);
    pass_on(answer, size, &whole, sizeof whole);
}

void timefd_format_nodes_into(const timefd_node *nodes, size_t node_count, const uint8_t *literals, size_t literal_count,
                              const timefd_moment *moment, uint8_t *buffer, size_t room, timefd_format_answer *answer,
                              size_t size)
{
    timefd_format_answer whole = timefd_format_nodes(nodes, node_count, literals, literal_count, moment, buffer, room);
    pass_on(answer, size, &whole, sizeof whole);
}

void timefd_read_date_into(uint32_t kind, const uint8_t *text, size_t len, const uint8_t *date, size_t date_len,
                           timefd_date_answer *answer, size_t size)
{
    timefd_date_answer whole = timefd_read_date(kind, text, len, date, date_len);
    pass_on(answer, size, &whole, sizeof whole);
}

void timefd_read_date_within_into(uint32_t kind, uint32_t limit, const uint8_t *text, size_t len, const uint8_t *date,
                                  size_t date_len, timefd_date_answer *answer, size_t size)
{
    timefd_date_answer whole = timefd_read_date_within(kind, limit, text, len, date, date_len);
    pass_on(answer, size, &whole, sizeof whole);
}

void timefd_read_nodes_into(const timefd_node *nodes, size_t node_count, const uint8_t *literals, size_t literal_count,
                            const uint8_t *date, size_t date_len, timefd_date_answer *answer, size_t size)
{
    timefd_date_answer whole = timefd_read_nodes(nodes, node_count, literals, literal_count, date, date_len);
    pass_on(answer, size, &whole, sizeof whole);
}

/* Rows about nodes: what timefd_read, timefd_read_within and timefd_read_composites write. */

#include "library.h"

#include <stdio.h>
#include <string.h>

/* How many nodes a buffer has. No row needs as many. */
enum { NODES = 32 };

typedef timefd_read_answer reader(const struct field *fields, timefd_node *nodes, size_t node_room, uint8_t *literals,
                                  size_t literal_room);

static timefd_read_answer read_by_kind(const struct field *fields, timefd_node *nodes, size_t node_room, uint8_t *literals,
                                       size_t literal_room) {
    return timefd_read(kind_of(fields), fields[1].bytes, fields[1].len, nodes, node_room, literals, literal_room);
}

static timefd_read_answer read_composites(const struct field *fields, timefd_node *nodes, size_t node_room, uint8_t *literals,
                                          size_t literal_room) {
    return timefd_read_composites(fields[0].bytes, fields[0].len, nodes, node_room, literals, literal_room);
}

static void print_node(timefd_node it) {
    const struct number numbers[] = {
        NUMBER(it, what), NUMBER(it, component), NUMBER(it, padding), NUMBER(it, sign_is_mandatory), NUMBER(it, case_sensitive),
        NUMBER(it, one_indexed), NUMBER(it, is_uppercase), NUMBER(it, digits), NUMBER(it, trailing_input), NUMBER(it, format),
        NUMBER(it, ignored), NUMBER(it, start), NUMBER(it, count), NUMBER(it, bytes), {0},
    };
    fputs(" |", stdout);
    print_numbers(numbers);
}

/* Prints what is answered of buffers with so much room. Where it says that they are written, they have changed. */
static const char *read_in(reader *read, const struct field *fields, long long node_room, long long literal_room) {
    timefd_node nodes[NODES];
    uint8_t literals[ROOM];
    if (node_room < 0 || node_room > NODES || literal_room < 0 || literal_room > ROOM) {
        return "no buffer has so much room";
    }
    memset(nodes, '.', sizeof nodes);
    memset(literals, '.', ROOM);
    timefd_read_answer answer = read(fields, nodes, (size_t)node_room, literals, (size_t)literal_room);
    if (answer.written && is_kept((const uint8_t *)nodes, 0, sizeof nodes) && is_kept(literals, 0, ROOM)) {
        return "nothing is written";
    }
    print_answer(answer.status, answer.value);
    const struct number numbers[] = {
        NUMBER(answer, nodes), NUMBER(answer, literals), NUMBER(answer, bytes), NUMBER(answer, written), {0},
    };
    print_numbers(numbers);
    return NULL;
}

/* Prints the bytes of the longest text that is shown, the literals and the nodes, or the answer if there are none. */
static const char *read_whole(reader *read, const struct field *fields) {
    timefd_node nodes[NODES];
    uint8_t literals[ROOM];
    memset(nodes, '.', sizeof nodes);
    memset(literals, '.', ROOM);
    timefd_read_answer answer = read(fields, nodes, NODES, literals, ROOM);
    if (!answer.written) {
        return read_in(read, fields, NODES, ROOM);
    }
    if (!is_kept((const uint8_t *)nodes, answer.nodes * sizeof *nodes, sizeof nodes) || !is_kept(literals, answer.literals, ROOM)) {
        return "a buffer has changed after what was written";
    }
    print_answer(answer.status, answer.value);
    printf(" bytes %zu literals ", answer.bytes);
    print_text(literals, answer.literals);
    for (size_t i = 0; i < answer.nodes; i++) {
        print_node(nodes[i]);
    }
    return NULL;
}

const char *nodes_of(const struct field *fields) {
    return read_whole(read_by_kind, fields);
}

const char *nodes_in(const struct field *fields) {
    return read_in(read_by_kind, fields, fields[2].number, fields[3].number);
}

const char *composites(const struct field *fields) {
    return read_whole(read_composites, fields);
}

const char *composites_in(const struct field *fields) {
    return read_in(read_composites, fields, fields[1].number, fields[2].number);
}

const char *longest(const struct field *fields) {
    timefd_node nodes[NODES];
    uint8_t literals[ROOM];
    size_t bytes = read_by_kind(fields, nodes, NODES, literals, ROOM).bytes;
    if (read_by_kind(fields, nodes, 0, literals, 0).bytes != bytes) {
        return "the bytes depend on the room";
    }
    printf("bytes %zu", bytes);
    return NULL;
}

/* Whether the calls that write and read dates have the same limit as timefd_read_within, of which this is the answer. */
static bool is_limited_alike(const struct field *fields, timefd_read_answer read) {
    uint32_t kind = kind_of(fields), limit = (uint32_t)fields[1].number;
    const struct field *text = &fields[2];
    const timefd_moment nothing = {.known = 0};
    timefd_format_answer format = timefd_format_within(kind, limit, text->bytes, text->len, &nothing, NULL, 0);
    timefd_date_answer date = timefd_read_date_within(kind, limit, text->bytes, text->len, NULL, 0);
    if (read.status == TIMEFD_ACCEPTED) {
        return (format.status == TIMEFD_ACCEPTED || format.status == TIMEFD_UNSHOWN) &&
               (date.status == TIMEFD_ACCEPTED || date.status == TIMEFD_UNREAD || date.status == TIMEFD_MISSING);
    }
    return format.status == read.status && format.value == read.value && date.status == read.status && date.value == read.value;
}

const char *within(const struct field *fields) {
    timefd_node nodes[NODES];
    uint8_t literals[ROOM];
    uint32_t limit = (uint32_t)fields[1].number;
    const struct field *text = &fields[2];
    timefd_read_answer answer =
        timefd_read_within(kind_of(fields), limit, text->bytes, text->len, nodes, NODES, literals, ROOM);
    if (answer.written != (answer.status == TIMEFD_ACCEPTED)) {
        return "nodes are written of a text that is refused, or none of one that isn't";
    }
    if (!is_limited_alike(fields, answer)) {
        return "another limit is that of a call that writes or reads dates";
    }
    print_answer(answer.status, answer.value);
    return NULL;
}

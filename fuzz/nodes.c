/* What holds of the nodes of one text in one language. */

#include "fuzz.h"

#include <string.h>

/* A tree whose node has been seen, and which is not yet a member of another. */
struct tree {
    size_t begin; /* the index of the first of its nodes */
    size_t bytes;
    size_t nesting; /* how many nested descriptions stand around one another in it */
};

static struct tree trees[NODE_ROOM];

/* Whether each field that says something of another sort of node is 0. */
static bool has_own_fields(const timefd_node *node) {
    bool has_modifiers = node->padding != 0 || node->sign_is_mandatory != 0 ||
                         node->case_sensitive != 0 || node->one_indexed != 0 ||
                         node->is_uppercase != 0 || node->digits != 0 ||
                         node->trailing_input != 0 || node->ignored != 0;
    bool is_component = node->what == TIMEFD_COMPONENT;
    bool has_format = node->format == TIMEFD_FALSE || node->format == TIMEFD_TRUE;
    return (is_component ? node->component >= TIMEFD_DAY && node->component <= TIMEFD_END
                         : node->component == 0 && !has_modifiers) &&
           (node->what == TIMEFD_OPTIONAL ? has_format : node->format == 0);
}

/* The bytes of a node that has these members. */
static size_t bytes_of(const timefd_node *node, const struct tree *members) {
    if (node->what == TIMEFD_OPTIONAL) {
        return node->format == TIMEFD_TRUE ? members[0].bytes : 0;
    }
    size_t bytes = 0;
    size_t counted = node->what == TIMEFD_FIRST && node->count > 1 ? 1 : node->count;
    for (size_t i = 0; i < counted; i++) {
        bytes += members[i].bytes;
    }
    return bytes;
}

/* How deep a node of these members nests. A member of these two is a nested description. */
static size_t nesting_of(const timefd_node *node, const struct tree *members) {
    size_t nesting = 0;
    for (size_t i = 0; i < node->count; i++) {
        nesting = members[i].nesting > nesting ? members[i].nesting : nesting;
    }
    return node->what == TIMEFD_OPTIONAL || node->what == TIMEFD_FIRST ? nesting + 1 : nesting;
}

/* Takes the members of a node off the trees so far, and puts its own there: how many there are then,
   or 0 if it doesn't fit them. */
static size_t grown(const timefd_node *node, size_t index, size_t depth) {
    bool has_count = node->what == TIMEFD_OPTIONAL ? node->count == 1 : true;
    if (!has_count || node->count > depth) {
        return 0;
    }
    struct tree *members = &trees[depth - node->count];
    size_t begin = node->count == 0 ? index : members[0].begin;
    if (node->start != begin || node->bytes != bytes_of(node, members)) {
        return 0;
    }
    *members = (struct tree){.begin = begin, .bytes = node->bytes, .nesting = nesting_of(node, members)};
    return depth - node->count + 1;
}

/* How many trees the nodes are, or 0 where one of them doesn't fit those before it. */
static size_t tree_count(const timefd_node *nodes, timefd_read_answer answer) {
    size_t depth = 0;
    size_t used = 0;
    for (size_t i = 0; i < answer.nodes; i++) {
        const timefd_node *node = &nodes[i];
        if (!has_own_fields(node)) {
            return 0;
        }
        if (node->what == TIMEFD_LITERAL) {
            if (node->start != used || node->bytes != node->count) {
                return 0;
            }
            used += node->count;
            trees[depth++] = (struct tree){.begin = i, .bytes = node->bytes};
        } else if (node->what == TIMEFD_COMPONENT) {
            if (node->start != i || node->count != 0) {
                return 0;
            }
            trees[depth++] = (struct tree){.begin = i, .bytes = node->bytes};
        } else {
            depth = grown(node, i, depth);
            if (depth == 0) {
                return 0;
            }
        }
    }
    return used == answer.literals ? depth : 0;
}

static void check_trees(uint32_t kind, const struct text *text, const timefd_node *nodes,
                        timefd_read_answer answer) {
    size_t count = tree_count(nodes, answer);
    if (kind == TIMEFD_VERSION_3) {
        expect(answer.nodes <= text->len + 1, kind, text, "at most a node for each byte and one");
        expect(count == 1 && trees[0].bytes == answer.value, kind, text,
               "nodes of one tree that reserves the value");
        expect(answer.bytes == answer.value, kind, text, "the value as the bytes");
        return;
    }
    expect(count == answer.value || answer.nodes == 0, kind, text, "nodes of as many trees as items");
    size_t bytes = 0;
    for (size_t i = 0; i < count; i++) {
        bytes += trees[i].bytes;
    }
    expect(answer.bytes == bytes, kind, text, "the bytes of all items");
}

static bool is_answer(timefd_read_answer a, timefd_read_answer b) {
    return a.status == b.status && a.value == b.value && a.nodes == b.nodes &&
           a.literals == b.literals && a.written == b.written && a.bytes == b.bytes;
}

/* With a limit on nesting the answer is the same for a description that keeps to it, and any other is refused. */
static void check_limit(uint32_t kind, const struct text *text, timefd_read_answer answer) {
    size_t nesting = kind == TIMEFD_VERSION_3 ? trees[0].nesting : 0;
    timefd_read_answer none = answer;
    none.written = answer.nodes == 0 && answer.literals == 0;
    uint32_t limit = one_in(2) ? UINT32_MAX : (uint32_t)(nesting + random_below(3));
    expect(is_answer(read_within(kind, limit, text), none), kind, text, "the same within the limit");
    if (nesting > 0) {
        timefd_read_answer within = read_within(kind, (uint32_t)random_below(nesting), text);
        expect(within.status == TIMEFD_REFUSED && within.value < text->len, kind, text,
               "to be refused where it nests more than the limit");
    }
}

/* With less room in one buffer than is needed the answer is the same, except that not all is written. */
static void check_less_room(uint32_t kind, const struct text *text, timefd_read_answer answer) {
    static struct node_buffers less;
    timefd_read_answer full = answer;
    full.written = false;
    if (answer.nodes > 0) {
        size_t room = random_below(answer.nodes);
        expect(is_answer(read_nodes(kind, text, &less, room, answer.literals), full), kind, text,
               "no nodes where they have no room");
    }
    if (answer.literals > 0) {
        size_t room = random_below(answer.literals);
        expect(is_answer(read_nodes(kind, text, &less, answer.nodes, room), full), kind, text,
               "no nodes where the literals have no room");
    }
    expect(is_answer(read_nodes(kind, text, &less, answer.nodes, answer.literals), answer), kind,
           text, "all nodes in buffers of just their room");
}

/* With one node for a composite letter the answer on a text of strftime is the same, and each item is one node that
   reserves as much as with its members. */
static void check_composites(const struct text *text, timefd_read_answer answer) {
    static struct node_buffers one;
    timefd_read_answer composed = read_composites(text, &one, text->len, text->len);
    bool fits = composed.status == answer.status && composed.value == answer.value &&
                composed.bytes == answer.bytes && composed.written == answer.written &&
                composed.nodes == (answer.written ? answer.value : 0);
    for (size_t i = 0; fits && i < composed.nodes; i++) {
        const timefd_node *node = one.nodes + 1 + i;
        bool is_one = node->what == TIMEFD_LITERAL || node->what == TIMEFD_COMPONENT ||
                      node->what == TIMEFD_COMPOSITE;
        fits = is_one && has_own_fields(node) && node->bytes == trees[i].bytes;
    }
    expect(fits, TIMEFD_STRFTIME, text, "the same items with one node for a composite letter");
}

void check_nodes(uint32_t kind, const struct text *text, timefd_answer judged) {
    static struct node_buffers buffers;
    timefd_read_answer answer = read_nodes(kind, text, &buffers, NODES_A_BYTE * (text->len + 1),
                                           LITERALS_A_BYTE * (text->len + 1));
    expect(answer.status == judged.status && answer.value == judged.value, kind, text,
           "the same answer from timefd_read");
    if (answer.status != TIMEFD_ACCEPTED) {
        expect(!answer.written && answer.nodes == 0 && answer.literals == 0 && answer.bytes == 0,
               kind, text, "no nodes of what is not accepted");
        if (kind == TIMEFD_STRFTIME) {
            check_composites(text, answer);
        }
        return;
    }
    expect(answer.written, kind, text, "nodes in large buffers");
    if (answer.written) {
        check_trees(kind, text, buffers.nodes + 1, answer);
        check_limit(kind, text, answer);
        if (kind == TIMEFD_STRFTIME) {
            check_composites(text, answer);
        }
        check_less_room(kind, text, answer);
    }
}

/* Prints the nodes of a description. ../run.sh builds and runs it. */

#include "timefd.h"

#include <stdio.h>
#include <stdlib.h>
#include <string.h>

/* A node with the literal that it is, if it is one. */
static void print_node(size_t index, const timefd_node *node, const uint8_t *literals) {
    printf("%zu: ", index);
    switch (node->what) {
    case TIMEFD_LITERAL:
        printf("\"%.*s\"", (int)node->count, (const char *)literals + node->start);
        break;
    case TIMEFD_COMPONENT:
        printf("component %u, padding %u", (unsigned)node->component, (unsigned)node->padding);
        break;
    case TIMEFD_OPTIONAL:
        printf("optional, formatted %s, of one from %zu on", node->format == TIMEFD_TRUE ? "yes" : "no", node->start);
        break;
    default:
        printf("%s of %zu from %zu on", node->what == TIMEFD_FIRST ? "first" : "compound", node->count, node->start);
    }
    printf(", %u bytes\n", (unsigned)node->bytes);
}

/* Reads a text with room that is always enough for version 3: a node for each byte, and one more. */
static int print_nodes(const char *text) {
    size_t len = strlen(text);
    timefd_node *nodes = calloc(len + 1, sizeof *nodes);
    uint8_t *literals = calloc(len + 1, 1);
    if (nodes == NULL || literals == NULL) {
        puts("out of memory");
        free(nodes);
        free(literals);
        return 1;
    }
    timefd_read_answer answer =
        timefd_read(TIMEFD_VERSION_3, (const uint8_t *)text, len, nodes, len + 1, literals, len + 1);
    if (answer.status == TIMEFD_ACCEPTED && answer.written) {
        for (size_t i = 0; i < answer.nodes; i++) {
            print_node(i, &nodes[i], literals);
        }
    }
    free(nodes);
    free(literals);
    return answer.status != TIMEFD_ACCEPTED || !answer.written;
}

int main(void) {
    if (timefd_version() != TIMEFD_VERSION) {
        puts("the header is of another version than the library");
        return 1;
    }
    return print_nodes("due [day][optional format:false [ at [hour]]]");
}

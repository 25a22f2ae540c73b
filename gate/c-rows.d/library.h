/* The calls of the static library that the rows of library.in name. Of an answer they print the status and the value, and by name
   each other number that isn't 0. */

#ifndef LIBRARY_H
#define LIBRARY_H

#include "../../examples/timefd.h"
#include "buffers.h"
#include "numbers.h"

/* How many bytes a buffer has. No row needs as many. */
enum { ROOM = 96 };

/* The kind, which stands first in most rows. */
uint32_t kind_of(const struct field *fields);

/* nodes KIND TEXT, composites TEXT: the value, the bytes of the longest text that is shown, the literals and the nodes. */
const char *nodes_of(const struct field *fields);
const char *composites(const struct field *fields);

/* nodes KIND TEXT NODE_ROOM LITERAL_ROOM, composites TEXT NODE_ROOM LITERAL_ROOM: what is answered of so much room. */
const char *nodes_in(const struct field *fields);
const char *composites_in(const struct field *fields);

/* longest KIND TEXT: how many bytes the longest text has that is shown, whether there is room for nodes or none. */
const char *longest(const struct field *fields);

/* within KIND LIMIT TEXT: what is answered with a limit on nesting. */
const char *within(const struct field *fields);

#endif

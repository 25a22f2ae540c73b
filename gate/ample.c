/* Calls the static library over long texts with all the memory there is: no call may say that memory ran out, ask for blocks
   more often than doubling does, or have more at once than lists and texts have that double. And each call takes null with
   the length 0. gate/library builds it, with malloc, realloc and free of the library replaced by the functions below. */

#include "../examples/timefd.h"

#include <inttypes.h>
#include <stdbool.h>
#include <stdio.h>
#include <stdlib.h>
#include <string.h>

void *__real_malloc(size_t size);
void *__real_realloc(void *block, size_t size);
void __real_free(void *block);
void *__wrap_malloc(size_t size);
void *__wrap_realloc(void *block, size_t size);
void __wrap_free(void *block);

/* A block's length before it; the first room of a list, of what items write, and of any text; the bytes of an item and of a
   node; the nodes of a piece. */
enum { FRONT = 16, FIRST_ROOM = 16, FIRST_TEXT = 64, FIRST_BYTES = 8, ITEM = 24, NODE = 32, PIECE_NODES = 14 };

static size_t asked; /* how many blocks a call asked for */
static size_t held;  /* how many bytes it holds, and how many it held at most */
static size_t most;
static size_t failed;
static bool shows_all; /* whether each call is reported, and not only the wrong ones */

static void take(size_t size) {
    asked++;
    held += size;
    most = held > most ? held : most;
}

/* Each block has its length in front. */
void *__wrap_malloc(size_t size) {
    char *block = __real_malloc(size + FRONT);
    take(size);
    memcpy(block, &size, sizeof size);
    return block + FRONT;
}

void *__wrap_realloc(void *block, size_t size) {
    if (block == NULL) {
        return __wrap_malloc(size);
    }
    size_t old;
    char *front = (char *)block - FRONT;
    memcpy(&old, front, sizeof old);
    front = __real_realloc(front, size + FRONT);
    take(size); /* the old block is there while it is copied */
    held -= old;
    memcpy(front, &size, sizeof size);
    return front + FRONT;
}

void __wrap_free(void *block) {
    if (block != NULL) {
        size_t size;
        char *front = (char *)block - FRONT;
        memcpy(&size, front, sizeof size);
        held -= size;
        __real_free(front);
    }
}

/* `count` times the piece between a front and an end, as a text of the caller's. */
static char *repeated(const char *front, const char *piece, size_t count, const char *end) {
    size_t len = strlen(piece);
    char *text = __real_malloc(strlen(front) + len * count + strlen(end) + 1);
    char *at = stpcpy(text, front);
    for (size_t i = 0; i < count; i++) {
        at = stpcpy(at, piece);
    }
    strcpy(at, end);
    return text;
}

static void begin(void) {
    asked = 0;
    held = 0;
    most = 0;
}

/* What a list or a text takes that has doubled from its first room on. */
struct taken {
    size_t blocks; /* how many it asks for: the first one, and one each time that it doubles */
    size_t room;   /* how many there is room for in the end */
    size_t most;   /* for how many at most together: the old room is there while it is copied */
};

static const struct taken NOTHING = {0, 0, 0};

/* That of so many, with this first room. */
static struct taken doubled(size_t first, size_t count) {
    struct taken taken = {1, first, first};
    while (taken.room < count) {
        taken.blocks++;
        taken.most = 3 * taken.room;
        taken.room *= 2;
    }
    return taken;
}

static size_t greater(size_t a, size_t b) { return a > b ? a : b; }

/* Whether a call was accepted, asked for few blocks, held few bytes, and gave all back. */
static void expect(const char *call, const char *name, uint32_t status, size_t blocks, size_t bytes) {
    bool is_wrong = status != TIMEFD_ACCEPTED || asked > blocks || most > bytes || held != 0;
    failed += is_wrong;
    if (is_wrong || shows_all) {
        fprintf(stderr,
                "%sgate/library: %s of %s: status %" PRIu32 ", %zu blocks of at most %zu, %zu bytes of at most %zu, %zu left\n",
                is_wrong ? "" : "right: ", call, name, status, asked, blocks, most, bytes, held);
    }
}

/* A text, and how much is in it. */
struct text {
    uint32_t kind;
    const char *name;
    const uint8_t *bytes;
    size_t len;
    size_t parts; /* items, or in version 3 nodes */
    bool nests;   /* whether some of the nodes are nested */
};

/* What is taken for the list of a text's parts. */
static struct taken list_of(const struct text *text) {
    struct taken list = doubled(FIRST_ROOM, text->parts);
    size_t part = text->kind == TIMEFD_VERSION_3 ? NODE : ITEM;
    list.room *= part;
    list.most *= part;
    return list;
}

/* What is counted takes none but for nested nodes, with a list or two of those that are open. */
static void try_counts(const struct text *text) {
    struct taken list = text->nests ? list_of(text) : NOTHING;
    size_t blocks = text->nests ? list.blocks + 2 : 0;
    uint8_t sentence[64];
    begin();
    expect("timefd_judge", text->name, timefd_judge(text->kind, text->bytes, text->len).status, blocks, list.most);
    begin();
    uint32_t status = timefd_check(text->kind, text->bytes, text->len, sentence, sizeof sentence).status;
    expect("timefd_check", text->name, status, blocks, list.most);
    begin();
    status = timefd_check(text->kind, text->bytes, text->len, NULL, 0).status;
    expect("timefd_check without room", text->name, status, blocks, list.most);
    begin();
    status = timefd_diagnose(text->kind, text->bytes, text->len, NULL, 0, NULL, 0).answer.status;
    expect("timefd_diagnose", text->name, status, blocks, list.most);
}

/* Nodes are written as they are read: only a text with nested descriptions takes a list before. */
static void try_nodes(const struct text *text) {
    struct taken list = text->nests ? list_of(text) : NOTHING;
    size_t node_room = PIECE_NODES * text->parts;
    size_t literal_room = 3 * text->len;
    timefd_node *nodes = __real_malloc(node_room * sizeof(timefd_node));
    uint8_t *literals = __real_malloc(literal_room);
    begin();
    timefd_read_answer read = timefd_read(text->kind, text->bytes, text->len, nodes, node_room, literals, literal_room);
    expect("timefd_read", text->name, read.written ? read.status : TIMEFD_NO_MEMORY, list.blocks, list.most);
    begin();
    read = timefd_read(text->kind, text->bytes, text->len, NULL, 0, NULL, 0);
    expect("timefd_read without room", text->name, read.status, list.blocks, list.most);
    begin();
    read = timefd_read_within(text->kind, text->nests ? UINT32_MAX : 0, text->bytes, text->len, NULL, 0, NULL, 0);
    expect("timefd_read_within", text->name, read.status, list.blocks, list.most);
    if (text->kind == TIMEFD_STRFTIME) {
        begin();
        read = timefd_read_composites(text->bytes, text->len, nodes, node_room, literals, literal_room);
        expect("timefd_read_composites", text->name, read.written ? read.status : TIMEFD_NO_MEMORY, 0, 0);
    }
    __real_free(nodes);
    __real_free(literals);
}

static void try_read_date(const struct text *text) {
    struct taken list = list_of(text);
    begin();
    timefd_date_answer date = timefd_read_date(text->kind, text->bytes, text->len, NULL, 0);
    uint32_t status = date.status == TIMEFD_UNREAD && date.value == 0 ? TIMEFD_ACCEPTED : date.status;
    expect("timefd_read_date", text->name, status, list.blocks, list.most);
    begin();
    date = timefd_read_date_within(text->kind, text->nests ? UINT32_MAX : 0, text->bytes, text->len, NULL, 0);
    status = date.status == TIMEFD_UNREAD && date.value == 0 ? TIMEFD_ACCEPTED : date.status;
    expect("timefd_read_date_within", text->name, status, list.blocks, list.most);
    if (text->parts == 1) {
        /* One literal, which is read by itself. */
        begin();
        status = timefd_read_date(text->kind, text->bytes, text->len, text->bytes, text->len).status;
        expect("timefd_read_date of a long text", text->name, status, list.blocks, list.most);
    }
}

/* What is known of the moment that is written. */
static const timefd_moment MOMENT = {
    .known = TIMEFD_HAS_DATE | TIMEFD_HAS_TIME, .year = 2026, .month = 11, .day = 23, .hour = 5, .minute = 36, .second = 7};

/* What is written is written in a buffer first, which lies beside the list: in version 3 one of the reserved bytes, else one that
   is given back and doubled until there is room. Then it gets a block of its own. */
static void try_format(const struct text *text) {
    struct taken list = list_of(text);
    size_t room = timefd_read(text->kind, text->bytes, text->len, NULL, 0, NULL, 0).bytes;
    uint8_t *bytes = __real_malloc(room);
    begin();
    timefd_format_answer answer = timefd_format(text->kind, text->bytes, text->len, &MOMENT, bytes, room);
    struct taken first = text->kind == TIMEFD_VERSION_3 ? doubled(room, room) : doubled(FIRST_TEXT, answer.value);
    uint32_t status = answer.written == answer.value ? answer.status : TIMEFD_NO_MEMORY;
    expect("timefd_format", text->name, status, list.blocks + first.blocks + 1,
           greater(list.most, list.room + first.room + answer.value));
    begin();
    answer = timefd_format_within(text->kind, text->nests ? UINT32_MAX : 0, text->bytes, text->len, &MOMENT, bytes, room);
    status = answer.written == answer.value ? answer.status : TIMEFD_NO_MEMORY;
    expect("timefd_format_within", text->name, status, list.blocks + first.blocks + 1,
           greater(list.most, list.room + first.room + answer.value));
    __real_free(bytes);
}

typedef timefd_answer conversion(const uint8_t *text, size_t len, uint8_t *buffer, size_t room);

/* An answer has the old text's length as its first room, and doubles. It takes the place of nothing, or of what is left of a list. */
static void try_conversion(const char *call, conversion *convert, const struct text *text, struct taken list) {
    size_t room = 4 * text->len;
    uint8_t *buffer = __real_malloc(room);
    for (size_t i = 0; i < 2; i++) {
        begin();
        timefd_answer answer = i == 0 ? convert(text->bytes, text->len, buffer, room) : convert(text->bytes, text->len, NULL, 0);
        struct taken written = doubled(text->len, answer.value);
        uint32_t status = i == 0 && answer.written != answer.value ? TIMEFD_NO_MEMORY : answer.status;
        expect(i == 0 ? call : "a conversion without room", text->name, status, list.blocks + written.blocks,
               greater(list.most, list.room + written.most));
    }
    __real_free(buffer);
}

/* The answer in version 3, in its normal form. Version 1 goes over version 2, whose text lies beside all else, and which has here
   at most twice as many items. */
static void try_convert(const struct text *text) {
    bool is_first = text->kind == TIMEFD_VERSION_1;
    struct text read = *text;
    read.parts = is_first ? 2 * text->parts : text->parts;
    struct taken between = is_first ? doubled(text->len, 2 * text->len) : NOTHING;
    struct taken list = list_of(&read);
    size_t room = text->kind == TIMEFD_STRFTIME ? 64 * text->len : 8 * text->len;
    uint8_t *buffer = __real_malloc(room);
    begin();
    timefd_answer answer = timefd_convert(text->kind, TIMEFD_VERSION_3, text->bytes, text->len, buffer, room);
    struct taken written = doubled(FIRST_BYTES, answer.value);
    uint32_t status = answer.written == answer.value ? answer.status : TIMEFD_NO_MEMORY;
    expect("timefd_convert", text->name, status, between.blocks + list.blocks + written.blocks,
           greater(greater(between.most, between.room + list.most), between.room + list.room + written.most));
    __real_free(buffer);
}

/* A long format of another language in version 3. */
static void try_convert_format(uint32_t dialect, const char *name, const char *piece, size_t count, size_t wanted) {
    char *format = repeated("", piece, count, "");
    uint8_t *buffer = __real_malloc(wanted);
    begin();
    timefd_convert_answer answer = timefd_convert_format(dialect, (const uint8_t *)format, strlen(format), buffer, wanted);
    struct taken written = doubled(FIRST_BYTES, wanted);
    uint32_t status = answer.written == wanted ? answer.status : TIMEFD_NO_MEMORY;
    expect("timefd_convert_format", name, status, written.blocks, greater(written.most, written.room));
    __real_free(buffer);
    __real_free(format);
}

/* Long formats of other languages, and none with null. */
static void try_formats(void) {
    try_convert_format(TIMEFD_PYTHON, "200,000 directives", "%d", 200000, 1000000);
    try_convert_format(TIMEFD_JAVA, "200,000 letters and literals", "dd'x'", 100000, 600000);
    try_convert_format(TIMEFD_PYTHON, "1 MB", "x", 1000000, 1000000);
    try_convert_format(TIMEFD_MOMENT, "300,000 literals", ".", 300000, 300000);
    for (uint32_t dialect = TIMEFD_PYTHON; dialect <= TIMEFD_MOMENT; dialect++) {
        begin();
        expect("timefd_convert_format", "null", timefd_convert_format(dialect, NULL, 0, NULL, 0).status, 0, 0);
    }
}

/* Each call of a language over a text. */
static void try_all(const struct text *text) {
    try_counts(text);
    try_nodes(text);
    try_read_date(text);
    try_format(text);
    try_convert(text);
    if (text->kind == TIMEFD_VERSION_1) {
        try_conversion("timefd_v1_to_v2", timefd_v1_to_v2, text, NOTHING);
    }
    if (text->kind == TIMEFD_VERSION_2) {
        try_conversion("timefd_v2_to_v3", timefd_v2_to_v3, text, list_of(text));
    }
}

/* Each call with null beside each length that is 0. */
static void try_null(void) {
    for (uint32_t kind = TIMEFD_VERSION_1; kind <= TIMEFD_STRFTIME; kind++) {
        begin();
        expect("timefd_judge", "null", timefd_judge(kind, NULL, 0).status, 0, 0);
        expect("timefd_check", "null", timefd_check(kind, NULL, 0, NULL, 0).status, 0, 0);
        expect("timefd_diagnose", "null", timefd_diagnose(kind, NULL, 0, NULL, 0, NULL, 0).answer.status, 0, 0);
        expect("timefd_read", "null", timefd_read(kind, NULL, 0, NULL, 0, NULL, 0).status, 0, 0);
        expect("timefd_read_within", "null", timefd_read_within(kind, 0, NULL, 0, NULL, 0, NULL, 0).status, 0, 0);
        expect("timefd_read_composites", "null", timefd_read_composites(NULL, 0, NULL, 0, NULL, 0).status, 0, 0);
        expect("timefd_read_date", "null", timefd_read_date(kind, NULL, 0, NULL, 0).status, 0, 0);
        expect("timefd_read_date_within", "null", timefd_read_date_within(kind, 0, NULL, 0, NULL, 0).status, 0, 0);
        begin();
        const uint8_t *day = (const uint8_t *)(kind == TIMEFD_STRFTIME ? "%d" : "[day]");
        size_t len = kind == TIMEFD_STRFTIME ? 2 : 5;
        timefd_read_answer read = timefd_read(kind, day, len, NULL, 0, NULL, 0);
        expect("timefd_read", "no room", read.nodes == 1 && !read.written ? read.status : TIMEFD_REFUSED, 0, 0);
        begin();
        timefd_answer check = timefd_check(kind, (const uint8_t *)"%", 1, NULL, 0);
        if (kind == TIMEFD_STRFTIME && (check.status != TIMEFD_REFUSED || check.sentence_len == 0)) {
            failed++;
        }
    }
    expect("timefd_v1_to_v2", "null", timefd_v1_to_v2(NULL, 0, NULL, 0).status, 0, 0);
    expect("timefd_v2_to_v3", "null", timefd_v2_to_v3(NULL, 0, NULL, 0).status, 0, 0);
    for (uint32_t from = TIMEFD_VERSION_1; from <= TIMEFD_STRFTIME; from++) {
        expect("timefd_convert", "null", timefd_convert(from, TIMEFD_VERSION_3, NULL, 0, NULL, 0).status, 0, 0);
    }
}

/* A text is a front, so many times a piece, and an end. */
static const struct row {
    uint32_t kind;
    const char *name, *front, *piece, *end;
    size_t count, parts;
    bool nests;
} ROWS[] = {
    {TIMEFD_VERSION_1, "70,000 items", "", "[day]-", "", 35000, 70000, false},
    {TIMEFD_VERSION_2, "70,000 items", "", "[day]-", "", 35000, 70000, false},
    {TIMEFD_VERSION_3, "70,000 nodes and the one around them", "", "[day]-", "", 35000, 70001, false},
    {TIMEFD_STRFTIME, "70,000 items", "", "%d-", "", 35000, 70000, false},
    {TIMEFD_VERSION_1, "200,000 items", "", "[day]-", "", 100000, 200000, false},
    {TIMEFD_VERSION_2, "200,000 items", "", "[day]-", "", 100000, 200000, false},
    {TIMEFD_VERSION_3, "200,000 nodes and the one around them", "", "[day]-", "", 100000, 200001, false},
    {TIMEFD_STRFTIME, "200,000 items", "", "%d-", "", 100000, 200000, false},
    {TIMEFD_VERSION_1, "200,000 components", "", "[day]", "", 200000, 200000, false},
    {TIMEFD_VERSION_2, "200,000 components", "", "[DAY]", "", 200000, 200000, false},
    {TIMEFD_VERSION_3, "200,000 components and the one around them", "", "[day]", "", 200000, 200001, false},
    {TIMEFD_STRFTIME, "200,000 compounds", "", "%c", "", 200000, 200000, false},
    {TIMEFD_VERSION_1, "brackets and escapes", "", "a]\\", "", 100000, 200001, false},
    {TIMEFD_VERSION_1, "200,000 closing brackets", "", "]", "", 200000, 200000, false},
    {TIMEFD_VERSION_1, "200,000 doubled brackets", "", "[[", "", 200000, 200000, false},
    {TIMEFD_VERSION_2, "200,000 escapes", "", "\\[", "", 200000, 200000, false},
    {TIMEFD_VERSION_2, "200,000 closing brackets", "", "]", "", 200000, 200000, false},
    {TIMEFD_VERSION_3, "200,000 escapes and the one around them", "", "\\[", "", 200000, 200001, false},
    {TIMEFD_STRFTIME, "200,000 percent signs", "", "%%", "", 200000, 200000, false},
    {TIMEFD_VERSION_2, "100,000 years", "", "[year]", "", 100000, 100000, false},
    {TIMEFD_VERSION_3, "300 optionals", "", "[optional [a]]", "", 300, 601, true},
    {TIMEFD_VERSION_3, "100,000 optionals", "", "[optional [a]]", "", 100000, 200001, true},
    {TIMEFD_VERSION_3, "50,000 brackets of three alternatives", "", "[first [a] [b] [c]]", "", 50000, 200001, true},
    {TIMEFD_VERSION_3, "70,000 alternatives", "[first", " [a]", "]", 70000, 70001, true},
    {TIMEFD_VERSION_3, "an optional of 200,000 nodes", "[optional [", "[day]-", "]]", 100000, 200002, true},
    {TIMEFD_VERSION_1, "20 MB", "", "x", "", 20000000, 1, false},
    {TIMEFD_VERSION_2, "20 MB", "", "x", "", 20000000, 1, false},
    {TIMEFD_VERSION_3, "20 MB", "", "x", "", 20000000, 1, false},
    {TIMEFD_STRFTIME, "20 MB", "", "x", "", 20000000, 1, false},
};

/* With any argument each call is reported. */
int main(int count, char **arguments) {
    (void)arguments;
    shows_all = count > 1;
    for (size_t i = 0; i < sizeof ROWS / sizeof ROWS[0]; i++) {
        const struct row *row = &ROWS[i];
        char *bytes = repeated(row->front, row->piece, row->count, row->end);
        struct text text = {row->kind, row->name, (const uint8_t *)bytes, strlen(bytes), row->parts, row->nests};
        try_all(&text);
        __real_free(bytes);
    }
    try_formats();
    try_null();
    printf("gate/library: long texts and null, %zu failed\n", failed);
    return failed != 0;
}

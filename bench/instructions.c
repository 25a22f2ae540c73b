/* Makes a call over a text as often as asked: CALL KIND TIMES TEXT. `instructions.sh` builds it, and counts its
   instructions. It fails if the call isn't there, or doesn't read the text. */

#include "../examples/timefd.h"

#include <stdlib.h>
#include <string.h>

enum { ROOM = 1024 };

bool timefd_parse_borrowed(uint32_t kind, const uint8_t *text, size_t len);

#ifdef WITH_PEERS
bool peer_time(const uint8_t *bytes, size_t len);
bool parse_in_rust(uint32_t kind, const uint8_t *text, size_t len);
#endif

static timefd_node nodes[ROOM];
static uint8_t literals[ROOM];

static bool read_nodes(uint32_t kind, const uint8_t *text, size_t len) {
    timefd_read(kind, text, len, nodes, ROOM, literals, ROOM);
    return true;
}

static bool read_composites(uint32_t kind, const uint8_t *text, size_t len) {
    timefd_read_composites(text, len, nodes, ROOM, literals, ROOM);
    return kind == TIMEFD_STRFTIME;
}

static bool parse_borrowed(uint32_t kind, const uint8_t *text, size_t len) {
    timefd_parse_borrowed(kind, text, len);
    return true;
}

static bool judge(uint32_t kind, const uint8_t *text, size_t len) {
    timefd_judge(kind, text, len);
    return true;
}

/* Converts a text to version 3: of a language, or a format of a dialect. */
static bool convert(uint32_t kind, const uint8_t *text, size_t len) {
    if (kind < TIMEFD_PYTHON) {
        return timefd_convert(kind, TIMEFD_VERSION_3, text, len, literals, ROOM).status == TIMEFD_ACCEPTED;
    }
    return timefd_convert_format(kind, text, len, literals, ROOM).status == TIMEFD_ACCEPTED;
}

#ifdef WITH_PEERS
static bool parse_by_crate(uint32_t kind, const uint8_t *text, size_t len) {
    parse_in_rust(kind, text, len);
    return true;
}

static bool parse_by_time(uint32_t kind, const uint8_t *text, size_t len) {
    return kind == TIMEFD_VERSION_1 && peer_time(text, len);
}
#endif

/* Each call by its name. It answers whether it reads texts of the language; that of `time` whether it takes the text. */
static const struct {
    const char *name;
    bool (*call)(uint32_t kind, const uint8_t *text, size_t len);
} calls[] = {
    {"read", read_nodes},
    {"composites", read_composites},
    {"borrowed", parse_borrowed},
    {"judge", judge},
    {"convert", convert},
#ifdef WITH_PEERS
    {"rust", parse_by_crate},
    {"time", parse_by_time},
#endif
};

int main(int count, char **words) {
    if (count != 5) {
        return 2;
    }
    uint32_t kind = (uint32_t)strtoul(words[2], NULL, 10);
    size_t times = strtoul(words[3], NULL, 10), len = strlen(words[4]);
    for (size_t at = 0; at < sizeof calls / sizeof *calls; at++) {
        if (strcmp(words[1], calls[at].name) == 0) {
            bool is_read = true;
            for (size_t i = 0; i < times; i++) {
                is_read = calls[at].call(kind, (const uint8_t *)words[4], len);
            }
            return is_read ? 0 : 1;
        }
    }
    return 2;
}

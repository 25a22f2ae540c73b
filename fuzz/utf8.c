/* Which bytes are UTF-8, by the table of the Unicode standard. */

#include "fuzz.h"

/* The bytes of a character by its first one: how many they are, and which the second one is. Each
   further one is from 80 to BF (hexadecimal). */
struct form {
    uint8_t first, first_end;
    size_t len;
    uint8_t second, second_end;
};

static const struct form FORMS[] = {
    {0x00, 0x7f, 1, 0x00, 0x00}, {0xc2, 0xdf, 2, 0x80, 0xbf}, {0xe0, 0xe0, 3, 0xa0, 0xbf},
    {0xe1, 0xec, 3, 0x80, 0xbf}, {0xed, 0xed, 3, 0x80, 0x9f}, {0xee, 0xef, 3, 0x80, 0xbf},
    {0xf0, 0xf0, 4, 0x90, 0xbf}, {0xf1, 0xf3, 4, 0x80, 0xbf}, {0xf4, 0xf4, 4, 0x80, 0x8f},
};

static bool is_continuation(uint8_t byte) {
    return (byte & 0xc0) == 0x80;
}

static bool has_form(const struct form *form, const uint8_t *bytes, size_t len) {
    if (bytes[0] < form->first || bytes[0] > form->first_end || len < form->len) {
        return false;
    }
    for (size_t i = 2; i < form->len; i++) {
        if (!is_continuation(bytes[i])) {
            return false;
        }
    }
    return form->len == 1 || (bytes[1] >= form->second && bytes[1] <= form->second_end);
}

/* How many bytes the character has that these begin with, or 0 where they begin with none. */
static size_t character_len(const uint8_t *bytes, size_t len) {
    for (size_t i = 0; i < sizeof FORMS / sizeof FORMS[0]; i++) {
        if (has_form(&FORMS[i], bytes, len)) {
            return FORMS[i].len;
        }
    }
    return 0;
}

bool is_utf8(const struct text *text) {
    size_t at = 0;
    while (at < text->len) {
        size_t len = character_len(text->bytes + at, text->len - at);
        if (len == 0) {
            return false;
        }
        at += len;
    }
    return true;
}

/* Whether the index is at the end of these bytes of UTF-8, or at a character's first one. */
bool is_boundary(const uint8_t *bytes, size_t len, size_t index) {
    return index == len || (index < len && !is_continuation(bytes[index]));
}

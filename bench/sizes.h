/* The texts that somebody who means harm would send. */

#ifndef SIZES_H
#define SIZES_H

#include "texts.h"

static const struct family FAMILIES[] = {
    {"opening brackets", ONE, "", "[[", "", TIMEFD_ACCEPTED, 1, 0},
    {"opening brackets", TWO | THREE, "", "[[", "", TIMEFD_REFUSED, 0, 0},
    {"closing brackets", ONE | TWO, "", "]", "", TIMEFD_ACCEPTED, 1, 0},
    {"closing brackets", THREE, "", "]", "", TIMEFD_REFUSED, 0, 0},
    {"escapes", TWO | THREE, "", "\\[", "", TIMEFD_ACCEPTED, 1, 0},
    {"one literal", ONE | TWO | STRFTIME, "", "a", "", TIMEFD_ACCEPTED, 0, 1},
    {"one literal", THREE, "", "a", "", TIMEFD_ACCEPTED, 1, 0},
    {"one literal of wide characters", ONE | TWO | STRFTIME, "", "\xc3\xa9", "", TIMEFD_ACCEPTED, 0, 1},
    {"one literal of wide characters", THREE, "", "\xc3\xa9", "", TIMEFD_ACCEPTED, 2, 0},
    {"components", ONE | TWO, "", "[day]", "", TIMEFD_ACCEPTED, 1, 0},
    {"components", THREE, "", "[day]", "", TIMEFD_ACCEPTED, 2, 0},
    {"components, and a fault behind them", VERSIONS, "", "[day]", "[foo]", TIMEFD_REFUSED, 5, 1},
    {"unknown modifiers in one bracket", VERSIONS, "[day", " a:b", "]", TIMEFD_REFUSED, 0, 5},
    {"one repeated key", ONE | TWO, "[day", " padding:none", "]", TIMEFD_ACCEPTED, 0, 1},
    {"one repeated key", THREE, "[day", " padding:none", "]", TIMEFD_REFUSED, 0, 18},
    {"one word", VERSIONS, "[", "a", "]", TIMEFD_REFUSED, 0, 1},
    {"one value", VERSIONS, "[day padding:", "a", "]", TIMEFD_REFUSED, 0, 13},
    {"one white stretch", ONE | TWO, "[day", " ", "]", TIMEFD_ACCEPTED, 0, 1},
    {"one white stretch", THREE, "[day", " ", "]", TIMEFD_ACCEPTED, 0, 2},
    {"nested descriptions, one too many", VERSIONS, "[optional ", "[a]", "]", TIMEFD_REFUSED, 0, 10},
    {"nested descriptions where none may be", VERSIONS, "[day ", "[a]", "]", TIMEFD_REFUSED, 0, 0},
    {"empty alternatives", ONE | TWO, "[first ", "[]", "]", TIMEFD_REFUSED, 0, 0},
    {"empty alternatives", THREE, "[first ", "[]", "]", TIMEFD_ACCEPTED, 0, 0},
    {"alternatives", THREE, "[first ", "[[day]]", "]", TIMEFD_ACCEPTED, 0, 2},
    {"the deepest description", ONE | TWO, "", NULL, "", TIMEFD_REFUSED, 0, 11 * (NESTING_LIMIT - 1)},
    {"the deepest description", THREE, "", NULL, "", TIMEFD_ACCEPTED, 1, 0},
    {"ever deeper descriptions", VERSIONS, "", "[optional [", "", TIMEFD_REFUSED, 0, 11 * NESTING_LIMIT + 10},
    {"directives", STRFTIME, "", "%d", "", TIMEFD_ACCEPTED, 1, 0},
    {"composite directives", STRFTIME, "", "%c", "", TIMEFD_ACCEPTED, 1, 0},
    {"no UTF-8 at the end", VERSIONS | STRFTIME, "", "a", "\xff", TIMEFD_NOT_UTF8, 0, 0},
};

#endif

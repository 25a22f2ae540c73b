/* The texts whose memory is counted. */

#ifndef MEMORY_H
#define MEMORY_H

#include "texts.h"

static const struct family FAMILIES[] = {
    {"components", ONE | TWO, "", "[day]", "", TIMEFD_ACCEPTED, 1, 0},
    {"components", THREE, "", "[day]", "", TIMEFD_ACCEPTED, 2, 0},
    {"components with a modifier", ONE | TWO, "", "[day padding:none]", "", TIMEFD_ACCEPTED, 1, 0},
    {"components with a modifier", THREE, "", "[day padding:none]", "", TIMEFD_ACCEPTED, 2, 0},
    {"components with literals", ONE | TWO, "", "[day] of ", "", TIMEFD_ACCEPTED, 2, 0},
    {"components with literals", THREE, "", "[day] of ", "", TIMEFD_ACCEPTED, 6, 0},
    {"escapes", ONE, "", "[[", "", TIMEFD_ACCEPTED, 1, 0},
    {"escapes", TWO | THREE, "", "\\[", "", TIMEFD_ACCEPTED, 1, 0},
    {"closing brackets", ONE | TWO, "", "]", "", TIMEFD_ACCEPTED, 1, 0},
    {"closing brackets", THREE, "", "]", "", TIMEFD_REFUSED, 0, 0},
    {"optionals", ONE | TWO, "", "[optional [[day]]]", "", TIMEFD_REFUSED, 0, 0},
    {"optionals", THREE, "", "[optional [[day]]]", "", TIMEFD_ACCEPTED, 2, 0},
    {"alternatives", ONE | TWO, "", "[first [[day]] [[hour]]]", "", TIMEFD_REFUSED, 0, 0},
    {"alternatives", THREE, "", "[first [[day]] [[hour]]]", "", TIMEFD_ACCEPTED, 2, 0},
    {"nested as deep as may be", ONE | TWO, "", NULL, "", TIMEFD_REFUSED, 0, 11 * (NESTING_LIMIT - 1)},
    {"nested as deep as may be", THREE, "", NULL, "", TIMEFD_ACCEPTED, 1, 0},
    {"components, and a fault behind them", VERSIONS, "", "[day]", "[foo]", TIMEFD_REFUSED, 5, 1},
    {"directives", STRFTIME, "", "%d", "", TIMEFD_ACCEPTED, 1, 0},
    {"directives, and a fault behind them", STRFTIME, "", "%d", "%Q", TIMEFD_REFUSED, 2, 1},
    {"one literal", ONE | TWO | STRFTIME, "", "a", "", TIMEFD_ACCEPTED, 0, 1},
    {"one literal", THREE, "", "a", "", TIMEFD_ACCEPTED, 1, 0},
};

#endif

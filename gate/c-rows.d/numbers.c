#include "numbers.h"

#include <stdio.h>

void print_numbers(const struct number *numbers) {
    for (; numbers->name; numbers++) {
        if (numbers->is != 0) {
            printf(" %s %lld", numbers->name, numbers->is);
        }
    }
}

timefd_moment moment_of(const struct field *fields) {
    return (timefd_moment){
        .known = (uint32_t)fields[0].number,
        .year = (int32_t)fields[1].number,
        .nanosecond = (uint32_t)fields[2].number,
        .offset_seconds = (int32_t)fields[3].number,
        .month = (uint8_t)fields[4].number,
        .day = (uint8_t)fields[5].number,
        .hour = (uint8_t)fields[6].number,
        .minute = (uint8_t)fields[7].number,
        .second = (uint8_t)fields[8].number,
    };
}

void print_moment(timefd_moment moment) {
    const struct number numbers[] = {
        NUMBER(moment, known), NUMBER(moment, year), NUMBER(moment, month), NUMBER(moment, day), NUMBER(moment, hour),
        NUMBER(moment, minute), NUMBER(moment, second), NUMBER(moment, nanosecond), NUMBER(moment, offset_seconds), {0},
    };
    fputs("moment", stdout);
    print_numbers(numbers);
}

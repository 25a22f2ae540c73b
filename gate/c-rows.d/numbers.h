/* The numbers of an answer and of a moment. */

#ifndef NUMBERS_H
#define NUMBERS_H

#include "../../examples/timefd.h"
#include "rows.h"

/* A number of an answer, by its name. */
struct number {
    const char *name;
    long long is;
};

#define NUMBER(of, name) {#name, (long long)(of).name}

/* Prints those that aren't 0, up to one without a name. */
void print_numbers(const struct number *numbers);

/* The moment in nine fields, in the order of timefd_moment. */
timefd_moment moment_of(const struct field *fields);

/* Prints a moment, by its numbers. */
void print_moment(timefd_moment moment);

#endif

/* The functions of the headers over timefd.h that the rows of headers.in name. */

#ifndef HEADERS_H
#define HEADERS_H

#include "../../examples/timefd_names.h"
#include "../../examples/timefd_text.h"
#include "../../examples/timefd_time.h"
#include "buffers.h"
#include "numbers.h"

/* The kind, which stands first in most rows. */
uint32_t kind_of(const struct field *fields);

/* A text as C has it. */
const char *text_of(const struct field *field);

/* times.c: moments of times, and times of moments; each answers the moment, and whether timefd_format takes it. */
const char *moment_of_time(const struct field *fields);
const char *moment_of_timespec(const struct field *fields);
const char *moment_of_tm(const struct field *fields);
const char *moment_of_tm_with_offset(const struct field *fields);
const char *time_of_moment(const struct field *fields);
const char *timespec_of_moment(const struct field *fields);
const char *tm_of_moment(const struct field *fields);

/* as_gmtime FIRST STEP COUNT: so many times, each as the C library has it. */
const char *as_gmtime(const struct field *fields);

/* texts.c: each call over a text that ends with a 0 or has a length, beside the one over bytes. */
const char *judge_text(const struct field *fields);
const char *check_text(const struct field *fields);
const char *diagnose_text(const struct field *fields);
const char *warnings_text(const struct field *fields);
const char *convert_text(const struct field *fields);
const char *convert_format_text(const struct field *fields);
const char *read_text(const struct field *fields);
const char *read_within_text(const struct field *fields);
const char *read_composites_text(const struct field *fields);
const char *format_text(const struct field *fields);
const char *format_nodes_text(const struct field *fields);
const char *read_date_text(const struct field *fields);

/* names.c: what a number of an answer is called. */
const char *fault_name(const struct field *fields);
const char *component_name(const struct field *fields);
const char *status_sentence(const struct field *fields);
const char *unshown_sentence(const struct field *fields);
const char *reason(const struct field *fields);
const char *range_sentence(const struct field *fields);
const char *part_name(const struct field *fields);
const char *format_sentence(const struct field *fields);
const char *read_date_sentence(const struct field *fields);

#endif

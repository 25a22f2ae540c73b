/* Rows about timefd_time.h. */

#include "headers.h"

#include <stdio.h>
#include <string.h>

/* Prints the moment, and which of its numbers timefd_format refuses. */
static const char *print_asked(timefd_moment moment) {
    static const uint8_t TEXT[] = "[year][hour][offset_hour]";
    uint8_t buffer[1] = {0};
    timefd_format_answer answer = timefd_format(TIMEFD_VERSION_3, TEXT, sizeof TEXT - 1, &moment, buffer, 0);
    print_moment(moment);
    if (answer.status == TIMEFD_OUT_OF_RANGE) {
        printf(": %s", timefd_range_sentence(answer.reason));
    }
    return NULL;
}

const char *moment_of_time(const struct field *fields) {
    return print_asked(timefd_moment_of_time((time_t)fields[0].number, (int32_t)fields[1].number));
}

const char *moment_of_timespec(const struct field *fields) {
    struct timespec instant = {.tv_sec = (time_t)fields[0].number, .tv_nsec = (long)fields[1].number};
    return print_asked(timefd_moment_of_timespec(instant, (int32_t)fields[2].number));
}

/* A struct tm in six fields, in its order, with the month from 0 and the year from 1900; its other fields have no meaning. */
static struct tm tm_of(const struct field *fields) {
    return (struct tm){
        .tm_sec = (int)fields[0].number,
        .tm_min = (int)fields[1].number,
        .tm_hour = (int)fields[2].number,
        .tm_mday = (int)fields[3].number,
        .tm_mon = (int)fields[4].number,
        .tm_year = (int)fields[5].number,
        .tm_wday = 77,
        .tm_yday = 777,
        .tm_isdst = 7,
    };
}

const char *moment_of_tm(const struct field *fields) {
    struct tm tm = tm_of(fields);
    return print_asked(timefd_moment_of_tm(&tm));
}

const char *moment_of_tm_with_offset(const struct field *fields) {
    struct tm tm = tm_of(fields);
    return print_asked(timefd_moment_of_tm_with_offset(&tm, (int32_t)fields[6].number));
}

const char *time_of_moment(const struct field *fields) {
    timefd_moment moment = moment_of(fields);
    time_t seconds = 7;
    if (timefd_time_of_moment(&moment, &seconds)) {
        printf("%lld", (long long)seconds);
    } else {
        fputs(seconds == 7 ? "none" : "none, but a time is set", stdout);
    }
    return NULL;
}

const char *timespec_of_moment(const struct field *fields) {
    timefd_moment moment = moment_of(fields);
    struct timespec instant = {.tv_sec = 7, .tv_nsec = 7};
    if (timefd_timespec_of_moment(&moment, &instant)) {
        printf("%lld %ld", (long long)instant.tv_sec, instant.tv_nsec);
    } else {
        fputs(instant.tv_sec == 7 && instant.tv_nsec == 7 ? "none" : "none, but a time is set", stdout);
    }
    return NULL;
}

static void print_tm(const struct tm *tm) {
    const struct number numbers[] = {
        NUMBER(*tm, tm_sec), NUMBER(*tm, tm_min), NUMBER(*tm, tm_hour), NUMBER(*tm, tm_mday), NUMBER(*tm, tm_mon),
        NUMBER(*tm, tm_year), NUMBER(*tm, tm_wday), NUMBER(*tm, tm_yday), NUMBER(*tm, tm_isdst), {0},
    };
    fputs("tm", stdout);
    print_numbers(numbers);
}

const char *tm_of_moment(const struct field *fields) {
    timefd_moment moment = moment_of(fields);
    struct tm tm = {.tm_year = 7};
    if (timefd_tm_of_moment(&moment, &tm)) {
        print_tm(&tm);
    } else {
        fputs(tm.tm_year == 7 ? "none" : "none, but a time is set", stdout);
    }
    return NULL;
}

static bool is_same_tm(const struct tm *one, const struct tm *other) {
    return one->tm_sec == other->tm_sec && one->tm_min == other->tm_min && one->tm_hour == other->tm_hour &&
           one->tm_mday == other->tm_mday && one->tm_mon == other->tm_mon && one->tm_year == other->tm_year &&
           one->tm_wday == other->tm_wday && one->tm_yday == other->tm_yday;
}

static bool is_same_moment(timefd_moment one, timefd_moment other) {
    return one.known == other.known && one.year == other.year && one.month == other.month && one.day == other.day &&
           one.hour == other.hour && one.minute == other.minute && one.second == other.second &&
           one.nanosecond == other.nanosecond && one.offset_seconds == other.offset_seconds;
}

/* Whether the library shows the time of the moment, too. */
static bool is_shown(timefd_moment moment, time_t seconds) {
    char shown[24], wanted[24];
    snprintf(wanted, sizeof wanted, "%lld", (long long)seconds);
    return timefd_format_text(TIMEFD_VERSION_3, "[unix_timestamp]", &moment, shown, sizeof shown, NULL) &&
           strcmp(shown, wanted) == 0;
}

/* Whether the moment of a time is what the C library says of it, and is that time again, in UTC and elsewhere. */
static bool is_as_gmtime(time_t seconds, int32_t offset_seconds) {
    time_t clock = seconds + offset_seconds, again;
    struct tm wanted, tm;
    if (!gmtime_r(&clock, &wanted)) {
        return false;
    }
    timefd_moment moment = timefd_moment_of_time(seconds, offset_seconds);
    timefd_moment of_tm = timefd_moment_of_tm_with_offset(&wanted, offset_seconds);
    struct timespec instant;
    return timefd_tm_of_moment(&moment, &tm) && is_same_tm(&tm, &wanted) && is_same_moment(moment, of_tm) &&
           timefd_time_of_moment(&moment, &again) && again == seconds && timefd_timespec_of_moment(&moment, &instant) &&
           instant.tv_sec == seconds && instant.tv_nsec == 0 && timegm(&tm) == clock && is_shown(moment, seconds);
}

const char *as_gmtime(const struct field *fields) {
    time_t seconds = (time_t)fields[0].number;
    long long alike = 0;
    for (long long i = 0; i < fields[2].number; i++) {
        static const int32_t OFFSETS[] = {0, 3600, -12600, 93599, -93599};
        alike += is_as_gmtime(seconds, OFFSETS[i % 5]);
        seconds += (time_t)fields[1].number;
    }
    printf("%lld alike", alike);
    return NULL;
}

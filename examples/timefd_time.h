/* The times of <time.h> as moments, and moments as these:

       timefd_moment now = timefd_moment_of_time(time(NULL), 0);

   The functions are compiled into the program that calls them; the library has none of them.

   A number that a moment can't hold is never changed into one that it can hold. A leap second, a year after 999999 or a month 12 of a
   struct tm becomes a number out of its range: timefd_format answers TIMEFD_OUT_OF_RANGE for it, and says which number it is. */

#ifndef TIMEFD_TIME_H
#define TIMEFD_TIME_H

#include "timefd.h"

#include <string.h>
#include <time.h>

#ifdef __cplusplus
extern "C" {
#endif

/* How many days there are from 0000-01-01 to 1970-01-01. */
#define TIMEFD_PRIVATE_EPOCH 719528

/* The quotient, rounded down. */
static inline int64_t timefd_private_quotient(int64_t number, int64_t divisor) {
    return number / divisor - (number % divisor < 0);
}

/* What that quotient leaves: 0 or more. */
static inline int64_t timefd_private_rest(int64_t number, int64_t divisor) {
    int64_t rest = number % divisor;
    return rest < 0 ? rest + divisor : rest;
}

static inline bool timefd_private_is_leap(int64_t year) {
    return year % 4 == 0 && (year % 100 != 0 || year % 400 == 0);
}

/* How many days there are from 0000-01-01 to the first day of the year; negative for an earlier year. */
static inline int64_t timefd_private_days_before_year(int64_t year) {
    int64_t last = year - 1;
    int64_t leap_days = timefd_private_quotient(last, 4) - timefd_private_quotient(last, 100) + timefd_private_quotient(last, 400);
    return 365 * year + leap_days + 1;
}

/* How many days of the year are before the month, which counts from 1. Before month 13 there are all days of the year. */
static inline int64_t timefd_private_days_before_month(int64_t year, int month) {
    static const int16_t DAYS[] = {0, 31, 59, 90, 120, 151, 181, 212, 243, 273, 304, 334, 365};
    return DAYS[month - 1] + (month > 2 && timefd_private_is_leap(year));
}

/* The year as a moment has it; beyond 999999 it is a number out of its range. */
static inline int32_t timefd_private_year(int64_t year) {
    return year < -999999 ? -1000000 : year > 999999 ? 1000000 : (int32_t)year;
}

/* The number as a moment has it; 255, which is out of every range, if a moment has no room for it. */
static inline uint8_t timefd_private_number(int number) {
    return number < 0 || number > 255 ? (uint8_t)255 : (uint8_t)number;
}

/* The date and the time of day that a clock with this offset shows so many seconds after 1970-01-01 00:00:00 UTC. */
static inline timefd_moment timefd_private_moment(int64_t seconds, uint32_t nanosecond, int32_t offset_seconds) {
    int64_t clock = timefd_private_rest(seconds, 86400) + offset_seconds;
    int64_t second_of_day = timefd_private_rest(clock, 86400);
    int64_t days =
        TIMEFD_PRIVATE_EPOCH + timefd_private_quotient(seconds, 86400) + timefd_private_quotient(clock, 86400);

    /* 400 years have 146097 days, so this is the year or one beside it. */
    int64_t year = timefd_private_quotient(days * 400, 146097);
    year += days >= timefd_private_days_before_year(year + 1);
    year -= days < timefd_private_days_before_year(year);
    int64_t day_of_year = days - timefd_private_days_before_year(year);
    int month = 12;
    while (day_of_year < timefd_private_days_before_month(year, month)) {
        month--;
    }

    timefd_moment moment;
    memset(&moment, 0, sizeof moment);
    moment.known = TIMEFD_HAS_DATE | TIMEFD_HAS_TIME | TIMEFD_HAS_OFFSET;
    moment.year = timefd_private_year(year);
    moment.month = (uint8_t)month;
    moment.day = (uint8_t)(day_of_year - timefd_private_days_before_month(year, month) + 1);
    moment.hour = (uint8_t)(second_of_day / 3600);
    moment.minute = (uint8_t)(second_of_day / 60 % 60);
    moment.second = (uint8_t)(second_of_day % 60);
    moment.nanosecond = nanosecond;
    moment.offset_seconds = offset_seconds;
    return moment;
}

/* Answers what a clock shows at a time. The clock is so many seconds ahead of UTC; a negative number means that it is behind.

       timefd_moment_of_time(0, 0)       1970-01-01 00:00:00 +00:00
       timefd_moment_of_time(0, 3600)    1970-01-01 01:00:00 +01:00 */
static inline timefd_moment timefd_moment_of_time(time_t seconds, int32_t offset_seconds) {
    return timefd_private_moment((int64_t)seconds, 0, offset_seconds);
}

/* Answers the date and the time of day in a struct tm, without an offset. It doesn't look at tm_wday, tm_yday and tm_isdst.

       struct tm eve = {.tm_year = 126, .tm_mon = 11, .tm_mday = 24};
       timefd_moment_of_tm(&eve)    2026-12-24 00:00:00 */
static inline timefd_moment timefd_moment_of_tm(const struct tm *tm) {
    timefd_moment moment;
    memset(&moment, 0, sizeof moment);
    moment.known = TIMEFD_HAS_DATE | TIMEFD_HAS_TIME;
    moment.year = timefd_private_year((int64_t)tm->tm_year + 1900);
    moment.month = tm->tm_mon < 0 || tm->tm_mon > 11 ? (uint8_t)255 : (uint8_t)(tm->tm_mon + 1);
    moment.day = timefd_private_number(tm->tm_mday);
    moment.hour = timefd_private_number(tm->tm_hour);
    moment.minute = timefd_private_number(tm->tm_min);
    moment.second = timefd_private_number(tm->tm_sec);
    return moment;
}

/* Answers the same with the offset of the clock: 0 for what gmtime gives; else tm_gmtoff, if the struct tm has it. */
static inline timefd_moment timefd_moment_of_tm_with_offset(const struct tm *tm, int32_t offset_seconds) {
    timefd_moment moment = timefd_moment_of_tm(tm);
    moment.known |= TIMEFD_HAS_OFFSET;
    moment.offset_seconds = offset_seconds;
    return moment;
}

/* Whether these parts of the moment are known, and its numbers are in their ranges. */
static inline bool timefd_private_is_known(const timefd_moment *moment, uint32_t known) {
    bool is_date = moment->year >= -999999 && moment->year <= 999999 && moment->month >= 1 && moment->month <= 12 &&
                   moment->day >= 1 &&
                   timefd_private_days_before_month(moment->year, moment->month) + moment->day <=
                       timefd_private_days_before_month(moment->year, moment->month + 1);
    bool is_time = moment->hour < 24 && moment->minute < 60 && moment->second < 60 && moment->nanosecond < 1000000000;
    bool is_offset = moment->offset_seconds > -93600 && moment->offset_seconds < 93600;
    return (moment->known & known) == known && is_date && is_time && (is_offset || (known & TIMEFD_HAS_OFFSET) == 0);
}

/* How many days there are from 0000-01-01 to the date of the moment. */
static inline int64_t timefd_private_days(const timefd_moment *moment) {
    return timefd_private_days_before_year(moment->year) + timefd_private_days_before_month(moment->year, moment->month) +
           moment->day - 1;
}

/* The seconds from 1970-01-01 00:00:00 UTC to the moment, without its nanoseconds. False if a part of the moment isn't known, or a
   time_t can't hold the number. */
static inline bool timefd_private_seconds(const timefd_moment *moment, time_t *seconds) {
    if (!timefd_private_is_known(moment, TIMEFD_HAS_DATE | TIMEFD_HAS_TIME | TIMEFD_HAS_OFFSET)) {
        return false;
    }
    int64_t clock = moment->hour * 3600 + moment->minute * 60 + moment->second;
    int64_t count = (timefd_private_days(moment) - TIMEFD_PRIVATE_EPOCH) * 86400 + clock - moment->offset_seconds;
    if ((int64_t)(time_t)count != count) {
        return false;
    }
    *seconds = (time_t)count;
    return true;
}

/* Sets `seconds` to the time that the moment is. Answers false and sets nothing if the moment isn't exactly such a time: a date, a time
   of day and an offset have to be known and in their ranges, and the second has to be a whole one.

       time_t seconds;
       if (timefd_time_of_moment(&answer.moment, &seconds)) { .. } */
static inline bool timefd_time_of_moment(const timefd_moment *moment, time_t *seconds) {
    return moment->nanosecond == 0 && timefd_private_seconds(moment, seconds);
}

/* Sets `tm` to the date and the time of day of the moment, with tm_wday and tm_yday, and a negative tm_isdst, which says that
   daylight saving time isn't known. A struct tm has no offset, so that of the moment is left out. Answers false and sets nothing
   unless a date and a time of day are known and in their ranges, and the second is a whole one. */
static inline bool timefd_tm_of_moment(const timefd_moment *moment, struct tm *tm) {
    if (moment->nanosecond != 0 || !timefd_private_is_known(moment, TIMEFD_HAS_DATE | TIMEFD_HAS_TIME)) {
        return false;
    }
    memset(tm, 0, sizeof *tm);
    tm->tm_year = moment->year - 1900;
    tm->tm_mon = moment->month - 1;
    tm->tm_mday = moment->day;
    tm->tm_hour = moment->hour;
    tm->tm_min = moment->minute;
    tm->tm_sec = moment->second;
    tm->tm_wday = (int)timefd_private_rest(timefd_private_days(moment) + 6, 7); /* 0000-01-01 was a Saturday */
    tm->tm_yday = (int)(timefd_private_days_before_month(moment->year, moment->month) + moment->day - 1);
    tm->tm_isdst = -1;
    return true;
}

/* C has struct timespec from 2011 on, and so has POSIX. */
#if defined(TIME_UTC) || defined(CLOCK_REALTIME)

/* Answers what a clock shows at a time with nanoseconds, as timefd_moment_of_time does.

       struct timespec now;
       timespec_get(&now, TIME_UTC);
       timefd_moment moment = timefd_moment_of_timespec(now, 0); */
static inline timefd_moment timefd_moment_of_timespec(struct timespec instant, int32_t offset_seconds) {
    bool is_nanosecond = instant.tv_nsec >= 0 && instant.tv_nsec < 1000000000;
    uint32_t nanosecond = is_nanosecond ? (uint32_t)instant.tv_nsec : UINT32_MAX;
    return timefd_private_moment((int64_t)instant.tv_sec, nanosecond, offset_seconds);
}

/* Sets `instant` as timefd_time_of_moment sets `seconds`, with the nanoseconds of the moment. */
static inline bool timefd_timespec_of_moment(const timefd_moment *moment, struct timespec *instant) {
    time_t seconds;
    if (!timefd_private_seconds(moment, &seconds)) {
        return false;
    }
    instant->tv_sec = seconds;
    instant->tv_nsec = (int32_t)moment->nanosecond;
    return true;
}

#endif

#undef TIMEFD_PRIVATE_EPOCH

#ifdef __cplusplus
}
#endif

#endif

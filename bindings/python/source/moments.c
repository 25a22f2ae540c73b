/* Values of `datetime` as moments of the library, and back. */

#include "calls.h"

#define DAY_SECONDS 86400

/* A number that is an attribute of a value. */
static int number_of(PyObject *module, PyObject *value, enum kept name, long *number)
{
    PyObject *found = PyObject_GetAttr(value, kept(module, name));
    if (!found)
        return -1;
    *number = PyLong_AsLong(found);
    Py_DECREF(found);
    return *number == -1 && PyErr_Occurred() ? -1 : 0;
}

/* The same as a byte. One that is too large for it comes as the largest, which the library refuses of each of them. */
static int byte_of(PyObject *module, PyObject *value, enum kept name, uint8_t *byte)
{
    long number;
    if (number_of(module, value, name, &number))
        return -1;
    *byte = number >= 0 && number < UINT8_MAX ? (uint8_t)number : UINT8_MAX;
    return 0;
}

static int add_date(PyObject *module, PyObject *value, timefd_moment *moment)
{
    long year;
    moment->known |= TIMEFD_HAS_DATE;
    if (number_of(module, value, YEAR, &year) || byte_of(module, value, MONTH, &moment->month))
        return -1;
    moment->year = year >= INT32_MIN && year <= INT32_MAX ? (int32_t)year : INT32_MAX;
    return byte_of(module, value, DAY, &moment->day);
}

static int add_time(PyObject *module, PyObject *value, timefd_moment *moment)
{
    long microsecond;
    moment->known |= TIMEFD_HAS_TIME;
    if (byte_of(module, value, HOUR, &moment->hour) || byte_of(module, value, MINUTE, &moment->minute) ||
        byte_of(module, value, SECOND, &moment->second) || number_of(module, value, MICROSECOND, &microsecond))
        return -1;
    moment->nanosecond = microsecond >= 0 && microsecond < 1000000 ? (uint32_t)microsecond * 1000 : UINT32_MAX;
    return 0;
}

/* Adds a timedelta, which is how far the clock is ahead of UTC. */
static int add_offset(PyObject *module, PyObject *offset, timefd_moment *moment)
{
    long days, seconds, microseconds;
    moment->known |= TIMEFD_HAS_OFFSET;
    if (number_of(module, offset, DAYS, &days) || number_of(module, offset, SECONDS, &seconds) ||
        number_of(module, offset, MICROSECONDS, &microseconds))
        return -1;
    if (microseconds) {
        raise_made("broken_offset", "(O)", offset);
        return -1;
    }
    moment->offset_seconds = (int32_t)(days * DAY_SECONDS + seconds);
    return 0;
}

/* Adds the offset of a time or datetime, where it has one. */
static int add_offset_of(PyObject *module, PyObject *value, timefd_moment *moment)
{
    PyObject *offset = PyObject_CallMethodObjArgs(value, kept(module, UTCOFFSET), NULL);
    if (!offset)
        return -1;
    int failed = offset == Py_None ? 0 : add_offset(module, offset, moment);
    Py_DECREF(offset);
    return failed;
}

static bool is_of(PyObject *module, PyObject *value, enum kept class)
{
    return PyType_IsSubtype(Py_TYPE(value), (PyTypeObject *)kept(module, class));
}

int moment_of(PyObject *module, PyObject *value, timefd_moment *moment)
{
    *moment = (timefd_moment){0};
    bool has_date = is_of(module, value, DATE_CLASS);
    bool has_time = is_of(module, value, has_date ? DATETIME_CLASS : TIME_CLASS);
    if (!has_date && !has_time) {
        PyErr_Format(PyExc_TypeError, "a moment has to be a date, time or datetime of the module datetime, not %R", Py_TYPE(value));
        return -1;
    }
    if (has_date && add_date(module, value, moment))
        return -1;
    if (has_time && (add_time(module, value, moment) || add_offset_of(module, value, moment)))
        return -1;
    return 0;
}

static PyObject *zone_of(PyObject *module, const timefd_moment *moment)
{
    if (!(moment->known & TIMEFD_HAS_OFFSET)) {
        Py_INCREF(Py_None);
        return Py_None;
    }
    PyObject *offset = PyObject_CallFunction(kept(module, TIMEDELTA_CLASS), "ii", 0, (int)moment->offset_seconds);
    PyObject *zone = offset ? PyObject_CallFunctionObjArgs(kept(module, TIMEZONE_CLASS), offset, NULL) : NULL;
    Py_XDECREF(offset);
    return zone;
}

/* The value of a moment that has this zone, or None as its zone. */
static PyObject *value_in(PyObject *module, const timefd_moment *it, PyObject *zone)
{
    int microsecond = (int)(it->nanosecond / 1000);
    switch (it->known & (TIMEFD_HAS_DATE | TIMEFD_HAS_TIME)) {
    case TIMEFD_HAS_DATE | TIMEFD_HAS_TIME:
        return PyObject_CallFunction(kept(module, DATETIME_CLASS), "iiiiiiiO", (int)it->year, it->month, it->day, it->hour,
                                     it->minute, it->second, microsecond, zone);
    case TIMEFD_HAS_DATE:
        return PyObject_CallFunction(kept(module, DATE_CLASS), "iii", (int)it->year, it->month, it->day);
    case TIMEFD_HAS_TIME:
        return PyObject_CallFunction(kept(module, TIME_CLASS), "iiiiO", it->hour, it->minute, it->second, microsecond, zone);
    default:
        Py_INCREF(zone);
        return zone;
    }
}

PyObject *value_of(PyObject *module, const timefd_moment *moment)
{
    bool has_date = moment->known & TIMEFD_HAS_DATE, has_time = moment->known & TIMEFD_HAS_TIME;
    bool has_offset = moment->known & TIMEFD_HAS_OFFSET;
    if (!moment->known)
        return raise_made("nothing_read", "()");
    if (has_date && has_offset && !has_time)
        return raise_made("date_with_offset", "()");
    if (has_date && (moment->year < 1 || moment->year > 9999))
        return raise_made("year_out_of_range", "(i)", (int)moment->year);
    if (has_offset && (moment->offset_seconds <= -DAY_SECONDS || moment->offset_seconds >= DAY_SECONDS))
        return raise_made("offset_out_of_range", "(i)", (int)moment->offset_seconds);
    PyObject *zone = zone_of(module, moment);
    PyObject *value = zone ? value_in(module, moment, zone) : NULL;
    Py_XDECREF(zone);
    return value;
}

/* What the files of the extension share: what it keeps of Python, its arguments, its calls and its errors. */

#ifndef CALLS_H
#define CALLS_H

#define PY_SSIZE_T_CLEAN
/* What Python 3.9 has, so that one extension serves each later Python. */
#define Py_LIMITED_API 0x03090000
#include <Python.h>

#include "timefd.h"

/* What the module keeps: the classes of `datetime`, then the names of their attributes. */
enum kept {
    DATE_CLASS,
    TIME_CLASS,
    DATETIME_CLASS,
    TIMEDELTA_CLASS,
    TIMEZONE_CLASS,
    YEAR,
    MONTH,
    DAY,
    HOUR,
    MINUTE,
    SECOND,
    MICROSECOND,
    UTCOFFSET,
    DAYS,
    SECONDS,
    MICROSECONDS,
    KEPT
};

typedef struct {
    PyObject *kept[KEPT];
} module_state;

static inline PyObject *kept(PyObject *module, enum kept which)
{
    return ((module_state *)PyModule_GetState(module))->kept[which];
}

/* A str, and its UTF-8, which lives as long. */
typedef struct {
    PyObject *object;
    const uint8_t *bytes;
    size_t len;
} utf8_text;

/* Converters of PyArg_ParseTuple: a str, and a number for a language. */
int text_of(PyObject *value, void *text);
int language_of(PyObject *value, void *language);

/* Each raises an error, and returns NULL. By the function of `timefd.raising` of this name, from these arguments; by a status that any
   call may answer, where the last is that of a refused text. */
PyObject *raise_made(const char *maker, const char *arguments, ...);
PyObject *raise_status(uint32_t status, uint32_t language, const utf8_text *text);

/* Moments: of a date, time or datetime, and back. On an error they raise it, and return -1 or NULL. */
int moment_of(PyObject *module, PyObject *value, timefd_moment *moment);
PyObject *value_of(PyObject *module, const timefd_moment *moment);

/* The calls of the module, by its table. */
PyObject *version(PyObject *module, PyObject *none);
PyObject *check(PyObject *module, PyObject *arguments);
PyObject *convert(PyObject *module, PyObject *arguments);
PyObject *convert_format(PyObject *module, PyObject *arguments);
PyObject *warnings(PyObject *module, PyObject *arguments);
PyObject *prepare(PyObject *module, PyObject *arguments);
PyObject *nodes(PyObject *module, PyObject *capsule);
PyObject *format(PyObject *module, PyObject *arguments);
PyObject *format_prepared(PyObject *module, PyObject *arguments);
PyObject *read_moment(PyObject *module, PyObject *arguments);
PyObject *read_prepared(PyObject *module, PyObject *arguments);

#endif

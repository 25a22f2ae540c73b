/* The module `timefd._timefd`: its table of calls, and what it keeps of `datetime`. */

#include "calls.h"

_Static_assert(SIZEOF_LONG == sizeof(long) && SIZEOF_VOID_P == sizeof(void *) && SIZEOF_SIZE_T == sizeof(size_t) &&
                   SIZEOF_WCHAR_T == sizeof(wchar_t),
               "Python's headers are those of a machine with other sizes");

/* The names of what is kept, in the order of `enum kept`. */
static const char *const NAMES[KEPT] = {
    "date",   "time",   "datetime",    "timedelta", "timezone", "year",    "month",        "day",
    "hour",   "minute", "second",      "microsecond", "utcoffset", "days",   "seconds",      "microseconds",
};

static PyMethodDef CALLS[] = {
    {"version", version, METH_NOARGS, "The number of the library's version."},
    {"check", check, METH_VARARGS, "See timefd.check."},
    {"convert", convert, METH_VARARGS, "See timefd.convert."},
    {"convert_format", convert_format, METH_VARARGS, "See timefd.convert_format."},
    {"warnings", warnings, METH_VARARGS, "The numbers of what is suspect in a text."},
    {"prepare", prepare, METH_VARARGS, "A description that is parsed, and the bytes of its longest text."},
    {"nodes", nodes, METH_O, "The nodes of a prepared description as rows of numbers, and its literals."},
    {"format", format, METH_VARARGS, "See timefd.format."},
    {"format_prepared", format_prepared, METH_VARARGS, "See timefd.Format.format."},
    {"read", read_moment, METH_VARARGS, "See timefd.read."},
    {"read_prepared", read_prepared, METH_VARARGS, "See timefd.Format.read."},
    {NULL, NULL, 0, NULL},
};

PyObject *version(PyObject *module, PyObject *none)
{
    (void)module, (void)none;
    return PyLong_FromUnsignedLong(timefd_version());
}

/* Fills the state when the module is imported. */
static int begin(PyObject *module)
{
    module_state *state = PyModule_GetState(module);
    PyObject *datetime = PyImport_ImportModule("datetime");
    if (!datetime)
        return -1;
    bool is_whole = true;
    for (int at = 0; at < KEPT && is_whole; at++) {
        bool is_class = at <= TIMEZONE_CLASS;
        state->kept[at] = is_class ? PyObject_GetAttrString(datetime, NAMES[at]) : PyUnicode_InternFromString(NAMES[at]);
        is_whole = state->kept[at] != NULL;
    }
    Py_DECREF(datetime);
    return is_whole ? 0 : -1;
}

static int traverse(PyObject *module, visitproc visit, void *arg)
{
    module_state *state = PyModule_GetState(module);
    for (int at = 0; state && at < KEPT; at++)
        Py_VISIT(state->kept[at]);
    return 0;
}

static int clear(PyObject *module)
{
    module_state *state = PyModule_GetState(module);
    for (int at = 0; state && at < KEPT; at++)
        Py_CLEAR(state->kept[at]);
    return 0;
}

static void end(void *module)
{
    clear(module);
}

static PyModuleDef_Slot SLOTS[] = {
    {Py_mod_exec, begin},
    {0, NULL},
};

static struct PyModuleDef MODULE = {
    PyModuleDef_HEAD_INIT,
    .m_name = "timefd._timefd",
    .m_doc = "The calls of libtimefd, for the package timefd alone.",
    .m_size = sizeof(module_state),
    .m_methods = CALLS,
    .m_slots = SLOTS,
    .m_traverse = traverse,
    .m_clear = clear,
    .m_free = end,
};

PyMODINIT_FUNC PyInit__timefd(void)
{
    return PyModuleDef_Init(&MODULE);
}

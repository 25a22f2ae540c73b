/* Moments that are written and read by a description, which is a text or was prepared. */

#include <stdlib.h>

#include "calls.h"

/* Enough for most dates. */
#define ROOM 256
#define PREPARED "timefd._timefd.prepared"

/* A description that was parsed: its nodes, and after them the bytes of its literals. */
typedef struct {
    size_t node_count, literal_count;
    timefd_node nodes[];
} prepared;

static uint8_t *literals_of(prepared *it)
{
    return (uint8_t *)(it->nodes + it->node_count);
}

/* A description that is a text. */
typedef struct {
    uint32_t language;
    utf8_text text;
} described;

/* What writes a moment by a description, as timefd_format does. */
typedef timefd_format_answer (*writer)(const void *description, const timefd_moment *moment, uint8_t *buffer, size_t room);

static timefd_format_answer write_by_text(const void *given, const timefd_moment *moment, uint8_t *buffer, size_t room)
{
    const described *it = given;
    return timefd_format(it->language, it->text.bytes, it->text.len, moment, buffer, room);
}

static timefd_format_answer write_by_nodes(const void *given, const timefd_moment *moment, uint8_t *buffer, size_t room)
{
    prepared *it = (prepared *)given;
    return timefd_format_nodes(it->nodes, it->node_count, literals_of(it), it->literal_count, moment, buffer, room);
}

/* What is written; NULL, and no error, where the answer is no text. */
static PyObject *written(writer write, const void *description, const timefd_moment *moment, timefd_format_answer *answer)
{
    uint8_t front[ROOM] = {0};
    *answer = write(description, moment, front, ROOM);
    if (answer->status != TIMEFD_ACCEPTED)
        return NULL;
    if (answer->written == answer->value)
        return PyUnicode_FromStringAndSize((const char *)front, (Py_ssize_t)answer->written);
    uint8_t *whole = calloc(answer->value, 1);
    if (!whole)
        return PyErr_NoMemory();
    *answer = write(description, moment, whole, answer->value);
    PyObject *text = PyUnicode_FromStringAndSize((const char *)whole, (Py_ssize_t)answer->written);
    free(whole);
    return text;
}

/* Raises what an answer says of the moment. Returns whether it says something. */
static bool raise_unwritten(const timefd_format_answer *answer)
{
    bool is_shown = answer->status != TIMEFD_UNSHOWN, is_in_range = answer->status != TIMEFD_OUT_OF_RANGE;
    if (!is_shown)
        raise_made("nothing_shown", "(II)", answer->component, answer->reason);
    if (!is_in_range)
        raise_made("number_out_of_range", "(I)", answer->reason);
    return !is_shown || !is_in_range;
}

PyObject *format(PyObject *module, PyObject *arguments)
{
    described it;
    PyObject *value;
    timefd_moment moment;
    timefd_format_answer answer;
    if (!PyArg_ParseTuple(arguments, "O&OO&", text_of, &it.text, &value, language_of, &it.language))
        return NULL;
    if (moment_of(module, value, &moment))
        return NULL;
    PyObject *text = written(write_by_text, &it, &moment, &answer);
    if (text || PyErr_Occurred() || raise_unwritten(&answer))
        return text;
    return raise_status(answer.status, it.language, &it.text);
}

PyObject *format_prepared(PyObject *module, PyObject *arguments)
{
    PyObject *capsule, *value;
    timefd_moment moment;
    timefd_format_answer answer;
    if (!PyArg_ParseTuple(arguments, "OO", &capsule, &value))
        return NULL;
    prepared *it = PyCapsule_GetPointer(capsule, PREPARED);
    if (!it || moment_of(module, value, &moment))
        return NULL;
    PyObject *text = written(write_by_nodes, it, &moment, &answer);
    if (text || PyErr_Occurred() || raise_unwritten(&answer))
        return text;
    return PyErr_Format(PyExc_SystemError, "libtimefd answered the status %u", answer.status);
}

/* The value that was read; NULL where none was, and no error where the answer says nothing of the moment. */
static PyObject *value_read(PyObject *module, const utf8_text *moment, const timefd_date_answer *answer)
{
    switch (answer->status) {
    case TIMEFD_ACCEPTED:
        return value_of(module, &answer->moment);
    case TIMEFD_UNREAD:
        return raise_made("not_read", "(OIIn)", moment->object, answer->reason, answer->component, (Py_ssize_t)answer->value);
    case TIMEFD_MISSING:
    case TIMEFD_CONTRADICTION:
        return raise_made("no_moment", "(IO)", answer->part, answer->status == TIMEFD_MISSING ? Py_True : Py_False);
    default:
        return NULL;
    }
}

PyObject *read_moment(PyObject *module, PyObject *arguments)
{
    utf8_text text, moment;
    uint32_t language;
    if (!PyArg_ParseTuple(arguments, "O&O&O&", text_of, &text, text_of, &moment, language_of, &language))
        return NULL;
    timefd_date_answer answer = timefd_read_date(language, text.bytes, text.len, moment.bytes, moment.len);
    PyObject *value = value_read(module, &moment, &answer);
    return value || PyErr_Occurred() ? value : raise_status(answer.status, language, &text);
}

PyObject *read_prepared(PyObject *module, PyObject *arguments)
{
    PyObject *capsule;
    utf8_text moment;
    if (!PyArg_ParseTuple(arguments, "OO&", &capsule, text_of, &moment))
        return NULL;
    prepared *it = PyCapsule_GetPointer(capsule, PREPARED);
    if (!it)
        return NULL;
    timefd_date_answer answer =
        timefd_read_nodes(it->nodes, it->node_count, literals_of(it), it->literal_count, moment.bytes, moment.len);
    PyObject *value = value_read(module, &moment, &answer);
    if (value || PyErr_Occurred())
        return value;
    if (answer.status == TIMEFD_NO_MEMORY)
        return PyErr_NoMemory();
    return PyErr_Format(PyExc_SystemError, "libtimefd answered the status %u", answer.status);
}

static void drop(PyObject *capsule)
{
    free(PyCapsule_GetPointer(capsule, PREPARED));
}

PyObject *prepare(PyObject *module, PyObject *arguments)
{
    (void)module;
    described given;
    if (!PyArg_ParseTuple(arguments, "O&O&", text_of, &given.text, language_of, &given.language))
        return NULL;
    const utf8_text *text = &given.text;
    timefd_read_answer answer = timefd_read(given.language, text->bytes, text->len, NULL, 0, NULL, 0);
    if (answer.status != TIMEFD_ACCEPTED)
        return raise_status(answer.status, given.language, text);
    prepared *it = calloc(1, sizeof(prepared) + answer.nodes * sizeof(timefd_node) + answer.literals);
    if (!it)
        return PyErr_NoMemory();
    it->node_count = answer.nodes;
    it->literal_count = answer.literals;
    answer = timefd_read(given.language, text->bytes, text->len, it->nodes, it->node_count, literals_of(it), it->literal_count);
    PyObject *capsule = answer.written ? PyCapsule_New(it, PREPARED, drop) : raise_status(answer.status, given.language, text);
    if (!capsule) {
        free(it);
        return NULL;
    }
    return Py_BuildValue("(NN)", capsule, PyLong_FromSize_t(answer.bytes));
}

/* A node as the row of its numbers, in the order of the header. */
static PyObject *row_of(const timefd_node *it)
{
    return Py_BuildValue("(iiiiiiiiiiiInn)", it->what, it->component, it->padding, it->sign_is_mandatory, it->case_sensitive,
                         it->one_indexed, it->is_uppercase, it->digits, it->trailing_input, it->format, it->ignored, it->bytes,
                         (Py_ssize_t)it->start, (Py_ssize_t)it->count);
}

PyObject *nodes(PyObject *module, PyObject *capsule)
{
    (void)module;
    prepared *it = PyCapsule_GetPointer(capsule, PREPARED);
    PyObject *rows = it ? PyList_New((Py_ssize_t)it->node_count) : NULL;
    for (size_t at = 0; rows && at < it->node_count; at++) {
        PyObject *row = row_of(it->nodes + at);
        if (!row || PyList_SetItem(rows, (Py_ssize_t)at, row))
            Py_CLEAR(rows);
    }
    return rows ? Py_BuildValue("(Ny#)", rows, literals_of(it), (Py_ssize_t)it->literal_count) : NULL;
}

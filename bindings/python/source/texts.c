/* Arguments that are texts and languages, what is wrong with a text, and its conversion. */

#include <stdlib.h>

#include "calls.h"

/* Enough for most sentences and texts. */
#define ROOM 256
/* Enough for each word that the library names. */
#define WORD_ROOM 16

int text_of(PyObject *value, void *to)
{
    const char *bytes;
    Py_ssize_t len;
    if (!PyUnicode_Check(value)) {
        PyErr_Format(PyExc_TypeError, "a text has to be a str, not %R", Py_TYPE(value));
        return 0;
    }
    if (!PyArg_Parse(value, "s#", &bytes, &len))
        return 0;
    *(utf8_text *)to = (utf8_text){value, (const uint8_t *)bytes, (size_t)len};
    return 1;
}

int language_of(PyObject *value, void *to)
{
    if (!PyLong_Check(value)) {
        PyErr_Format(PyExc_TypeError, "a language has to be one of timefd.Language, not %R", Py_TYPE(value));
        return 0;
    }
    long number = PyLong_AsLong(value);
    if (number == -1 && PyErr_Occurred())
        return 0;
    if (number < 0 || number > UINT32_MAX) {
        raise_made("unknown_language", "(O)", value);
        return 0;
    }
    *(uint32_t *)to = (uint32_t)number;
    return 1;
}

PyObject *raise_made(const char *maker, const char *arguments, ...)
{
    va_list given;
    va_start(given, arguments);
    PyObject *values = Py_VaBuildValue(arguments, given);
    va_end(given);
    PyObject *makers = values ? PyImport_ImportModule("timefd.raising") : NULL;
    PyObject *make = makers ? PyObject_GetAttrString(makers, maker) : NULL;
    PyObject *error = make ? PyObject_CallObject(make, values) : NULL;
    if (error)
        PyErr_SetObject((PyObject *)Py_TYPE(error), error);
    Py_XDECREF(values);
    Py_XDECREF(makers);
    Py_XDECREF(make);
    Py_XDECREF(error);
    return NULL;
}

/* Raises the fault of a text, which has this sentence and this nearest word. */
static PyObject *raise_fault(const timefd_diagnosis *diagnosis, const utf8_text *text, const uint8_t *sentence, const uint8_t *word)
{
    const timefd_fault *fault = &diagnosis->fault;
    return raise_made("invalid_description", "(Os#I(nn)s#)", text->object, sentence, (Py_ssize_t)diagnosis->answer.written,
                      fault->code, (Py_ssize_t)fault->start, (Py_ssize_t)fault->end, word, (Py_ssize_t)fault->nearest_written);
}

/* What a text is: how much it holds; or else its fault is raised. */
static PyObject *judged(uint32_t language, const utf8_text *text)
{
    uint8_t front[ROOM] = {0}, word[WORD_ROOM] = {0};
    timefd_diagnosis found = timefd_diagnose(language, text->bytes, text->len, front, ROOM, word, WORD_ROOM);
    if (found.answer.status == TIMEFD_ACCEPTED)
        return PyLong_FromSize_t(found.answer.value);
    if (found.answer.status != TIMEFD_REFUSED || found.fault.out_of_memory)
        return raise_status(found.fault.out_of_memory ? TIMEFD_NO_MEMORY : found.answer.status, language, text);
    if (found.answer.written == found.answer.sentence_len)
        return raise_fault(&found, text, front, word);
    size_t room = found.answer.sentence_len;
    uint8_t *sentence = calloc(room, 1);
    if (!sentence)
        return PyErr_NoMemory();
    found = timefd_diagnose(language, text->bytes, text->len, sentence, room, word, WORD_ROOM);
    raise_fault(&found, text, sentence, word);
    free(sentence);
    return NULL;
}

PyObject *raise_status(uint32_t status, uint32_t language, const utf8_text *text)
{
    if (status == TIMEFD_NO_MEMORY)
        return PyErr_NoMemory();
    if (status == TIMEFD_UNKNOWN_KIND)
        return raise_made("unknown_language", "(I)", language);
    PyObject *value = status == TIMEFD_REFUSED ? judged(language, text) : NULL;
    if (value || !PyErr_Occurred()) {
        PyErr_Format(PyExc_SystemError, "libtimefd answered the status %u", status);
        Py_XDECREF(value);
    }
    return NULL;
}

PyObject *check(PyObject *module, PyObject *arguments)
{
    (void)module;
    utf8_text text;
    uint32_t language;
    if (!PyArg_ParseTuple(arguments, "O&O&", text_of, &text, language_of, &language))
        return NULL;
    return judged(language, &text);
}

PyObject *convert(PyObject *module, PyObject *arguments)
{
    (void)module;
    utf8_text text;
    uint32_t from, to;
    if (!PyArg_ParseTuple(arguments, "O&O&O&", text_of, &text, language_of, &from, language_of, &to))
        return NULL;
    uint8_t front[ROOM] = {0};
    timefd_answer answer = timefd_convert(from, to, text.bytes, text.len, front, ROOM);
    if (answer.status == TIMEFD_NO_CONVERSION)
        return raise_made("no_conversion", "(II)", from, to);
    /* Of two numbers one is no language: the first, or the second where that is one. */
    if (answer.status == TIMEFD_UNKNOWN_KIND)
        return raise_made("unknown_language", "(II)", from, to);
    if (answer.status != TIMEFD_ACCEPTED)
        return raise_status(answer.status, from, &text);
    if (answer.written == answer.value)
        return PyUnicode_FromStringAndSize((const char *)front, (Py_ssize_t)answer.written);
    uint8_t *whole = calloc(answer.value, 1);
    if (!whole)
        return PyErr_NoMemory();
    answer = timefd_convert(from, to, text.bytes, text.len, whole, answer.value);
    PyObject *converted = answer.status == TIMEFD_ACCEPTED
                              ? PyUnicode_FromStringAndSize((const char *)whole, (Py_ssize_t)answer.written)
                              : raise_status(answer.status, from, &text);
    free(whole);
    return converted;
}

/* What was converted, from a buffer that had room for it; or why it wasn't. */
static PyObject *converted_format(const timefd_convert_answer *answer, const uint8_t *buffer, const utf8_text *format)
{
    if (answer->status == TIMEFD_REFUSED)
        return raise_made("format_refused", "(OIn)", format->object, answer->reason, (Py_ssize_t)answer->value);
    if (answer->status != TIMEFD_ACCEPTED)
        return raise_status(answer->status, 0, format);
    return Py_BuildValue("(s#IO)", (const char *)buffer, (Py_ssize_t)answer->written, answer->first_year,
                         answer->whole_minutes ? Py_True : Py_False);
}

PyObject *convert_format(PyObject *module, PyObject *arguments)
{
    (void)module;
    utf8_text format;
    uint32_t dialect;
    if (!PyArg_ParseTuple(arguments, "O&O&", text_of, &format, language_of, &dialect))
        return NULL;
    uint8_t front[ROOM] = {0};
    timefd_convert_answer answer = timefd_convert_format(dialect, format.bytes, format.len, front, ROOM);
    if (answer.status != TIMEFD_ACCEPTED || answer.written == answer.value)
        return converted_format(&answer, front, &format);
    uint8_t *whole = calloc(answer.value, 1);
    if (!whole)
        return PyErr_NoMemory();
    answer = timefd_convert_format(dialect, format.bytes, format.len, whole, answer.value);
    PyObject *converted = converted_format(&answer, whole, &format);
    free(whole);
    return converted;
}

PyObject *warnings(PyObject *module, PyObject *arguments)
{
    (void)module;
    utf8_text text;
    uint32_t language;
    if (!PyArg_ParseTuple(arguments, "O&O&", text_of, &text, language_of, &language))
        return NULL;
    timefd_warning found[TIMEFD_MOST_WARNINGS];
    timefd_warnings_answer answer = timefd_warnings(language, text.bytes, text.len, found, TIMEFD_MOST_WARNINGS);
    if (answer.status != TIMEFD_ACCEPTED)
        return raise_status(answer.status, language, &text);
    PyObject *numbers = PyTuple_New((Py_ssize_t)answer.written);
    for (size_t at = 0; numbers && at < answer.written; at++) {
        PyObject *number = PyLong_FromUnsignedLong(found[at].code);
        if (!number || PyTuple_SetItem(numbers, (Py_ssize_t)at, number)) {
            Py_DECREF(numbers);
            return NULL;
        }
    }
    return numbers;
}

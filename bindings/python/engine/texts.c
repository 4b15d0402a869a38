/* Strings of Python as code units and back, and names. */
#include "engine.h"

#include <stdlib.h>

static bool has_room(units *units, size_t count)
{
    units->count = 0;
    units->at = count <= sizeof units->room / sizeof *units->room ? units->room : malloc(count * sizeof *units->at);
    if (!units->at)
        PyErr_NoMemory();
    return units->at;
}

void drop_units(units *units)
{
    if (units->at != units->room)
        free(units->at);
}

/* The code units of well-formed UTF-8. */
static void widen(units *units, const unsigned char *at, const unsigned char *end)
{
    while (at < end) {
        uint32_t code = *at++;
        size_t more = code < 0x80 ? 0 : code < 0xE0 ? 1 : code < 0xF0 ? 2 : 3;
        code &= more ? 0x3Fu >> more : 0x7F;
        for (; more; more--)
            code = code << 6 | (*at++ & 0x3F);
        if (code > 0xFFFF) {
            units->at[units->count++] = (uint16_t)(0xD7C0 + (code >> 10));
            code = 0xDC00 | (code & 0x3FF);
        }
        units->at[units->count++] = (uint16_t)code;
    }
}

/* Units of a string, lone surrogates too. False where it is no string, or memory was refused: the exception is set. */
bool units_of(PyObject *text, units *units)
{
    Py_ssize_t size;
    if (!PyUnicode_Check(text)) {
        PyErr_Format(PyExc_TypeError, "a string is wanted: %R", text);
        return false;
    }
    const char *bytes = PyUnicode_AsUTF8AndSize(text, &size);
    if (bytes) {
        if (!has_room(units, (size_t)size))
            return false;
        widen(units, (const unsigned char *)bytes, (const unsigned char *)bytes + size);
        return true;
    }
    PyErr_Clear();
    PyObject *wide = PyUnicode_AsEncodedString(text, "utf-16-le", "surrogatepass");
    bool is = wide && has_room(units, (size_t)PyBytes_Size(wide) / 2);
    const unsigned char *at = is ? (const unsigned char *)PyBytes_AsString(wide) : NULL;
    for (Py_ssize_t left = is ? PyBytes_Size(wide) : 0; left > 0; left -= 2, at += 2)
        units->at[units->count++] = (uint16_t)(at[0] | at[1] << 8);
    Py_XDECREF(wide);
    return is;
}

/* The string of code units: a pair of surrogates is one character, a lone one is itself. */
PyObject *text_of(const uint16_t *units, size_t count)
{
    int order = -1;
    unsigned high = 0;
    for (size_t at = 0; at < count; at++)
        high |= units[at];
    if (high < 0x80 && count <= 256) {
        char plain[256];
        for (size_t at = 0; at < count; at++)
            plain[at] = (char)units[at];
        return PyUnicode_FromStringAndSize(plain, (Py_ssize_t)count);
    }
    const uint16_t one = 1;
    order = *(const char *)&one ? -1 : 1;
    return PyUnicode_DecodeUTF16((const char *)units, (Py_ssize_t)(2 * count), "surrogatepass", &order);
}

static bool is_letter(char c)
{
    return (c >= 'a' && c <= 'z') || (c >= 'A' && c <= 'Z') || c == '_';
}

const char *name_of(PyObject *text, Py_ssize_t *size)
{
    const char *bytes = PyUnicode_Check(text) ? PyUnicode_AsUTF8AndSize(text, size) : NULL;
    if (!bytes) {
        PyErr_Clear();
        return NULL;
    }
    bool is = *size && is_letter(*bytes);
    for (Py_ssize_t at = 1; is && at < *size; at++)
        is = is_letter(bytes[at]) || (bytes[at] >= '0' && bytes[at] <= '9') || bytes[at] == '-';
    return is ? bytes : NULL;
}

/* Lines of the protocol, sent, and their replies read (lines.h). */
#include "lines.h"

#include <stdio.h>

/* ---- sending a line */

static bool put(lines *to, const char *bytes, size_t size)
{
    if (to->size + size > to->room) {
        size_t room = 2 * (to->size + size) + 256;
        char *block = realloc(to->line, room);
        if (!block)
            return !(to->is_refused_memory = true);
        to->line = block;
        to->room = room;
    }
    memcpy(to->line + to->size, bytes, size);
    to->size += size;
    return true;
}

/* The answer of a Python object: the lines that its method `line` gives, each with a line feed. */
static uint32_t run_by_object(lines *by, const char *method, const char *line, Py_ssize_t size, const char **answer, size_t *answer_size)
{
    PyObject *given = line ? PyObject_CallMethod(by->object, method, "s#", line, size) : PyObject_CallMethod(by->object, method, NULL);
    PyObject *end = given ? PyUnicode_FromString("\n") : NULL, *joined = end ? PyUnicode_Join(end, given) : NULL;
    Py_ssize_t text_size = 0;
    Py_XDECREF(by->text);
    by->text = joined ? PyUnicode_Concat(joined, end) : NULL;
    Py_XDECREF(given);
    Py_XDECREF(end);
    Py_XDECREF(joined);
    *answer = by->text ? PyUnicode_AsUTF8AndSize(by->text, &text_size) : NULL;
    *answer_size = text_size == 1 ? 0 : (size_t)text_size;
    return *answer ? OWL_OK : OWL_MEMORY; /* with an exception, which is raised then */
}

static uint32_t status_of(uint32_t status)
{
    return status == DONE ? OWL_OK : status == CLOSED_HANDLE ? OWL_CLOSED : OWL_MEMORY;
}

uint32_t lines_run(owl_document *document, const char *line, size_t size, const char **answer, size_t *answer_size)
{
    lines *by = document->held;
    if (!document->is_open)
        return OWL_CLOSED;
    if (by->object)
        return run_by_object(by, "line", line, (Py_ssize_t)size, answer, answer_size);
    uint32_t status = by->library.line(&by->session, (const uint8_t *)line, size, answer_size);
    status = status ? status : by->library.answer(&by->session, (const uint8_t **)answer, answer_size);
    return status_of(status);
}

uint32_t lines_end(owl_document *document, const char **answer, size_t *answer_size)
{
    lines *by = document->held;
    if (!document->is_open)
        return OWL_CLOSED;
    if (by->object)
        return run_by_object(by, "finish", NULL, 0, answer, answer_size);
    uint32_t status = by->library.finish(&by->session, answer_size);
    status = status ? status : by->library.answer(&by->session, (const uint8_t **)answer, answer_size);
    return status_of(status);
}

/* Which refusal a word is, by its number. */
static uint32_t refusal_of(const char *word)
{
    static const char *const names[] = {"ok", "syntax", "busy", "foreign", "unknown", "wrong-kind", "hierarchy", "not-found", "not-supported",
                                        "invalid-character", "selector", "index-size", "type", "limit"};
    for (uint32_t at = 1; at < sizeof names / sizeof *names; at++)
        if (!strncmp(word, names[at], strlen(names[at])) && word[strlen(names[at])] == '\n')
            return at;
    return OWL_SYNTAX;
}

static void put_number(lines *to, uint32_t number)
{
    char digits[12];
    put(to, digits, (size_t)snprintf(digits, sizeof digits, "%u", number));
}

/* Units as a string of a line. What makes the line too long is left out: it is refused all the same. */
static void put_string(lines *to, const uint16_t *units, size_t count)
{
    put(to, "\"", 1);
    for (size_t at = 0; at < count && to->size <= LONGEST; at++) {
        char text[8] = {(char)units[at]};
        bool is_plain = units[at] >= ' ' && units[at] <= '~';
        if (is_plain && units[at] != '"' && units[at] != '\\')
            put(to, text, 1);
        else
            put(to, text, (size_t)snprintf(text, sizeof text, is_plain ? "\\%c" : "\\u%04x", units[at]));
    }
    put(to, "\"", 1);
}

/* Writes a line: in the form stand %n for a node's number, %u for another one, %b for bytes with their size, %s for units with their count as a string. */
static void put_line(lines *to, const lines_owner *owner, const char *form, va_list words)
{
    to->size = 0;
    put(to, owner->word, strlen(owner->word));
    put(to, " ", 1);
    for (const char *at = form; *at; at++) {
        const void *text = *at == '%' && (at[1] == 'b' || at[1] == 's') ? va_arg(words, const void *) : NULL;
        if (*at != '%')
            put(to, at, 1);
        else if (*++at == 'b')
            put(to, text, va_arg(words, size_t));
        else if (*at == 's')
            put_string(to, text, va_arg(words, size_t));
        else if (*at == 'n' && !put(to, &owner->letter, 1))
            return;
        else
            put_number(to, va_arg(words, uint32_t));
    }
}

/* Writes a line, runs it, and keeps the value of its reply. */
uint32_t run(owl_document *document, uint32_t place, const char *form, ...)
{
    lines *by = document->held;
    const char *answer;
    size_t size;
    va_list words;
    if (!document->is_open)
        return OWL_CLOSED;
    va_start(words, form);
    put_line(by, &by->owners[place], form, words);
    va_end(words);
    if (by->is_refused_memory)
        return OWL_MEMORY;
    uint32_t status = by->size > LONGEST ? OWL_SYNTAX : lines_run(document, by->line, by->size, &answer, &size);
    if (status)
        return status;
    if (size < strlen(by->owners[place].word) + sizeof " ok")
        return OWL_SYNTAX;
    answer += strlen(by->owners[place].word) + 1;
    by->value = answer + 2 + (answer[2] == ' ');
    return *answer == '!' ? refusal_of(answer + 2) : OWL_OK;
}

/* ---- reading replies */

/* The number of a node's name, and the place after it. */
const char *read_number(const char *name, uint32_t *number)
{
    bool is_null = *name == 'n' && name[1] == 'u';
    *number = is_null ? (uint32_t)NONE : 0;
    for (name++; *name >= '0' && *name <= '9'; name++)
        *number = *number * 10 + (uint32_t)(*name - '0');
    while (*name >= 'a' && *name <= 'z')
        name++;
    return name;
}

owl_node node_at(uint32_t place, uint32_t number)
{
    return number == NONE ? OWL_NONE : (owl_node){place, number};
}

bool read_nodes(lines *by, uint32_t place, size_t *count)
{
    const char *at = by->value;
    for (*count = 0; (*at == '[' || *at == ',') && at[1] >= 'a' && at[1] <= 'z'; ++*count) {
        if (*count == by->node_room) {
            size_t room = 2 * by->node_room + 64;
            owl_node *block = realloc(by->nodes, room * sizeof *block);
            if (!block)
                return false;
            by->nodes = block;
            by->node_room = room;
        }
        by->nodes[*count].owner = place;
        at = read_number(at + 1, &by->nodes[*count].number);
    }
    return true;
}

static uint16_t digit(char c)
{
    return (uint16_t)(c <= '9' ? c - '0' : c - 'a' + 10);
}

bool read_units(lines *by, size_t *count)
{
    size_t room = 0;
    for (const char *end = by->value + 1; *end != '\n'; end++)
        room++;
    if (room > by->unit_room) {
        uint16_t *block = realloc(by->units, room * sizeof *block);
        if (!block)
            return false;
        by->units = block;
        by->unit_room = room;
    }
    *count = 0;
    for (const char *at = by->value + 1; *at != '"' && *at != '\n'; at++) {
        bool is_escape = *at == '\\' && *++at == 'u';
        if (is_escape && strcspn(at + 1, "\n") < 4)
            break;
        by->units[(*count)++] = is_escape ? (uint16_t)(digit(at[1]) << 12 | digit(at[2]) << 8 | digit(at[3]) << 4 | digit(at[4])) : (uint16_t)*at;
        at += is_escape ? 4 : 0;
    }
    return true;
}

/*
 * How owlantimony_dom.h puts lines of the protocol together and takes answers apart. A program includes that header, not this one.
 * All that begins with owli_ is its own.
 */
#ifndef OWLANTIMONY_LINES_H
#define OWLANTIMONY_LINES_H

#include "owlantimony.h"

#include <stdio.h>
#include <stdlib.h>
#include <string.h>

#ifdef __cplusplus
extern "C" {
#endif

/* What a call answers: that it is done, a refusal by its number in docs/PROTOCOL.md, or what else came between. */
typedef enum owl_status {
    OWL_OK = 0,
    OWL_SYNTAX = 1,            /* a type or words that the call can't take, a text that is no UTF-8, or a line past 65,536 bytes */
    OWL_BUSY = 2,              /* the page has the turn: this header ends it, so nobody sees this */
    OWL_FOREIGN = 3,           /* a node is another owner's; no line was sent */
    OWL_UNKNOWN = 4,           /* a node is not there, or is OWL_NONE and the call does not say that it may be */
    OWL_WRONG_KIND = 5,        /* a node is not of the kind that the call asks for */
    OWL_HIERARCHY = 6,         /* HierarchyRequestError */
    OWL_NOT_FOUND = 7,         /* NotFoundError */
    OWL_NOT_SUPPORTED = 8,     /* NotSupportedError */
    OWL_INVALID_CHARACTER = 9, /* the name of an element or an attribute is none here */
    OWL_SELECTOR = 10,         /* the text is no selector here */
    OWL_INDEX_SIZE = 11,       /* IndexSizeError */
    OWL_TYPE = 12,             /* TypeError */
    OWL_LIMIT = 13,            /* one owner has made as many as it may */
    OWL_MEMORY = 14,           /* memory was refused: every later call but owl_close answers so, and nothing more is done */
    OWL_CLOSED = 15,           /* the document is not open, or has no such owner */
    OWL_SHORT = 16,            /* the array is too short: it is filled, and the count that it needs is written */
    OWL_OPEN = 17              /* the document is open already */
} owl_status;

/* Gives what a status says, as a text that stays: the refusal's name, or one line without its end. */
static inline const char *owl_message(owl_status status)
{
    static const char *const names[] = {"ok",        "syntax",        "busy",              "foreign",  "unknown",    "wrong-kind",
                                        "hierarchy", "not-found",     "not-supported",     "invalid-character", "selector", "index-size",
                                        "type",      "limit",         "memory was refused", "the document is not open",
                                        "the array is too short", "the document is open already"};
    return (unsigned)status <= OWL_OPEN ? names[status] : "no status";
}

/* A text that grows. Where memory is refused it stays as it is, and says so. */
typedef struct owli_text {
    char *bytes;
    size_t size, room;
    bool has_failed;
} owli_text;

static inline void owli_put(owli_text *text, const char *bytes, size_t size)
{
    if (text->has_failed)
        return;
    if (text->size + size + 1 > text->room) {
        size_t room = 2 * (text->size + size) + 256;
        char *block = (char *)realloc(text->bytes, room);
        if (!block) {
            text->has_failed = true;
            return;
        }
        text->bytes = block;
        text->room = room;
    }
    memcpy(text->bytes + text->size, bytes, size);
    text->size += size;
    text->bytes[text->size] = 0;
}

static inline bool owli_is_word(const char *word)
{
    bool is_word = word[0] && word[0] != '"';
    for (const char *at = word; *at; at++)
        is_word = is_word && *at > ' ' && *at <= '~';
    return is_word;
}

/* A word of a line, with the space in front of it. A text that is no word makes a line that is refused as `syntax`. */
static inline void owli_word(owli_text *text, const char *word)
{
    const char *put = owli_is_word(word) ? word : " ";
    owli_put(text, " ", 1);
    owli_put(text, put, strlen(put));
}

/* A name in a line. In place of a text that is no word stands a word that is no name: it is refused so, and nothing has it. */
static inline void owli_name(owli_text *text, const char *name)
{
    owli_word(text, owli_is_word(name) ? name : "-");
}

/* How many bytes the UTF-8 character at `at` has, and its code point; 0 if none begins there. Surrogates are taken. */
static inline size_t owli_character(const unsigned char *at, uint32_t *code)
{
    static const uint32_t least[] = {0, 0x80, 0x800, 0x10000};
    size_t more = at[0] < 0x80 ? 0 : at[0] < 0xE0 ? 1 : at[0] < 0xF0 ? 2 : 3;
    *code = more ? at[0] & (0x3Fu >> more) : at[0];
    for (size_t i = 1; i <= more; i++) {
        if ((at[i] & 0xC0) != 0x80)
            return 0;
        *code = *code << 6 | (at[i] & 0x3Fu);
    }
    return *code >= least[more] && *code <= 0x10FFFF && (at[0] & 0xC0) != 0x80 && at[0] < 0xF8 ? more + 1 : 0;
}

/* A string of a line, with the space in front of it, of a text in UTF-8. What is none makes a line that is refused as `syntax`. */
static inline void owli_string(owli_text *text, const char *value)
{
    const unsigned char *at = (const unsigned char *)value;
    owli_put(text, " \"", 2);
    while (*at) {
        uint32_t code;
        char unit[16];
        size_t size = owli_character(at, &code);
        if (!size) {
            owli_put(text, "\\!", 2);
            break;
        }
        at += size;
        if (code == '"' || code == '\\')
            snprintf(unit, sizeof unit, "\\%c", (int)code);
        else if (code >= 0x20 && code < 0x7F)
            snprintf(unit, sizeof unit, "%c", (int)code);
        else if (code < 0x10000)
            snprintf(unit, sizeof unit, "\\u%04x", (unsigned)code);
        else
            snprintf(unit, sizeof unit, "\\u%04x\\u%04x", (unsigned)(0xD7C0 + (code >> 10)), (unsigned)(0xDC00 + (code & 0x3FF)));
        owli_put(text, unit, strlen(unit));
    }
    owli_put(text, "\"", 1);
}

/* Writes a code point as UTF-8, and gives the place after it. */
static inline char *owli_write_character(char *to, uint32_t code)
{
    if (code < 0x80) {
        *to++ = (char)code;
    } else if (code < 0x800) {
        *to++ = (char)(0xC0 | code >> 6);
        *to++ = (char)(0x80 | (code & 0x3F));
    } else if (code < 0x10000) {
        *to++ = (char)(0xE0 | code >> 12);
        *to++ = (char)(0x80 | (code >> 6 & 0x3F));
        *to++ = (char)(0x80 | (code & 0x3F));
    } else {
        *to++ = (char)(0xF0 | code >> 18);
        *to++ = (char)(0x80 | (code >> 12 & 0x3F));
        *to++ = (char)(0x80 | (code >> 6 & 0x3F));
        *to++ = (char)(0x80 | (code & 0x3F));
    }
    return to;
}

/* Reads a code unit of a string of an answer, and gives the place after it. */
static inline const char *owli_unit(const char *from, uint32_t *unit)
{
    if (from[0] != '\\') {
        *unit = (unsigned char)from[0];
        return from + 1;
    }
    if (from[1] != 'u') {
        *unit = (unsigned char)from[1];
        return from + 2;
    }
    char digits[5] = {from[2], from[3], from[4], from[5], 0};
    *unit = (uint32_t)strtoul(digits, NULL, 16);
    return from + 6;
}

/* Puts the text of a string of an answer in the string's own place, as UTF-8 with a byte 0 after it. A pair of surrogates is joined, a
 * lone one is written as the three bytes that it would have. */
static inline char *owli_unquote(char *value)
{
    char *to = value;
    const char *from = value + 1;
    while (*from && *from != '"') {
        uint32_t unit, low;
        from = owli_unit(from, &unit);
        if (unit >= 0xD800 && unit < 0xDC00 && *from && *from != '"') {
            const char *behind = owli_unit(from, &low);
            if (low >= 0xDC00 && low < 0xE000) {
                unit = 0x10000 + ((unit - 0xD800) << 10) + (low - 0xDC00);
                from = behind;
            }
        }
        to = owli_write_character(to, unit);
    }
    *to = 0;
    return value;
}

/* The status that a refusal's name says. */
static inline owl_status owli_refusal(const char *name)
{
    for (int status = OWL_SYNTAX; status <= OWL_LIMIT; status++)
        if (!strcmp(name, owl_message((owl_status)status)))
            return (owl_status)status;
    return OWL_SYNTAX;
}

#ifdef __cplusplus
}
#endif

#endif

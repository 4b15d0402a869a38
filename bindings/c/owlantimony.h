/*
 * Owlantimony in a C program: sessions of the line protocol (docs/PROTOCOL.md). C99, and C++ may include it.
 *
 * Nodes without the protocol's lines are in owlantimony_dom.h, which stands on this header.
 *
 * Link with -lowlantimony (`pkg-config --cflags --libs owlantimony`), or with bindings/out/libowlantimony.a.
 *
 *     owlantimony_session session = OWLANTIMONY_SESSION_INIT;
 *     const char *text;
 *     size_t size;
 *     if (owlantimony_new(&session) != OWLANTIMONY_DONE) ...
 *     if (owlantimony_line(&session, "p new element div", 17, &size) != OWLANTIMONY_DONE) ...
 *     if (owlantimony_answer(&session, &text, &size) == OWLANTIMONY_DONE)
 *         fputs(text, stdout);
 *     owlantimony_drop(&session);
 *
 * What the program has to keep:
 *   - A session begins as OWLANTIMONY_SESSION_INIT. After that only the functions below write it; it may be moved, but never copied to
 *     a second one that is used beside it.
 *   - One call at a time has a session, and a session stays on the thread that opened it. Other sessions may be used by other threads.
 *   - The blocks that a call is given do not overlap each other, and none is 2^63 bytes or more. The bytes of a line or a word are
 *     initialised, and so are those of a buffer.
 *   - malloc, realloc and free are those of one allocator, and give blocks aligned as C wants it. No call is made from a signal
 *     handler, nor from the child of a fork of a program with threads.
 */
#ifndef OWLANTIMONY_H
#define OWLANTIMONY_H

#include <stdbool.h>
#include <stddef.h>
#include <stdint.h>

#define OWLANTIMONY_VERSION_MAJOR 0
#define OWLANTIMONY_VERSION_MINOR 1
#define OWLANTIMONY_VERSION_PATCH 0
#define OWLANTIMONY_VERSION "0.1.0"
/* Grows with the version, so that a program may compare it: 0.1.0 is 100. */
#define OWLANTIMONY_VERSION_NUMBER (OWLANTIMONY_VERSION_MAJOR * 10000 + OWLANTIMONY_VERSION_MINOR * 100 + OWLANTIMONY_VERSION_PATCH)

#ifdef __cplusplus
extern "C" {
#endif

/* What a call answers. */
typedef enum owlantimony_status {
    OWLANTIMONY_DONE = 0,          /* it did what it is for */
    OWLANTIMONY_CLOSED_HANDLE = 1, /* the session is closed */
    OWLANTIMONY_MEMORY = 2,        /* memory was refused to a line, an ending or a view, this one or one before: then every call but
                                      owlantimony_drop answers so from now on; or to owlantimony_new or owlantimony_answer alone */
    OWLANTIMONY_SHORT = 3,         /* the buffer is too short; nothing is lost, and the size that it needs is written */
    OWLANTIMONY_OWNER = 4,         /* the word is no owner's */
    OWLANTIMONY_OPEN_HANDLE = 5,   /* the session is open already */
    OWLANTIMONY_NULL = 6           /* a pointer is null that may not be; nothing was done */
} owlantimony_status;

/* A session. Its fields are the library's. */
typedef struct owlantimony_session {
    bool is_open;
    void *held;
} owlantimony_session;

/* What a session is before it is opened: closed. */
#define OWLANTIMONY_SESSION_INIT {false, NULL}

/*
 * The library's own functions, for a language that reaches them itself. No pointer is null, also where its size is 0, and a size of bytes
 * follows their address. Their contracts are proved (crates/dom_c/src/exports.rt).
 */
uint32_t dom_session_new(owlantimony_session *session);
uint32_t dom_session_line(owlantimony_session *session, const uint8_t *line, size_t line_size, size_t *size);
uint32_t dom_session_finish(owlantimony_session *session, size_t *size);
uint32_t dom_session_text(owlantimony_session *session, uint8_t *buffer, size_t buffer_size, size_t *size);
uint32_t dom_session_answer(owlantimony_session *session, const uint8_t **text, size_t *size);
uint32_t dom_session_view(owlantimony_session *session, const uint8_t *owner, size_t owner_size, uint8_t *buffer, size_t buffer_size,
                          size_t *size);
uint32_t dom_session_drop(owlantimony_session *session);

/* Gives what a status says, as a text that stays: one line without its end. */
static inline const char *owlantimony_message(owlantimony_status status)
{
    switch (status) {
    case OWLANTIMONY_DONE: return "done";
    case OWLANTIMONY_CLOSED_HANDLE: return "the session is closed";
    case OWLANTIMONY_MEMORY: return "memory was refused";
    case OWLANTIMONY_SHORT: return "the buffer is too short";
    case OWLANTIMONY_OWNER: return "the word is no owner's";
    case OWLANTIMONY_OPEN_HANDLE: return "the session is open already";
    case OWLANTIMONY_NULL: return "a pointer is null";
    }
    return "no status";
}

/* Opens a closed session, before its first line.
 *   DONE: it is open.   MEMORY: it stays closed.   OPEN_HANDLE, NULL: nothing was done. */
static inline owlantimony_status owlantimony_new(owlantimony_session *session)
{
    return session ? (owlantimony_status)dom_session_new(session) : OWLANTIMONY_NULL;
}

/* Runs a line, without its line feed, and keeps the text that answers it until the next line or ending. The line may be null where its
 * size is 0.
 *   DONE: *size is that text's size.   CLOSED_HANDLE, MEMORY: *size is 0.   NULL: nothing was done. */
static inline owlantimony_status owlantimony_line(owlantimony_session *session, const void *line, size_t line_size, size_t *size)
{
    if (!session || !size || (!line && line_size))
        return OWLANTIMONY_NULL;
    return (owlantimony_status)dom_session_line(session, line ? (const uint8_t *)line : (const uint8_t *)"", line_size, size);
}

/* Ends the input: an open turn is ended, and the text of that is kept. More lines may follow. Answers as owlantimony_line does. */
static inline owlantimony_status owlantimony_finish(owlantimony_session *session, size_t *size)
{
    return session && size ? (owlantimony_status)dom_session_finish(session, size) : OWLANTIMONY_NULL;
}

/* Copies the text of the last answer to a buffer, with no byte 0 behind it. The buffer may be null where its size is 0.
 *   DONE: all of it was copied, and *size is its size.   SHORT: it needs *size bytes.   CLOSED_HANDLE, MEMORY: *size is 0.
 * But for DONE the buffer is as it was. The text stays until the next owlantimony_line, owlantimony_finish or owlantimony_drop. */
static inline owlantimony_status owlantimony_text(owlantimony_session *session, void *buffer, size_t buffer_size, size_t *size)
{
    uint8_t none = 0;
    if (!session || !size || (!buffer && buffer_size))
        return OWLANTIMONY_NULL;
    return (owlantimony_status)dom_session_text(session, buffer ? (uint8_t *)buffer : &none, buffer_size, size);
}

/* Copies as owlantimony_text does, of the text's lines those that one owner sees: p, or a component such as c1, c2 and c1.1.
 *   OWNER: the word is no owner's, and *size is 0.   The others as owlantimony_text has them. */
static inline owlantimony_status owlantimony_view(owlantimony_session *session, const void *owner, size_t owner_size, void *buffer,
                                                  size_t buffer_size, size_t *size)
{
    uint8_t none = 0;
    if (!session || !size || (!owner && owner_size) || (!buffer && buffer_size))
        return OWLANTIMONY_NULL;
    return (owlantimony_status)dom_session_view(session, owner ? (const uint8_t *)owner : (const uint8_t *)"", owner_size,
                                                buffer ? (uint8_t *)buffer : &none, buffer_size, size);
}

/* Gives the text of the last answer where it stands, with a byte 0 behind it. The bytes are the library's: they are only read, and stay until
 * the next call on the session.
 *   DONE: *text is the text, and *size its size without the byte 0.   CLOSED_HANDLE, MEMORY: *text is null, and *size is 0; where
 *   memory was refused to this call alone, nothing is lost and the session is as it was. */
static inline owlantimony_status owlantimony_answer(owlantimony_session *session, const char **text, size_t *size)
{
    const uint8_t *at = NULL;
    if (!session || !text || !size)
        return OWLANTIMONY_NULL;
    owlantimony_status status = (owlantimony_status)dom_session_answer(session, &at, size);
    *text = (const char *)at;
    return status;
}

/* Closes a session, which may be opened again. That what it held is freed is tested, and in no contract.
 *   DONE: it is closed.   CLOSED_HANDLE: it was.   NULL: nothing was done. */
static inline owlantimony_status owlantimony_drop(owlantimony_session *session)
{
    return session ? (owlantimony_status)dom_session_drop(session) : OWLANTIMONY_NULL;
}

#ifdef __cplusplus
}
#endif

#endif

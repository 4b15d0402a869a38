/*
 * Runs the lines of standard input and writes what answers them, as domrun does. With an owner's word it writes that owner's lines.
 *
 * Usage: example [OWNER] < FILE
 * Exit status: 0; 1 if the input could not be read, 2 if the word is not the word of an owner, 3 if memory ran out, 4 if a write failed.
 */
#include "owlantimony.h"

#include <stdio.h>
#include <stdlib.h>
#include <string.h>

/* Writes what an owner sees of the last answer. */
static int write_view(owlantimony_session *session, const char *owner)
{
    size_t size = 0;
    owlantimony_status status = owlantimony_view(session, owner, strlen(owner), NULL, 0, &size);
    char *text = (char *)calloc(size + 1, 1);
    if (text && (status == OWLANTIMONY_SHORT || status == OWLANTIMONY_DONE))
        status = owlantimony_view(session, owner, strlen(owner), text, size, &size);
    int ended = status == OWLANTIMONY_OWNER ? 2 : !text || status != OWLANTIMONY_DONE ? 3 : fwrite(text, 1, size, stdout) == size ? 0 : 4;
    free(text);
    return ended;
}

/* Writes the last answer, or what an owner sees of it. */
static int write_answer(owlantimony_session *session, const char *owner)
{
    const char *text;
    size_t size;
    if (owner)
        return write_view(session, owner);
    if (owlantimony_answer(session, &text, &size) != OWLANTIMONY_DONE)
        return 3;
    return fwrite(text, 1, size, stdout) == size ? 0 : 4;
}

/* Runs a line, and writes its answer. */
static int run_line(owlantimony_session *session, const char *owner, const char *line, size_t line_size)
{
    size_t size;
    return owlantimony_line(session, line, line_size, &size) == OWLANTIMONY_DONE ? write_answer(session, owner) : 3;
}

/* Runs all lines of the input, the last one also where no line feed ends it, and then ends the input. */
static int run_all(owlantimony_session *session, const char *owner, const char *bytes, size_t count)
{
    size_t at = 0, size;
    while (at < count) {
        const char *feed = memchr(bytes + at, '\n', count - at);
        size_t end = feed ? (size_t)(feed - bytes) : count;
        int ended = run_line(session, owner, bytes + at, end - at);
        if (ended)
            return ended;
        at = end + 1;
    }
    return owlantimony_finish(session, &size) == OWLANTIMONY_DONE ? write_answer(session, owner) : 3;
}

/* All of standard input, with its size, or null. */
static char *read_all(size_t *count)
{
    size_t room = 1 << 16;
    char *bytes = (char *)malloc(room);
    *count = 0;
    while (bytes) {
        *count += fread(bytes + *count, 1, room - *count, stdin);
        if (*count < room)
            return bytes;
        room *= 2;
        char *more = (char *)realloc(bytes, room);
        if (!more)
            free(bytes);
        bytes = more;
    }
    return NULL;
}

int main(int words, char **word)
{
    owlantimony_session session = OWLANTIMONY_SESSION_INIT;
    size_t count;
    char *bytes = read_all(&count);
    int ended = ferror(stdin) ? 1 : !bytes || owlantimony_new(&session) != OWLANTIMONY_DONE ? 3 : 0;
    if (!ended)
        ended = run_all(&session, words > 1 ? word[1] : NULL, bytes, count);
    owlantimony_drop(&session);
    free(bytes);
    return fflush(stdout) && !ended ? 4 : ended;
}

/* What lines.c, neighbours.c and commands.c share: the calls of owlantimony_typed.h that nodes make, by lines of the protocol, as the library exports no
 * typed calls yet. These files go away once it does. A line goes to the library that stands at a path, or to a Python object with the methods of a Session.
 * Turns are the caller's. The neighbours of nodes are kept as the engine answered them, until a change moves them. */
#ifndef OWLANTIMONY_LINES_H
#define OWLANTIMONY_LINES_H

#include "engine.h"

#include <stdlib.h>
#include <string.h>

#define LONGEST 65536

/* What the library exports (../../c/owlantimony.h). */
typedef struct library {
    uint32_t (*new_session)(void *session);
    uint32_t (*line)(void *session, const uint8_t *line, size_t line_size, size_t *size);
    uint32_t (*finish)(void *session, size_t *size);
    uint32_t (*answer)(void *session, const uint8_t **text, size_t *size);
    uint32_t (*drop)(void *session);
} library;

typedef struct known {
    uint32_t parent, first, last, previous, next, count; /* numbers, or NONE; the count of children */
    uint32_t alone;     /* how many neighbours below it are asked for alone still */
    uint32_t walker;    /* one below it, or NONE */
    bool has_parent, has_children; /* whether these are known */
    uint8_t kind;                  /* 0 where it is not known */
} known;

typedef struct lines_owner {
    char word[96];
    char letter;
    known *known;
    size_t count;
} lines_owner;

typedef struct lines {
    library library;
    struct {
        bool is_open;
        void *held;
    } session;
    PyObject *object, *text; /* the object with the methods of a Session, and its last answer */
    lines_owner *owners;
    size_t owner_count;
    char *line; /* the line that is written */
    size_t size, room;
    bool is_refused_memory;
    const char *value; /* of the last reply, which ends in a line feed */
    owl_node *nodes;
    uint16_t *units;
    uint8_t name[65536 + 1];
    size_t node_room, unit_room;
} lines;

enum { NONE = UINT32_MAX };
enum { DONE, CLOSED_HANDLE, MEMORY }; /* of the library */

uint32_t run(owl_document *document, uint32_t place, const char *form, ...);
const char *read_number(const char *name, uint32_t *number);
owl_node node_at(uint32_t place, uint32_t number);
bool read_nodes(lines *by, uint32_t place, size_t *count);
bool read_units(lines *by, size_t *count);
known *known_of(lines *by, uint32_t place, uint32_t number);
void forget_children(lines_owner *owner, uint32_t parent);
void forget_parent(lines_owner *owner, uint32_t node);
void forget_owner(lines_owner *owner);

#endif

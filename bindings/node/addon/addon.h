/*
 * The addon: the engine's typed calls for JavaScript. Each function takes numbers and strings, and answers a number from 0 up, a string, an array, or a
 * negative number: NONE, FOREIGN (owner and number stand in the answers), or REFUSED less a status. Nothing is thrown here, and no JavaScript object is
 * made for a node.
 *
 * A door is an owner of a document, by its number in a table: who has it acts for that owner alone. The answers are an Int32Array that the program lends;
 * what does not fit is counted and left out.
 */
#ifndef OWLANTIMONY_NODE_ADDON_H
#define OWLANTIMONY_NODE_ADDON_H

#include <node_api.h>

#include "owlantimony_typed.h"

enum { NONE = -1, FOREIGN = -2, REFUSED = -100, ILLEGAL = 20, MOST_ARGUMENTS = 7 };

typedef struct door {
    owl_document *document; /* null after it is closed */
    uint32_t owner;
} door;

typedef struct name {
    uint8_t *bytes;
    size_t size;
} name;

/* What the addon has in one environment of Node. */
typedef struct state {
    door *doors;
    size_t door_count, door_room;
    name *names;
    size_t name_count, name_room;
    int32_t *answers;
    size_t answer_room;
    napi_ref lent;
    uint16_t *units;
    size_t unit_room;
} state;

/* The arguments of a call: numbers as far as they are numbers, and the door that the first one names. */
typedef struct call {
    napi_env env;
    state *state;
    door door;
    napi_value values[MOST_ARGUMENTS];
    int32_t numbers[MOST_ARGUMENTS];
} call;

/* Reads the arguments. The first `numbers` have to be numbers, the first of them an open door: else *failed is what is to be answered. */
bool arguments_of(napi_env env, napi_callback_info info, size_t numbers, call *made, napi_value *failed);

/* Reads an argument that has to be a string, into the state's block. False: it is none, or memory was refused. */
bool units_of(call *from, size_t argument, const uint16_t **units, size_t *count);

/* Gives a name by its number. False: there is none. */
bool name_at(const call *from, int32_t number, name *found);

napi_value number(napi_env env, int32_t answer);
napi_value refused(napi_env env, uint32_t status);
napi_value text(napi_env env, const uint16_t *units, size_t count);
napi_value word(napi_env env, const uint8_t *bytes, size_t size);

/* 0 for OK, or the refusal. */
napi_value done(napi_env env, uint32_t status);

/* A truth that a call wrote, or its refusal. */
napi_value truth(napi_env env, uint32_t status, bool is);

/* A node that a call wrote, or its refusal. */
napi_value node(call *from, uint32_t status, owl_node found);

/* Puts the nodes, all the owner's own, into the answers, and gives their count. */
napi_value list(call *from, uint32_t status, const owl_node *nodes, size_t count);

/* Puts a number into the answers, at a place that is counted on. */
void put(state *into, size_t *at, int32_t answer);

/* The owner's own node of a number, or none of a negative one. */
static inline owl_node own(const call *from, int32_t number) {
    owl_node found = {from->door.owner, (uint32_t)number};
    return number < 0 ? OWL_NONE : found;
}

/* The owner who acts, and a node of its own that the program has named. */
#define DOOR from->door.document, from->door.owner
#define NODE(at) own(from, from->numbers[at])

/* A function of the addon. What stands after it in braces answers, `from` has the arguments, and the first `count` of them are numbers. */
#define CALL(function, count)                                                                        \
    static napi_value function##_answered(call *from);                                               \
    static napi_value function(napi_env env, napi_callback_info info) {                              \
        call from;                                                                                   \
        napi_value failed;                                                                           \
        return arguments_of(env, info, count, &from, &failed) ? function##_answered(&from) : failed; \
    }                                                                                                \
    static napi_value function##_answered(call *from)

/* A function that makes one call, which answers a status and nothing else. */
#define CHANGES(function, count, ...) \
    CALL(function, count) { return done(from->env, dom_##function(DOOR, __VA_ARGS__)); }

typedef struct entry {
    const char *word;
    napi_callback function;
} entry;

/* The calls of each file; the last entry has no word. */
extern const entry documents[], trees[], reads[], events[], observers[], ranges[], cursors[];

#endif

/*
 * Lines of the protocol (docs/PROTOCOL.md), run by the typed calls of ../c/owlantimony_typed.h. For tests alone: reading.c reads a line, performing.c,
 * reads.c and things.c make its call, telling.c writes what comes back as lines, and script.c has the turns, which calls do not have. run.c and refused.c
 * are programs over these.
 */
#ifndef LINES_H
#define LINES_H

#include <stdio.h>
#include <stdlib.h>
#include <string.h>

#include "owlantimony_typed.h"

enum { MAX_LINE = 65536, MAX_WORD = 96 };

/* ---- a line that was read */

typedef enum command {
    NEW_ELEMENT, NEW_TEXT, NEW_COMMENT, NEW_FRAGMENT, NEW_DOCUMENT, ATTACH,
    APPEND, INSERT, REPLACE, REMOVE, ADOPT, NORMALIZE,
    SET, UNSET, DATA, REPLACE_DATA, SPLIT, SET_TEXT,
    TREE, ATTR, PARENT, OWNER_DOCUMENT, CHILDREN, CONTAINS, CONNECTED, SHADOW_ROOT, SLOT_OF, ASSIGNED, QUERY, MATCHES,
    RANGE_NEW, RANGE_START, RANGE_END, RANGE_COLLAPSE, RANGE_DROP, RANGE_GET, RANGE_TEXT, EXTRACT, DELETE, INSERT_NODE,
    ITERATOR_NEW, ITERATOR_NEXT, ITERATOR_PREVIOUS, ITERATOR_AT, WALKER_NEW, WALK, WALKER_AT, WALKER_SET,
    LISTEN, UNLISTEN, DISPATCH, OBSERVER, OBSERVE, TAKE, DISCONNECT, MICROTASK, END_TURN
} command;

typedef struct bytes {
    const uint8_t *at;
    size_t size;
} bytes;

/* A node as a line names it. What is spelled as another owner's is not the line's owner's own. */
typedef struct named {
    bool is_own;
    uint32_t number;
} named;

/* A line: whose it is, and what its command asks for. */
typedef struct line {
    bytes owner; /* its word; empty where the line is nobody's */
    bool is_read; /* whether a command follows */
    command command;
    named nodes[3];      /* those of the command, in order; of a dispatch the related one is the second */
    uint32_t numbers[2]; /* numbers, and those of a range, an iterator, a walker or an observer; an action, a side or a move by its number */
    bytes words[2];      /* names, a type and a label */
    const uint16_t *units;
    size_t unit_count, node_count, number_count, word_count;
    uint32_t flags, what_to_show, filter;
} line;

/* Reads a line, without its line feed. Its units hold until the next line is read. */
line read_line(bytes text);

/* Reads the word of a component, and gives how many bytes it has, or 0. */
size_t component_word(bytes text);

/* ---- a script under way */

typedef struct owner {
    char word[MAX_WORD];
    uint32_t attached; /* how many components it attached */
} owner;

typedef struct script {
    owl_document document;
    owner *owners; /* by their place */
    size_t owner_count;
    uint32_t acts; /* the place of the owner whose line it is */
    uint32_t turn; /* the place of the owner whose turn is open */
    FILE *to;
} script;

/* What stands for a component that is not there, and for no open turn. */
enum { NOT_THERE = 0x7FFFFFFF, NO_TURN = 0x7FFFFFFE };

/* Runs a script, and writes what answers it, as domrun does. Gives OK, MEMORY, or a status that no line may see. */
uint32_t run_script(bytes input, FILE *to);

/* All of standard input; without a place where it could not be read. Its block is to be freed. */
bytes read_input(uint8_t **block);

/* Makes the call of a line, and writes what it told, and its reply where it was done. Gives the status. */
uint32_t perform(script *in, const line *read);
uint32_t perform_read(script *in, const line *read);
uint32_t perform_on_things(script *in, const line *read);

/* A node of a line as the call takes it. */
owl_node node_of(const script *in, named node);

/* ---- what is written */

/* Writes the deliveries of the last call. Gives OK, or the status of the call that shows them. */
uint32_t tell(script *in);

/* Each writes a reply of the owner who acts, and gives OK: `ok` alone, or with a value. */
uint32_t say_done(script *in);
uint32_t say_node(script *in, owl_node node);
uint32_t say_nodes(script *in, const owl_node *nodes, size_t count);
uint32_t say_truth(script *in, bool truth);
uint32_t say_number(script *in, const char *letter, uint32_t number);
uint32_t say_units(script *in, const uint16_t *units, size_t count);
uint32_t say_tree(script *in);
uint32_t say_points(script *in, owl_point start, owl_point end);

/* Writes a node as an owner's lines name it, for words that have more than a node. */
void write_node(script *in, uint32_t shown_to, owl_node node);

#endif

/* Iterators, by number. Walkers follow the links of nodes in JavaScript, as filters there are functions. */
#include "addon.h"

/* create_iterator(door, root, what_to_show) */
CALL(create_iterator, 3) {
    uint32_t made = 0;
    uint32_t status = dom_iterator_create(DOOR, own(from, from->numbers[1]), (uint32_t)from->numbers[2], OWL_ACCEPT,
                                          (const uint8_t *)"", 0, &made);
    return status == OWL_OK ? number(from->env, (int32_t)made) : refused(from->env, status);
}

/* A move of an iterator: the node, or NONE. */
#define MOVES(function)                                                             \
    CALL(function, 2) {                                                             \
        owl_node found;                                                             \
        uint32_t status = dom_##function(DOOR, (uint32_t)from->numbers[1], &found); \
        return node(from, status, found);                                           \
    }

MOVES(iterator_next)
MOVES(iterator_previous)

/* iterator_reference(door, iterator): the node; whether it stands before it is in the answers */
CALL(iterator_reference, 2) {
    owl_node found;
    bool before;
    size_t at = 0;
    uint32_t status = dom_iterator_reference(DOOR, (uint32_t)from->numbers[1], &found, &before);
    if (status == OWL_OK)
        put(from->state, &at, before);
    return node(from, status, found);
}

const entry cursors[] = {
    {"createIterator", create_iterator},
    {"iteratorNext", iterator_next},
    {"iteratorPrevious", iterator_previous},
    {"iteratorReference", iterator_reference},
    {NULL, NULL},
};

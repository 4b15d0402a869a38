/* Calls that make nodes and change trees, attributes and data. */
#include "addon.h"

CHANGES(append, 3, NODE(1), NODE(2))
CHANGES(insert, 4, NODE(1), NODE(2), NODE(3))
CHANGES(replace, 4, NODE(1), NODE(2), NODE(3))
CHANGES(remove, 2, NODE(1))
CHANGES(adopt, 3, NODE(1), NODE(2))
CHANGES(normalize, 2, NODE(1))

/* Makes a node of nothing. */
#define MAKES(function)                                \
    CALL(function, 1) {                                \
        owl_node made;                                 \
        uint32_t status = dom_##function(DOOR, &made); \
        return node(from, status, made);               \
    }

MAKES(create_fragment)
MAKES(create_document)

/* create_element(door, name) */
CALL(create_element, 2) {
    name called;
    owl_node made;
    if (!name_at(from, from->numbers[1], &called))
        return refused(from->env, ILLEGAL);
    uint32_t status = dom_create_element(DOOR, called.bytes, called.size, &made);
    return node(from, status, made);
}

/* Makes a node of a string. */
#define MAKES_OF_UNITS(function)                                     \
    CALL(function, 1) {                                              \
        const uint16_t *units;                                       \
        size_t count;                                                \
        owl_node made;                                               \
        if (!units_of(from, 1, &units, &count))                      \
            return refused(from->env, ILLEGAL);                      \
        uint32_t status = dom_##function(DOOR, units, count, &made); \
        return node(from, status, made);                             \
    }

MAKES_OF_UNITS(create_text)
MAKES_OF_UNITS(create_comment)

/* Gives a node a string. */
#define CHANGES_TO_UNITS(function)                                           \
    CALL(function, 2) {                                                      \
        const uint16_t *units;                                               \
        size_t count;                                                        \
        if (!units_of(from, 2, &units, &count))                              \
            return refused(from->env, ILLEGAL);                              \
        return done(from->env, dom_##function(DOOR, NODE(1), units, count)); \
    }

CHANGES_TO_UNITS(set_data)
CHANGES_TO_UNITS(set_text)

/* replace_data(door, node, offset, count, string) */
CALL(replace_data, 4) {
    const uint16_t *units;
    size_t count;
    if (!units_of(from, 4, &units, &count))
        return refused(from->env, ILLEGAL);
    uint32_t offset = (uint32_t)from->numbers[2], cut = (uint32_t)from->numbers[3];
    return done(from->env, dom_replace_data(DOOR, NODE(1), offset, cut, units, count));
}

/* split_text(door, text, offset): the new Text */
CALL(split_text, 3) {
    owl_node made;
    uint32_t status = dom_split_text(DOOR, NODE(1), (uint32_t)from->numbers[2], &made);
    return node(from, status, made);
}

/* set_attribute(door, element, name, string) */
CALL(set_attribute, 3) {
    name called;
    const uint16_t *units;
    size_t count;
    if (!name_at(from, from->numbers[2], &called) || !units_of(from, 3, &units, &count))
        return refused(from->env, ILLEGAL);
    return done(from->env, dom_set_attribute(DOOR, NODE(1), called.bytes, called.size, units, count));
}

/* remove_attribute(door, element, name) */
CALL(remove_attribute, 3) {
    name called;
    if (!name_at(from, from->numbers[2], &called))
        return refused(from->env, ILLEGAL);
    return done(from->env, dom_remove_attribute(DOOR, NODE(1), called.bytes, called.size));
}

const entry trees[] = {
    {"append", append},
    {"insert", insert},
    {"replace", replace},
    {"remove", remove},
    {"adopt", adopt},
    {"normalize", normalize},
    {"createElement", create_element},
    {"createText", create_text},
    {"createComment", create_comment},
    {"createFragment", create_fragment},
    {"createDocument", create_document},
    {"setData", set_data},
    {"setText", set_text},
    {"replaceData", replace_data},
    {"splitText", split_text},
    {"setAttribute", set_attribute},
    {"removeAttribute", remove_attribute},
    {NULL, NULL},
};

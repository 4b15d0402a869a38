/* Live ranges, by number. */
#include "addon.h"

#define RANGE (uint32_t)from->numbers[1]

/* create_range(door) */
CALL(create_range, 1) {
    uint32_t made = 0;
    uint32_t status = dom_range_create(DOOR, &made);
    return status == OWL_OK ? number(from->env, (int32_t)made) : refused(from->env, status);
}

CHANGES(range_set_start, 4, RANGE, NODE(2), (uint32_t)from->numbers[3])
CHANGES(range_set_end, 4, RANGE, NODE(2), (uint32_t)from->numbers[3])
CHANGES(range_collapse, 3, RANGE, from->numbers[2] != 0)
CHANGES(range_drop, 2, RANGE)
CHANGES(range_delete, 2, RANGE)
CHANGES(range_insert, 3, RANGE, NODE(2))

/* range_points(door, range): 0, and the nodes and offsets of both ends in the answers */
CALL(range_points, 2) {
    owl_point start, end;
    size_t at = 0;
    uint32_t status = dom_range_points(DOOR, RANGE, &start, &end);
    if (status != OWL_OK)
        return refused(from->env, status);
    put(from->state, &at, (int32_t)start.node.number);
    put(from->state, &at, (int32_t)start.offset);
    put(from->state, &at, (int32_t)end.node.number);
    put(from->state, &at, (int32_t)end.offset);
    return number(from->env, 0);
}

/* range_text(door, range) */
CALL(range_text, 2) {
    const uint16_t *units;
    size_t count;
    uint32_t status = dom_range_text(DOOR, RANGE, &units, &count);
    return status == OWL_OK ? text(from->env, units, count) : refused(from->env, status);
}

/* range_extract(door, range): the fragment */
CALL(range_extract, 2) {
    owl_node fragment;
    uint32_t status = dom_range_extract(DOOR, RANGE, &fragment);
    return node(from, status, fragment);
}

const entry ranges[] = {
    {"createRange", create_range},
    {"rangeStart", range_set_start},
    {"rangeEnd", range_set_end},
    {"rangeCollapse", range_collapse},
    {"rangeDrop", range_drop},
    {"rangeDelete", range_delete},
    {"rangeInsert", range_insert},
    {"rangePoints", range_points},
    {"rangeText", range_text},
    {"rangeExtract", range_extract},
    {NULL, NULL},
};

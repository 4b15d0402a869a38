/* Calls that read: neighbours, lists, attributes, data, selectors, slots. */
#include "addon.h"

#include <stdlib.h>
#include <string.h>

/* links(door, node): 0, and parent, first and last child, previous and next sibling in the answers: the owner's own, or NONE */
CALL(links, 2) {
    owl_links found;
    size_t at = 0;
    uint32_t status = dom_links(DOOR, NODE(1), &found);
    if (status != OWL_OK)
        return refused(from->env, status);
    const owl_node all[] = {found.parent, found.first, found.last, found.previous, found.next};
    for (size_t place = 0; place < sizeof all / sizeof *all; place++)
        put(from->state, &at, all[place].owner == OWL_NONE.owner ? NONE : (int32_t)all[place].number);
    return number(from->env, 0);
}

/* owner_document(door, node) */
CALL(owner_document, 2) {
    owl_node of;
    uint32_t status = dom_owner_document(DOOR, NODE(1), &of);
    return node(from, status, of);
}

/* children(door, node): their count; they stand in the answers */
CALL(children, 2) {
    const owl_node *nodes;
    size_t count;
    uint32_t status = dom_children(DOOR, NODE(1), &nodes, &count);
    return list(from, status, nodes, count);
}

/* contains(door, node, other) */
CALL(contains, 3) {
    bool does;
    uint32_t status = dom_contains(DOOR, NODE(1), NODE(2), &does);
    return truth(from->env, status, does);
}

/* is_connected(door, node) */
CALL(is_connected, 2) {
    bool is;
    uint32_t status = dom_is_connected(DOOR, NODE(1), &is);
    return truth(from->env, status, is);
}

/* assigned(door, slot): the count of nodes; owner and number of each stand in the answers */
CALL(assigned, 2) {
    const owl_node *nodes;
    size_t count, at = 0;
    uint32_t status = dom_assigned(DOOR, NODE(1), &nodes, &count);
    if (status != OWL_OK)
        return refused(from->env, status);
    for (size_t place = 0; place < count; place++) {
        put(from->state, &at, (int32_t)nodes[place].owner);
        put(from->state, &at, (int32_t)nodes[place].number);
    }
    return number(from->env, (int32_t)count);
}

/* query(door, node, selector): the count of elements; they stand in the answers */
CALL(query, 2) {
    const uint16_t *units;
    const owl_node *nodes;
    size_t count, found;
    if (!units_of(from, 2, &units, &count))
        return refused(from->env, ILLEGAL);
    uint32_t status = dom_query(DOOR, NODE(1), units, count, &nodes, &found);
    return list(from, status, nodes, found);
}

/* matches(door, element, selector) */
CALL(matches, 2) {
    const uint16_t *units;
    size_t count;
    bool does;
    if (!units_of(from, 2, &units, &count))
        return refused(from->env, ILLEGAL);
    uint32_t status = dom_matches(DOOR, NODE(1), units, count, &does);
    return truth(from->env, status, does);
}

/* get_attribute(door, element, name): a string, or NONE */
CALL(get_attribute, 3) {
    name called;
    bool has;
    const uint16_t *units;
    size_t count;
    if (!name_at(from, from->numbers[2], &called))
        return refused(from->env, ILLEGAL);
    uint32_t status =
        dom_get_attribute(DOOR, NODE(1), called.bytes, called.size, &has, &units, &count);
    if (status != OWL_OK)
        return refused(from->env, status);
    return has ? text(from->env, units, count) : number(from->env, NONE);
}

/* What a node has itself, with the arrays in which it stands. */
static uint32_t described(call *from, owl_row *row, owl_answer *answer) {
    uint32_t status = dom_describe(from->door.document, from->door.owner, own(from, from->numbers[1]), row);
    return status == OWL_OK ? dom_answer(from->door.document, answer) : status;
}

/* attributes(door, element): an array of names and values by turns */
CALL(attributes, 2) {
    napi_value made;
    owl_row row;
    owl_answer answer;
    uint32_t status = described(from, &row, &answer);
    if (status != OWL_OK)
        return refused(from->env, status);
    napi_create_array_with_length(from->env, row.attributes.count * 2, &made);
    for (uint32_t at = 0; at < row.attributes.count; at++) {
        owl_attribute has = answer.attributes[row.attributes.at + at];
        napi_set_element(from->env, made, at * 2, word(from->env, answer.bytes + has.name.at, has.name.count));
        napi_set_element(from->env, made, at * 2 + 1, text(from->env, answer.units + has.value.at, has.value.count));
    }
    return made;
}

/* data(door, node): the data of a Text or a Comment */
CALL(data, 2) {
    owl_row row;
    owl_answer answer;
    uint32_t status = described(from, &row, &answer);
    return status == OWL_OK ? text(from->env, answer.units + row.data.at, row.data.count) : refused(from->env, status);
}

/* element_name(door, node): an element's name */
CALL(element_name, 2) {
    owl_row row;
    owl_answer answer;
    uint32_t status = described(from, &row, &answer);
    return status == OWL_OK ? word(from->env, answer.bytes + row.name.at, row.name.count) : refused(from->env, status);
}

/* kind(door, node): OWL_ELEMENT and so on */
CALL(kind, 2) {
    owl_row row;
    uint32_t status = dom_describe(DOOR, NODE(1), &row);
    return status == OWL_OK ? number(from->env, (int32_t)row.kind) : refused(from->env, status);
}

/* all_text(door, node): the data of the Texts below, joined */
CALL(all_text, 2) {
    owl_answer answer;
    size_t count = 0;
    uint32_t status = dom_rows(DOOR, NODE(1));
    if (status != OWL_OK || (status = dom_answer(from->door.document, &answer)) != OWL_OK)
        return refused(from->env, status);
    uint16_t *joined = malloc((answer.unit_count + 1) * sizeof *joined);
    if (joined == NULL)
        return refused(from->env, OWL_MEMORY);
    for (size_t at = 0; at < answer.row_count; at++) {
        owl_span span = answer.rows[at].data;
        if (answer.rows[at].kind != OWL_TEXT)
            continue;
        memcpy(joined + count, answer.units + span.at, span.count * sizeof *joined);
        count += span.count;
    }
    napi_value made = text(from->env, joined, count);
    free(joined);
    return made;
}

const entry reads[] = {
    {"links", links},
    {"ownerDocument", owner_document},
    {"children", children},
    {"contains", contains},
    {"isConnected", is_connected},
    {"assigned", assigned},
    {"query", query},
    {"matches", matches},
    {"getAttribute", get_attribute},
    {"attributes", attributes},
    {"data", data},
    {"elementName", element_name},
    {"kind", kind},
    {"allText", all_text},
    {NULL, NULL},
};

/*
 * Looks beside the reads that lines have: of each node of a tree of random shape, dom_links is beside dom_parent and dom_children, dom_describe beside the
 * first row of dom_rows, and dom_structure beside all its rows. Writes what differs.
 */
#include <stdio.h>
#include <stdlib.h>
#include <string.h>

#include "owlantimony_typed.h"

enum { NODES = 400 };

#define BYTES(text) (const uint8_t *)(text), strlen(text)
#define WANT(fact) ((fact) ? (void)0 : (void)(faults++, fprintf(stderr, "%s:%d: %s\n", __FILE__, __LINE__, #fact)))

static int faults;
static owl_document document = OWL_DOCUMENT_INIT;
static owl_node made[NODES]; /* in the order in which they were made; the first is the document */
static uint64_t seed = 7;

static uint32_t below(uint32_t limit)
{
    seed = seed * UINT64_C(6364136223846793005) + UINT64_C(1442695040888963407);
    return (uint32_t)(seed >> 33) % limit;
}

static bool is_same(owl_node node, owl_node other)
{
    return node.owner == other.owner && node.number == other.number;
}

/* Makes an element with up to two attributes, a Text or a Comment. */
static owl_node node(void)
{
    static const uint16_t units[] = {'a', 0xD83D, 0xDE00, 0, 0xDE00};
    owl_node made_now = OWL_NONE;
    uint32_t kind = below(4);
    if (kind == 0) {
        WANT(dom_create_text(&document, OWL_PAGE, units, below(6), &made_now) == OWL_OK);
    } else if (kind == 1) {
        WANT(dom_create_comment(&document, OWL_PAGE, units, below(6), &made_now) == OWL_OK);
    } else {
        WANT(dom_create_element(&document, OWL_PAGE, BYTES("li"), &made_now) == OWL_OK);
        for (uint32_t count = below(3); count; count--)
            WANT(dom_set_attribute(&document, OWL_PAGE, made_now, BYTES(count == 1 ? "id" : "class"), units, below(6)) == OWL_OK);
    }
    return made_now;
}

/* A tree: each node but the first two is appended to an earlier one, if that one takes it. */
static void make(void)
{
    WANT(dom_open(&document) == OWL_OK && dom_create_element(&document, OWL_PAGE, BYTES("ul"), &made[1]) == OWL_OK);
    WANT(dom_append(&document, OWL_PAGE, made[0], made[1]) == OWL_OK);
    for (uint32_t at = 2; at < NODES; at++) {
        made[at] = node();
        while (dom_append(&document, OWL_PAGE, made[1 + below(at - 1)], made[at]) != OWL_OK)
            ;
    }
}

/* The links of a node are its parent, and its neighbours among that one's children. */
static void try_links(owl_node of)
{
    owl_links links;
    owl_node parent;
    const owl_node *nodes;
    size_t count, place = 0;
    WANT(dom_links(&document, OWL_PAGE, of, &links) == OWL_OK && document.told == 0);
    WANT(dom_children(&document, OWL_PAGE, of, &nodes, &count) == OWL_OK);
    WANT(is_same(links.first, count ? nodes[0] : OWL_NONE) && is_same(links.last, count ? nodes[count - 1] : OWL_NONE));
    WANT(dom_parent(&document, OWL_PAGE, of, &parent) == OWL_OK && is_same(links.parent, parent));
    if (is_same(parent, OWL_NONE)) {
        WANT(is_same(links.previous, OWL_NONE) && is_same(links.next, OWL_NONE));
        return;
    }
    WANT(dom_children(&document, OWL_PAGE, parent, &nodes, &count) == OWL_OK);
    while (place < count && !is_same(nodes[place], of))
        place++;
    WANT(place < count && is_same(links.previous, place ? nodes[place - 1] : OWL_NONE));
    WANT(is_same(links.next, place + 1 < count ? nodes[place + 1] : OWL_NONE));
}

/* What a row says, as bytes, in a block of its own. */
static size_t written(uint8_t *to, const owl_row *row, const owl_answer *answer)
{
    const uint32_t plain[] = {row->node.owner, row->node.number, row->kind, row->name.count, row->data.count, row->attributes.count};
    size_t size = sizeof plain;
    memcpy(to, plain, size);
#define PUT(array, span) (memcpy(to + size, (array) + (span).at, (span).count * sizeof *(array)), size += (span).count * sizeof *(array))
    if (row->name.count)
        PUT(answer->bytes, row->name);
    if (row->data.count)
        PUT(answer->units, row->data);
    for (uint32_t at = 0; at < row->attributes.count; at++) {
        const owl_attribute *attribute = answer->attributes + row->attributes.at + at;
        PUT(answer->bytes, attribute->name);
        if (attribute->value.count)
            PUT(answer->units, attribute->value);
    }
#undef PUT
    return size;
}

/* A node is described as the first row of its tree. */
static void try_description(owl_node of)
{
    uint8_t one[200], other[200];
    owl_row row;
    owl_answer answer;
    WANT(dom_describe(&document, OWL_PAGE, of, &row) == OWL_OK && dom_answer(&document, &answer) == OWL_OK && answer.delivery_count == 0);
    size_t size = written(one, &row, &answer);
    WANT(row.parent == 0 && dom_rows(&document, OWL_PAGE, of) == OWL_OK && dom_answer(&document, &answer) == OWL_OK);
    WANT(written(other, answer.rows, &answer) == size && !memcmp(one, other, size));
}

/* The structure has the rows of the tree, without what the nodes have themselves. */
static void try_structure(owl_node of)
{
    static owl_row kept[NODES];
    const owl_row *rows;
    owl_answer answer;
    size_t count;
    WANT(dom_structure(&document, OWL_PAGE, of, &rows, &count) == OWL_OK && count <= NODES);
    memcpy(kept, rows, count * sizeof *rows);
    WANT(dom_rows(&document, OWL_PAGE, of) == OWL_OK && dom_answer(&document, &answer) == OWL_OK && answer.row_count == count);
    for (size_t at = 0; at < count; at++) {
        WANT(is_same(kept[at].node, answer.rows[at].node) && kept[at].kind == answer.rows[at].kind && kept[at].parent == answer.rows[at].parent);
        WANT(kept[at].name.count == 0 && kept[at].data.count == 0 && kept[at].attributes.count == 0);
    }
}

int main(void)
{
    make();
    for (uint32_t at = 0; at < NODES; at++) {
        try_links(made[at]);
        try_description(made[at]);
        try_structure(made[at]);
    }
    WANT(dom_close(&document) == OWL_OK);
    printf("calls: looks at %d nodes beside reads: %d faults\n", NODES, faults);
    return faults ? 1 : 0;
}

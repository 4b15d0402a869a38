/* A stand-in for the engine's typed calls, unproved (README.md): reads. */
#include "standin.h"

uint32_t dom_parent(owl_document *document, uint32_t owner, owl_node node, owl_node *parent)
{
    call this;
    uint32_t status = begin(&this, document, owner, 1, &node);
    if (!status)
        *parent = shown(this.nodes[0]->parent);
    return status;
}

uint32_t dom_owner_document(owl_document *document, uint32_t owner, owl_node node, owl_node *of)
{
    call this;
    uint32_t status = begin(&this, document, owner, 1, &node);
    if (!status)
        *of = shown(this.nodes[0]->document);
    return status;
}

uint32_t dom_children(owl_document *document, uint32_t owner, owl_node node, const owl_node **nodes, size_t *node_count)
{
    call this;
    uint32_t status = begin(&this, document, owner, 1, &node);
    if (status)
        return status;
    for (struct node *at = this.nodes[0]->first; at; at = at->next)
        PUSH(this.in->nodes, shown(at));
    *nodes = this.in->nodes.at;
    *node_count = this.in->nodes.count;
    return OWL_OK;
}

uint32_t dom_contains(owl_document *document, uint32_t owner, owl_node node, owl_node other, bool *does)
{
    call this;
    uint32_t status = begin(&this, document, owner, 2, (const owl_node[]){node, other});
    if (!status)
        *does = is_inclusive_ancestor(this.nodes[0], this.nodes[1]);
    return status;
}

uint32_t dom_is_connected(owl_document *document, uint32_t owner, owl_node node, bool *is)
{
    call this;
    uint32_t status = begin(&this, document, owner, 1, &node);
    if (status)
        return status;
    struct node *root = root_of(this.nodes[0]);
    while (host_of(this.in, root))
        root = root_of(host_of(this.in, root));
    *is = is_of(root, KIND_DOCUMENT);
    return OWL_OK;
}

static uint32_t closed(owl_document *document, uint32_t owner, owl_node node, uint32_t kinds, owl_node *none)
{
    call this;
    uint32_t status = begin(&this, document, owner, 1, &node);
    if (!status && !is_of(this.nodes[0], kinds))
        status = OWL_WRONG_KIND;
    if (!status)
        *none = OWL_NONE;
    return status;
}

uint32_t dom_shadow_root(owl_document *document, uint32_t owner, owl_node element, owl_node *root)
{
    return closed(document, owner, element, KIND_ELEMENT, root);
}

uint32_t dom_assigned_slot(owl_document *document, uint32_t owner, owl_node node, owl_node *slot)
{
    return closed(document, owner, node, KIND_ELEMENT | KIND_TEXT, slot);
}

uint32_t dom_links(owl_document *document, uint32_t owner, owl_node node, owl_links *links)
{
    call this;
    uint32_t status = begin(&this, document, owner, 1, &node);
    if (status)
        return status;
    const struct node *at = this.nodes[0];
    *links = (owl_links){shown(at->parent), shown(at->first), shown(at->last), shown(at->previous), shown(at->next)};
    return OWL_OK;
}

static owl_row row_of(standin *in, const node *node, uint32_t parent, bool is_whole)
{
    owl_row row = {.node = shown(node), .kind = node->kind, .parent = parent};
    if (!is_whole)
        return row;
    if (node->name)
        row.name = put_bytes(in, node->name);
    row.data = put_units(in, node->data);
    row.attributes = (owl_span){(uint32_t)in->attributes.count, (uint32_t)node->attribute_count};
    for (size_t at = 0; at < node->attribute_count; at++)
        PUSH(in->attributes, ((owl_attribute){put_bytes(in, node->attributes[at].name), put_units(in, node->attributes[at].value)}));
    return row;
}

uint32_t dom_describe(owl_document *document, uint32_t owner, owl_node node, owl_row *row)
{
    call this;
    uint32_t status = begin(&this, document, owner, 1, &node);
    if (!status)
        *row = row_of(this.in, this.nodes[0], 0, true);
    return status;
}

/* The row of the parent of the next node in tree order, after one that has the row `last`. */
static uint32_t parent_row(const standin *in, const node *at, const node *next, uint32_t last)
{
    for (; next->parent != at; at = at->parent)
        last = in->rows.at[last].parent;
    return last;
}

static uint32_t put_rows(owl_document *document, uint32_t owner, owl_node node, bool is_whole)
{
    call this;
    uint32_t status = begin(&this, document, owner, 1, &node);
    if (status)
        return status;
    struct node *top = this.nodes[0];
    PUSH(this.in->rows, row_of(this.in, top, 0, is_whole));
    for (struct node *at = top, *next; (next = following(at, top)); at = next) {
        uint32_t parent = parent_row(this.in, at, next, (uint32_t)this.in->rows.count - 1);
        owl_row row = row_of(this.in, next, parent, is_whole);
        PUSH(this.in->rows, row);
    }
    return OWL_OK;
}

uint32_t dom_rows(owl_document *document, uint32_t owner, owl_node node)
{
    return put_rows(document, owner, node, true);
}

uint32_t dom_structure(owl_document *document, uint32_t owner, owl_node node, const owl_row **rows, size_t *row_count)
{
    uint32_t status = put_rows(document, owner, node, false);
    if (!status) {
        const standin *in = document->held;
        *rows = in->rows.at;
        *row_count = in->rows.count;
    }
    return status;
}

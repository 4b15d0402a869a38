/* A stand-in for the engine's typed calls, unproved (README.md): changes of trees (DOM Standard, 4.2.3 Mutation algorithms). */
#include "standin.h"

/* ---- steps of which changes are made */

/* Takes a node out of its parent: ranges, iterators, slots, transient registrations. */
static void take_out(standin *in, node *leaving)
{
    node *parent = leaving->parent;
    watch watch;
    ranges_on_remove(in, leaving);
    iterators_on_remove(in, leaving);
    add_transients(in, leaving, parent);
    watch_slots(in, &watch, leaving, parent, true);
    *(leaving->previous ? &leaving->previous->next : &parent->first) = leaving->next;
    *(leaving->next ? &leaving->next->previous : &parent->last) = leaving->previous;
    leaving->parent = leaving->previous = leaving->next = NULL;
    signal_slots(in, &watch);
}

static void place(standin *in, node *coming, node *parent, node *before)
{
    watch watch;
    watch_slots(in, &watch, coming, parent, true);
    coming->parent = parent;
    coming->next = before;
    coming->previous = before ? before->previous : parent->last;
    *(coming->previous ? &coming->previous->next : &parent->first) = coming;
    *(before ? &before->previous : &parent->last) = coming;
    signal_slots(in, &watch);
}

static void set_document(standin *in, node *top, node *document)
{
    for (node *at = top; at; at = following(at, top)) {
        at->document = document;
        if (at->component)
            set_document(in, in->owners.at[at->component].nodes.at[0], document);
    }
}

static node *document_below(node *parent)
{
    return is_of(parent, KIND_DOCUMENT) ? parent : parent->document;
}

/* ---- the algorithms */

void remove_node(standin *in, node *leaving, bool is_told)
{
    node *parent = leaving->parent, *previous = leaving->previous, *next = leaving->next;
    node_list none = {NULL, 0, 0}, one = {&leaving, 1, 1};
    if (!parent)
        return;
    take_out(in, leaving);
    if (is_told)
        tell_children(in, parent, &none, &one, previous, next);
}

static void adopt_node(standin *in, node *node, struct node *document)
{
    remove_node(in, node, true);
    if (node->document != document)
        set_document(in, node, document);
}

static void children_of(const node *node, node_list *children)
{
    for (struct node *at = node->first; at; at = at->next)
        PUSH(*children, at);
}

/* A fragment gives its children. */
static void empty_fragment(standin *in, node *fragment, const node_list *children)
{
    node_list none = {NULL, 0, 0};
    for (size_t at = 0; at < children->count; at++)
        remove_node(in, children->at[at], false);
    tell_children(in, fragment, &none, children, NULL, NULL);
}

void insert_node(standin *in, node *parent, node *coming, node *before, bool is_told)
{
    node_list nodes = {NULL, 0, 0}, none = {NULL, 0, 0};
    if (is_of(coming, KIND_FRAGMENT))
        children_of(coming, &nodes);
    else
        PUSH(nodes, coming);
    if (!nodes.count)
        return;
    node *previous = before ? before->previous : parent->last;
    if (is_of(coming, KIND_FRAGMENT))
        empty_fragment(in, coming, &nodes);
    if (before)
        ranges_on_insert(in, parent, before, (uint32_t)nodes.count);
    for (size_t at = 0; at < nodes.count; at++) {
        adopt_node(in, nodes.at[at], document_below(parent));
        place(in, nodes.at[at], parent, before);
    }
    if (is_told)
        tell_children(in, parent, &nodes, &none, previous, before);
    free(nodes.at);
}

void pre_insert(standin *in, node *parent, node *coming, node *child)
{
    insert_node(in, parent, coming, child == coming ? coming->next : child, true);
}

static void replace_node(standin *in, node *parent, node *coming, node *child)
{
    node_list nodes = {NULL, 0, 0}, one = {&child, 1, 1};
    node *next = child->next == coming ? coming->next : child->next, *previous = child->previous;
    if (is_of(coming, KIND_FRAGMENT))
        children_of(coming, &nodes);
    else
        PUSH(nodes, coming);
    remove_node(in, child, false);
    insert_node(in, parent, coming, next, false);
    tell_children(in, parent, &nodes, &one, previous, next);
    free(nodes.at);
}

/* ---- which are refused (DOM Standard, ensure pre-insert validity, replace) */

static size_t count_of(const node *parent, uint32_t kinds, const node *left_out)
{
    size_t count = 0;
    for (node *at = parent->first; at; at = at->next)
        count += at != left_out && is_of(at, kinds);
    return count;
}

/* Whether a document would get a second element, or a Text by a fragment. */
static bool breaks_document(const node *document, const node *coming, const node *left_out)
{
    bool has_element = count_of(document, KIND_ELEMENT, left_out);
    if (!is_of(coming, KIND_FRAGMENT))
        return is_of(coming, KIND_ELEMENT) && has_element;
    size_t elements = count_of(coming, KIND_ELEMENT, NULL);
    return count_of(coming, KIND_TEXT, NULL) || elements > 1 || (elements && has_element);
}

static uint32_t placing_refusal(node *parent, node *coming, bool is_lost, const node *left_out)
{
    if (is_of(parent, KIND_DATA) || is_inclusive_ancestor(coming, parent))
        return OWL_HIERARCHY;
    if (is_lost)
        return OWL_NOT_FOUND;
    if (is_of(coming, KIND_DOCUMENT | KIND_SHADOW))
        return OWL_HIERARCHY;
    if (is_of(parent, KIND_DOCUMENT) && (is_of(coming, KIND_TEXT) || breaks_document(parent, coming, left_out)))
        return OWL_HIERARCHY;
    return OWL_OK;
}

uint32_t pre_insert_refusal(node *parent, node *coming, node *child)
{
    return placing_refusal(parent, coming, child && child->parent != parent, NULL);
}

/* ---- calls */

uint32_t dom_append(owl_document *document, uint32_t owner, owl_node parent, owl_node node)
{
    call this;
    uint32_t status = begin(&this, document, owner, 2, (const owl_node[]){parent, node});
    status = status ? status : pre_insert_refusal(this.nodes[0], this.nodes[1], NULL);
    if (!status)
        pre_insert(this.in, this.nodes[0], this.nodes[1], NULL);
    return status;
}

uint32_t dom_insert(owl_document *document, uint32_t owner, owl_node parent, owl_node node, owl_node child)
{
    call this;
    uint32_t status = begin(&this, document, owner, 3, (const owl_node[]){parent, node, child});
    status = status ? status : pre_insert_refusal(this.nodes[0], this.nodes[1], this.nodes[2]);
    if (!status)
        pre_insert(this.in, this.nodes[0], this.nodes[1], this.nodes[2]);
    return status;
}

uint32_t dom_replace(owl_document *document, uint32_t owner, owl_node parent, owl_node node, owl_node child)
{
    call this;
    uint32_t status = begin(&this, document, owner, 3, (const owl_node[]){parent, node, child});
    status = status ? status : placing_refusal(this.nodes[0], this.nodes[1], this.nodes[2]->parent != this.nodes[0], this.nodes[2]);
    if (!status)
        replace_node(this.in, this.nodes[0], this.nodes[1], this.nodes[2]);
    return status;
}

uint32_t dom_remove(owl_document *document, uint32_t owner, owl_node node)
{
    call this;
    uint32_t status = begin(&this, document, owner, 1, &node);
    if (!status && !is_of(this.nodes[0], KIND_ELEMENT | KIND_DATA))
        status = OWL_WRONG_KIND;
    if (!status)
        remove_node(this.in, this.nodes[0], true);
    return status;
}

uint32_t dom_adopt(owl_document *document, uint32_t owner, owl_node to, owl_node node)
{
    call this;
    uint32_t status = begin(&this, document, owner, 2, (const owl_node[]){to, node});
    if (!status && !is_of(this.nodes[0], KIND_DOCUMENT))
        status = OWL_WRONG_KIND;
    if (!status && is_of(this.nodes[1], KIND_SHADOW))
        status = OWL_HIERARCHY;
    if (!status && is_of(this.nodes[1], KIND_DOCUMENT))
        status = OWL_NOT_SUPPORTED;
    if (!status)
        adopt_node(this.in, this.nodes[1], this.nodes[0]);
    return status;
}

/* A node's children give way to one Text, or to none (DOM Standard, string replace all). */
static void replace_children(call *this, node *parent, const uint16_t *units, size_t unit_count)
{
    node_list old = {NULL, 0, 0}, added = {NULL, 0, 0};
    children_of(parent, &old);
    if (unit_count) {
        node *text = made_node(this, OWL_TEXT, document_below(parent));
        text->data = copied_text(units, unit_count);
        PUSH(added, text);
    }
    for (size_t at = 0; at < old.count; at++)
        remove_node(this->in, old.at[at], false);
    if (added.count)
        insert_node(this->in, parent, added.at[0], NULL, false);
    if (old.count || added.count)
        tell_children(this->in, parent, &added, &old, NULL, NULL);
    free(old.at);
    free(added.at);
}

uint32_t dom_set_text(owl_document *document, uint32_t owner, owl_node node, const uint16_t *units, size_t unit_count)
{
    call this;
    uint32_t status = begin(&this, document, owner, 1, &node);
    if (status)
        return status;
    if (is_of(this.nodes[0], KIND_DATA)) {
        replace_data(this.in, this.nodes[0], 0, (uint32_t)this.nodes[0]->data.count, units, unit_count);
    } else if (!is_of(this.nodes[0], KIND_DOCUMENT)) {
        if (unit_count && this.owner->nodes.count >= MOST_MADE)
            return OWL_LIMIT;
        replace_children(&this, this.nodes[0], units, unit_count);
    }
    return OWL_OK;
}

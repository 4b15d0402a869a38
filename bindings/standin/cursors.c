/* A stand-in for the engine's typed calls, unproved (README.md): iterators and walkers (DOM Standard, 6 Traversal). */
#include "standin.h"

/* What a cursor's filter answers at a node: OWL_ACCEPT, OWL_SKIP or OWL_REJECT. */
static uint32_t answer_at(const cursor *cursor, const node *node)
{
    uint32_t kind = is_of(node, KIND_SHADOW) ? OWL_FRAGMENT : node->kind;
    if (!(cursor->what_to_show >> (kind - 1) & 1))
        return OWL_SKIP;
    return is_of(node, KIND_ELEMENT) && node->name == cursor->name ? cursor->filter : OWL_ACCEPT;
}

static bool accepts(const cursor *cursor, const node *node)
{
    return answer_at(cursor, node) == OWL_ACCEPT;
}

/* Before a node leaves: iterators go where the Standard has them go, but stay if their root is in what leaves (own rule). */
void iterators_on_remove(standin *in, node *leaving)
{
    owner *owner = &in->owners.at[leaving->owner];
    for (size_t at = 0; at < owner->iterators.count; at++) {
        cursor *each = &owner->iterators.at[at];
        if (is_inclusive_ancestor(leaving, each->root) || !is_inclusive_ancestor(leaving, each->current))
            continue;
        node *behind = each->before ? following_all(leaving, each->root) : NULL;
        each->before = behind;
        each->current = behind ? behind : preceding(leaving, each->root);
    }
}

static uint32_t create(owl_document *document, uint32_t owner, owl_node root, cursor *made, const uint8_t *name, size_t name_size, call *this)
{
    uint32_t status = begin(this, document, owner, 1, &root);
    if (status != OWL_CLOSED && (made->filter < OWL_ACCEPT || made->filter > OWL_SKIP))
        return OWL_SYNTAX;
    if (status)
        return status;
    made->root = made->current = this->nodes[0];
    made->before = true;
    made->name = made->filter == OWL_ACCEPT ? NULL : name_of(this->in, name, name_size);
    return OWL_OK;
}

uint32_t dom_iterator_create(owl_document *document, uint32_t owner, owl_node root, uint32_t what_to_show, uint32_t filter, const uint8_t *name,
                             size_t name_size, uint32_t *iterator)
{
    call this;
    cursor made = {.what_to_show = what_to_show, .filter = filter};
    uint32_t status = create(document, owner, root, &made, name, name_size, &this);
    if (!status && this.owner->iterators.count >= MOST_MADE)
        status = OWL_LIMIT;
    if (status)
        return status;
    *iterator = (uint32_t)this.owner->iterators.count;
    PUSH(this.owner->iterators, made);
    return OWL_OK;
}

uint32_t dom_walker_create(owl_document *document, uint32_t owner, owl_node root, uint32_t what_to_show, uint32_t filter, const uint8_t *name,
                           size_t name_size, uint32_t *walker)
{
    call this;
    cursor made = {.what_to_show = what_to_show, .filter = filter};
    uint32_t status = create(document, owner, root, &made, name, name_size, &this);
    if (!status && this.owner->walkers.count >= MOST_MADE)
        status = OWL_LIMIT;
    if (status)
        return status;
    *walker = (uint32_t)this.owner->walkers.count;
    PUSH(this.owner->walkers, made);
    return OWL_OK;
}

/* ---- iterators */

static uint32_t begin_iterator(call *this, owl_document *document, uint32_t owner, uint32_t number, cursor **iterator)
{
    uint32_t status = begin(this, document, owner, 0, NULL);
    if (!status && number >= this->owner->iterators.count)
        status = OWL_UNKNOWN;
    if (!status)
        *iterator = &this->owner->iterators.at[number];
    return status;
}

/* Moves an iterator (DOM Standard, traverse). */
static uint32_t traverse(owl_document *document, uint32_t owner, uint32_t number, bool is_forward, owl_node *node)
{
    call this;
    cursor *iterator;
    uint32_t status = begin_iterator(&this, document, owner, number, &iterator);
    if (status)
        return status;
    bool is_tried = iterator->before == is_forward;
    struct node *at = iterator->current;
    while (at && !(is_tried && accepts(iterator, at))) {
        at = is_forward ? following(at, iterator->root) : preceding(at, iterator->root);
        is_tried = true;
    }
    if (at) {
        iterator->current = at;
        iterator->before = !is_forward;
    }
    *node = shown(at);
    return OWL_OK;
}

uint32_t dom_iterator_next(owl_document *document, uint32_t owner, uint32_t iterator, owl_node *node)
{
    return traverse(document, owner, iterator, true, node);
}

uint32_t dom_iterator_previous(owl_document *document, uint32_t owner, uint32_t iterator, owl_node *node)
{
    return traverse(document, owner, iterator, false, node);
}

uint32_t dom_iterator_reference(owl_document *document, uint32_t owner, uint32_t number, owl_node *node, bool *before)
{
    call this;
    cursor *iterator;
    uint32_t status = begin_iterator(&this, document, owner, number, &iterator);
    if (status)
        return status;
    *node = shown(iterator->current);
    *before = iterator->before;
    return OWL_OK;
}

/* ---- walkers */

static node *walk_parent(const cursor *walker)
{
    node *at = walker->current;
    while (at != walker->root) {
        at = at->parent;
        if (accepts(walker, at))
            return at;
    }
    return NULL;
}

/* The first or last child that is accepted, or is reached through skipped nodes (DOM Standard, traverse children). */
static node *walk_child(const cursor *walker, node *below, bool is_first)
{
    node *at = is_first ? below->first : below->last;
    while (at) {
        uint32_t answer = answer_at(walker, at);
        if (answer == OWL_ACCEPT)
            return at;
        node *inner = answer == OWL_SKIP ? (is_first ? at->first : at->last) : NULL;
        while (!inner && at != below) {
            inner = is_first ? at->next : at->previous;
            if (!inner)
                at = at->parent;
        }
        at = at == below ? NULL : inner;
    }
    return NULL;
}

/* DOM Standard, traverse siblings. */
static node *walk_sibling(const cursor *walker, bool is_next)
{
    node *at = walker->current;
    while (at != walker->root) {
        node *sibling = is_next ? at->next : at->previous;
        while (sibling) {
            uint32_t answer = answer_at(walker, sibling);
            if (answer == OWL_ACCEPT)
                return sibling;
            at = sibling;
            sibling = answer == OWL_REJECT ? NULL : is_next ? at->first : at->last;
            if (!sibling)
                sibling = is_next ? at->next : at->previous;
        }
        at = at->parent;
        if (at == walker->root || accepts(walker, at))
            return NULL;
    }
    return NULL;
}

static node *walk_next(const cursor *walker)
{
    node *at = walker->current;
    bool may_enter = true;
    while (at) {
        at = may_enter ? following(at, walker->root) : following_all(at, walker->root);
        if (at && accepts(walker, at))
            return at;
        may_enter = at && answer_at(walker, at) != OWL_REJECT;
    }
    return NULL;
}

static node *walk_previous(const cursor *walker)
{
    node *at = walker->current;
    while (at != walker->root) {
        node *sibling = at->previous;
        at = sibling ? sibling : at->parent;
        while (sibling && at->last && answer_at(walker, at) != OWL_REJECT)
            at = at->last;
        if (accepts(walker, at))
            return at;
    }
    return NULL;
}

static node *walked(const cursor *walker, uint32_t move)
{
    switch (move) {
    case OWL_MOVE_PARENT: return walk_parent(walker);
    case OWL_MOVE_FIRST: return walk_child(walker, walker->current, true);
    case OWL_MOVE_LAST: return walk_child(walker, walker->current, false);
    case OWL_MOVE_NEXT: return walk_next(walker);
    case OWL_MOVE_PREVIOUS: return walk_previous(walker);
    default: return walk_sibling(walker, move == OWL_MOVE_NEXT_SIBLING);
    }
}

static uint32_t begin_walker(call *this, owl_document *document, uint32_t owner, uint32_t number, size_t count, const owl_node *nodes,
                             cursor **walker)
{
    uint32_t status = begin(this, document, owner, count, nodes);
    if (!status && number >= this->owner->walkers.count)
        status = OWL_UNKNOWN;
    if (!status)
        *walker = &this->owner->walkers.at[number];
    return status;
}

uint32_t dom_walker_move(owl_document *document, uint32_t owner, uint32_t number, uint32_t move, owl_node *node)
{
    call this;
    cursor *walker;
    uint32_t status = begin_walker(&this, document, owner, number, 0, NULL, &walker);
    if (status != OWL_CLOSED && move > OWL_MOVE_PREVIOUS_SIBLING)
        return OWL_SYNTAX;
    if (status)
        return status;
    struct node *to = is_inclusive_ancestor(walker->root, walker->current) ? walked(walker, move) : NULL;
    if (to)
        walker->current = to;
    *node = shown(to);
    return OWL_OK;
}

uint32_t dom_walker_current(owl_document *document, uint32_t owner, uint32_t number, owl_node *node)
{
    call this;
    cursor *walker;
    uint32_t status = begin_walker(&this, document, owner, number, 0, NULL, &walker);
    if (!status)
        *node = shown(walker->current);
    return status;
}

uint32_t dom_walker_set(owl_document *document, uint32_t owner, uint32_t number, owl_node node)
{
    call this;
    cursor *walker;
    uint32_t status = begin_walker(&this, document, owner, number, 1, &node, &walker);
    if (!status)
        walker->current = this.nodes[0];
    return status;
}

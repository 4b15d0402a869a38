/* A stand-in for the engine's typed calls, unproved (README.md): live ranges (DOM Standard, 5.3, 5.5). */
#include "standin.h"

/* ---- where points stand */

node *child_towards(node *above, node *below)
{
    while (below->parent != above)
        below = below->parent;
    return below;
}

/* Whether a point of a tree is before another one of it. */
bool is_point_before(point one, point other)
{
    if (one.node == other.node)
        return one.offset < other.offset;
    if (is_inclusive_ancestor(one.node, other.node))
        return index_of(child_towards(one.node, other.node)) >= one.offset;
    if (is_inclusive_ancestor(other.node, one.node))
        return index_of(child_towards(other.node, one.node)) < other.offset;
    return precedes(one.node, other.node);
}

bool is_contained(const range *range, node *node)
{
    point front = {node, 0}, end = {node, length_of(node)};
    return root_of(node) == root_of(range->start.node) && is_point_before(range->start, front) && is_point_before(end, range->end);
}

bool same_point(point one, point other)
{
    return one.node == other.node && one.offset == other.offset;
}

/* ---- what changes do to them. Each loop is over both ends of all ranges of the owner */

static size_t point_count(standin *in, const node *node)
{
    return 2 * in->owners.at[node->owner].ranges.count;
}

static point *point_at(standin *in, const node *node, size_t at)
{
    range *range = &in->owners.at[node->owner].ranges.at[at / 2];
    return at % 2 ? &range->end : &range->start;
}

void ranges_on_insert(standin *in, node *parent, node *before, uint32_t count)
{
    size_t points = point_count(in, parent);
    uint32_t index = points ? index_of(before) : 0;
    for (size_t at = 0; at < points; at++) {
        point *each = point_at(in, parent, at);
        if (each->node == parent && each->offset > index)
            each->offset += count;
    }
}

void ranges_on_remove(standin *in, node *leaving)
{
    size_t points = point_count(in, leaving);
    uint32_t index = points ? index_of(leaving) : 0;
    for (size_t at = 0; at < points; at++) {
        point *each = point_at(in, leaving, at);
        if (is_inclusive_ancestor(leaving, each->node))
            *each = (point){leaving->parent, index};
        else if (each->node == leaving->parent && each->offset > index)
            each->offset--;
    }
}

void ranges_on_replace_data(standin *in, node *node, uint32_t offset, uint32_t count, uint32_t coming)
{
    for (size_t at = 0; at < point_count(in, node); at++) {
        point *each = point_at(in, node, at);
        if (each->node != node || each->offset <= offset)
            continue;
        each->offset = each->offset <= offset + count ? offset : each->offset + coming - count;
    }
}

void ranges_on_split(standin *in, node *text, uint32_t offset, node *tail)
{
    size_t points = point_count(in, text);
    uint32_t index = points ? index_of(text) : 0;
    for (size_t at = 0; at < points; at++) {
        point *each = point_at(in, text, at);
        if (each->node == text && each->offset > offset)
            *each = (point){tail, each->offset - offset};
        else if (each->node == text->parent && each->offset == index + 1)
            each->offset++;
    }
}

void ranges_on_join(standin *in, node *first, uint32_t length, node *next)
{
    size_t points = point_count(in, first);
    uint32_t index = points ? index_of(next) : 0;
    for (size_t at = 0; at < points; at++) {
        point *each = point_at(in, first, at);
        if (each->node == next)
            *each = (point){first, each->offset + length};
        else if (each->node == next->parent && each->offset == index)
            *each = (point){first, length};
    }
}

/* ---- calls */

static range *range_at(const call *this, uint32_t number)
{
    bool is_there = number < this->owner->ranges.count && this->owner->ranges.at[number].is_there;
    return is_there ? &this->owner->ranges.at[number] : NULL;
}

/* Begins a call on a range. */
uint32_t begin_on(call *this, owl_document *document, uint32_t owner, uint32_t number, size_t count, const owl_node *nodes, range **range)
{
    uint32_t status = begin(this, document, owner, count, nodes);
    *range = status ? NULL : range_at(this, number);
    return status || *range ? status : OWL_UNKNOWN;
}

uint32_t dom_range_create(owl_document *document, uint32_t owner, uint32_t *range)
{
    call this;
    uint32_t status = begin(&this, document, owner, 0, NULL);
    if (!status && this.owner->ranges.count >= MOST_MADE)
        status = OWL_LIMIT;
    if (status)
        return status;
    point first = {this.owner->nodes.at[0], 0};
    *range = (uint32_t)this.owner->ranges.count;
    PUSH(this.owner->ranges, ((struct range){first, first, true}));
    return OWL_OK;
}

static uint32_t set_end(owl_document *document, uint32_t owner, uint32_t number, owl_node node, uint32_t offset, bool is_start)
{
    call this;
    range *range;
    uint32_t status = begin_on(&this, document, owner, number, 1, &node, &range);
    if (!status && offset > length_of(this.nodes[0]))
        status = OWL_INDEX_SIZE;
    if (status)
        return status;
    point to = {this.nodes[0], offset};
    point *set = is_start ? &range->start : &range->end, *other = is_start ? &range->end : &range->start;
    *set = to;
    if (root_of(to.node) != root_of(other->node) || is_point_before(range->end, range->start))
        *other = to;
    return OWL_OK;
}

uint32_t dom_range_set_start(owl_document *document, uint32_t owner, uint32_t range, owl_node node, uint32_t offset)
{
    return set_end(document, owner, range, node, offset, true);
}

uint32_t dom_range_set_end(owl_document *document, uint32_t owner, uint32_t range, owl_node node, uint32_t offset)
{
    return set_end(document, owner, range, node, offset, false);
}

uint32_t dom_range_collapse(owl_document *document, uint32_t owner, uint32_t number, bool to_start)
{
    call this;
    range *range;
    uint32_t status = begin_on(&this, document, owner, number, 0, NULL, &range);
    if (!status)
        *(to_start ? &range->end : &range->start) = to_start ? range->start : range->end;
    return status;
}

uint32_t dom_range_drop(owl_document *document, uint32_t owner, uint32_t number)
{
    call this;
    range *range;
    uint32_t status = begin_on(&this, document, owner, number, 0, NULL, &range);
    if (!status)
        range->is_there = false;
    return status;
}

uint32_t dom_range_points(owl_document *document, uint32_t owner, uint32_t number, owl_point *start, owl_point *end)
{
    call this;
    range *range;
    uint32_t status = begin_on(&this, document, owner, number, 0, NULL, &range);
    if (status)
        return status;
    *start = (owl_point){shown(range->start.node), range->start.offset};
    *end = (owl_point){shown(range->end.node), range->end.offset};
    return OWL_OK;
}

/* A stand-in for the engine's typed calls, unproved (README.md): what is in a live range (DOM Standard, 5.5). */
#include "standin.h"

static uint32_t cut_start(const range *range, const node *node)
{
    return node == range->start.node ? range->start.offset : 0;
}

static uint32_t cut_end(const range *range, const node *node)
{
    return node == range->end.node ? range->end.offset : length_of(node);
}

static void put_part(standin *in, const range *range, const node *node)
{
    uint32_t from = cut_start(range, node), to = cut_end(range, node);
    if (is_of(node, KIND_TEXT) && from < to)
        put_units(in, (text){node->data.at + from, to - from});
}

uint32_t dom_range_text(owl_document *document, uint32_t owner, uint32_t number, const uint16_t **units, size_t *unit_count)
{
    call this;
    range *range;
    uint32_t status = begin_on(&this, document, owner, number, 0, NULL, &range);
    if (status)
        return status;
    node *start = range->start.node, *top = root_of(start);
    put_part(this.in, range, start);
    for (node *at = top; at && start != range->end.node; at = following(at, top))
        if (is_of(at, KIND_TEXT) && is_contained(range, at))
            put_part(this.in, range, at);
    for (node *at = top; at && start == range->end.node && !is_of(start, KIND_TEXT); at = following(at, top))
        if (is_of(at, KIND_TEXT) && is_contained(range, at))
            put_part(this.in, range, at);
    if (start != range->end.node)
        put_part(this.in, range, range->end.node);
    *units = this.in->units.at;
    *unit_count = this.in->units.count;
    return OWL_OK;
}

/* The lowest node that is, or is above, both ends' nodes. */
static node *common_ancestor(const range *range)
{
    node *above = range->start.node;
    while (!is_inclusive_ancestor(above, range->end.node))
        above = above->parent;
    return above;
}

/* The child of the common ancestor towards a node that is not above the other end's node, or none. */
static node *holding(node *common, node *inside, node *other)
{
    if (inside == common)
        return NULL;
    node *child = child_towards(common, inside);
    return is_inclusive_ancestor(child, other) ? NULL : child;
}

/* Where a range stands after its contents were taken. */
static point new_place(const range *range)
{
    node *at = range->start.node;
    if (is_inclusive_ancestor(at, range->end.node))
        return range->start;
    while (at->parent && !is_inclusive_ancestor(at->parent, range->end.node))
        at = at->parent;
    return (point){at->parent, index_of(at) + 1};
}

static void cut(standin *in, node *node, uint32_t from, uint32_t to)
{
    if (is_of(node, KIND_DATA))
        replace_data(in, node, from, to - from, NULL, 0);
}

static void delete_between(standin *in, const range *range)
{
    node_list leaving = {NULL, 0, 0};
    node *top = root_of(range->start.node);
    for (node *at = top; at;) {
        bool is_in = is_contained(range, at);
        if (is_in)
            PUSH(leaving, at);
        at = is_in ? following_all(at, top) : following(at, top);
    }
    cut(in, range->start.node, range->start.offset, length_of(range->start.node));
    for (size_t at = 0; at < leaving.count; at++)
        remove_node(in, leaving.at[at], true);
    cut(in, range->end.node, 0, range->end.offset);
    free(leaving.at);
}

uint32_t dom_range_delete(owl_document *document, uint32_t owner, uint32_t number)
{
    call this;
    range *range;
    uint32_t status = begin_on(&this, document, owner, number, 0, NULL, &range);
    if (status || same_point(range->start, range->end))
        return status;
    struct range there = *range;
    point to = new_place(&there);
    if (there.start.node == there.end.node && is_of(there.start.node, KIND_DATA))
        cut(this.in, there.start.node, there.start.offset, there.end.offset);
    else
        delete_between(this.in, &there);
    range->start = range->end = to;
    return OWL_OK;
}

/* ---- extractContents() (DOM Standard, extract) */

/* Pieces are counted before any is taken: clones are made one after another, and the limit is tested first. */
typedef struct taking {
    call *this;
    struct range range;
    uint32_t clones;
    bool is_counting;
} taking;

static node *cloned(taking *taking, node *from)
{
    taking->clones++;
    if (taking->is_counting)
        return NULL;
    node *made = made_node(taking->this, from->kind, from->document);
    made->name = from->name;
    for (size_t at = 0; at < from->attribute_count; at++) {
        made->attributes = grown(made->attributes, made->attribute_count, &made->attribute_room, sizeof *made->attributes);
        made->attributes[made->attribute_count++] =
            (attribute){from->attributes[at].name, copied_text(from->attributes[at].value.at, from->attributes[at].value.count)};
    }
    return made;
}

static void take_part(taking *taking, node *from, uint32_t start, uint32_t end, node *into)
{
    node *made = cloned(taking, from);
    if (!made)
        return;
    made->data = copied_text(from->data.at + start, end - start);
    insert_node(taking->this->in, into, made, NULL, true);
    replace_data(taking->this->in, from, start, end - start, NULL, 0);
}

static bool is_behind(point start, node *node)
{
    return is_point_before(start, (point){node, 0});
}

static bool is_in_front(node *node, point end)
{
    return is_point_before((point){node, length_of(node)}, end);
}

/* Takes what is in the range of a child that holds one end alone. */
static void take_holding(taking *taking, node *child, point edge, bool is_start, node *into)
{
    if (is_of(child, KIND_DATA)) {
        take_part(taking, child, is_start ? edge.offset : 0, is_start ? length_of(child) : edge.offset, into);
        return;
    }
    node_list children = {NULL, 0, 0}, whole = {NULL, 0, 0};
    node *made = cloned(taking, child), *inner = edge.node == child ? NULL : child_towards(child, edge.node);
    for (node *at = child->first; at; at = at->next)
        PUSH(children, at);
    for (size_t at = 0; at < children.count; at++)
        if (children.at[at] != inner && (is_start ? is_behind(edge, children.at[at]) : is_in_front(children.at[at], edge)))
            PUSH(whole, children.at[at]);
    if (made)
        insert_node(taking->this->in, into, made, NULL, true);
    if (is_start && inner)
        take_holding(taking, inner, edge, is_start, made);
    for (size_t at = 0; made && at < whole.count; at++)
        insert_node(taking->this->in, made, whole.at[at], NULL, true);
    if (!is_start && inner)
        take_holding(taking, inner, edge, is_start, made);
    free(children.at);
    free(whole.at);
}

static void take(taking *taking, node *into)
{
    const range *range = &taking->range;
    node *start = range->start.node, *end = range->end.node, *common = common_ancestor(range);
    node_list whole = {NULL, 0, 0};
    if (same_point(range->start, range->end))
        return;
    if (start == end && is_of(start, KIND_DATA)) {
        take_part(taking, start, range->start.offset, range->end.offset, into);
        return;
    }
    node *first = holding(common, start, end), *last = holding(common, end, start);
    for (node *at = common->first; at; at = at->next)
        if (is_contained(range, at))
            PUSH(whole, at);
    if (first)
        take_holding(taking, first, range->start, true, into);
    for (size_t at = 0; !taking->is_counting && at < whole.count; at++)
        insert_node(taking->this->in, into, whole.at[at], NULL, true);
    if (last)
        take_holding(taking, last, range->end, false, into);
    free(whole.at);
}

uint32_t dom_range_extract(owl_document *document, uint32_t owner, uint32_t number, owl_node *fragment)
{
    call this;
    range *range;
    uint32_t status = begin_on(&this, document, owner, number, 0, NULL, &range);
    if (status)
        return status;
    taking counting = {&this, *range, 1, true}, taking = {&this, *range, 1, false};
    take(&counting, NULL);
    if (this.owner->nodes.count + counting.clones > MOST_MADE)
        return OWL_LIMIT;
    node *start = range->start.node;
    point to = new_place(range);
    node *made = made_node(&this, OWL_FRAGMENT, is_of(start, KIND_DOCUMENT) ? start : start->document);
    *fragment = shown(made);
    take(&taking, made);
    range->start = range->end = to;
    return OWL_OK;
}

/* ---- insertNode() (DOM Standard, 5.5: insert a node) */

static node *child_at(node *parent, uint32_t offset)
{
    node *at = parent->first;
    for (; at && offset; offset--)
        at = at->next;
    return at;
}

static uint32_t insertion_refusal(const range *range, node *coming, node **parent, node **reference)
{
    node *start = range->start.node;
    *reference = is_of(start, KIND_TEXT) ? start : is_of(start, KIND_COMMENT) ? NULL : child_at(start, range->start.offset);
    *parent = *reference ? (*reference)->parent : start;
    if (is_of(start, KIND_COMMENT) || (is_of(start, KIND_TEXT) && !start->parent) || start == coming)
        return OWL_HIERARCHY;
    return pre_insert_refusal(*parent, coming, *reference);
}

uint32_t dom_range_insert(owl_document *document, uint32_t owner, uint32_t number, owl_node node)
{
    call this;
    range *range;
    struct node *parent, *reference, *coming;
    uint32_t status = begin_on(&this, document, owner, number, 1, &node, &range);
    status = status ? status : insertion_refusal(range, this.nodes[0], &parent, &reference);
    if (status)
        return status;
    coming = this.nodes[0];
    bool is_split = is_of(range->start.node, KIND_TEXT);
    if (is_split && this.owner->nodes.count >= MOST_MADE)
        return OWL_LIMIT;
    if (is_split)
        reference = split_text(&this, reference, range->start.offset);
    if (reference == coming)
        reference = reference->next;
    remove_node(this.in, coming, true);
    uint32_t offset = reference ? index_of(reference) : length_of(parent);
    offset += is_of(coming, KIND_FRAGMENT) ? length_of(coming) : 1;
    pre_insert(this.in, parent, coming, reference);
    if (same_point(range->start, range->end))
        range->end = (point){parent, offset};
    return OWL_OK;
}

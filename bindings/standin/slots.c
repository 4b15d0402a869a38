/* A stand-in for the engine's typed calls, unproved (README.md): slots, what is assigned to them, and which a change signals (DOM Standard, 4.2.2). */
#include "standin.h"

static bool is_slot(standin *in, const node *node)
{
    return is_of(node, KIND_ELEMENT) && node->name == in->word_slot;
}

/* The host of a root, if that is a shadow root. */
node *host_of(standin *in, const node *root)
{
    return is_of(root, KIND_SHADOW) ? in->owners.at[root->owner].host : NULL;
}

/* The slot to which a node is assigned: the first one of its name in the closed tree of its parent. */
node *slot_of(standin *in, const node *node)
{
    if (!node->parent || !node->parent->component || !is_of(node, KIND_ELEMENT | KIND_TEXT))
        return NULL;
    struct node *root = in->owners.at[node->parent->component].nodes.at[0];
    text wanted = is_of(node, KIND_ELEMENT) ? attribute_or_empty(node, in->word_slot) : (text){NULL, 0};
    for (struct node *at = root; at; at = following(at, root))
        if (is_slot(in, at) && same_text(attribute_or_empty(at, in->word_name), wanted.at, wanted.count))
            return at;
    return NULL;
}

void assigned_to(standin *in, node *slot, node_list *nodes)
{
    node *host = host_of(in, root_of(slot));
    for (node *at = host ? host->first : NULL; at; at = at->next)
        if (slot_of(in, at) == slot)
            PUSH(*nodes, at);
}

static bool has_slots(standin *in, node *top)
{
    for (node *at = top; at; at = following(at, top))
        if (is_slot(in, at))
            return true;
    return false;
}

static void keep_slots(standin *in, watch *watch, node *top)
{
    for (node *at = top; at; at = following(at, top)) {
        node_list assigned = {NULL, 0, 0};
        if (!is_slot(in, at))
            continue;
        assigned_to(in, at, &assigned);
        PUSH(watch->slots, at);
        PUSH(watch->assigned, assigned);
    }
}

/* Before a change: x is to be placed below `around` or taken from it, or an attribute of x is to change, which then is `around` too. */
void watch_slots(standin *in, watch *watch, node *x, node *around, bool is_move)
{
    node *root = x->owner ? root_of(around) : around;
    memset(watch, 0, sizeof *watch);
    watch->x = x;
    watch->around = around;
    watch->is_move = is_move;
    watch->old_slot = slot_of(in, x);
    watch->has_slots = x->owner && is_of(root, KIND_SHADOW) && (is_move ? has_slots(in, x) : is_slot(in, x));
    if (watch->has_slots)
        keep_slots(in, watch, root);
}

static void signal_slot(standin *in, node *slot)
{
    owner *owner = &in->owners.at[slot->owner];
    bool is_there = false;
    for (size_t at = 0; at < owner->signalled.count; at++)
        is_there = is_there || owner->signalled.at[at] == slot;
    if (!is_there)
        PUSH(owner->signalled, slot);
    queue_notification(in, slot->owner);
}

/* Whether what is assigned to a slot is other than it was. */
static bool has_changed(standin *in, const watch *watch, node *slot)
{
    node_list now = {NULL, 0, 0}, was = {NULL, 0, 0};
    for (size_t at = 0; at < watch->slots.count; at++)
        if (watch->slots.at[at] == slot)
            memcpy(&was, &watch->assigned.at[at], sizeof was);
    assigned_to(in, slot, &now);
    bool is_same = now.count == was.count && (!now.count || !memcmp(now.at, was.at, now.count * sizeof *now.at));
    free(now.at);
    return !is_same;
}

static void signal_changed(standin *in, watch *watch, node *top)
{
    for (node *at = top; at; at = following(at, top))
        if (is_slot(in, at) && has_changed(in, watch, at))
            signal_slot(in, at);
}

static bool is_bare(standin *in, node *slot)
{
    node_list assigned = {NULL, 0, 0};
    if (!slot->owner || !is_slot(in, slot) || !host_of(in, root_of(slot)))
        return false;
    assigned_to(in, slot, &assigned);
    free(assigned.at);
    return !assigned.count;
}

/* After the change. In order: the node's old slot and its new one, the parent where it is a slot with nothing assigned, the other slots of the tree in tree
 * order, and those of what left. */
void signal_slots(standin *in, watch *watch)
{
    node *slot = slot_of(in, watch->x);
    if (watch->old_slot && watch->old_slot != slot)
        signal_slot(in, watch->old_slot);
    if (slot && watch->old_slot != slot)
        signal_slot(in, slot);
    if (watch->is_move && is_bare(in, watch->around))
        signal_slot(in, watch->around);
    if (!watch->has_slots)
        return;
    signal_changed(in, watch, root_of(watch->around));
    signal_changed(in, watch, watch->x);
    for (size_t at = 0; at < watch->assigned.count; at++)
        free(watch->assigned.at[at].at);
    free(watch->assigned.at);
    free(watch->slots.at);
}

uint32_t dom_assigned(owl_document *document, uint32_t owner, owl_node slot, const owl_node **nodes, size_t *node_count)
{
    call this;
    node_list assigned = {NULL, 0, 0};
    uint32_t status = begin(&this, document, owner, 1, &slot);
    if (status != OWL_CLOSED && owner == OWL_PAGE)
        return OWL_SYNTAX;
    if (!status && !is_slot(this.in, this.nodes[0]))
        status = OWL_WRONG_KIND;
    if (status)
        return status;
    assigned_to(this.in, this.nodes[0], &assigned);
    owl_span span = put_nodes(this.in, &assigned);
    *nodes = this.in->nodes.at + span.at;
    *node_count = span.count;
    free(assigned.at);
    return OWL_OK;
}

/* A stand-in for the engine's typed calls, unproved (README.md): listeners, and the paths of events (DOM Standard, 2.7, 2.9). */
#include "standin.h"

/* ---- listeners */

void drop_listener(listener *listener)
{
    if (!--listener->holders)
        free(listener);
}

/* The place of a listener in its node's list, or that of the list's end. */
static listener **place_of(node *node, const name *type, const name *label, uint32_t flags)
{
    listener **place = &node->listeners;
    while (*place && !((*place)->type == type && (*place)->label == label && !(((*place)->flags ^ flags) & OWL_CAPTURE)))
        place = &(*place)->next;
    return place;
}

uint32_t dom_listen(owl_document *document, uint32_t owner, owl_node node, const uint8_t *type, size_t type_size, const uint8_t *label,
                    size_t label_size, uint32_t action, uint32_t flags)
{
    call this;
    uint32_t status = begin(&this, document, owner, 1, &node);
    bool is_wrong = !is_label(type, type_size) || !is_label(label, label_size) || action > OWL_LIVE;
    if (status != OWL_CLOSED && (is_wrong || flags & ~(uint32_t)(OWL_CAPTURE | OWL_ONCE | OWL_PASSIVE)))
        return OWL_SYNTAX;
    if (status)
        return status;
    const name *names[] = {name_of(this.in, type, type_size), name_of(this.in, label, label_size)};
    listener **place = place_of(this.nodes[0], names[0], names[1], flags);
    if (*place)
        return OWL_OK;
    if (!(*place = calloc(1, sizeof **place)))
        abort();
    **place = (listener){NULL, names[0], names[1], action, flags, 1, false};
    return OWL_OK;
}

uint32_t dom_unlisten(owl_document *document, uint32_t owner, owl_node node, const uint8_t *type, size_t type_size, const uint8_t *label,
                      size_t label_size, uint32_t flags)
{
    call this;
    uint32_t status = begin(&this, document, owner, 1, &node);
    if (status != OWL_CLOSED && (!is_label(type, type_size) || !is_label(label, label_size) || flags & ~(uint32_t)OWL_CAPTURE))
        return OWL_SYNTAX;
    if (status)
        return status;
    listener **place = place_of(this.nodes[0], name_of(this.in, type, type_size), name_of(this.in, label, label_size), flags);
    listener *there = *place;
    if (there) {
        *place = there->next;
        there->is_removed = true;
        drop_listener(there);
    }
    return OWL_OK;
}

/* ---- paths */

static bool is_shadow_including_ancestor(standin *in, node *node, struct node *other)
{
    while (other && !is_inclusive_ancestor(node, other))
        other = host_of(in, root_of(other));
    return other;
}

/* DOM Standard, retarget. */
static node *retargeted(standin *in, node *node, struct node *against)
{
    for (;;) {
        struct node *root = node ? root_of(node) : NULL, *host = root ? host_of(in, root) : NULL;
        if (!host || is_shadow_including_ancestor(in, root, against))
            return node;
        node = host;
    }
}

/* DOM Standard, get the parent. */
static node *event_parent(standin *in, node *at, node *first, bool is_composed)
{
    if (is_of(at, KIND_SHADOW))
        return is_composed || at != root_of(first) ? host_of(in, at) : NULL;
    node *slot = slot_of(in, at);
    return slot ? slot : at->parent;
}

static void add_step(frame *frame, node *at, node *target, node *related, bool slot_in_closed)
{
    step made = {at, target, related, is_of(at, KIND_SHADOW), slot_in_closed};
    PUSH(frame->path, made);
}

/* Builds the path as the world is now (DOM Standard, dispatch, steps 5 and 6), and puts the event on the stack. */
void begin_event(standin *in, node *target, node *related, const name *type, uint32_t flags)
{
    frame made;
    memset(&made, 0, sizeof made);
    made.kind = EVENT;
    made.type = type;
    made.flags = flags;
    node *seen = retargeted(in, related, target), *last = target, *at = target;
    if (seen != target || target == related) {
        add_step(&made, target, target, seen, false);
        while ((at = event_parent(in, at, target, flags & OWL_COMPOSED))) {
            node *slotted = made.path.at[made.path.count - 1].node;
            bool is_slot = slot_of(in, slotted) == at;
            seen = retargeted(in, related, at);
            if (is_shadow_including_ancestor(in, root_of(last), at)) {
                add_step(&made, at, NULL, seen, is_slot);
            } else if (at == seen) {
                break;
            } else {
                last = at;
                add_step(&made, at, at, seen, is_slot);
            }
        }
    }
    PUSH(in->frames, made);
}

uint32_t dom_dispatch(owl_document *document, uint32_t owner, owl_node node, const uint8_t *type, size_t type_size, uint32_t flags,
                      owl_node related, bool *truth)
{
    call this;
    bool has_related = related.owner != OWL_NONE.owner;
    uint32_t status = begin(&this, document, owner, has_related ? 2 : 1, (const owl_node[]){node, related});
    if (status != OWL_CLOSED && (!is_label(type, type_size) || flags & ~(uint32_t)(OWL_BUBBLES | OWL_CANCELABLE | OWL_COMPOSED)))
        return OWL_SYNTAX;
    if (!status && has_related && owner != OWL_PAGE && root_of(this.nodes[0]) != root_of(this.nodes[1]))
        status = OWL_TYPE;
    if (!status && this.owner->dispatches >= 64)
        status = OWL_LIMIT;
    if (status)
        return status;
    begin_event(this.in, this.nodes[0], has_related ? this.nodes[1] : NULL, name_of(this.in, type, type_size), flags);
    frame *frame = &this.in->frames.at[this.in->frames.count - 1];
    frame->has_dispatcher = true;
    frame->dispatcher = owner;
    this.owner->dispatches++;
    status = go_on(this.in);
    if (!status)
        *truth = this.in->truth;
    end(&this, document);
    return status;
}

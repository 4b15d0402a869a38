/* A stand-in for the engine's typed calls, unproved (README.md): what is under way, and the callbacks that it waits for (DOM Standard, 2.9, 4.3). */
#include "standin.h"

static void drop_heard(frame *frame)
{
    for (size_t at = 0; at < frame->heard.count; at++)
        drop_listener(frame->heard.at[at]);
    frame->heard.count = frame->heard_done = 0;
}

void free_frame(frame *frame)
{
    drop_heard(frame);
    free(frame->heard.at);
    free(frame->path.at);
    free(frame->observers.at);
    free(frame->slots.at);
}

static frame *innermost(standin *in)
{
    return &in->frames.at[in->frames.count - 1];
}

static void leave(standin *in)
{
    free_frame(innermost(in));
    in->frames.count--;
}

/* The innermost frame waits for an owner, to whom the last deliveries are told. At the end of input calls return at once. */
static bool call_owner(standin *in, uint32_t owner, size_t count)
{
    if (in->returns_at_once)
        return false;
    innermost(in)->is_called = true;
    innermost(in)->called = owner;
    in->called = (owl_span){(uint32_t)(in->deliveries.count - count), (uint32_t)count};
    return true;
}

/* ---- events */

/* How deep an item of a path is hidden in closed trees (DOM Standard, composedPath(), steps 8 to 10). */
static int hidden_level(const frame *frame, size_t current)
{
    int level = 0;
    for (size_t at = frame->path.count; at-- > current;) {
        level += frame->path.at[at].root_of_closed;
        level -= at > current && frame->path.at[at].slot_in_closed;
    }
    return level;
}

/* The composed path at an item (DOM Standard, composedPath()): what is in front of it is found backwards. */
static owl_span put_path(standin *in, const frame *frame, size_t current)
{
    node_list front = {NULL, 0, 0}, nodes = {NULL, 0, 0};
    int first = hidden_level(frame, current), level = first, most = first;
    for (size_t at = current; at-- > 0;) {
        level += frame->path.at[at].root_of_closed;
        if (level <= most)
            PUSH(front, frame->path.at[at].node);
        level -= frame->path.at[at].slot_in_closed;
        most = level < most ? level : most;
    }
    for (size_t at = front.count; at-- > 0;)
        PUSH(nodes, front.at[at]);
    PUSH(nodes, frame->path.at[current].node);
    level = most = first;
    /* the item itself may be the root of a closed tree, which is left after it */
    for (size_t at = current + 1; at < frame->path.count; at++) {
        level += frame->path.at[at].slot_in_closed;
        if (level <= most)
            PUSH(nodes, frame->path.at[at].node);
        level -= frame->path.at[at].root_of_closed;
        most = level < most ? level : most;
    }
    owl_span span = put_nodes(in, &nodes);
    free(front.at);
    free(nodes.at);
    return span;
}

static size_t index_of_visit(const frame *frame)
{
    size_t count = frame->path.count, visit = frame->visits - 1;
    return visit < count ? count - 1 - visit : visit - count;
}

static bool is_capturing(const frame *frame)
{
    return frame->visits <= frame->path.count;
}

static void put_event(standin *in, const frame *frame, const listener *listener)
{
    size_t current = index_of_visit(frame), target = current;
    const step *step = &frame->path.at[current];
    while (!frame->path.at[target].target)
        target--;
    owl_delivery delivery = {.kind = OWL_EVENT, .owner = step->node->owner, .number = step->target ? 2 : is_capturing(frame) ? 1 : 3,
                             .flags = frame->flags | (frame->is_cancelled ? OWL_PREVENTED : 0), .target = shown(frame->path.at[target].target),
                             .current = shown(step->node), .related = shown(step->related), .previous = OWL_NONE, .next = OWL_NONE};
    delivery.label = put_bytes(in, listener->label);
    delivery.name = put_bytes(in, frame->type);
    delivery.path = put_path(in, frame, current);
    PUSH(in->deliveries, delivery);
}

static void take_away(node *from, listener *listener)
{
    struct listener **place = &from->listeners;
    while (*place != listener)
        place = &(*place)->next;
    *place = listener->next;
    listener->is_removed = true;
    drop_listener(listener);
}

/* Calls a listener, and gives whether that is a callback (DOM Standard, inner invoke). */
static bool call_listener(standin *in, frame *frame, listener *listener)
{
    node *current = frame->path.at[index_of_visit(frame)].node;
    if (listener->flags & OWL_ONCE)
        take_away(current, listener);
    put_event(in, frame, listener);
    frame->is_passive = listener->flags & OWL_PASSIVE;
    frame->is_stopped |= listener->action == OWL_STOP || listener->action == OWL_STOP_NOW;
    frame->is_stopped_now |= listener->action == OWL_STOP_NOW;
    frame->is_cancelled |= listener->action == OWL_CANCEL && !frame->is_passive && frame->flags & OWL_CANCELABLE;
    return listener->action == OWL_LIVE && call_owner(in, current->owner, 1);
}

/* Begins the next visit at a node that has listeners that fit, if there is one (DOM Standard, invoke). */
static bool next_visit(frame *frame)
{
    while (!frame->heard.count && frame->visits < 2 * frame->path.count) {
        frame->visits++;
        const step *step = &frame->path.at[index_of_visit(frame)];
        if (!is_capturing(frame) && !step->target && !(frame->flags & OWL_BUBBLES))
            continue;
        for (listener *each = step->node->listeners; each; each = each->next)
            if (each->type == frame->type && !(each->flags & OWL_CAPTURE) == !is_capturing(frame)) {
                each->holders++;
                PUSH(frame->heard, each);
            }
    }
    return frame->heard.count;
}

/* Goes on with the innermost frame, an event, and gives whether a callback is due. */
static bool run_event(standin *in)
{
    frame *frame = innermost(in);
    do {
        while (frame->heard_done < frame->heard.count && !frame->is_stopped_now) {
            listener *listener = frame->heard.at[frame->heard_done++];
            if (!listener->is_removed && call_listener(in, frame, listener))
                return true;
        }
        drop_heard(frame);
    } while (!frame->is_stopped && next_visit(frame));
    if (frame->has_dispatcher) {
        in->owners.at[frame->dispatcher].dispatches--;
        in->truth = !frame->is_cancelled;
    }
    leave(in);
    return false;
}

/* ---- tasks */

/* DOM Standard, notify mutation observers. */
static bool run_notification(standin *in)
{
    frame *frame = innermost(in);
    while (frame->observers_done < frame->observers.count) {
        observer *observer = frame->observers.at[frame->observers_done++];
        size_t count = observer->queue.count;
        put_records(in, observer);
        drop_transients(observer);
        if (count && observer->is_live && call_owner(in, frame->owner, count))
            return true;
    }
    if (frame->slots_done < frame->slots.count)
        begin_event(in, frame->slots.at[frame->slots_done++], NULL, name_of(in, (const uint8_t *)"slotchange", 10), OWL_BUBBLES);
    else
        leave(in);
    return false;
}

static void begin_notification(standin *in, uint32_t place)
{
    owner *owner = &in->owners.at[place];
    frame made;
    memset(&made, 0, sizeof made);
    made.kind = NOTIFICATION;
    made.owner = place;
    for (size_t at = 0; at < owner->pending.count; at++) {
        owner->pending.at[at]->is_pending = false;
        PUSH(made.observers, owner->pending.at[at]);
    }
    for (size_t at = 0; at < owner->signalled.count; at++)
        PUSH(made.slots, owner->signalled.at[at]);
    owner->pending.count = owner->signalled.count = 0;
    owner->is_notified = false;
    PUSH(in->frames, made);
}

static bool run_microtask(standin *in, const task *task)
{
    frame made;
    owl_delivery delivery = {.kind = OWL_MICROTASK, .owner = task->owner, .target = OWL_NONE, .current = OWL_NONE, .related = OWL_NONE,
                             .previous = OWL_NONE, .next = OWL_NONE, .label = put_bytes(in, task->label)};
    PUSH(in->deliveries, delivery);
    if (!task->is_live)
        return false;
    memset(&made, 0, sizeof made);
    made.kind = MICROTASK;
    PUSH(in->frames, made);
    return call_owner(in, task->owner, 1);
}

static bool run_checkpoint(standin *in)
{
    if (in->tasks_done < in->tasks.count) {
        task task = in->tasks.at[in->tasks_done++];
        if (task.label)
            return run_microtask(in, &task);
        begin_notification(in, task.owner);
        return false;
    }
    in->tasks.count = in->tasks_done = 0;
    in->truth = true;
    leave(in);
    return false;
}

/* Goes on until a callback is due, one is under way, or nothing is. */
uint32_t go_on(standin *in)
{
    bool is_due = false;
    while (!is_due && in->frames.count && !innermost(in)->is_called) {
        switch (innermost(in)->kind) {
        case EVENT: is_due = run_event(in); break;
        case NOTIFICATION: is_due = run_notification(in); break;
        case CHECKPOINT: is_due = run_checkpoint(in); break;
        case MICROTASK: leave(in); break;
        }
    }
    return is_due ? OWL_CALL : OWL_OK;
}

/* ---- calls */

static void begin_checkpoint(standin *in)
{
    frame made;
    memset(&made, 0, sizeof made);
    made.kind = CHECKPOINT;
    PUSH(in->frames, made);
}

uint32_t dom_checkpoint(owl_document *document)
{
    call this;
    uint32_t status = begin(&this, document, OWL_PAGE, 0, NULL);
    if (!status && this.in->frames.count)
        status = OWL_BUSY;
    if (status)
        return status;
    begin_checkpoint(this.in);
    status = go_on(this.in);
    end(&this, document);
    return status;
}

uint32_t dom_finish(owl_document *document)
{
    call this;
    uint32_t status = begin(&this, document, OWL_PAGE, 0, NULL);
    if (status)
        return status;
    this.in->returns_at_once = true;
    while (this.in->frames.count) {
        innermost(this.in)->is_called = false;
        go_on(this.in);
    }
    begin_checkpoint(this.in);
    go_on(this.in);
    this.in->returns_at_once = false;
    end(&this, document);
    return OWL_OK;
}

/* The frame of an owner's call under way, counted from the innermost, or none. */
static frame *call_under_way(const call *this, uint32_t number)
{
    for (size_t at = this->in->frames.count; at-- > 0;) {
        frame *each = &this->in->frames.at[at];
        if (each->is_called && each->called == this->place && !number--)
            return each;
    }
    return NULL;
}

uint32_t dom_give_back(owl_document *document, uint32_t owner, bool *truth)
{
    call this;
    uint32_t status = begin(&this, document, owner, 0, NULL);
    frame *frame = status ? NULL : call_under_way(&this, 0);
    if (!status && !frame)
        status = OWL_UNKNOWN;
    if (!status && frame != innermost(this.in))
        status = OWL_BUSY;
    if (status)
        return status;
    frame->is_called = false;
    status = go_on(this.in);
    if (!status)
        *truth = this.in->truth;
    end(&this, document);
    return status;
}

/* Begins a call on the event of an owner's call under way. */
static uint32_t begin_act(call *this, owl_document *document, uint32_t owner, uint32_t number, frame **frame)
{
    uint32_t status = begin(this, document, owner, 0, NULL);
    *frame = status ? NULL : call_under_way(this, number);
    if (!status && !*frame)
        status = OWL_UNKNOWN;
    return status || (*frame)->kind == EVENT ? status : OWL_WRONG_KIND;
}

uint32_t dom_prevent(owl_document *document, uint32_t owner, uint32_t number)
{
    call this;
    frame *frame;
    uint32_t status = begin_act(&this, document, owner, number, &frame);
    if (!status)
        frame->is_cancelled |= !frame->is_passive && frame->flags & OWL_CANCELABLE;
    return status;
}

uint32_t dom_stop(owl_document *document, uint32_t owner, uint32_t number)
{
    call this;
    frame *frame;
    uint32_t status = begin_act(&this, document, owner, number, &frame);
    if (!status)
        frame->is_stopped = true;
    return status;
}

uint32_t dom_stop_now(owl_document *document, uint32_t owner, uint32_t number)
{
    call this;
    frame *frame;
    uint32_t status = begin_act(&this, document, owner, number, &frame);
    if (!status)
        frame->is_stopped = frame->is_stopped_now = true;
    return status;
}

uint32_t dom_prevented(owl_document *document, uint32_t owner, uint32_t number, bool *is_prevented)
{
    call this;
    frame *frame;
    uint32_t status = begin_act(&this, document, owner, number, &frame);
    if (!status)
        *is_prevented = frame->is_cancelled;
    return status;
}

uint32_t dom_queue_microtask(owl_document *document, uint32_t owner, const uint8_t *label, size_t label_size, bool is_live)
{
    call this;
    uint32_t status = begin(&this, document, owner, 0, NULL);
    if (status != OWL_CLOSED && !is_label(label, label_size))
        return OWL_SYNTAX;
    if (!status)
        PUSH(this.in->tasks, ((task){owner, name_of(this.in, label, label_size), is_live}));
    return status;
}

/* Listeners, dispatches, callbacks under way, and the checkpoint. A call of these that answers CALLED has put into the answers what the callback is told:
 * kind, owner, label or observer; of an event also its phase, its flags, and owner and number of the target, of the node at
 * which it is and of the related node. */
#include "addon.h"

#include <stdio.h>

enum { CALLED = 2, LABEL = 16 };

static void put_node(state *into, size_t *at, owl_node node) {
    bool is = node.owner != OWL_NONE.owner;
    put(into, at, is ? (int32_t)node.owner : NONE);
    put(into, at, is ? (int32_t)node.number : NONE);
}

/* Labels are numbers here. */
static int32_t label_of(const owl_answer *answer, owl_span span) {
    int32_t made = 0;
    for (uint32_t at = 0; at < span.count; at++)
        made = made * 10 + (answer->bytes[span.at + at] - '0');
    return made;
}

static void put_call(state *into, const owl_answer *answer) {
    const owl_delivery *told = answer->deliveries + answer->called.at;
    bool is_record = told->kind != OWL_EVENT && told->kind != OWL_MICROTASK;
    size_t at = 0;
    put(into, &at, (int32_t)told->kind);
    put(into, &at, (int32_t)told->owner);
    put(into, &at, is_record ? (int32_t)told->number : label_of(answer, told->label));
    if (told->kind != OWL_EVENT)
        return;
    put(into, &at, (int32_t)told->number);
    put(into, &at, (int32_t)told->flags);
    put_node(into, &at, told->target);
    put_node(into, &at, told->current);
    put_node(into, &at, told->related);
}

/* Answers 0 or 1, CALLED, or a refusal. */
static napi_value went(call *from, uint32_t status, bool is) {
    owl_answer answer;
    if (status != OWL_CALL)
        return truth(from->env, status, is);
    status = dom_answer(from->door.document, &answer);
    if (status != OWL_OK)
        return refused(from->env, status);
    put_call(from->state, &answer);
    return number(from->env, CALLED);
}

/* called_path(door): the length of the path of the event that a listener is due for; owner and number of each node stand in the answers. It is asked for before
 * any other call. */
CALL(called_path, 1) {
    owl_answer answer;
    size_t at = 0;
    uint32_t status = dom_answer(from->door.document, &answer);
    if (status != OWL_OK || answer.called.count == 0)
        return refused(from->env, status == OWL_OK ? OWL_UNKNOWN : status);
    owl_span path = answer.deliveries[answer.called.at].path;
    for (uint32_t place = 0; place < path.count; place++)
        put_node(from->state, &at, answer.nodes[path.at + place]);
    return number(from->env, (int32_t)path.count);
}

/* A label's text. */
static size_t label(char *text, int32_t number) {
    return (size_t)snprintf(text, LABEL, "%u", (unsigned)number);
}

/* listen(door, node, type, label, flags): a live listener */
CALL(listen, 5) {
    name type;
    char text[LABEL];
    if (!name_at(from, from->numbers[2], &type))
        return refused(from->env, ILLEGAL);
    size_t size = label(text, from->numbers[3]);
    uint32_t flags = (uint32_t)from->numbers[4];
    return done(from->env, dom_listen(DOOR, NODE(1), type.bytes, type.size, (uint8_t *)text, size, OWL_LIVE, flags));
}

/* unlisten(door, node, type, label, flags) */
CALL(unlisten, 5) {
    name type;
    char text[LABEL];
    if (!name_at(from, from->numbers[2], &type))
        return refused(from->env, ILLEGAL);
    size_t size = label(text, from->numbers[3]);
    return done(from->env, dom_unlisten(DOOR, NODE(1), type.bytes, type.size, (uint8_t *)text, size, (uint32_t)from->numbers[4]));
}

/* dispatch(door, node, type, flags, related) */
CALL(dispatch, 5) {
    name type;
    bool is;
    if (!name_at(from, from->numbers[2], &type))
        return refused(from->env, ILLEGAL);
    uint32_t status =
        dom_dispatch(DOOR, NODE(1), type.bytes, type.size, (uint32_t)from->numbers[3], NODE(4), &is);
    return went(from, status, is);
}

/* give_back(door): the innermost call of the door's owner returns */
CALL(give_back, 1) {
    bool is;
    uint32_t status = dom_give_back(DOOR, &is);
    return went(from, status, is);
}

/* checkpoint(door): of the whole document, whatever door */
CALL(checkpoint, 1) {
    return went(from, dom_checkpoint(from->door.document), true);
}

/* Acts on the event of the owner's call with a number. */
CHANGES(prevent, 2, (uint32_t)from->numbers[1])
CHANGES(stop, 2, (uint32_t)from->numbers[1])
CHANGES(stop_now, 2, (uint32_t)from->numbers[1])

/* prevented(door, call) */
CALL(prevented, 2) {
    bool is;
    uint32_t status = dom_prevented(DOOR, (uint32_t)from->numbers[1], &is);
    return truth(from->env, status, is);
}

/* queue_microtask(door, label): a live one */
CALL(queue_microtask, 2) {
    char text[LABEL];
    size_t size = label(text, from->numbers[1]);
    return done(from->env, dom_queue_microtask(DOOR, (uint8_t *)text, size, true));
}

const entry events[] = {
    {"listen", listen},
    {"unlisten", unlisten},
    {"dispatch", dispatch},
    {"giveBack", give_back},
    {"calledPath", called_path},
    {"checkpoint", checkpoint},
    {"prevent", prevent},
    {"stop", stop},
    {"stopNow", stop_now},
    {"prevented", prevented},
    {"queueMicrotask", queue_microtask},
    {NULL, NULL},
};

/* Observers, and their records as arrays: kind, target, the sibling before, the sibling after, the attribute's name or null, the old value or null, the
 * count of nodes that came, these, and those that went. All nodes of a record are its owner's own. */
#include "addon.h"

static int32_t number_of(owl_node node) {
    return node.owner == OWL_NONE.owner ? NONE : (int32_t)node.number;
}

static napi_value nothing(napi_env env) {
    napi_value made = NULL;
    napi_get_null(env, &made);
    return made;
}

static napi_value record(napi_env env, const owl_answer *answer, const owl_delivery *told) {
    napi_value made;
    uint32_t at = 0;
    napi_create_array_with_length(env, 7 + told->added.count + told->removed.count, &made);
    napi_set_element(env, made, at++, number(env, (int32_t)told->kind));
    napi_set_element(env, made, at++, number(env, number_of(told->target)));
    napi_set_element(env, made, at++, number(env, number_of(told->previous)));
    napi_set_element(env, made, at++, number(env, number_of(told->next)));
    napi_set_element(env, made, at++, told->name.count ? word(env, answer->bytes + told->name.at, told->name.count) : nothing(env));
    napi_set_element(env, made, at++, told->has_old_value ? text(env, answer->units + told->old_value.at, told->old_value.count) : nothing(env));
    napi_set_element(env, made, at++, number(env, (int32_t)told->added.count));
    for (uint32_t place = 0; place < told->added.count; place++)
        napi_set_element(env, made, at++, number(env, number_of(answer->nodes[told->added.at + place])));
    for (uint32_t place = 0; place < told->removed.count; place++)
        napi_set_element(env, made, at++, number(env, number_of(answer->nodes[told->removed.at + place])));
    return made;
}

static napi_value all_records(napi_env env, const owl_answer *answer, size_t from, size_t count) {
    napi_value made;
    napi_create_array_with_length(env, count, &made);
    for (size_t at = 0; at < count; at++)
        napi_set_element(env, made, (uint32_t)at, record(env, answer, answer->deliveries + from + at));
    return made;
}

/* create_observer(door): its number; it is live */
CALL(create_observer, 1) {
    uint32_t made = 0;
    uint32_t status = dom_observer_create(DOOR, true, &made);
    return status == OWL_OK ? number(from->env, (int32_t)made) : refused(from->env, status);
}

/* observe(door, observer, node, flags, names) */
CALL(observe, 5) {
    name names;
    if (!name_at(from, from->numbers[4], &names))
        return refused(from->env, ILLEGAL);
    uint32_t observer = (uint32_t)from->numbers[1], flags = (uint32_t)from->numbers[3];
    return done(from->env, dom_observe(DOOR, observer, NODE(2), flags, names.bytes, names.size));
}

/* take_records(door, observer) */
CALL(take_records, 2) {
    uint32_t count = 0;
    owl_answer answer;
    uint32_t status = dom_take_records(DOOR, (uint32_t)from->numbers[1], &count);
    if (status != OWL_OK || (status = dom_answer(from->door.document, &answer)) != OWL_OK)
        return refused(from->env, status);
    return all_records(from->env, &answer, answer.delivery_count - count, count);
}

/* called_records(door): those of the callback that is due; before any other call */
CALL(called_records, 1) {
    owl_answer answer;
    uint32_t status = dom_answer(from->door.document, &answer);
    return status == OWL_OK ? all_records(from->env, &answer, answer.called.at, answer.called.count) : refused(from->env, status);
}

/* disconnect(door, observer) */
CALL(disconnect, 2) {
    return done(from->env, dom_disconnect(DOOR, (uint32_t)from->numbers[1]));
}

const entry observers[] = {
    {"createObserver", create_observer}, {"observe", observe}, {"takeRecords", take_records}, {"calledRecords", called_records},
    {"disconnect", disconnect},          {NULL, NULL},
};

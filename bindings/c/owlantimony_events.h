/*
 * Listeners and events of owlantimony_dom.h. It is included there, at the end, and nowhere else.
 */
#ifndef OWLANTIMONY_EVENTS_H
#define OWLANTIMONY_EVENTS_H

/* Adds a listener with OWL_CAPTURE, OWL_ONCE, OWL_PASSIVE joined, and writes its number, for owl_unlisten, to *listener if that is not
 * null. No number is given twice until owl_close. Each call adds one, even if the Standard adds none since the callback is there already.
 * SYNTAX: a type is 1 to 64 letters, digits, '-', '_', '.' and ':', `words` has no others than these three, and an action is one of the four. */
static inline owl_status owl_listen(owl_owner owner, owl_node node, const char *type, owl_action action, int words, owl_callback *callback,
                                    void *data, size_t *listener)
{
    static const char *const actions[] = {"log", "stop", "stop-now", "cancel"};
    owl_dom *dom = owner.dom;
    owli_listener made = {callback, data, node, 0, true, (words & OWL_ONCE) != 0, (words & OWL_CAPTURE) != 0, ""};
    owl_status status = owli_begin_on(owner, "listen", node);
    if (!status && (strlen(type) > 64 || words & ~(OWL_CAPTURE | OWL_ONCE | OWL_PASSIVE) || (unsigned)action > OWL_CANCEL))
        status = OWL_SYNTAX;
    if (status)
        return status;
    strcpy(made.type, type);
    owli_word(&dom->line, type);
    status = owli_take_turn(owner);
    if (!status && !owli_room_for_listener(dom))
        status = owli_fail(dom);
    if (status)
        return status;
    made.listener = dom->listeners_made;
    owli_label(dom, made.listener);
    owli_word(&dom->line, actions[action]);
    owli_words(&dom->line, words);
    status = owli_run(owner);
    if (status)
        return status;
    dom->listeners_made++;
    dom->listeners[dom->listener_count++] = made;
    if (listener)
        *listener = made.listener;
    return OWL_OK;
}

/* Takes a listener away, by its number. One that is gone is left alone, and so is a number that was not given. FOREIGN: it is another owner's. */
static inline owl_status owl_unlisten(owl_owner owner, size_t listener)
{
    owl_status status = owli_state(owner);
    owli_listener *found = status ? NULL : owli_find_listener(owner.dom, listener);
    if (!found)
        return status;
    owli_listener there = *found;
    status = owli_begin_on(owner, "unlisten", there.node);
    owli_word(&owner.dom->line, there.type);
    owli_label(owner.dom, listener);
    owli_words(&owner.dom->line, there.is_capture ? OWL_CAPTURE : 0);
    status = status ? status : owli_run(owner);
    found = status ? NULL : owli_find_listener(owner.dom, listener);
    if (found)
        found->is_there = false;
    return status;
}

/* Fires an event at a node with OWL_BUBBLES, OWL_CANCELABLE, OWL_COMPOSED joined, calls back for each listener that was called, and writes
 * to *is_kept, if that is not null, whether nobody cancelled it. The related node may be OWL_NONE.
 * SYNTAX: a type as owl_listen has it, and no other words than these three. TYPE: a component's related node has another root than the node. */
static inline owl_status owl_dispatch(owl_owner owner, owl_node node, const char *type, int words, owl_node related, bool *is_kept)
{
    char *told;
    owl_status status = owli_begin_on(owner, "dispatch", node);
    if (!status && words & ~(OWL_BUBBLES | OWL_CANCELABLE | OWL_COMPOSED))
        status = OWL_SYNTAX;
    owli_word(&owner.dom->line, type);
    owli_words(&owner.dom->line, words);
    if (!status && !owl_is_none(related)) {
        owli_word(&owner.dom->line, "related");
        status = owli_node(owner, related);
    }
    status = status ? status : owli_exchange(owner, &told);
    if (status)
        return status;
    if (is_kept)
        *is_kept = !strcmp(owner.dom->value, "true");
    return owli_tell(owner.dom, told);
}

#endif

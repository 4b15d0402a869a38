/* A stand-in for the engine's typed calls, unproved (README.md): mutation observers (DOM Standard, 4.3). */
#include "standin.h"

void queue_notification(standin *in, uint32_t owner)
{
    if (!in->owners.at[owner].is_notified)
        PUSH(in->tasks, ((task){owner, NULL, false}));
    in->owners.at[owner].is_notified = true;
}

/* ---- records */

static text copied(text old)
{
    return copied_text(old.at, old.count);
}

static void copy_nodes(node_list *to, const node_list *from)
{
    for (size_t at = 0; at < from->count; at++)
        PUSH(*to, from->at[at]);
}

static void add_record(standin *in, observer *observer, const record *told, bool wants_old)
{
    record record = *told;
    owner *owner = &in->owners.at[observer->owner];
    record.added = record.removed = (node_list){NULL, 0, 0};
    copy_nodes(&record.added, &told->added);
    copy_nodes(&record.removed, &told->removed);
    record.has_old_value = told->has_old_value && wants_old;
    record.old_value = record.has_old_value ? copied(told->old_value) : (text){NULL, 0};
    PUSH(observer->queue, record);
    if (!observer->is_pending)
        PUSH(owner->pending, observer);
    observer->is_pending = true;
    queue_notification(in, observer->owner);
}

static bool is_in_filter(const registration *registration, const name *name)
{
    for (size_t at = 0; at < registration->filter_count; at++)
        if (registration->filter[at] == name)
            return true;
    return false;
}

static bool asks_for(const registration *registration, const record *record)
{
    uint32_t options = registration->options;
    if (record->kind == OWL_CHILD_LIST)
        return options & OWL_OBSERVE_CHILD_LIST;
    if (record->kind == OWL_CHARACTER_DATA)
        return options & OWL_OBSERVE_CHARACTER_DATA;
    return options & OWL_OBSERVE_ATTRIBUTES && (!(options & OWL_OBSERVE_ATTRIBUTE_FILTER) || is_in_filter(registration, record->name));
}

static bool asks_for_old(const registration *registration, const record *record)
{
    return registration->options & (record->kind == OWL_ATTRIBUTES ? OWL_OBSERVE_ATTRIBUTE_OLD_VALUE : OWL_OBSERVE_CHARACTER_DATA_OLD_VALUE);
}

typedef LIST(observer *) observer_list;

/* The registrations on a node that fit: their observers, each once, and of these those that want the old value. */
static void interested_at(node *at, const record *record, observer_list *observers, observer_list *wanting)
{
    for (registration *each = at->registrations; each; each = each->next) {
        bool is_there = false;
        if (!asks_for(each, record) || (at != record->target && !(each->options & OWL_OBSERVE_SUBTREE)))
            continue;
        for (size_t other = 0; other < observers->count; other++)
            is_there = is_there || observers->at[other] == each->observer;
        if (!is_there)
            PUSH(*observers, each->observer);
        if (asks_for_old(each, record))
            PUSH(*wanting, each->observer);
    }
}

static bool is_among(const observer_list *observers, const observer *observer)
{
    for (size_t at = 0; at < observers->count; at++)
        if (observers->at[at] == observer)
            return true;
    return false;
}

/* DOM Standard, queue a mutation record. */
static void tell(standin *in, const record *record)
{
    observer_list observers = {NULL, 0, 0}, wanting = {NULL, 0, 0};
    if (!in->owners.at[record->target->owner].observers.count)
        return;
    for (node *at = record->target; at; at = at->parent)
        interested_at(at, record, &observers, &wanting);
    for (size_t at = 0; at < observers.count; at++)
        add_record(in, observers.at[at], record, is_among(&wanting, observers.at[at]));
    free(observers.at);
    free(wanting.at);
}

void tell_children(standin *in, node *target, const node_list *added, const node_list *removed, node *previous, node *next)
{
    record record = {.kind = OWL_CHILD_LIST, .target = target, .added = *added, .removed = *removed, .previous = previous, .next = next};
    tell(in, &record);
}

void tell_attribute(standin *in, node *target, const name *name, const text *old)
{
    record record = {.kind = OWL_ATTRIBUTES, .target = target, .name = name, .has_old_value = old};
    if (old)
        record.old_value = *old;
    tell(in, &record);
}

void tell_data(standin *in, node *target, text old)
{
    record record = {.kind = OWL_CHARACTER_DATA, .target = target, .old_value = old, .has_old_value = true};
    tell(in, &record);
}

static void empty_queue(observer *observer)
{
    for (size_t at = 0; at < observer->queue.count; at++) {
        free(observer->queue.at[at].added.at);
        free(observer->queue.at[at].removed.at);
        free(observer->queue.at[at].old_value.at);
    }
    observer->queue.count = 0;
}

void free_observer(observer *observer)
{
    empty_queue(observer);
    free(observer->queue.at);
    free(observer->nodes.at);
    free(observer);
}

/* Leaves an observer's records as deliveries, and empties its queue. */
void put_records(standin *in, observer *observer)
{
    for (size_t at = 0; at < observer->queue.count; at++) {
        record *record = &observer->queue.at[at];
        owl_delivery delivery = {.kind = record->kind, .owner = observer->owner, .number = observer->number, .target = shown(record->target),
                                 .current = OWL_NONE, .related = OWL_NONE, .previous = shown(record->previous), .next = shown(record->next)};
        delivery.added = put_nodes(in, &record->added);
        delivery.removed = put_nodes(in, &record->removed);
        delivery.old_value = put_units(in, record->old_value);
        delivery.has_old_value = record->has_old_value;
        if (record->name)
            delivery.name = put_bytes(in, record->name);
        PUSH(in->deliveries, delivery);
    }
    empty_queue(observer);
}

/* ---- registrations */

static registration *new_registration(node *on, observer *observer, uint32_t options)
{
    registration **place = &on->registrations;
    registration *made = calloc(1, sizeof *made);
    if (!made)
        abort();
    made->observer = observer;
    made->options = options;
    while (*place)
        place = &(*place)->next;
    PUSH(observer->nodes, on);
    return *place = made;
}

static void copy_filter(registration *to, const registration *from)
{
    size_t room = 0;
    to->filter_count = from->filter_count;
    to->filter = from->filter_count ? grown(NULL, from->filter_count, &room, sizeof *to->filter) : NULL;
    for (size_t at = 0; at < from->filter_count; at++)
        to->filter[at] = from->filter[at];
}

/* A node that leaves its parent stays observed by those that observe the subtree in which it stood (DOM Standard, remove). */
void add_transients(standin *in, node *left, node *parent)
{
    if (!in->owners.at[left->owner].observers.count)
        return;
    for (node *at = parent; at; at = at->parent)
        for (registration *each = at->registrations; each; each = each->next) {
            if (!(each->options & OWL_OBSERVE_SUBTREE))
                continue;
            registration *made = new_registration(left, each->observer, each->options);
            copy_filter(made, each);
            made->source = each->source == ASKED_FOR ? COPIED : COPIED_TWICE;
            made->copied_from = at;
        }
}

typedef enum dropping { ALL, TRANSIENTS, COPIES_OF } dropping;

static void drop_at(node *on, observer *observer, dropping what, const node *of)
{
    for (registration **place = &on->registrations; *place;) {
        registration *each = *place;
        bool is_copy_of = each->source == COPIED && each->copied_from == of;
        if (each->observer == observer && (what == ALL || (what == TRANSIENTS ? each->source != ASKED_FOR : is_copy_of))) {
            *place = each->next;
            free(each->filter);
            free(each);
        } else {
            place = &each->next;
        }
    }
}

void drop_transients(observer *observer)
{
    for (size_t at = 0; at < observer->nodes.count; at++)
        drop_at(observer->nodes.at[at], observer, TRANSIENTS, NULL);
}

/* ---- calls */

static observer *observer_at(const call *this, uint32_t number)
{
    return number < this->owner->observers.count ? this->owner->observers.at[number] : NULL;
}

/* Begins a call on an observer alone. */
static uint32_t begin_observer(call *this, owl_document *document, uint32_t owner, uint32_t number, observer **observer)
{
    uint32_t status = begin(this, document, owner, 0, NULL);
    *observer = status ? NULL : observer_at(this, number);
    return status || *observer ? status : OWL_UNKNOWN;
}

uint32_t dom_observer_create(owl_document *document, uint32_t owner, bool is_live, uint32_t *observer)
{
    call this;
    uint32_t status = begin(&this, document, owner, 0, NULL);
    if (!status && this.owner->observers.count >= MOST_MADE)
        status = OWL_LIMIT;
    if (status)
        return status;
    struct observer *made = calloc(1, sizeof *made);
    if (!made)
        abort();
    *observer = made->number = (uint32_t)this.owner->observers.count;
    made->owner = owner;
    made->is_live = is_live;
    PUSH(this.owner->observers, made);
    return OWL_OK;
}

static registration *asked_for(node *on, const observer *observer)
{
    for (registration *each = on->registrations; each; each = each->next)
        if (each->observer == observer && each->source == ASKED_FOR)
            return each;
    return NULL;
}

static void set_filter(standin *in, registration *registration, const uint8_t *names, size_t size)
{
    LIST(const name *) filter = {NULL, 0, 0};
    for (size_t from = 0, at = 0; at <= size; at++)
        if (at == size || names[at] == ',') {
            PUSH(filter, name_of(in, names + from, at - from));
            from = at + 1;
        }
    free(registration->filter);
    registration->filter = filter.at;
    registration->filter_count = filter.count;
}

/* The options with those that they imply (DOM Standard, observe()). */
static uint32_t implied(uint32_t flags)
{
    if (flags & (OWL_OBSERVE_ATTRIBUTE_OLD_VALUE | OWL_OBSERVE_ATTRIBUTE_FILTER))
        flags |= OWL_OBSERVE_ATTRIBUTES;
    return flags & OWL_OBSERVE_CHARACTER_DATA_OLD_VALUE ? flags | OWL_OBSERVE_CHARACTER_DATA : flags;
}

uint32_t dom_observe(owl_document *document, uint32_t owner, uint32_t observer, owl_node node, uint32_t flags, const uint8_t *names,
                     size_t names_size)
{
    call this;
    uint32_t status = begin(&this, document, owner, 1, &node);
    if (status != OWL_CLOSED && (flags > 127 || (names_size && !(flags & OWL_OBSERVE_ATTRIBUTE_FILTER))))
        return OWL_SYNTAX;
    struct observer *there = status ? NULL : observer_at(&this, observer);
    if (!status && !there)
        status = OWL_UNKNOWN;
    if (!status && !(implied(flags) & 7))
        status = OWL_TYPE;
    if (status)
        return status;
    registration *registration = asked_for(this.nodes[0], there);
    for (size_t at = 0; registration && at < there->nodes.count; at++)
        drop_at(there->nodes.at[at], there, COPIES_OF, this.nodes[0]);
    if (!registration)
        registration = new_registration(this.nodes[0], there, 0);
    registration->options = implied(flags);
    registration->filter_count = 0;
    if (flags & OWL_OBSERVE_ATTRIBUTE_FILTER)
        set_filter(this.in, registration, names, names_size);
    return OWL_OK;
}

uint32_t dom_take_records(owl_document *document, uint32_t owner, uint32_t observer, uint32_t *count)
{
    call this;
    struct observer *there;
    uint32_t status = begin_observer(&this, document, owner, observer, &there);
    if (status)
        return status;
    *count = (uint32_t)there->queue.count;
    put_records(this.in, there);
    end(&this, document);
    return OWL_OK;
}

uint32_t dom_disconnect(owl_document *document, uint32_t owner, uint32_t observer)
{
    call this;
    struct observer *there;
    uint32_t status = begin_observer(&this, document, owner, observer, &there);
    if (status)
        return status;
    for (size_t at = 0; at < there->nodes.count; at++)
        drop_at(there->nodes.at[at], there, ALL, NULL);
    there->nodes.count = 0;
    empty_queue(there);
    return OWL_OK;
}

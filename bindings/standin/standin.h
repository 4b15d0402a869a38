/*
 * A stand-in for the engine's typed calls (../c/owlantimony_typed.h), for the tests of the bindings alone: plain C, of which nothing is proved.
 * No package has it in it. This header is what its own files share; README.md says which file has what.
 */
#ifndef STANDIN_H
#define STANDIN_H

#pragma GCC visibility push(default) /* the calls alone are seen from outside */
#include "owlantimony_typed.h"
#pragma GCC visibility pop

#include <stdlib.h>
#include <string.h>

/* ---- lists that grow. Where memory is refused the program ends: this stand-in knows no MEMORY */

void *grown(void *at, size_t count, size_t *room, size_t size);

#define LIST(T)      \
    struct {         \
        T *at;       \
        size_t count, room; \
    }
#define PUSH(list, item) ((list).at = grown((list).at, (list).count, &(list).room, sizeof *(list).at), (list).at[(list).count++] = (item))

/* ---- what a document has */

/* Bytes that are there once: equal names are one pointer. */
typedef struct name {
    struct name *next;
    size_t size;
    uint8_t bytes[];
} name;

typedef struct text {
    uint16_t *at;
    size_t count;
} text;

typedef struct attribute {
    const name *name;
    text value;
} attribute;

typedef struct listener {
    struct listener *next; /* of the same node, in the order in which they were added */
    const name *type, *label;
    uint32_t action, flags;
    uint32_t holders; /* the node's list, and visits under way */
    bool is_removed;
} listener;

typedef struct node node;
typedef struct observer observer;

/* Where a registration is from: observe(), or a copy of one of those, or a copy of a copy. */
typedef enum source { ASKED_FOR, COPIED, COPIED_TWICE } source;

typedef struct registration {
    struct registration *next; /* of the same node, in the order in which they were added */
    observer *observer;
    uint32_t options;
    const name **filter;
    size_t filter_count;
    source source;
    node *copied_from;
} registration;

struct node {
    node *parent, *first, *last, *previous, *next;
    node *document; /* the node document; of a document none */
    const name *name;
    text data;
    attribute *attributes;
    listener *listeners;
    registration *registrations;
    size_t attribute_count, attribute_room;
    uint32_t owner, number, kind;
    uint32_t component; /* the owner of the closed tree of which it is the host, or 0 */
};

typedef LIST(node *) node_list;

typedef struct record {
    uint32_t kind;
    node *target, *previous, *next;
    node_list added, removed;
    const name *name;
    text old_value;
    bool has_old_value;
} record;

struct observer {
    uint32_t owner, number;
    bool is_live, is_pending;
    LIST(record) queue;
    node_list nodes; /* that have a registration of it, or had */
};

typedef struct point {
    node *node;
    uint32_t offset;
} point;

typedef struct range {
    point start, end;
    bool is_there;
} range;

typedef struct cursor { /* an iterator or a walker */
    node *root, *current;
    bool before;
    uint32_t what_to_show, filter;
    const name *name;
} cursor;

typedef struct owner {
    node_list nodes;
    node *host;
    uint32_t depth, attached, dispatches;
    LIST(range) ranges;
    LIST(cursor) iterators;
    LIST(cursor) walkers;
    LIST(observer *) observers;
    LIST(observer *) pending;
    node_list signalled;
    bool is_notified; /* its notification is queued */
} owner;

typedef struct task {
    uint32_t owner;
    const name *label; /* of a microtask; of a notification none */
    bool is_live;
} task;

/* An item of an event's path (DOM Standard, 2.2: path). */
typedef struct step {
    node *node, *target, *related;
    bool root_of_closed, slot_in_closed;
} step;

typedef enum frame_kind { EVENT, NOTIFICATION, MICROTASK, CHECKPOINT } frame_kind;

/* Something under way: the last frame is the innermost. A frame that is called waits for its owner to give back. */
typedef struct frame {
    frame_kind kind;
    bool is_called;
    uint32_t called; /* the owner */
    /* of an event */
    bool has_dispatcher, is_stopped, is_stopped_now, is_cancelled, is_passive;
    uint32_t dispatcher, flags;
    const name *type;
    LIST(step) path;
    size_t visits; /* how many are done: first from the path's end inwards, then outwards */
    LIST(listener *) heard; /* at the visit under way */
    size_t heard_done;
    /* of a notification */
    uint32_t owner;
    LIST(observer *) observers;
    node_list slots;
    size_t observers_done, slots_done;
} frame;

typedef struct standin {
    LIST(owner) owners;
    name *names[4096];
    const name *word_id, *word_class, *word_name, *word_slot;
    LIST(task) tasks;
    size_t tasks_done;
    LIST(frame) frames;
    bool truth, returns_at_once;
    LIST(owl_delivery) deliveries;
    LIST(owl_node) nodes;
    LIST(owl_row) rows;
    LIST(owl_attribute) attributes;
    LIST(uint16_t) units;
    LIST(uint8_t) bytes;
    owl_span called;
} standin;

/* A call that has begun: the document, the owner, and the nodes that it names. */
typedef struct call {
    standin *in;
    owner *owner;
    uint32_t place;
    node *nodes[3];
} call;

/* ---- base.c: names, texts, the answer, and how a call begins */

const name *name_of(standin *in, const uint8_t *bytes, size_t size);
bool is_element_name(const uint8_t *bytes, size_t size);
bool is_label(const uint8_t *bytes, size_t size);
text copied_text(const uint16_t *units, size_t count);
bool same_text(text one, const uint16_t *units, size_t count);
uint32_t begin(call *this, owl_document *document, uint32_t place, size_t count, const owl_node *nodes);
void end(call *this, owl_document *document);
owl_node shown(const node *node);
owl_span put_bytes(standin *in, const name *name);
owl_span put_units(standin *in, text text);
owl_span put_nodes(standin *in, const node_list *nodes);
enum { KIND_ELEMENT = 1 << OWL_ELEMENT, KIND_TEXT = 1 << OWL_TEXT, KIND_COMMENT = 1 << OWL_COMMENT, KIND_DOCUMENT = 1 << OWL_DOCUMENT };
enum { KIND_FRAGMENT = 1 << OWL_FRAGMENT, KIND_SHADOW = 1 << OWL_SHADOW_ROOT, KIND_DATA = KIND_TEXT | KIND_COMMENT };
bool is_of(const node *node, uint32_t kinds);

/* ---- making.c: nodes */

#define MOST_MADE 1000000
node *made_node(call *this, uint32_t kind, node *document);
node *document_of_new(call *this);

/* ---- walking.c: where nodes stand */

node *root_of(node *node);
node *following(node *at, node *root); /* in tree order, below a root */
node *following_all(node *at, node *root); /* likewise, after all that is below `at` */
node *preceding(node *at, node *root);
bool is_inclusive_ancestor(const node *node, const struct node *other);
uint32_t index_of(const node *node);
uint32_t length_of(const node *node);
bool precedes(node *one, node *other);
attribute *attribute_of(const node *node, const name *name);
text attribute_or_empty(const node *node, const name *name);

/* ---- trees.c: changes of trees (DOM Standard, 4.2.3) */

void remove_node(standin *in, node *node, bool is_told);
void insert_node(standin *in, node *parent, node *node, struct node *before, bool is_told);
void pre_insert(standin *in, node *parent, node *node, struct node *child);
uint32_t pre_insert_refusal(node *parent, node *node, struct node *child);

/* ---- texts.c: changes of data (DOM Standard, 4.10, 4.11) */

void replace_data(standin *in, node *node, uint32_t offset, uint32_t count, const uint16_t *units, size_t unit_count);
node *split_text(call *this, node *text, uint32_t offset);

/* ---- slots.c (DOM Standard, 4.2.2) */

/* What is kept of a change while it is made, to tell which slots it signals. */
typedef struct watch {
    node *x, *around, *old_slot;
    bool is_move, has_slots;
    node_list slots;
    LIST(node_list) assigned;
} watch;

node *host_of(standin *in, const node *root);
node *slot_of(standin *in, const node *node);
void assigned_to(standin *in, node *slot, node_list *nodes);
void watch_slots(standin *in, watch *watch, node *x, node *around, bool is_move);
void signal_slots(standin *in, watch *watch);

/* ---- observers.c (DOM Standard, 4.3) */

void queue_notification(standin *in, uint32_t owner);
void tell_children(standin *in, node *target, const node_list *added, const node_list *removed, node *previous, node *next);
void tell_attribute(standin *in, node *target, const name *name, const text *old);
void tell_data(standin *in, node *target, text old);
void add_transients(standin *in, node *left, node *parent);
void drop_transients(observer *observer);
void put_records(standin *in, observer *observer);
void free_observer(observer *observer);

/* ---- ranges.c, contents.c (DOM Standard, 5.3, 5.5) and cursors.c (6) */

node *child_towards(node *above, node *below);
bool same_point(point one, point other);
bool is_point_before(point one, point other);
bool is_contained(const range *range, node *node);
uint32_t begin_on(call *this, owl_document *document, uint32_t owner, uint32_t number, size_t count, const owl_node *nodes, range **range);
void ranges_on_insert(standin *in, node *parent, node *before, uint32_t count);
void ranges_on_remove(standin *in, node *leaving);
void ranges_on_replace_data(standin *in, node *node, uint32_t offset, uint32_t count, uint32_t coming);
void ranges_on_split(standin *in, node *text, uint32_t offset, node *tail);
void ranges_on_join(standin *in, node *first, uint32_t length, node *next);
void iterators_on_remove(standin *in, node *leaving);

/* ---- events.c (DOM Standard, 2.7, 2.9) and live.c */

void drop_listener(listener *listener);
void begin_event(standin *in, node *target, node *related, const name *type, uint32_t flags);
uint32_t go_on(standin *in);
void free_frame(frame *frame);

#endif

/*
 * Owlantimony by typed calls: nodes by number, strings by code units, answers in arrays. No line of the protocol stands in between. C99, and C++
 * may include it, but not beside owlantimony_dom.h.
 *
 * The library exports these calls. It makes nothing live yet: a listener with OWL_LIVE, and an observer or a microtask that is to be live, is
 * NOT_SUPPORTED, no call answers OWL_CALL, and no callback is ever under way. bindings/standin has what is live, without a proof, for the tests of the
 * bindings.
 *
 *     owl_document document = OWL_DOCUMENT_INIT;
 *     owl_node root = {OWL_PAGE, 0}, div;
 *     if (dom_open(&document) != OWL_OK) ...
 *     if (dom_create_element(&document, OWL_PAGE, (const uint8_t *)"div", 3, &div) != OWL_OK) ...
 *     if (dom_append(&document, OWL_PAGE, root, div) != OWL_OK) ...
 *     dom_close(&document);
 *
 * WHO ACTS. Each call but those on the document itself names the owner who acts: OWL_PAGE, or what dom_attach gave. An owner reaches its own
 * nodes alone; node 0 of the page is the first document, and node 0 of a component is its shadow root. Owners are places in a table of the document,
 * which tell how many components there are: they are the binding's, and are not handed to the code of the page or of a component.
 *
 * NO TURNS. A call of any owner is taken at any time, also in a callback of another one. Microtasks, records and slotchange wait for
 * dom_checkpoint, which is the embedder's: it calls it where a browser has its microtask checkpoint, when no script is running.
 *
 * ANSWERS. A call answers OWL_OK, a refusal, MEMORY, CLOSED, and three of them OWL_CALL. Where it is not OWL_OK, nothing is written through its
 * pointers, and nothing has changed (OWL_CALL apart). A refusal is the first that holds, in the order of their numbers. After MEMORY every later
 * call but dom_close answers so. `told` of the document is the count of deliveries that the last call left; dom_answer shows them, and the arrays in
 * which the spans of a row or a delivery lie. All that is lent (arrays, units, bytes, nodes) holds until the next call on the document, of whatever kind.
 *
 * LIVE CALLBACKS. A listener with the action OWL_LIVE, an observer and a microtask that were made live are *called*: dom_dispatch, dom_checkpoint or
 * dom_give_back answers OWL_CALL, and the answer's `called` has the deliveries that the callback is for: one of an event, one of a microtask, or
 * all records of one observer. Their owner is called. The embedder copies what it needs, runs the callback, in which any owner may make
 * any call but dom_checkpoint, and then calls dom_give_back for the owner who was called, also where the callback threw an exception:
 *
 *     status = dom_dispatch(&document, owner, node, .., &truth);
 *     while (status == OWL_CALL) {
 *         owner = who is called; run its callback;
 *         status = dom_give_back(&document, owner, &truth);
 *     }
 *
 * Callbacks that dispatch run this loop once more inside. A dispatch whose callback is under way goes on by dom_give_back alone, so the answer
 * OWL_OK ends the innermost loop. While an owner is called, it has a call under way; its calls are numbered from the innermost on, which is 0, and
 * others' are not counted. On the event of its own call it may dom_prevent, dom_stop and dom_stop_now.
 *
 * TEXTS. Units are UTF-16 code units, as the DOM has them: lone surrogates and 0 are units as others are. Offsets and counts are in units. Bytes are
 * names, types and labels. No text has a limit but memory. A size is the count of bytes. No pointer is null, also where its count is 0.
 *
 * THE PROGRAM keeps an owl_document where it is while it is open, and begins it as OWL_DOCUMENT_INIT. One call at a time has a document, on the
 * thread that opened it. The blocks that are given to a call do not overlap those that it writes.
 */
#ifndef OWLANTIMONY_TYPED_H
#define OWLANTIMONY_TYPED_H

#include <stdbool.h>
#include <stddef.h>
#include <stdint.h>

#ifdef __cplusplus
extern "C" {
#endif

/* What a call answers: that it is done, a refusal by its number in docs/PROTOCOL.md, or what else came between. */
enum {
    OWL_OK = 0,
    OWL_SYNTAX = 1,            /* a type or a label that is not 1 to 64 letters, digits, '-', '_', '.' and ':', or a number that is no word here */
    OWL_BUSY = 2,              /* dom_give_back: the innermost call of all is another owner's. dom_checkpoint: a call is under way */
    OWL_FOREIGN = 3,           /* a node is not the owner's own, or is OWL_NONE where the call does not say that it may be */
    OWL_UNKNOWN = 4,           /* there is no such owner, node, range, iterator, walker, observer or call under way */
    OWL_WRONG_KIND = 5,        /* a node is not of the kind that the call asks for; a call under way is no event's */
    OWL_HIERARCHY = 6,         /* HierarchyRequestError */
    OWL_NOT_FOUND = 7,         /* NotFoundError */
    OWL_NOT_SUPPORTED = 8,     /* NotSupportedError */
    OWL_INVALID_CHARACTER = 9, /* the name of an element or an attribute is not a letter or '_', and then letters, digits, '-', '_' */
    OWL_SELECTOR = 10,         /* the text is not in the selector grammar */
    OWL_INDEX_SIZE = 11,       /* IndexSizeError */
    OWL_TYPE = 12,             /* TypeError */
    OWL_LIMIT = 13,            /* one owner has made as many as it may, or has 64 dispatches under way */
    OWL_MEMORY = 14,           /* memory was refused, now or before */
    OWL_CLOSED = 15,           /* the document is not open */
    OWL_OPEN = 17,             /* the document is open already */
    OWL_CALL = 18              /* a callback is due: the answer's `called` says whose */
};

/* The page, as an owner. */
enum { OWL_PAGE = 0 };

/* A document with all its owners. Its fields are the library's; `told` may be read. */
typedef struct owl_document {
    bool is_open;
    void *held;
    size_t told; /* how many deliveries the last call left */
} owl_document;

/* What a document is before it is opened. */
#define OWL_DOCUMENT_INIT {false, NULL, 0}

/* A node: its owner, and its number among what that one made. */
typedef struct owl_node {
    uint32_t owner, number;
} owl_node;

/* What stands for no node. */
static const owl_node OWL_NONE = {UINT32_MAX, 0};

/* The nodes around a node: its parent, its first and last child, and its previous and next sibling. */
typedef struct owl_links {
    owl_node parent, first, last, previous, next;
} owl_links;

typedef struct owl_point {
    owl_node node;
    uint32_t offset;
} owl_point;

/* A part of an array of the answer. */
typedef struct owl_span {
    uint32_t at, count;
} owl_span;

/* An attribute. */
typedef struct owl_attribute {
    owl_span name;  /* of the bytes */
    owl_span value; /* of the units */
} owl_attribute;

/* A node with all that it has itself. */
typedef struct owl_row {
    owl_node node;
    uint32_t kind;       /* OWL_ELEMENT and so on */
    uint32_t parent;     /* the row of its parent; of the first row 0 */
    owl_span name;       /* of the bytes: an element's name */
    owl_span data;       /* of the units: the data of a Text or a Comment */
    owl_span attributes; /* of the attributes, in order */
} owl_row;

/* Kinds of nodes: the DOM's nodeType, and a shadow root apart from other fragments, which have the type 11 as well. */
enum { OWL_ELEMENT = 1, OWL_TEXT = 3, OWL_COMMENT = 8, OWL_DOCUMENT = 9, OWL_FRAGMENT = 11, OWL_SHADOW_ROOT = 12 };

/* Kinds of deliveries. */
enum { OWL_EVENT = 1, OWL_CHILD_LIST = 2, OWL_ATTRIBUTES = 3, OWL_CHARACTER_DATA = 4, OWL_MICROTASK = 5 };

/* Words of a listener, of an event, of what is observed; they are joined by |. */
enum { OWL_CAPTURE = 1, OWL_ONCE = 2, OWL_PASSIVE = 4 };
enum { OWL_BUBBLES = 8, OWL_CANCELABLE = 16, OWL_COMPOSED = 32, OWL_PREVENTED = 64 };
enum {
    OWL_OBSERVE_CHILD_LIST = 1,
    OWL_OBSERVE_ATTRIBUTES = 2,
    OWL_OBSERVE_CHARACTER_DATA = 4,
    OWL_OBSERVE_SUBTREE = 8,
    OWL_OBSERVE_ATTRIBUTE_OLD_VALUE = 16, /* with OBSERVE_ATTRIBUTES, also where that is not said */
    OWL_OBSERVE_CHARACTER_DATA_OLD_VALUE = 32, /* with OBSERVE_CHARACTER_DATA likewise */
    OWL_OBSERVE_ATTRIBUTE_FILTER = 64 /* the names are those of attributes that are observed; with OBSERVE_ATTRIBUTES likewise */
};

/* What a listener does when it is called, beside that it is told. OWL_LIVE: its callback runs, and decides. */
enum { OWL_LOG = 0, OWL_STOP = 1, OWL_STOP_NOW = 2, OWL_CANCEL = 3, OWL_LIVE = 4 };

/* What a filter does with elements of its name: the Standard's NodeFilter. OWL_ACCEPT: there is no filter, and no name. */
enum { OWL_ACCEPT = 1, OWL_REJECT = 2, OWL_SKIP = 3 };

/* The moves of a walker. */
enum { OWL_MOVE_PARENT, OWL_MOVE_FIRST, OWL_MOVE_LAST, OWL_MOVE_NEXT, OWL_MOVE_PREVIOUS, OWL_MOVE_NEXT_SIBLING, OWL_MOVE_PREVIOUS_SIBLING };

/* What a listener, an observer or a microtask is told. Nodes are those that its owner may see. What a kind does not have is 0, OWL_NONE or empty. */
typedef struct owl_delivery {
    uint32_t kind;
    uint32_t owner;  /* whose it is */
    uint32_t number; /* an event's phase: 1 on the way in, 2 at a target, 3 on the way out; a record's observer */
    uint32_t flags;  /* of a live event: BUBBLES, CANCELABLE, COMPOSED, and PREVENTED where it was cancelled before this */
    owl_node target, current, related; /* a record has a target alone */
    owl_node previous, next;           /* of CHILD_LIST */
    owl_span label;                    /* of the bytes: of an event and a microtask */
    owl_span name;                     /* of the bytes: an event's type, a record's attribute */
    owl_span path;                     /* of the nodes, from the target outwards */
    owl_span added, removed;           /* of the nodes */
    owl_span old_value;                /* of the units */
    uint32_t has_old_value;            /* 1 where there is one */
} owl_delivery;

/* The arrays of the last call. */
typedef struct owl_answer {
    const owl_delivery *deliveries;
    size_t delivery_count;
    const owl_node *nodes;
    size_t node_count;
    const owl_row *rows;
    size_t row_count;
    const owl_attribute *attributes;
    size_t attribute_count;
    const uint16_t *units;
    size_t unit_count;
    const uint8_t *bytes;
    size_t byte_count;
    owl_span called; /* of the deliveries, their last ones: those of the callback that is due after OWL_CALL; else empty */
} owl_answer;

/* ---- the document */

/* Opens a document, with its page. OPEN: it is open. MEMORY: it stays closed. */
uint32_t dom_open(owl_document *document);

/* Frees all of a document. No callback is called. CLOSED: it was closed. It may be opened again. */
uint32_t dom_close(owl_document *document);

/* Shows the arrays of the call before. They hold until the next call of another kind. */
uint32_t dom_answer(owl_document *document, owl_answer *answer);

/* Runs the tasks of all owners, first in, first out, until none is left, also of those that come meanwhile: microtasks, and of each owner the records
 * of its observers and slotchange at its signalled slots. CALL: a live one is called. BUSY: a call is under way. */
uint32_t dom_checkpoint(owl_document *document);

/* The calls under way return, the innermost first; then the tasks run, and each call of theirs returns at once. What is told is left as deliveries. */
uint32_t dom_finish(owl_document *document);

/* ---- callbacks under way */

/* The owner's innermost call is over, and what was under way goes on. OK: it is over as well, and *truth is what its dispatch is answered, or true for a
 * checkpoint. CALL: a callback is due. UNKNOWN: the owner has no call under way. BUSY: another owner's is further inside. */
uint32_t dom_give_back(owl_document *document, uint32_t owner, bool *truth);

/* Cancel, stop as stopPropagation, or stop as stopImmediatePropagation the event of the owner's call with this number, 0 the innermost. To cancel what is not
 * cancelable, or from a passive listener, does nothing. UNKNOWN: there is no such call. WRONG_KIND: it is no event's. */
uint32_t dom_prevent(owl_document *document, uint32_t owner, uint32_t call);
uint32_t dom_stop(owl_document *document, uint32_t owner, uint32_t call);
uint32_t dom_stop_now(owl_document *document, uint32_t owner, uint32_t call);

/* Writes whether that event is cancelled. */
uint32_t dom_prevented(owl_document *document, uint32_t owner, uint32_t call, bool *is_prevented);

/* ---- making nodes. LIMIT: the owner has made 1,000,000 */

uint32_t dom_create_element(owl_document *document, uint32_t owner, const uint8_t *name, size_t name_size, owl_node *made);
uint32_t dom_create_text(owl_document *document, uint32_t owner, const uint16_t *units, size_t unit_count, owl_node *made);
uint32_t dom_create_comment(owl_document *document, uint32_t owner, const uint16_t *units, size_t unit_count, owl_node *made);
uint32_t dom_create_fragment(owl_document *document, uint32_t owner, owl_node *made);
uint32_t dom_create_document(owl_document *document, uint32_t owner, owl_node *made);

/* Gives an element a closed shadow root, and writes the component that owns it. NOT_SUPPORTED, LIMIT: docs/PROTOCOL.md, 'Making nodes'. */
uint32_t dom_attach(owl_document *document, uint32_t owner, owl_node element, uint32_t *component);

/* ---- trees. HIERARCHY, NOT_FOUND: where the Standard refuses it */

uint32_t dom_append(owl_document *document, uint32_t owner, owl_node parent, owl_node node);
uint32_t dom_insert(owl_document *document, uint32_t owner, owl_node parent, owl_node node, owl_node child);
uint32_t dom_replace(owl_document *document, uint32_t owner, owl_node parent, owl_node node, owl_node child);
uint32_t dom_remove(owl_document *document, uint32_t owner, owl_node node);
uint32_t dom_adopt(owl_document *document, uint32_t owner, owl_node to, owl_node node);
uint32_t dom_normalize(owl_document *document, uint32_t owner, owl_node node);

/* ---- attributes and data */

uint32_t dom_set_attribute(owl_document *document, uint32_t owner, owl_node element, const uint8_t *name, size_t name_size, const uint16_t *units,
                           size_t unit_count);
uint32_t dom_remove_attribute(owl_document *document, uint32_t owner, owl_node element, const uint8_t *name, size_t name_size);

/* Lends an attribute's value. *has is whether there is one; without one the count is 0. */
uint32_t dom_get_attribute(owl_document *document, uint32_t owner, owl_node element, const uint8_t *name, size_t name_size, bool *has,
                           const uint16_t **units, size_t *unit_count);

uint32_t dom_set_data(owl_document *document, uint32_t owner, owl_node node, const uint16_t *units, size_t unit_count);
uint32_t dom_replace_data(owl_document *document, uint32_t owner, owl_node node, uint32_t offset, uint32_t count, const uint16_t *units,
                          size_t unit_count);
uint32_t dom_split_text(owl_document *document, uint32_t owner, owl_node text, uint32_t offset, owl_node *made);

/* Puts a Text, or nothing for no units, in the place of the children; of a Text or a Comment the data. */
uint32_t dom_set_text(owl_document *document, uint32_t owner, owl_node node, const uint16_t *units, size_t unit_count);

/* ---- reads. A node that there is none of is OWL_NONE */

uint32_t dom_parent(owl_document *document, uint32_t owner, owl_node node, owl_node *parent);
uint32_t dom_owner_document(owl_document *document, uint32_t owner, owl_node node, owl_node *of);
uint32_t dom_children(owl_document *document, uint32_t owner, owl_node node, const owl_node **nodes, size_t *node_count);
uint32_t dom_contains(owl_document *document, uint32_t owner, owl_node node, owl_node other, bool *does);
uint32_t dom_is_connected(owl_document *document, uint32_t owner, owl_node node, bool *is);

/* All shadow roots are closed: these write OWL_NONE for each element, and each element or Text. */
uint32_t dom_shadow_root(owl_document *document, uint32_t owner, owl_node element, owl_node *root);
uint32_t dom_assigned_slot(owl_document *document, uint32_t owner, owl_node node, owl_node *slot);

/* Lends the nodes that are assigned to a slot of a component. SYNTAX: the owner is the page. */
uint32_t dom_assigned(owl_document *document, uint32_t owner, owl_node slot, const owl_node **nodes, size_t *node_count);

/* Leaves the node and all below it as rows of the answer, in tree order. */
uint32_t dom_rows(owl_document *document, uint32_t owner, owl_node node);

/* ---- looks: reads that no line of the protocol asks for. They are refused as dom_parent is */

/* Writes the five nodes around a node. */
uint32_t dom_links(owl_document *document, uint32_t owner, owl_node node, owl_links *links);

/* Writes what a node has itself, as a row whose spans lie in the arrays of the answer. */
uint32_t dom_describe(owl_document *document, uint32_t owner, owl_node node, owl_row *row);

/* Lends the node and all below it as rows, in tree order, without names, data and attributes. */
uint32_t dom_structure(owl_document *document, uint32_t owner, owl_node node, const owl_row **rows, size_t *row_count);

/* ---- selectors */

/* Lends the elements below that match, in tree order. */
uint32_t dom_query(owl_document *document, uint32_t owner, owl_node node, const uint16_t *units, size_t unit_count, const owl_node **nodes,
                   size_t *node_count);
uint32_t dom_matches(owl_document *document, uint32_t owner, owl_node element, const uint16_t *units, size_t unit_count, bool *does);

/* ---- ranges. LIMIT: the owner has made 1,000,000 */

uint32_t dom_range_create(owl_document *document, uint32_t owner, uint32_t *range);
uint32_t dom_range_set_start(owl_document *document, uint32_t owner, uint32_t range, owl_node node, uint32_t offset);
uint32_t dom_range_set_end(owl_document *document, uint32_t owner, uint32_t range, owl_node node, uint32_t offset);
uint32_t dom_range_collapse(owl_document *document, uint32_t owner, uint32_t range, bool to_start);
uint32_t dom_range_drop(owl_document *document, uint32_t owner, uint32_t range);
uint32_t dom_range_points(owl_document *document, uint32_t owner, uint32_t range, owl_point *start, owl_point *end);
uint32_t dom_range_text(owl_document *document, uint32_t owner, uint32_t range, const uint16_t **units, size_t *unit_count);
uint32_t dom_range_extract(owl_document *document, uint32_t owner, uint32_t range, owl_node *fragment);
uint32_t dom_range_delete(owl_document *document, uint32_t owner, uint32_t range);
uint32_t dom_range_insert(owl_document *document, uint32_t owner, uint32_t range, owl_node node);

/* ---- iterators and walkers. `what_to_show` has the Standard's bits. A filter is OWL_ACCEPT, or what is done with elements of a name */

uint32_t dom_iterator_create(owl_document *document, uint32_t owner, owl_node root, uint32_t what_to_show, uint32_t filter, const uint8_t *name,
                             size_t name_size, uint32_t *iterator);
uint32_t dom_iterator_next(owl_document *document, uint32_t owner, uint32_t iterator, owl_node *node);
uint32_t dom_iterator_previous(owl_document *document, uint32_t owner, uint32_t iterator, owl_node *node);
uint32_t dom_iterator_reference(owl_document *document, uint32_t owner, uint32_t iterator, owl_node *node, bool *before);
uint32_t dom_walker_create(owl_document *document, uint32_t owner, owl_node root, uint32_t what_to_show, uint32_t filter, const uint8_t *name,
                           size_t name_size, uint32_t *walker);

/* SYNTAX: no OWL_MOVE. From outside the root's tree, and where the move leads nowhere, it stays, and *node is OWL_NONE. */
uint32_t dom_walker_move(owl_document *document, uint32_t owner, uint32_t walker, uint32_t step, owl_node *node);
uint32_t dom_walker_current(owl_document *document, uint32_t owner, uint32_t walker, owl_node *node);
uint32_t dom_walker_set(owl_document *document, uint32_t owner, uint32_t walker, owl_node node);

/* ---- events */

/* Adds a listener, known by its node, type, label and whether it has CAPTURE: a second one with these does nothing. SYNTAX: an action or flags that are none,
 * a type or a label that is none. */
uint32_t dom_listen(owl_document *document, uint32_t owner, owl_node node, const uint8_t *event, size_t event_size, const uint8_t *label,
                    size_t label_size, uint32_t action, uint32_t flags);

/* Removes it, if it is there, also from an event under way. */
uint32_t dom_unlisten(owl_document *document, uint32_t owner, owl_node node, const uint8_t *event, size_t event_size, const uint8_t *label,
                      size_t label_size, uint32_t flags);

/* Fires an event, with BUBBLES, CANCELABLE, COMPOSED and a related node or OWL_NONE. OK: it is over, and *truth is false exactly where it was cancelled.
 * CALL: a callback is due. TYPE: a component's related node has another root than the target. */
uint32_t dom_dispatch(owl_document *document, uint32_t owner, owl_node node, const uint8_t *event, size_t event_size, uint32_t flags,
                      owl_node related, bool *truth);

/* ---- observers and microtasks */

/* A live observer is called at a checkpoint with its records; another one is only told them. LIMIT as of ranges. */
uint32_t dom_observer_create(owl_document *document, uint32_t owner, bool is_live, uint32_t *observer);

/* Observes a node, or gives its registration there these options. Names are one run of bytes, with commas between them, and empty without ATTRIBUTE_FILTER.
 * TYPE: nothing is to be observed. */
uint32_t dom_observe(owl_document *document, uint32_t owner, uint32_t observer, owl_node node, uint32_t flags, const uint8_t *names,
                     size_t names_size);

/* Leaves the observer's records as deliveries, and writes their count; they are then gone. */
uint32_t dom_take_records(owl_document *document, uint32_t owner, uint32_t observer, uint32_t *count);
uint32_t dom_disconnect(owl_document *document, uint32_t owner, uint32_t observer);

/* Queues a microtask. A live one is called at the checkpoint with its label; another one is only told. */
uint32_t dom_queue_microtask(owl_document *document, uint32_t owner, const uint8_t *label, size_t label_size, bool is_live);

#ifdef __cplusplus
}
#endif

#endif

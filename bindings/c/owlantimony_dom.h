/*
 * Owlantimony in a C program: nodes, queries, closed trees and events, without lines of the protocol. C99, and C++ may include it.
 * Link as owlantimony.h says.
 *
 *     owl_dom dom = OWL_DOM_INIT;
 *     owl_owner page, widget;
 *     owl_node div, slot;
 *     if (owl_open(&dom, &page) != OWL_OK) ...
 *     owl_create_element(page, "div", &div);
 *     owl_append(page, owl_root(page), div);
 *     owl_attach(page, div, &widget);             // the widget's code gets `widget`, and nothing else
 *     owl_create_element(widget, "slot", &slot);
 *     owl_append(widget, owl_root(widget), slot);
 *     owl_close(&dom);
 *
 * An owner, the page or a component, acts by its `owl_owner`, and on its own nodes alone: a node of another owner is refused before a line
 * is sent, and by the engine too. A node is a small value that is copied freely, and stays what it is until the document is closed.
 *
 * Every call answers OWL_OK or why it was not done (owl_status and owl_message, in owlantimony_lines.h). After a refusal nothing has changed, but
 * that another owner's turn may have ended, and what the call would write is not written; SHORT alone writes. After MEMORY the document does
 * nothing more: each later call answers MEMORY until it is closed, and what was done of the call that met it is unknown. On a document that is
 * not open each call but owl_open answers CLOSED.
 *
 * Texts are UTF-8 and end in a byte 0. A lone surrogate stands in the three bytes that it would have; all else that is no UTF-8 is SYNTAX. A call
 * sends a line of the protocol, which has at most 65,536 bytes: more is SYNTAX. A character of a text takes one byte of it from space to ~, two
 * for " and \, six else, and twelve past U+FFFF. A text that a call gives holds until the next call on the document, which may be given it.
 * No pointer and no callback is null, unless a call says that it may be.
 *
 * A call of an owner first ends the turn of another one that acted before. So any call may call back before its own work, with the events of type
 * slotchange that this brings. Those of the last turn come by owl_end_turn alone.
 *
 * What an owner made counts for LIMIT even if it was removed, and stays in memory until owl_close.
 *
 * What the program has to keep:
 *   - An owl_dom begins as OWL_DOM_INIT. It stays where it is from owl_open to owl_close, as its owners point to it, and is never copied.
 *   - One call at a time has a document, and it stays on the thread that opened it. Other documents may be used by other threads.
 *   - malloc, realloc and free, signals and forks are as owlantimony.h asks.
 */
#ifndef OWLANTIMONY_DOM_H
#define OWLANTIMONY_DOM_H

#include "owlantimony_lines.h"

#ifdef __cplusplus
extern "C" {
#endif

/* A node: its owner, 0 for the page, and its number. */
typedef struct owl_node {
    uint32_t owner, number;
} owl_node;

/* What stands for no node. */
static const owl_node OWL_NONE = {UINT32_MAX, 0};

static inline bool owl_is_none(owl_node node)
{
    return node.owner == UINT32_MAX;
}

static inline bool owl_is_same(owl_node node, owl_node other)
{
    return node.owner == other.owner && node.number == other.number;
}

/* What a listener does to the dispatch under way. Its callback is called later, and does nothing to it. */
typedef enum owl_action { OWL_LOG, OWL_STOP, OWL_STOP_NOW, OWL_CANCEL } owl_action;

/* Words of a listener and of an event, to be joined by |. */
enum { OWL_CAPTURE = 1, OWL_ONCE = 2, OWL_PASSIVE = 4, OWL_BUBBLES = 8, OWL_CANCELABLE = 16, OWL_COMPOSED = 32 };

/* What one listener was shown of an event. Its nodes are those that the listener's owner may see: its own, and some of the owners around
 * it, with which it may compare and no more. All of it holds until the callback returns. */
typedef struct owl_event {
    const char *type;
    int phase; /* 1 on the way in, 2 at a target, 3 on the way out */
    owl_node target, current, related;
    const owl_node *path; /* from the target outwards, without the nodes that are hidden from the current one */
    size_t path_count;
} owl_event;

/* What is called once for each time that a listener was called in a dispatch, after the dispatch, but not if owl_unlisten has taken that
 * listener away since. It may call everything but owl_close, with what it was shown too; what it dispatches is told before the next callback
 * is called. It returns: it may not throw nor longjmp past this header. */
typedef void owl_callback(void *data, const owl_event *event);

typedef struct owli_listener {
    owl_callback *callback;
    void *data;
    owl_node node;
    size_t listener; /* its number */
    bool is_there, is_once, is_capture;
    char type[65];
} owli_listener;

/* A document with all its owners. Its fields are this header's. */
typedef struct owl_dom {
    owlantimony_session session;
    owli_text line, answer;
    char (*words)[80];
    size_t owner_count, listeners_made, listener_count, listener_room;
    owli_listener *listeners;
    uint32_t turn;
    char *value;
    bool has_failed;
} owl_dom;

/* What a document is before it is opened. */
#define OWL_DOM_INIT {OWLANTIMONY_SESSION_INIT, {NULL, 0, 0, false}, {NULL, 0, 0, false}, NULL, 0, 0, 0, 0, NULL, UINT32_MAX, NULL, false}

/* Who acts: the page or a component. A document has its own, from its opening to its closing. */
typedef struct owl_owner {
    owl_dom *dom;
    uint32_t index;
} owl_owner;

#include "owlantimony_calls.h"

/* Frees all of a document, if it is open. No callback is called. It may be opened again: its owners and nodes from before are not to be used
 * then, as they may be taken for new ones. */
static inline void owl_close(owl_dom *dom)
{
    owlantimony_drop(&dom->session);
    free(dom->line.bytes);
    free(dom->answer.bytes);
    free(dom->words);
    free(dom->listeners);
    owl_dom closed = OWL_DOM_INIT;
    *dom = closed;
}

/* Opens a document, and gives its page. The page's first node is a document, owl_root(*page).
 * OPEN: it is open already, and nothing was done. MEMORY: it stays closed. */
static inline owl_status owl_open(owl_dom *dom, owl_owner *page)
{
    owlantimony_status opened = owlantimony_new(&dom->session);
    if (opened != OWLANTIMONY_DONE)
        return opened == OWLANTIMONY_MEMORY ? OWL_MEMORY : OWL_OPEN;
    owl_status status = owli_add_owner(dom, "p", page);
    if (status)
        owl_close(dom);
    return status;
}

/* The page's first document, or the shadow root of a component. */
static inline owl_node owl_root(owl_owner owner)
{
    owl_node root = {owner.index, 0};
    return root;
}

/* Ends the open turn: slotchange is told, until nothing is left. The end of the last turn is told so alone, and by owl_close not at all. */
static inline owl_status owl_end_turn(owl_dom *dom)
{
    owl_owner page = {dom, 0};
    owl_status status = owli_state(page);
    return status ? status : owli_end_turn(dom);
}

/* ---- making nodes: the new node is written to *made. LIMIT: the owner has made 1,000,000. */

/* INVALID_CHARACTER: a name is a letter or '_', and then letters, digits, '-' and '_', all of them ASCII. */
static inline owl_status owl_create_element(owl_owner owner, const char *name, owl_node *made)
{
    owl_status status = owli_begin(owner, "new element");
    owli_name(&owner.dom->line, name);
    return status ? status : owli_run_for_node(owner, made);
}

static inline owl_status owl_create_text(owl_owner owner, const char *data, owl_node *made)
{
    owl_status status = owli_begin(owner, "new text");
    owli_string(&owner.dom->line, data);
    return status ? status : owli_run_for_node(owner, made);
}

static inline owl_status owl_create_comment(owl_owner owner, const char *data, owl_node *made)
{
    owl_status status = owli_begin(owner, "new comment");
    owli_string(&owner.dom->line, data);
    return status ? status : owli_run_for_node(owner, made);
}

static inline owl_status owl_create_fragment(owl_owner owner, owl_node *made)
{
    owl_status status = owli_begin(owner, "new fragment");
    return status ? status : owli_run_for_node(owner, made);
}

/* ---- changing trees */

/* Makes node the last child of parent; a fragment gives its children. HIERARCHY if the Standard refuses it. */
static inline owl_status owl_append(owl_owner owner, owl_node parent, owl_node node)
{
    const owl_node nodes[] = {parent, node};
    return owli_run_on(owner, "append", nodes, 2);
}

/* Inserts node before a child of parent, or last if the child is OWL_NONE. HIERARCHY or NOT_FOUND if the Standard refuses it. */
static inline owl_status owl_insert(owl_owner owner, owl_node parent, owl_node node, owl_node child)
{
    const owl_node nodes[] = {parent, node, child};
    return owl_is_none(child) ? owli_run_on(owner, "append", nodes, 2) : owli_run_on(owner, "insert", nodes, 3);
}

/* Puts node in the place of a child of parent. HIERARCHY or NOT_FOUND if the Standard refuses it. */
static inline owl_status owl_replace(owl_owner owner, owl_node parent, owl_node node, owl_node child)
{
    const owl_node nodes[] = {parent, node, child};
    return owli_run_on(owner, "replace", nodes, 3);
}

/* Takes an element, a Text or a Comment out of its parent, if it has one. */
static inline owl_status owl_remove(owl_owner owner, owl_node node)
{
    return owli_run_on(owner, "remove", &node, 1);
}

/* Puts a Text, or nothing for "", in the place of the children; of a Text or Comment the data. */
static inline owl_status owl_set_text(owl_owner owner, owl_node node, const char *text)
{
    owl_status status = owli_begin_on(owner, "text", node);
    owli_string(&owner.dom->line, text);
    return status ? status : owli_run(owner);
}

/* ---- attributes */

/* INVALID_CHARACTER: a name is as owl_create_element has it. */
static inline owl_status owl_set_attribute(owl_owner owner, owl_node element, const char *name, const char *value)
{
    owl_status status = owli_begin_on(owner, "set", element);
    owli_name(&owner.dom->line, name);
    owli_string(&owner.dom->line, value);
    return status ? status : owli_run(owner);
}

/* Takes an attribute away, if it is there. */
static inline owl_status owl_remove_attribute(owl_owner owner, owl_node element, const char *name)
{
    owl_status status = owli_begin_on(owner, "unset", element);
    owli_name(&owner.dom->line, name);
    return status ? status : owli_run(owner);
}

/* Writes an attribute's value to *value, or NULL if there is none. */
static inline owl_status owl_get_attribute(owl_owner owner, owl_node element, const char *name, const char **value)
{
    owl_status status = owli_begin_on(owner, "attr", element);
    owli_name(&owner.dom->line, name);
    status = status ? status : owli_run(owner);
    if (!status)
        *value = owner.dom->value[0] == '"' ? owli_unquote(owner.dom->value) : NULL;
    return status;
}

/* Writes whether an element has an attribute. */
static inline owl_status owl_has_attribute(owl_owner owner, owl_node element, const char *name, bool *has)
{
    const char *value;
    owl_status status = owl_get_attribute(owner, element, name, &value);
    if (!status)
        *has = value != NULL;
    return status;
}

/* Takes an attribute away if it is there, and else adds it, empty. Writes whether it is there then. INVALID_CHARACTER as owl_set_attribute. */
static inline owl_status owl_toggle_attribute(owl_owner owner, owl_node element, const char *name, bool *has)
{
    owli_text kept = {NULL, 0, 0, false};
    bool had = false;
    owl_status status = owli_state(owner);
    if (status)
        return status;
    owli_put(&kept, name, strlen(name));
    status = kept.has_failed ? owli_fail(owner.dom) : owl_has_attribute(owner, element, kept.bytes, &had);
    if (!status)
        status = had ? owl_remove_attribute(owner, element, kept.bytes) : owl_set_attribute(owner, element, kept.bytes, "");
    if (!status)
        *has = !had;
    free(kept.bytes);
    return status;
}

/* ---- reading */

/* Writes the parent to *parent, or OWL_NONE. */
static inline owl_status owl_parent(owl_owner owner, owl_node node, owl_node *parent)
{
    owl_status status = owli_run_on(owner, "parent", &node, 1);
    if (!status)
        owli_read_name(owner, owner.dom->value, parent);
    return status;
}

/* Writes the children to nodes, which has room for so many and may be null if that is 0, and their count to *count.
 * SHORT: there are more than that, the first of which are written. */
static inline owl_status owl_children(owl_owner owner, owl_node node, owl_node *nodes, size_t room, size_t *count)
{
    owl_status status = owli_run_on(owner, "children", &node, 1);
    return status ? status : owli_read_list(owner, owner.dom->value, nodes, room, count);
}

/* Writes the elements below a node that match a selector, in tree order, as owl_children does. A selector has names, *, #id, .class, attributes,
 * :first-child, :last-child, :not() of one compound, the four combinators, and commas (docs/PROTOCOL.md, 'Selectors'). SELECTOR: any other. */
static inline owl_status owl_query(owl_owner owner, owl_node node, const char *selector, owl_node *nodes, size_t room, size_t *count)
{
    owl_status status = owli_begin_on(owner, "query", node);
    owli_string(&owner.dom->line, selector);
    status = status ? status : owli_run(owner);
    return status ? status : owli_read_list(owner, owner.dom->value, nodes, room, count);
}

/* Writes whether an element matches a selector. SELECTOR: as owl_query has it. */
static inline owl_status owl_matches(owl_owner owner, owl_node element, const char *selector, bool *does)
{
    owl_status status = owli_begin_on(owner, "matches", element);
    owli_string(&owner.dom->line, selector);
    status = status ? status : owli_run(owner);
    if (!status)
        *does = !strcmp(owner.dom->value, "true");
    return status;
}

/* Writes the data of a Text or a Comment. WRONG_KIND: it is another node. */
static inline owl_status owl_data(owl_owner owner, owl_node node, const char **data)
{
    char *kind;
    owl_status status = owli_read_kind(owner, node, &kind);
    if (status)
        return status;
    if (strncmp(kind, "text ", 5) && strncmp(kind, "comment ", 8))
        return OWL_WRONG_KIND;
    *data = owli_unquote(strchr(kind, ' ') + 1);
    return OWL_OK;
}

/* Writes the DOM's nodeType: 1 an element, 3 a Text, 8 a Comment, 9 a document, 11 a fragment or a shadow root. Takes as long as owl_tree. */
static inline owl_status owl_node_type(owl_owner owner, owl_node node, int *type)
{
    static const char *const kinds[] = {"element", "text", "comment", "document", "fragment", "shadow"};
    static const int types[] = {1, 3, 8, 9, 11, 11};
    char *kind;
    owl_status status = owli_read_kind(owner, node, &kind);
    for (size_t at = 0; !status && at < sizeof types / sizeof *types; at++)
        if (strcspn(kind, " )") == strlen(kinds[at]) && !strncmp(kind, kinds[at], strlen(kinds[at])))
            *type = types[at];
    return status;
}

/* Writes the name of an element. WRONG_KIND: it is another node. Takes as long as owl_tree. */
static inline owl_status owl_name(owl_owner owner, owl_node element, const char **name)
{
    char *kind;
    owl_status status = owli_read_kind(owner, element, &kind);
    if (status)
        return status;
    if (strncmp(kind, "element ", 8))
        return OWL_WRONG_KIND;
    kind[8 + strcspn(kind + 8, " )")] = 0;
    *name = kind + 8;
    return OWL_OK;
}

/* Writes the tree below a node as docs/PROTOCOL.md has it under `tree`. */
static inline owl_status owl_tree(owl_owner owner, owl_node node, const char **text)
{
    owl_status status = owli_run_on(owner, "tree", &node, 1);
    if (!status)
        *text = owner.dom->value;
    return status;
}

/* ---- closed trees */

/* Gives an element a closed tree, and the component that owns it. NOT_SUPPORTED: it is a host already, or its name is neither a custom element's nor
 * article, aside, blockquote, body, div, footer, h1 to h6, header, main, nav, p, section or span. LIMIT: the owner has attached 1,000, or stands
 * 8 deep. */
static inline owl_status owl_attach(owl_owner owner, owl_node element, owl_owner *component)
{
    owl_status status = owli_run_on(owner, "attach", &element, 1);
    return status ? status : owli_add_owner(owner.dom, owner.dom->value, component);
}

/* Writes the nodes that are assigned to a component's slot, as owl_children does. They may be those of the owner around it. */
static inline owl_status owl_assigned(owl_owner owner, owl_node slot, owl_node *nodes, size_t room, size_t *count)
{
    owl_status status = owli_run_on(owner, "assigned", &slot, 1);
    return status ? status : owli_read_list(owner, owner.dom->value, nodes, room, count);
}

#include "owlantimony_events.h"

#ifdef __cplusplus
}
#endif

#endif

/*
 * Tries the listeners and events of owlantimony_dom.h, and texts that a call gave and the next one is given. Writes what is not as it should
 * be.
 */
#include "dom_tests.h"

/* Removes the current node, once the dispatch is over. */
static void take_out(void *data, const owl_event *event)
{
    told *notes = (told *)data;
    note(data, event);
    WANT(owl_remove(notes->acts, event->current) == OWL_OK);
}

/* Takes another listener away. */
typedef struct taker {
    owl_owner acts;
    size_t listener;
} taker;

static void take_listener(void *data, const owl_event *event)
{
    taker *takes = (taker *)data;
    (void)event;
    WANT(owl_unlisten(takes->acts, takes->listener) == OWL_OK);
}

static void try_listeners(owl_owner page)
{
    owl_node p = made(page, "p"), b = made(page, "b"), parent;
    told notes = {"", OWL_NONE, page};
    size_t listener = 0;
    bool is_kept = true;
    WANT(owl_append(page, p, b) == OWL_OK);
    WANT(owl_listen(page, b, "go", OWL_CANCEL, OWL_ONCE, note, &notes, NULL) == OWL_OK);
    WANT(owl_dispatch(page, b, "go", OWL_CANCELABLE, OWL_NONE, &is_kept) == OWL_OK && !is_kept && !strcmp(notes.text, "go 2 2;"));
    WANT(owl_dispatch(page, b, "go", OWL_CANCELABLE, OWL_NONE, &is_kept) == OWL_OK && is_kept && !strcmp(notes.text, "go 2 2;"));
    WANT(owl_listen(page, p, "go", OWL_STOP, OWL_CAPTURE, note, &notes, &listener) == OWL_OK);
    notes.text[0] = 0;
    WANT(owl_dispatch(page, b, "go", 0, OWL_NONE, NULL) == OWL_OK && !strcmp(notes.text, "go 1 2;"));
    WANT(owl_unlisten(page, listener) == OWL_OK && owl_unlisten(page, listener) == OWL_OK && owl_unlisten(page, 999) == OWL_OK);
    notes.text[0] = 0;
    WANT(owl_dispatch(page, b, "go", 0, OWL_NONE, NULL) == OWL_OK && !notes.text[0]);
    WANT(owl_listen(page, b, "go", OWL_LOG, 0, take_out, &notes, NULL) == OWL_OK);
    WANT(owl_dispatch(page, b, "go", OWL_BUBBLES, OWL_NONE, NULL) == OWL_OK);
    WANT(owl_parent(page, b, &parent) == OWL_OK && owl_is_none(parent));
    taker takes = {page, 0};
    notes.text[0] = 0;
    WANT(owl_listen(page, p, "take", OWL_LOG, 0, take_listener, &takes, NULL) == OWL_OK);
    WANT(owl_listen(page, p, "take", OWL_LOG, 0, note, &notes, &takes.listener) == OWL_OK);
    WANT(owl_dispatch(page, p, "take", 0, OWL_NONE, NULL) == OWL_OK && !notes.text[0]);
    notes.text[0] = 0;
    for (int at = 0; at < 2; at++)
        WANT(owl_listen(page, b, "twice", OWL_LOG, 0, note, &notes, NULL) == OWL_OK);
    WANT(owl_dispatch(page, b, "twice", 0, OWL_NONE, NULL) == OWL_OK && !strcmp(notes.text, "twice 2 1;twice 2 1;"));
    WANT(owl_listen(page, b, "e", OWL_LOG, OWL_BUBBLES, note, &notes, NULL) == OWL_SYNTAX);
    WANT(owl_dispatch(page, b, "e", OWL_CAPTURE, OWL_NONE, NULL) == OWL_SYNTAX);
    WANT(owl_listen(page, b, "a b", OWL_LOG, 0, note, &notes, NULL) == OWL_SYNTAX);
    WANT(owl_listen(page, b, "", OWL_LOG, 0, note, &notes, NULL) == OWL_SYNTAX);
}

/* A text that a call gave may be given to the next one, also where that ends another owner's turn first, or takes two lines. */
static void try_given_texts(owl_owner page)
{
    owl_node host = made(page, "div"), p = made(page, "p"), found[4];
    owl_owner widget = page;
    const char *text = "";
    size_t count = 0, listener = 0;
    bool has = false;
    told notes = {"", OWL_NONE, page};
    WANT(owl_attach(page, host, &widget) == OWL_OK && owl_set_attribute(page, p, "id", "b-1") == OWL_OK);
    WANT(owl_get_attribute(page, p, "id", &text) == OWL_OK && owl_toggle_attribute(page, p, text, &has) == OWL_OK && has);
    WANT(owl_has_attribute(page, p, "b-1", &has) == OWL_OK && has);
    WANT(owl_get_attribute(page, p, "id", &text) == OWL_OK && owl_toggle_attribute(page, p, text, &has) == OWL_OK && !has);
    WANT(owl_has_attribute(page, p, "b-1", &has) == OWL_OK && !has);
    WANT(owl_get_attribute(page, p, "id", &text) == OWL_OK && owl_listen(page, p, text, OWL_LOG, 0, note, &notes, &listener) == OWL_OK);
    WANT(owl_unlisten(page, listener) == OWL_OK && owl_dispatch(page, p, "b-1", 0, OWL_NONE, NULL) == OWL_OK && !notes.text[0]);
    WANT(owl_get_attribute(page, p, "id", &text) == OWL_OK);
    WANT(owl_listen(widget, owl_root(widget), text, OWL_LOG, 0, note, &notes, &listener) == OWL_OK);
    WANT(owl_dispatch(widget, owl_root(widget), "b-1", 0, OWL_NONE, NULL) == OWL_OK && !strcmp(notes.text, "b-1 2 1;"));
    notes.text[0] = 0;
    WANT(owl_unlisten(widget, listener) == OWL_OK);
    WANT(owl_dispatch(widget, owl_root(widget), "b-1", 0, OWL_NONE, NULL) == OWL_OK && !notes.text[0]);
    WANT(owl_get_attribute(page, p, "id", &text) == OWL_OK && owl_set_text(page, p, text) == OWL_OK);
    WANT(owl_children(page, p, found, 4, &count) == OWL_OK && count == 1 && owl_data(page, found[0], &text) == OWL_OK);
    WANT(!strcmp(text, "b-1") && owl_create_element(page, text, &p) == OWL_OK && owl_name(page, p, &text) == OWL_OK && !strcmp(text, "b-1"));
}

/* Adds a listener of the type of the event, once. */
static void listen_too(void *data, const owl_event *event)
{
    told *notes = (told *)data;
    WANT(owl_listen(notes->acts, event->current, event->type, OWL_LOG, OWL_ONCE, note, notes, NULL) == OWL_OK);
}

/* The number of a listener that is gone is no other one's: it takes nothing away, whether it was taken away or had ONCE. */
static void try_numbers(owl_owner page)
{
    owl_node p = made(page, "p");
    told notes = {"", OWL_NONE, page};
    size_t old = 0, once = 0, kept = 0, last = 0;
    WANT(owl_listen(page, p, "e", OWL_LOG, 0, note, &notes, &old) == OWL_OK && owl_unlisten(page, old) == OWL_OK);
    WANT(owl_listen(page, p, "e", OWL_LOG, OWL_ONCE, note, &notes, &once) == OWL_OK && once != old);
    WANT(owl_dispatch(page, p, "e", 0, OWL_NONE, NULL) == OWL_OK && !strcmp(notes.text, "e 2 1;"));
    WANT(owl_listen(page, p, "e", OWL_LOG, 0, note, &notes, &kept) == OWL_OK && kept != old && kept != once);
    for (int at = 0; at < 100; at++) {
        WANT(owl_listen(page, p, "e", OWL_LOG, 0, note, &notes, &last) == OWL_OK && last > kept && owl_unlisten(page, last) == OWL_OK);
        WANT(owl_unlisten(page, old) == OWL_OK && owl_unlisten(page, once) == OWL_OK && owl_unlisten(page, last + 1) == OWL_OK);
    }
    WANT(page.dom->listener_room < 100);
    notes.text[0] = 0;
    WANT(owl_dispatch(page, p, "e", 0, OWL_NONE, NULL) == OWL_OK && !strcmp(notes.text, "e 2 1;"));
    WANT(owl_unlisten(page, kept) == OWL_OK && owl_listen(page, p, "e", OWL_LOG, 0, listen_too, &notes, NULL) == OWL_OK);
    for (int at = 0; at < 40; at++) {
        notes.text[0] = 0;
        WANT(owl_dispatch(page, p, "e", 0, OWL_NONE, NULL) == OWL_OK && !strcmp(notes.text, at ? "e 2 1;" : ""));
    }
}

/* Words and actions that are none: SYNTAX, and nothing is added. */
static void try_words(owl_owner page)
{
    static const int words[] = {64, 1 << 30, -1, OWL_BUBBLES, OWL_CAPTURE | OWL_COMPOSED};
    static const int of_events[] = {64, 1 << 30, -1, OWL_CAPTURE, OWL_BUBBLES | OWL_PASSIVE};
    static const int actions[] = {4, 1000000, -1};
    owl_node p = made(page, "p");
    told notes = {"", OWL_NONE, page};
    size_t listener = 777;
    char type[66] = "";
    bool is_kept = false;
    for (size_t at = 0; at < sizeof words / sizeof *words; at++) {
        WANT(owl_listen(page, p, "e", OWL_LOG, words[at], note, &notes, &listener) == OWL_SYNTAX);
        WANT(owl_dispatch(page, p, "e", of_events[at], OWL_NONE, &is_kept) == OWL_SYNTAX && !is_kept);
    }
    for (size_t at = 0; at < sizeof actions / sizeof *actions; at++)
        WANT(owl_listen(page, p, "e", (owl_action)actions[at], 0, note, &notes, &listener) == OWL_SYNTAX);
    memset(type, 'e', 65);
    WANT(owl_listen(page, p, type, OWL_LOG, 0, note, &notes, &listener) == OWL_SYNTAX && listener == 777);
    WANT(owl_dispatch(page, p, "e", 0, OWL_NONE, NULL) == OWL_OK && !notes.text[0]);
    type[64] = 0;
    WANT(owl_listen(page, p, type, OWL_LOG, 0, note, &notes, NULL) == OWL_OK);
    WANT(owl_dispatch(page, p, type, 0, OWL_NONE, NULL) == OWL_OK && strlen(notes.text) == 69);
}

/* Fires another event. */
static void fire_inner(void *data, const owl_event *event)
{
    told *notes = (told *)data;
    note(data, event);
    WANT(owl_dispatch(notes->acts, event->current, "inner", 0, OWL_NONE, NULL) == OWL_OK);
}

/* The path begins with the target and goes outwards. */
static void look_at_path(void *data, const owl_event *event)
{
    const told *notes = (const told *)data;
    WANT(event->path_count == 3 && owl_is_same(event->path[0], event->target) && owl_is_same(event->path[1], event->current));
    WANT(owl_is_same(event->path[2], owl_root(notes->acts)) && owl_is_none(event->related));
}

/* What a callback dispatches is told before the next callback. */
static void try_order(owl_owner page)
{
    owl_node p = made(page, "p"), b = made(page, "b");
    told notes = {"", OWL_NONE, page};
    WANT(owl_append(page, owl_root(page), p) == OWL_OK && owl_append(page, p, b) == OWL_OK);
    WANT(owl_listen(page, b, "outer", OWL_LOG, 0, fire_inner, &notes, NULL) == OWL_OK);
    WANT(owl_listen(page, b, "outer", OWL_LOG, 0, note, &notes, NULL) == OWL_OK);
    WANT(owl_listen(page, b, "inner", OWL_LOG, 0, note, &notes, NULL) == OWL_OK);
    WANT(owl_dispatch(page, b, "outer", 0, OWL_NONE, NULL) == OWL_OK && !strcmp(notes.text, "outer 2 3;inner 2 3;outer 2 3;"));
    WANT(owl_listen(page, p, "up", OWL_LOG, 0, look_at_path, &notes, NULL) == OWL_OK);
    WANT(owl_dispatch(page, b, "up", OWL_BUBBLES, OWL_NONE, NULL) == OWL_OK && owl_remove(page, p) == OWL_OK);
}

/* The slot has no id yet. Another listener is added. */
static void look_first(void *data, const owl_event *event)
{
    told *notes = (told *)data;
    bool has = true;
    note(data, event);
    WANT(owl_has_attribute(notes->acts, event->current, "id", &has) == OWL_OK && !has);
    WANT(owl_listen(notes->acts, event->current, "later", OWL_LOG, OWL_ONCE, note, notes, NULL) == OWL_OK);
}

/* A call that ends another owner's turn calls back first, with what that tells, and then does its own work with what it was given. */
static void try_turns(owl_owner page)
{
    owl_node host = made(page, "div"), span = made(page, "span");
    owl_owner widget = page;
    const char *text = "";
    size_t listener = 0;
    bool has = false;
    WANT(owl_attach(page, host, &widget) == OWL_OK && owl_set_attribute(page, span, "title", "e") == OWL_OK);
    owl_node slot = made(widget, "slot");
    told notes = {"", OWL_NONE, widget};
    WANT(owl_append(widget, owl_root(widget), slot) == OWL_OK);
    WANT(owl_listen(widget, slot, "slotchange", OWL_LOG, 0, look_first, &notes, NULL) == OWL_OK);
    WANT(owl_append(page, host, span) == OWL_OK && owl_get_attribute(page, span, "title", &text) == OWL_OK && !notes.text[0]);
    WANT(owl_listen(widget, slot, text, OWL_LOG, 0, note, &notes, &listener) == OWL_OK && !strcmp(notes.text, "slotchange 2 2;"));
    notes.text[0] = 0;
    WANT(owl_dispatch(widget, slot, "e", 0, OWL_NONE, NULL) == OWL_OK && !strcmp(notes.text, "e 2 2;"));
    WANT(owl_dispatch(widget, slot, "later", 0, OWL_NONE, NULL) == OWL_OK && !strcmp(notes.text, "e 2 2;later 2 2;"));
    notes.text[0] = 0;
    WANT(owl_remove(page, span) == OWL_OK && owl_get_attribute(page, span, "title", &text) == OWL_OK);
    WANT(owl_set_attribute(widget, slot, "id", text) == OWL_OK && !strcmp(notes.text, "slotchange 2 2;"));
    WANT(owl_get_attribute(widget, slot, "id", &text) == OWL_OK && text && !strcmp(text, "e"));
    WANT(owl_remove_attribute(widget, slot, "id") == OWL_OK && owl_set_attribute(page, span, "title", "hidden") == OWL_OK);
    WANT(owl_append(page, host, span) == OWL_OK && owl_get_attribute(page, span, "title", &text) == OWL_OK);
    WANT(owl_toggle_attribute(widget, slot, text, &has) == OWL_OK && has && !strcmp(notes.text, "slotchange 2 2;slotchange 2 2;"));
    WANT(owl_has_attribute(widget, slot, "hidden", &has) == OWL_OK && has && owl_unlisten(widget, listener) == OWL_OK);
    notes.text[0] = 0;
    WANT(owl_dispatch(widget, slot, "e", 0, OWL_NONE, NULL) == OWL_OK && !notes.text[0]);
}

int main(void)
{
    owl_dom dom = OWL_DOM_INIT;
    owl_owner page;
    WANT(owl_open(&dom, &page) == OWL_OK);
    try_listeners(page);
    try_given_texts(page);
    try_numbers(page);
    try_words(page);
    try_order(page);
    try_turns(page);
    owl_close(&dom);
    printf("events: %d faults\n", faults);
    return faults != 0;
}

/*
 * Tries owlantimony_dom.h: what each call answers, by the DOM Standard, and with each request for memory refused in turn. Writes what
 * is not as it should be; events.c tries more of listeners. Built with -Wl,--wrap=malloc,--wrap=realloc,--wrap=calloc.
 */
#include "dom_tests.h"

static long left = -1; /* how many requests for memory are granted; below 0 all are */

#include "refused_memory.h"

/* All calls of an owner that end in a status answer this one, and write nothing. */
static void all_answer(owl_owner owner, owl_status status)
{
    owl_node root = owl_root(owner), node = OWL_NONE;
    owl_owner component = {NULL, 77};
    const char *text = NULL;
    size_t count = 77;
    int type = 77;
    bool is_so = false;
    WANT(owl_create_element(owner, "b", &node) == status && owl_create_text(owner, "b", &node) == status);
    WANT(owl_create_comment(owner, "b", &node) == status && owl_create_fragment(owner, &node) == status);
    WANT(owl_append(owner, root, root) == status && owl_insert(owner, root, root, root) == status);
    WANT(owl_replace(owner, root, root, root) == status && owl_remove(owner, root) == status && owl_set_text(owner, root, "b") == status);
    WANT(owl_node_type(owner, root, &type) == status && owl_name(owner, root, &text) == status && type == 77);
    WANT(owl_has_attribute(owner, root, "a", &is_so) == status && owl_toggle_attribute(owner, root, "a", &is_so) == status);
    WANT(owl_set_attribute(owner, root, "a", "b") == status && owl_remove_attribute(owner, root, "a") == status);
    WANT(owl_get_attribute(owner, root, "a", &text) == status && owl_data(owner, root, &text) == status);
    WANT(owl_tree(owner, root, &text) == status && owl_parent(owner, root, &node) == status);
    WANT(owl_children(owner, root, &node, 1, &count) == status && owl_query(owner, root, "b", &node, 1, &count) == status);
    WANT(owl_assigned(owner, root, &node, 1, &count) == status && owl_matches(owner, root, "b", &is_so) == status);
    WANT(owl_attach(owner, root, &component) == status && owl_unlisten(owner, 0) == status);
    WANT(owl_listen(owner, root, "e", OWL_LOG, 0, note, NULL, &count) == status);
    WANT(owl_dispatch(owner, root, "e", 0, OWL_NONE, &is_so) == status && owl_end_turn(owner.dom) == status);
    WANT(owl_is_none(node) && component.index == 77 && !text && count == 77 && !is_so);
}

static void try_trees(owl_owner page)
{
    owl_node ul = made(page, "ul"), one = made(page, "li"), two = made(page, "li"), text, found[4], parent;
    size_t count;
    WANT(owl_append(page, owl_root(page), ul) == OWL_OK && owl_append(page, ul, one) == OWL_OK && owl_insert(page, ul, two, one) == OWL_OK);
    WANT(owl_children(page, ul, found, 4, &count) == OWL_OK && count == 2 && owl_is_same(found[0], two) && owl_is_same(found[1], one));
    found[0] = found[1] = OWL_NONE;
    WANT(owl_children(page, ul, found, 1, &count) == OWL_SHORT && count == 2 && owl_is_same(found[0], two) && owl_is_none(found[1]));
    WANT(owl_children(page, ul, NULL, 0, &count) == OWL_SHORT && count == 2);
    WANT(owl_children(page, two, NULL, 0, &count) == OWL_OK && count == 0);
    WANT(owl_parent(page, one, &parent) == OWL_OK && owl_is_same(parent, ul));
    WANT(owl_parent(page, owl_root(page), &parent) == OWL_OK && owl_is_none(parent));
    WANT(owl_append(page, one, ul) == OWL_HIERARCHY && owl_insert(page, ul, made(page, "b"), ul) == OWL_NOT_FOUND);
    WANT(owl_append(page, owl_root(page), one) == OWL_HIERARCHY);
    WANT(owl_create_text(page, "x", &text) == OWL_OK && owl_append(page, text, one) == OWL_HIERARCHY);
    WANT(owl_replace(page, ul, text, two) == OWL_OK && owl_remove(page, one) == OWL_OK && owl_remove(page, one) == OWL_OK);
    WANT(owl_children(page, ul, found, 4, &count) == OWL_OK && count == 1 && owl_is_same(found[0], text));
    WANT(owl_create_fragment(page, &parent) == OWL_OK);
    WANT(owl_append(page, parent, one) == OWL_OK && owl_append(page, parent, two) == OWL_OK);
    WANT(owl_append(page, ul, parent) == OWL_OK && owl_children(page, ul, found, 4, &count) == OWL_OK && count == 3);
    WANT(owl_set_text(page, ul, "") == OWL_OK && owl_children(page, ul, found, 4, &count) == OWL_OK && count == 0);
    WANT(owl_remove(page, ul) == OWL_OK);
}

static void try_attributes_and_queries(owl_owner page)
{
    static const char awkward[] = "\xC3\xA9 \"q\" \\ \xF0\x9F\x98\x80 \xED\xA0\x80\n";
    owl_node p = made(page, "p"), b = made(page, "b"), found[4];
    const char *value = "";
    size_t count;
    bool does = false;
    WANT(owl_get_attribute(page, p, "id", &value) == OWL_OK && !value);
    WANT(owl_set_attribute(page, p, "id", awkward) == OWL_OK);
    WANT(owl_get_attribute(page, p, "id", &value) == OWL_OK && value && !strcmp(value, awkward));
    WANT(owl_has_attribute(page, p, "id", &does) == OWL_OK && does && owl_toggle_attribute(page, p, "hidden", &does) == OWL_OK && does);
    WANT(owl_get_attribute(page, p, "hidden", &value) == OWL_OK && value && !*value);
    WANT(owl_toggle_attribute(page, p, "hidden", &does) == OWL_OK && !does && owl_has_attribute(page, p, "hidden", &does) == OWL_OK && !does);
    WANT(owl_remove_attribute(page, p, "id") == OWL_OK && owl_get_attribute(page, p, "id", &value) == OWL_OK && !value);
    WANT(owl_append(page, p, b) == OWL_OK && owl_set_attribute(page, b, "class", "one two") == OWL_OK);
    WANT(owl_query(page, p, "p > b.two", found, 4, &count) == OWL_OK && count == 1 && owl_is_same(found[0], b));
    WANT(owl_query(page, p, "i", found, 4, &count) == OWL_OK && count == 0);
    WANT(owl_query(page, p, "b >", found, 4, &count) == OWL_SELECTOR);
    WANT(owl_matches(page, b, ":first-child", &does) == OWL_OK && does);
    WANT(owl_matches(page, owl_root(page), "b", &does) == OWL_WRONG_KIND);
    WANT(owl_set_text(page, b, awkward) == OWL_OK && owl_tree(page, b, &value) == OWL_OK);
    WANT(strstr(value, "\"\\u00e9 \\\"q\\\" \\\\ \\ud83d\\ude00 \\ud800\\u000a\"") != NULL);
    WANT(owl_data(page, b, &value) == OWL_WRONG_KIND && owl_children(page, b, found, 4, &count) == OWL_OK && count == 1);
    WANT(owl_data(page, found[0], &value) == OWL_OK && !strcmp(value, awkward));
    WANT(owl_create_comment(page, "c \"d\"", &b) == OWL_OK && owl_data(page, b, &value) == OWL_OK && !strcmp(value, "c \"d\""));
}

/* By the Standard a name that is none is refused where it is given to something, and nothing has it. */
static void try_names(owl_owner page)
{
    static const char *const names[] = {"", "a b", "\"", "\"a\"", "1a", "a.b", "\xC3\xA9", "1 <", "-", "a\n"};
    owl_node p = made(page, "p"), node = OWL_NONE;
    const char *value = "";
    bool does = true;
    for (size_t at = 0; at < sizeof names / sizeof *names; at++) {
        WANT(owl_create_element(page, names[at], &node) == OWL_INVALID_CHARACTER && owl_is_none(node));
        WANT(owl_set_attribute(page, p, names[at], "") == OWL_INVALID_CHARACTER);
        WANT(owl_set_attribute(page, owl_root(page), names[at], "") == OWL_WRONG_KIND);
        WANT(owl_toggle_attribute(page, p, names[at], &does) == OWL_INVALID_CHARACTER && does);
        value = "";
        WANT(owl_get_attribute(page, p, names[at], &value) == OWL_OK && !value && owl_remove_attribute(page, p, names[at]) == OWL_OK);
    }
}

/* By RFC 3629 these are no UTF-8; a lone surrogate, which it has not either, is taken. */
static void try_bytes(owl_owner page)
{
    static const char *const texts[] = {"\xFF\xFE", "\x80", "a\xC3", "\xC3(", "\xC0\x80", "\xE0\x80\x80", "\xF0\x80\x80\x80", "\xF4\x90\x80\x80",
                                        "\xF8\x88\x80\x80\x80", "\xE2\x82"};
    owl_node p = made(page, "p"), node = OWL_NONE;
    const char *value = "";
    for (size_t at = 0; at < sizeof texts / sizeof *texts; at++) {
        WANT(owl_set_attribute(page, p, "id", texts[at]) == OWL_SYNTAX && owl_set_text(page, p, texts[at]) == OWL_SYNTAX);
        WANT(owl_create_text(page, texts[at], &node) == OWL_SYNTAX && owl_is_none(node));
    }
    WANT(owl_set_attribute(page, p, "id", "\xED\xBF\xBF\xF4\x8F\xBF\xBF\xEF\xBF\xBF") == OWL_OK);
    WANT(owl_get_attribute(page, p, "id", &value) == OWL_OK && !strcmp(value, "\xED\xBF\xBF\xF4\x8F\xBF\xBF\xEF\xBF\xBF"));
}

/* What nodes are, by the Standard's nodeType and tagName, and OWL_NONE where a node is wanted. */
static void try_kinds(owl_owner page)
{
    owl_node p = made(page, "p"), b = made(page, "b-1"), text, comment, fragment, found[4];
    owl_owner widget = page;
    const char *name = "";
    size_t count = 0;
    int type = 0;
    WANT(owl_node_type(page, p, &type) == OWL_OK && type == 1 && owl_node_type(page, owl_root(page), &type) == OWL_OK && type == 9);
    WANT(owl_create_text(page, "element x", &text) == OWL_OK && owl_node_type(page, text, &type) == OWL_OK && type == 3);
    WANT(owl_create_comment(page, "", &comment) == OWL_OK && owl_node_type(page, comment, &type) == OWL_OK && type == 8);
    WANT(owl_create_fragment(page, &fragment) == OWL_OK && owl_node_type(page, fragment, &type) == OWL_OK && type == 11);
    WANT(owl_attach(page, p, &widget) == OWL_OK && owl_node_type(widget, owl_root(widget), &type) == OWL_OK && type == 11);
    WANT(owl_name(page, b, &name) == OWL_OK && !strcmp(name, "b-1") && owl_name(page, text, &name) == OWL_WRONG_KIND);
    WANT(owl_append(page, b, text) == OWL_OK && owl_set_attribute(page, b, "id", "x") == OWL_OK);
    WANT(owl_name(page, b, &name) == OWL_OK && !strcmp(name, "b-1") && owl_name(page, owl_root(page), &name) == OWL_WRONG_KIND);
    WANT(owl_insert(page, b, comment, OWL_NONE) == OWL_OK && owl_children(page, b, found, 4, &count) == OWL_OK && count == 2);
    WANT(owl_is_same(found[1], comment) && owl_insert(page, b, OWL_NONE, comment) == OWL_UNKNOWN);
    WANT(owl_append(page, b, OWL_NONE) == OWL_UNKNOWN && owl_query(page, OWL_NONE, "b", found, 4, &count) == OWL_UNKNOWN);
    WANT(owl_attach(page, made(page, "a"), &widget) == OWL_NOT_SUPPORTED && owl_attach(page, made(page, "x-a1"), &widget) == OWL_OK);
}

/* A text of so many characters. The protocol's line has at most 65,536 bytes, `p text nN "` and `"` among them. */
static owl_status set_long_text(owl_owner page, owl_node node, const char *character, size_t count)
{
    static char text[70000];
    size_t size = strlen(character);
    for (size_t at = 0; at < count; at++)
        memcpy(text + at * size, character, size);
    text[count * size] = 0;
    return owl_set_text(page, node, text);
}

static void try_long_texts(owl_owner page)
{
    owl_node node = OWL_NONE;
    const char *data = "";
    WANT(owl_create_text(page, "", &node) == OWL_OK);
    WANT(set_long_text(page, node, "x", 65500) == OWL_OK && set_long_text(page, node, "x", 65537) == OWL_SYNTAX);
    WANT(owl_data(page, node, &data) == OWL_OK && strlen(data) == 65500);
    WANT(set_long_text(page, node, "\xC3\xA9", 10900) == OWL_OK && set_long_text(page, node, "\xC3\xA9", 10923) == OWL_SYNTAX);
    WANT(set_long_text(page, node, "\"", 32700) == OWL_OK && set_long_text(page, node, "\"", 32768) == OWL_SYNTAX);
    WANT(set_long_text(page, node, "\xF0\x9F\x98\x80", 5450) == OWL_OK && set_long_text(page, node, "\xF0\x9F\x98\x80", 5462) == OWL_SYNTAX);
}

static void try_closed_trees(owl_owner page)
{
    owl_node host = made(page, "div"), span = made(page, "span"), found[4], parent;
    owl_owner widget = page;
    size_t count;
    WANT(owl_append(page, owl_root(page), host) == OWL_OK && owl_append(page, host, span) == OWL_OK);
    WANT(owl_attach(page, host, &widget) == OWL_OK && owl_attach(page, host, &widget) == OWL_NOT_SUPPORTED);
    owl_node slot = made(widget, "slot");
    WANT(owl_append(widget, owl_root(widget), slot) == OWL_OK);
    WANT(owl_assigned(widget, slot, found, 4, &count) == OWL_OK && count == 1 && owl_is_same(found[0], span));
    WANT(owl_remove(widget, span) == OWL_FOREIGN && owl_append(page, host, slot) == OWL_FOREIGN);
    WANT(owl_parent(widget, slot, &parent) == OWL_OK && owl_is_same(parent, owl_root(widget)));
    told inner = {"", OWL_NONE, widget}, outer = {"", OWL_NONE, page};
    WANT(owl_listen(widget, slot, "pick", OWL_LOG, 0, note, &inner, NULL) == OWL_OK);
    WANT(owl_listen(page, host, "pick", OWL_LOG, 0, note, &outer, NULL) == OWL_OK);
    WANT(owl_dispatch(page, span, "pick", OWL_BUBBLES, OWL_NONE, NULL) == OWL_OK);
    WANT(!strcmp(inner.text, "pick 3 5;") && !strcmp(outer.text, "pick 3 3;") && owl_is_same(inner.target, span));
    inner.text[0] = outer.text[0] = 0;
    WANT(owl_dispatch(widget, slot, "pick", OWL_COMPOSED, OWL_NONE, NULL) == OWL_OK);
    WANT(!strcmp(outer.text, "pick 2 2;") && owl_is_same(outer.target, host) && owl_is_same(inner.target, slot));
    WANT(owl_dispatch(widget, slot, "pick", 0, made(widget, "b"), NULL) == OWL_TYPE);
    WANT(owl_end_turn(page.dom) == OWL_OK);
    inner.text[0] = 0;
    WANT(owl_listen(widget, slot, "slotchange", OWL_LOG, 0, note, &inner, NULL) == OWL_OK);
    WANT(owl_remove(page, span) == OWL_OK && !inner.text[0] && owl_end_turn(page.dom) == OWL_OK && !strcmp(inner.text, "slotchange 2 2;"));
    WANT(owl_remove(page, host) == OWL_OK);
}

static void try_inner_closed_trees(owl_owner page)
{
    owl_node host = made(page, "div");
    owl_owner outer = page, inner = page;
    WANT(owl_attach(page, host, &outer) == OWL_OK);
    owl_node section = made(outer, "section");
    WANT(owl_append(outer, owl_root(outer), section) == OWL_OK && owl_attach(outer, section, &inner) == OWL_OK);
    owl_node b = made(inner, "b");
    told notes = {"", OWL_NONE, inner};
    WANT(owl_append(inner, owl_root(inner), b) == OWL_OK && owl_listen(inner, b, "e", OWL_LOG, 0, note, &notes, NULL) == OWL_OK);
    WANT(owl_dispatch(inner, b, "e", OWL_COMPOSED, OWL_NONE, NULL) == OWL_OK && !strcmp(notes.text, "e 2 5;"));
}

/* Calls before a document is opened, after it is closed, and by an owner that the document of now has not. */
static void try_closed(void)
{
    owl_dom dom = OWL_DOM_INIT;
    owl_owner page = {&dom, 0}, widget = page;
    all_answer(page, OWL_CLOSED);
    WANT(owl_open(&dom, &page) == OWL_OK && owl_open(&dom, &page) == OWL_OPEN);
    WANT(owl_attach(page, made(page, "div"), &widget) == OWL_OK);
    owl_close(&dom);
    all_answer(page, OWL_CLOSED);
    all_answer(widget, OWL_CLOSED);
    WANT(owl_open(&dom, &page) == OWL_OK && owl_create_element(widget, "b", NULL) == OWL_CLOSED);
    made(page, "b");
    owl_close(&dom);
    owl_close(&dom);
}

/* A tree, a closed tree, a long answer and an event where so many requests for memory are granted. Gives whether one was refused: then no call does
 * anything more, or the document is still closed and may be opened. */
static bool is_refused_after(long granted)
{
    char data[800];
    const char *text;
    owl_dom dom = OWL_DOM_INIT;
    owl_owner page = {&dom, 0}, widget = page;
    owl_node div = OWL_NONE, slot = OWL_NONE;
    told notes = {"", OWL_NONE, {NULL, 0}};
    memset(data, 'x', sizeof data - 1);
    data[sizeof data - 1] = 0;
    left = granted + 1;
    owl_status status = owl_open(&dom, &page);
    status = status ? status : owl_create_element(page, "div", &div);
    status = status ? status : owl_set_text(page, div, data);
    status = status ? status : owl_tree(page, div, &text);
    status = status ? status : owl_append(page, owl_root(page), div);
    status = status ? status : owl_attach(page, div, &widget);
    status = status ? status : owl_create_element(widget, "slot", &slot);
    status = status ? status : owl_append(widget, owl_root(widget), slot);
    status = status ? status : owl_listen(widget, slot, "e", OWL_LOG, 0, note, &notes, NULL);
    status = status ? status : owl_dispatch(widget, slot, "e", 0, OWL_NONE, NULL);
    left = -1;
    WANT(status == OWL_MEMORY || (status == OWL_OK && !strcmp(notes.text, "e 2 2;")));
    if (status && dom.session.is_open) {
        all_answer(page, OWL_MEMORY);
        WANT(owl_open(&dom, &page) == OWL_OPEN);
    } else if (status) {
        all_answer(page, OWL_CLOSED);
        WANT(owl_open(&dom, &page) == OWL_OK);
    }
    owl_close(&dom);
    return status == OWL_MEMORY;
}

int main(void)
{
    owl_dom dom = OWL_DOM_INIT;
    owl_owner page;
    long tried = 0;
    WANT(owl_open(&dom, &page) == OWL_OK);
    try_trees(page);
    try_attributes_and_queries(page);
    try_names(page);
    try_bytes(page);
    try_kinds(page);
    try_long_texts(page);
    try_closed_trees(page);
    try_inner_closed_trees(page);
    owl_close(&dom);
    try_closed();
    WANT(!strcmp(owl_message(OWL_NOT_FOUND), "not-found") && !strcmp(owl_message(OWL_LIMIT), "limit"));
    WANT(strstr(owl_message(OWL_OPEN), "already") && !strcmp(owl_message((owl_status)(OWL_OPEN + 1)), "no status"));
    while (tried < 1000 && is_refused_after(tried))
        tried++;
    WANT(tried > 8 && tried < 1000);
    printf("dom: %ld requests for memory refused, %d faults\n", tried, faults);
    return faults != 0;
}

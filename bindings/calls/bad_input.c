/*
 * Bad input from a program to the typed calls: numbers that no node has, other owners' nodes, owners that are not there, a closed document, offsets past
 * the end, names, words and flags that are none, lone surrogates, and texts of 100 MB. Each call answers its status and writes nothing, and what
 * the document has is the same after it, or all of the text is kept. Writes what is not as it should be.
 */
#include <stdio.h>
#include <stdlib.h>
#include <string.h>

#include "owlantimony_typed.h"

enum { LARGE = 50000000, NO_OWNER = 4711, NO_NUMBER = 999999 };

#define BYTES(text) (const uint8_t *)(text), strlen(text)
#define WANT(fact) ((fact) ? (void)0 : (void)(faults++, fprintf(stderr, "%s:%d: %s\n", __FILE__, __LINE__, #fact)))

static int faults;
static owl_document document = OWL_DOCUMENT_INIT;
static uint32_t component;
static const owl_node UNWRITTEN = {77, 77};
static const uint16_t UNITS[] = {'a', 0xD83D, 0xDE00, 'b'}; /* a character outside the BMP, between two others */

/* What stands in the document: elements with an attribute, a Text, a Comment, a host with a slot in its closed tree, a range and two cursors. */
static owl_node host, text, comment, loose, slot;
static uint32_t range, iterator, walker, observer;

static owl_node own(uint32_t owner, uint32_t number)
{
    owl_node node = {owner, number};
    return node;
}

static bool is_same(owl_node node, owl_node other)
{
    return node.owner == other.owner && node.number == other.number;
}

static owl_node element(uint32_t owner, const char *name)
{
    owl_node made = UNWRITTEN;
    WANT(dom_create_element(&document, owner, BYTES(name), &made) == OWL_OK);
    return made;
}

static void make(void)
{
    WANT(dom_open(&document) == OWL_OK);
    host = element(OWL_PAGE, "div");
    loose = element(OWL_PAGE, "p");
    WANT(dom_append(&document, OWL_PAGE, own(OWL_PAGE, 0), host) == OWL_OK);
    WANT(dom_create_text(&document, OWL_PAGE, UNITS, 4, &text) == OWL_OK && dom_append(&document, OWL_PAGE, host, text) == OWL_OK);
    WANT(dom_create_comment(&document, OWL_PAGE, UNITS, 2, &comment) == OWL_OK && dom_append(&document, OWL_PAGE, loose, comment) == OWL_OK);
    WANT(dom_set_attribute(&document, OWL_PAGE, host, BYTES("id"), UNITS, 4) == OWL_OK);
    WANT(dom_attach(&document, OWL_PAGE, host, &component) == OWL_OK);
    slot = element(component, "slot");
    WANT(dom_append(&document, component, own(component, 0), slot) == OWL_OK);
    WANT(dom_range_create(&document, OWL_PAGE, &range) == OWL_OK && dom_range_set_start(&document, OWL_PAGE, range, text, 1) == OWL_OK);
    WANT(dom_iterator_create(&document, OWL_PAGE, host, UINT32_MAX, OWL_ACCEPT, BYTES(""), &iterator) == OWL_OK);
    WANT(dom_walker_create(&document, OWL_PAGE, host, UINT32_MAX, OWL_ACCEPT, BYTES(""), &walker) == OWL_OK);
    WANT(dom_observer_create(&document, OWL_PAGE, false, &observer) == OWL_OK);
    WANT(dom_checkpoint(&document) == OWL_OK);
}

/* ---- what the document has, as one number */

static void add(uint64_t *sum, const void *block, size_t size)
{
    const uint8_t *bytes = block;
    for (size_t at = 0; at < size; at++)
        *sum = (*sum ^ bytes[at]) * UINT64_C(1099511628211);
}

static void add_rows(uint64_t *sum, uint32_t owner, owl_node node)
{
    owl_answer answer;
    WANT(dom_rows(&document, owner, node) == OWL_OK && dom_answer(&document, &answer) == OWL_OK);
    for (size_t at = 0; at < answer.row_count; at++) {
        const owl_row *row = answer.rows + at;
        const uint32_t plain[] = {row->node.owner, row->node.number, row->kind, row->parent, row->attributes.count};
        add(sum, plain, sizeof plain);
        add(sum, answer.bytes + row->name.at, row->name.count);
        add(sum, answer.units + row->data.at, row->data.count * sizeof *answer.units);
        for (uint32_t place = 0; place < row->attributes.count; place++) {
            const owl_attribute *attribute = answer.attributes + row->attributes.at + place;
            add(sum, answer.bytes + attribute->name.at, attribute->name.count);
            add(sum, answer.units + attribute->value.at, attribute->value.count * sizeof *answer.units);
        }
    }
}

/* A sum over the trees, the range and the cursors. */
static uint64_t state(void)
{
    uint64_t sum = UINT64_C(14695981039346656037);
    owl_point ends[2];
    owl_node stands[2];
    bool before = false;
    add_rows(&sum, OWL_PAGE, own(OWL_PAGE, 0));
    add_rows(&sum, OWL_PAGE, loose);
    add_rows(&sum, component, own(component, 0));
    WANT(dom_range_points(&document, OWL_PAGE, range, &ends[0], &ends[1]) == OWL_OK);
    WANT(dom_iterator_reference(&document, OWL_PAGE, iterator, &stands[0], &before) == OWL_OK);
    WANT(dom_walker_current(&document, OWL_PAGE, walker, &stands[1]) == OWL_OK);
    add(&sum, ends, sizeof ends);
    add(&sum, stands, sizeof stands);
    add(&sum, &before, sizeof before);
    return sum;
}

/* ---- calls with a node that is not the owner's, or is not there */

/* All calls that change something at a node answer this. */
static void changes_answer(uint32_t who, owl_node node, uint32_t status)
{
    owl_node root = own(who, 0);
    owl_node made = UNWRITTEN;
    uint32_t number = 77;
    WANT(dom_append(&document, who, node, root) == status && dom_append(&document, who, root, node) == status);
    WANT(dom_insert(&document, who, root, node, root) == status && dom_insert(&document, who, root, root, node) == status);
    WANT(dom_replace(&document, who, root, node, root) == status && dom_replace(&document, who, node, root, root) == status);
    WANT(dom_remove(&document, who, node) == status && dom_adopt(&document, who, root, node) == status);
    WANT(dom_adopt(&document, who, node, root) == status && dom_normalize(&document, who, node) == status);
    WANT(dom_set_attribute(&document, who, node, BYTES("id"), UNITS, 1) == status);
    WANT(dom_remove_attribute(&document, who, node, BYTES("id")) == status && dom_set_data(&document, who, node, UNITS, 4) == status);
    WANT(dom_replace_data(&document, who, node, 0, 1, UNITS, 4) == status && dom_set_text(&document, who, node, UNITS, 4) == status);
    WANT(dom_split_text(&document, who, node, 0, &made) == status && is_same(made, UNWRITTEN));
    WANT(dom_attach(&document, who, node, &number) == status && number == 77);
    WANT(dom_listen(&document, who, node, BYTES("e"), BYTES("l"), OWL_LOG, 0) == status);
    WANT(dom_unlisten(&document, who, node, BYTES("e"), BYTES("l"), 0) == status);
    WANT(dom_range_set_start(&document, who, 0, node, 0) == status && dom_range_set_end(&document, who, 0, node, 0) == status);
    WANT(dom_range_insert(&document, who, 0, node) == status && dom_walker_set(&document, who, 0, node) == status);
    WANT(dom_iterator_create(&document, who, node, 1, OWL_ACCEPT, BYTES(""), &number) == status && number == 77);
    WANT(dom_walker_create(&document, who, node, 1, OWL_ACCEPT, BYTES(""), &number) == status && number == 77);
    WANT(dom_observe(&document, who, 0, node, OWL_OBSERVE_CHILD_LIST, BYTES("")) == status);
}

/* All calls that read something at a node answer this, and so does a dispatch. */
static void reads_answer(uint32_t who, owl_node node, uint32_t status)
{
    owl_node found = UNWRITTEN;
    const owl_node *nodes = &UNWRITTEN;
    const uint16_t *units = UNITS;
    owl_links links = {UNWRITTEN, UNWRITTEN, UNWRITTEN, UNWRITTEN, UNWRITTEN};
    owl_row row = {.node = UNWRITTEN};
    const owl_row *rows = &row;
    size_t count = 77;
    bool is = true;
    WANT(dom_parent(&document, who, node, &found) == status && dom_owner_document(&document, who, node, &found) == status);
    WANT(dom_shadow_root(&document, who, node, &found) == status && dom_assigned_slot(&document, who, node, &found) == status);
    WANT(dom_children(&document, who, node, &nodes, &count) == status && dom_query(&document, who, node, UNITS, 1, &nodes, &count) == status);
    WANT(dom_contains(&document, who, node, own(who, 0), &is) == status && dom_contains(&document, who, own(who, 0), node, &is) == status);
    WANT(dom_is_connected(&document, who, node, &is) == status && dom_matches(&document, who, node, UNITS, 1, &is) == status);
    WANT(dom_get_attribute(&document, who, node, BYTES("id"), &is, &units, &count) == status && dom_rows(&document, who, node) == status);
    WANT(dom_structure(&document, who, node, &rows, &count) == status && rows == &row && dom_describe(&document, who, node, &row) == status);
    WANT(dom_links(&document, who, node, &links) == status && is_same(links.parent, UNWRITTEN) && is_same(links.next, UNWRITTEN));
    WANT(dom_dispatch(&document, who, node, BYTES("e"), 0, OWL_NONE, &is) == status);
    WANT(dom_dispatch(&document, who, own(who, 0), BYTES("e"), 0, node, &is) == status || is_same(node, OWL_NONE));
    WANT(is_same(found, UNWRITTEN) && nodes == &UNWRITTEN && units == UNITS && count == 77 && is && is_same(row.node, UNWRITTEN));
}

static void all_answer(uint32_t who, owl_node node, uint32_t status)
{
    changes_answer(who, node, status);
    reads_answer(who, node, status);
}

static void try_nodes(void)
{
    uint64_t was = state();
    uint32_t numbers[] = {NO_NUMBER, UINT32_MAX, 1000000, 5};
    for (size_t at = 0; at < sizeof numbers / sizeof *numbers; at++) {
        all_answer(OWL_PAGE, own(OWL_PAGE, numbers[at]), OWL_UNKNOWN);
        all_answer(OWL_PAGE, own(component, numbers[at]), OWL_FOREIGN);
        all_answer(component, own(OWL_PAGE, numbers[at]), OWL_FOREIGN);
        all_answer(NO_OWNER, own(NO_OWNER, numbers[at]), OWL_UNKNOWN);
    }
    all_answer(component, own(component, 2), OWL_UNKNOWN);
    all_answer(OWL_PAGE, slot, OWL_FOREIGN);
    all_answer(component, host, OWL_FOREIGN);
    all_answer(OWL_PAGE, OWL_NONE, OWL_FOREIGN);
    all_answer(component, OWL_NONE, OWL_FOREIGN);
    all_answer(NO_OWNER, own(NO_OWNER, 0), OWL_UNKNOWN);
    WANT(state() == was);
}

/* ---- things that are not there */

static void try_things(void)
{
    uint64_t was = state();
    owl_node node = UNWRITTEN;
    owl_point point = {UNWRITTEN, 77}, other = point;
    const uint16_t *units = UNITS;
    size_t count = 77;
    uint32_t number = 77, nobodys[] = {1, NO_NUMBER, UINT32_MAX};
    bool before = true;
    for (size_t at = 0; at < sizeof nobodys / sizeof *nobodys; at++) {
        uint32_t no = nobodys[at];
        WANT(dom_range_set_start(&document, OWL_PAGE, no, text, 0) == OWL_UNKNOWN && dom_range_delete(&document, OWL_PAGE, no) == OWL_UNKNOWN);
        WANT(dom_range_collapse(&document, OWL_PAGE, no, true) == OWL_UNKNOWN && dom_range_drop(&document, OWL_PAGE, no) == OWL_UNKNOWN);
        WANT(dom_range_points(&document, OWL_PAGE, no, &point, &other) == OWL_UNKNOWN && point.offset == 77 && other.offset == 77);
        WANT(dom_range_text(&document, OWL_PAGE, no, &units, &count) == OWL_UNKNOWN && units == UNITS && count == 77);
        WANT(dom_range_extract(&document, OWL_PAGE, no, &node) == OWL_UNKNOWN && dom_range_insert(&document, OWL_PAGE, no, loose) == OWL_UNKNOWN);
        WANT(dom_iterator_next(&document, OWL_PAGE, no, &node) == OWL_UNKNOWN && dom_iterator_previous(&document, OWL_PAGE, no, &node) == OWL_UNKNOWN);
        WANT(dom_iterator_reference(&document, OWL_PAGE, no, &node, &before) == OWL_UNKNOWN && before);
        WANT(dom_walker_move(&document, OWL_PAGE, no, OWL_MOVE_NEXT, &node) == OWL_UNKNOWN && dom_walker_set(&document, OWL_PAGE, no, text) == OWL_UNKNOWN);
        WANT(dom_walker_current(&document, OWL_PAGE, no, &node) == OWL_UNKNOWN && dom_disconnect(&document, OWL_PAGE, no) == OWL_UNKNOWN);
        WANT(dom_observe(&document, OWL_PAGE, no, host, OWL_OBSERVE_CHILD_LIST, BYTES("")) == OWL_UNKNOWN);
        WANT(dom_take_records(&document, OWL_PAGE, no, &number) == OWL_UNKNOWN && number == 77 && is_same(node, UNWRITTEN));
    }
    WANT(dom_range_text(&document, component, 0, &units, &count) == OWL_UNKNOWN && count == 77);
    WANT(dom_range_create(&document, NO_OWNER, &number) == OWL_UNKNOWN && dom_create_fragment(&document, NO_OWNER, &node) == OWL_UNKNOWN);
    WANT(dom_queue_microtask(&document, NO_OWNER, BYTES("l"), false) == OWL_UNKNOWN && number == 77 && is_same(node, UNWRITTEN));
    WANT(state() == was);
}

/* ---- offsets, kinds, names, words and flags */

static void try_offsets(void)
{
    uint64_t was = state();
    owl_node made = UNWRITTEN;
    uint32_t past[] = {5, 6, NO_NUMBER, UINT32_MAX};
    for (size_t at = 0; at < sizeof past / sizeof *past; at++) {
        WANT(dom_replace_data(&document, OWL_PAGE, text, past[at], 0, UNITS, 1) == OWL_INDEX_SIZE);
        WANT(dom_split_text(&document, OWL_PAGE, text, past[at], &made) == OWL_INDEX_SIZE && is_same(made, UNWRITTEN));
        WANT(dom_range_set_start(&document, OWL_PAGE, range, text, past[at]) == OWL_INDEX_SIZE);
        WANT(dom_range_set_end(&document, OWL_PAGE, range, host, past[at]) == OWL_INDEX_SIZE);
    }
    WANT(dom_set_data(&document, OWL_PAGE, host, UNITS, 1) == OWL_WRONG_KIND && dom_attach(&document, OWL_PAGE, text, &past[0]) == OWL_WRONG_KIND);
    WANT(dom_set_attribute(&document, OWL_PAGE, text, BYTES("id"), UNITS, 1) == OWL_WRONG_KIND && past[0] == 5);
    WANT(dom_append(&document, OWL_PAGE, host, own(OWL_PAGE, 0)) == OWL_HIERARCHY && dom_append(&document, OWL_PAGE, text, loose) == OWL_HIERARCHY);
    WANT(dom_insert(&document, OWL_PAGE, host, loose, comment) == OWL_NOT_FOUND && dom_attach(&document, OWL_PAGE, host, &past[0]) == OWL_NOT_SUPPORTED);
    WANT(state() == was);
}

static void try_names(void)
{
    static const char *const names[] = {"", "1a", "a b", "a\"", "-a", "a.b", "\xC3\xA9", "a\x7F", "p ok n1\n"};
    uint64_t was = state();
    owl_node made = UNWRITTEN;
    bool has = true;
    const uint16_t *units = UNITS;
    size_t count = 77;
    for (size_t at = 0; at < sizeof names / sizeof *names; at++) {
        WANT(dom_create_element(&document, OWL_PAGE, BYTES(names[at]), &made) == OWL_INVALID_CHARACTER && is_same(made, UNWRITTEN));
        WANT(dom_set_attribute(&document, OWL_PAGE, host, BYTES(names[at]), UNITS, 1) == OWL_INVALID_CHARACTER);
        has = true;
        WANT(dom_remove_attribute(&document, OWL_PAGE, host, BYTES(names[at])) == OWL_OK);
        WANT(dom_get_attribute(&document, OWL_PAGE, host, BYTES(names[at]), &has, &units, &count) == OWL_OK && !has && count == 0);
    }
    WANT(dom_create_element(&document, OWL_PAGE, (const uint8_t *)"a\0b", 3, &made) == OWL_INVALID_CHARACTER && is_same(made, UNWRITTEN));
    WANT(state() == was);
}

static void try_words(void)
{
    static const char *const words[] = {"", "a b", "a\n", "a/b", "\xC3\xA9", "0123456789012345678901234567890123456789012345678901234567890123456"};
    uint64_t was = state();
    uint32_t number = 77;
    owl_node node = UNWRITTEN;
    bool truth = true;
    for (size_t at = 0; at < sizeof words / sizeof *words; at++) {
        WANT(dom_listen(&document, OWL_PAGE, host, BYTES(words[at]), BYTES("l"), OWL_LOG, 0) == OWL_SYNTAX);
        WANT(dom_listen(&document, OWL_PAGE, host, BYTES("e"), BYTES(words[at]), OWL_LOG, 0) == OWL_SYNTAX);
        WANT(dom_unlisten(&document, OWL_PAGE, host, BYTES(words[at]), BYTES("l"), 0) == OWL_SYNTAX);
        WANT(dom_dispatch(&document, OWL_PAGE, host, BYTES(words[at]), 0, OWL_NONE, &truth) == OWL_SYNTAX && truth);
        WANT(dom_queue_microtask(&document, OWL_PAGE, BYTES(words[at]), false) == OWL_SYNTAX);
    }
    WANT(dom_listen(&document, OWL_PAGE, host, BYTES("e"), BYTES("l"), 99, 0) == OWL_SYNTAX);
    WANT(dom_iterator_create(&document, OWL_PAGE, host, 1, 99, BYTES("a"), &number) == OWL_SYNTAX && number == 77);
    WANT(dom_walker_create(&document, OWL_PAGE, host, 1, 0, BYTES("a"), &number) == OWL_SYNTAX && number == 77);
    WANT(dom_walker_move(&document, OWL_PAGE, walker, 99, &node) == OWL_SYNTAX && is_same(node, UNWRITTEN));
    WANT(dom_observe(&document, OWL_PAGE, observer, host, 0, BYTES("")) == OWL_TYPE);
    WANT(dom_observe(&document, OWL_PAGE, observer, host, OWL_OBSERVE_SUBTREE, BYTES("")) == OWL_TYPE);
    WANT(state() == was);
}

static void try_selectors(void)
{
    static const uint16_t selectors[][3] = {{0xD83D, '>', '>'}, {'a', '>', ' '}, {':', ':', 'a'}, {'[', 'a', 0}, {0xFFFF, 0xFFFF, '!'}};
    uint64_t was = state();
    const owl_node *nodes = &UNWRITTEN;
    size_t count = 77;
    bool does = true;
    for (size_t at = 0; at < sizeof selectors / sizeof *selectors; at++) {
        WANT(dom_query(&document, OWL_PAGE, host, selectors[at], 3, &nodes, &count) == OWL_SELECTOR && nodes == &UNWRITTEN && count == 77);
        WANT(dom_matches(&document, OWL_PAGE, host, selectors[at], 3, &does) == OWL_SELECTOR && does);
    }
    WANT(dom_query(&document, OWL_PAGE, host, selectors[0], 0, &nodes, &count) == OWL_SELECTOR && count == 77 && state() == was);
}

/* ---- texts */

/* Whether a node's data are these units. */
static bool has_data(owl_node node, const uint16_t *units, size_t count)
{
    owl_row row;
    owl_answer answer;
    return dom_describe(&document, OWL_PAGE, node, &row) == OWL_OK && dom_answer(&document, &answer) == OWL_OK && row.data.count == count &&
           (count == 0 || !memcmp(answer.units + row.data.at, units, count * sizeof *units));
}

/* Lone surrogates and 0 are units as others are, in data and in values; a pair may be split. */
static void try_surrogates(void)
{
    static const uint16_t lone[] = {0xDE00, 0, 0xD83D};
    owl_node whole = UNWRITTEN, tail = UNWRITTEN;
    bool has = false;
    const uint16_t *units = NULL;
    size_t count = 0;
    WANT(dom_create_text(&document, OWL_PAGE, UNITS, 4, &whole) == OWL_OK && dom_split_text(&document, OWL_PAGE, whole, 2, &tail) == OWL_OK);
    WANT(has_data(whole, UNITS, 2) && has_data(tail, UNITS + 2, 2));
    WANT(dom_set_data(&document, OWL_PAGE, whole, lone, 3) == OWL_OK && has_data(whole, lone, 3));
    WANT(dom_replace_data(&document, OWL_PAGE, whole, 1, UINT32_MAX, lone, 0) == OWL_OK && has_data(whole, lone, 1));
    WANT(dom_set_attribute(&document, OWL_PAGE, loose, BYTES("title"), lone, 3) == OWL_OK);
    WANT(dom_get_attribute(&document, OWL_PAGE, loose, BYTES("title"), &has, &units, &count) == OWL_OK && has && count == 3);
    WANT(units && !memcmp(units, lone, sizeof lone));
}

/* 100 MB of units: kept whole as data and as a value, and changed at their end. */
static void try_large_texts(void)
{
    uint16_t *large = malloc((LARGE + 1) * sizeof *large);
    owl_node made = UNWRITTEN;
    bool has = false;
    const uint16_t *units = NULL;
    size_t count = 0;
    WANT(large != NULL);
    for (uint32_t at = 0; large && at <= LARGE; at++)
        large[at] = (uint16_t)(at * 31);
    WANT(dom_create_text(&document, OWL_PAGE, large, LARGE, &made) == OWL_OK && has_data(made, large, LARGE));
    WANT(dom_replace_data(&document, OWL_PAGE, made, LARGE + 1, 0, UNITS, 1) == OWL_INDEX_SIZE);
    WANT(dom_replace_data(&document, OWL_PAGE, made, LARGE, 0, large + LARGE, 1) == OWL_OK && has_data(made, large, LARGE + 1));
    WANT(dom_set_data(&document, OWL_PAGE, made, UNITS, 4) == OWL_OK && has_data(made, UNITS, 4));
    WANT(dom_set_attribute(&document, OWL_PAGE, loose, BYTES("title"), large, LARGE) == OWL_OK);
    WANT(dom_get_attribute(&document, OWL_PAGE, loose, BYTES("title"), &has, &units, &count) == OWL_OK && has && count == LARGE);
    WANT(units && large && !memcmp(units, large, LARGE * sizeof *large));
    free(large);
}

/* ---- documents that are not open */

static void try_closed(void)
{
    owl_answer answer;
    owl_node made = UNWRITTEN;
    uint32_t number = 77;
    WANT(dom_close(&document) == OWL_CLOSED && dom_answer(&document, &answer) == OWL_CLOSED && dom_checkpoint(&document) == OWL_CLOSED);
    all_answer(OWL_PAGE, own(OWL_PAGE, 0), OWL_CLOSED);
    all_answer(NO_OWNER, own(OWL_PAGE, NO_NUMBER), OWL_CLOSED);
    WANT(dom_create_element(&document, OWL_PAGE, BYTES("b"), &made) == OWL_CLOSED && dom_create_text(&document, OWL_PAGE, UNITS, 1, &made) == OWL_CLOSED);
    WANT(dom_create_document(&document, OWL_PAGE, &made) == OWL_CLOSED && dom_create_fragment(&document, OWL_PAGE, &made) == OWL_CLOSED);
    WANT(dom_range_create(&document, OWL_PAGE, &number) == OWL_CLOSED && dom_observer_create(&document, OWL_PAGE, false, &number) == OWL_CLOSED);
    WANT(dom_queue_microtask(&document, OWL_PAGE, BYTES("l"), false) == OWL_CLOSED && is_same(made, UNWRITTEN) && number == 77);
}

int main(void)
{
    try_closed();
    make();
    uint64_t was = state();
    WANT(dom_open(&document) == OWL_OPEN && state() == was);
    try_nodes();
    try_things();
    try_offsets();
    try_names();
    try_words();
    try_selectors();
    WANT(state() == was);
    try_surrogates();
    try_large_texts();
    WANT(dom_close(&document) == OWL_OK);
    try_closed();
    printf("calls: bad input is refused and changes nothing, and large texts are kept: %d faults\n", faults);
    return faults ? 1 : 0;
}

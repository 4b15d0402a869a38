/* Tries the typed calls: a page of 10,000 elements, what is told of it, and calls with bad input, which answer a status and change nothing. */
#include "owlantimony_typed.h"

#include <stdio.h>
#include <stdlib.h>
#include <string.h>

#define ELEMENTS 10000

static owl_document page = OWL_DOCUMENT_INIT;
static const owl_node root = {OWL_PAGE, 0};

static void expect(bool is_so, int line)
{
    if (!is_so) {
        fprintf(stderr, "calls: line %d is otherwise\n", line);
        exit(1);
    }
}

#define EXPECT(is_so) expect(is_so, __LINE__)
#define BYTES(text) (const uint8_t *)(text), sizeof(text) - 1

static bool is_same(owl_node one, owl_node other)
{
    return one.owner == other.owner && one.number == other.number;
}

static owl_node element(const char *name)
{
    owl_node made = OWL_NONE;
    EXPECT(dom_create_element(&page, OWL_PAGE, (const uint8_t *)name, strlen(name), &made) == OWL_OK);
    return made;
}

/* A list of elements, each with an attribute and a Text. */
static owl_node build(void)
{
    static const uint16_t name[] = {'i', 't', 'e', 'm'}, words[] = {0xD800, 0, 'x'};
    owl_node list = element("ul");
    EXPECT(dom_append(&page, OWL_PAGE, root, list) == OWL_OK);
    for (uint32_t at = 0; at < ELEMENTS; at++) {
        owl_node item = element("li"), text = OWL_NONE;
        EXPECT(dom_create_text(&page, OWL_PAGE, words, 3, &text) == OWL_OK);
        EXPECT(dom_set_attribute(&page, OWL_PAGE, item, BYTES("class"), name, 4) == OWL_OK);
        EXPECT(dom_append(&page, OWL_PAGE, item, text) == OWL_OK);
        EXPECT(dom_append(&page, OWL_PAGE, list, item) == OWL_OK);
    }
    return list;
}

/* What is read of the list. */
static void read_back(owl_node list)
{
    static const uint16_t selector[] = {'.', 'i', 't', 'e', 'm'};
    const owl_node *nodes = NULL;
    const uint16_t *units = NULL;
    size_t count = 0;
    bool has = false;
    owl_answer answer;
    EXPECT(dom_children(&page, OWL_PAGE, list, &nodes, &count) == OWL_OK && count == ELEMENTS && nodes[1].number == 4);
    owl_node second = nodes[1];
    EXPECT(dom_get_attribute(&page, OWL_PAGE, second, BYTES("class"), &has, &units, &count) == OWL_OK && has && count == 4 && units[3] == 'm');
    EXPECT(dom_get_attribute(&page, OWL_PAGE, second, BYTES("id"), &has, &units, &count) == OWL_OK && !has && count == 0);
    EXPECT(dom_query(&page, OWL_PAGE, list, selector, 5, &nodes, &count) == OWL_OK && count == ELEMENTS && is_same(nodes[1], second));
    EXPECT(dom_rows(&page, OWL_PAGE, list) == OWL_OK && dom_answer(&page, &answer) == OWL_OK);
    EXPECT(answer.row_count == 2 * ELEMENTS + 1 && answer.attribute_count == ELEMENTS && answer.delivery_count == 0);
    const owl_row *rows = answer.rows;
    EXPECT(rows[0].kind == OWL_ELEMENT && rows[0].name.count == 2 && !memcmp(answer.bytes + rows[0].name.at, "ul", 2));
    EXPECT(rows[3].kind == OWL_ELEMENT && rows[3].parent == 0 && rows[4].kind == OWL_TEXT && rows[4].parent == 3 && is_same(rows[3].node, second));
    EXPECT(rows[4].data.count == 3 && answer.units[rows[4].data.at] == 0xD800);
}

/* Events, records and microtasks: what is told, and when. */
static void tell(owl_node list)
{
    owl_answer answer;
    static const uint16_t none[1];
    uint32_t observer = 7, count = 7;
    bool truth = false;
    EXPECT(dom_listen(&page, OWL_PAGE, list, BYTES("go"), BYTES("seen"), OWL_CANCEL, 0) == OWL_OK);
    EXPECT(dom_dispatch(&page, OWL_PAGE, list, BYTES("go"), OWL_BUBBLES | OWL_CANCELABLE, OWL_NONE, &truth) == OWL_OK && !truth && page.told == 1);
    EXPECT(dom_answer(&page, &answer) == OWL_OK && answer.delivery_count == 1 && answer.deliveries[0].kind == OWL_EVENT);
    EXPECT(answer.deliveries[0].path.count == 2 && is_same(answer.nodes[answer.deliveries[0].path.at], list));
    EXPECT(is_same(answer.deliveries[0].target, list) && is_same(answer.deliveries[0].related, OWL_NONE) && answer.called.count == 0);
    EXPECT(dom_observer_create(&page, OWL_PAGE, false, &observer) == OWL_OK && observer == 0);
    EXPECT(dom_observe(&page, OWL_PAGE, observer, list, OWL_OBSERVE_ATTRIBUTE_FILTER, BYTES("a,b")) == OWL_OK);
    EXPECT(dom_set_attribute(&page, OWL_PAGE, list, BYTES("b"), none, 0) == OWL_OK);
    EXPECT(dom_queue_microtask(&page, OWL_PAGE, BYTES("later"), false) == OWL_OK && page.told == 0);
    EXPECT(dom_checkpoint(&page) == OWL_OK && page.told == 2 && dom_answer(&page, &answer) == OWL_OK);
    EXPECT(answer.deliveries[0].kind == OWL_ATTRIBUTES && !answer.deliveries[0].has_old_value && answer.deliveries[1].kind == OWL_MICROTASK);
    EXPECT(dom_take_records(&page, OWL_PAGE, observer, &count) == OWL_OK && count == 0);
}

/* A component acts at any time, and reaches its own nodes alone. */
static void attach(void)
{
    uint32_t component = 7;
    owl_node host = element("div"), inner = OWL_NONE;
    EXPECT(dom_attach(&page, OWL_PAGE, host, &component) == OWL_OK && component == 1);
    EXPECT(dom_create_element(&page, component, BYTES("p"), &inner) == OWL_OK && inner.owner == component && inner.number == 1);
    EXPECT(dom_append(&page, component, (owl_node){component, 0}, inner) == OWL_OK);
    EXPECT(dom_remove(&page, OWL_PAGE, inner) == OWL_FOREIGN && dom_remove(&page, component, host) == OWL_FOREIGN);
    EXPECT(dom_attach(&page, OWL_PAGE, host, &component) == OWL_NOT_SUPPORTED && component == 1);
}

/* Bad input: a status, and nothing is written and nothing changed. */
static void refuse(owl_node list)
{
    static const uint16_t lone[] = {0xDC00};
    const owl_node missing = {OWL_PAGE, 4000000000u}, nobody = {9, 0};
    owl_node made = {5, 5}, parent = {5, 5};
    uint32_t number = 7;
    size_t count = 7;
    const owl_node *nodes = NULL;
    EXPECT(dom_remove(&page, OWL_PAGE, missing) == OWL_UNKNOWN && dom_remove(&page, 9, nobody) == OWL_UNKNOWN);
    EXPECT(dom_remove(&page, 9, list) == OWL_FOREIGN && dom_parent(&page, OWL_PAGE, OWL_NONE, &parent) == OWL_FOREIGN && parent.owner == 5);
    EXPECT(dom_create_element(&page, OWL_PAGE, BYTES("a\xff"), &made) == OWL_INVALID_CHARACTER && made.owner == 5);
    EXPECT(dom_create_element(&page, OWL_PAGE, BYTES(""), &made) == OWL_INVALID_CHARACTER && made.owner == 5);
    EXPECT(dom_query(&page, OWL_PAGE, list, lone, 1, &nodes, &count) == OWL_SELECTOR && count == 7 && !nodes);
    EXPECT(dom_append(&page, OWL_PAGE, list, root) == OWL_HIERARCHY && dom_split_text(&page, OWL_PAGE, list, 0, &made) == OWL_WRONG_KIND);
    EXPECT(dom_walker_create(&page, OWL_PAGE, root, UINT32_MAX, 4, BYTES("a"), &number) == OWL_SYNTAX && number == 7);
    EXPECT(dom_iterator_next(&page, OWL_PAGE, 3, &made) == OWL_UNKNOWN && made.owner == 5);
    EXPECT(dom_listen(&page, OWL_PAGE, list, BYTES("a b"), BYTES("x"), OWL_LOG, 0) == OWL_SYNTAX);
    EXPECT(dom_listen(&page, OWL_PAGE, list, BYTES("a"), BYTES("x"), 5, 0) == OWL_SYNTAX);
    EXPECT(dom_queue_microtask(&page, OWL_PAGE, BYTES(""), false) == OWL_SYNTAX);
    EXPECT(dom_assigned(&page, OWL_PAGE, list, &nodes, &count) == OWL_SYNTAX && dom_prevent(&page, OWL_PAGE, 0) == OWL_UNKNOWN);
    EXPECT(dom_range_create(&page, OWL_PAGE, &number) == OWL_OK && dom_range_set_start(&page, OWL_PAGE, number, list, ELEMENTS + 1) == OWL_INDEX_SIZE);
    EXPECT(dom_children(&page, OWL_PAGE, list, &nodes, &count) == OWL_OK && count == ELEMENTS);
}

int main(void)
{
    owl_node made = {5, 5};
    owl_answer answer;
    EXPECT(dom_append(&page, OWL_PAGE, root, root) == OWL_CLOSED && dom_create_fragment(&page, OWL_PAGE, &made) == OWL_CLOSED && made.owner == 5);
    EXPECT(dom_close(&page) == OWL_CLOSED && dom_answer(&page, &answer) == OWL_CLOSED && dom_checkpoint(&page) == OWL_CLOSED);
    EXPECT(dom_open(&page) == OWL_OK && dom_open(&page) == OWL_OPEN);
    owl_node list = build();
    read_back(list);
    tell(list);
    attach();
    refuse(list);
    EXPECT(dom_close(&page) == OWL_OK && dom_close(&page) == OWL_CLOSED && !page.is_open);
    puts("calls: as they should be");
    return 0;
}

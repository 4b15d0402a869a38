/*
 * Makes a list of 2,000 elements with an attribute and a Text each, and then COUNT calls of a kind by typed calls, for whoever counts instructions.
 *
 * Usage: calls KIND COUNT     (prints what the last call gave, so that the work is seen to be done)
 */
#include <stdio.h>
#include <stdlib.h>
#include <string.h>

#include "owlantimony_typed.h"

enum { CHILDREN = 2000 };

#define BYTES(text) (const uint8_t *)(text), strlen(text)

static owl_document document = OWL_DOCUMENT_INIT;
static owl_node list, children[CHILDREN];
static const uint16_t CHANGED[] = {'c', 'h', 'a', 'n', 'g', 'e', 'd'}, WORD[] = {'w', 'o', 'r', 'd', ' ', '5', '0', '0'};

/* Ends the program where a call was not done. */
static void want(uint32_t status)
{
    if (status != OWL_OK) {
        fprintf(stderr, "a call was answered %u\n", (unsigned)status);
        exit(1);
    }
}

static void make_list(void)
{
    const owl_node page = {OWL_PAGE, 0};
    owl_node text;
    want(dom_open(&document));
    want(dom_create_element(&document, OWL_PAGE, BYTES("ul"), &list));
    want(dom_append(&document, OWL_PAGE, page, list));
    for (int at = 0; at < CHILDREN; at++) {
        want(dom_create_element(&document, OWL_PAGE, BYTES("li"), &children[at]));
        want(dom_set_attribute(&document, OWL_PAGE, children[at], BYTES("class"), CHANGED, 7));
        want(dom_create_text(&document, OWL_PAGE, WORD, 8, &text));
        want(dom_append(&document, OWL_PAGE, children[at], text));
        want(dom_append(&document, OWL_PAGE, list, children[at]));
    }
}

static uint64_t nothing(owl_node node)
{
    return node.number;
}

static uint64_t append(owl_node node)
{
    want(dom_append(&document, OWL_PAGE, list, node));
    return 0;
}

static uint64_t links(owl_node node)
{
    owl_links found;
    want(dom_links(&document, OWL_PAGE, node, &found));
    return found.next.number;
}

static uint64_t parent(owl_node node)
{
    owl_node found;
    want(dom_parent(&document, OWL_PAGE, node, &found));
    return found.number;
}

static uint64_t create_element(owl_node node)
{
    want(dom_create_element(&document, OWL_PAGE, BYTES("li"), &node));
    return node.number;
}

static uint64_t create_text(owl_node node)
{
    want(dom_create_text(&document, OWL_PAGE, WORD, 8, &node));
    return node.number;
}

static uint64_t set_attribute(owl_node node)
{
    want(dom_set_attribute(&document, OWL_PAGE, node, BYTES("class"), CHANGED, 7));
    return 0;
}

static uint64_t get_attribute(owl_node node)
{
    bool has;
    const uint16_t *units;
    size_t count;
    want(dom_get_attribute(&document, OWL_PAGE, node, BYTES("class"), &has, &units, &count));
    return count;
}

static uint64_t remove_node(owl_node node)
{
    want(dom_remove(&document, OWL_PAGE, node));
    return 0;
}

static uint64_t children_of(owl_node node)
{
    const owl_node *found;
    size_t count;
    want(dom_children(&document, OWL_PAGE, node, &found, &count));
    return found[0].number;
}

static uint64_t query(owl_node node)
{
    static const uint16_t LI[] = {'l', 'i'};
    const owl_node *found;
    size_t count;
    want(dom_query(&document, OWL_PAGE, list, LI, 2, &found, &count));
    return count + node.number;
}

static const struct kind {
    const char *name;
    uint64_t (*call)(owl_node);
} KINDS[] = {
    {"nothing", nothing},          {"append", append},           {"links", links},     {"parent", parent},
    {"create_element", create_element}, {"create_text", create_text}, {"set_attribute", set_attribute}, {"get_attribute", get_attribute},
    {"remove", remove_node},       {"children", children_of},    {"query", query},
};

int main(int word_count, char **words)
{
    uint64_t found = 0;
    for (size_t at = 0; word_count == 3 && at < sizeof KINDS / sizeof *KINDS; at++)
        if (!strcmp(words[1], KINDS[at].name)) {
            make_list();
            for (long turn = 0, count = atol(words[2]); turn < count; turn++)
                found = KINDS[at].call(children[turn * 7 % CHILDREN]);
            printf("%s %llu\n", KINDS[at].name, (unsigned long long)found);
            want(dom_close(&document));
            return 0;
        }
    fprintf(stderr, "usage: %s KIND COUNT\n", words[0]);
    return 2;
}

/* The page of work.h in the engine, by the calls of owlantimony_dom.h, each of which writes a line and reads its answer. */
#include "owlantimony_dom.h"

#include "work.h"

static owl_dom document = OWL_DOM_INIT;
static owl_owner page;
static owl_node root, *elements, *room; /* `room` is for the children of the nodes between the root and the one that is visited */
static size_t room_size;

static void open_page(void)
{
    want(!owl_open(&document, &page), "a document");
}

static void close_page(void)
{
    free(elements);
    free(room);
    owl_close(&document);
}

/* Makes an element with its attribute and its Text. */
static owl_node made(uint32_t number)
{
    owl_node element, inside;
    char text[TEXT_SIZE + 1];
    want(!owl_create_element(page, name_of(number), &element), "an element");
    want(!owl_set_attribute(page, element, "class", class_of(number)), "an attribute");
    write_text(number, text);
    want(!owl_create_text(page, text, &inside), "a Text");
    want(!owl_append(page, element, inside), "a Text's place");
    return element;
}

static void build(uint32_t count, bool does_keep)
{
    owl_node section = owl_root(page);
    elements = does_keep ? malloc((count + 1) * sizeof *elements) : NULL;
    room_size = 2 * (size_t)count;
    for (uint32_t number = 0; number < count; number++) {
        owl_node element = made(number);
        want(!owl_append(page, is_section(number) ? root : section, element), "an element's place");
        root = number ? root : element;
        section = is_section(number) ? element : section;
        if (elements)
            elements[number] = element;
    }
}

/* Visits a node and all below it. From `used` on the room is free. */
static void visit(owl_node node, uint64_t depth, size_t used, walked *found)
{
    size_t count;
    want(!owl_children(page, node, room + used, room_size - used, &count), "the children of a node");
    found->nodes++;
    found->depths += depth;
    if (count == 0)
        found->leaves++;
    for (size_t at = 0; at < count; at++)
        visit(room[used + at], depth + 1, used + count, found);
}

static walked walk(void)
{
    walked found = {0, 0, 0};
    room = malloc((room_size + 1) * sizeof *room);
    visit(root, 0, 0, &found);
    return found;
}

/* Counts what a selector finds below the document. */
static uint64_t query(const char *selector)
{
    size_t found;
    want(!owl_query(page, owl_root(page), selector, room, room_size, &found), selector);
    return found;
}

static uint64_t query_name(void)
{
    return query(NAME_SELECTOR);
}

static uint64_t query_class(void)
{
    return query(CLASS_SELECTOR);
}

static uint64_t change(uint32_t count)
{
    uint64_t moved = 0;
    for (uint32_t number = 0; number < count; number += TENTH)
        if (is_moved(number)) {
            want(!owl_append(page, elements[section_after(number, count)], elements[number]), "a move");
            want(!owl_set_attribute(page, elements[number], "class", CLASS_SET), "an attribute");
            moved++;
        }
    return moved;
}

static void add(sum *of, owl_node node, unsigned depth)
{
    const char *text;
    int type = 0;
    owl_node *nodes = malloc((room_size + 1) * sizeof *nodes);
    size_t count;
    add_byte(of, depth);
    want(!owl_node_type(page, node, &type), "a node's type");
    want(!(type == 1 ? owl_name(page, node, &text) : owl_data(page, node, &text)), "a name or data");
    add_text(of, text);
    if (type == 1) {
        want(!owl_get_attribute(page, node, "class", &text), "a class");
        add_text(of, text);
    }
    want(!owl_children(page, node, nodes, room_size, &count), "the children of a node");
    for (size_t at = 0; at < count; at++)
        add(of, nodes[at], depth + 1);
    free(nodes);
}

static sum sum_over(void)
{
    sum of = sum_from_nothing();
    add(&of, root, 0);
    return of;
}

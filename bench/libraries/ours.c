/* The page of work.h in the engine, by typed calls. */
#include "owlantimony_typed.h"

#include "work.h"

#define BYTES(text) (const uint8_t *)(text), strlen(text)

static const owl_node PAGE_DOCUMENT = {OWL_PAGE, 0};
static owl_document document = OWL_DOCUMENT_INIT;
static owl_node root, *elements;

static void open_page(void)
{
    want(!dom_open(&document), "a document");
}

static void close_page(void)
{
    free(elements);
    want(!dom_close(&document), "the end");
}

/* Widens ASCII to the code units that the calls take, and gives how many there are. */
static size_t widen(const char *text, uint16_t *units)
{
    size_t count = 0;
    for (; text[count]; count++)
        units[count] = (uint8_t)text[count];
    return count;
}

/* Makes an element with its attribute and its Text. */
static owl_node made(uint32_t number)
{
    owl_node element, inside;
    char text[TEXT_SIZE + 1];
    uint16_t units[32];
    const char *name = name_of(number);
    want(!dom_create_element(&document, OWL_PAGE, BYTES(name), &element), "an element");
    size_t count = widen(class_of(number), units);
    want(!dom_set_attribute(&document, OWL_PAGE, element, BYTES("class"), units, count), "an attribute");
    write_text(number, text);
    want(!dom_create_text(&document, OWL_PAGE, units, widen(text, units), &inside), "a Text");
    want(!dom_append(&document, OWL_PAGE, element, inside), "a Text's place");
    return element;
}

static void build(uint32_t count, bool does_keep)
{
    owl_node section = PAGE_DOCUMENT;
    elements = does_keep ? malloc((count + 1) * sizeof *elements) : NULL;
    for (uint32_t number = 0; number < count; number++) {
        owl_node element = made(number);
        want(!dom_append(&document, OWL_PAGE, is_section(number) ? root : section, element), "an element's place");
        root = number ? root : element;
        section = is_section(number) ? element : section;
        if (elements)
            elements[number] = element;
    }
}

/* Visits a node and all below it, and gives the node's next sibling. */
static owl_node visit(owl_node node, uint64_t depth, walked *found)
{
    owl_links links;
    want(!dom_links(&document, OWL_PAGE, node, &links), "the links of a node");
    found->nodes++;
    found->depths += depth;
    if (links.first.owner == OWL_NONE.owner)
        found->leaves++;
    for (owl_node child = links.first; child.owner != OWL_NONE.owner;)
        child = visit(child, depth + 1, found);
    return links.next;
}

static walked walk(void)
{
    walked found = {0, 0, 0};
    visit(root, 0, &found);
    return found;
}

/* Counts what a selector finds below the document. */
static uint64_t query(const char *selector)
{
    const owl_node *nodes;
    uint16_t units[32];
    size_t count = widen(selector, units), found;
    want(!dom_query(&document, OWL_PAGE, PAGE_DOCUMENT, units, count, &nodes, &found), selector);
    return found;
}

static uint64_t query_name(void)
{
    return query(NAME_SELECTOR);
}

static uint64_t query_class(void)
{
    return query(CLASS_SELECTOR);
}

static uint64_t change(uint32_t count)
{
    uint64_t moved = 0;
    uint16_t units[32];
    size_t unit_count = widen(CLASS_SET, units);
    for (uint32_t number = 0; number < count; number += TENTH)
        if (is_moved(number)) {
            want(!dom_append(&document, OWL_PAGE, elements[section_after(number, count)], elements[number]), "a move");
            want(!dom_set_attribute(&document, OWL_PAGE, elements[number], BYTES("class"), units, unit_count), "an attribute");
            moved++;
        }
    return moved;
}

static void add_units(sum *of, const owl_answer *answer, owl_span units)
{
    for (uint32_t at = 0; at < units.count; at++)
        add_byte(of, answer->units[units.at + at]);
    add_byte(of, 0);
}

static void add_row(sum *of, const owl_answer *answer, const owl_row *row)
{
    if (row->kind != OWL_ELEMENT) {
        add_units(of, answer, row->data);
        return;
    }
    for (uint32_t at = 0; at < row->name.count; at++)
        add_byte(of, answer->bytes[row->name.at + at]);
    add_byte(of, 0);
    want(row->attributes.count == 1, "one attribute");
    add_units(of, answer, answer->attributes[row->attributes.at].value);
}

static sum sum_over(void)
{
    sum of = sum_from_nothing();
    owl_answer answer;
    want(!dom_rows(&document, OWL_PAGE, root) && !dom_answer(&document, &answer), "rows");
    uint32_t *depths = malloc((answer.row_count + 1) * sizeof *depths);
    for (size_t at = 0; at < answer.row_count; at++) {
        depths[at] = at ? depths[answer.rows[at].parent] + 1 : 0;
        add_byte(&of, depths[at]);
        add_row(&of, &answer, answer.rows + at);
    }
    free(depths);
    return of;
}

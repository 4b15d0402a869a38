/* The page of work.h in libxml2, by its calls on trees and by XPath. */
#include <libxml/tree.h>
#include <libxml/xpath.h>

#include "work.h"

#define TEXT(words) ((const xmlChar *)(words))

static xmlDocPtr document;
static xmlNodePtr *elements;

static void open_page(void)
{
    document = xmlNewDoc(TEXT("1.0"));
    want(document != NULL, "a document");
}

static void close_page(void)
{
    free(elements);
    xmlFreeDoc(document);
    xmlCleanupParser();
}

/* Makes an element with its attribute and its Text. */
static xmlNodePtr made(uint32_t number)
{
    char text[TEXT_SIZE + 1];
    xmlNodePtr element = xmlNewDocNode(document, NULL, TEXT(name_of(number)), NULL);
    want(element && xmlNewProp(element, TEXT("class"), TEXT(class_of(number))), "an element");
    write_text(number, text);
    want(xmlAddChild(element, xmlNewDocText(document, TEXT(text))) != NULL, "a Text");
    return element;
}

static void build(uint32_t count, bool does_keep)
{
    xmlNodePtr root = NULL, section = NULL;
    elements = does_keep ? malloc((count + 1) * sizeof *elements) : NULL;
    for (uint32_t number = 0; number < count; number++) {
        xmlNodePtr element = made(number);
        if (number == 0) {
            root = element;
            xmlDocSetRootElement(document, root);
        } else {
            xmlAddChild(is_section(number) ? root : section, element);
        }
        section = is_section(number) ? element : section;
        if (elements)
            elements[number] = element;
    }
}

static void visit(const xmlNode *node, uint64_t depth, walked *found)
{
    found->nodes++;
    found->depths += depth;
    if (!node->children)
        found->leaves++;
    for (const xmlNode *child = node->children; child; child = child->next)
        visit(child, depth + 1, found);
}

static walked walk(void)
{
    walked found = {0, 0, 0};
    visit(xmlDocGetRootElement(document), 0, &found);
    return found;
}

/* Counts what an expression selects. */
static uint64_t query(const char *expression)
{
    xmlXPathContextPtr context = xmlXPathNewContext(document);
    xmlXPathObjectPtr selected = xmlXPathEvalExpression(TEXT(expression), context);
    want(selected && selected->nodesetval, expression);
    uint64_t found = (uint64_t)selected->nodesetval->nodeNr;
    xmlXPathFreeObject(selected);
    xmlXPathFreeContext(context);
    return found;
}

static uint64_t query_name(void)
{
    return query(NAME_EXPRESSION);
}

static uint64_t query_class(void)
{
    return query(CLASS_EXPRESSION);
}

static uint64_t change(uint32_t count)
{
    uint64_t moved = 0;
    for (uint32_t number = 0; number < count; number += TENTH)
        if (is_moved(number)) {
            xmlUnlinkNode(elements[number]);
            want(xmlAddChild(elements[section_after(number, count)], elements[number]) != NULL, "a move");
            want(xmlSetProp(elements[number], TEXT("class"), TEXT(CLASS_SET)) != NULL, "an attribute");
            moved++;
        }
    return moved;
}

static void add(sum *of, const xmlNode *node, unsigned depth)
{
    add_byte(of, depth);
    if (node->type == XML_ELEMENT_NODE) {
        xmlChar *value = xmlGetProp(node, TEXT("class"));
        add_text(of, (const char *)node->name);
        add_text(of, (const char *)value);
        xmlFree(value);
    } else {
        add_text(of, (const char *)node->content);
    }
    for (const xmlNode *child = node->children; child; child = child->next)
        add(of, child, depth + 1);
}

static sum sum_over(void)
{
    sum of = sum_from_nothing();
    add(&of, xmlDocGetRootElement(document), 0);
    return of;
}

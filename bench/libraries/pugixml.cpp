// The page of work.h in pugixml, by its calls on trees and by XPath.
#include <pugixml.hpp>

#include <vector>

#include "work.h"

static pugi::xml_document document;
static std::vector<pugi::xml_node> elements;

static void open_page(void)
{
}

static void close_page(void)
{
    document.reset();
}

static void build(uint32_t count, bool does_keep)
{
    pugi::xml_node root, section;
    char text[TEXT_SIZE + 1];
    if (does_keep)
        elements.resize(count);
    for (uint32_t number = 0; number < count; number++) {
        pugi::xml_node parent = is_section(number) ? root : section;
        pugi::xml_node element = number ? parent.append_child(name_of(number)) : document.append_child(name_of(number));
        want(element.append_attribute("class").set_value(class_of(number)), "an attribute");
        write_text(number, text);
        want(element.append_child(pugi::node_pcdata).set_value(text), "a Text");
        root = number ? root : element;
        section = is_section(number) ? element : section;
        if (does_keep)
            elements[number] = element;
    }
}

static void visit(pugi::xml_node node, uint64_t depth, walked *found)
{
    found->nodes++;
    found->depths += depth;
    if (!node.first_child())
        found->leaves++;
    for (pugi::xml_node child = node.first_child(); child; child = child.next_sibling())
        visit(child, depth + 1, found);
}

static walked walk(void)
{
    walked found = {0, 0, 0};
    visit(document.document_element(), 0, &found);
    return found;
}

static uint64_t query_name(void)
{
    return document.select_nodes(NAME_EXPRESSION).size();
}

static uint64_t query_class(void)
{
    return document.select_nodes(CLASS_EXPRESSION).size();
}

static uint64_t change(uint32_t count)
{
    uint64_t moved = 0;
    for (uint32_t number = 0; number < count; number += TENTH)
        if (is_moved(number)) {
            want(elements[section_after(number, count)].append_move(elements[number]), "a move");
            want(elements[number].attribute("class").set_value(CLASS_SET), "an attribute");
            moved++;
        }
    return moved;
}

static void add(sum *of, pugi::xml_node node, unsigned depth)
{
    add_byte(of, depth);
    if (node.type() == pugi::node_element) {
        add_text(of, node.name());
        add_text(of, node.attribute("class").value());
    } else {
        add_text(of, node.value());
    }
    for (pugi::xml_node child = node.first_child(); child; child = child.next_sibling())
        add(of, child, depth + 1);
}

static sum sum_over(void)
{
    sum of = sum_from_nothing();
    add(&of, document.document_element(), 0);
    return of;
}

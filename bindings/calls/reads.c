/* Makes the calls of commands that read nodes. */
#include "lines.h"

#define WHO &in->document, in->acts
#define FIRST node_of(in, read->nodes[0])
#define SECOND node_of(in, read->nodes[1])
#define UNITS read->units, read->unit_count
#define IF_DONE(say) (status ? status : (say))

static uint32_t read_node(script *in, const line *read)
{
    owl_node found;
    uint32_t status = read->command == PARENT           ? dom_parent(WHO, FIRST, &found)
                      : read->command == OWNER_DOCUMENT ? dom_owner_document(WHO, FIRST, &found)
                      : read->command == SHADOW_ROOT    ? dom_shadow_root(WHO, FIRST, &found)
                                                        : dom_assigned_slot(WHO, FIRST, &found);
    return IF_DONE(say_node(in, found));
}

static uint32_t read_nodes(script *in, const line *read)
{
    const owl_node *nodes;
    size_t count;
    uint32_t status = read->command == CHILDREN   ? dom_children(WHO, FIRST, &nodes, &count)
                      : read->command == ASSIGNED ? dom_assigned(WHO, FIRST, &nodes, &count)
                                                  : dom_query(WHO, FIRST, UNITS, &nodes, &count);
    return IF_DONE(say_nodes(in, nodes, count));
}

static uint32_t read_truth(script *in, const line *read)
{
    bool is;
    uint32_t status = read->command == CONTAINS    ? dom_contains(WHO, FIRST, SECOND, &is)
                      : read->command == CONNECTED ? dom_is_connected(WHO, FIRST, &is)
                                                   : dom_matches(WHO, FIRST, UNITS, &is);
    return IF_DONE(say_truth(in, is));
}

static uint32_t read_attribute(script *in, const line *read)
{
    bool has;
    const uint16_t *units;
    size_t count;
    uint32_t status = dom_get_attribute(WHO, FIRST, read->words[0].at, read->words[0].size, &has, &units, &count);
    return IF_DONE(has ? say_units(in, units, count) : say_node(in, OWL_NONE));
}

uint32_t perform_read(script *in, const line *read)
{
    uint32_t status;
    switch (read->command) {
    case TREE:
        status = dom_rows(WHO, FIRST);
        return IF_DONE(say_tree(in));
    case ATTR: return read_attribute(in, read);
    case CHILDREN: case ASSIGNED: case QUERY: return read_nodes(in, read);
    case CONTAINS: case CONNECTED: case MATCHES: return read_truth(in, read);
    default: return read_node(in, read);
    }
}

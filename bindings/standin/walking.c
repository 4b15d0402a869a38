/* A stand-in for the engine's typed calls, unproved (README.md): where nodes stand. */
#include "standin.h"

node *root_of(node *node)
{
    while (node->parent)
        node = node->parent;
    return node;
}

node *following_all(node *at, node *root)
{
    while (at != root && !at->next)
        at = at->parent;
    return at == root ? NULL : at->next;
}

node *following(node *at, node *root)
{
    return at->first ? at->first : following_all(at, root);
}

node *preceding(node *at, node *root)
{
    if (at == root)
        return NULL;
    if (!at->previous)
        return at->parent;
    for (at = at->previous; at->last;)
        at = at->last;
    return at;
}

bool is_inclusive_ancestor(const node *node, const struct node *other)
{
    while (other && other != node)
        other = other->parent;
    return other;
}

uint32_t index_of(const node *node)
{
    uint32_t index = 0;
    for (node = node->previous; node; node = node->previous)
        index++;
    return index;
}

uint32_t length_of(const node *node)
{
    if (is_of(node, KIND_DATA))
        return (uint32_t)node->data.count;
    return node->last ? index_of(node->last) + 1 : 0;
}

static size_t depth_of(const node *node)
{
    size_t depth = 0;
    for (node = node->parent; node; node = node->parent)
        depth++;
    return depth;
}

/* Whether a node of a tree comes before another one of it, in tree order. */
bool precedes(node *one, node *other)
{
    size_t depths[] = {depth_of(one), depth_of(other)};
    node *ways[] = {one, other};
    for (int side = 0; side < 2; side++)
        for (size_t above = depths[side]; above > depths[!side]; above--)
            ways[side] = ways[side]->parent;
    if (ways[0] == ways[1])
        return depths[0] < depths[1];
    while (ways[0]->parent != ways[1]->parent) {
        ways[0] = ways[0]->parent;
        ways[1] = ways[1]->parent;
    }
    for (node *at = ways[0]; at; at = at->next)
        if (at == ways[1])
            return true;
    return false;
}

attribute *attribute_of(const node *node, const name *name)
{
    for (size_t at = 0; at < node->attribute_count; at++)
        if (node->attributes[at].name == name)
            return &node->attributes[at];
    return NULL;
}

text attribute_or_empty(const node *node, const name *name)
{
    attribute *found = attribute_of(node, name);
    return found ? found->value : (text){NULL, 0};
}

/* Where nodes stand, as the engine answered it by lines (lines.h). */
#include "lines.h"

#define LONG 32  /* a list of children this long is not asked for again at once */
#define ALONE 64 /* so many neighbours are asked for alone instead */

known *known_of(lines *by, uint32_t place, uint32_t number)
{
    lines_owner *owner = &by->owners[place];
    if (number >= owner->count) {
        size_t count = number + number / 2 + 64;
        known *block = realloc(owner->known, count * sizeof *block);
        if (!block)
            return NULL;
        owner->known = block;
        for (; owner->count < count; owner->count++)
            block[owner->count] = (known){NONE, NONE, NONE, NONE, NONE, 0, 0, NONE, false, false, 0};
    }
    return &owner->known[number];
}

void forget_children(lines_owner *owner, uint32_t parent)
{
    known *of = parent < owner->count ? &owner->known[parent] : NULL;
    if (!of)
        return;
    if ((of->has_children && of->count > LONG) || of->alone)
        of->alone = ALONE;
    of->has_children = false;
}

void forget_parent(lines_owner *owner, uint32_t node)
{
    known *of = node < owner->count ? &owner->known[node] : NULL;
    if (of && of->has_parent && of->parent != NONE)
        forget_children(owner, of->parent);
    if (of)
        of->has_parent = false;
}

void forget_owner(lines_owner *owner)
{
    for (uint32_t at = 0; at < owner->count; at++) {
        owner->known[at].has_parent = false;
        forget_children(owner, at);
    }
}

void lines_forget(owl_document *document)
{
    lines *by = document->held;
    for (size_t at = 0; document->is_open && at < by->owner_count; at++)
        forget_owner(&by->owners[at]);
}

/* Whether a line is a command that may move nodes that it does not name. */
bool lines_moves(const char *line, size_t size)
{
    static const char *const words[] = {"append", "insert", "replace", "remove", "adopt", "normalize", "text", "split", "extract", "delete", "insert-node"};
    const char *word = memchr(line, ' ', size);
    for (size_t at = 0; word && at < sizeof words / sizeof *words; at++) {
        size_t length = strlen(words[at]);
        if ((size_t)(line + size - word) > length + 1 && !memcmp(word + 1, words[at], length) && word[length + 1] == ' ')
            return true;
    }
    return false;
}

static uint32_t learn_children(owl_document *document, uint32_t place, uint32_t parent, size_t *count)
{
    lines *by = document->held;
    uint32_t status = run(document, place, "children %n", parent), previous = NONE;
    if (!status && !(read_nodes(by, place, count) && known_of(by, place, parent)))
        status = OWL_MEMORY;
    for (size_t at = 0; !status && at < *count; at++) {
        known *child = known_of(by, place, by->nodes[at].number);
        if (!child)
            return OWL_MEMORY;
        child->parent = parent;
        child->previous = previous;
        child->next = at + 1 < *count ? by->nodes[at + 1].number : (uint32_t)NONE;
        child->has_parent = true;
        previous = by->nodes[at].number;
    }
    if (status)
        return status;
    known *of = known_of(by, place, parent);
    of->first = *count ? by->nodes[0].number : (uint32_t)NONE;
    of->last = previous;
    of->count = (uint32_t)*count;
    of->alone = 0;
    of->has_children = true;
    return OWL_OK;
}

/* Moves a walker below a root from a node, and writes where it comes to. */
static uint32_t walk(owl_document *document, uint32_t place, uint32_t root, uint32_t from, const char *move, uint32_t *to)
{
    lines *by = document->held;
    known *of = known_of(by, place, root);
    uint32_t status = of ? OWL_OK : OWL_MEMORY;
    if (!status && of->walker == NONE && !(status = run(document, place, "walk-new %n all", root)))
        read_number(by->value, &of->walker);
    status = status ? status : run(document, place, "walk-set w%u %n", of->walker, from);
    status = status ? status : run(document, place, "walk w%u %b", of->walker, move, strlen(move));
    if (!status)
        read_number(by->value, to);
    return status;
}

static uint32_t learn_parent(owl_document *document, uint32_t place, uint32_t number)
{
    lines *by = document->held;
    uint32_t parent, status = run(document, place, "parent %n", number);
    known *of = known_of(by, place, number);
    if (!status && of) {
        read_number(by->value, &parent);
        of->parent = parent;
        of->has_parent = true;
    }
    return status || of ? status : OWL_MEMORY;
}

/* Whether a neighbour below a parent is to be asked for alone. */
static bool asks_alone(known *parent)
{
    bool is = !parent->has_children && parent->alone;
    parent->alone -= is;
    return is;
}

/* Reads the two ends of a node's children, or its two siblings below their parent. */
static uint32_t read_two(owl_document *document, uint32_t place, uint32_t parent, uint32_t from, const char *const *moves, owl_node *one, owl_node *other)
{
    lines *by = document->held;
    size_t count;
    uint32_t ends[2] = {NONE, NONE}, status = OWL_OK;
    known *above = known_of(by, place, parent);
    if (!above)
        return OWL_MEMORY;
    bool is_leaf = above->kind == OWL_TEXT || above->kind == OWL_COMMENT;
    if (!is_leaf && asks_alone(above)) {
        for (int at = 0; at < 2 && !status; at++)
            status = walk(document, place, parent, from, moves[at], &ends[at]);
    } else if (!is_leaf) {
        status = above->has_children ? OWL_OK : learn_children(document, place, parent, &count);
        const known *of = known_of(by, place, from);
        ends[0] = from == parent ? of->first : of->previous;
        ends[1] = from == parent ? of->last : of->next;
    }
    *one = node_at(place, ends[0]);
    *other = node_at(place, ends[1]);
    return status;
}

uint32_t dom_links(owl_document *document, uint32_t owner, owl_node node, owl_links *links)
{
    static const char *const ends[] = {"first", "last"}, *const siblings[] = {"previous-sibling", "next-sibling"};
    lines *by = document->held;
    owl_links read = {OWL_NONE, OWL_NONE, OWL_NONE, OWL_NONE, OWL_NONE};
    if (!document->is_open)
        return OWL_CLOSED;
    known *of = known_of(by, owner, node.number);
    uint32_t status = !of ? OWL_MEMORY : of->has_parent ? OWL_OK : learn_parent(document, owner, node.number);
    if (status)
        return status;
    uint32_t parent = known_of(by, owner, node.number)->parent;
    read.parent = node_at(owner, parent);
    if (parent != NONE)
        status = read_two(document, owner, parent, node.number, siblings, &read.previous, &read.next);
    status = status ? status : read_two(document, owner, node.number, node.number, ends, &read.first, &read.last);
    if (!status)
        *links = read;
    return status;
}

uint32_t dom_children(owl_document *document, uint32_t owner, owl_node node, const owl_node **nodes, size_t *node_count)
{
    lines *by = document->held;
    uint32_t status = document->is_open ? learn_children(document, owner, node.number, node_count) : OWL_CLOSED;
    if (!status)
        *nodes = by->nodes;
    return status;
}

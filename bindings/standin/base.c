/* A stand-in for the engine's typed calls, unproved (README.md): lists, names, texts, the answer, and how a call begins. */
#include "standin.h"

#include <stdio.h>

void *grown(void *at, size_t count, size_t *room, size_t size)
{
    if (count < *room)
        return at;
    *room = 2 * count + 4;
    void *block = realloc(at, *room * size);
    if (!block) {
        fputs("standin: no memory\n", stderr);
        abort();
    }
    return block;
}

const name *name_of(standin *in, const uint8_t *bytes, size_t size)
{
    uint32_t hash = 2166136261u;
    for (size_t at = 0; at < size; at++)
        hash = (hash ^ bytes[at]) * 16777619u;
    name **place = &in->names[(hash ^ hash >> 12) % 4096];
    for (name *found = *place; found; found = found->next)
        if (found->size == size && !memcmp(found->bytes, bytes, size))
            return found;
    size_t room = 0;
    name *made = grown(NULL, sizeof *made + size, &room, 1);
    *made = (name){*place, size};
    memcpy(made->bytes, bytes, size);
    return *place = made;
}

static bool is_letter(uint8_t c)
{
    return (c >= 'a' && c <= 'z') || (c >= 'A' && c <= 'Z');
}

static bool is_digit(uint8_t c)
{
    return c >= '0' && c <= '9';
}

bool is_element_name(const uint8_t *bytes, size_t size)
{
    bool is = size && (is_letter(bytes[0]) || bytes[0] == '_');
    for (size_t at = 1; at < size; at++)
        is = is && (is_letter(bytes[at]) || is_digit(bytes[at]) || bytes[at] == '-' || bytes[at] == '_');
    return is;
}

bool is_label(const uint8_t *bytes, size_t size)
{
    bool is = size && size <= 64;
    for (size_t at = 0; is && at < size; at++)
        is = is_letter(bytes[at]) || is_digit(bytes[at]) || (bytes[at] && strchr("-_.:", bytes[at]));
    return is;
}

text copied_text(const uint16_t *units, size_t count)
{
    size_t room = 0;
    text made = {count ? grown(NULL, count, &room, sizeof *units) : NULL, count};
    if (count)
        memcpy(made.at, units, count * sizeof *units);
    return made;
}

bool same_text(text one, const uint16_t *units, size_t count)
{
    return one.count == count && (!count || !memcmp(one.at, units, count * sizeof *units));
}

bool is_of(const node *node, uint32_t kinds)
{
    return kinds >> node->kind & 1;
}

/* Begins a call: the answer is empty, and the owner and the nodes are looked up. */
uint32_t begin(call *this, owl_document *document, uint32_t place, size_t count, const owl_node *nodes)
{
    if (!document->is_open)
        return OWL_CLOSED;
    standin *in = document->held;
    bool is_unknown = place >= in->owners.count;
    document->told = 0;
    in->deliveries.count = in->nodes.count = in->rows.count = in->attributes.count = in->units.count = in->bytes.count = 0;
    in->called = (owl_span){0, 0};
    for (size_t at = 0; at < count; at++)
        if (nodes[at].owner != place)
            return OWL_FOREIGN;
    for (size_t at = 0; at < count && !is_unknown; at++) {
        is_unknown = nodes[at].number >= in->owners.at[place].nodes.count;
        this->nodes[at] = is_unknown ? NULL : in->owners.at[place].nodes.at[nodes[at].number];
    }
    this->in = in;
    this->place = place;
    this->owner = is_unknown ? NULL : &in->owners.at[place];
    return is_unknown ? OWL_UNKNOWN : OWL_OK;
}

/* Ends a call that may have told something. */
void end(call *this, owl_document *document)
{
    document->told = this->in->deliveries.count;
}

owl_node shown(const node *node)
{
    return node ? (owl_node){node->owner, node->number} : OWL_NONE;
}

owl_span put_bytes(standin *in, const name *name)
{
    owl_span span = {(uint32_t)in->bytes.count, (uint32_t)name->size};
    for (size_t at = 0; at < name->size; at++)
        PUSH(in->bytes, name->bytes[at]);
    return span;
}

owl_span put_units(standin *in, text text)
{
    owl_span span = {(uint32_t)in->units.count, (uint32_t)text.count};
    for (size_t at = 0; at < text.count; at++)
        PUSH(in->units, text.at[at]);
    return span;
}

owl_span put_nodes(standin *in, const node_list *nodes)
{
    owl_span span = {(uint32_t)in->nodes.count, (uint32_t)nodes->count};
    for (size_t at = 0; at < nodes->count; at++)
        PUSH(in->nodes, shown(nodes->at[at]));
    return span;
}

uint32_t dom_answer(owl_document *document, owl_answer *answer)
{
    if (!document->is_open)
        return OWL_CLOSED;
    standin *in = document->held;
    *answer = (owl_answer){
        in->deliveries.at, in->deliveries.count, in->nodes.at, in->nodes.count, in->rows.at, in->rows.count, in->attributes.at,
        in->attributes.count, in->units.at, in->units.count, in->bytes.at, in->bytes.count, in->called,
    };
    return OWL_OK;
}

/* A stand-in for the engine's typed calls, unproved (README.md): attributes, and changes of data (DOM Standard, 4.9, 4.10, 4.11). */
#include "standin.h"

/* ---- attributes */

static void put_attribute(node *element, const name *name, text value)
{
    attribute *found = attribute_of(element, name);
    if (found) {
        free(found->value.at);
        found->value = value;
        return;
    }
    element->attributes = grown(element->attributes, element->attribute_count, &element->attribute_room, sizeof *element->attributes);
    element->attributes[element->attribute_count++] = (attribute){name, value};
}

uint32_t dom_set_attribute(owl_document *document, uint32_t owner, owl_node element, const uint8_t *name, size_t name_size, const uint16_t *units,
                           size_t unit_count)
{
    call this;
    watch watch;
    uint32_t status = begin(&this, document, owner, 1, &element);
    if (!status && !is_of(this.nodes[0], KIND_ELEMENT))
        status = OWL_WRONG_KIND;
    if (!status && !is_element_name(name, name_size))
        status = OWL_INVALID_CHARACTER;
    if (status)
        return status;
    const struct name *known = name_of(this.in, name, name_size);
    attribute *old = attribute_of(this.nodes[0], known);
    tell_attribute(this.in, this.nodes[0], known, old ? &old->value : NULL);
    watch_slots(this.in, &watch, this.nodes[0], this.nodes[0], false);
    put_attribute(this.nodes[0], known, copied_text(units, unit_count));
    signal_slots(this.in, &watch);
    return OWL_OK;
}

uint32_t dom_remove_attribute(owl_document *document, uint32_t owner, owl_node element, const uint8_t *name, size_t name_size)
{
    call this;
    watch watch;
    uint32_t status = begin(&this, document, owner, 1, &element);
    if (!status && !is_of(this.nodes[0], KIND_ELEMENT))
        status = OWL_WRONG_KIND;
    if (status)
        return status;
    node *from = this.nodes[0];
    attribute *old = attribute_of(from, name_of(this.in, name, name_size));
    if (!old)
        return OWL_OK;
    tell_attribute(this.in, from, old->name, &old->value);
    watch_slots(this.in, &watch, from, from, false);
    free(old->value.at);
    from->attribute_count--;
    memmove(old, old + 1, (size_t)(from->attributes + from->attribute_count - old) * sizeof *old);
    signal_slots(this.in, &watch);
    return OWL_OK;
}

uint32_t dom_get_attribute(owl_document *document, uint32_t owner, owl_node element, const uint8_t *name, size_t name_size, bool *has,
                           const uint16_t **units, size_t *unit_count)
{
    call this;
    uint32_t status = begin(&this, document, owner, 1, &element);
    if (!status && !is_of(this.nodes[0], KIND_ELEMENT))
        status = OWL_WRONG_KIND;
    if (status)
        return status;
    attribute *found = attribute_of(this.nodes[0], name_of(this.in, name, name_size));
    *has = found;
    *units = found ? found->value.at : NULL;
    *unit_count = found ? found->value.count : 0;
    return OWL_OK;
}

/* ---- data */

void replace_data(standin *in, node *node, uint32_t offset, uint32_t count, const uint16_t *units, size_t unit_count)
{
    text old = node->data;
    if (count > old.count - offset)
        count = (uint32_t)old.count - offset;
    size_t room = 0, size = old.count - count + unit_count, behind = old.count - offset - count;
    tell_data(in, node, old);
    node->data = (text){size ? grown(NULL, size, &room, sizeof *units) : NULL, size};
    if (offset)
        memcpy(node->data.at, old.at, offset * sizeof *units);
    if (unit_count)
        memcpy(node->data.at + offset, units, unit_count * sizeof *units);
    if (behind)
        memcpy(node->data.at + offset + unit_count, old.at + offset + count, behind * sizeof *units);
    free(old.at);
    ranges_on_replace_data(in, node, offset, count, (uint32_t)unit_count);
}

/* Splits a Text (DOM Standard, split a Text node), and gives the new one. */
node *split_text(call *this, node *text, uint32_t offset)
{
    node *tail = made_node(this, OWL_TEXT, text->document), *parent = text->parent;
    tail->data = copied_text(text->data.at + offset, text->data.count - offset);
    if (parent) {
        insert_node(this->in, parent, tail, text->next, true);
        ranges_on_split(this->in, text, offset, tail);
    }
    replace_data(this->in, text, offset, (uint32_t)text->data.count - offset, NULL, 0);
    return tail;
}

uint32_t dom_set_data(owl_document *document, uint32_t owner, owl_node node, const uint16_t *units, size_t unit_count)
{
    call this;
    uint32_t status = begin(&this, document, owner, 1, &node);
    if (!status && !is_of(this.nodes[0], KIND_DATA))
        status = OWL_WRONG_KIND;
    if (!status)
        replace_data(this.in, this.nodes[0], 0, (uint32_t)this.nodes[0]->data.count, units, unit_count);
    return status;
}

uint32_t dom_replace_data(owl_document *document, uint32_t owner, owl_node node, uint32_t offset, uint32_t count, const uint16_t *units,
                          size_t unit_count)
{
    call this;
    uint32_t status = begin(&this, document, owner, 1, &node);
    if (!status && !is_of(this.nodes[0], KIND_DATA))
        status = OWL_WRONG_KIND;
    if (!status && offset > this.nodes[0]->data.count)
        status = OWL_INDEX_SIZE;
    if (!status)
        replace_data(this.in, this.nodes[0], offset, count, units, unit_count);
    return status;
}

uint32_t dom_split_text(owl_document *document, uint32_t owner, owl_node text, uint32_t offset, owl_node *made)
{
    call this;
    uint32_t status = begin(&this, document, owner, 1, &text);
    if (!status && !is_of(this.nodes[0], KIND_TEXT))
        status = OWL_WRONG_KIND;
    if (!status && offset > this.nodes[0]->data.count)
        status = OWL_INDEX_SIZE;
    if (!status && this.owner->nodes.count >= MOST_MADE)
        status = OWL_LIMIT;
    if (!status)
        *made = shown(split_text(&this, this.nodes[0], offset));
    return status;
}

/* ---- normalize() (DOM Standard, 4.4) */

/* A Text gets the data of the Texts directly after it, which then leave. */
static void join(standin *in, node *text)
{
    LIST(uint16_t) all = {NULL, 0, 0};
    node_list nexts = {NULL, 0, 0};
    uint32_t length = (uint32_t)text->data.count;
    for (node *at = text->next; at && is_of(at, KIND_TEXT); at = at->next) {
        PUSH(nexts, at);
        for (size_t unit = 0; unit < at->data.count; unit++)
            PUSH(all, at->data.at[unit]);
    }
    if (nexts.count)
        replace_data(in, text, length, 0, all.at, all.count);
    for (size_t at = 0; at < nexts.count; at++) {
        ranges_on_join(in, text, length, nexts.at[at]);
        length += (uint32_t)nexts.at[at]->data.count;
    }
    for (size_t at = 0; at < nexts.count; at++)
        remove_node(in, nexts.at[at], true);
    free(all.at);
    free(nexts.at);
}

uint32_t dom_normalize(owl_document *document, uint32_t owner, owl_node node)
{
    call this;
    node_list texts = {NULL, 0, 0};
    uint32_t status = begin(&this, document, owner, 1, &node);
    if (status)
        return status;
    struct node *top = this.nodes[0];
    for (struct node *at = following(top, top); at; at = following(at, top))
        if (is_of(at, KIND_TEXT))
            PUSH(texts, at);
    for (size_t at = 0; at < texts.count; at++) {
        if (!texts.at[at]->data.count)
            remove_node(this.in, texts.at[at], true);
        else if (texts.at[at]->parent)
            join(this.in, texts.at[at]);
    }
    free(texts.at);
    return OWL_OK;
}

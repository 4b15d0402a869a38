/* A stand-in for the engine's typed calls, unproved (README.md): the document, and making nodes. */
#include "standin.h"

#define MOST_COMPONENTS 1000
#define MOST_DEPTH 8

static const char *const host_words[] = {"article", "aside", "blockquote", "body", "div", "footer", "h1", "h2", "h3", "h4", "h5", "h6",
                                         "header", "main", "nav", "p", "section", "span"};
static const char *const reserved_words[] = {"annotation-xml", "color-profile", "font-face", "font-face-src", "font-face-uri",
                                             "font-face-format", "font-face-name", "missing-glyph"};

static bool is_in(const name *name, const char *const *words, size_t count)
{
    for (size_t at = 0; at < count; at++)
        if (strlen(words[at]) == name->size && !memcmp(words[at], name->bytes, name->size))
            return true;
    return false;
}

/* Whether a name is that of a custom element (HTML Standard, valid custom element name), of ASCII alone. */
static bool is_custom(const name *name)
{
    bool is = name->bytes[0] >= 'a' && name->bytes[0] <= 'z' && memchr(name->bytes, '-', name->size);
    for (size_t at = 0; is && at < name->size; at++)
        is = (name->bytes[at] >= 'a' && name->bytes[at] <= 'z') || (name->bytes[at] >= '0' && name->bytes[at] <= '9') || name->bytes[at] == '-';
    return is && !is_in(name, reserved_words, sizeof reserved_words / sizeof *reserved_words);
}

static bool may_be_host(const name *name)
{
    return is_in(name, host_words, sizeof host_words / sizeof *host_words) || is_custom(name);
}

node *made_node(call *this, uint32_t kind, node *document)
{
    node *made = calloc(1, sizeof *made);
    if (!made)
        abort();
    made->owner = this->place;
    made->number = (uint32_t)this->owner->nodes.count;
    made->kind = kind;
    made->document = document;
    PUSH(this->owner->nodes, made);
    return made;
}

/* The node document of a new node: the page's first document, or that of a component's shadow root. */
node *document_of_new(call *this)
{
    node *first = this->owner->nodes.at[0];
    return first->document ? first->document : first;
}

static owner *new_owner(standin *in, call *this)
{
    owner made;
    memset(&made, 0, sizeof made);
    PUSH(in->owners, made);
    this->in = in;
    this->place = (uint32_t)in->owners.count - 1;
    return this->owner = &in->owners.at[this->place];
}

uint32_t dom_open(owl_document *document)
{
    call this;
    if (document->is_open)
        return OWL_OPEN;
    standin *in = calloc(1, sizeof *in);
    if (!in)
        return OWL_MEMORY;
    *document = (owl_document){true, in, 0};
    in->word_id = name_of(in, (const uint8_t *)"id", 2);
    in->word_class = name_of(in, (const uint8_t *)"class", 5);
    in->word_name = name_of(in, (const uint8_t *)"name", 4);
    in->word_slot = name_of(in, (const uint8_t *)"slot", 4);
    new_owner(in, &this);
    made_node(&this, OWL_DOCUMENT, NULL);
    return OWL_OK;
}

static void free_node(node *node)
{
    for (size_t at = 0; at < node->attribute_count; at++)
        free(node->attributes[at].value.at);
    while (node->listeners) {
        listener *listener = node->listeners;
        node->listeners = listener->next;
        drop_listener(listener);
    }
    while (node->registrations) {
        registration *registration = node->registrations;
        node->registrations = registration->next;
        free(registration->filter);
        free(registration);
    }
    free(node->attributes);
    free(node->data.at);
    free(node);
}

static void free_owner(owner *owner)
{
    for (size_t at = 0; at < owner->nodes.count; at++)
        free_node(owner->nodes.at[at]);
    for (size_t at = 0; at < owner->observers.count; at++)
        free_observer(owner->observers.at[at]);
    free(owner->nodes.at);
    free(owner->ranges.at);
    free(owner->iterators.at);
    free(owner->walkers.at);
    free(owner->observers.at);
    free(owner->pending.at);
    free(owner->signalled.at);
}

static void free_names(standin *in)
{
    for (size_t at = 0; at < sizeof in->names / sizeof *in->names; at++)
        while (in->names[at]) {
            name *name = in->names[at];
            in->names[at] = name->next;
            free(name);
        }
}

uint32_t dom_close(owl_document *document)
{
    if (!document->is_open)
        return OWL_CLOSED;
    standin *in = document->held;
    for (size_t at = 0; at < in->frames.count; at++)
        free_frame(&in->frames.at[at]);
    for (size_t at = 0; at < in->owners.count; at++)
        free_owner(&in->owners.at[at]);
    free_names(in);
    free(in->owners.at);
    free(in->tasks.at);
    free(in->frames.at);
    free(in->deliveries.at);
    free(in->nodes.at);
    free(in->rows.at);
    free(in->attributes.at);
    free(in->units.at);
    free(in->bytes.at);
    free(in);
    *document = (owl_document)OWL_DOCUMENT_INIT;
    return OWL_OK;
}

/* Makes a node without a name or data, if the owner may make one. */
static uint32_t make(call *this, owl_document *document, uint32_t owner, uint32_t kind, owl_node *made)
{
    uint32_t status = begin(this, document, owner, 0, NULL);
    if (!status && this->owner->nodes.count >= MOST_MADE)
        status = OWL_LIMIT;
    if (!status)
        *made = shown(made_node(this, kind, kind == OWL_DOCUMENT ? NULL : document_of_new(this)));
    return status;
}

uint32_t dom_create_element(owl_document *document, uint32_t owner, const uint8_t *name, size_t name_size, owl_node *made)
{
    call this;
    uint32_t status = begin(&this, document, owner, 0, NULL);
    if (!status && !is_element_name(name, name_size))
        status = OWL_INVALID_CHARACTER;
    status = status ? status : make(&this, document, owner, OWL_ELEMENT, made);
    if (!status)
        this.owner->nodes.at[made->number]->name = name_of(this.in, name, name_size);
    return status;
}

uint32_t dom_create_text(owl_document *document, uint32_t owner, const uint16_t *units, size_t unit_count, owl_node *made)
{
    call this;
    uint32_t status = make(&this, document, owner, OWL_TEXT, made);
    if (!status)
        this.owner->nodes.at[made->number]->data = copied_text(units, unit_count);
    return status;
}

uint32_t dom_create_comment(owl_document *document, uint32_t owner, const uint16_t *units, size_t unit_count, owl_node *made)
{
    call this;
    uint32_t status = make(&this, document, owner, OWL_COMMENT, made);
    if (!status)
        this.owner->nodes.at[made->number]->data = copied_text(units, unit_count);
    return status;
}

uint32_t dom_create_fragment(owl_document *document, uint32_t owner, owl_node *made)
{
    call this;
    return make(&this, document, owner, OWL_FRAGMENT, made);
}

uint32_t dom_create_document(owl_document *document, uint32_t owner, owl_node *made)
{
    call this;
    return make(&this, document, owner, OWL_DOCUMENT, made);
}

uint32_t dom_attach(owl_document *document, uint32_t owner, owl_node element, uint32_t *component)
{
    call this, inner;
    uint32_t status = begin(&this, document, owner, 1, &element);
    if (status)
        return status;
    node *host = this.nodes[0];
    if (!is_of(host, KIND_ELEMENT))
        return OWL_WRONG_KIND;
    if (host->component || !may_be_host(host->name))
        return OWL_NOT_SUPPORTED;
    if (this.owner->attached >= MOST_COMPONENTS || this.owner->depth >= MOST_DEPTH)
        return OWL_LIMIT;
    uint32_t depth = this.owner->depth + 1;
    this.owner->attached++;
    new_owner(this.in, &inner);
    inner.owner->host = host;
    inner.owner->depth = depth;
    made_node(&inner, OWL_SHADOW_ROOT, host->document);
    *component = host->component = inner.place;
    return OWL_OK;
}

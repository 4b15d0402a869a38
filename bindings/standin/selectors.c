/* A stand-in for the engine's typed calls, unproved (README.md): selectors, parsed and matched (CSS Selectors, the part in docs/PROTOCOL.md). */
#include "standin.h"

typedef enum part_kind { NAMED, HAS, VALUED, FIRST_CHILD, LAST_CHILD, NEGATED, NOT_END } part_kind;

/* A part of a compound. A negated compound's parts stand between NEGATED and NOT_END. */
typedef struct part {
    part_kind kind;
    const name *name; /* of an element or an attribute */
    uint16_t sign;    /* of VALUED: '=' or what stands before it */
    text value;
} part;

typedef struct compound {
    size_t first, count; /* of the parts */
    uint16_t combinator; /* before it: ' ', '>', '+', '~', and 0 for the first of a complex */
} compound;

typedef struct selector {
    standin *in;
    const uint16_t *at, *end;
    bool is_wrong;
    LIST(part) parts;
    LIST(compound) compounds;
} selector;

/* ---- parsing */

static bool is_space(uint16_t unit)
{
    return unit == ' ' || unit == '\t' || unit == '\n' || unit == '\f' || unit == '\r';
}

static bool skip_spaces(selector *read)
{
    const uint16_t *from = read->at;
    while (read->at < read->end && is_space(*read->at))
        read->at++;
    return read->at > from;
}

static bool is_next(const selector *read, uint16_t unit)
{
    return read->at < read->end && *read->at == unit;
}

static bool take_unit(selector *read, uint16_t unit)
{
    bool is = is_next(read, unit);
    read->at += is;
    return is;
}

static bool is_letter(uint16_t unit)
{
    return (unit >= 'a' && unit <= 'z') || (unit >= 'A' && unit <= 'Z') || unit == '_';
}

static bool is_name_unit(uint16_t unit)
{
    return is_letter(unit) || (unit >= '0' && unit <= '9') || unit == '-';
}

static bool is_at_name(const selector *read)
{
    return read->at < read->end && is_letter(*read->at);
}

/* A NAME, as units. */
static text read_name(selector *read)
{
    const uint16_t *from = read->at;
    read->is_wrong = read->is_wrong || !is_at_name(read);
    while (!read->is_wrong && read->at < read->end && is_name_unit(*read->at))
        read->at++;
    return copied_text(from, (size_t)(read->at - from));
}

static const name *known_name(selector *read)
{
    LIST(uint8_t) bytes = {NULL, 0, 0};
    text units = read_name(read);
    for (size_t at = 0; at < units.count; at++)
        PUSH(bytes, (uint8_t)units.at[at]);
    const name *found = name_of(read->in, bytes.at ? bytes.at : (const uint8_t *)"", bytes.count);
    free(units.at);
    free(bytes.at);
    return found;
}

static text read_value(selector *read)
{
    if (!is_next(read, '"') && !is_next(read, '\''))
        return read_name(read);
    uint16_t quotation = *read->at++;
    const uint16_t *from = read->at;
    while (read->at < read->end && *read->at != quotation) {
        read->is_wrong = read->is_wrong || *read->at == '\\' || *read->at == '\n' || *read->at == '\f' || *read->at == '\r';
        read->at++;
    }
    text value = copied_text(from, (size_t)(read->at - from));
    read->is_wrong = !take_unit(read, quotation) || read->is_wrong;
    return value;
}

static void add_part(selector *read, part part)
{
    PUSH(read->parts, part);
}

static void read_attribute(selector *read)
{
    skip_spaces(read);
    part part = {HAS, known_name(read), 0, {NULL, 0}};
    skip_spaces(read);
    if (!is_next(read, ']')) {
        part.kind = VALUED;
        part.sign = read->at < read->end ? *read->at++ : 0;
        read->is_wrong = read->is_wrong || !part.sign || part.sign > 127 || !strchr("=~|^$*", part.sign);
        read->is_wrong = read->is_wrong || (part.sign != '=' && !take_unit(read, '='));
        skip_spaces(read);
        part.value = read_value(read);
        skip_spaces(read);
    }
    add_part(read, part);
    read->is_wrong = read->is_wrong || !take_unit(read, ']');
}

static bool take_word(selector *read, const char *word)
{
    size_t size = strlen(word);
    bool is = (size_t)(read->end - read->at) >= size;
    for (size_t at = 0; is && at < size; at++)
        is = read->at[at] == (uint8_t)word[at];
    read->at += is ? size : 0;
    return is;
}

static void read_compound(selector *read, bool is_inner);

static void read_pseudo(selector *read, bool is_inner)
{
    if (!is_inner && take_word(read, "not(")) {
        add_part(read, (part){NEGATED, NULL, 0, {NULL, 0}});
        skip_spaces(read);
        read_compound(read, true);
        skip_spaces(read);
        add_part(read, (part){NOT_END, NULL, 0, {NULL, 0}});
        read->is_wrong = read->is_wrong || !take_unit(read, ')');
        return;
    }
    text name = read_name(read);
    bool is_first = same_text(name, u"first-child", 11), is_last = same_text(name, u"last-child", 10);
    read->is_wrong = read->is_wrong || !(is_first || is_last);
    add_part(read, (part){is_first ? FIRST_CHILD : LAST_CHILD, NULL, 0, {NULL, 0}});
    free(name.at);
}

/* A compound: at least one part; a `*` is one that asks for nothing. */
static void read_compound(selector *read, bool is_inner)
{
    bool is_empty = !take_unit(read, '*');
    if (is_empty && is_at_name(read)) {
        add_part(read, (part){NAMED, known_name(read), 0, {NULL, 0}});
        is_empty = false;
    }
    while (!read->is_wrong) {
        if (take_unit(read, '#'))
            add_part(read, (part){VALUED, read->in->word_id, '=', read_name(read)});
        else if (take_unit(read, '.'))
            add_part(read, (part){VALUED, read->in->word_class, '~', read_name(read)});
        else if (take_unit(read, '['))
            read_attribute(read);
        else if (take_unit(read, ':'))
            read_pseudo(read, is_inner);
        else
            break;
        is_empty = false;
    }
    read->is_wrong = read->is_wrong || is_empty;
}

static void read_list(selector *read)
{
    uint16_t combinator = 0;
    skip_spaces(read);
    while (!read->is_wrong) {
        compound compound = {read->parts.count, 0, combinator};
        read_compound(read, false);
        compound.count = read->parts.count - compound.first;
        PUSH(read->compounds, compound);
        bool is_space = skip_spaces(read);
        if (read->at == read->end)
            return;
        combinator = is_space ? ' ' : 0;
        if (is_next(read, '>') || is_next(read, '+') || is_next(read, '~'))
            combinator = *read->at++;
        else if (take_unit(read, ','))
            combinator = 0;
        else
            read->is_wrong = read->is_wrong || !is_space;
        skip_spaces(read);
    }
}

static bool parse(standin *in, const uint16_t *units, size_t unit_count, selector *made)
{
    *made = (selector){.in = in, .at = units, .end = units + unit_count};
    read_list(made);
    return !made->is_wrong;
}

static void free_selector(selector *selector)
{
    for (size_t at = 0; at < selector->parts.count; at++)
        free(selector->parts.at[at].value.at);
    free(selector->parts.at);
    free(selector->compounds.at);
}

/* ---- matching */

static bool begins_at(text in, size_t from, text value)
{
    return from + value.count <= in.count && !memcmp(in.at + from, value.at, value.count * sizeof *value.at);
}

static bool has_word(text in, text word)
{
    for (size_t at = 0; at < word.count; at++)
        if (is_space(word.at[at]))
            return false;
    for (size_t from = 0; word.count && from + word.count <= in.count; from++)
        if (begins_at(in, from, word) && (!from || is_space(in.at[from - 1])) &&
            (from + word.count == in.count || is_space(in.at[from + word.count])))
            return true;
    return false;
}

static bool has_part(text in, text value)
{
    for (size_t from = 0; from + value.count <= in.count; from++)
        if (begins_at(in, from, value))
            return true;
    return false;
}

static bool is_valued(text in, uint16_t sign, text value)
{
    switch (sign) {
    case '=': return same_text(in, value.at, value.count);
    case '~': return has_word(in, value);
    case '|': return begins_at(in, 0, value) && (in.count == value.count || in.at[value.count] == '-');
    case '^': return value.count && begins_at(in, 0, value);
    case '$': return value.count && in.count >= value.count && begins_at(in, in.count - value.count, value);
    default: return value.count && has_part(in, value);
    }
}

static node *element_before(const node *at)
{
    for (at = at->previous; at && !is_of(at, KIND_ELEMENT);)
        at = at->previous;
    return (node *)at;
}

static node *element_after(const node *at)
{
    for (at = at->next; at && !is_of(at, KIND_ELEMENT);)
        at = at->next;
    return (node *)at;
}

static bool has_simple(const part *part, const node *element)
{
    attribute *found;
    switch (part->kind) {
    case NAMED: return element->name == part->name;
    case HAS: return attribute_of(element, part->name);
    case VALUED: return (found = attribute_of(element, part->name)) && is_valued(found->value, part->sign, part->value);
    case FIRST_CHILD: return !element_before(element);
    default: return !element_after(element);
    }
}

static bool fits(const selector *selector, const compound *compound, const node *element)
{
    bool is_inner = false, has_inner = true;
    for (size_t at = compound->first; at < compound->first + compound->count; at++) {
        const part *part = &selector->parts.at[at];
        if (part->kind == NEGATED) {
            is_inner = has_inner = true;
        } else if (part->kind == NOT_END) {
            if (has_inner)
                return false;
            is_inner = false;
        } else if (is_inner) {
            has_inner = has_inner && has_simple(part, element);
        } else if (!has_simple(part, element)) {
            return false;
        }
    }
    return true;
}

/* Whether the compounds up to one match an element and what stands around it. */
static bool matches_up_to(const selector *selector, size_t last, node *element)
{
    const compound *compound = &selector->compounds.at[last];
    if (!fits(selector, compound, element))
        return false;
    if (!compound->combinator)
        return true;
    bool is_above = compound->combinator == ' ' || compound->combinator == '>';
    bool is_once = compound->combinator == '>' || compound->combinator == '+';
    for (node *at = element; at;) {
        at = is_above ? at->parent : element_before(at);
        if (at && is_of(at, KIND_ELEMENT) && matches_up_to(selector, last - 1, at))
            return true;
        if (is_once)
            return false;
    }
    return false;
}

static bool matches(const selector *selector, node *element)
{
    for (size_t at = 0; at < selector->compounds.count; at++)
        if ((at + 1 == selector->compounds.count || !selector->compounds.at[at + 1].combinator) && matches_up_to(selector, at, element))
            return true;
    return false;
}

/* ---- calls */

uint32_t dom_query(owl_document *document, uint32_t owner, owl_node node, const uint16_t *units, size_t unit_count, const owl_node **nodes,
                   size_t *node_count)
{
    call this;
    selector selector;
    uint32_t status = begin(&this, document, owner, 1, &node);
    if (!status && is_of(this.nodes[0], KIND_DATA))
        status = OWL_WRONG_KIND;
    if (status)
        return status;
    bool is_right = parse(this.in, units, unit_count, &selector);
    for (struct node *at = is_right ? following(this.nodes[0], this.nodes[0]) : NULL; at; at = following(at, this.nodes[0]))
        if (is_of(at, KIND_ELEMENT) && matches(&selector, at))
            PUSH(this.in->nodes, shown(at));
    free_selector(&selector);
    if (!is_right)
        return OWL_SELECTOR;
    *nodes = this.in->nodes.at;
    *node_count = this.in->nodes.count;
    return OWL_OK;
}

uint32_t dom_matches(owl_document *document, uint32_t owner, owl_node element, const uint16_t *units, size_t unit_count, bool *does)
{
    call this;
    selector selector;
    uint32_t status = begin(&this, document, owner, 1, &element);
    if (!status && !is_of(this.nodes[0], KIND_ELEMENT))
        status = OWL_WRONG_KIND;
    if (status)
        return status;
    bool is_right = parse(this.in, units, unit_count, &selector), is_match = is_right && matches(&selector, this.nodes[0]);
    free_selector(&selector);
    if (is_right)
        *does = is_match;
    return is_right ? OWL_OK : OWL_SELECTOR;
}

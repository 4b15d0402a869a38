/* Makes the calls of commands that change nodes. reads.c and things.c have the others. */
#include "lines.h"

#define WHO &in->document, in->acts
#define FIRST node_of(in, read->nodes[0])
#define SECOND node_of(in, read->nodes[1])
#define THIRD node_of(in, read->nodes[2])
#define WORD read->words[0].at, read->words[0].size
#define UNITS read->units, read->unit_count
#define IF_DONE(say) (status ? status : (say))

owl_node node_of(const script *in, named node)
{
    owl_node found = {node.is_own ? in->acts : in->acts ? OWL_PAGE : 1, node.number};
    return found;
}

static uint32_t make(script *in, const line *read)
{
    owl_node made;
    uint32_t status = OWL_SYNTAX;
    switch (read->command) {
    case NEW_ELEMENT: status = dom_create_element(WHO, WORD, &made); break;
    case NEW_TEXT: status = dom_create_text(WHO, UNITS, &made); break;
    case NEW_COMMENT: status = dom_create_comment(WHO, UNITS, &made); break;
    case NEW_FRAGMENT: status = dom_create_fragment(WHO, &made); break;
    case NEW_DOCUMENT: status = dom_create_document(WHO, &made); break;
    case SPLIT: status = dom_split_text(WHO, FIRST, read->numbers[0], &made); break;
    default: break;
    }
    return IF_DONE(say_node(in, made));
}

/* Gives the component that was made its word, which the calls do not know, and says it. */
static uint32_t add_owner(script *in, uint32_t component)
{
    if (component != in->owner_count) {
        fprintf(stderr, "component %u is not the next owner\n", (unsigned)component);
        exit(1);
    }
    owner *owners = realloc(in->owners, (in->owner_count + 1) * sizeof *owners);
    if (!owners)
        return OWL_MEMORY;
    in->owners = owners;
    owner made = {.attached = 0}, *host = owners + in->acts;
    if (in->acts)
        snprintf(made.word, sizeof made.word, "%.*s.%u", MAX_WORD - 12, host->word, (unsigned)++host->attached);
    else
        snprintf(made.word, sizeof made.word, "c%u", (unsigned)++host->attached);
    fprintf(in->to, "%s ok %s\n", host->word, made.word);
    owners[in->owner_count++] = made;
    return OWL_OK;
}

static uint32_t change(script *in, const line *read)
{
    switch (read->command) {
    case APPEND: return dom_append(WHO, FIRST, SECOND);
    case INSERT: return dom_insert(WHO, FIRST, SECOND, THIRD);
    case REPLACE: return dom_replace(WHO, FIRST, SECOND, THIRD);
    case REMOVE: return dom_remove(WHO, FIRST);
    case ADOPT: return dom_adopt(WHO, FIRST, SECOND);
    case NORMALIZE: return dom_normalize(WHO, FIRST);
    case SET: return dom_set_attribute(WHO, FIRST, WORD, UNITS);
    case UNSET: return dom_remove_attribute(WHO, FIRST, WORD);
    case DATA: return dom_set_data(WHO, FIRST, UNITS);
    case REPLACE_DATA: return dom_replace_data(WHO, FIRST, read->numbers[0], read->numbers[1], UNITS);
    case SET_TEXT: return dom_set_text(WHO, FIRST, UNITS);
    default: return OWL_SYNTAX;
    }
}

uint32_t perform(script *in, const line *read)
{
    uint32_t component, status;
    switch (read->command) {
    case NEW_ELEMENT: case NEW_TEXT: case NEW_COMMENT: case NEW_FRAGMENT: case NEW_DOCUMENT: case SPLIT:
        return make(in, read);
    case ATTACH:
        status = dom_attach(WHO, FIRST, &component);
        return IF_DONE(add_owner(in, component));
    case APPEND: case INSERT: case REPLACE: case REMOVE: case ADOPT: case NORMALIZE: case SET: case UNSET: case DATA: case REPLACE_DATA: case SET_TEXT:
        status = change(in, read);
        return IF_DONE(say_done(in));
    case TREE: case ATTR: case PARENT: case OWNER_DOCUMENT: case CHILDREN: case CONTAINS: case CONNECTED: case SHADOW_ROOT: case SLOT_OF:
    case ASSIGNED: case QUERY: case MATCHES:
        return perform_read(in, read);
    default:
        return perform_on_things(in, read);
    }
}

/* The calls that make and change nodes, by lines (lines.h), and how a document is opened over lines. */
#include "lines.h"

#include <dlfcn.h>

/* ---- the document */

/* Finds what the library exports. */
static bool is_found(void *opened, library *library)
{
    static const char *const names[] = {"dom_session_new", "dom_session_line", "dom_session_finish", "dom_session_answer", "dom_session_drop"};
    void **places[] = {(void **)&library->new_session, (void **)&library->line, (void **)&library->finish, (void **)&library->answer,
                       (void **)&library->drop};
    bool is = opened;
    for (size_t at = 0; is && at < sizeof names / sizeof *names; at++)
        is = (*places[at] = dlsym(opened, names[at]));
    return is;
}

static lines *new_lines(owl_document *document)
{
    lines *made = document->is_open ? NULL : calloc(1, sizeof *made);
    if (made) {
        document->held = made;
        document->is_open = true;
    } else {
        PyErr_NoMemory();
    }
    return made;
}

/* Opens a document over the library that stands at a path. Where that is not there, the exception is set. */
bool lines_open(owl_document *document, const char *path)
{
    lines *made = new_lines(document);
    if (!made)
        return false;
    if (!is_found(dlopen(path, RTLD_NOW | RTLD_LOCAL), &made->library)) {
        PyErr_Format(PyExc_OSError, "%s: `tools/build library` proves and builds the library, or OWLANTIMONY names it", dlerror());
    } else if (made->library.new_session(&made->session)) {
        PyErr_NoMemory();
    } else {
        return true;
    }
    free(made);
    *document = (owl_document)OWL_DOCUMENT_INIT;
    return false;
}

/* Opens a document over an object with the methods of a Session. */
bool lines_open_over(owl_document *document, PyObject *object)
{
    lines *made = new_lines(document);
    if (made) {
        Py_INCREF(object);
        made->object = object;
    }
    return made;
}

/* Gives the next owner its word. */
bool lines_add_owner(owl_document *document, const char *word)
{
    lines *by = document->held;
    lines_owner *block = document->is_open ? realloc(by->owners, (by->owner_count + 1) * sizeof *block) : NULL;
    if (!block || strlen(word) >= sizeof block->word)
        return false;
    by->owners = block;
    block[by->owner_count] = (lines_owner){.letter = *word == 'p' ? 'n' : 'm'};
    strcpy(block[by->owner_count++].word, word);
    return true;
}

uint32_t dom_close(owl_document *document)
{
    lines *by = document->held;
    if (!document->is_open)
        return OWL_CLOSED;
    *document = (owl_document)OWL_DOCUMENT_INIT;
    if (!by->object)
        by->library.drop(&by->session);
    for (size_t at = 0; at < by->owner_count; at++)
        free(by->owners[at].known);
    Py_CLEAR(by->text);
    Py_CLEAR(by->object);
    free(by->owners);
    free(by->line);
    free(by->nodes);
    free(by->units);
    free(by);
    return OWL_OK;
}

/* ---- making nodes */

static uint32_t made(owl_document *document, uint32_t owner, uint32_t kind, uint32_t status, owl_node *node)
{
    lines *by = document->held;
    uint32_t number;
    if (status)
        return status;
    read_number(by->value, &number);
    known *of = known_of(by, owner, number);
    if (!of)
        return OWL_MEMORY;
    of->kind = (uint8_t)kind;
    of->parent = NONE;
    of->has_parent = true;
    *node = node_at(owner, number);
    return OWL_OK;
}

uint32_t dom_create_element(owl_document *document, uint32_t owner, const uint8_t *name, size_t name_size, owl_node *node)
{
    return made(document, owner, OWL_ELEMENT, run(document, owner, "new element %b", name, name_size), node);
}

uint32_t dom_create_text(owl_document *document, uint32_t owner, const uint16_t *units, size_t unit_count, owl_node *node)
{
    return made(document, owner, OWL_TEXT, run(document, owner, "new text %s", units, unit_count), node);
}

uint32_t dom_create_comment(owl_document *document, uint32_t owner, const uint16_t *units, size_t unit_count, owl_node *node)
{
    return made(document, owner, OWL_COMMENT, run(document, owner, "new comment %s", units, unit_count), node);
}

/* ---- changing trees */

/* A node has moved: of a fragment, or of a node of which the kind is not known, its children may have. */
static uint32_t moved(owl_document *document, uint32_t status, owl_node node, owl_node parent)
{
    lines *by = document->held;
    if (status)
        return status;
    lines_owner *owner = &by->owners[node.owner];
    uint8_t kind = node.number < owner->count ? owner->known[node.number].kind : 0;
    if (kind == OWL_ELEMENT || kind == OWL_TEXT || kind == OWL_COMMENT)
        forget_parent(owner, node.number);
    else
        forget_owner(owner);
    forget_children(owner, parent.number);
    return OWL_OK;
}

uint32_t dom_append(owl_document *document, uint32_t owner, owl_node parent, owl_node node)
{
    return moved(document, run(document, owner, "append %n %n", parent.number, node.number), node, parent);
}

uint32_t dom_insert(owl_document *document, uint32_t owner, owl_node parent, owl_node node, owl_node child)
{
    return moved(document, run(document, owner, "insert %n %n %n", parent.number, node.number, child.number), node, parent);
}

uint32_t dom_replace(owl_document *document, uint32_t owner, owl_node parent, owl_node node, owl_node child)
{
    uint32_t status = moved(document, run(document, owner, "replace %n %n %n", parent.number, node.number, child.number), node, parent);
    if (!status)
        forget_parent(&((lines *)document->held)->owners[owner], child.number);
    return status;
}

uint32_t dom_remove(owl_document *document, uint32_t owner, owl_node node)
{
    uint32_t status = run(document, owner, "remove %n", node.number);
    if (!status)
        forget_parent(&((lines *)document->held)->owners[owner], node.number);
    return status;
}

/* ---- attributes */

uint32_t dom_set_attribute(owl_document *document, uint32_t owner, owl_node element, const uint8_t *name, size_t name_size, const uint16_t *units,
                           size_t unit_count)
{
    return run(document, owner, "set %n %b %s", element.number, name, name_size, units, unit_count);
}

uint32_t dom_remove_attribute(owl_document *document, uint32_t owner, owl_node element, const uint8_t *name, size_t name_size)
{
    return run(document, owner, "unset %n %b", element.number, name, name_size);
}

uint32_t dom_get_attribute(owl_document *document, uint32_t owner, owl_node element, const uint8_t *name, size_t name_size, bool *has,
                           const uint16_t **units, size_t *unit_count)
{
    lines *by = document->held;
    uint32_t status = run(document, owner, "attr %n %b", element.number, name, name_size);
    if (status)
        return status;
    *has = *by->value == '"';
    *unit_count = 0;
    if (*has && !read_units(by, unit_count))
        return OWL_MEMORY;
    *units = by->units;
    return OWL_OK;
}

/* ---- selectors */

uint32_t dom_query(owl_document *document, uint32_t owner, owl_node node, const uint16_t *units, size_t unit_count, const owl_node **nodes,
                   size_t *node_count)
{
    lines *by = document->held;
    uint32_t status = run(document, owner, "query %n %s", node.number, units, unit_count);
    if (!status && !read_nodes(by, owner, node_count))
        status = OWL_MEMORY;
    if (!status)
        *nodes = by->nodes;
    return status;
}

uint32_t dom_matches(owl_document *document, uint32_t owner, owl_node element, const uint16_t *units, size_t unit_count, bool *does)
{
    uint32_t status = run(document, owner, "matches %n %s", element.number, units, unit_count);
    if (!status)
        *does = *((lines *)document->held)->value == 't';
    return status;
}

/* ---- what a node is */

/* Writes the kind and the name of a node alone: nodes ask for no more. */
uint32_t dom_describe(owl_document *document, uint32_t owner, owl_node node, owl_row *row)
{
    static const struct {
        const char *word;
        uint32_t kind;
    } kinds[] = {{"element", OWL_ELEMENT}, {"text", OWL_TEXT}, {"comment", OWL_COMMENT},
                 {"document", OWL_DOCUMENT}, {"fragment", OWL_FRAGMENT}, {"shadow", OWL_SHADOW_ROOT}};
    lines *by = document->held;
    uint32_t status = run(document, owner, "tree %n", node.number);
    if (status)
        return status;
    const char *word = by->value + strcspn(by->value, " \n") + 1, *name = word + strcspn(word, " )\n");
    *row = (owl_row){.node = node};
    if (word[-1] == '\n' || *name == '\n')
        return OWL_SYNTAX;
    for (size_t at = 0; at < sizeof kinds / sizeof *kinds; at++)
        if (!strncmp(word, kinds[at].word, strlen(kinds[at].word)))
            row->kind = kinds[at].kind;
    if (row->kind == OWL_ELEMENT) {
        row->name = (owl_span){0, (uint32_t)strcspn(name + 1, " )")};
        memcpy(by->name, name + 1, row->name.count < sizeof by->name ? row->name.count : 0);
    }
    known *of = known_of(by, owner, node.number);
    if (of)
        of->kind = (uint8_t)row->kind;
    return of ? OWL_OK : OWL_MEMORY;
}

/* Shows the bytes of the name that was described last. */
uint32_t dom_answer(owl_document *document, owl_answer *answer)
{
    if (!document->is_open)
        return OWL_CLOSED;
    *answer = (owl_answer){.bytes = ((lines *)document->held)->name};
    return OWL_OK;
}

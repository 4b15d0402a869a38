/* The nodes of one owner, by their numbers: their objects while these are held, and what is known of them. */
#include "engine.h"

#include <stdlib.h>
#include <string.h>

/* Begins a call of an owner: the session is usable, and the turn of another owner is ended, with its callbacks. */
bool begin(nodes *nodes)
{
    session *session = nodes->session;
    if (!is_usable(session))
        return false;
    if (!session->turn || session->turn == nodes->owner)
        return true;
    PyObject *done = PyObject_CallMethod(nodes->owner, "_begin", NULL);
    Py_XDECREF(done);
    return done && is_usable(session);
}

/* After an accepted command of an owner, which has the turn then. */
void take_turn(nodes *nodes)
{
#ifdef OVER_LINES
    if (nodes->session->turn == nodes->owner)
        return;
    Py_XDECREF(nodes->session->turn);
    Py_INCREF(nodes->owner);
    nodes->session->turn = nodes->owner;
#else
    (void)nodes;
#endif
}

void changed(nodes *nodes)
{
    take_turn(nodes);
    nodes->session->changes++;
}

/* Sets the exception of a refused command on up to three nodes, by the Python side, or of another status. */
PyObject *refused(nodes *nodes, uint32_t status, const char *word, PyObject *one, PyObject *two, PyObject *three)
{
    if (status >= OWL_MEMORY || PyErr_Occurred())
        return failed(status);
    PyObject *none = PyObject_CallMethod(nodes->owner, "_refused", "IsOOO", (unsigned)status, word, one ? one : Py_None, two ? two : Py_None,
                                         three ? three : Py_None);
    Py_XDECREF(none);
    return NULL;
}

#define MOST_NODES 1000000 /* of one owner */

entry *entry_of(nodes *nodes, uint32_t number)
{
    if (number >= MOST_NODES) {
        PyErr_SetString(PyExc_IndexError, "an owner has no more than a million nodes");
        return NULL;
    }
    if (number >= nodes->count) {
        uint32_t count = number + number / 2 + 64;
        entry *block = realloc(nodes->entries, count * sizeof *block);
        if (!block) {
            PyErr_NoMemory();
            return NULL;
        }
        memset(block + nodes->count, 0, (count - nodes->count) * sizeof *block);
        nodes->entries = block;
        nodes->count = count;
    }
    return &nodes->entries[number];
}

/* The node name of a kind that has no name of its own. */
const char *kind_name(uint32_t kind)
{
    switch (kind) {
    case OWL_TEXT: return "#text";
    case OWL_COMMENT: return "#comment";
    case OWL_DOCUMENT: return "#document";
    case OWL_FRAGMENT: return "#document-fragment";
    case OWL_SHADOW_ROOT: return "#shadow-root";
    default: return NULL;
    }
}

static bool note(nodes *nodes, uint32_t number, uint32_t kind, PyObject *name)
{
    entry *of = entry_of(nodes, number);
    if (!of || of->name)
        return of;
    if (name ? !PyUnicode_Check(name) : !kind_name(kind)) {
        PyErr_SetString(PyExc_TypeError, "a kind of node, and the name of an element");
        return false;
    }
    of->kind = (uint8_t)kind;
    of->name = name ? name : PyUnicode_InternFromString(kind_name(kind));
    if (name)
        Py_INCREF(name);
    return of->name;
}

/* Asks what a node is, where it is not known. */
bool describe(nodes *nodes, uint32_t number)
{
    owl_row row;
    owl_answer answer;
    entry *of = entry_of(nodes, number);
    if (!of || of->kind)
        return of;
    uint32_t status = dom_describe(&nodes->session->document, nodes->place, (owl_node){nodes->place, number}, &row);
    status = status ? status : dom_answer(&nodes->session->document, &answer);
    if (status)
        return refused(nodes, status, "tree", NULL, NULL, NULL);
    take_turn(nodes);
    PyObject *name = NULL;
    if (row.kind == OWL_ELEMENT && !(name = PyUnicode_FromStringAndSize((const char *)answer.bytes + row.name.at, row.name.count)))
        return false;
    if (name)
        PyUnicode_InternInPlace(&name);
    bool is = note(nodes, number, row.kind, name);
    Py_XDECREF(name);
    return is;
}

/* The object of a new node, or of one that has none. */
PyObject *new_object(nodes *nodes, owl_node shown, uint32_t kind, PyObject *name)
{
    if (!note(nodes, shown.number, kind, name))
        return NULL;
    node *made = (node *)PyType_GenericAlloc(type_of(kind), 0);
    if (!made)
        return NULL;
    Py_INCREF(nodes);
    made->nodes = nodes;
    made->number = shown.number;
    return nodes->entries[shown.number].object = (PyObject *)made;
}

/* The object of a node, which is one while it is held, or None. */
PyObject *object_of(nodes *nodes, owl_node shown)
{
    if (shown.owner == OWL_NONE.owner)
        Py_RETURN_NONE;
    entry *of = entry_of(nodes, shown.number);
    if (of && of->object) {
        Py_INCREF(of->object);
        return of->object;
    }
    if (!of || !describe(nodes, shown.number))
        return NULL;
    return new_object(nodes, shown, nodes->entries[shown.number].kind, nodes->entries[shown.number].name);
}

/* A list of the objects of nodes. The array is the engine's, and is read to its end before any other call: what is not known is asked for after that. */
PyObject *list_of(nodes *nodes, const owl_node *found, size_t count)
{
    PyObject *list = PyList_New((Py_ssize_t)count);
    owl_node *kept = list ? malloc((count + 1) * sizeof *kept) : NULL;
    if (!kept)
        return list ? PyErr_NoMemory() : NULL;
    memcpy(kept, found, count * sizeof *kept);
    for (size_t at = 0; list && at < count; at++) {
        PyObject *object = object_of(nodes, kept[at]);
        if (!object || PyList_SetItem(list, (Py_ssize_t)at, object))
            Py_CLEAR(list);
    }
    free(kept);
    return list;
}

/* The five neighbours of a node: asked for once, until the next change. */
const owl_links *links_of(nodes *nodes, uint32_t number)
{
    if (!begin(nodes))
        return NULL;
    entry *of = entry_of(nodes, number);
    if (!of)
        return NULL;
    if (of->changes != nodes->session->changes) {
        uint32_t status = dom_links(&nodes->session->document, nodes->place, (owl_node){nodes->place, number}, &of->links);
        if (status)
            return (const owl_links *)refused(nodes, status, "parent", of->object, NULL, NULL);
        take_turn(nodes);
        of->changes = nodes->session->changes;
    }
    return &of->links;
}

/* ---- what the Python owner asks */

static PyObject *make(PyTypeObject *type, PyObject *words, PyObject *named)
{
    PyObject *of, *owner, *beside;
    const char *word;
    (void)named;
    if (!PyArg_ParseTuple(words, "OOsO!", &of, &owner, &word, &PyDict_Type, &beside))
        return NULL;
    if (!is_session(of))
        return PyErr_Format(PyExc_TypeError, "no session: %R", of);
    nodes *made = (nodes *)PyType_GenericAlloc(type, 0);
    if (!made)
        return NULL;
    Py_INCREF(of);
    Py_INCREF(owner);
    Py_INCREF(beside);
    made->session = (session *)of;
    made->owner = owner;
    made->beside = beside;
    made->place = made->session->owner_count++;
    bool is = note(made, 0, made->place ? OWL_SHADOW_ROOT : OWL_DOCUMENT, NULL);
#ifdef OVER_LINES
    if (is && !(is = lines_add_owner(&made->session->document, word)))
        failed(made->session->document.is_open ? OWL_MEMORY : OWL_CLOSED);
#endif
    if (is)
        return (PyObject *)made;
    Py_DECREF(made);
    return NULL;
}

static int visit_nodes(PyObject *self, visitproc visit, void *arg)
{
    Py_VISIT(((nodes *)self)->session);
    Py_VISIT(((nodes *)self)->owner);
    Py_VISIT(((nodes *)self)->beside);
    Py_VISIT(Py_TYPE(self));
    return 0;
}

static int clear_nodes(PyObject *self)
{
    nodes *this = (nodes *)self;
    Py_CLEAR(this->owner);
    Py_CLEAR(this->beside);
    return 0;
}

static void free_nodes(PyObject *self)
{
    nodes *this = (nodes *)self;
    PyTypeObject *type = Py_TYPE(self);
    PyObject_GC_UnTrack(self);
    clear_nodes(self);
    Py_CLEAR(this->session);
    for (uint32_t at = 0; at < this->count; at++) {
        Py_XDECREF(this->entries[at].name);
        Py_XDECREF(this->entries[at].attributes);
    }
    free(this->entries);
    PyObject_GC_Del(self);
    Py_DECREF(type);
}

static PyObject *give_node(PyObject *self, PyObject *words)
{
    unsigned number, kind = 0;
    PyObject *name = NULL;
    if (!PyArg_ParseTuple(words, "I|IO", &number, &kind, &name) || !entry_of((nodes *)self, number) || (!kind && !begin((nodes *)self)))
        return NULL;
    owl_node shown = {((nodes *)self)->place, number};
    bool is_new = kind && !((nodes *)self)->entries[number].object;
    return is_new ? new_object((nodes *)self, shown, kind, name) : object_of((nodes *)self, shown);
}

static PyObject *give_kind(PyObject *self, PyObject *number)
{
    uint32_t at = (uint32_t)PyLong_AsUnsignedLong(number);
    if (PyErr_Occurred() || !entry_of((nodes *)self, at) || (!((nodes *)self)->entries[at].name && !(begin((nodes *)self) && describe((nodes *)self, at))))
        return NULL;
    Py_INCREF(((nodes *)self)->entries[at].name);
    return ((nodes *)self)->entries[at].name;
}

static PyObject *give_known_kind(PyObject *self, PyObject *number)
{
    uint32_t at = (uint32_t)PyLong_AsUnsignedLong(number);
    nodes *this = (nodes *)self;
    PyObject *known = at < this->count && this->entries[at].name ? this->entries[at].name : Py_None;
    if (PyErr_Occurred())
        return NULL;
    Py_INCREF(known);
    return known;
}

static PyObject *give_links(PyObject *self, PyObject *number)
{
    uint32_t at = (uint32_t)PyLong_AsUnsignedLong(number);
    const owl_links *links = PyErr_Occurred() ? NULL : links_of((nodes *)self, at);
    PyObject *made = links ? PyTuple_New(5) : NULL;
    const owl_node *each[] = {&links->parent, &links->first, &links->last, &links->previous, &links->next};
    for (Py_ssize_t side = 0; made && side < 5; side++)
        PyTuple_SetItem(made, side, PyLong_FromLong(each[side]->owner == OWL_NONE.owner ? -1 : (long)each[side]->number));
    return made;
}

/* Reads the children of a node by its number. False with an exception. */
static bool read_children(nodes *this, PyObject *number, const owl_node **found, size_t *count)
{
    uint32_t at = (uint32_t)PyLong_AsUnsignedLong(number);
    if (PyErr_Occurred() || !begin(this))
        return false;
    uint32_t status = dom_children(&this->session->document, this->place, (owl_node){this->place, at}, found, count);
    if (status)
        return refused(this, status, "children", NULL, NULL, NULL);
    take_turn(this);
    return true;
}

static PyObject *give_children(PyObject *self, PyObject *number)
{
    const owl_node *found;
    size_t count;
    return read_children((nodes *)self, number, &found, &count) ? list_of((nodes *)self, found, count) : NULL;
}

static PyObject *give_numbers(PyObject *self, PyObject *number)
{
    const owl_node *found;
    size_t count;
    PyObject *list = read_children((nodes *)self, number, &found, &count) ? PyList_New((Py_ssize_t)count) : NULL;
    for (size_t child = 0; list && child < count; child++)
        PyList_SetItem(list, (Py_ssize_t)child, PyLong_FromUnsignedLong(found[child].number));
    return list;
}

/* The elements below that match, or None where the text is refused. */
static PyObject *give_query(PyObject *self, PyObject *words)
{
    nodes *this = (nodes *)self;
    const owl_node *found;
    size_t count;
    unsigned number;
    PyObject *text;
    units units;
    if (!PyArg_ParseTuple(words, "IO", &number, &text) || !begin(this) || !units_of(text, &units))
        return NULL;
    uint32_t status = dom_query(&this->session->document, this->place, (owl_node){this->place, number}, units.at, units.count, &found, &count);
    drop_units(&units);
    if (status >= OWL_MEMORY)
        return failed(status);
    if (status)
        Py_RETURN_NONE;
    take_turn(this);
    return list_of(this, found, count);
}

static PyObject *give_element(PyObject *self, PyObject *name)
{
    return make_element((nodes *)self, name);
}

static PyObject *give_text(PyObject *self, PyObject *data)
{
    return make_data((nodes *)self, data, OWL_TEXT);
}

static PyObject *give_comment(PyObject *self, PyObject *data)
{
    return make_data((nodes *)self, data, OWL_COMMENT);
}

/* The list of the names of an element's attributes, as far as it is known, or None; and to set it. */
static PyObject *known_attributes(PyObject *self, PyObject *words)
{
    unsigned number;
    PyObject *list = NULL;
    nodes *this = (nodes *)self;
    if (!PyArg_ParseTuple(words, "I|O!", &number, &PyList_Type, &list) || !entry_of(this, number))
        return NULL;
    entry *of = &this->entries[number];
    if (of->is_bare && !list && !(of->attributes = PyList_New(0)))
        return NULL;
    of->is_bare = false;
    if (list) {
        Py_INCREF(list);
        Py_XDECREF(of->attributes);
        of->attributes = list;
    }
    PyObject *known = of->attributes ? of->attributes : Py_None;
    Py_INCREF(known);
    return known;
}

static PyObject *note_documents(PyObject *self, PyObject *none)
{
    (void)none;
    ((nodes *)self)->has_documents = true;
    Py_RETURN_NONE;
}

static PyMethodDef methods[] = {
    {"node", give_node, METH_VARARGS, "Give the object of a node by its number, and its kind where that is known."},
    {"kind", give_kind, METH_O, "Give the node name of a node."},
    {"known_kind", give_known_kind, METH_O, "Give the node name of a node, or None where it is not known yet."},
    {"links", give_links, METH_O, "Give the numbers of a node's parent, first and last child, and siblings; -1 where there is none."},
    {"children", give_children, METH_O, "Give a list of a node's children."},
    {"numbers", give_numbers, METH_O, "Give a list of the numbers of a node's children."},
    {"query", give_query, METH_VARARGS, "Give a list of the elements below a node that match, or None where that is refused."},
    {"make_element", give_element, METH_O, "Make an element."},
    {"make_text", give_text, METH_O, "Make a Text."},
    {"make_comment", give_comment, METH_O, "Make a Comment."},
    {"attributes", known_attributes, METH_VARARGS, "Give the known names of an element's attributes, or note them."},
    {"note_documents", note_documents, METH_NOARGS, "Note that the owner made another document."},
    {NULL, NULL, 0, NULL},
};

static PyType_Slot slots[] = {
    {Py_tp_doc, "The nodes of one owner by their numbers."},
    {Py_tp_new, make},
    {Py_tp_dealloc, free_nodes},
    {Py_tp_traverse, visit_nodes},
    {Py_tp_clear, clear_nodes},
    {Py_tp_methods, methods},
    {0, NULL},
};

PyType_Spec nodes_spec = {"owlantimony._engine.Nodes", sizeof(nodes), 0, Py_TPFLAGS_DEFAULT | Py_TPFLAGS_HAVE_GC, slots};

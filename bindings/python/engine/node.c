/* What all nodes have, and parents and children. */
#include "engine.h"

#include <stddef.h>
#include <structmember.h>

owl_node shown(const node *node)
{
    return (owl_node){node->nodes->place, node->number};
}

/* A node that is the owner's own; else the Python side sets the exception. */
node *own_node(nodes *nodes, PyObject *object)
{
    if (is_node(object) && ((node *)object)->nodes == nodes)
        return (node *)object;
    PyObject *name = PyObject_CallMethod(nodes->owner, "name_of", "O", object);
    Py_XDECREF(name);
    if (name)
        PyErr_Format(PyExc_TypeError, "no node: %R", object);
    return NULL;
}

int visit_node(PyObject *self, visitproc visit, void *arg)
{
    Py_VISIT(((node *)self)->nodes);
    Py_VISIT(Py_TYPE(self));
    return 0;
}

void free_node(PyObject *self)
{
    node *this = (node *)self;
    PyTypeObject *type = Py_TYPE(self);
    PyObject_GC_UnTrack(self);
    if (this->weak)
        PyObject_ClearWeakRefs(self);
    if (this->nodes) {
        this->nodes->entries[this->number].object = NULL;
        Py_DECREF(this->nodes);
    }
    PyObject_GC_Del(self);
    Py_DECREF(type);
}

/* ---- properties */

static PyObject *related(PyObject *self, size_t at)
{
    nodes *nodes = ((node *)self)->nodes;
    const owl_links *links = links_of(nodes, ((node *)self)->number);
    return links ? object_of(nodes, *(const owl_node *)((const char *)links + at)) : NULL;
}

#define RELATED(name, link)                                  \
    static PyObject *name(PyObject *self, void *none)        \
    {                                                        \
        (void)none;                                          \
        return related(self, offsetof(owl_links, link));     \
    }
RELATED(get_parent, parent)
RELATED(get_first, first)
RELATED(get_last, last)
RELATED(get_previous, previous)
RELATED(get_next, next)

static PyObject *get_node_name(PyObject *self, void *none)
{
    node *this = (node *)self;
    (void)none;
    if (!this->nodes->entries[this->number].kind && !(begin(this->nodes) && describe(this->nodes, this->number)))
        return NULL;
    Py_INCREF(this->nodes->entries[this->number].name);
    return this->nodes->entries[this->number].name;
}

static PyObject *get_owner(PyObject *self, void *none)
{
    PyObject *owner = ((node *)self)->nodes->owner;
    (void)none;
    if (!owner)
        return PyErr_Format(PyExc_AttributeError, "_owner");
    Py_INCREF(owner);
    return owner;
}

static PyObject *get_name(PyObject *self, void *none)
{
    (void)none;
    return PyUnicode_FromFormat("%c%u", ((node *)self)->nodes->place ? 'm' : 'n', ((node *)self)->number);
}

static PyObject *get_number(PyObject *self, void *none)
{
    (void)none;
    return PyLong_FromUnsignedLong(((node *)self)->number);
}

static PyGetSetDef properties[] = {
    {"parentNode", get_parent, NULL, "The parent, or None.", NULL},
    {"firstChild", get_first, NULL, "The first child, or None.", NULL},
    {"lastChild", get_last, NULL, "The last child, or None.", NULL},
    {"previousSibling", get_previous, NULL, "The sibling in front of this node, or None.", NULL},
    {"nextSibling", get_next, NULL, "The sibling after this node, or None.", NULL},
    {"nodeName", get_node_name, NULL, "The tag name of an element, and a name such as \"#text\" of another node.", NULL},
    {"_owner", get_owner, NULL, NULL, NULL},
    {"_name", get_name, NULL, NULL, NULL},
    {"_number", get_number, NULL, NULL, NULL},
    {NULL, NULL, NULL, NULL, NULL},
};

/* ---- methods */

static PyObject *insert(PyObject *self, PyObject *coming, PyObject *child)
{
    nodes *nodes = ((node *)self)->nodes;
    node *node = own_node(nodes, coming), *before = NULL;
    if (!node || (child && child != Py_None && !(before = own_node(nodes, child))) || !begin(nodes))
        return NULL;
    owl_document *document = &nodes->session->document;
    uint32_t status = before ? dom_insert(document, nodes->place, shown((struct node *)self), shown(node), shown(before))
                             : dom_append(document, nodes->place, shown((struct node *)self), shown(node));
    if (status)
        return refused(nodes, status, before ? "insert" : "append", self, coming, before ? child : NULL);
    changed(nodes);
    Py_INCREF(coming);
    return coming;
}

static PyObject *append_child(PyObject *self, PyObject *node)
{
    return insert(self, node, NULL);
}

static PyObject *insert_before(PyObject *self, PyObject *words, PyObject *named)
{
    static char *names[] = {"node", "child", NULL};
    PyObject *node, *child;
    return PyArg_ParseTupleAndKeywords(words, named, "OO", names, &node, &child) ? insert(self, node, child) : NULL;
}

static PyObject *replace_child(PyObject *self, PyObject *words, PyObject *named)
{
    static char *names[] = {"node", "child", NULL};
    nodes *nodes = ((node *)self)->nodes;
    PyObject *coming, *child;
    node *node, *old;
    if (!PyArg_ParseTupleAndKeywords(words, named, "OO", names, &coming, &child) || !(node = own_node(nodes, coming)) ||
        !(old = own_node(nodes, child)) || !begin(nodes))
        return NULL;
    uint32_t status = dom_replace(&nodes->session->document, nodes->place, shown((struct node *)self), shown(node), shown(old));
    if (status)
        return refused(nodes, status, "replace", self, coming, child);
    changed(nodes);
    Py_INCREF(child);
    return child;
}

/* Takes a node out of its parent. */
static bool leave(nodes *nodes, node *node)
{
    uint32_t status = begin(nodes) ? dom_remove(&nodes->session->document, nodes->place, shown(node)) : OWL_CLOSED;
    if (status)
        return refused(nodes, status, "remove", (PyObject *)node, NULL, NULL);
    changed(nodes);
    return true;
}

static PyObject *remove_child(PyObject *self, PyObject *child)
{
    nodes *nodes = ((node *)self)->nodes;
    node *node = own_node(nodes, child);
    const owl_links *links = node ? links_of(nodes, node->number) : NULL;
    if (!links)
        return NULL;
    if (links->parent.owner == OWL_NONE.owner || links->parent.number != ((struct node *)self)->number) {
        PyObject *class = exception("xml.dom", "NotFoundErr");
        PyErr_Format(class ? class : PyExc_ValueError, "not-found: %R is no child of %R", child, self);
        Py_XDECREF(class);
        return NULL;
    }
    if (!leave(nodes, node))
        return NULL;
    Py_INCREF(child);
    return child;
}

static PyObject *remove_self(PyObject *self, PyObject *none)
{
    (void)none;
    if (!leave(((node *)self)->nodes, (node *)self))
        return NULL;
    Py_RETURN_NONE;
}

static PyObject *has_children(PyObject *self, PyObject *none)
{
    const owl_links *links = links_of(((node *)self)->nodes, ((node *)self)->number);
    (void)none;
    return links ? PyBool_FromLong(links->first.owner != OWL_NONE.owner) : NULL;
}

static PyMethodDef methods[] = {
    {"appendChild", append_child, METH_O,
     "appendChild($self, node, /)\n--\n\nMake `node` the last child, and give it (DOM Standard, #dom-node-appendchild); a fragment gives its children.\n\n"
     "Raise HierarchyRequestErr where the Standard refuses it."},
    {"insertBefore", (PyCFunction)(void (*)(void))insert_before, METH_VARARGS | METH_KEYWORDS,
     "insertBefore($self, node, child)\n--\n\nInsert `node` before `child`, or last where that is None, and give it (DOM Standard, #dom-node-insertbefore).\n\n"
     "Raise HierarchyRequestErr or NotFoundErr where the Standard refuses it."},
    {"replaceChild", (PyCFunction)(void (*)(void))replace_child, METH_VARARGS | METH_KEYWORDS,
     "replaceChild($self, node, child)\n--\n\nPut `node` in the place of `child`, and give `child` (DOM Standard, #dom-node-replacechild).\n\n"
     "Raise HierarchyRequestErr or NotFoundErr where the Standard refuses it."},
    {"removeChild", remove_child, METH_O,
     "removeChild($self, child, /)\n--\n\nTake `child` out, and give it (DOM Standard, #dom-node-removechild). Raise NotFoundErr where it is no child."},
    {"hasChildNodes", has_children, METH_NOARGS, "hasChildNodes($self, /)\n--\n\nGive whether there are children."},
    {NULL, NULL, 0, NULL},
};

PyMethodDef child_methods[] = {
    {"remove", remove_self, METH_NOARGS, "remove($self, /)\n--\n\nLeave the parent, if there is one."},
    {NULL, NULL, 0, NULL},
};

static PyMemberDef members[] = {
    {"__weaklistoffset__", T_PYSSIZET, offsetof(node, weak), 1, NULL},
    {NULL, 0, 0, 0, NULL},
};

static PyObject *make(PyTypeObject *type, PyObject *words, PyObject *named)
{
    (void)type, (void)words, (void)named;
    return PyErr_Format(PyExc_TypeError, "nodes are made by a document or a component");
}

static PyType_Slot slots[] = {
    {Py_tp_new, make},
    {Py_tp_dealloc, free_node},
    {Py_tp_traverse, visit_node},
    {Py_tp_methods, methods},
    {Py_tp_members, members},
    {Py_tp_getset, properties},
    {0, NULL},
};

PyType_Spec node_spec = {"owlantimony._engine.Node", sizeof(node), 0, Py_TPFLAGS_DEFAULT | Py_TPFLAGS_BASETYPE | Py_TPFLAGS_HAVE_GC, slots};

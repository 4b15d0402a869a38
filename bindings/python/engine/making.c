/* Nodes that are made. */
#include "engine.h"

/* Hands a call to the Python owner, which does it by the other way, or raises what is wrong with it. */
static PyObject *otherwise(nodes *nodes, const char *method, PyObject *word, PyObject *kind)
{
    return PyObject_CallMethod(nodes->owner, method, kind ? "OO" : "O", kind ? kind : word, word);
}

static PyObject *made(nodes *nodes, uint32_t status, owl_node shown, uint32_t kind, PyObject *name)
{
    if (status)
        return failed(status);
    take_turn(nodes);
    PyObject *object = new_object(nodes, shown, kind, name);
    if (object && kind == OWL_ELEMENT)
        nodes->entries[shown.number].is_bare = true;
    return object;
}

PyObject *make_element(nodes *nodes, PyObject *name)
{
    Py_ssize_t size;
    owl_node shown;
    const char *bytes = begin(nodes) ? name_of(name, &size) : NULL;
    if (!bytes)
        return PyErr_Occurred() ? NULL : otherwise(nodes, "_make_element", name, NULL);
    uint32_t status = dom_create_element(&nodes->session->document, nodes->place, (const uint8_t *)bytes, (size_t)size, &shown);
    if (status && status < OWL_MEMORY)
        return otherwise(nodes, "_make_element", name, NULL);
    Py_INCREF(name);
    PyUnicode_InternInPlace(&name);
    PyObject *object = made(nodes, status, shown, OWL_ELEMENT, name);
    Py_DECREF(name);
    return object;
}

PyObject *make_data(nodes *nodes, PyObject *data, uint32_t kind)
{
    units units;
    owl_node shown;
    if (!begin(nodes) || !units_of(data, &units))
        return NULL;
    uint32_t status = kind == OWL_TEXT ? dom_create_text(&nodes->session->document, nodes->place, units.at, units.count, &shown)
                                       : dom_create_comment(&nodes->session->document, nodes->place, units.at, units.count, &shown);
    drop_units(&units);
    if (!status || status >= OWL_MEMORY)
        return made(nodes, status, shown, kind, NULL);
    PyObject *word = PyUnicode_FromString(kind_name(kind) + 1);
    PyObject *object = word ? otherwise(nodes, "_make_data", data, word) : NULL;
    Py_XDECREF(word);
    return object;
}

/* ---- what a document makes. A new node of an owner with several documents is adopted, by the Python side */

static PyObject *placed(PyObject *self, PyObject *made)
{
    if (!made || !((node *)self)->nodes->has_documents)
        return made;
    PyObject *object = PyObject_CallMethod(self, "_made", "O", made);
    Py_DECREF(made);
    return object;
}

static PyObject *create_element(PyObject *self, PyObject *name)
{
    return placed(self, make_element(((node *)self)->nodes, name));
}

static PyObject *create_text(PyObject *self, PyObject *data)
{
    return placed(self, make_data(((node *)self)->nodes, data, OWL_TEXT));
}

static PyObject *create_comment(PyObject *self, PyObject *data)
{
    return placed(self, make_data(((node *)self)->nodes, data, OWL_COMMENT));
}

PyMethodDef document_methods[] = {
    {"createElement", create_element, METH_O,
     "createElement($self, name, /)\n--\n\nMake an element. Raise InvalidCharacterErr for what is no name here: a letter or `_`, then letters, digits, `-` and `_`."},
    {"createTextNode", create_text, METH_O, "createTextNode($self, data, /)\n--\n\nMake a Text."},
    {"createComment", create_comment, METH_O, "createComment($self, data, /)\n--\n\nMake a Comment."},
    {NULL, NULL, 0, NULL},
};

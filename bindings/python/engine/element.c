/* What elements have: names and attributes. */
#include "engine.h"

static PyObject *get_tag_name(PyObject *self, void *none)
{
    node *this = (node *)self;
    (void)none;
    PyObject *name = this->nodes->entries[this->number].name;
    Py_INCREF(name);
    return name;
}

PyGetSetDef element_properties[] = {
    {"tagName", get_tag_name, NULL, "The name.", NULL},
    {"localName", get_tag_name, NULL, "The name: none has a prefix.", NULL},
    {NULL, NULL, NULL, NULL, NULL},
};

/* Whether an element is known to have no attribute of a name: 1, or 0, or -1 with an exception. */
static int is_without(const entry *of, PyObject *name)
{
    int has = of->attributes ? PySequence_Contains(of->attributes, name) : !of->is_bare;
    return has < 0 ? -1 : !has;
}

/* Reads an attribute. NULL with an exception, or Py_None where there is none. */
static PyObject *read_attribute(node *this, PyObject *name, bool wants_value)
{
    nodes *nodes = this->nodes;
    const uint16_t *units;
    size_t count;
    bool has;
    Py_ssize_t size;
    const char *bytes = begin(nodes) ? name_of(name, &size) : NULL;
    if (!bytes && PyErr_Occurred())
        return NULL;
    int is_absent = bytes ? is_without(&nodes->entries[this->number], name) : 1;
    if (is_absent < 0)
        return NULL;
    if (is_absent)
        Py_RETURN_NONE;
    uint32_t status =
        dom_get_attribute(&nodes->session->document, nodes->place, shown(this), (const uint8_t *)bytes, (size_t)size, &has, &units, &count);
    if (status)
        return refused(nodes, status, "attr", (PyObject *)this, name, NULL);
    take_turn(nodes);
    if (!has)
        Py_RETURN_NONE;
    return wants_value ? text_of(units, count) : PyBool_FromLong(1);
}

static PyObject *get_attribute(PyObject *self, PyObject *name)
{
    return read_attribute((node *)self, name, true);
}

static PyObject *has_attribute(PyObject *self, PyObject *name)
{
    PyObject *value = read_attribute((node *)self, name, false);
    if (value != Py_None)
        return value;
    Py_DECREF(value);
    Py_RETURN_FALSE;
}

/* Notes that an element has an attribute, and drops what is carried under its name. */
static bool note_attribute(nodes *nodes, node *this, PyObject *name)
{
    entry *of = &nodes->entries[this->number];
    if (of->is_bare && !(of->attributes = PyList_New(0)))
        return false;
    of->is_bare = false;
    if (of->attributes && is_without(of, name) && PyList_Append(of->attributes, name))
        return false;
    if (!PyDict_Size(nodes->beside))
        return true;
    PyObject *done = PyObject_CallMethod(nodes->owner, "_drop_carried_of", "OO", (PyObject *)this, name);
    Py_XDECREF(done);
    return done;
}

/* What can't be done here is done, or refused, by the Python owner. */
static PyObject *set_otherwise(node *this, PyObject *name, PyObject *value)
{
    return PyObject_CallMethod(this->nodes->owner, "_set_attribute", "OOO", (PyObject *)this, name, value);
}

static PyObject *set_attribute(PyObject *self, PyObject *words, PyObject *named)
{
    static char *names[] = {"name", "value", NULL};
    node *this = (node *)self;
    nodes *nodes = this->nodes;
    units units;
    Py_ssize_t size;
    PyObject *name, *value;
    if (!PyArg_ParseTupleAndKeywords(words, named, "OO", names, &name, &value) || !begin(nodes))
        return NULL;
    const char *bytes = name_of(name, &size);
    if (!bytes || !PyUnicode_Check(value))
        return set_otherwise(this, name, value);
    if (!units_of(value, &units))
        return NULL;
    uint32_t status = dom_set_attribute(&nodes->session->document, nodes->place, shown(this), (const uint8_t *)bytes, (size_t)size, units.at, units.count);
    drop_units(&units);
    if (status)
        return status < OWL_MEMORY ? set_otherwise(this, name, value) : failed(status);
    take_turn(nodes);
    if (!note_attribute(nodes, this, name))
        return NULL;
    Py_RETURN_NONE;
}

PyMethodDef element_methods[] = {
    {"getAttribute", get_attribute, METH_O, "getAttribute($self, name, /)\n--\n\nGive an attribute's value, and None where there is none."},
    {"hasAttribute", has_attribute, METH_O, "hasAttribute($self, name, /)\n--\n\nGive whether there is such an attribute."},
    {"setAttribute", (PyCFunction)(void (*)(void))set_attribute, METH_VARARGS | METH_KEYWORDS,
     "setAttribute($self, name, value)\n--\n\nGive an attribute a value; one that is there keeps its place. Raise InvalidCharacterErr for what is no name here.\n\n"
     "An attribute with this name that `owlantimony.html` carries beside the element is dropped."},
    {NULL, NULL, 0, NULL},
};

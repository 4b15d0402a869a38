/* The extension module owlantimony._engine: sessions and nodes over the engine's calls. The package sets on its types what is written in Python. */
#include "engine.h"

static PyTypeObject *session_type, *nodes_type;

/* The types of nodes by what they are: `bases` are places in this table. */
enum { NODE, PARENT, CHILD, DATA, ELEMENT, TEXT, COMMENT, DOCUMENT, FRAGMENT, SHADOW, TYPE_COUNT, NO_BASE = -1 };
static PyTypeObject *types[TYPE_COUNT];

PyTypeObject *type_of(uint32_t kind)
{
    switch (kind) {
    case OWL_TEXT: return types[TEXT];
    case OWL_COMMENT: return types[COMMENT];
    case OWL_DOCUMENT: return types[DOCUMENT];
    case OWL_FRAGMENT: return types[FRAGMENT];
    case OWL_SHADOW_ROOT: return types[SHADOW];
    default: return types[ELEMENT];
    }
}

bool is_node(PyObject *object)
{
    return PyObject_TypeCheck(object, types[NODE]);
}

bool is_session(PyObject *object)
{
    return PyObject_TypeCheck(object, session_type);
}

/* A class of a module, for an exception; NULL with one set where it is not there. */
PyObject *exception(const char *module, const char *name)
{
    PyObject *found = PyImport_ImportModule(module), *class = found ? PyObject_GetAttrString(found, name) : NULL;
    Py_XDECREF(found);
    return class;
}

/* Makes a type of nodes with what it has beside its bases. */
static PyTypeObject *new_type(const char *name, int one, int two, PyMethodDef *methods, PyGetSetDef *properties)
{
    PyType_Slot slots[] = {{Py_tp_dealloc, free_node}, {Py_tp_traverse, visit_node}, {0, NULL}, {0, NULL}, {0, NULL}};
    size_t count = 2;
    if (methods)
        slots[count++] = (PyType_Slot){Py_tp_methods, methods};
    if (properties)
        slots[count++] = (PyType_Slot){Py_tp_getset, properties};
    PyType_Spec spec = {name, sizeof(node), 0, Py_TPFLAGS_DEFAULT | Py_TPFLAGS_BASETYPE | Py_TPFLAGS_HAVE_GC, slots};
    PyObject *bases = two == NO_BASE ? PyTuple_Pack(1, types[one]) : PyTuple_Pack(2, types[one], types[two]);
    PyObject *made = bases ? PyType_FromSpecWithBases(&spec, bases) : NULL;
    Py_XDECREF(bases);
    return (PyTypeObject *)made;
}

static bool make_types(void)
{
    return (session_type = (PyTypeObject *)PyType_FromSpec(&session_spec)) && (nodes_type = (PyTypeObject *)PyType_FromSpec(&nodes_spec)) &&
           (types[NODE] = (PyTypeObject *)PyType_FromSpec(&node_spec)) &&
           (types[PARENT] = new_type("owlantimony._engine.ParentNode", NODE, NO_BASE, NULL, NULL)) &&
           (types[CHILD] = new_type("owlantimony._engine.ChildNode", NODE, NO_BASE, child_methods, NULL)) &&
           (types[DATA] = new_type("owlantimony._engine.CharacterData", CHILD, NO_BASE, NULL, NULL)) &&
           (types[ELEMENT] = new_type("owlantimony._engine.Element", PARENT, CHILD, element_methods, element_properties)) &&
           (types[TEXT] = new_type("owlantimony._engine.Text", DATA, NO_BASE, NULL, NULL)) &&
           (types[COMMENT] = new_type("owlantimony._engine.Comment", DATA, NO_BASE, NULL, NULL)) &&
           (types[DOCUMENT] = new_type("owlantimony._engine.Document", PARENT, NO_BASE, document_methods, NULL)) &&
           (types[FRAGMENT] = new_type("owlantimony._engine.DocumentFragment", PARENT, NO_BASE, NULL, NULL)) &&
           (types[SHADOW] = new_type("owlantimony._engine.ShadowRoot", FRAGMENT, NO_BASE, NULL, NULL));
}

static bool add(PyObject *module, const char *name, PyTypeObject *type)
{
    return !PyModule_AddObjectRef(module, name, (PyObject *)type);
}

#ifdef OVER_LINES
#define FUNCTIONS NULL
#else
extern PyMethodDef live_functions[]; /* ../calls/live.c */
#define FUNCTIONS live_functions
#endif

static struct PyModuleDef definition = {
    PyModuleDef_HEAD_INIT, "_engine", "Sessions and nodes over the engine's calls.", -1, FUNCTIONS, NULL, NULL, NULL, NULL,
};

PyMODINIT_FUNC PyInit__engine(void)
{
    static const char *const names[] = {"Node", "ParentNode", "ChildNode", "CharacterData", "Element",
                                        "Text", "Comment", "Document", "DocumentFragment", "ShadowRoot"};
    PyObject *module = make_types() ? PyModule_Create(&definition) : NULL;
    bool is = module && add(module, "Session", session_type) && add(module, "Nodes", nodes_type);
    for (size_t at = 0; is && at < TYPE_COUNT; at++)
        is = add(module, names[at], types[at]);
    if (is)
        return module;
    Py_XDECREF(module);
    return NULL;
}

/* What the files of the extension module owlantimony._engine share. It is written over the typed calls of ../../c/owlantimony_typed.h: lines.c has those that
 * the library does not export yet. All is in Python's stable ABI of 3.10. */
#ifndef OWLANTIMONY_ENGINE_H
#define OWLANTIMONY_ENGINE_H

#define PY_SSIZE_T_CLEAN
#define Py_LIMITED_API 0x030A0000
#include <Python.h>

#include <stdbool.h>

#include "owlantimony_typed.h"

/* A session: a document of the engine with all its owners. */
typedef struct session {
    PyObject_HEAD
    owl_document document;
    uint64_t changes;     /* grows with each change of trees: links that were read before it are read again */
    uint32_t owner_count;
    unsigned long thread;
    PyObject *turn; /* the Python owner who has the turn, or NULL */
} session;

/* What is known of a node by its number. */
typedef struct entry {
    PyObject *object;     /* borrowed: the node's object, while it is held */
    PyObject *name;       /* the node name, or NULL where it is not known */
    PyObject *attributes; /* a list of the names of an element's attributes, or NULL where they are not known */
    owl_links links;      /* as they were at `changes` */
    uint64_t changes;
    uint8_t kind;    /* 0 where it is not known */
    bool is_bare;    /* an element that got no attribute yet */
} entry;

/* The nodes of one owner. */
typedef struct nodes {
    PyObject_HEAD
    session *session;
    PyObject *owner;  /* the Python owner */
    PyObject *beside; /* its dictionary of what is carried beside nodes */
    entry *entries;
    uint32_t place, count;
    bool has_documents; /* the owner made more than its first one: a new node may have to be adopted */
} nodes;

/* A node. */
typedef struct node {
    PyObject_HEAD
    nodes *nodes;
    PyObject *weak;
    uint32_t number;
} node;

/* ---- module.c: types by kind, and exceptions by the names of modules and classes */
PyTypeObject *type_of(uint32_t kind);
bool is_node(PyObject *object);
bool is_session(PyObject *object);
PyObject *exception(const char *module, const char *name);

/* ---- session.c */
extern PyType_Spec session_spec;
bool is_usable(session *session);
void *failed(uint32_t status); /* sets the exception of a status that is no refusal */

/* ---- texts.c: strings of Python and code units */
typedef struct units {
    uint16_t *at;
    size_t count;
    uint16_t room[128]; /* short ones stand here */
} units;
bool units_of(PyObject *text, units *units);
void drop_units(units *units);
PyObject *text_of(const uint16_t *units, size_t count);
const char *name_of(PyObject *text, Py_ssize_t *size); /* NULL for what no element or attribute is called; no exception is set */

/* ---- nodes.c: nodes by number */
extern PyType_Spec nodes_spec;
bool begin(nodes *nodes);
entry *entry_of(nodes *nodes, uint32_t number);
const char *kind_name(uint32_t kind);
bool describe(nodes *nodes, uint32_t number);
PyObject *object_of(nodes *nodes, owl_node node);
PyObject *new_object(nodes *nodes, owl_node node, uint32_t kind, PyObject *name);
PyObject *list_of(nodes *nodes, const owl_node *found, size_t count);
const owl_links *links_of(nodes *nodes, uint32_t number);
PyObject *refused(nodes *nodes, uint32_t status, const char *word, PyObject *one, PyObject *two, PyObject *three);
void take_turn(nodes *nodes);
void changed(nodes *nodes);

/* ---- making.c, and node.c, element.c: what nodes have */
PyObject *make_element(nodes *nodes, PyObject *name);
PyObject *make_data(nodes *nodes, PyObject *data, uint32_t kind);
owl_node shown(const node *node);
node *own_node(nodes *nodes, PyObject *object);
extern PyType_Spec node_spec;
extern PyMethodDef parent_methods[], child_methods[], element_methods[], document_methods[];
extern PyGetSetDef element_properties[];
int visit_node(PyObject *self, visitproc visit, void *arg);
void free_node(PyObject *self);

#ifdef OVER_LINES
/* ---- lines.c, neighbours.c, commands.c */
bool lines_open(owl_document *document, const char *path);
bool lines_open_over(owl_document *document, PyObject *lines);
bool lines_add_owner(owl_document *document, const char *word);
uint32_t lines_run(owl_document *document, const char *line, size_t size, const char **answer, size_t *answer_size);
uint32_t lines_end(owl_document *document, const char **answer, size_t *answer_size);
bool lines_moves(const char *line, size_t size);
void lines_forget(owl_document *document);
#endif

#endif

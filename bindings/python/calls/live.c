/* What the extension module has over typed calls beside nodes: events whose callbacks run while they are under way, observers and microtasks. */
#include "engine.h"

/* ---- what is told, as tuples */

static PyObject *node_pair(owl_node node)
{
    if (node.owner == OWL_NONE.owner)
        Py_RETURN_NONE;
    return Py_BuildValue("II", node.owner, node.number);
}

static PyObject *node_pairs(const owl_answer *answer, owl_span span)
{
    PyObject *list = PyList_New((Py_ssize_t)span.count);
    for (uint32_t at = 0; list && at < span.count; at++)
        PyList_SetItem(list, (Py_ssize_t)at, node_pair(answer->nodes[span.at + at]));
    return list;
}

static PyObject *text_at(const owl_answer *answer, owl_span span)
{
    return PyUnicode_FromStringAndSize((const char *)answer->bytes + span.at, (Py_ssize_t)span.count);
}

static PyObject *event_told(const owl_answer *answer, const owl_delivery *told)
{
    return Py_BuildValue("IINNIINNNN", told->kind, told->owner, text_at(answer, told->label), text_at(answer, told->name), told->number, told->flags,
                         node_pair(told->target), node_pair(told->current), node_pair(told->related), node_pairs(answer, told->path));
}

static PyObject *record_told(const owl_answer *answer, const owl_delivery *told)
{
    PyObject *old = Py_None, *name = Py_None;
    if (told->has_old_value)
        old = text_of(answer->units + told->old_value.at, told->old_value.count);
    else
        Py_INCREF(old);
    if (told->kind == OWL_ATTRIBUTES)
        name = text_at(answer, told->name);
    else
        Py_INCREF(name);
    return Py_BuildValue("IIINNNNNNN", told->kind, told->owner, told->number, node_pair(told->target), node_pairs(answer, told->added),
                         node_pairs(answer, told->removed), node_pair(told->previous), node_pair(told->next), name, old);
}

static PyObject *told_in(session *session, owl_span span)
{
    owl_answer answer;
    uint32_t status = dom_answer(&session->document, &answer);
    PyObject *list = status ? failed(status) : PyList_New((Py_ssize_t)span.count);
    for (uint32_t at = 0; list && at < span.count; at++) {
        const owl_delivery *told = &answer.deliveries[span.at + at];
        PyObject *item = told->kind == OWL_EVENT       ? event_told(&answer, told)
                         : told->kind == OWL_MICROTASK ? Py_BuildValue("IIN", told->kind, told->owner, text_at(&answer, told->label))
                                                       : record_told(&answer, told);
        if (!item || PyList_SetItem(list, (Py_ssize_t)at, item))
            Py_CLEAR(list);
    }
    return list;
}

/* A status with what the callback that is due is told, or with how what was under way ended. */
static PyObject *went_on(session *session, uint32_t status, bool truth)
{
    owl_answer answer;
    if (status != OWL_CALL)
        return status == OWL_OK || status < OWL_MEMORY ? Py_BuildValue("IN", status, PyBool_FromLong(truth)) : failed(status);
    status = dom_answer(&session->document, &answer);
    PyObject *told = status ? failed(status) : told_in(session, answer.called);
    return told ? Py_BuildValue("IN", (unsigned)OWL_CALL, told) : NULL;
}

/* ---- functions of the module. Each takes a session first, which `is_usable`, and most an owner's place. */

static session *session_in(PyObject *object)
{
    if (!is_session(object)) {
        PyErr_Format(PyExc_TypeError, "no session: %R", object);
        return NULL;
    }
    return is_usable((session *)object) ? (session *)object : NULL;
}

static PyObject *dispatch(PyObject *module, PyObject *words)
{
    PyObject *of;
    unsigned place, number, flags, related_number = 0;
    int related = -1;
    const char *type;
    Py_ssize_t size;
    bool truth = false;
    (void)module;
    if (!PyArg_ParseTuple(words, "OIIs#I|iI", &of, &place, &number, &type, &size, &flags, &related, &related_number))
        return NULL;
    session *session = session_in(of);
    if (!session)
        return NULL;
    owl_node to = related < 0 ? OWL_NONE : (owl_node){(uint32_t)related, related_number};
    uint32_t status = dom_dispatch(&session->document, place, (owl_node){place, number}, (const uint8_t *)type, (size_t)size, flags, to, &truth);
    return went_on(session, status, truth);
}

static PyObject *give_back(PyObject *module, PyObject *words)
{
    PyObject *of;
    unsigned place;
    bool truth = false;
    (void)module;
    session *session = PyArg_ParseTuple(words, "OI", &of, &place) ? session_in(of) : NULL;
    if (!session)
        return NULL;
    uint32_t status = dom_give_back(&session->document, place, &truth);
    return went_on(session, status, truth);
}

static PyObject *checkpoint(PyObject *module, PyObject *of)
{
    (void)module;
    session *session = session_in(of);
    return session ? went_on(session, dom_checkpoint(&session->document), true) : NULL;
}

typedef uint32_t act(owl_document *document, uint32_t owner, uint32_t call);

static PyObject *acted(PyObject *words, act *act)
{
    PyObject *of;
    unsigned place, call;
    session *session = PyArg_ParseTuple(words, "OII", &of, &place, &call) ? session_in(of) : NULL;
    return session ? PyLong_FromUnsignedLong(act(&session->document, place, call)) : NULL;
}

static PyObject *prevent(PyObject *module, PyObject *words)
{
    (void)module;
    return acted(words, dom_prevent);
}

static PyObject *stop(PyObject *module, PyObject *words)
{
    (void)module;
    return acted(words, dom_stop);
}

static PyObject *stop_now(PyObject *module, PyObject *words)
{
    (void)module;
    return acted(words, dom_stop_now);
}

static PyObject *prevented(PyObject *module, PyObject *words)
{
    PyObject *of;
    unsigned place, call;
    bool is = false;
    (void)module;
    session *session = PyArg_ParseTuple(words, "OII", &of, &place, &call) ? session_in(of) : NULL;
    if (!session)
        return NULL;
    uint32_t status = dom_prevented(&session->document, place, call, &is);
    return Py_BuildValue("IN", status, PyBool_FromLong(is));
}

/* Adds a live listener, or removes one. */
static PyObject *set_listener(PyObject *words, bool is_added)
{
    PyObject *of;
    unsigned place, number, flags;
    const char *type, *label;
    Py_ssize_t type_size, label_size;
    if (!PyArg_ParseTuple(words, "OIIs#s#I", &of, &place, &number, &type, &type_size, &label, &label_size, &flags))
        return NULL;
    session *session = session_in(of);
    if (!session)
        return NULL;
    owl_node node = {place, number};
    const uint8_t *bytes[] = {(const uint8_t *)type, (const uint8_t *)label};
    uint32_t status =
        is_added ? dom_listen(&session->document, place, node, bytes[0], (size_t)type_size, bytes[1], (size_t)label_size, OWL_LIVE, flags)
                 : dom_unlisten(&session->document, place, node, bytes[0], (size_t)type_size, bytes[1], (size_t)label_size, flags);
    return PyLong_FromUnsignedLong(status);
}

static PyObject *listen(PyObject *module, PyObject *words)
{
    (void)module;
    return set_listener(words, true);
}

static PyObject *unlisten(PyObject *module, PyObject *words)
{
    (void)module;
    return set_listener(words, false);
}

static PyObject *queue(PyObject *module, PyObject *words)
{
    PyObject *of;
    unsigned place;
    const char *label;
    Py_ssize_t size;
    (void)module;
    session *session = PyArg_ParseTuple(words, "OIs#", &of, &place, &label, &size) ? session_in(of) : NULL;
    return session ? PyLong_FromUnsignedLong(dom_queue_microtask(&session->document, place, (const uint8_t *)label, (size_t)size, true)) : NULL;
}

static PyObject *address(PyObject *module, PyObject *of)
{
    (void)module;
    session *session = session_in(of);
    return session ? PyLong_FromVoidPtr(&session->document) : NULL;
}

/* The document's changes are made elsewhere too: links are read again. */
static PyObject *forget(PyObject *module, PyObject *of)
{
    (void)module;
    session *session = session_in(of);
    if (!session)
        return NULL;
    session->changes++;
    Py_RETURN_NONE;
}

PyMethodDef live_functions[] = {
    {"dispatch", dispatch, METH_VARARGS, "Fire an event: a status, and how it ended or what the callback that is due is told."},
    {"give_back", give_back, METH_VARARGS, "An owner's innermost callback is over: as dispatch."},
    {"checkpoint", checkpoint, METH_O, "Run the tasks: as dispatch."},
    {"prevent", prevent, METH_VARARGS, "Cancel the event of an owner's call."},
    {"stop", stop, METH_VARARGS, "Stop it."},
    {"stop_now", stop_now, METH_VARARGS, "Stop it at once."},
    {"prevented", prevented, METH_VARARGS, "Whether it is cancelled."},
    {"listen", listen, METH_VARARGS, "Add a live listener."},
    {"unlisten", unlisten, METH_VARARGS, "Remove a listener."},
    {"queue", queue, METH_VARARGS, "Queue a live microtask."},
    {"address", address, METH_O, "The address of the document."},
    {"forget", forget, METH_O, "Links are to be read again."},
    {NULL, NULL, 0, NULL},
};

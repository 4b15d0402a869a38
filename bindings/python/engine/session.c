/* Sessions. */
#include "engine.h"

/* Sets the exception of a status that is no refusal. */
void *failed(uint32_t status)
{
    bool is_closed = status == OWL_CLOSED;
    if (PyErr_Occurred())
        return NULL;
    PyObject *class = exception("owlantimony.session", is_closed ? "ClosedError" : "OutOfMemoryError");
    if (class)
        PyErr_SetString(class, is_closed ? "the session is closed" : "memory was refused to this call or an earlier one");
    Py_XDECREF(class);
    return NULL;
}

/* Whether a session is open and this is its thread; else the exception is set. */
bool is_usable(session *session)
{
    bool is_right_thread = session->thread == PyThread_get_thread_ident();
    if (is_right_thread && session->document.is_open)
        return true;
    PyObject *class = is_right_thread ? NULL : exception("owlantimony.session", "WrongThreadError");
    if (class)
        PyErr_SetString(class, "a session is used and closed by the thread that made it");
    Py_XDECREF(class);
    if (is_right_thread)
        failed(OWL_CLOSED);
    return false;
}

static PyObject *make(PyTypeObject *type, PyObject *words, PyObject *named)
{
    PyObject *over = NULL;
    if ((named && PyDict_Size(named)) || !PyArg_ParseTuple(words, "|O", &over))
        return PyErr_Occurred() ? NULL : PyErr_Format(PyExc_TypeError, "a session takes a path, or an object with the methods of one");
    session *made = (session *)PyType_GenericAlloc(type, 0);
    if (!made)
        return NULL;
    made->changes = 1;
    made->thread = PyThread_get_thread_ident();
#ifdef OVER_LINES
    const char *path = over && PyUnicode_Check(over) ? PyUnicode_AsUTF8AndSize(over, NULL) : NULL;
    bool is_open = over && (path ? lines_open(&made->document, path) : !PyErr_Occurred() && lines_open_over(&made->document, over));
#else
    bool is_open = !dom_open(&made->document);
#endif
    if (!is_open && !PyErr_Occurred())
        PyErr_NoMemory();
    if (is_open)
        return (PyObject *)made;
    Py_DECREF(made);
    return NULL;
}

static PyObject *close_session(PyObject *self, PyObject *none)
{
    session *this = (session *)self;
    (void)none;
    if (this->document.is_open && !is_usable(this))
        return NULL;
    Py_CLEAR(this->turn);
    dom_close(&this->document);
    Py_RETURN_NONE;
}

static void free_session(PyObject *self)
{
    session *this = (session *)self;
    PyTypeObject *type = Py_TYPE(self);
    PyObject_GC_UnTrack(self);
    Py_CLEAR(this->turn);
    if (this->thread == PyThread_get_thread_ident())
        dom_close(&this->document);
    else if (this->document.is_open)
        PyErr_WarnEx(PyExc_ResourceWarning, "a session was dropped by another thread than the one that made it, and is not freed", 1);
    PyObject_GC_Del(self);
    Py_DECREF(type);
}

static int visit_session(PyObject *self, visitproc visit, void *arg)
{
    Py_VISIT(((session *)self)->turn);
    Py_VISIT(Py_TYPE(self));
    return 0;
}

static int clear_session(PyObject *self)
{
    Py_CLEAR(((session *)self)->turn);
    return 0;
}

#ifdef OVER_LINES
/* The lines of a text, each of which ends in a line feed. */
static PyObject *lines_of(uint32_t status, const char *answer, size_t size)
{
    if (status)
        return failed(status);
    PyObject *text = PyUnicode_FromStringAndSize(answer, (Py_ssize_t)size), *lines = text ? PyUnicode_Splitlines(text, 0) : NULL;
    Py_XDECREF(text);
    return lines;
}

static PyObject *run_line(PyObject *self, PyObject *text)
{
    session *this = (session *)self;
    const char *answer;
    size_t answer_size;
    Py_ssize_t size;
    PyObject *coded = is_usable(this) ? PyUnicode_AsEncodedString(text, "utf-8", "surrogatepass") : NULL;
    char *line;
    if (!coded || PyBytes_AsStringAndSize(coded, &line, &size))
        return NULL;
    if (lines_moves(line, (size_t)size)) {
        lines_forget(&this->document);
        this->changes++;
    }
    uint32_t status = lines_run(&this->document, line, (size_t)size, &answer, &answer_size);
    Py_DECREF(coded);
    return lines_of(status, answer, answer_size);
}

static PyObject *finish(PyObject *self, PyObject *none)
{
    session *this = (session *)self;
    const char *answer;
    size_t size;
    (void)none;
    if (!is_usable(this))
        return NULL;
    uint32_t status = lines_end(&this->document, &answer, &size);
    return lines_of(status, answer, size);
}
#endif

static PyObject *get_turn(PyObject *self, void *none)
{
    PyObject *turn = ((session *)self)->turn ? ((session *)self)->turn : Py_None;
    (void)none;
    Py_INCREF(turn);
    return turn;
}

static int set_turn(PyObject *self, PyObject *turn, void *none)
{
    session *this = (session *)self;
    PyObject *old = this->turn;
    (void)none;
    this->turn = turn == Py_None ? NULL : turn;
    Py_XINCREF(this->turn);
    Py_XDECREF(old);
    return 0;
}

static PyMethodDef methods[] = {
#ifdef OVER_LINES
    {"line", run_line, METH_O, "Run a line, and give the lines that answer it, the reply last."},
    {"finish", finish, METH_NOARGS, "End the input, and give the lines of that."},
#endif
    {"close", close_session, METH_NOARGS, "Free the session. A closed session stays closed."},
    {NULL, NULL, 0, NULL},
};

static PyGetSetDef properties[] = {
    {"turn", get_turn, set_turn, "The owner who has the turn, or None.", NULL},
    {NULL, NULL, NULL, NULL, NULL},
};

static PyType_Slot slots[] = {
    {Py_tp_doc, "A session of the engine, over the library at a path or over an object with the methods of a Session."},
    {Py_tp_new, make},
    {Py_tp_dealloc, free_session},
    {Py_tp_traverse, visit_session},
    {Py_tp_clear, clear_session},
    {Py_tp_methods, methods},
    {Py_tp_getset, properties},
    {0, NULL},
};

PyType_Spec session_spec = {"owlantimony._engine.Session", sizeof(session), 0, Py_TPFLAGS_DEFAULT | Py_TPFLAGS_HAVE_GC, slots};

/* The most frequent calls of actions without ctypes, and without Python's steps around a call.
 *
 * A function of C is never interrupted by another thread of Python, by a handler of signals or by Ctrl-C, as long as it
 * runs nothing of Python. So an access is made here without the guardian's mutex, if no call is under way, nothing waits
 * and nothing has to be aborted first. Else, and for whatever isn't an ordinary answer, the guardian's methods in Python
 * do it. Where this file isn't built, plain.py stands in for it. */
#include "_call.h"

#include <string.h>

PyTypeObject *gate_type, *acting_type, *typed_type, *view_type, *place_type;

PyTypeObject *add_class(PyObject *module, PyType_Spec *spec, const char *name) {
    PyObject *made = PyType_FromSpec(spec);
    if (made == NULL || PyModule_AddObjectRef(module, name, made) < 0) return NULL;
    return (PyTypeObject *)made;
}

void end_object(PyObject *self) {
    PyTypeObject *type = Py_TYPE(self);
    ((freefunc)PyType_GetSlot(type, Py_tp_free))(self);
    Py_DECREF(type);
}

gate *gate_of(acting *it) {
    if (it->guardian == NULL) PyErr_SetString(PyExc_TypeError, "an action that was never begun");
    return (gate *)it->guardian;
}

/* ---- Numbers and texts. ---- */

int u32(PyObject *it, uint32_t *there) {
    unsigned long long number = PyLong_AsUnsignedLongLong(it);
    if (number > UINT32_MAX) {
        if (!PyErr_Occurred()) PyErr_Format(PyExc_OverflowError, "%S is not within 0 to 4294967295", it);
        return 0;
    }
    *there = (uint32_t)number;
    return 1;
}

int i64(PyObject *it, int64_t *there) {
    *there = PyLong_AsLongLong(it);
    return *there != -1 || !PyErr_Occurred();
}

/* The written form of a value: in `room`, or in the bytes that `kept` has. */
typedef struct {
    char room[SHORT];
    const char *at;
    Py_ssize_t size;
    PyObject *kept;
} text;

static void put_text(text *it, const char *words) {
    it->size = (Py_ssize_t)strlen(words);
    memcpy(it->room, words, (size_t)it->size);
}

/* Whether it is a short text in which nothing is escaped, which is written. */
static int write_simply(PyObject *value, text *it) {
    const char *words;
    if (!PyUnicode_CheckExact(value)) return 0;
    words = PyUnicode_AsUTF8AndSize(value, &it->size);
    if (words == NULL) return PyErr_Clear(), 0;
    if (it->size > SHORT - 2) return 0;
    if (memchr(words, '"', (size_t)it->size) || memchr(words, '\\', (size_t)it->size)) return 0;
    if (memchr(words, '\n', (size_t)it->size)) return 0;
    it->room[0] = '"';
    memcpy(it->room + 1, words, (size_t)it->size);
    it->room[it->size + 1] = '"';
    it->size += 2;
    return 1;
}

/* Writes a value, as `written` of values.py does, which the guardian calls for those that aren't simple. */
static int write_value(PyObject *guardian, PyObject *value, text *it) {
    char *words;
    it->kept = NULL, it->at = it->room;
    if (value == Py_None) return put_text(it, "null"), 1;
    if (write_simply(value, it)) return 1;
    it->kept = PyObject_CallMethod(guardian, "_written", "(O)", value);
    if (it->kept == NULL) return 0;
    if (PyBytes_AsStringAndSize(it->kept, &words, &it->size) < 0) {
        Py_CLEAR(it->kept);
        return 0;
    }
    it->at = words;
    return 1;
}

/* What a text of the library is: a text, nothing, or what the guardian reads of it. */
static PyObject *read_reply(PyObject *guardian, uint32_t status, const char *words, size_t size) {
    if (size > 1 && words[0] == '"' && !memchr(words, '\\', size)) {
        return PyUnicode_DecodeUTF8(words + 1, (Py_ssize_t)size - 2, NULL);
    }
    if (size == 4 && memcmp(words, "null", 4) == 0) Py_RETURN_NONE;
    return PyObject_CallMethod(guardian, "_read", "Is#", (unsigned int)status, words, (Py_ssize_t)size);
}

/* ---- A call that is made at once. ---- */

int is_free(gate *it) {
    return it->at != NULL && !it->is_busy && it->dropped != NULL && PyObject_Size(it->dropped) == 0;
}

/* The text that is kept. The call was made, so nothing but want of memory hinders it. */
static PyObject *reply_of(gate *it, uint32_t status) {
    char room[SHORT], *words = room;
    size_t size = 0;
    uint32_t told = it->reply(it->at, (uint8_t *)room, SHORT, &size);
    PyObject *read;
    if (told == TOO_SMALL) {
        words = PyMem_Malloc(size);
        told = words == NULL ? (uint32_t)NO_MEMORY : it->reply(it->at, (uint8_t *)words, size, &size);
    }
    if (told == DONE) {
        read = read_reply((PyObject *)it, status, words, size);
    } else {
        read = PyObject_CallMethod((PyObject *)it, "_fail", "(I)", (unsigned int)told);
    }
    if (words != room) PyMem_Free(words);
    return read;
}

/* An access whose action is live and known, and whose text is short. */
static PyObject *access_at_once(acting *self, uint32_t kind, uint32_t object, int64_t first, int64_t second,
                                const char *words, Py_ssize_t size) {
    gate *it = (gate *)self->guardian;
    int64_t number = 0;
    uint32_t status = it->call(it->at, kind, self->number, object, first, second, words, (size_t)size, &number);
    it->left--;
    if (status == DONE) Py_RETURN_NONE;
    if (status == NUMBER) return PyLong_FromLongLong(number);
    if (status == FLAG) return PyBool_FromLong(number != 0);
    if (status == VALUE || status == CONTENT) return reply_of(it, status);
    return PyObject_CallMethod((PyObject *)it, "_late", "OIL(IIILLy#)", self, (unsigned int)status, (long long)number,
                               (unsigned int)kind, self->number, (unsigned int)object, (long long)first,
                               (long long)second, words, size);
}

/* The same where it may have to wait, and for an object that is named in any way. */
PyObject *access_of(acting *self, uint32_t kind, PyObject *object, uint32_t number, int64_t first,
                           int64_t second, const char *words, Py_ssize_t size) {
    gate *it = (gate *)self->guardian;
    if (object == NULL && size < LONG && self->renewals == it->renewals && is_free(it)) {
        return access_at_once(self, kind, number, first, second, words, size);
    }
    if (object == NULL) {
        return PyObject_CallMethod((PyObject *)it, "_access_of", "OIILLy#", self, (unsigned int)kind,
                                   (unsigned int)number, (long long)first, (long long)second, words, size);
    }
    return PyObject_CallMethod((PyObject *)it, "_access_of", "OIOLLy#", self, (unsigned int)kind, object,
                               (long long)first, (long long)second, words, size);
}

/* The number of an object that is surely this guardian's; else the object is put there for the slow way. */
static uint32_t number_of(gate *it, PyObject *object, PyObject **other) {
    *other = NULL;
    if (PyObject_TypeCheck(object, typed_type) && ((typed *)object)->ids == it->ids) return ((typed *)object)->number;
    if (PyLong_CheckExact(object) || (PyObject *)Py_TYPE(object) == it->object_id) {
        unsigned long long plain = PyLong_AsUnsignedLongLong(object);
        if (plain <= UINT32_MAX) return (uint32_t)plain;
        PyErr_Clear();
    }
    *other = object;
    return 0;
}

/* ---- Acting: _ask(kind, object, first=0, second=0), _alter(kind, object, first, value), action[object]. ---- */

static PyObject *ask(PyObject *self, PyObject *const *given, Py_ssize_t count) {
    acting *it = (acting *)self;
    PyObject *other;
    int64_t first = 0, second = 0;
    uint32_t kind, number;
    if (count < 2 || count > 4) return PyErr_SetString(PyExc_TypeError, "_ask takes two to four arguments"), NULL;
    if (!u32(given[0], &kind)) return NULL;
    if (count > 2 && !i64(given[2], &first)) return NULL;
    if (count > 3 && !i64(given[3], &second)) return NULL;
    if (gate_of(it) == NULL) return NULL;
    number = number_of(gate_of(it), given[1], &other);
    return access_of(it, kind, other, number, first, second, "", 0);
}

/* Whether a change's value is an integer of 64 bits or a truth value: the change is by that number then. */
static int is_by_number(PyObject *value, uint32_t *kind, int64_t *second) {
    int beyond = 0;
    if (PyLong_CheckExact(value)) {
        *second = PyLong_AsLongLongAndOverflow(value, &beyond);
        if (!beyond) *kind = *kind == CHANGE_TAG ? CHANGE_TAG_INT : *kind + BY_INT;
        return !beyond;
    }
    if (value != Py_True && value != Py_False) return 0;
    *second = value == Py_True;
    *kind = *kind == CHANGE_TAG ? CHANGE_TAG_BOOL : *kind + BY_BOOL;
    return 1;
}

PyObject *alter_by(acting *it, uint32_t kind, PyObject *object, uint32_t number, int64_t first,
                          PyObject *value) {
    PyObject *answer;
    int64_t second;
    text words;
    if (is_by_number(value, &kind, &second)) return access_of(it, kind, object, number, first, second, "", 0);
    if (!write_value(it->guardian, value, &words)) return NULL;
    answer = access_of(it, kind, object, number, first, 0, words.at, words.size);
    Py_XDECREF(words.kept);
    return answer;
}

static PyObject *alter(PyObject *self, PyObject *const *given, Py_ssize_t count) {
    acting *it = (acting *)self;
    PyObject *other;
    int64_t first;
    uint32_t kind, number;
    if (count != 4) return PyErr_SetString(PyExc_TypeError, "_alter takes four arguments"), NULL;
    if (!u32(given[0], &kind) || !i64(given[2], &first)) return NULL;
    if (gate_of(it) == NULL) return NULL;
    number = number_of(gate_of(it), given[1], &other);
    return alter_by(it, kind, other, number, first, given[3]);
}

/* A view of the class that the object's shape has. */
static PyObject *view_of(PyObject *self, PyObject *object) {
    acting *it = (acting *)self;
    typed *of = (typed *)object;
    view *made;
    if (gate_of(it) == NULL) return NULL;
    if (!PyObject_TypeCheck(object, typed_type) || of->ids != ((gate *)it->guardian)->ids || of->view == NULL) {
        return PyObject_CallMethod(it->guardian, "_view_of", "OO", self, object);
    }
    made = (view *)PyType_GenericAlloc((PyTypeObject *)of->view, 0);
    if (made == NULL) return NULL;
    Py_INCREF(self), made->action = self;
    Py_INCREF(object), made->object = object;
    made->number = of->number;
    return (PyObject *)made;
}

/* _end_at_once(kind): whether it could be done. */
static PyObject *end_at_once(PyObject *self, PyObject *kind) {
    acting *it = (acting *)self;
    gate *guardian = gate_of(it);
    int64_t number = 0;
    uint32_t how, status;
    PyObject *key;
    if (guardian == NULL || !u32(kind, &how)) return NULL;
    if (it->renewals != guardian->renewals || !is_free(guardian)) Py_RETURN_FALSE;
    if (--guardian->left <= 0 && it->parent == Py_None) Py_RETURN_FALSE;
    key = PyLong_FromUnsignedLong(it->number);
    if (key == NULL) return NULL;
    status = guardian->call(guardian->at, how, it->number, 0, 0, 0, "", 0, &number);
    if (status == DONE) {
        it->is_ended = 1;
        if (PyDict_DelItem(guardian->live, key) < 0) PyErr_Clear();
    }
    Py_DECREF(key);
    if (status == DONE) Py_RETURN_TRUE;
    return PyObject_CallMethod((PyObject *)guardian, "_end_refused", "OIIL", self, (unsigned int)how,
                               (unsigned int)status, (long long)number);
}

/* An action: Acting(guardian, number, parent=None, is_nested=False, renewals=None). */
static PyObject *new_acting(PyTypeObject *type, PyObject *given, PyObject *named) {
    static char *names[] = {"guardian", "number", "parent", "is_nested", "renewals", NULL};
    PyObject *guardian, *parent = Py_None, *renewals = Py_None;
    unsigned int number;
    int is_nested = 0;
    acting *made;
    if (!PyArg_ParseTupleAndKeywords(given, named, "O!I|OpO", names, gate_type, &guardian, &number, &parent, &is_nested,
                                     &renewals)) {
        return NULL;
    }
    made = (acting *)PyType_GenericAlloc(type, 0);
    if (made == NULL) return NULL;
    Py_INCREF(guardian), made->guardian = guardian;
    Py_INCREF(parent), made->parent = parent;
    Py_INCREF(renewals), made->renewals = renewals;
    made->number = number, made->is_nested = (char)is_nested;
    return (PyObject *)made;
}

static int visit_acting(PyObject *self, visitproc visit, void *arg) {
    acting *it = (acting *)self;
    Py_VISIT(Py_TYPE(self));
    Py_VISIT(it->guardian);
    Py_VISIT(it->parent);
    Py_VISIT(it->loop);
    return 0;
}

static int clear_acting(PyObject *self) {
    acting *it = (acting *)self;
    Py_CLEAR(it->guardian);
    Py_CLEAR(it->parent);
    Py_CLEAR(it->loop);
    return 0;
}

static void end_acting(PyObject *self) {
    PyObject_GC_UnTrack(self);
    clear_acting(self);
    Py_CLEAR(((acting *)self)->renewals);
    end_object(self);
}

static PyMethodDef acting_methods[] = {
    {"_ask", (PyCFunction)(void (*)(void))ask, METH_FASTCALL, "Makes a query, or another access without a value."},
    {"_alter", (PyCFunction)(void (*)(void))alter, METH_FASTCALL, "Makes a change with a value."},
    {"_end_at_once", end_at_once, METH_O, "Commits or aborts, if nothing has to come before; whether it did."},
    {NULL, NULL, 0, NULL},
};

static PyMemberDef acting_members[] = {
    {"guardian", T_OBJECT_EX, offsetof(acting, guardian), READONLY, NULL},
    {"parent", T_OBJECT, offsetof(acting, parent), READONLY, NULL},
    {"_number", T_UINT, offsetof(acting, number), READONLY, NULL},
    {"_renewals", T_OBJECT, offsetof(acting, renewals), READONLY, NULL},
    {"_loop", T_OBJECT, offsetof(acting, loop), 0, NULL},
    {"_is_nested", T_BOOL, offsetof(acting, is_nested), READONLY, NULL},
    {"_is_ended", T_BOOL, offsetof(acting, is_ended), 0, NULL},
    {NULL, 0, 0, 0, NULL},
};

static PyType_Slot acting_slots[] = {
    {Py_tp_new, new_acting},
    {Py_tp_dealloc, end_acting},
    {Py_tp_traverse, visit_acting},
    {Py_tp_clear, clear_acting},
    {Py_tp_methods, acting_methods},
    {Py_tp_members, acting_members},
    {Py_mp_subscript, view_of},
    {0, NULL},
};

static PyType_Spec acting_spec = {
    "argus_guardian._call.Acting", sizeof(acting), 0, Py_TPFLAGS_DEFAULT | Py_TPFLAGS_BASETYPE | Py_TPFLAGS_HAVE_GC,
    acting_slots,
};

int add_acting(PyObject *module) {
    acting_type = add_class(module, &acting_spec, "Acting");
    return acting_type != NULL;
}

static PyMethodDef functions[] = {
    {"of", call_of, METH_O, "The function that calls argus_c_call at this address."},
    {NULL, NULL, 0, NULL},
};

static struct PyModuleDef module = {
    PyModuleDef_HEAD_INIT, "_call", "The most frequent calls, without ctypes.", -1, functions, NULL, NULL, NULL, NULL,
};

PyMODINIT_FUNC PyInit__call(void) {
    PyObject *made = PyModule_Create(&module);
    if (made != NULL && add_gate(made) && add_views(made) && add_acting(made)) return made;
    Py_XDECREF(made);
    return NULL;
}

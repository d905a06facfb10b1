/* `Gate`: what a guardian has in C, and the begin of actions. */
#include "_call.h"

/* The action is told when it is dropped, and noted as live. If there is no memory for that, it is aborted. */
static PyObject *note_begun(gate *it, acting *made) {
    enum { ABORT = 5 };
    int64_t number = 0;
    PyObject *key = PyLong_FromUnsignedLong(made->number), *watched = NULL;
    if (key != NULL) watched = PyWeakref_NewRef((PyObject *)made, it->drop);
    if (watched == NULL || PyDict_SetItem(it->live, key, watched) < 0) {
        it->call(it->at, ABORT, made->number, 0, 0, 0, "", 0, &number);
        Py_DECREF(made), made = NULL;
    }
    Py_XDECREF(key);
    Py_XDECREF(watched);
    return (PyObject *)made;
}

/* _begin_at_once(kind, parent): an action that has begun; None if something has to come before. */
static PyObject *begin_at_once(PyObject *self, PyObject *const *given, Py_ssize_t count) {
    gate *it = (gate *)self;
    acting *parent, *made;
    int64_t number = 0;
    uint32_t kind, status;
    if (count != 2) return PyErr_SetString(PyExc_TypeError, "_begin_at_once takes two arguments"), NULL;
    if (!u32(given[0], &kind)) return NULL;
    parent = PyObject_TypeCheck(given[1], acting_type) ? (acting *)given[1] : NULL;
    if (it->action_class == NULL || it->folds == NULL) Py_RETURN_NONE;
    made = (acting *)PyType_GenericAlloc((PyTypeObject *)it->action_class, 0);
    if (made == NULL) return NULL;
    /* To allocate it may have run something of Python; from here on nothing does. */
    if (!is_free(it) || (parent == NULL ? PyObject_Size(it->folds) != 0 : parent->renewals != it->renewals)) {
        Py_DECREF(made);
        Py_RETURN_NONE;
    }
    status = it->call(it->at, kind, parent == NULL ? 0 : parent->number, 0, 0, 0, "", 0, &number);
    if (status != ACTION) {
        Py_DECREF(made);
        return PyObject_CallMethod(self, "_begin_refused", "IIIL", (unsigned int)status, (unsigned int)kind,
                                   parent == NULL ? 0 : parent->number, (long long)number);
    }
    Py_INCREF(self), made->guardian = self;
    Py_INCREF(given[1]), made->parent = given[1];
    Py_XINCREF(it->renewals), made->renewals = it->renewals;
    made->number = (unsigned int)number, made->is_nested = kind == BEGIN_NESTED;
    it->begun = made->number + 1;
    it->left--;
    return note_begun(it, made);
}

/* _connect(call, reply, at, live, drop, dropped, ids, object_id, action_class): the first three are addresses. */
static PyObject *connect(PyObject *self, PyObject *given) {
    gate *it = (gate *)self;
    PyObject *call, *reply, *at, *kept[6];
    PyObject **fields[6] = {&it->live, &it->drop, &it->dropped, &it->ids, &it->object_id, &it->action_class};
    int place;
    if (!PyArg_ParseTuple(given, "OOOO!OOOO!O!", &call, &reply, &at, &PyDict_Type, &kept[0], &kept[1], &kept[2],
                          &kept[3], &PyType_Type, &kept[4], &PyType_Type, &kept[5])) {
        return NULL;
    }
    if (!PyType_IsSubtype((PyTypeObject *)kept[5], acting_type)) {
        return PyErr_SetString(PyExc_TypeError, "no class of actions"), NULL;
    }
    it->call = (library_call *)(uintptr_t)PyLong_AsVoidPtr(call);
    it->reply = (library_reply *)(uintptr_t)PyLong_AsVoidPtr(reply);
    it->at = PyLong_AsVoidPtr(at);
    if (PyErr_Occurred()) return NULL;
    for (place = 0; place < 6; place++) {
        Py_INCREF(kept[place]);
        Py_XDECREF(*fields[place]);
        *fields[place] = kept[place];
    }
    Py_RETURN_NONE;
}

static void end_gate(PyObject *self) {
    gate *it = (gate *)self;
    PyObject **fields[8] = {&it->live, &it->drop,      &it->dropped,      &it->ids,
                            &it->folds, &it->object_id, &it->action_class, &it->renewals};
    int place;
    for (place = 0; place < 8; place++) Py_CLEAR(*fields[place]);
    end_object(self);
}

static PyMethodDef gate_methods[] = {
    {"_connect", connect, METH_VARARGS, "Says where the library is, and what a call at once looks at."},
    {"_begin_at_once", (PyCFunction)(void (*)(void))begin_at_once, METH_FASTCALL, "Begins an action, or returns None."},
    {NULL, NULL, 0, NULL},
};

static PyMemberDef gate_members[] = {
    {"_busy", T_BOOL, offsetof(gate, is_busy), 0, NULL},
    {"_awaited", T_BOOL, offsetof(gate, is_awaited), 0, NULL},
    {"_folds", T_OBJECT_EX, offsetof(gate, folds), 0, NULL},
    {"_renewals", T_OBJECT_EX, offsetof(gate, renewals), 0, NULL},
    {"_left", T_LONGLONG, offsetof(gate, left), 0, NULL},
    {"_begun", T_UINT, offsetof(gate, begun), 0, NULL},
    {"_dropped", T_OBJECT_EX, offsetof(gate, dropped), READONLY, NULL},
    {"_object_id", T_OBJECT_EX, offsetof(gate, object_id), READONLY, NULL},
    {NULL, 0, 0, 0, NULL},
};

static PyType_Slot gate_slots[] = {
    {Py_tp_dealloc, end_gate}, {Py_tp_methods, gate_methods}, {Py_tp_members, gate_members}, {0, NULL},
};

static PyType_Spec gate_spec = {
    "argus_guardian._call.Gate", sizeof(gate), 0, Py_TPFLAGS_DEFAULT | Py_TPFLAGS_BASETYPE, gate_slots,
};

int add_gate(PyObject *module) {
    gate_type = add_class(module, &gate_spec, "Gate");
    return gate_type != NULL;
}

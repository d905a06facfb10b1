/* `Typed`, `View` and `Place`: objects by names, within actions, and their fields and tags. */
#include "_call.h"

/* Typed(ids, number, view): an object of the guardian that has these ids, and the class of its views. */
static PyObject *new_typed(PyTypeObject *type, PyObject *given, PyObject *named) {
    static char *names[] = {"ids", "number", "view", NULL};
    PyObject *ids, *of;
    unsigned int number;
    typed *made;
    if (!PyArg_ParseTupleAndKeywords(given, named, "OIO!", names, &ids, &number, &PyType_Type, &of)) return NULL;
    if (!PyType_IsSubtype((PyTypeObject *)of, view_type)) {
        return PyErr_SetString(PyExc_TypeError, "no class of views"), NULL;
    }
    made = (typed *)PyType_GenericAlloc(type, 0);
    if (made == NULL) return NULL;
    Py_INCREF(ids), made->ids = ids;
    Py_INCREF(of), made->view = of;
    made->number = number;
    return (PyObject *)made;
}

static void end_typed(PyObject *self) {
    Py_CLEAR(((typed *)self)->ids);
    Py_CLEAR(((typed *)self)->view);
    end_object(self);
}

static PyMemberDef typed_members[] = {
    {"_ids", T_OBJECT_EX, offsetof(typed, ids), READONLY, NULL},
    {"_view", T_OBJECT_EX, offsetof(typed, view), READONLY, NULL},
    {"_number", T_UINT, offsetof(typed, number), READONLY, NULL},
    {NULL, 0, 0, 0, NULL},
};

static PyType_Slot typed_slots[] = {
    {Py_tp_new, new_typed}, {Py_tp_dealloc, end_typed}, {Py_tp_members, typed_members}, {0, NULL},
};

static PyType_Spec typed_spec = {
    "argus_guardian._call.Typed", sizeof(typed), 0, Py_TPFLAGS_DEFAULT | Py_TPFLAGS_BASETYPE, typed_slots,
};

/* View(action, object, number): the object of this number, as the action has it. */
static PyObject *new_view(PyTypeObject *type, PyObject *given, PyObject *named) {
    static char *names[] = {"action", "object", "number", NULL};
    PyObject *action, *object;
    unsigned int number;
    view *made;
    if (!PyArg_ParseTupleAndKeywords(given, named, "O!OI", names, acting_type, &action, &object, &number)) return NULL;
    made = (view *)PyType_GenericAlloc(type, 0);
    if (made == NULL) return NULL;
    Py_INCREF(action), made->action = action;
    Py_INCREF(object), made->object = object;
    made->number = number;
    return (PyObject *)made;
}

static void end_view(PyObject *self) {
    Py_CLEAR(((view *)self)->action);
    Py_CLEAR(((view *)self)->object);
    end_object(self);
}

/* A field's name has no capital letter, so none hides these. */
static PyMemberDef view_members[] = {
    {"_View__action", T_OBJECT_EX, offsetof(view, action), READONLY, NULL},
    {"_View__object", T_OBJECT_EX, offsetof(view, object), READONLY, NULL},
    {"_View__number", T_UINT, offsetof(view, number), READONLY, NULL},
    {NULL, 0, 0, 0, NULL},
};

static PyType_Slot view_slots[] = {
    {Py_tp_new, new_view}, {Py_tp_dealloc, end_view}, {Py_tp_members, view_members}, {0, NULL},
};

static PyType_Spec view_spec = {
    "argus_guardian._call.View", sizeof(view), 0, Py_TPFLAGS_DEFAULT | Py_TPFLAGS_BASETYPE, view_slots,
};

/* Place(asking, changing, first, read=None, write=None): the kinds of its query and its change, its number, and what
 * makes of a value that is read, or that will be written, what it is with names, and without. */
static PyObject *new_place(PyTypeObject *type, PyObject *given, PyObject *named) {
    static char *names[] = {"asking", "changing", "first", "read", "write", NULL};
    PyObject *read = Py_None, *write = Py_None;
    unsigned int asking, changing;
    long long first;
    place *made;
    if (!PyArg_ParseTupleAndKeywords(given, named, "IIL|OO", names, &asking, &changing, &first, &read, &write)) {
        return NULL;
    }
    made = (place *)PyType_GenericAlloc(type, 0);
    if (made == NULL) return NULL;
    made->asking = asking, made->changing = changing, made->first = first;
    Py_INCREF(read), made->read = read;
    Py_INCREF(write), made->write = write;
    return (PyObject *)made;
}

static void end_place(PyObject *self) {
    Py_CLEAR(((place *)self)->read);
    Py_CLEAR(((place *)self)->write);
    end_object(self);
}

static PyObject *get_place(PyObject *self, PyObject *of, PyObject *type) {
    place *it = (place *)self;
    PyObject *plain, *read;
    acting *action;
    (void)type;
    if (of == NULL || !PyObject_TypeCheck(of, view_type)) return Py_INCREF(self), self;
    action = (acting *)((view *)of)->action;
    if (gate_of(action) == NULL) return NULL;
    plain = access_of(action, it->asking, NULL, ((view *)of)->number, it->first, 0, "", 0);
    if (plain == NULL || it->read == Py_None) return plain;
    read = PyObject_CallFunctionObjArgs(it->read, plain, NULL);
    Py_DECREF(plain);
    return read;
}

static int set_place(PyObject *self, PyObject *of, PyObject *value) {
    place *it = (place *)self;
    PyObject *plain, *done;
    acting *action;
    if (value == NULL || !PyObject_TypeCheck(of, view_type)) {
        return PyErr_SetString(PyExc_AttributeError, "a field isn't deleted"), -1;
    }
    action = (acting *)((view *)of)->action;
    if (gate_of(action) == NULL) return -1;
    if (it->write == Py_None) {
        plain = Py_NewRef(value);
    } else {
        plain = PyObject_CallFunctionObjArgs(it->write, value, NULL);
    }
    if (plain == NULL) return -1;
    done = alter_by(action, it->changing, NULL, ((view *)of)->number, it->first, plain);
    Py_DECREF(plain);
    Py_XDECREF(done);
    return done == NULL ? -1 : 0;
}

static PyType_Slot place_slots[] = {
    {Py_tp_new, new_place}, {Py_tp_dealloc, end_place}, {Py_tp_descr_get, get_place}, {Py_tp_descr_set, set_place},
    {0, NULL},
};

static PyType_Spec place_spec = {
    "argus_guardian._call.Place", sizeof(place), 0, Py_TPFLAGS_DEFAULT, place_slots,
};

int add_views(PyObject *module) {
    view_type = add_class(module, &view_spec, "View");
    typed_type = add_class(module, &typed_spec, "Typed");
    place_type = add_class(module, &place_spec, "Place");
    return view_type != NULL && typed_type != NULL && place_type != NULL;
}

/* argus_c_call for Python: what ctypes would do, in a fifth of the time, for calls that aren't made at once. */
#include "_call.h"

enum { ARGUMENTS = 7 };

/* None where it is done, an integer where that is the answer; else the status with its number. */
static PyObject *answer_of(uint32_t status, int64_t number) {
    if (status == DONE) Py_RETURN_NONE;
    if (status == NUMBER) return PyLong_FromLongLong(number);
    return Py_BuildValue("(IL)", (unsigned)status, (long long)number);
}

/* call(guardian, kind, action, object, first, second, text): what answer_of says. Of the function that is called the
 * address is the bound one, and the guardian is an address, too. */
static PyObject *call(PyObject *function, PyObject *const *given, Py_ssize_t count) {
    library_call *made = (library_call *)(uintptr_t)PyLong_AsVoidPtr(function);
    void *guardian;
    uint32_t kind, action, object, status;
    int64_t first, second, number = 0;
    char *text;
    Py_ssize_t size;
    if (count != ARGUMENTS) {
        PyErr_SetString(PyExc_TypeError, "call takes seven arguments");
        return NULL;
    }
    guardian = PyLong_AsVoidPtr(given[0]);
    /* With an exception set nothing more of Python may be called. */
    if (guardian == NULL && PyErr_Occurred()) return NULL;
    if (!u32(given[1], &kind) || !u32(given[2], &action) || !u32(given[3], &object)) return NULL;
    if (!i64(given[4], &first) || !i64(given[5], &second)) return NULL;
    if (PyBytes_AsStringAndSize(given[6], &text, &size) < 0) return NULL;
    if (size < LONG) {
        status = made(guardian, kind, action, object, first, second, text, (size_t)size, &number);
        return answer_of(status, number);
    }
    Py_BEGIN_ALLOW_THREADS
    status = made(guardian, kind, action, object, first, second, text, (size_t)size, &number);
    Py_END_ALLOW_THREADS
    return answer_of(status, number);
}

static PyMethodDef calling = {
    "call", (PyCFunction)(void (*)(void))call, METH_FASTCALL, "Calls argus_c_call: what it answers.",
};

/* of(address): `call`, of argus_c_call at this address. */
PyObject *call_of(PyObject *module, PyObject *address) {
    (void)module;
    if (PyLong_AsVoidPtr(address) == NULL) {
        if (!PyErr_Occurred()) PyErr_SetString(PyExc_ValueError, "no address");
        return NULL;
    }
    return PyCFunction_New(&calling, address);
}

/* What the files of the package in C have in common: what its classes have in C, and the calls that are made at once. */
#ifndef ARGUS_CALL_H
#define ARGUS_CALL_H

#define PY_SSIZE_T_CLEAN
#define Py_LIMITED_API 0x030A0000
#include <Python.h>
#include <structmember.h>

#include <stdint.h>

typedef uint32_t library_call(void *guardian, uint32_t kind, uint32_t action, uint32_t object, int64_t first,
                              int64_t second, const void *text, size_t text_size, int64_t *number);
typedef uint32_t library_reply(void *guardian, uint8_t *into, size_t room, size_t *size);

/* Of argus_status: those whose answer is given here. */
enum { DONE = 0, ACTION = 2, NUMBER = 3, FLAG = 4, VALUE = 5, CONTENT = 6, NO_MEMORY = 10, TOO_SMALL = 17 };

/* Of argus_kind: those that aren't said by the caller. The changes whose value is a number are so far behind those with a
 * text, but for CHANGE_TAG. */
enum { BEGIN_NESTED = 3, CHANGE_TAG = 28, CHANGE_TAG_INT = 34, CHANGE_TAG_BOOL = 39, BY_INT = 10, BY_BOOL = 15 };

/* A text of so many bytes is read before its call, and other threads of Python may go on meanwhile; and what is written
 * or read on the stack. */
enum { LONG = 1024, SHORT = 512 };

/* ---- What the classes of the package have in C, by the names that they have in Python. ---- */

/* A guardian: `Gate` of plain.py. */
typedef struct {
    PyObject_HEAD
    library_call *call;
    library_reply *reply;
    void *at;
    PyObject *dropped, *folds, *live, *drop, *ids, *object_id, *action_class, *renewals;
    unsigned int begun;
    long long left; /* calls, before it is looked whether there is much to fold */
    char is_busy, is_awaited;
} gate;

/* An action: `Acting`. */
typedef struct {
    PyObject_HEAD
    PyObject *guardian, *parent, *renewals, *loop;
    unsigned int number;
    char is_nested, is_ended;
} acting;

/* An object with a name and a type: `Typed`. */
typedef struct {
    PyObject_HEAD
    PyObject *ids, *view;
    unsigned int number;
} typed;

/* An object within an action: `View`. */
typedef struct {
    PyObject_HEAD
    PyObject *action, *object;
    unsigned int number;
} view;

/* A field or a tag of a view: `Place`. */
typedef struct {
    PyObject_HEAD
    unsigned int asking, changing;
    long long first;
    PyObject *read, *write;
} place;

extern PyTypeObject *gate_type, *acting_type, *typed_type, *view_type, *place_type;

/* Ends an object of a class of Python that stands on one of these. */
void end_object(PyObject *self);

/* The guardian of an action; an action that was never begun, or is being freed, has none: then an exception is set. */
gate *gate_of(acting *it);

/* Whether it is a number of 32 bits, which is put there. Where it isn't one, an exception is set. */
int u32(PyObject *it, uint32_t *there);

/* The same for a number of 64 bits, with a sign. */
int i64(PyObject *it, int64_t *there);

/* Whether no call is under way, and nothing waits or has to be aborted first. */
int is_free(gate *it);

/* An access to an object of this number, at once if that can be; to `object`, unless that is NULL, by the slow way. */
PyObject *access_of(acting *self, uint32_t kind, PyObject *object, uint32_t number, int64_t first, int64_t second,
                    const char *words, Py_ssize_t size);

/* The same with a value. */
PyObject *alter_by(acting *it, uint32_t kind, PyObject *object, uint32_t number, int64_t first, PyObject *value);

/* of(address): a function that calls argus_c_call at this address: of a guardian, a kind, an action, an object, two numbers
 * and a text. It returns what answer_of says. */
PyObject *call_of(PyObject *module, PyObject *address);

/* Each adds its classes to the module. */
int add_acting(PyObject *module);
int add_gate(PyObject *module);
int add_views(PyObject *module);

/* A class of this specification, which is added to the module under its last name; NULL with an exception. */
PyTypeObject *add_class(PyObject *module, PyType_Spec *spec, const char *name);

#endif

/* What crosses between Python and the library all the time, for a run: `_crossing.py` says what each function does, and does
 * the same without this module, by ctypes. It has nothing of the run: it reads and fills structs. It is tested, not proved.
 *
 * It is an extension of Python's stable ABI, from 3.10 on, and includes no header but pundewo.h, since the toolchain's compiler
 * has none: what it needs of Python is declared here. With PUNDEWO_PYTHON_H a compiler compares that with Python.h.
 */
#include "pundewo.h"

#ifdef PUNDEWO_PYTHON_H
#define Py_LIMITED_API 0x030a0000
#include <Python.h>
#else
typedef struct _object PyObject;
typedef ptrdiff_t Py_ssize_t;
typedef PyObject *(*PyCFunction)(PyObject *, PyObject *);
typedef struct PyMethodDef {
    const char *ml_name;
    PyCFunction ml_meth;
    int ml_flags;
    const char *ml_doc;
} PyMethodDef;
typedef struct PyModuleDef {
    struct {
        struct { Py_ssize_t count; void *type; } head;
        PyObject *(*init)(void);
        Py_ssize_t index;
        PyObject *copy;
    } m_base;
    const char *m_name;
    const char *m_doc;
    Py_ssize_t m_size;
    PyMethodDef *m_methods;
    void *m_slots, *m_traverse, *m_clear, *m_free;
} PyModuleDef;
typedef void (*PyCapsule_Destructor)(PyObject *);
#define METH_FASTCALL 0x0080
#define PYTHON_ABI_VERSION 3
#define PyModuleDef_HEAD_INIT {{1, NULL}, NULL, 0, NULL}
#define PyMODINIT_FUNC __attribute__((visibility("default"))) PyObject *
#endif

PyObject *PyModule_Create2(PyModuleDef *, int);
int PyModule_AddStringConstant(PyObject *, const char *, const char *);
PyObject *PyCapsule_New(void *, const char *, PyCapsule_Destructor);
void *PyCapsule_GetPointer(PyObject *, const char *);
PyObject *PyLong_FromLong(long);
PyObject *PyLong_FromLongLong(long long);
PyObject *PyLong_FromUnsignedLongLong(unsigned long long);
long long PyLong_AsLongLong(PyObject *);
unsigned long long PyLong_AsUnsignedLongLong(PyObject *);
void *PyLong_AsVoidPtr(PyObject *);
char *PyBytes_AsString(PyObject *);
Py_ssize_t PyBytes_Size(PyObject *);
PyObject *PyTuple_New(Py_ssize_t);
PyObject *PyTuple_GetItem(PyObject *, Py_ssize_t);
int PyTuple_SetItem(PyObject *, Py_ssize_t, PyObject *);
PyObject *PyDict_GetItemWithError(PyObject *, PyObject *);
int PyDict_SetItem(PyObject *, PyObject *, PyObject *);
int PyDict_DelItem(PyObject *, PyObject *);
PyObject *PyUnicode_InternFromString(const char *);
PyObject *PyObject_GetAttr(PyObject *, PyObject *);
int PyObject_SetAttr(PyObject *, PyObject *, PyObject *);
PyObject *PyObject_CallFunctionObjArgs(PyObject *, ...);
PyObject *PyObject_CallMethodObjArgs(PyObject *, PyObject *, ...);
double PyFloat_AsDouble(PyObject *);
Py_ssize_t PyList_Size(PyObject *);
PyObject *PyList_GetItem(PyObject *, Py_ssize_t);
int PyList_Append(PyObject *, PyObject *);
int PyList_SetItem(PyObject *, Py_ssize_t, PyObject *);
int PyList_SetSlice(PyObject *, Py_ssize_t, Py_ssize_t, PyObject *);
PyObject *PyObject_CallNoArgs(PyObject *);
int PyObject_IsTrue(PyObject *);
void *PyMem_Malloc(size_t);
void PyMem_Free(void *);
PyObject *PyErr_NoMemory(void);
PyObject *PyErr_Occurred(void);
void PyErr_SetString(PyObject *, const char *);
void Py_IncRef(PyObject *);
void Py_DecRef(PyObject *);
PyObject *PyImport_ImportModule(const char *);
#ifndef PUNDEWO_PYTHON_H
extern PyObject *PyExc_TypeError;
extern PyObject *PyExc_ValueError;
extern PyObject _Py_NoneStruct;
#define Py_None (&_Py_NoneStruct)
#endif

/* What a call returns if another thread uses the desk, and one more: the crew. What a step and `hear` return from here on: the code
 * of the call. How many letters a turn handles, and how many answers a crew takes at once. */
enum { BUSY = 254, FAILED = 1 << 16, BUDGET = 1024, MOST = 256 };

typedef PyObject *const *words;

/* A desk with its crew: where their handles are, where the jobs of a step are written, and what says whether another thread uses
 * them. `kept` are the values that have these. The kinds of messages are those of `_selection.py`. */
enum { MESSAGE = 1, ANSWER = 2, REQUEST = 3 };

typedef struct way {
    pt_desk *desk;
    pt_crew *crew;
    pt_job *rows;
    size_t most;
    PyObject *desk_is_used, *crew_is_used, *kept;
} way;

/* The library's calls. The shared library is the one that Python has loaded. */
static struct {
    uint32_t (*send)(pt_desk *, pt_pid, pt_pid, pt_body);
    uint32_t (*step)(pt_crew *, pt_desk *, uint32_t, pt_job *, size_t, size_t *, pt_turned *);
    uint32_t (*answer)(pt_crew *, const pt_answer *, size_t, size_t *);
    uint32_t (*ask)(pt_desk *, pt_pid, pt_pid, uint32_t, uint64_t, pt_call *);
    uint32_t (*reply)(pt_desk *, pt_pid, pt_request, uint32_t);
    uint32_t (*hear)(pt_desk *, pt_call *, pt_item, pt_heard *);
    uint32_t (*set_time)(pt_crew *, uint64_t);
    uint32_t (*loss_at)(pt_desk *, size_t, pt_loss *);
    uint32_t (*note_loss)(pt_crew *, pt_desk *, size_t);
    uint32_t (*next_loss)(pt_desk *);
} calls;

static const char NAME[] = "pundewo.way";

/* The names of what is read and written of Python's objects, and the clock. */
static PyObject *ROOM, *ASIDE, *BEHAVIOUR, *CX, *DOES, *WAITS, *HANDLE, *RUNNING, *PLACE, *EVENT, *SINCE, *MARK, *CLOCK, *BEGAN, *TIMED,
    *FAMILIES, *STIRS, *STEPS, *NUMBER, *FULL_AT;

static PyObject *wrong_count(void) {
    PyErr_SetString(PyExc_TypeError, "a function of pundewo's module got another number of arguments");
    return NULL;
}

/* Below 0: an exception. (no other thread runs while this one has Python's lock: so what is free stays so) */
static int is_used(PyObject *asked) {
    PyObject *said = PyObject_CallNoArgs(asked);
    if (said == NULL)
        return -1;
    int used = PyObject_IsTrue(said);
    Py_DecRef(said);
    return used;
}

static way *way_of(PyObject *word) {
    return PyCapsule_GetPointer(word, NAME);
}

/* The struct that these bytes begin with, or NULL with an exception. */
static const void *struct_of(PyObject *word, size_t size) {
    const char *bytes = PyBytes_AsString(word);
    if (bytes != NULL && (size_t)PyBytes_Size(word) < size) {
        PyErr_SetString(PyExc_ValueError, "a struct of pundewo's module is too short");
        return NULL;
    }
    return bytes;
}

/* What this number is the address of, or NULL with an exception. */
static void *place_of(PyObject *word) {
    void *place = PyLong_AsVoidPtr(word);
    if (place == NULL && !PyErr_Occurred())
        PyErr_SetString(PyExc_ValueError, "a struct of pundewo's module is nowhere");
    return place;
}

static void drop_way(PyObject *capsule) {
    way *it = way_of(capsule);
    Py_DecRef(it->desk_is_used);
    Py_DecRef(it->crew_is_used);
    Py_DecRef(it->kept);
    PyMem_Free(it);
}

/* use(..): where the calls of the library are, in the order of `calls`. */
static PyObject *use(PyObject *self, words word, Py_ssize_t count) {
    (void)self;
    void *at[sizeof calls / sizeof(void *)];
    if (count != sizeof at / sizeof *at)
        return wrong_count();
    for (Py_ssize_t place = 0; place < count; place++) {
        at[place] = place_of(word[place]);
        if (at[place] == NULL)
            return NULL;
    }
    __builtin_memcpy(&calls, at, sizeof calls);
    return PyLong_FromLong(0);
}

/* way(desk, crew, rows, most, desk_is_used, crew_is_used, kept) */
static PyObject *make_way(PyObject *self, words word, Py_ssize_t count) {
    (void)self;
    if (count != 7)
        return wrong_count();
    way *it = PyMem_Malloc(sizeof *it);
    if (it == NULL)
        return PyErr_NoMemory();
    it->desk = PyLong_AsVoidPtr(word[0]);
    it->crew = PyLong_AsVoidPtr(word[1]);
    it->rows = PyLong_AsVoidPtr(word[2]);
    it->most = PyLong_AsUnsignedLongLong(word[3]);
    PyObject *made = PyErr_Occurred() ? NULL : PyCapsule_New(it, NAME, drop_way);
    if (made == NULL) {
        PyMem_Free(it);
        return NULL;
    }
    it->desk_is_used = word[4], it->crew_is_used = word[5], it->kept = word[6];
    for (int place = 4; place < 7; place++)
        Py_IncRef(word[place]);
    return made;
}

/* send(way, sender, to, kind, number) */
static PyObject *send(PyObject *self, words word, Py_ssize_t count) {
    (void)self;
    if (count != 5)
        return wrong_count();
    const way *it = way_of(word[0]);
    const pt_pid *sender = it == NULL ? NULL : struct_of(word[1], sizeof *sender);
    const pt_pid *to = sender == NULL ? NULL : struct_of(word[2], sizeof *to);
    if (to == NULL)
        return NULL;
    pt_body body = {0};
    body.kind = (uint32_t)PyLong_AsLongLong(word[3]);
    body.num = body.kind == 0xffffffff ? -1 : PyLong_AsLongLong(word[4]);
    if (body.num == -1 && PyErr_Occurred())
        return NULL;
    int used = is_used(it->desk_is_used);
    if (used)
        return used < 0 ? NULL : PyLong_FromLong(BUSY);
    return PyLong_FromLong((long)calls.send(it->desk, *sender, *to, body));
}

/* Under which number the value of a message is kept that is a job, or 0 if more than its value is to be looked at. */
static int64_t key_of(const pt_job *job) {
    const pt_body *body = &job->item.body;
    if (job->code != PT_JOB_ITEM || job->item.code != PT_ITEM_USER)
        return 0;
    if (!body->has_who)
        return body->kind == MESSAGE ? body->num : 0;
    return body->kind == ANSWER ? -2 - 2 * (64 * body->num + job->pid.shard) : -1 - 2 * (64 * body->num + job->item.pid.shard);
}

/* A job: what it is, the tag of its process, the number of its value or 0, and its place. */
static PyObject *job_of(const pt_job *job, size_t place) {
    PyObject *made = PyTuple_New(4);
    if (made == NULL)
        return NULL;
    PyObject *words[] = {PyLong_FromLong(job->code), PyLong_FromUnsignedLongLong(job->tag),
        PyLong_FromLongLong(key_of(job)), PyLong_FromLong((long)place)};
    for (int word = 0; word < 4; word++)
        PyTuple_SetItem(made, word, words[word]);
    if (PyErr_Occurred()) {
        Py_DecRef(made);
        return NULL;
    }
    return made;
}

/* A step, at this time if that is not 0, whose jobs are added to the list, the last one first. It returns 1 if its turn did anything,
 * and twice the code at which that stopped; or else FAILED and the code of the call. Below 0: an exception. */
static long make_step(const way *it, PyObject *list, uint64_t now) {
    int used = is_used(it->desk_is_used);
    if (used)
        return used < 0 ? -1 : FAILED + BUSY;
    used = is_used(it->crew_is_used);
    if (used)
        return used < 0 ? -1 : FAILED + BUSY + 1;
    size_t jobs = 0;
    pt_turned turned = {0};
    uint32_t code = now == 0 ? PT_OK : calls.set_time(it->crew, now);
    if (code == PT_OK)
        code = calls.step(it->crew, it->desk, BUDGET, it->rows, it->most, &jobs, &turned);
    if (code != PT_OK)
        return FAILED + (long)code;
    for (size_t place = jobs; place-- > 0;) {
        PyObject *job = job_of(&it->rows[place], place);
        if (job == NULL)
            return -1;
        int failed = PyList_Append(list, job);
        Py_DecRef(job);
        if (failed)
            return -1;
    }
    return (turned.posted + turned.handled > 0) + 2 * (long)turned.stopped;
}

/* step(way, jobs, now) */
static PyObject *step(PyObject *self, words word, Py_ssize_t count) {
    (void)self;
    if (count != 3)
        return wrong_count();
    const way *it = way_of(word[0]);
    uint64_t now = it == NULL ? 0 : PyLong_AsUnsignedLongLong(word[2]);
    long said = it == NULL || PyErr_Occurred() ? -1 : make_step(it, word[1], now);
    return said < 0 ? NULL : PyLong_FromLong(said);
}

/* take_loss(way) */
static PyObject *take_loss(PyObject *self, words word, Py_ssize_t count) {
    (void)self;
    if (count != 1)
        return wrong_count();
    const way *it = way_of(word[0]);
    int used = it == NULL ? -1 : is_used(it->desk_is_used);
    if (!used)
        used = is_used(it->crew_is_used);
    if (used)
        return used < 0 ? NULL : PyLong_FromLong(0);
    pt_loss lost;
    uint32_t code = calls.loss_at(it->desk, 0, &lost);
    if (code == PT_NOTHING) {
        Py_IncRef(Py_None);
        return Py_None;
    }
    if (code != PT_OK || lost.items > 0 || calls.note_loss(it->crew, it->desk, 0) != PT_OK || calls.next_loss(it->desk) != PT_OK)
        return PyLong_FromLong(0);
    const uint32_t numbers[] = {lost.pid.shard, lost.pid.slot, lost.pid.version, lost.has_exited, lost.reason.code, lost.reason.number};
    PyObject *made = PyTuple_New(6);
    for (int place = 0; made != NULL && place < 6; place++) {
        PyObject *number = PyLong_FromLong((long)numbers[place]);
        if (number == NULL) {
            Py_DecRef(made);
            return NULL;
        }
        PyTuple_SetItem(made, place, number);
    }
    return made;
}

/* Tells the crew what processes do next. It returns the code of the call. Those that the crew has taken are not in the list any
 * more, nor is one behind them whose process is not running. Below 0: an exception. */
static long give(const way *it, PyObject *list) {
    Py_ssize_t given = PyList_Size(list);
    if (given < 0)
        return -1;
    pt_answer answers[MOST];
    size_t many = given < MOST ? (size_t)given : MOST, taken = 0;
    for (size_t place = 0; place < many; place++) {
        const void *bytes = struct_of(PyList_GetItem(list, (Py_ssize_t)place), sizeof *answers);
        if (bytes == NULL)
            return -1;
        __builtin_memcpy(&answers[place], bytes, sizeof *answers);
    }
    int used = is_used(it->crew_is_used);
    if (used)
        return used < 0 ? -1 : BUSY + 1;
    uint32_t code = calls.answer(it->crew, answers, many, &taken);
    if (code != PT_OK && code != PT_NOT_RUNNING)
        return (long)code;
    return PyList_SetSlice(list, 0, (Py_ssize_t)taken + (code != PT_OK), NULL);
}

/* answer(way, answers) */
static PyObject *answer(PyObject *self, words word, Py_ssize_t count) {
    (void)self;
    if (count != 2)
        return wrong_count();
    const way *it = way_of(word[0]);
    long code = it == NULL ? -1 : give(it, word[1]);
    return code < 0 ? NULL : PyLong_FromLong(code);
}

/* ask(way, call, client, server, kind, until): `call` is where the struct is written */
static PyObject *ask(PyObject *self, words word, Py_ssize_t count) {
    (void)self;
    if (count != 6)
        return wrong_count();
    const way *it = way_of(word[0]);
    pt_call *call = it == NULL ? NULL : place_of(word[1]);
    const pt_pid *client = call == NULL ? NULL : struct_of(word[2], sizeof *client);
    const pt_pid *server = client == NULL ? NULL : struct_of(word[3], sizeof *server);
    if (server == NULL)
        return NULL;
    long long kind = PyLong_AsLongLong(word[4]);
    uint64_t until = kind == -1 ? 0 : PyLong_AsUnsignedLongLong(word[5]);
    if (PyErr_Occurred())
        return NULL;
    int used = is_used(it->desk_is_used);
    if (used)
        return used < 0 ? NULL : PyLong_FromLong(BUSY);
    return PyLong_FromLong((long)calls.ask(it->desk, *client, *server, (uint32_t)kind, until, call));
}

/* reply(way, call): in the name of the server of the call */
static PyObject *reply(PyObject *self, words word, Py_ssize_t count) {
    (void)self;
    if (count != 2)
        return wrong_count();
    const way *it = way_of(word[0]);
    const pt_call *call = it == NULL ? NULL : place_of(word[1]);
    if (call == NULL)
        return NULL;
    int used = is_used(it->desk_is_used);
    if (used)
        return used < 0 ? NULL : PyLong_FromLong(BUSY);
    pt_request request = {.from = call->client, .asks = REQUEST, .number = (int64_t)call->monitor.number};
    return PyLong_FromLong((long)calls.reply(it->desk, call->server, request, ANSWER));
}

/* hear(way, call, item): `item` is where that is */
static PyObject *hear(PyObject *self, words word, Py_ssize_t count) {
    (void)self;
    if (count != 3)
        return wrong_count();
    const way *it = way_of(word[0]);
    pt_call *call = it == NULL ? NULL : place_of(word[1]);
    const pt_item *item = call == NULL ? NULL : place_of(word[2]);
    if (item == NULL)
        return NULL;
    int used = is_used(it->desk_is_used);
    if (used)
        return used < 0 ? NULL : PyLong_FromLong(FAILED + BUSY);
    pt_heard heard = {0};
    uint32_t code = calls.hear(it->desk, call, *item, &heard);
    return PyLong_FromLong(code == PT_OK ? (long)heard.code : FAILED + (long)code);
}

/* What a desk of a run is played with: `run` has the fields of the run, `told` how many jobs each desk has had. The handler that runs
 * began at the time `since`, and its job has the place `place`. `made` and `had` are the steps that were made here, and their jobs. */
typedef struct game {
    const way *way;
    PyObject *run, *seats, *payloads, *jobs, *answers, *waits, *told, *came, *place;
    Py_ssize_t desk;
    double since, mark, first, until;
    long long steps, made, had, full_at;
    int is_timed, is_running;
} game;

/* What a process is to be told. */
typedef struct told {
    PyObject *seat, *key, *value, *place;
} told;

/* What comes of a job: an exception; it is not for this module, or more is to be done of it; it is told. */
enum { RAISED = -1, ELSE, DONE };

/* A field of the run that is a number. */
static long long field(const game *it, PyObject *name) {
    PyObject *value = PyDict_GetItemWithError(it->run, name);
    return value == NULL ? 0 : PyLong_AsLongLong(value);
}

static int is_none(PyObject *of, PyObject *name) {
    PyObject *value = PyObject_GetAttr(of, name);
    if (value == NULL)
        return RAISED;
    Py_DecRef(value);
    return value == Py_None ? DONE : ELSE;
}

/* Reads the time: the next handler begins. */
static int begin(game *it, PyObject *now) {
    if (now == NULL)
        return RAISED;
    int failed = PyDict_SetItem(it->run, SINCE, now);
    it->since = PyFloat_AsDouble(now);
    Py_DecRef(now);
    return failed ? RAISED : DONE;
}

/* Finds what the last job is, if it is an item of a process that neither chooses nor is bounded, and its value, if that is a message
 * or a request. */
static int find(const game *it, Py_ssize_t last, told *what) {
    PyObject *job = PyList_GetItem(it->jobs, last);
    long code = job == NULL ? -1 : (long)PyLong_AsLongLong(PyTuple_GetItem(job, 0));
    if (code != PT_JOB_ITEM)
        return PyErr_Occurred() ? RAISED : ELSE;
    what->key = PyTuple_GetItem(job, 2), what->place = PyTuple_GetItem(job, 3);
    what->seat = PyDict_GetItemWithError(it->seats, PyTuple_GetItem(job, 1));
    long long key = PyLong_AsLongLong(what->key);
    /* (the answer of a call has an even key below 0, and what is no message has 0) */
    what->value = key > 0 || key & 1 ? PyDict_GetItemWithError(it->payloads, what->key) : NULL;
    if (PyErr_Occurred())
        return RAISED;
    int is_free = what->seat == NULL ? ELSE : is_none(what->seat, ROOM);
    return is_free == DONE ? is_none(what->seat, ASIDE) : is_free;
}

/* Notes whose job the last one is, and takes that. What is no plain message is what the run says that came: None, if it is nothing
 * to its process. The caller has the process and the value from then on. */
static int take(game *it, Py_ssize_t last, told *what) {
    PyObject *key = what->key;
    Py_IncRef(what->seat);
    Py_IncRef(key);
    /* (small numbers are the same objects) */
    int failed = PyDict_SetItem(it->run, RUNNING, what->seat) || (what->place != it->place && PyDict_SetItem(it->run, PLACE, what->place));
    it->place = what->place;
    it->is_running = !failed;
    if (what->value != NULL) {
        Py_IncRef(what->value);
        failed = failed || PyDict_DelItem(it->payloads, key) || PyList_SetSlice(it->jobs, last, last + 1, NULL);
    } else {
        failed = failed || PyList_SetSlice(it->jobs, last, last + 1, NULL);
        what->value = failed ? NULL : PyObject_CallFunctionObjArgs(it->came, what->seat, key, it->place, NULL);
    }
    Py_DecRef(key);
    if (what->value != NULL && !failed && (what->value == Py_None || !PyDict_SetItem(it->run, EVENT, what->value)))
        return DONE;
    Py_DecRef(what->seat);
    if (what->value != NULL)
        Py_DecRef(what->value);
    return RAISED;
}

/* What the handler of the process returns. */
static PyObject *handle(const told *what) {
    PyObject *behaviour = PyObject_GetAttr(what->seat, BEHAVIOUR);
    PyObject *cx = behaviour == NULL ? NULL : PyObject_GetAttr(what->seat, CX);
    PyObject *next = cx == NULL ? NULL : PyObject_CallMethodObjArgs(behaviour, HANDLE, cx, what->value, NULL);
    if (behaviour != NULL)
        Py_DecRef(behaviour);
    if (cx != NULL)
        Py_DecRef(cx);
    return next;
}

/* Its process waits for whatever comes, since it returned None, unless it chooses now. If it ran longer than each handler before,
 * that is to be noted. */
static int wait(game *it, const told *what) {
    int is_free = is_none(what->seat, ASIDE);
    PyObject *now = is_free == DONE ? PyObject_CallNoArgs(CLOCK) : NULL;
    if (now == NULL)
        return is_free == DONE ? RAISED : is_free;
    if (PyFloat_AsDouble(now) - it->since > it->mark) {
        Py_DecRef(now);
        return ELSE;
    }
    PyObject *does = begin(it, now) == RAISED ? NULL : PyObject_GetAttr(what->seat, DOES);
    if (does != NULL)
        Py_DecRef(does);
    if (does == NULL || (does != it->waits && PyObject_SetAttr(what->seat, DOES, it->waits)))
        return RAISED;
    PyObject *answer = PyObject_GetAttr(what->seat, WAITS);
    int failed = answer == NULL || PyList_Append(it->answers, answer);
    if (answer != NULL)
        Py_DecRef(answer);
    return failed ? RAISED : DONE;
}

/* Tells the process of the last job what it is to be told. If its handler returned what is to be looked at, that is `next`. */
static int tell(game *it, Py_ssize_t last, PyObject **next) {
    told what;
    int is = find(it, last, &what);
    int is_message = is == DONE && PyLong_AsLongLong(what.key) > 0;
    if (is == DONE)
        is = take(it, last, &what);
    if (is != DONE)
        return is;
    if (what.value != Py_None) {
        *next = handle(&what);
        is = *next == NULL ? RAISED : *next == Py_None ? wait(it, &what) : ELSE;
    }
    it->is_running = is != DONE;
    Py_DecRef(what.seat);
    Py_DecRef(what.value);
    if (is != ELSE && *next != NULL) {
        Py_DecRef(*next);
        *next = NULL;
    }
    /* (a request that nobody has any more is unanswered) */
    return is == DONE && !is_message && PyDict_SetItem(it->run, EVENT, Py_None) ? RAISED : is;
}

/* Tells of the jobs as many as it can: all of them, if it returns DONE. */
static int tell_all(game *it, PyObject **next) {
    Py_ssize_t left;
    int is = DONE;
    while (is == DONE && (left = PyList_Size(it->jobs)) > 0)
        is = tell(it, left - 1, next);
    return is;
}

/* Whether nothing but a step is to be done now, and no journal is to be looked at. */
static int may_step(const game *it) {
    if (it->made >= it->steps || it->since > it->until)
        return ELSE;
    PyObject *stirs = PyDict_GetItemWithError(it->run, STIRS), *told = PyList_GetItem(it->told, it->desk);
    int is = stirs != NULL && told != NULL && !PyObject_IsTrue(stirs)
        && field(it, NUMBER) + PyLong_AsLongLong(told) + it->had < it->full_at;
    return PyErr_Occurred() ? RAISED : is ? DONE : ELSE;
}

/* Tells of the jobs what it can, and as long as that is all of them, and nothing else is to be done, makes a step more. What the last
 * step said is `said`, if it had no job, or its turn stopped. */
static int play_on(game *it, PyObject **next, long *said) {
    for (;;) {
        int is = tell_all(it, next);
        if (is == DONE)
            is = may_step(it);
        if (is != DONE)
            return is;
        while (PyList_Size(it->answers) > 0)
            if (give(it->way, it->answers))
                return PyErr_Occurred() ? RAISED : ELSE;
        *said = make_step(it->way, it->jobs, it->is_timed ? (uint64_t)((it->since - it->first) * 1e6) : 0);
        if (*said < 0)
            return RAISED;
        Py_ssize_t jobs = PyList_Size(it->jobs);
        it->made++, it->had += jobs;
        if (jobs == 0 || *said > 1)
            return ELSE;
        *said = -1;
    }
}

/* Counts the steps that were made here, and their jobs, and says that no handler runs, if none does. (maybe with an exception) */
static int end_play(const game *it) {
    int failed = 0;
    if (it->made > 0) {
        PyObject *told = PyList_GetItem(it->told, it->desk), *steps = PyDict_GetItemWithError(it->run, STEPS);
        told = told == NULL ? NULL : PyLong_FromLongLong(PyLong_AsLongLong(told) + it->had);
        steps = steps == NULL ? NULL : PyLong_FromLongLong(PyLong_AsLongLong(steps) + it->made);
        failed = told == NULL || steps == NULL || PyList_SetItem(it->told, it->desk, told) || PyDict_SetItem(it->run, STEPS, steps);
        if (steps != NULL)
            Py_DecRef(steps);
    }
    if (!it->is_running)
        failed |= PyDict_SetItem(it->run, RUNNING, Py_None) || PyDict_SetItem(it->run, EVENT, Py_None);
    return failed ? RAISED : DONE;
}

/* What is to be known of the run before it is played. */
static int begin_play(game *it, PyObject *const *of) {
    it->way = way_of(of[0]);
    if (it->way == NULL)
        return RAISED;
    it->run = of[1], it->seats = of[2], it->payloads = of[3], it->jobs = of[4], it->answers = of[5], it->waits = of[6], it->told = of[7];
    it->desk = PyLong_AsLongLong(of[8]), it->came = of[9];
    PyObject *mark = PyDict_GetItemWithError(it->run, MARK), *first = PyDict_GetItemWithError(it->run, BEGAN);
    it->mark = mark == NULL ? 0 : PyFloat_AsDouble(mark);
    it->first = first == NULL ? 0 : PyFloat_AsDouble(first);
    it->full_at = field(it, FULL_AT);
    it->is_timed = field(it, TIMED) || field(it, FAMILIES);
    return PyErr_Occurred() ? RAISED : begin(it, PyObject_CallNoArgs(CLOCK));
}

/* play((way, run, seats, payloads, jobs, answers, waits, told, desk, came), steps, until): `_crossing.py` says what it does */
static PyObject *play(PyObject *self, words word, Py_ssize_t count) {
    (void)self;
    if (count != 3)
        return wrong_count();
    PyObject *of[10], *next = NULL;
    for (int place = 0; place < 10; place++)
        if ((of[place] = PyTuple_GetItem(word[0], place)) == NULL)
            return NULL;
    game it = {.steps = PyLong_AsLongLong(word[1]), .until = PyFloat_AsDouble(word[2])};
    long said = -1;
    if (PyErr_Occurred() || begin_play(&it, of) == RAISED)
        return NULL;
    int is = play_on(&it, &next, &said);
    if (end_play(&it) == RAISED)
        is = RAISED;
    /* (with an exception nothing is returned) */
    if (is == RAISED && next != NULL) {
        Py_DecRef(next);
        return NULL;
    }
    return is == RAISED || next != NULL ? next : PyLong_FromLong(said);
}

#define FAST(function) ((PyCFunction)(void (*)(void))(function))

static PyMethodDef functions[] = {
    {"use", FAST(use), METH_FASTCALL, NULL},
    {"way", FAST(make_way), METH_FASTCALL, NULL},
    {"send", FAST(send), METH_FASTCALL, NULL},
    {"step", FAST(step), METH_FASTCALL, NULL},
    {"answer", FAST(answer), METH_FASTCALL, NULL},
    {"ask", FAST(ask), METH_FASTCALL, NULL},
    {"reply", FAST(reply), METH_FASTCALL, NULL},
    {"hear", FAST(hear), METH_FASTCALL, NULL},
    {"play", FAST(play), METH_FASTCALL, NULL},
    {"take_loss", FAST(take_loss), METH_FASTCALL, NULL},
    {NULL, NULL, 0, NULL},
};

static PyModuleDef module = {
    .m_base = PyModuleDef_HEAD_INIT, .m_name = "pundewo_native", .m_doc = NULL, .m_size = -1, .m_methods = functions,
};

/* Finds the names and the clock. Below 0: an exception. */
static int find_names(void) {
    static const struct { PyObject **at; const char *text; } names[] = {
        {&ROOM, "room"}, {&ASIDE, "aside"}, {&BEHAVIOUR, "behaviour"}, {&CX, "cx"}, {&DOES, "does"}, {&WAITS, "waits"},
        {&HANDLE, "handle"}, {&RUNNING, "running"}, {&PLACE, "_place"}, {&EVENT, "event"}, {&SINCE, "since"}, {&MARK, "mark"},
        {&CLOCK, "monotonic"}, {&BEGAN, "_began"}, {&TIMED, "_timed"}, {&FAMILIES, "families"}, {&STIRS, "stirs"}, {&STEPS, "_steps"},
        {&NUMBER, "_number"}, {&FULL_AT, "_full_at"},
    };
    for (size_t place = 0; place < sizeof names / sizeof *names; place++)
        if ((*names[place].at = PyUnicode_InternFromString(names[place].text)) == NULL)
            return -1;
    PyObject *time = PyImport_ImportModule("time");
    CLOCK = time == NULL ? NULL : PyObject_GetAttr(time, CLOCK);
    return CLOCK == NULL ? -1 : 0;
}

PyMODINIT_FUNC PyInit_pundewo_native(void);
PyMODINIT_FUNC PyInit_pundewo_native(void) {
    PyObject *made = find_names() ? NULL : PyModule_Create2(&module, PYTHON_ABI_VERSION);
    /* (the library that it is of says the same) */
    if (made != NULL && PyModule_AddStringConstant(made, "BUILD", PUNDEWO_BUILD)) {
        Py_DecRef(made);
        return NULL;
    }
    return made;
}

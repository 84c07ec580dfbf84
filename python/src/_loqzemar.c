// The library as Python sees it: a call is a record, and a pod takes calls and lines, and tells what came of them.
//
// A text is lent to the pod until the pod is freed, so a pod keeps each text that it was given, once. Nothing here decides anything: each
// method is one function of the library, and `loqzemar.pod` does the rest.
#define PY_SSIZE_T_CLEAN
#define Py_LIMITED_API 0x030A0000
#include <Python.h>

#include "loqzemar.h"

#include <stdlib.h>
#include <string.h>

static PyTypeObject *call_type, *asked_type, *core_type;

// ---- calls

typedef struct {
    PyObject_HEAD
    loq_call_t record;
    PyObject *text; // a str, or NULL for none
    PyObject *with; // what the body needs besides, or NULL
    bool is_seen;   // a pod, or another call, has looked at it
} call_object;

// What a `yield from` or an `await` goes over: the call, and then the answer is its value.
typedef struct {
    PyObject_HEAD
    PyObject *call;
} asked_object;

static void free_object(PyObject *self) {
    PyTypeObject *type = Py_TYPE(self);
    freefunc dealloc = (freefunc)PyType_GetSlot(type, Py_tp_free);
    dealloc(self);
    Py_DECREF(type);
}

static int take_number(PyObject *number, uint64_t most, uint64_t *out) {
    unsigned long long n = PyLong_AsUnsignedLongLong(number);
    if (n == (unsigned long long)-1 && PyErr_Occurred()) return -1;
    if (n > most) {
        PyErr_Format(PyExc_OverflowError, "%llu is more than %llu", n, (unsigned long long)most);
        return -1;
    }
    *out = n;
    return 0;
}

// The arguments of a call, in their order.
enum { KIND, TARGET, NUMBER, TEXT, PRIO, ROOM, MODE, FUNC, ARG, OTHER, EXIT, ANY, SUSPENDED, NOLASTRITES, SERVER, WITH, ARGUMENTS };

static int take_argument(call_object *call, Py_ssize_t at, PyObject *value) {
    loq_call_t *record = &call->record;
    uint64_t n = 0;
    if (at == TEXT) {
        if (!PyUnicode_Check(value)) {
            PyErr_SetString(PyExc_TypeError, "a text is a str");
            return -1;
        }
        Py_INCREF(value);
        call->text = value;
        return 0;
    }
    if (at == WITH) {
        Py_INCREF(value);
        call->with = value;
        return 0;
    }
    if (at >= ANY) {
        int truth = PyObject_IsTrue(value);
        if (truth < 0) return -1;
        switch (at) {
        case ANY: record->any = truth; break;
        case SUSPENDED: record->suspended = truth; break;
        case NOLASTRITES: record->nolastrites = truth; break;
        default: record->server = truth; break;
        }
        return 0;
    }
    if (take_number(value, at == TARGET || at == OTHER ? UINT64_MAX : at >= ROOM && at <= FUNC ? UINT8_MAX : UINT32_MAX, &n)) return -1;
    switch (at) {
    case KIND: record->kind = (uint32_t)n; break;
    case TARGET: record->target = n; break;
    case NUMBER: record->number = (uint32_t)n; break;
    case PRIO: record->prio = (uint32_t)n; break;
    case ROOM: record->room = (uint8_t)n; break;
    case MODE: record->mode = (uint8_t)n; break;
    case FUNC: record->func = (uint8_t)n; break;
    case ARG: record->arg = (uint32_t)n; break;
    case OTHER: record->other = n; break;
    default: record->exit = (uint32_t)n; break;
    }
    return 0;
}

// Only what goes with a call can refer back to it.
static PyObject *tracked(call_object *call) {
    if (call->with) PyObject_GC_Track(call);
    return (PyObject *)call;
}

static PyObject *make_call(PyObject *module, PyObject *const *args, Py_ssize_t count) {
    (void)module;
    if (count < 1 || count > ARGUMENTS) {
        PyErr_SetString(PyExc_TypeError, "a call has 1 to 16 arguments");
        return NULL;
    }
    call_object *call = PyObject_GC_New(call_object, call_type);
    if (!call) return NULL;
    memset(&call->record, 0, sizeof call->record);
    call->text = call->with = NULL;
    call->is_seen = false;
    for (Py_ssize_t at = 0; at < count; at++)
        if (take_argument(call, at, args[at])) {
            call->is_seen = true;
            Py_DECREF(call);
            return NULL;
        }
    return tracked(call);
}

// A body that forgets the `yield` does nothing, so it is told.
static void warn_unseen(PyObject *self) {
    PyObject *type, *value, *trace;
    PyErr_Fetch(&type, &value, &trace);
    if (PyErr_WarnEx(PyExc_RuntimeWarning, "a call was never made: `yield` or `await` is missing before it", 1))
        PyErr_WriteUnraisable((PyObject *)Py_TYPE(self));
    PyErr_Restore(type, value, trace);
}

static void free_call(PyObject *self) {
    call_object *call = (call_object *)self;
    PyObject_GC_UnTrack(self);
    if (!call->is_seen) warn_unseen(self);
    Py_XDECREF(call->text);
    Py_XDECREF(call->with);
    free_object(self);
}

static int visit_call(PyObject *self, visitproc visit, void *arg) {
    Py_VISIT(Py_TYPE(self));
    Py_VISIT(((call_object *)self)->with);
    return 0;
}

static int clear_call(PyObject *self) {
    Py_CLEAR(((call_object *)self)->with);
    return 0;
}

static PyObject *get_kind(PyObject *self, void *closure) {
    (void)closure;
    ((call_object *)self)->is_seen = true;
    return PyLong_FromUnsignedLong(((call_object *)self)->record.kind);
}

static PyObject *get_number(PyObject *self, void *closure) {
    (void)closure;
    return PyLong_FromUnsignedLong(((call_object *)self)->record.number);
}

static PyObject *get_target(PyObject *self, void *closure) {
    (void)closure;
    return PyLong_FromUnsignedLongLong(((call_object *)self)->record.target);
}

static PyObject *get_text(PyObject *self, void *closure) {
    (void)closure;
    PyObject *text = ((call_object *)self)->text;
    if (!text) return PyUnicode_FromString("");
    Py_INCREF(text);
    return text;
}

static PyObject *get_with(PyObject *self, void *closure) {
    (void)closure;
    PyObject *with = ((call_object *)self)->with;
    if (!with) Py_RETURN_NONE;
    Py_INCREF(with);
    return with;
}

// A copy of a create or a call with the number of its procedure, which the pod knows.
static PyObject *numbered(PyObject *self, PyObject *number) {
    uint64_t n;
    if (take_number(number, UINT32_MAX, &n)) return NULL;
    call_object *from = (call_object *)self, *call = PyObject_GC_New(call_object, call_type);
    if (!call) return NULL;
    call->record = from->record;
    call->record.number = (uint32_t)n;
    Py_XINCREF(from->text);
    Py_XINCREF(from->with);
    call->text = from->text;
    call->with = from->with;
    call->is_seen = true;
    return tracked(call);
}

static PyObject *ask(PyObject *self) {
    asked_object *asked = PyObject_New(asked_object, asked_type);
    if (!asked) return NULL;
    Py_INCREF(self);
    asked->call = self;
    return (PyObject *)asked;
}

static PyGetSetDef call_fields[] = {
    {"kind", get_kind, NULL, "Which call it is, as the C header numbers them.", NULL},
    {"number", get_number, NULL, "The number that it names: a procedure, an event, a pattern, ticks.", NULL},
    {"target", get_target, NULL, "The thread, monitor or condition that it names.", NULL},
    {"text", get_text, NULL, "Its text.", NULL},
    {"attached", get_with, NULL, "What goes with it besides.", NULL},
    {NULL, NULL, NULL, NULL, NULL},
};
// Call[T] in an annotation.
static PyObject *of_type(PyObject *type, PyObject *answer) { return Py_GenericAlias(type, answer); }

static PyMethodDef call_methods[] = {
    {"__class_getitem__", of_type, METH_O | METH_CLASS, "The calls whose answers have this type."},
    {"numbered", numbered, METH_O, "The same call with this number."},
    {NULL, NULL, 0, NULL},
};
static PyType_Slot call_slots[] = {
    {Py_tp_doc, "A call: `yield` it for its answer, `yield from` it or `await` it for its answer with its type."},
    {Py_tp_dealloc, free_call},
    {Py_tp_traverse, visit_call},
    {Py_tp_clear, clear_call},
    {Py_tp_getset, call_fields},
    {Py_tp_methods, call_methods},
    {Py_tp_iter, ask},
    {Py_am_await, ask},
    {0, NULL},
};
static PyType_Spec call_spec = {"loqzemar._loqzemar.Call", sizeof(call_object), 0,
                                Py_TPFLAGS_DEFAULT | Py_TPFLAGS_HAVE_GC | Py_TPFLAGS_DISALLOW_INSTANTIATION, call_slots};

static void free_asked(PyObject *self) {
    Py_XDECREF(((asked_object *)self)->call);
    free_object(self);
}

static PySendResult send_asked(PyObject *self, PyObject *value, PyObject **result) {
    asked_object *asked = (asked_object *)self;
    if (asked->call) {
        *result = asked->call;
        asked->call = NULL;
        return PYGEN_NEXT;
    }
    Py_INCREF(value);
    *result = value;
    return PYGEN_RETURN;
}

static PyObject *next_asked(PyObject *self) {
    asked_object *asked = (asked_object *)self;
    PyObject *call = asked->call;
    asked->call = NULL;
    return call; // none: the iteration is over
}

static PyObject *same(PyObject *self) {
    Py_INCREF(self);
    return self;
}

static PyObject *send_method(PyObject *self, PyObject *value) {
    PyObject *result;
    if (send_asked(self, value, &result) == PYGEN_NEXT) return result;
    PyObject *stop = PyObject_CallFunctionObjArgs(PyExc_StopIteration, result, NULL);
    Py_DECREF(result);
    if (stop) PyErr_SetObject(PyExc_StopIteration, stop);
    Py_XDECREF(stop);
    return NULL;
}

static PyMethodDef asked_methods[] = {
    {"send", send_method, METH_O, "The call first, and then the end, with what is sent as its value."},
    {NULL, NULL, 0, NULL},
};
static PyType_Slot asked_slots[] = {
    {Py_tp_dealloc, free_asked}, {Py_tp_iter, same},         {Py_tp_iternext, next_asked},
    {Py_am_send, send_asked},    {Py_tp_methods, asked_methods}, {0, NULL},
};
static PyType_Spec asked_spec = {"loqzemar._loqzemar.Asked", sizeof(asked_object), 0,
                                 Py_TPFLAGS_DEFAULT | Py_TPFLAGS_DISALLOW_INSTANTIATION, asked_slots};

// ---- pods

typedef struct {
    PyObject_HEAD
    loq_pod pod;
    PyObject *texts; // the texts that are lent, each by itself
    uint8_t *out;    // a buffer for lines
    size_t room;
    uint64_t *ids; // and one for numbers
    size_t ids_room;
} core_object;

static const char *const causes[] = {
    "",
    "memory was refused",
    "there is no pod",
    "it is nobody's turn",
    "there is no such call",
    "a text has at most 240 bytes, each from a space to '~'",
    "no line of this event can be taken",
    "there is no such effect",
    "a number is out of its range",
    "a buffer is too small",
};

static PyObject *fault(uint32_t status) {
    if (status == LOQ_NO_MEMORY) return PyErr_NoMemory();
    PyErr_SetString(PyExc_ValueError, status < sizeof causes / sizeof *causes ? causes[status] : "the library answers what it hasn't told");
    return NULL;
}

static PyObject *done(uint32_t status) {
    if (status != LOQ_DONE) return fault(status);
    Py_RETURN_NONE;
}

static PyObject *make_core(PyTypeObject *type, PyObject *args, PyObject *keywords) {
    unsigned int maxpri, procs;
    unsigned long long births;
    if (keywords && PyDict_Size(keywords)) {
        PyErr_SetString(PyExc_TypeError, "a core takes no keywords");
        return NULL;
    }
    if (!PyArg_ParseTuple(args, "IKI", &maxpri, &births, &procs)) return NULL;
    allocfunc alloc = (allocfunc)PyType_GetSlot(type, Py_tp_alloc);
    core_object *core = (core_object *)alloc(type, 0);
    if (!core) return NULL;
    core->texts = PyDict_New();
    uint32_t status = core->texts ? loq_pod_new(&core->pod, maxpri, births, procs) : LOQ_NO_MEMORY;
    if (status == LOQ_DONE) return (PyObject *)core;
    Py_DECREF(core);
    return fault(status);
}

static void free_core(PyObject *self) {
    core_object *core = (core_object *)self;
    loq_pod_free(&core->pod);
    Py_XDECREF(core->texts);
    free(core->out);
    free(core->ids);
    free_object(self);
}

static PyObject *current(PyObject *self, PyObject *unused) {
    (void)unused;
    uint64_t tid;
    if (loq_current(&((core_object *)self)->pod, &tid) != LOQ_DONE) Py_RETURN_NONE;
    return PyLong_FromUnsignedLongLong(tid);
}

static PyObject *ending(PyObject *self, PyObject *unused) {
    (void)unused;
    uint32_t why = 0, status = 0, asked = loq_ending(&((core_object *)self)->pod, &why, &status);
    if (asked != LOQ_DONE) return fault(asked);
    return Py_BuildValue("(II)", why, status);
}

static PyObject *armed(PyObject *self, PyObject *event) {
    uint64_t n;
    bool is = false;
    if (take_number(event, UINT8_MAX, &n)) return NULL;
    uint32_t status = loq_armed(&((core_object *)self)->pod, (uint8_t)n, &is);
    if (status != LOQ_DONE) return fault(status);
    return PyBool_FromLong(is);
}

// The bytes of a text, which stay as they are while the pod lives.
static const uint8_t *lend(core_object *core, PyObject *text, Py_ssize_t *len) {
    *len = 0;
    if (!text) return (const uint8_t *)"";
    PyObject *kept = PyDict_GetItemWithError(core->texts, text);
    if (!kept) {
        if (PyErr_Occurred() || PyDict_SetItem(core->texts, text, text)) return NULL;
        kept = text;
    }
    return (const uint8_t *)PyUnicode_AsUTF8AndSize(kept, len);
}

static PyObject *text_of(const uint8_t *text, size_t len) { return PyUnicode_FromStringAndSize((const char *)text, (Py_ssize_t)len); }

static PyObject *ids_of(const uint64_t *ids, size_t count) {
    PyObject *list = PyTuple_New((Py_ssize_t)count);
    for (size_t i = 0; list && i < count; i++) {
        PyObject *id = PyLong_FromUnsignedLongLong(ids[i]);
        if (!id || PyTuple_SetItem(list, (Py_ssize_t)i, id)) {
            Py_DECREF(list);
            return NULL;
        }
    }
    return list;
}

// What an answer says, besides its kind.
static PyObject *answer_of(core_object *core, const loq_effect_t *effect, const uint8_t *text) {
    PyObject *said, *tuple;
    switch (effect->answer) {
    case LOQ_VALUE: return PyLong_FromLongLong(effect->value);
    case LOQ_THREAD:
    case LOQ_MONITOR:
    case LOQ_CONDITION: return PyLong_FromUnsignedLongLong(effect->id);
    case LOQ_LETTER:
        if (!(said = text_of(text, effect->text_len))) return NULL;
        tuple = Py_BuildValue("(KIN)", (unsigned long long)effect->id, effect->small, said);
        return tuple;
    case LOQ_REPLIED: return text_of(text, effect->text_len);
    case LOQ_BOUND_TO: return Py_BuildValue("(II)", effect->small, effect->arg);
    case LOQ_CAUGHT: return Py_BuildValue("(III)", effect->depth, effect->mark, effect->pattern);
    case LOQ_IDS:
        if (!(said = ids_of(core->ids, effect->ids_len))) return NULL;
        return Py_BuildValue("(IN)", effect->small, said);
    default: return PyLong_FromUnsignedLong(effect->small);
    }
}

static PyObject *effect_tuple(core_object *core, const loq_effect_t *effect, const uint8_t *text) {
    PyObject *said;
    if (effect->kind == LOQ_ANSWERED) said = answer_of(core, effect, text);
    else said = PyLong_FromUnsignedLongLong(effect->kind == LOQ_TICKED || effect->kind == LOQ_RITES ? effect->id : effect->small);
    if (!said) return NULL;
    PyObject *tuple = PyTuple_New(4);
    if (!tuple) {
        Py_DECREF(said);
        return NULL;
    }
    PyTuple_SetItem(tuple, 3, said);
    PyTuple_SetItem(tuple, 0, PyLong_FromUnsignedLong(effect->kind));
    PyTuple_SetItem(tuple, 1, PyLong_FromUnsignedLongLong(effect->tid));
    PyTuple_SetItem(tuple, 2, PyLong_FromUnsignedLong(effect->answer));
    return tuple;
}

static int grow_ids(core_object *core, size_t count) {
    uint64_t *ids = realloc(core->ids, count * sizeof *ids);
    if (!ids) {
        PyErr_NoMemory();
        return -1;
    }
    core->ids = ids;
    core->ids_room = count;
    return 0;
}

static PyObject *effect_at(core_object *core, size_t at) {
    loq_effect_t effect;
    uint8_t text[LOQ_TEXT_MAX];
    uint64_t none = 0;
    uint32_t status = loq_effect(&core->pod, at, &effect, text, sizeof text, core->ids ? core->ids : &none, core->ids_room);
    if (status == LOQ_TOO_SMALL) {
        if (grow_ids(core, effect.ids_len)) return NULL;
        status = loq_effect(&core->pod, at, &effect, text, sizeof text, core->ids, core->ids_room);
    }
    if (status != LOQ_DONE) return fault(status);
    return effect_tuple(core, &effect, text);
}

static PyObject *effects(core_object *core) {
    size_t count = 0;
    uint32_t status = loq_effects(&core->pod, &count);
    if (status != LOQ_DONE) return fault(status);
    PyObject *list = PyTuple_New((Py_ssize_t)count);
    for (size_t at = 0; list && at < count; at++) {
        PyObject *effect = effect_at(core, at);
        if (!effect) {
            Py_DECREF(list);
            return NULL;
        }
        PyTuple_SetItem(list, (Py_ssize_t)at, effect);
    }
    return list;
}

static PyObject *core_call(PyObject *self, PyObject *made) {
    core_object *core = (core_object *)self;
    if (!Py_IS_TYPE(made, call_type)) {
        PyErr_Format(PyExc_TypeError, "a body yields calls, as lwp_yield(tid), and not %R", made);
        return NULL;
    }
    call_object *call = (call_object *)made;
    call->is_seen = true;
    Py_ssize_t len;
    const uint8_t *text = lend(core, call->text, &len);
    if (!text) return NULL;
    uint32_t status = loq_call(&core->pod, &call->record, text, (size_t)len);
    if (status != LOQ_DONE) return fault(status);
    return effects(core);
}

static PyObject *deliver(PyObject *self, PyObject *args) {
    core_object *core = (core_object *)self;
    unsigned char event, client;
    unsigned int seq;
    PyObject *text;
    Py_ssize_t len;
    if (!PyArg_ParseTuple(args, "bbIU", &event, &client, &seq, &text)) return NULL;
    const uint8_t *bytes = lend(core, text, &len);
    if (!bytes) return NULL;
    uint32_t status = loq_deliver(&core->pod, event, client, seq, bytes, (size_t)len);
    if (status != LOQ_DONE) return fault(status);
    return effects(core);
}

static PyObject *name(PyObject *self, PyObject *word) {
    Py_ssize_t len;
    const char *bytes = PyUnicode_AsUTF8AndSize(word, &len);
    if (!bytes) return NULL;
    return done(loq_name(&((core_object *)self)->pod, (const uint8_t *)bytes, (size_t)len));
}

typedef uint32_t (*writer)(loq_pod *pod, uint8_t *out, size_t room, size_t *len);

static PyObject *written(core_object *core, writer write) {
    uint8_t none = 0;
    size_t len = 0;
    uint32_t status = write(&core->pod, core->out ? core->out : &none, core->room, &len);
    if (status == LOQ_TOO_SMALL) {
        size_t room = len < 1024 ? 1024 : len;
        uint8_t *out = realloc(core->out, room);
        if (!out) return PyErr_NoMemory();
        core->out = out;
        core->room = room;
        status = write(&core->pod, out, room, &len);
    }
    if (status != LOQ_DONE) return fault(status);
    return text_of(core->out ? core->out : &none, len);
}

static PyObject *lines(PyObject *self, PyObject *unused) {
    (void)unused;
    return written((core_object *)self, loq_lines);
}

static PyObject *state(PyObject *self, PyObject *unused) {
    (void)unused;
    return written((core_object *)self, loq_state);
}

#ifdef LOQ_HAS_FOLLOW
static PyObject *follow(PyObject *self, PyObject *args) {
    const char *trace;
    Py_ssize_t len, at, line;
    if (!PyArg_ParseTuple(args, "y#nn", &trace, &len, &at, &line)) return NULL;
    size_t place = (size_t)at, number = (size_t)line;
    uint32_t status = loq_follow(&((core_object *)self)->pod, (const uint8_t *)trace, (size_t)len, &place, &number);
    if (status != LOQ_DONE && status != LOQ_DIFFERS) return fault(status);
    return Py_BuildValue("(Nnn)", PyBool_FromLong(status == LOQ_DONE), (Py_ssize_t)place, (Py_ssize_t)number);
}
#endif

static PyMethodDef core_methods[] = {
    {"current", current, METH_NOARGS, "Whose turn it is, or None."},
    {"ending", ending, METH_NOARGS, "Why it is nobody's turn (0 it is somebody's, 1 the pod has ended, 2 nobody may run), and the exit status."},
    {"armed", armed, METH_O, "Whether a line of the event can be taken."},
    {"call", core_call, METH_O, "Makes the call of the thread whose turn it is: what it did, as (kind, thread, kind of answer, what it says)."},
    {"deliver", deliver, METH_VARARGS, "Takes a line of an event (event, client, number of the line, text): what it did."},
    {"name", name, METH_O, "Names the next procedure."},
    {"lines", lines, METH_NOARGS, "The lines of the trace of the last call or delivery."},
    {"state", state, METH_NOARGS, "The state of the pod as a text."},
#ifdef LOQ_HAS_FOLLOW
    {"follow", follow, METH_VARARGS, "Whether the lines of the last step are a trace's from this byte on, which begins this line; and the next ones."},
#endif
    {NULL, NULL, 0, NULL},
};
static PyType_Slot core_slots[] = {
    {Py_tp_doc, "A pod of the library: its greatest priority, the births of each kind, and the number of its procedures."},
    {Py_tp_new, make_core},
    {Py_tp_dealloc, free_core},
    {Py_tp_methods, core_methods},
    {0, NULL},
};
static PyType_Spec core_spec = {"loqzemar._loqzemar.Core", sizeof(core_object), 0, Py_TPFLAGS_DEFAULT, core_slots};

// ---- all sessions of a script

typedef struct {
    const char *script, *line;
    Py_ssize_t script_len, line_len;
    uint64_t kind, cores;
} search;

typedef uint32_t (*searcher)(const search *s, uint8_t *out, size_t room, size_t *len, loq_session_t *session);

static uint32_t search_ends(const search *s, uint8_t *out, size_t room, size_t *len, loq_session_t *session) {
    return loq_explore_ends((const uint8_t *)s->script, (size_t)s->script_len, s->cores, out, room, len, session);
}

static uint32_t search_trace(const search *s, uint8_t *out, size_t room, size_t *len, loq_session_t *session) {
    return loq_explore_trace((const uint8_t *)s->script, (size_t)s->script_len, s->kind, s->cores, out, room, len, session);
}

static uint32_t search_line(const search *s, uint8_t *out, size_t room, size_t *len, loq_session_t *session) {
    return loq_explore_line((const uint8_t *)s->script, (size_t)s->script_len, (const uint8_t *)s->line, (size_t)s->line_len, s->cores, out,
                            room, len, session);
}

// A search takes its time, and uses nothing of Python's.
static PyObject *searched(const search *s, searcher ask) {
    size_t room = 1 << 16, len = 0;
    uint32_t status = LOQ_TOO_SMALL;
    loq_session_t session = {0, 0, 0, 0, 0};
    uint8_t *out = NULL;
    Py_BEGIN_ALLOW_THREADS;
    while (status == LOQ_TOO_SMALL) {
        uint8_t *more = realloc(out, room);
        if (!more) {
            status = LOQ_NO_MEMORY;
            break;
        }
        out = more;
        status = ask(s, out, room, &len, &session);
        room = len;
    }
    Py_END_ALLOW_THREADS;
    PyObject *told;
    if (status != LOQ_DONE && status != LOQ_BAD_SCRIPT) told = fault(status);
    else
        told = Py_BuildValue("(IIKs#)", session.status, session.reason, (unsigned long long)session.line, (const char *)out, (Py_ssize_t)len);
    free(out);
    return told;
}

static PyObject *explore_ends(PyObject *module, PyObject *args) {
    (void)module;
    search s = {0};
    PyObject *cores;
    if (!PyArg_ParseTuple(args, "y#O", &s.script, &s.script_len, &cores) || take_number(cores, UINT64_MAX, &s.cores)) return NULL;
    return searched(&s, search_ends);
}

static PyObject *explore_trace(PyObject *module, PyObject *args) {
    (void)module;
    search s = {0};
    PyObject *kind, *cores;
    if (!PyArg_ParseTuple(args, "y#OO", &s.script, &s.script_len, &kind, &cores)) return NULL;
    if (take_number(kind, UINT64_MAX, &s.kind) || take_number(cores, UINT64_MAX, &s.cores)) return NULL;
    return searched(&s, search_trace);
}

static PyObject *explore_line(PyObject *module, PyObject *args) {
    (void)module;
    search s = {0};
    PyObject *cores;
    if (!PyArg_ParseTuple(args, "y#y#O", &s.script, &s.script_len, &s.line, &s.line_len, &cores)) return NULL;
    if (take_number(cores, UINT64_MAX, &s.cores)) return NULL;
    return searched(&s, search_line);
}

static PyMethodDef functions[] = {
    {"explore_ends", explore_ends, METH_VARARGS, "The ends of all sessions (script, cores): status, reason, line and text."},
    {"explore_trace", explore_trace, METH_VARARGS, "The trace of the first of a kind (script, kind, cores), likewise."},
    {"explore_line", explore_line, METH_VARARGS, "The first way to a line (script, line, cores), likewise."},
    {"call", (PyCFunction)(void (*)(void))make_call, METH_FASTCALL,
     "A call: kind, target, number, text, prio, room, mode, func, arg, other, exit, any, suspended, nolastrites, server, attached."},
    {NULL, NULL, 0, NULL},
};
static struct PyModuleDef definition = {PyModuleDef_HEAD_INIT, "_loqzemar", "The C library.", -1, functions, NULL, NULL, NULL, NULL};

static PyTypeObject *add_type(PyObject *module, const char *word, PyType_Spec *spec) {
    PyObject *type = PyType_FromSpec(spec);
    if (!type) return NULL;
    Py_INCREF(type);
    if (PyModule_AddObject(module, word, type)) {
        Py_DECREF(type);
        return NULL;
    }
    return (PyTypeObject *)type;
}

PyMODINIT_FUNC PyInit__loqzemar(void) {
    PyObject *module = PyModule_Create(&definition);
    if (!module) return NULL;
    call_type = add_type(module, "Call", &call_spec);
    asked_type = call_type ? add_type(module, "Asked", &asked_spec) : NULL;
    core_type = asked_type ? add_type(module, "Core", &core_spec) : NULL;
    if (core_type) return module;
    Py_DECREF(module);
    return NULL;
}

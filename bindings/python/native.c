/* The part of the Python package in C: the module `imgref._native`, with the proved library linked into it.
 *
 * A `Cells` is an image of the library over memory that it holds for as long as it lives, and an image of the package has its
 * `Cells` for good. Who makes a call has its image, so the memory stays for the length of the call. All numbers of a call are
 * taken before anything else is looked at: taking a number may run code of the user's. A call that goes over pixels then gives
 * up Python's lock, and works on a copy of the sizes.
 *
 * It compiles with the whole interface of CPython 3.10 or later. With -DPy_LIMITED_API=0x030B0000 the same file makes a module
 * for 3.11 and all later ones: buffers are in the stable interface from 3.11 on. So types are made from specifications, what
 * they inherit is asked for by PyType_GetSlot, and no macro looks into an object. */
#define _DEFAULT_SOURCE
#define PY_SSIZE_T_CLEAN
#include <Python.h>
#include <stddef.h>
#include <stdlib.h>
#include <string.h>
#include <structmember.h>
#include <sys/mman.h>

#include "native.h"

/* ---- numbers and refusals */

/* A number of pixels, columns or rows. */
static bool number_of(PyObject *given, size_t *made) {
    PyObject *number = PyNumber_Index(given);
    if (!number) return false;
    *made = PyLong_AsSize_t(number);
    Py_DECREF(number);
    if (*made != (size_t)-1 || !PyErr_Occurred()) return true;
    if (PyErr_ExceptionMatches(PyExc_OverflowError)) {
        PyErr_Clear();
        PyErr_Format(PyExc_ValueError, "no number of pixels, columns or rows: %R", given);
    }
    return false;
}

static bool numbers_of(PyObject *const *given, Py_ssize_t count, size_t *made) {
    for (Py_ssize_t k = 0; k < count; k++)
        if (!number_of(given[k], made + k)) return false;
    return true;
}

/* The numbers of what is no tuple: it is asked for one number after the other, and for one more. */
static bool listed_in(PyObject *given, size_t *n) {
    PyObject *items = PyObject_GetIter(given), *item;
    if (!items) return false;
    size_t found = 0;
    bool is_well = true;
    while (is_well && found <= 4 && (item = PyIter_Next(items))) {
        is_well = found == 4 || number_of(item, n + found);
        found++;
        Py_DECREF(item);
    }
    Py_DECREF(items);
    if (!is_well || PyErr_Occurred()) return false;
    if (found != 4) PyErr_Format(PyExc_ValueError, "a window is four numbers (left, top, width, height), not %R", given);
    return found == 4;
}

/* The numbers of a window: its corner and its size. */
static bool window_in(PyObject *given, size_t *n) {
    if (!PyTuple_Check(given)) return listed_in(given, n);
    if (PyTuple_Size(given) != 4) {
        PyErr_Format(PyExc_ValueError, "a window is four numbers (left, top, width, height), not %R", given);
        return false;
    }
    for (Py_ssize_t k = 0; k < 4; k++)
        if (!number_of(PyTuple_GetItem(given, k), n + k)) return false;
    return true;
}

/* Raises what a status says, in the words that a function of imgref._refusals makes of numbers. */
static PyObject *refused(imgref_status status, const char *words, const size_t *n, size_t count) {
    PyObject *module = PyImport_ImportModule("imgref._refusals");
    PyObject *named = module ? PyObject_GetAttrString(module, words) : NULL;
    PyObject *kind = module ? PyObject_GetAttrString(module, "Refused") : NULL;
    PyObject *numbers = PyTuple_New(count);
    for (size_t k = 0; numbers && k < count; k++) {
        PyObject *number = PyLong_FromSize_t(n[k]);
        if (!number || PyTuple_SetItem(numbers, k, number)) Py_CLEAR(numbers);
    }
    PyObject *text = named && numbers ? PyObject_CallObject(named, numbers) : NULL;
    PyObject *made = kind && text ? PyObject_CallFunction(kind, "IO", status, text) : NULL;
    if (made) PyErr_SetObject(kind, made);
    Py_XDECREF(made);
    Py_XDECREF(text);
    Py_XDECREF(numbers);
    Py_XDECREF(kind);
    Py_XDECREF(named);
    Py_XDECREF(module);
    return NULL;
}
#define REFUSED(STATUS, WORDS, ...)                                                                                          \
    refused(STATUS, WORDS, (const size_t[]){__VA_ARGS__}, sizeof(const size_t[]){__VA_ARGS__} / sizeof(size_t))

/* ---- memory that is held, as an image */

typedef struct cells {
    PyObject_HEAD
    Py_buffer held;       /* the memory; that of a window is held by `parent` */
    PyObject *parent;
    struct cells *behind; /* of those that wait for their end */
    image shown;
    size_t channels;      /* numbers of a pixel */
    char is_shown;        /* whether the collector sees the owner of the memory */
    char is_readonly;
    char format[4];       /* of a number, as a buffer has it */
} Cells;

static PyTypeObject *cells_type;

/* Makes cells that hold nothing yet. */
static Cells *cells_made(void) { return (Cells *)PyType_GenericAlloc(cells_type, 0); }

/* Whether the collector may see an owner. It clears what is in a cycle, and then the owner has to keep its memory for us. So
 * the type that gives the memory may have no tp_clear: a memoryview that is cleared can't take a buffer back (CPython 3.10 to
 * 3.12 end by a signal), and an array of ctypes frees its memory. Classes of the user's clear their attributes alone. */
static bool may_be_shown(PyObject *owner) {
    PyTypeObject *type = Py_TYPE(owner), *base;
    const void *gives = PyType_GetSlot(type, Py_bf_getbuffer);
    if (!gives) return false;
    while ((base = PyType_GetSlot(type, Py_tp_base)) && PyType_GetSlot(base, Py_bf_getbuffer) == gives) type = base;
    return !PyType_GetSlot(type, Py_tp_clear);
}

static int cells_traverse(Cells *self, visitproc visit, void *arg) {
    if (self->is_shown) Py_VISIT(self->held.obj);
    Py_VISIT(self->parent);
    Py_VISIT(Py_TYPE((PyObject *)self));
    return 0;
}

/* (there is no tp_clear: a cycle has an object besides that clears itself, and so no call finds a `Cells` without memory) */
static void cells_end(Cells *self) {
    PyTypeObject *type = Py_TYPE((PyObject *)self);
    if (self->held.obj) PyBuffer_Release(&self->held);
    Py_XDECREF(self->parent);
    PyObject_GC_Del(self);
    Py_DECREF((PyObject *)type);
}

/* An image may be over an array over an image, and so on: the end of each is in that of the one above. From so many on they
 * wait, and end one after the other. */
static void cells_dealloc(Cells *self) {
    static Cells *waiting;
    static int depth;
    PyObject_GC_UnTrack(self);
    if (depth > 20) {
        self->behind = waiting;
        waiting = self;
        return;
    }
    depth++;
    cells_end(self);
    while (depth == 1 && waiting) {
        self = waiting;
        waiting = self->behind;
        cells_end(self);
    }
    depth--;
}

static bool sets_format(Cells *self, const char *format) {
    if (strlen(format) >= sizeof self->format) {
        PyErr_SetString(PyExc_TypeError, "no format of a number");
        return false;
    }
    strcpy(self->format, format);
    return true;
}

static bool is_known(const image *i, size_t channels) {
    return (i->size == 1 || i->size == 2 || i->size == 4 || i->size == 8) && i->step && i->step <= MOST_STEPS && channels &&
           i->size * i->step % channels == 0;
}

/* The addresses from the lowest item of a buffer to the end of its highest one. */
typedef struct {
    uintptr_t from, to;
} addresses;

static addresses addresses_of(const Py_buffer *held) {
    addresses made = {(uintptr_t)held->buf, (uintptr_t)held->buf + held->itemsize};
    if (!held->strides || !held->shape) made.to = made.from + held->len;
    else
        for (int k = 0; k < held->ndim; k++) {
            if (!held->shape[k]) return (addresses){made.from, made.from};
            const Py_ssize_t way = (held->shape[k] - 1) * held->strides[k];
            if (way < 0) made.from += way;
            else made.to += way;
        }
    return made;
}

/* Whether a buffer has these cells from byte `at` after its first item on. */
static bool has_cells(const Py_buffer *held, const image *i, size_t at) {
    const size_t bytes = addresses_of(held).to - (uintptr_t)held->buf;
    return !held->suboffsets && i->cells % i->size == 0 && at <= bytes && i->len <= (bytes - at) / i->size;
}

/* Whether all cells are in the memory of a buffer. */
static bool is_inside(const image *i, const Py_buffer *held) {
    const addresses of = addresses_of(held);
    return !held->suboffsets && of.from <= i->cells && i->cells <= of.to && i->len <= (of.to - i->cells) / i->size;
}

/* Holds the memory of the cells that a memoryview has: by the object that owns it, where that gives the same memory, and else by
 * the memoryview. Cells over other cells hold what those hold. */
static bool holds(Cells *self, PyObject *view) {
    PyObject *owner = PyObject_GetAttrString(view, "obj");
    if (!owner) return false;
    if (Py_TYPE(owner) == cells_type) {
        Cells *below = (Cells *)owner;
        self->parent = Py_NewRef(below->parent ? below->parent : owner);
        Py_DECREF(owner);
        return true;
    }
    if (PyObject_CheckBuffer(owner)) {
        if (PyObject_GetBuffer(owner, &self->held, PyBUF_FULL_RO)) {
            if (!PyErr_ExceptionMatches(PyExc_BufferError) && !PyErr_ExceptionMatches(PyExc_TypeError) && !PyErr_ExceptionMatches(PyExc_ValueError)) {
                Py_DECREF(owner);
                return false;
            }
            PyErr_Clear();
        } else if (!is_inside(&self->shown, &self->held)) {
            PyBuffer_Release(&self->held);
        }
    }
    Py_DECREF(owner);
    if (!self->held.obj && PyObject_GetBuffer(view, &self->held, PyBUF_FULL_RO)) return false;
    self->is_shown = self->held.obj && may_be_shown(self->held.obj);
    return true;
}

/* Cells(view, at, (len, width, height, stride, size, step, channels), format, is_readonly): the cells from byte `at` of a
 * memoryview on. */
static PyObject *cells_new(PyTypeObject *type, PyObject *args, PyObject *named) {
    PyObject *view, *at, *sizes;
    const char *format;
    int is_readonly;
    size_t start, n[7];
    Py_buffer seen;
    (void)type;
    if (named && PyDict_Size(named)) return PyErr_Format(PyExc_TypeError, "no names");
    if (!PyArg_ParseTuple(args, "O!OO!sp", &PyMemoryView_Type, &view, &at, &PyTuple_Type, &sizes, &format, &is_readonly)) return NULL;
    if (PyTuple_Size(sizes) != 7) return PyErr_Format(PyExc_TypeError, "seven sizes");
    for (Py_ssize_t k = 0; k < 7; k++)
        if (!number_of(PyTuple_GetItem(sizes, k), n + k)) return NULL;
    if (!number_of(at, &start)) return NULL;
    Cells *self = cells_made();
    if (!self || !sets_format(self, format) || PyObject_GetBuffer(view, &seen, PyBUF_FULL_RO)) {
        Py_XDECREF((PyObject *)self);
        return NULL;
    }
    self->shown = (image){(uintptr_t)seen.buf + start, n[0], n[1], n[2], n[3], n[4], n[5]};
    self->channels = n[6];
    self->is_readonly = is_readonly || seen.readonly;
    bool is_well = false;
    if (!is_known(&self->shown, self->channels))
        PyErr_SetString(PyExc_TypeError, "no cells");
    else if (!has_cells(&seen, &self->shown, start))
        PyErr_SetString(PyExc_ValueError, "the memory has no such cells");
    else if (!image_is_valid(&self->shown))
        REFUSED(IMGREF_NOT_AN_IMAGE, "no_image", n[1], n[2], n[3], n[0]);
    else
        is_well = holds(self, view);
    PyBuffer_Release(&seen);
    if (is_well) return (PyObject *)self;
    Py_DECREF((PyObject *)self);
    return NULL;
}

/* What an export points to. */
typedef struct {
    Py_ssize_t shape[3], strides[3];
} steps;

static bool is_joined(const image *i) { return i->height < 2 || !i->width || i->stride == i->width; }

/* The pixels as a buffer of rows and columns, and of numbers in a pixel where there are several. */
static int cells_export(Cells *self, Py_buffer *view, int flags) {
    const image i = self->shown;
    const size_t pixel = i.size * i.step, size = pixel / self->channels, columns = i.width / i.step;
    view->obj = NULL;
    if (flags & PyBUF_WRITABLE && self->is_readonly) {
        PyErr_SetString(PyExc_BufferError, "the memory is read only");
        return -1;
    }
    bool wants_joined = (flags & PyBUF_STRIDES) != PyBUF_STRIDES || (flags & PyBUF_C_CONTIGUOUS) == PyBUF_C_CONTIGUOUS ||
                        (flags & PyBUF_ANY_CONTIGUOUS) == PyBUF_ANY_CONTIGUOUS;
    if ((wants_joined && !is_joined(&i)) || (flags & PyBUF_F_CONTIGUOUS) == PyBUF_F_CONTIGUOUS) {
        PyErr_SetString(PyExc_BufferError, "the rows aren't joined: copy() joins them");
        return -1;
    }
    steps *made = PyMem_Malloc(sizeof *made);
    if (!made) {
        PyErr_NoMemory();
        return -1;
    }
    const Py_ssize_t line = is_joined(&i) ? i.width * i.size : i.stride * i.size;
    *made = (steps){{i.height, columns, self->channels}, {line, pixel, size}};
    view->buf = (void *)(i.cells ? i.cells : (uintptr_t)&nowhere);
    view->obj = Py_NewRef((PyObject *)self);
    view->len = columns * i.height * pixel;
    view->itemsize = size;
    view->readonly = self->is_readonly;
    view->ndim = flags & PyBUF_ND ? (self->channels > 1 ? 3 : 2) : 1;
    view->format = flags & PyBUF_FORMAT ? self->format : NULL;
    view->shape = flags & PyBUF_ND ? made->shape : NULL;
    view->strides = (flags & PyBUF_STRIDES) == PyBUF_STRIDES ? made->strides : NULL;
    view->suboffsets = NULL;
    view->internal = made;
    return 0;
}

static void cells_release(Cells *self, Py_buffer *view) {
    (void)self;
    PyMem_Free(view->internal);
}

static PyMemberDef cells_members[] = {
    {"start", T_ULONG, offsetof(Cells, shown.cells), READONLY, "the address of the first cell"},
    {"stride", T_ULONG, offsetof(Cells, shown.stride), READONLY, "the stride in cells"},
    {"is_readonly", T_BOOL, offsetof(Cells, is_readonly), READONLY, "whether the memory is for reading alone"},
    {NULL, 0, 0, 0, NULL},
};

static PyType_Slot cells_slots[] = {
    {Py_tp_new, cells_new},
    {Py_tp_traverse, cells_traverse},
    {Py_tp_dealloc, cells_dealloc},
    {Py_tp_members, cells_members},
    {Py_bf_getbuffer, cells_export},
    {Py_bf_releasebuffer, cells_release},
    {Py_tp_doc, "Memory that is held, as an image of the library."},
    {0, NULL},
};
static PyType_Spec cells_spec = {"imgref._native.Cells", sizeof(Cells), 0, Py_TPFLAGS_DEFAULT | Py_TPFLAGS_HAVE_GC, cells_slots};

/* ---- what an image of the package begins with: its cells, which are set once */

typedef struct {
    PyObject_HEAD
    PyObject *cells;
} Holder;

static PyTypeObject *holder_type;

static int holder_traverse(Holder *self, visitproc visit, void *arg) {
    Py_VISIT(self->cells);
    Py_VISIT(Py_TYPE((PyObject *)self));
    return 0;
}

static int holder_clear(Holder *self) {
    Py_CLEAR(self->cells);
    return 0;
}

static void holder_dealloc(Holder *self) {
    PyTypeObject *type = Py_TYPE((PyObject *)self);
    PyObject_GC_UnTrack(self);
    Py_CLEAR(self->cells);
    PyObject_GC_Del(self);
    Py_DECREF((PyObject *)type);
}

static int holder_export(Holder *self, Py_buffer *view, int flags) {
    if (self->cells) return PyObject_GetBuffer(self->cells, view, flags);
    view->obj = NULL;
    PyErr_SetString(PyExc_BufferError, "the image isn't made");
    return -1;
}

static PyMemberDef holder_members[] = {
    {"_cells", T_OBJECT_EX, offsetof(Holder, cells), READONLY, NULL},
    {NULL, 0, 0, 0, NULL},
};

static PyType_Slot holder_slots[] = {
    {Py_tp_traverse, holder_traverse}, {Py_tp_clear, holder_clear},        {Py_tp_dealloc, holder_dealloc},
    {Py_tp_members, holder_members},   {Py_bf_getbuffer, holder_export},   {Py_tp_doc, "What holds cells."},
    {0, NULL},
};
static PyType_Spec holder_spec = {"imgref._native.Holder", sizeof(Holder), 0, Py_TPFLAGS_DEFAULT | Py_TPFLAGS_BASETYPE | Py_TPFLAGS_HAVE_GC, holder_slots};

/* ---- the arguments of a call: an image first, and then its numbers */

/* The cells of an image. It keeps them for good, so they are there for as long as the caller has the image. */
static Cells *cells_in(PyObject *given) {
    if (!PyObject_TypeCheck(given, holder_type)) {
        PyErr_Format(PyExc_TypeError, "no image: %R", given);
        return NULL;
    }
    PyObject *cells = ((Holder *)given)->cells;
    if (!cells) PyErr_SetString(PyExc_TypeError, "the image isn't made: Image.__init__ wasn't called");
    return (Cells *)cells;
}

static Cells *first_in(PyObject *const *given, Py_ssize_t count, Py_ssize_t wanted) {
    if (count == wanted) return cells_in(given[0]);
    PyErr_Format(PyExc_TypeError, "%zd arguments, not %zd", wanted, count);
    return NULL;
}

static bool is_written(const Cells *it) {
    if (it->is_readonly) PyErr_SetString(PyExc_TypeError, "the memory of the image is for reading alone: copy() makes an image that can be written");
    return !it->is_readonly;
}

/* The bits of a pixel: a number, or a list with one for each cell. */
static bool bits_of(PyObject *given, size_t step, uint64_t *bits) {
    if (step > 1 && (!PyList_CheckExact(given) || (size_t)PyList_Size(given) != step)) {
        PyErr_SetString(PyExc_TypeError, "another number of cells");
        return false;
    }
    for (size_t k = 0; k < step; k++) {
        bits[k] = PyLong_AsUnsignedLongLong(step > 1 ? PyList_GetItem(given, k) : given);
        if (bits[k] == (uint64_t)-1 && PyErr_Occurred()) return false;
    }
    return true;
}

static imgref_rect window_of(const size_t *n) { return rect(n[0], n[1], n[2], n[3]); }

/* Gives up Python's lock for a call, unless it has few pixels: these take less time than the lock. */
#define FEW 1024
#define UNLOCKED(PIXELS, CALL)                                                                                               \
    PyThreadState *const others = (PIXELS) > FEW ? PyEval_SaveThread() : NULL;                                               \
    const imgref_status status = CALL;                                                                                       \
    if (others) PyEval_RestoreThread(others);

/* The columns and the rows, in pixels. */
#define SIZE(OF) (OF)->width / (OF)->step, (OF)->height
#define CORNERS(N) (N)[0], (N)[1], (N)[2], (N)[3]
/* (a window with more than 2^64 pixels is refused) */
#define IN(N) ((N)[2] * (N)[3])

/* What a call on a window gives: nothing, or a refusal of the window, or of the two numbers after it as the size of a tile. */
static PyObject *done_in(const image *i, imgref_status status, const size_t *n) {
    if (status == IMGREF_WINDOW_OUTSIDE) return REFUSED(status, "window", CORNERS(n), SIZE(i));
    if (status == IMGREF_NO_TILE) return REFUSED(status, "tile", n[4], n[5]);
    if (status != IMGREF_OK) return REFUSED(status, "status", status);
    Py_RETURN_NONE;
}

/* ---- the calls */

#define CALL(NAME) static PyObject *NAME(PyObject *module, PyObject *const *given, Py_ssize_t count)

CALL(call_get) {
    (void)module;
    size_t n[2];
    uint64_t bits[MOST_STEPS];
    Cells *it = first_in(given, count, 3);
    if (!it || !numbers_of(given + 1, 2, n)) return NULL;
    imgref_status status = image_get(&it->shown, n[0], n[1], bits);
    if (status != IMGREF_OK) return REFUSED(status, "place", n[0], n[1], SIZE(&it->shown));
    if (it->shown.step == 1) return PyLong_FromUnsignedLongLong(bits[0]);
    PyObject *made = PyList_New(it->shown.step);
    for (size_t k = 0; made && k < it->shown.step; k++) {
        PyObject *cell = PyLong_FromUnsignedLongLong(bits[k]);
        if (!cell || PyList_SetItem(made, k, cell)) Py_CLEAR(made);
    }
    return made;
}

CALL(call_put) {
    (void)module;
    size_t n[2];
    uint64_t bits[MOST_STEPS];
    Cells *it = first_in(given, count, 4);
    if (!it || !numbers_of(given + 1, 2, n) || !bits_of(given[3], it->shown.step, bits) || !is_written(it)) return NULL;
    imgref_status status = image_put(&it->shown, n[0], n[1], bits);
    if (status != IMGREF_OK) return REFUSED(status, "place", n[0], n[1], SIZE(&it->shown));
    Py_RETURN_NONE;
}

CALL(call_fill) {
    (void)module;
    size_t n[4];
    uint64_t bits[MOST_STEPS];
    Cells *it = first_in(given, count, 3);
    if (!it || !window_in(given[1], n) || !bits_of(given[2], it->shown.step, bits) || !is_written(it)) return NULL;
    const image i = it->shown;
    UNLOCKED(IN(n), image_fill(&i, window_of(n), bits))
    return done_in(&i, status, n);
}

CALL(call_count) {
    (void)module;
    size_t n[4], found = 0;
    uint64_t bits[MOST_STEPS];
    Cells *it = first_in(given, count, 3);
    if (!it || !window_in(given[1], n) || !bits_of(given[2], it->shown.step, bits)) return NULL;
    const image i = it->shown;
    UNLOCKED(IN(n), image_count(&i, window_of(n), bits, &found))
    return status == IMGREF_OK ? PyLong_FromSize_t(found) : done_in(&i, status, n);
}

/* Both images in cells of one size. */
static bool as_alike(const Cells *it, const Cells *other, image *i, image *o) {
    *i = it->shown;
    *o = other->shown;
    if (i->size * i->step != o->size * o->step) {
        PyErr_SetString(PyExc_TypeError, "pixels of another size");
        return false;
    }
    if (i->step < o->step) *i = with_step(*i, o->step);
    if (o->step < i->step) *o = with_step(*o, i->step);
    return true;
}

/* The same, where the one is written from the other. */
static bool are_written(const Cells *it, const Cells *other, image *i, image *o) { return is_written(it) && as_alike(it, other, i, o); }

static PyObject *same_memory(void) {
    return PyErr_Format(PyExc_ValueError, "both images have the same memory: move_window goes within one image, and copy() gives other memory");
}

static bool are_apart(const Cells *it, const Cells *other, image *i, image *o) {
    return are_written(it, other, i, o) && (!images_overlap(i, o) || same_memory() != NULL);
}

CALL(call_copy) {
    (void)module;
    size_t n[4];
    image i, o;
    Cells *it = first_in(given, count, 3), *other = it ? cells_in(given[2]) : NULL;
    if (!other || !window_in(given[1], n) || !are_written(it, other, &i, &o)) return NULL;
    image part;
    const bool is_inside = image_window(&i, window_of(n), &part) == IMGREF_OK, is_within = is_inside && images_overlap(&i, &o);
    if (is_within && (part.width != o.width || part.height != o.height)) return REFUSED(IMGREF_SIZES_DIFFER, "source", n[2], n[3], SIZE(&o));
    if (is_within && !images_apart(&part, &o)) return same_memory();
    UNLOCKED(IN(n), is_within ? image_copy_rows(&part, &o) : image_copy(&i, window_of(n), &o))
    if (status == IMGREF_SIZES_DIFFER) return REFUSED(status, "source", n[2], n[3], SIZE(&o));
    return done_in(&i, status, n);
}

CALL(call_move) {
    (void)module;
    size_t n[8];
    Cells *it = first_in(given, count, 3);
    if (!it || !window_in(given[1], n) || !window_in(given[2], n + 4) || !is_written(it)) return NULL;
    const image i = it->shown;
    UNLOCKED(IN(n), image_move(&i, window_of(n), window_of(n + 4)))
    if (status == IMGREF_SIZES_DIFFER) return REFUSED(status, "windows", n[2], n[3], n[6], n[7]);
    return done_in(&i, status, imgref_has_window(SIZE(&i), window_of(n)) ? n + 4 : n);
}

CALL(call_mosaic) {
    (void)module;
    size_t n[6];
    Cells *it = first_in(given, count, 4);
    if (!it || !window_in(given[1], n) || !numbers_of(given + 2, 2, n + 4) || !is_written(it)) return NULL;
    const image i = it->shown;
    UNLOCKED(IN(n), image_mosaic(&i, window_of(n), n[4], n[5]))
    return done_in(&i, status, n);
}

/* The pixels of an image go to another one, turned by so many quarters, or transposed where there are none. */
CALL(call_turn) {
    (void)module;
    size_t quarters;
    image i, o;
    Cells *target = first_in(given, count, 3), *it = target ? cells_in(given[1]) : NULL;
    if (!it || !number_of(given[2], &quarters) || !are_apart(target, it, &i, &o)) return NULL;
    UNLOCKED(ALL(&i), image_turn(&i, &o, quarters <= IMGREF_LEFT ? (imgref_turn)quarters : UINT32_MAX))
    if (status == IMGREF_OK) Py_RETURN_NONE;
    return quarters == IMGREF_HALF ? REFUSED(status, "target", SIZE(&o), SIZE(&i)) : REFUSED(status, "target", o.height, o.width / o.step, SIZE(&i));
}

/* The same in place. */
CALL(call_turn_in_place) {
    (void)module;
    size_t quarters;
    Cells *it = first_in(given, count, 2);
    if (!it || !number_of(given[1], &quarters) || !is_written(it)) return NULL;
    const image i = it->shown;
    UNLOCKED(ALL(&i), image_turn_in_place(&i, quarters <= IMGREF_LEFT ? (imgref_turn)quarters : UINT32_MAX))
    if (status == IMGREF_OK) Py_RETURN_NONE;
    return REFUSED(status, "square", SIZE(&i));
}

CALL(call_flip_rows) {
    (void)module;
    size_t n[4];
    Cells *it = first_in(given, count, 2);
    if (!it || !window_in(given[1], n) || !is_written(it)) return NULL;
    const image i = it->shown;
    UNLOCKED(IN(n), image_flip_rows(&i, window_of(n)))
    return done_in(&i, status, n);
}

CALL(call_flip_columns) {
    (void)module;
    size_t n[4];
    Cells *it = first_in(given, count, 2);
    if (!it || !window_in(given[1], n) || !is_written(it)) return NULL;
    const image i = it->shown;
    UNLOCKED(IN(n), image_flip_columns(&i, window_of(n)))
    return done_in(&i, status, n);
}

CALL(call_swap_rows) {
    (void)module;
    size_t n[2];
    Cells *it = first_in(given, count, 3);
    if (!it || !numbers_of(given + 1, 2, n) || !is_written(it)) return NULL;
    imgref_status status = image_swap_rows(&it->shown, n[0], n[1]);
    if (status != IMGREF_OK) return REFUSED(status, "row", n[0], n[1], it->shown.height);
    Py_RETURN_NONE;
}

/* A cell of several numbers is taken for so many cells. */
CALL(call_mosaic_means) {
    (void)module;
    size_t n[7];
    Cells *it = first_in(given, count, 5);
    if (!it || !window_in(given[1], n) || !numbers_of(given + 2, 3, n + 4) || !is_written(it)) return NULL;
    const image i = n[6] > it->shown.step ? with_step(it->shown, n[6]) : it->shown;
    UNLOCKED(IN(n), image_mosaic_means(&i, window_of(n), n[4], n[5]))
    return done_in(&i, status, n);
}

/* How many pixels have each value goes to an image of one row of numbers of eight bytes. */
CALL(call_histogram) {
    (void)module;
    Cells *it = first_in(given, count, 2), *counts = it ? cells_in(given[1]) : NULL;
    if (!counts || !is_written(counts)) return NULL;
    const image i = it->shown, o = counts->shown;
    if (i.size > 2 || i.step != 1 || o.size != 8 || o.len < (size_t)1 << 8 * i.size || images_overlap(&i, &o)) return PyErr_Format(PyExc_TypeError, "no counts of these pixels");
    UNLOCKED(ALL(&i), image_histogram(&i, CELLS(uint64_t, &o)))
    return done_in(&i, status, NULL);
}

CALL(call_equalize) {
    (void)module;
    Cells *it = first_in(given, count, 1);
    if (!it || !is_written(it)) return NULL;
    const image i = it->shown;
    if (i.size != 1) return PyErr_Format(PyExc_TypeError, "no bytes");
    UNLOCKED(ALL(&i), image_equalize(&i))
    return done_in(&i, status, NULL);
}

/* Whether an image can take a number of eight bytes for each cell of another one, whose pixels are single cells. */
static bool takes_numbers(const image *numbers, const image *of) {
    return of->step == 1 && numbers->size == 8 && numbers->width == of->width && numbers->height == of->height && !images_overlap(of, numbers);
}

/* The sums go to an image of the same size, of numbers of eight bytes. */
CALL(call_integral) {
    (void)module;
    Cells *it = first_in(given, count, 2), *areas = it ? cells_in(given[1]) : NULL;
    if (!areas || !is_written(areas)) return NULL;
    const image i = it->shown, o = areas->shown;
    if (i.size != 1 || !takes_numbers(&o, &i)) return PyErr_Format(PyExc_TypeError, "no sums of these pixels");
    UNLOCKED(ALL(&i), image_integral(&i, &o))
    return done_in(&i, status, NULL);
}

/* Asks for large pages where new memory has many: most of the time of a large copy goes into taking pages. (NumPy does the
 * same from the same size on.) */
static void take_large_pages(char *memory, size_t bytes) {
#ifdef MADV_HUGEPAGE
    const size_t page = 4096, skipped = page - (uintptr_t)memory % page;
    if (bytes >= (size_t)1 << 22) madvise(memory + skipped, bytes - skipped, MADV_HUGEPAGE);
#endif
}

/* Memory for a number for each place of an image, or NULL with an exception. It is never empty, since no pointer may be null. */
static size_t *room_of(const image *i) {
    const size_t bytes = (ALL(i) + 1) * sizeof(size_t);
    size_t *room = malloc(bytes);
    if (!room) PyErr_NoMemory();
    else take_large_pages((char *)room, bytes);
    return room;
}

/* A colour is taken for so many bytes. The sums lie first in the work buffer, since they have four bytes each. */
CALL(call_blur) {
    (void)module;
    size_t n[7], bytes, numbers;
    Cells *it = first_in(given, count, 5);
    if (!it || !window_in(given[1], n) || !numbers_of(given + 2, 3, n + 4) || !is_written(it)) return NULL;
    const image i = n[6] > it->shown.step ? with_step(it->shown, n[6]) : it->shown;
    if (i.size != 1) return PyErr_Format(PyExc_TypeError, "no bytes");
    const imgref_status found = image_blur_room(&i, window_of(n), &bytes, &numbers);
    if (found != IMGREF_OK) return done_in(&i, found, n);
    const size_t all = numbers * sizeof(uint32_t) + bytes + 1;
    char *room = malloc(all);
    if (!room) return PyErr_NoMemory();
    take_large_pages(room, all);
    UNLOCKED(IN(n), image_blur(&i, window_of(n), n[4], n[5], (uint8_t *)room + numbers * sizeof(uint32_t), bytes, (uint32_t *)(void *)room, numbers))
    free(room);
    if (status == IMGREF_TOO_LARGE) return REFUSED(status, "radius", n[4], n[5]);
    return done_in(&i, status, n);
}

/* It keeps Python's lock, so that no other thread of Python writes pixels meanwhile. (Where another process does, the library
 * writes nothing outside.) */
CALL(call_flood_fill) {
    (void)module;
    size_t n[2], *room;
    uint64_t bits[MOST_STEPS];
    Cells *it = first_in(given, count, 4);
    if (!it || !numbers_of(given + 1, 2, n) || !bits_of(given[3], it->shown.step, bits) || !is_written(it)) return NULL;
    const image i = it->shown;
    if (i.step != 1) return PyErr_Format(PyExc_TypeError, "a pixel of several cells");
    if (!(room = room_of(&i))) return NULL;
    const imgref_status status = image_flood_fill(&i, n[0], n[1], bits[0], room);
    free(room);
    if (status == IMGREF_PLACE_OUTSIDE) return REFUSED(status, "place", n[0], n[1], SIZE(&i));
    return done_in(&i, status, NULL);
}

/* How many connected components there are. The labels go to an image of the same size, of numbers of eight bytes. */
CALL(call_components) {
    (void)module;
    size_t *room;
    uint64_t regions = 0;
    Cells *it = first_in(given, count, 2), *labels = it ? cells_in(given[1]) : NULL;
    if (!labels || !is_written(labels)) return NULL;
    const image i = it->shown, o = labels->shown;
    if (!takes_numbers(&o, &i)) return PyErr_Format(PyExc_TypeError, "no labels of these pixels");
    if (!(room = room_of(&i))) return NULL;
    UNLOCKED(ALL(&i), image_components(&i, &o, room, &regions))
    free(room);
    return status == IMGREF_OK ? PyLong_FromUnsignedLongLong(regions) : done_in(&i, status, NULL);
}

CALL(call_bounding_box) {
    (void)module;
    uint64_t bits[MOST_STEPS];
    imgref_rect around = {0, 0, 0, 0};
    Cells *it = first_in(given, count, 2);
    if (!it || !bits_of(given[1], it->shown.step, bits)) return NULL;
    const image i = it->shown;
    if (i.step != 1) return PyErr_Format(PyExc_TypeError, "a pixel of several cells");
    UNLOCKED(ALL(&i), image_bounding_box(&i, bits[0], &around))
    if (status != IMGREF_OK) return done_in(&i, status, NULL);
    return Py_BuildValue("nnnn", around.left, around.top, around.width, around.height);
}

CALL(call_pack) {
    (void)module;
    Cells *it = first_in(given, count, 1);
    if (!it || !is_written(it)) return NULL;
    const image i = it->shown;
    UNLOCKED(ALL(&i), image_pack(&i))
    if (status == IMGREF_OK) it->shown.stride = i.width ? i.width : 1;
    return done_in(&i, status, NULL);
}

CALL(call_equal) {
    (void)module;
    image i, o;
    bool equal = false;
    Cells *it = first_in(given, count, 2), *other = it ? cells_in(given[1]) : NULL;
    if (!other || !as_alike(it, other, &i, &o)) return NULL;
    UNLOCKED(ALL(&i), image_equal(&i, &o, &equal))
    return status == IMGREF_OK ? PyBool_FromLong(equal) : done_in(&i, status, NULL);
}

/* Whether two images have memory in common. */
CALL(call_overlap) {
    (void)module;
    Cells *it = first_in(given, count, 2), *other = it ? cells_in(given[1]) : NULL;
    return other ? PyBool_FromLong(images_overlap(&it->shown, &other->shown)) : NULL;
}

/* (cells, width, height) of a window, whose memory the image's cells hold. */
CALL(call_window) {
    (void)module;
    size_t n[4];
    image shown;
    Cells *it = first_in(given, count, 2);
    if (!it || !window_in(given[1], n)) return NULL;
    imgref_status status = image_window(&it->shown, window_of(n), &shown);
    if (status != IMGREF_OK) return done_in(&it->shown, status, n);
    Cells *made = cells_made();
    if (!made) return NULL;
    made->parent = Py_NewRef(it->parent ? it->parent : (PyObject *)it);
    made->shown = shown;
    made->channels = it->channels;
    made->is_readonly = it->is_readonly;
    strcpy(made->format, it->format);
    return Py_BuildValue("Nnn", made, (Py_ssize_t)n[2], (Py_ssize_t)n[3]);
}

/* The bytes of the pixels in joined rows: they are written once, into new memory. */
CALL(call_joined) {
    (void)module;
    Cells *it = first_in(given, count, 1);
    if (!it) return NULL;
    const image i = it->shown;
    const size_t cells = i.width * i.height;
    PyObject *made = PyBytes_FromStringAndSize(NULL, cells * i.size);
    if (!made) return NULL;
    char *bytes = PyBytes_AsString(made);
    take_large_pages(bytes, cells * i.size);
    const image joined = {(uintptr_t)bytes, cells, i.width, i.height, i.width ? i.width : 1, i.size, i.step};
    UNLOCKED(ALL(&i), image_copy(&joined, whole(&joined), &i))
    if (status == IMGREF_OK) return made;
    Py_DECREF(made);
    return done_in(&i, status, NULL);
}

/* A bytearray of so many bytes, with no values yet. */
static PyObject *call_room(PyObject *module, PyObject *given) {
    (void)module;
    Py_ssize_t bytes = PyNumber_AsSsize_t(given, PyExc_ValueError);
    PyObject *made = bytes == -1 && PyErr_Occurred() ? NULL : PyByteArray_FromStringAndSize(NULL, bytes);
    if (made) take_large_pages(PyByteArray_AsString(made), bytes);
    return made;
}

/* The cells become those of an image that hasn't any. */
CALL(call_hold) {
    (void)module;
    if (count != 2 || !PyObject_TypeCheck(given[0], holder_type) || Py_TYPE(given[1]) != cells_type) return PyErr_Format(PyExc_TypeError, "no image, or no cells");
    Holder *self = (Holder *)given[0];
    if (self->cells) return PyErr_Format(PyExc_TypeError, "an image is made once, and keeps its memory");
    self->cells = Py_NewRef(given[1]);
    Py_RETURN_NONE;
}

/* Where the memory of a memoryview begins. */
static PyObject *call_address(PyObject *module, PyObject *given) {
    (void)module;
    Py_buffer held;
    if (PyObject_GetBuffer(given, &held, PyBUF_FULL_RO)) return NULL;
    PyObject *made = PyLong_FromVoidPtr(held.buf);
    PyBuffer_Release(&held);
    return made;
}

CALL(call_tile_count) {
    (void)module;
    size_t n[4], tiles = 0;
    if (count != 4) return PyErr_Format(PyExc_TypeError, "four numbers");
    if (!numbers_of(given, 4, n)) return NULL;
    imgref_status status = imgref_tile_count(n[0], n[1], n[2], n[3], &tiles);
    return status == IMGREF_OK ? PyLong_FromSize_t(tiles) : REFUSED(status, "tile", n[2], n[3]);
}

CALL(call_tile) {
    (void)module;
    size_t n[5];
    imgref_rect tile;
    if (count != 5) return PyErr_Format(PyExc_TypeError, "five numbers");
    if (!numbers_of(given, 5, n)) return NULL;
    imgref_status status = imgref_tile(n[0], n[1], n[2], n[3], n[4], &tile);
    if (status != IMGREF_OK) return REFUSED(status, "tile_number", n[0], n[1], n[2], n[3], n[4]);
    return Py_BuildValue("nnnn", tile.left, tile.top, tile.width, tile.height);
}

/* The bits of an integer in a cell, or a refusal of one that doesn't fit. */
static PyObject *encoded(PyObject *given, unsigned bits, bool is_signed, const char *format) {
    const uint64_t most = UINT64_MAX >> (64 - bits + is_signed);
    PyObject *number = PyNumber_Index(given);
    if (!number) return NULL;
    int outside = 0;
    const long long low = PyLong_AsLongLongAndOverflow(number, &outside);
    const bool is_below = outside < 0 || (!outside && low < 0);
    uint64_t value = low;
    if (outside > 0) {
        value = PyLong_AsUnsignedLongLong(number);
        outside = PyErr_Occurred() ? 1 : 0;
        PyErr_Clear();
    }
    if (outside || (is_below ? !is_signed || ~value > most : value > most)) {
        PyErr_Format(PyExc_ValueError, "%R doesn't fit into a cell of format '%s'", given, format);
        Py_DECREF(number);
        return NULL;
    }
    if (!is_below) return number;
    Py_DECREF(number);
    return PyLong_FromUnsignedLongLong(value & (most * 2 + 1));
}

#if __BYTE_ORDER__ == __ORDER_LITTLE_ENDIAN__
#define OWN "<"
#else
#define OWN ">"
#endif
#define ENCODE(LETTER, BITS, IS_SIGNED, FORMAT)                                                                              \
    static PyObject *encode_##LETTER(PyObject *module, PyObject *given) {                                                    \
        (void)module;                                                                                                        \
        return encoded(given, BITS, IS_SIGNED, FORMAT);                                                                      \
    }
ENCODE(b, 8, true, "b")
ENCODE(B, 8, false, "B")
ENCODE(h, 16, true, OWN "h")
ENCODE(H, 16, false, OWN "H")
ENCODE(i, 32, true, OWN "i")
ENCODE(I, 32, false, OWN "I")
ENCODE(q, 64, true, OWN "q")
ENCODE(Q, 64, false, OWN "Q")

#define NUMBER(LETTER) {"encode_" #LETTER, encode_##LETTER, METH_O, NULL}
#define FAST(NAME) {#NAME, (PyCFunction)(void (*)(void))call_##NAME, METH_FASTCALL, NULL}
static PyMethodDef calls[] = {
    FAST(get),  FAST(put),    FAST(fill),   FAST(copy), FAST(move), FAST(mosaic),     FAST(mosaic_means), FAST(pack), FAST(equal),
    FAST(hold), FAST(window), FAST(joined), FAST(overlap), {"room", call_room, METH_O, NULL},        {"address", call_address, METH_O, NULL},
    FAST(histogram), FAST(equalize), FAST(integral), FAST(flood_fill), FAST(components), FAST(bounding_box), FAST(blur),
    FAST(count), FAST(turn), FAST(turn_in_place), FAST(flip_rows), FAST(flip_columns), FAST(swap_rows),
    FAST(tile), FAST(tile_count), NUMBER(b), NUMBER(B), NUMBER(h), NUMBER(H), NUMBER(i), NUMBER(I), NUMBER(q), NUMBER(Q),
    {NULL, NULL, 0, NULL},
};

static PyModuleDef definition = {PyModuleDef_HEAD_INIT, "imgref._native", "The calls of the library on memory that is held.", -1, calls, NULL, NULL, NULL, NULL};

/* (the types are those of the process, so a subinterpreter would take those of the main interpreter away) */
PyMODINIT_FUNC PyInit__native(void) {
    if (PyInterpreterState_GetID(PyInterpreterState_Get())) return PyErr_Format(PyExc_ImportError, "no subinterpreter");
    cells_type = (PyTypeObject *)PyType_FromSpec(&cells_spec);
    holder_type = (PyTypeObject *)PyType_FromSpec(&holder_spec);
    PyObject *module = cells_type && holder_type ? PyModule_Create(&definition) : NULL;
    if (!module || PyModule_AddType(module, cells_type) || PyModule_AddType(module, holder_type)) {
        Py_XDECREF(module);
        return NULL;
    }
    return module;
}

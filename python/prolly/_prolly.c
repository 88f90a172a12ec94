/* The extension beneath the package: trees over anything that lends its bytes, which are never copied. */
#define PY_SSIZE_T_CLEAN
#include <Python.h>

#include "prolly.h"

static PyObject *ProllyError;

/* A slice in which a call answers. */
#define NO_BYTES {(const uint8_t *)"", 0}

/* Raises what a status says. `place` is the chunk or the record that it names, if it names one. */
static PyObject *refused(uint32_t status, uint64_t place) {
  if (status == PROLLY_MEMORY) return PyErr_NoMemory();
  if (status == PROLLY_USAGE) {
    PyErr_SetString(PyExc_ValueError, prolly_error_text(status));
    return NULL;
  }
  PyObject *named = prolly_names_place(status) ? PyLong_FromUnsignedLongLong(place) : Py_NewRef(Py_None);
  if (named == NULL) return NULL;
  PyObject *error = PyObject_CallFunction(ProllyError, "sIN", prolly_error_text(status), (unsigned)status, named);
  if (error != NULL) {
    PyErr_SetObject(ProllyError, error);
    Py_DECREF(error);
  }
  return NULL;
}

static PyObject *bytes_of(prolly_slice found) {
  return PyBytes_FromStringAndSize((const char *)found.ptr, (Py_ssize_t)found.len);
}

/* A pair of bytes. */
static PyObject *pair_of(prolly_slice key, prolly_slice value) {
  PyObject *one = bytes_of(key), *other = one == NULL ? NULL : bytes_of(value);
  PyObject *pair = other == NULL ? NULL : PyTuple_New(2);
  if (pair == NULL) {
    Py_XDECREF(one);
    Py_XDECREF(other);
    return NULL;
  }
  PyTuple_SET_ITEM(pair, 0, one);
  PyTuple_SET_ITEM(pair, 1, other);
  return pair;
}

/* The bytes that an object lends; an empty buffer may lend none. */
static prolly_slice lent(const Py_buffer *view) {
  prolly_slice slice = NO_BYTES;
  if (view->len > 0) {
    slice.ptr = view->buf;
    slice.len = (size_t)view->len;
  }
  return slice;
}

/* A key that an object lends, or none. */
typedef struct Key {
  prolly_slice bytes;
  Py_buffer view;
  int is_lent;
} Key;

static int take_key(Key *key, PyObject *object) {
  key->is_lent = PyObject_GetBuffer(object, &key->view, PyBUF_SIMPLE) == 0;
  if (key->is_lent) key->bytes = lent(&key->view);
  return key->is_lent;
}

static void let_key(Key *key) {
  if (key->is_lent) PyBuffer_Release(&key->view);
}

/* A range of keys, from one on and before another, where None is no key. */
typedef struct Range {
  Key from, to;
  bool bounded;
} Range;

static int take_range(Range *range, PyObject *start, PyObject *stop) {
  range->bounded = stop != Py_None;
  range->from = range->to = (Key){.bytes = NO_BYTES};
  if (start != Py_None && !take_key(&range->from, start)) return 0;
  if (stop == Py_None || take_key(&range->to, stop)) return 1;
  let_key(&range->from);
  return 0;
}

static void let_range(Range *range) {
  let_key(&range->from);
  let_key(&range->to);
}

/* ---- Trees */

typedef struct Tree {
  PyObject_HEAD
  Py_buffer view;
  int is_open;
  prolly_slice bytes;
  prolly_run *index;
  size_t runs;
  prolly_report report;
} Tree;

static PyTypeObject TreeType, PairsType;

/* Whether a tree can be asked. */
static int is_open(Tree *tree) {
  if (!tree->is_open) PyErr_SetString(PyExc_ValueError, "the tree is closed");
  return tree->is_open;
}

/* Writes the index, for which it asks for the size first. */
static uint32_t make_index(Tree *tree) {
  prolly_run none[1];
  size_t count = 0;
  uint32_t status = prolly_index(tree->bytes.ptr, tree->bytes.len, none, 0, &count);
  if (status != PROLLY_DONE && status != PROLLY_NO_ROOM) return status;
  tree->index = PyMem_RawMalloc((count > 0 ? count : 1) * sizeof *tree->index);
  if (tree->index == NULL) return PROLLY_MEMORY;
  return prolly_index(tree->bytes.ptr, tree->bytes.len, tree->index, count, &tree->runs);
}

static PyObject *tree_new(PyTypeObject *type, PyObject *args, PyObject *words) {
  static char *names[] = {"data", NULL};
  PyObject *data;
  if (!PyArg_ParseTupleAndKeywords(args, words, "O", names, &data)) return NULL;
  Tree *tree = (Tree *)type->tp_alloc(type, 0);
  if (tree == NULL) return NULL;
  if (PyObject_GetBuffer(data, &tree->view, PyBUF_SIMPLE) < 0) {
    Py_DECREF(tree);
    return NULL;
  }
  tree->is_open = 1;
  tree->bytes = lent(&tree->view);
  uint32_t status;
  Py_BEGIN_ALLOW_THREADS
  status = prolly_check(tree->bytes.ptr, tree->bytes.len, &tree->report);
  if (status == PROLLY_DONE) status = make_index(tree);
  Py_END_ALLOW_THREADS
  if (status != PROLLY_DONE) {
    refused(status, tree->report.faulty);
    Py_DECREF(tree);
    return NULL;
  }
  return (PyObject *)tree;
}

/* Closes a tree. To let its bytes go may run code, for which it is closed already. */
static void let_go(Tree *tree) {
  int was_open = tree->is_open;
  tree->is_open = 0;
  PyMem_RawFree(tree->index);
  tree->index = NULL;
  if (was_open) PyBuffer_Release(&tree->view);
}

static void tree_dealloc(PyObject *self) {
  let_go((Tree *)self);
  Py_TYPE(self)->tp_free(self);
}

static PyObject *tree_close(PyObject *self, PyObject *unused) {
  (void)unused;
  let_go((Tree *)self);
  Py_RETURN_NONE;
}

static PyObject *tree_enter(PyObject *self, PyObject *unused) {
  (void)unused;
  return is_open((Tree *)self) ? Py_NewRef(self) : NULL;
}

static PyObject *tree_exit(PyObject *self, PyObject *unused) { return tree_close(self, unused); }

/* Whether a tree has a key: 1, 0 where it has not, and -1 with an error. Copies the value to `*value`, unless that is not asked
 * for. To borrow a key, and to let it go, may run code that closes the tree. */
static int found(Tree *tree, PyObject *object, PyObject **value) {
  Key key;
  if (!take_key(&key, object)) return -1;
  int answer = -1;
  if (is_open(tree)) {
    prolly_slice bytes = NO_BYTES;
    uint32_t status = prolly_get(tree->bytes.ptr, tree->bytes.len, tree->index, tree->runs, key.bytes.ptr,
                                 key.bytes.len, &bytes);
    if (status > PROLLY_NONE) refused(status, 0);
    else if (status == PROLLY_NONE) answer = 0;
    else if (value == NULL || (*value = bytes_of(bytes)) != NULL) answer = 1;
  }
  let_key(&key);
  return answer;
}

static PyObject *tree_getitem(PyObject *self, PyObject *key) {
  PyObject *value = NULL;
  if (found((Tree *)self, key, &value) == 0) PyErr_SetObject(PyExc_KeyError, key);
  return value;
}

/* get(key, /, default=None). A default that is named stands behind the others. */
static PyObject *tree_get(PyObject *self, PyObject *const *args, Py_ssize_t count, PyObject *names) {
  PyObject *value = NULL;
  Py_ssize_t named = names == NULL ? 0 : PyTuple_GET_SIZE(names);
  int is_right = count >= 1 && count + named <= 2;
  if (is_right && named == 1) is_right = PyUnicode_CompareWithASCIIString(PyTuple_GET_ITEM(names, 0), "default") == 0;
  if (!is_right) {
    PyErr_SetString(PyExc_TypeError, "get takes a key, and as default what to give where there is none");
    return NULL;
  }
  if (found((Tree *)self, args[0], &value) != 0) return value;
  return Py_NewRef(count + named == 2 ? args[1] : Py_None);
}

static int tree_contains(PyObject *self, PyObject *key) { return found((Tree *)self, key, NULL); }

static Py_ssize_t tree_length(PyObject *self) {
  return is_open((Tree *)self) ? (Py_ssize_t)((Tree *)self)->report.pairs : -1;
}

static PyObject *tree_nth(PyObject *self, PyObject *number) {
  Tree *tree = (Tree *)self;
  prolly_slice key = NO_BYTES, value = NO_BYTES;
  /* No tree has a pair of a number that is too large for a size, or below 0. */
  Py_ssize_t n = PyNumber_AsSsize_t(number, PyExc_IndexError);
  if ((n == -1 && PyErr_Occurred()) || !is_open(tree)) return NULL;
  uint32_t status = PROLLY_NONE;
  if (n >= 0)
    status = prolly_nth(tree->bytes.ptr, tree->bytes.len, tree->index, tree->runs, (uint64_t)n, &key, &value);
  if (status == PROLLY_DONE) return pair_of(key, value);
  if (status != PROLLY_NONE) return refused(status, 0);
  PyErr_SetString(PyExc_IndexError, "the tree has no pair of this number");
  return NULL;
}

/* ---- Going over the pairs of a tree */

typedef struct Pairs {
  PyObject_HEAD
  Tree *tree;
  prolly_cursor cursor;
  PyObject *stop; /* bytes, or NULL */
  int only_keys;
} Pairs;

/* Whether a key comes before another. */
static int is_before(prolly_slice key, PyObject *stop) {
  size_t len = (size_t)PyBytes_GET_SIZE(stop);
  int order = memcmp(key.ptr, PyBytes_AS_STRING(stop), key.len < len ? key.len : len);
  return order < 0 || (order == 0 && key.len < len);
}

static PyObject *pairs_next(PyObject *self) {
  Pairs *pairs = (Pairs *)self;
  Tree *tree = pairs->tree;
  prolly_slice key = NO_BYTES, value = NO_BYTES;
  if (!is_open(tree)) return NULL;
  uint32_t status = prolly_next(tree->bytes.ptr, tree->bytes.len, tree->index, tree->runs, &pairs->cursor, &key, &value);
  if (status == PROLLY_NONE || (status == PROLLY_DONE && pairs->stop != NULL && !is_before(key, pairs->stop))) return NULL;
  if (status != PROLLY_DONE) return refused(status, 0);
  return pairs->only_keys ? bytes_of(key) : pair_of(key, value);
}

static void pairs_dealloc(PyObject *self) {
  Py_XDECREF(((Pairs *)self)->tree);
  Py_XDECREF(((Pairs *)self)->stop);
  PyObject_Free(self);
}

/* Puts a cursor before the first pair whose key is not less than this one. */
static int seek(Tree *tree, PyObject *start, prolly_cursor *cursor) {
  Key from;
  if (!take_key(&from, start)) return 0;
  /* To borrow a key may run code that closes the tree. */
  int is_right = is_open(tree);
  if (is_right) {
    uint32_t status = prolly_seek(tree->bytes.ptr, tree->bytes.len, tree->index, tree->runs, from.bytes.ptr,
                                  from.bytes.len, cursor);
    is_right = status == PROLLY_DONE;
    if (!is_right) refused(status, 0);
  }
  let_key(&from);
  return is_right;
}

/* Goes over the pairs, or the keys, from one key on and up to another. */
static PyObject *go_over(Tree *tree, PyObject *start, PyObject *stop, int only_keys) {
  if (!is_open(tree)) return NULL;
  Pairs *pairs = PyObject_New(Pairs, &PairsType);
  if (pairs == NULL) return NULL;
  pairs->tree = (Tree *)Py_NewRef((PyObject *)tree);
  pairs->cursor = (prolly_cursor){0, 0, 0};
  pairs->stop = stop == Py_None ? NULL : PyBytes_FromObject(stop);
  pairs->only_keys = only_keys;
  int is_right = stop == Py_None || pairs->stop != NULL;
  if (is_right && start != Py_None) is_right = seek(tree, start, &pairs->cursor);
  if (is_right) return (PyObject *)pairs;
  Py_DECREF(pairs);
  return NULL;
}

static PyObject *tree_iter(PyObject *self) { return go_over((Tree *)self, Py_None, Py_None, 1); }

/* Goes over the pairs, or the keys, of the range that the words say. */
static PyObject *go_over_range(PyObject *self, PyObject *args, PyObject *words, int only_keys) {
  static char *names[] = {"start", "stop", NULL};
  PyObject *start = Py_None, *stop = Py_None;
  if (!PyArg_ParseTupleAndKeywords(args, words, "|OO", names, &start, &stop)) return NULL;
  return go_over((Tree *)self, start, stop, only_keys);
}

static PyObject *tree_keys(PyObject *self, PyObject *args, PyObject *words) {
  return go_over_range(self, args, words, 1);
}

static PyObject *tree_items(PyObject *self, PyObject *args, PyObject *words) {
  return go_over_range(self, args, words, 0);
}

/* What a proof is made out of: the bytes of a tree of which the root is known. */
typedef struct Proved {
  prolly_slice bytes;
  uint8_t version;
  const uint8_t *root;
} Proved;

/* The proof of a range, or of the key that it is from, into room for so many bytes. */
static uint32_t prove_into(const Proved *of, const Range *range, int is_range, uint8_t *out, size_t room, size_t *count,
                           uint64_t *chunk) {
  prolly_slice from = range->from.bytes, to = range->to.bytes;
  if (is_range)
    return prolly_prove_range(of->bytes.ptr, of->bytes.len, of->version, of->root, from.ptr, from.len, to.ptr, to.len,
                              range->bounded, out, room, count, chunk);
  return prolly_prove(of->bytes.ptr, of->bytes.len, of->version, of->root, from.ptr, from.len, out, room, count, chunk);
}

/* The room with which a proof is begun, since one for which it is too small is made twice. That of a key is enough for chunks of
 * some 2^8 pairs. No proof out of a checked file is longer than the file. */
#define KEY_ROOM ((size_t)64 << 10)
#define RANGE_ROOM ((size_t)4 << 20)

static PyObject *proof_in(Proved of, const Range *range, int is_range) {
  uint8_t *proof = NULL, *wider;
  size_t count = is_range ? RANGE_ROOM : KEY_ROOM;
  if (count > of.bytes.len) count = of.bytes.len;
  uint64_t chunk = 0;
  uint32_t status = PROLLY_NO_ROOM;
  for (int i = 0; i < 2 && status == PROLLY_NO_ROOM; i++) {
    size_t room = count;
    wider = PyMem_RawRealloc(proof, room);
    if (wider != NULL) proof = wider;
    status = wider == NULL ? PROLLY_MEMORY : prove_into(&of, range, is_range, proof, room, &count, &chunk);
  }
  PyObject *answer = NULL;
  if (status == PROLLY_DONE) answer = PyBytes_FromStringAndSize((char *)proof, (Py_ssize_t)count);
  else refused(status, chunk);
  PyMem_RawFree(proof);
  return answer;
}

static Proved proved_by(Tree *tree) { return (Proved){tree->bytes, tree->report.version, tree->report.root}; }

static PyObject *tree_prove(PyObject *self, PyObject *key) {
  Range range = {.bounded = false};
  if (!take_key(&range.from, key)) return NULL;
  PyObject *answer = is_open((Tree *)self) ? proof_in(proved_by((Tree *)self), &range, 0) : NULL;
  let_key(&range.from);
  return answer;
}

static PyObject *tree_prove_range(PyObject *self, PyObject *args, PyObject *words) {
  static char *names[] = {"start", "stop", NULL};
  PyObject *start = Py_None, *stop = Py_None;
  Range range;
  if (!PyArg_ParseTupleAndKeywords(args, words, "|OO", names, &start, &stop)) return NULL;
  if (!take_range(&range, start, stop)) return NULL;
  PyObject *answer = is_open((Tree *)self) ? proof_in(proved_by((Tree *)self), &range, 1) : NULL;
  let_range(&range);
  return answer;
}

static PyObject *tree_root(PyObject *self, void *unused) {
  (void)unused;
  return PyBytes_FromStringAndSize((const char *)((Tree *)self)->report.root, 20);
}

static PyObject *tree_bits(PyObject *self, void *unused) {
  (void)unused;
  return PyLong_FromLong(((Tree *)self)->report.bits);
}

static PyObject *tree_version(PyObject *self, void *unused) {
  (void)unused;
  return PyLong_FromLong(((Tree *)self)->report.version);
}

static PyMethodDef tree_methods[] = {
    {"get", (PyCFunction)(void (*)(void))tree_get, METH_FASTCALL | METH_KEYWORDS,
     "get(key, /, default=None): the value of a key, or the other one where it has none."},
    {"nth", tree_nth, METH_O, "nth(n, /): the pair of this number, counted from 0. IndexError where there is none."},
    {"keys", (PyCFunction)(void (*)(void))tree_keys, METH_VARARGS | METH_KEYWORDS,
     "keys(start=None, stop=None): the keys in their order, from start on and before stop."},
    {"items", (PyCFunction)(void (*)(void))tree_items, METH_VARARGS | METH_KEYWORDS,
     "items(start=None, stop=None): the pairs in the order of their keys, from start on and before stop."},
    {"prove", tree_prove, METH_O, "prove(key, /): the proof of what the tree has at a key, for who knows the root alone."},
    {"prove_range", (PyCFunction)(void (*)(void))tree_prove_range, METH_VARARGS | METH_KEYWORDS,
     "prove_range(start=None, stop=None): the proof of all pairs from start on and before stop."},
    {"close", tree_close, METH_NOARGS, "close(): lets the bytes go. The tree can't be asked any more."},
    {"__enter__", tree_enter, METH_NOARGS, NULL},
    {"__exit__", tree_exit, METH_VARARGS, NULL},
    {NULL, NULL, 0, NULL}};

static PyGetSetDef tree_fields[] = {
    {"root", tree_root, NULL, "The reference of the root, 20 bytes.", NULL},
    {"bits", tree_bits, NULL, "By how many bits the entries were cut.", NULL},
    {"version", tree_version, NULL, "The version of the file, 1 or 2.", NULL},
    {NULL, NULL, NULL, NULL, NULL}};

static PyMappingMethods tree_mapping = {tree_length, tree_getitem, NULL};
static PySequenceMethods tree_sequence = {.sq_contains = tree_contains};

static PyTypeObject TreeType = {
    PyVarObject_HEAD_INIT(NULL, 0).tp_name = "prolly._prolly.Tree",
    .tp_doc = "A checked tree over bytes that the object given lends. They may not change while it is open.",
    .tp_basicsize = sizeof(Tree),
    .tp_flags = Py_TPFLAGS_DEFAULT | Py_TPFLAGS_BASETYPE,
    .tp_new = tree_new,
    .tp_dealloc = tree_dealloc,
    .tp_iter = tree_iter,
    .tp_as_mapping = &tree_mapping,
    .tp_as_sequence = &tree_sequence,
    .tp_methods = tree_methods,
    .tp_getset = tree_fields,
};

static PyTypeObject PairsType = {
    PyVarObject_HEAD_INIT(NULL, 0).tp_name = "prolly._prolly.Pairs",
    .tp_basicsize = sizeof(Pairs),
    .tp_flags = Py_TPFLAGS_DEFAULT,
    .tp_dealloc = pairs_dealloc,
    .tp_iter = PyObject_SelfIter,
    .tp_iternext = pairs_next,
};

/* ---- Comparing two trees */

typedef struct Changes {
  PyObject_HEAD
  Tree *old, *new;
  prolly_cursors cursors;
} Changes;

static PyObject *changes_next(PyObject *self) {
  Changes *changes = (Changes *)self;
  Tree *old = changes->old, *new = changes->new;
  prolly_slice key = NO_BYTES, before = NO_BYTES, after = NO_BYTES;
  uint32_t sides = 0;
  if (!is_open(old) || !is_open(new)) return NULL;
  uint32_t status =
      prolly_diff_next(old->bytes.ptr, old->bytes.len, old->index, old->runs, new->bytes.ptr, new->bytes.len, new->index,
                       new->runs, &changes->cursors, &key, &before, &after, &sides);
  if (status == PROLLY_NONE) return NULL;
  if (status != PROLLY_DONE) return refused(status, 0);
  return Py_BuildValue("NNN", bytes_of(key), sides & 1 ? bytes_of(before) : Py_NewRef(Py_None),
                       sides & 2 ? bytes_of(after) : Py_NewRef(Py_None));
}

static void changes_dealloc(PyObject *self) {
  Py_XDECREF(((Changes *)self)->old);
  Py_XDECREF(((Changes *)self)->new);
  PyObject_Free(self);
}

static PyTypeObject ChangesType = {
    PyVarObject_HEAD_INIT(NULL, 0).tp_name = "prolly._prolly.Changes",
    .tp_basicsize = sizeof(Changes),
    .tp_flags = Py_TPFLAGS_DEFAULT,
    .tp_dealloc = changes_dealloc,
    .tp_iter = PyObject_SelfIter,
    .tp_iternext = changes_next,
};

/* diff(old, new) -> Changes */
static PyObject *diff(PyObject *module, PyObject *args) {
  (void)module;
  PyObject *old, *new;
  if (!PyArg_ParseTuple(args, "O!O!", &TreeType, &old, &TreeType, &new)) return NULL;
  if (!is_open((Tree *)old) || !is_open((Tree *)new)) return NULL;
  Changes *changes = PyObject_New(Changes, &ChangesType);
  if (changes == NULL) return NULL;
  changes->old = (Tree *)Py_NewRef(old);
  changes->new = (Tree *)Py_NewRef(new);
  memset(&changes->cursors, 0, sizeof changes->cursors);
  return (PyObject *)changes;
}

/* ---- Calls without a tree */

/* A buffer that grows. */
typedef struct Room {
  uint8_t *bytes;
  size_t len, room;
} Room;

static int reserve(Room *room, size_t more) {
  if (room->room - room->len >= more) return 1;
  size_t wanted = room->room * 2 + more;
  uint8_t *bytes = PyMem_RawRealloc(room->bytes, wanted);
  if (bytes == NULL) return 0;
  room->bytes = bytes;
  room->room = wanted;
  return 1;
}

/* Appends the record of one pair. A list is copied, since to borrow its key may run code that changes it. */
static int append_pair(Room *records, PyObject *pair) {
  PyObject *parts = PySequence_Tuple(pair);
  if (parts == NULL) return 0;
  Key key = {.is_lent = 0}, value = {.is_lent = 0};
  int is_right = PyTuple_GET_SIZE(parts) == 2;
  if (!is_right) PyErr_SetString(PyExc_ValueError, "a pair is a key and a value");
  else is_right = take_key(&key, PyTuple_GET_ITEM(parts, 0)) && take_key(&value, PyTuple_GET_ITEM(parts, 1));
  if (is_right) {
    prolly_slice k = key.bytes, v = value.bytes;
    uint32_t status = PROLLY_MEMORY;
    if (reserve(records, k.len + v.len + 6))
      status = prolly_record(k.ptr, k.len, v.ptr, v.len, records->bytes, records->room, &records->len);
    if (status == PROLLY_USAGE) PyErr_SetString(PyExc_ValueError, "a key has 1,024 bytes at most, a value 65,536");
    else if (status != PROLLY_DONE) refused(status, 0);
    is_right = status == PROLLY_DONE;
  }
  let_key(&key);
  let_key(&value);
  Py_DECREF(parts);
  return is_right;
}

/* chunk_file(pairs, bits, version) -> (bytes, root) */
static PyObject *chunk_file(PyObject *module, PyObject *args) {
  (void)module;
  PyObject *pairs, *pair, *answer = NULL;
  unsigned char bits, version;
  if (!PyArg_ParseTuple(args, "Obb", &pairs, &bits, &version)) return NULL;
  PyObject *iterator = PyObject_GetIter(pairs);
  if (iterator == NULL) return NULL;
  Room records = {NULL, 0, 0}, file = {NULL, 0, 0};
  int is_right = reserve(&records, 4096);
  if (!is_right) PyErr_NoMemory();
  while (is_right && (pair = PyIter_Next(iterator)) != NULL) {
    is_right = append_pair(&records, pair);
    Py_DECREF(pair);
  }
  Py_DECREF(iterator);
  uint8_t root[20];
  uint64_t place = 0;
  uint32_t status = PROLLY_NO_ROOM;
  size_t count = records.len + records.len / 4 + 4096;
  if (is_right && !PyErr_Occurred()) {
    Py_BEGIN_ALLOW_THREADS
    for (int i = 0; i < 2 && status == PROLLY_NO_ROOM; i++) {
      status = reserve(&file, count) ? PROLLY_DONE : PROLLY_MEMORY;
      if (status == PROLLY_DONE)
        status = prolly_scratch(version, bits, records.bytes, records.len, file.bytes, file.room, &count, root, &place);
    }
    Py_END_ALLOW_THREADS
    if (status == PROLLY_DONE)
      answer = Py_BuildValue("y#y#", (char *)file.bytes, (Py_ssize_t)count, (char *)root, (Py_ssize_t)20);
    else refused(status, place);
  }
  PyMem_RawFree(records.bytes);
  PyMem_RawFree(file.bytes);
  return answer;
}

/* Whether a root has the length of one. */
static int is_root(const Py_buffer *root) {
  if (root->len != 20) PyErr_SetString(PyExc_ValueError, "a root has 20 bytes");
  return root->len == 20;
}

/* prove(data, root, key, version) -> bytes */
static PyObject *prove(PyObject *module, PyObject *args) {
  (void)module;
  Py_buffer data, root;
  PyObject *key, *answer = NULL;
  unsigned char version;
  if (!PyArg_ParseTuple(args, "y*y*Ob", &data, &root, &key, &version)) return NULL;
  Range range = {.bounded = false};
  if (is_root(&root) && take_key(&range.from, key)) {
    answer = proof_in((Proved){lent(&data), version, root.buf}, &range, 0);
    let_key(&range.from);
  }
  PyBuffer_Release(&data);
  PyBuffer_Release(&root);
  return answer;
}

/* prove_range(data, root, start, stop, version) -> bytes */
static PyObject *prove_range(PyObject *module, PyObject *args) {
  (void)module;
  Py_buffer data, root;
  PyObject *start, *stop, *answer = NULL;
  unsigned char version;
  if (!PyArg_ParseTuple(args, "y*y*OOb", &data, &root, &start, &stop, &version)) return NULL;
  Range range;
  if (is_root(&root) && take_range(&range, start, stop)) {
    answer = proof_in((Proved){lent(&data), version, root.buf}, &range, 1);
    let_range(&range);
  }
  PyBuffer_Release(&data);
  PyBuffer_Release(&root);
  return answer;
}

/* verify(root, key, proof, version) -> bytes or None */
static PyObject *verify(PyObject *module, PyObject *args) {
  (void)module;
  Py_buffer root, key, proof;
  unsigned char version;
  if (!PyArg_ParseTuple(args, "y*y*y*b", &root, &key, &proof, &version)) return NULL;
  PyObject *answer = NULL;
  prolly_slice k = lent(&key), p = lent(&proof), value = NO_BYTES;
  uint64_t chunk = 0;
  if (is_root(&root)) {
    uint32_t status = prolly_verify(version, root.buf, k.ptr, k.len, p.ptr, p.len, &value, &chunk);
    if (status == PROLLY_DONE) answer = bytes_of(value);
    else if (status == PROLLY_NONE) answer = Py_NewRef(Py_None);
    else refused(status, chunk);
  }
  PyBuffer_Release(&root);
  PyBuffer_Release(&key);
  PyBuffer_Release(&proof);
  return answer;
}

/* Verifies a proof of a range, and makes the index of what it shows. */
static uint32_t index_shown(Tree *shown, uint8_t version, const uint8_t *root, const Range *range, uint64_t *chunk) {
  prolly_slice from = range->from.bytes, to = range->to.bytes, proof = shown->bytes;
  size_t count = proof.len / 256 + 1;
  uint32_t status = PROLLY_NO_ROOM;
  for (int i = 0; i < 2 && status == PROLLY_NO_ROOM; i++) {
    size_t room = count;
    PyMem_RawFree(shown->index);
    shown->index = PyMem_RawMalloc(room * sizeof *shown->index);
    if (shown->index == NULL) return PROLLY_MEMORY;
    status = prolly_verify_range(version, root, from.ptr, from.len, to.ptr, to.len, range->bounded, proof.ptr, proof.len,
                                 shown->index, room, &count, chunk);
  }
  shown->runs = count;
  return status;
}

/* Bytes that nobody changes: those of an object, or a copy of what it lends. */
static PyObject *own_bytes(PyObject *object) {
  if (PyBytes_CheckExact(object)) return Py_NewRef(object);
  Py_buffer view;
  if (PyObject_GetBuffer(object, &view, PyBUF_SIMPLE) < 0) return NULL;
  PyObject *copy = PyBytes_FromStringAndSize(view.buf, view.len);
  PyBuffer_Release(&view);
  return copy;
}

/* A key that nobody changes, or None. */
static PyObject *own_key(PyObject *key) { return key == Py_None ? Py_NewRef(key) : own_bytes(key); }

/* verify_range(root, start, stop, proof, version) -> Pairs */
static PyObject *verify_range(PyObject *module, PyObject *args) {
  (void)module;
  Py_buffer root;
  PyObject *start, *stop, *given, *answer = NULL;
  unsigned char version;
  Range range;
  if (!PyArg_ParseTuple(args, "y*OOOb", &root, &start, &stop, &given, &version)) return NULL;
  /* The pairs are gone over as those of a tree, whose bytes are the proof. The range is read twice: when the proof is
   * verified, and when its pairs are indexed. */
  PyObject *first = own_key(start), *end = first != NULL ? own_key(stop) : NULL;
  PyObject *proof = end != NULL && is_root(&root) ? own_bytes(given) : NULL;
  Tree *shown = proof != NULL ? (Tree *)TreeType.tp_alloc(&TreeType, 0) : NULL;
  if (shown != NULL && PyObject_GetBuffer(proof, &shown->view, PyBUF_SIMPLE) == 0) {
    shown->is_open = 1;
    shown->bytes = lent(&shown->view);
    if (take_range(&range, first, end)) {
      uint32_t status;
      uint64_t chunk = 0;
      Py_BEGIN_ALLOW_THREADS
      status = index_shown(shown, version, root.buf, &range, &chunk);
      Py_END_ALLOW_THREADS
      let_range(&range);
      answer = status == PROLLY_DONE ? go_over(shown, Py_None, Py_None, 0) : refused(status, chunk);
    }
  }
  Py_XDECREF(shown);
  Py_XDECREF(proof);
  Py_XDECREF(first);
  Py_XDECREF(end);
  PyBuffer_Release(&root);
  return answer;
}

static PyMethodDef functions[] = {
    {"chunk_file", chunk_file, METH_VARARGS, "chunk_file(pairs, bits, version): the bytes of the chunk file, and its root."},
    {"diff", diff, METH_VARARGS, "diff(old, new): the changes, each a key, the old value and the new one, or None for none."},
    {"prove", prove, METH_VARARGS, "prove(data, root, key, version): a proof, out of a chunk file that nobody checked."},
    {"verify", verify, METH_VARARGS, "verify(root, key, proof, version): the value that a proof shows, or None."},
    {"prove_range", prove_range, METH_VARARGS, "prove_range(data, root, start, stop, version): that of a range."},
    {"verify_range", verify_range, METH_VARARGS, "verify_range(root, start, stop, proof, version): the pairs that a proof shows."},
    {NULL, NULL, 0, NULL}};

static struct PyModuleDef module = {PyModuleDef_HEAD_INIT, "prolly._prolly", NULL, -1, functions, NULL, NULL, NULL, NULL};

PyMODINIT_FUNC PyInit__prolly(void) {
  if (PyType_Ready(&TreeType) < 0 || PyType_Ready(&PairsType) < 0 || PyType_Ready(&ChangesType) < 0) return NULL;
  PyObject *faults = PyImport_ImportModule("prolly.faults");
  if (faults == NULL) return NULL;
  ProllyError = PyObject_GetAttrString(faults, "ProllyError");
  Py_DECREF(faults);
  PyObject *self = ProllyError == NULL ? NULL : PyModule_Create(&module);
  if (self != NULL && PyModule_AddObjectRef(self, "Tree", (PyObject *)&TreeType) < 0) Py_CLEAR(self);
  /* The package takes the class from here, so that it is the one that is raised, also where the package is imported anew. */
  if (self != NULL && PyModule_AddObjectRef(self, "ProllyError", ProllyError) < 0) Py_CLEAR(self);
  return self;
}

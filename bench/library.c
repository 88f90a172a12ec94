/* library FILE PROBES [FOLDER]: how long it takes from C to load the pairs of a chunk file again, to look random keys of them
 * up, and to go over all of them: with the library, and, with FOLDER, with SQLite and with LMDB, where they are installed. Their
 * bases are made there. */
#include "prolly.h"

#include <stdio.h>
#include <stdlib.h>
#include <string.h>
#include <time.h>
#ifdef WITH_LMDB
#include <lmdb.h>
#endif
#ifdef WITH_SQLITE
#include <sqlite3.h>
#endif

/* How much of a file SQLite and LMDB may map. */
#define MAPPED 1073741824

#define WANT(holds)                                                        \
  do {                                                                     \
    if (!(holds)) {                                                        \
      fprintf(stderr, "%s:%d: not so: %s\n", __FILE__, __LINE__, #holds);  \
      exit(1);                                                             \
    }                                                                      \
  } while (0)

typedef struct pair {
  prolly_slice key, value;
} pair;

/* All pairs, and keys that are there. */
static pair *pairs;
static size_t count, probes;
static prolly_slice *keys;

static double now(void) { return (double)clock() / CLOCKS_PER_SEC; }

static void tell(const char *name, double load, double check, double gets, double scan) {
  printf("from C, %-18s %6.2f s %6.2f s %6.2f us %7.3f s\n", name, load, check, gets / (double)probes * 1e6, scan);
  fflush(stdout);
}

static uint64_t random_number(void) {
  static uint64_t state = 88172645463325252u;
  state ^= state << 13;
  state ^= state >> 7;
  state ^= state << 17;
  return state;
}

static uint8_t *read_file(const char *name, size_t *len) {
  FILE *file = fopen(name, "rb");
  WANT(file != NULL && fseek(file, 0, SEEK_END) == 0);
  *len = (size_t)ftell(file);
  uint8_t *bytes = malloc(*len);
  rewind(file);
  WANT(bytes != NULL && fread(bytes, 1, *len, file) == *len);
  fclose(file);
  return bytes;
}

/* ---- with the library */

/* The chunk file of all pairs again. */
static uint8_t *loaded(const prolly_report *report, size_t len) {
  size_t records_len = 0, room = 0, file_len;
  for (size_t i = 0; i < count; i++) room += pairs[i].key.len + pairs[i].value.len + 6;
  uint8_t *records = malloc(room), *file = malloc(len), root[20];
  uint64_t place;
  WANT(records != NULL && file != NULL);
  for (size_t i = 0; i < count; i++)
    WANT(prolly_record(pairs[i].key.ptr, pairs[i].key.len, pairs[i].value.ptr, pairs[i].value.len, records, room,
                       &records_len) == PROLLY_DONE);
  WANT(prolly_scratch(report->version, report->bits, records, records_len, file, len, &file_len, root, &place) ==
       PROLLY_DONE);
  WANT(memcmp(root, report->root, 20) == 0);
  free(records);
  return file;
}

static prolly_run *index_of(const uint8_t *bytes, size_t len, size_t *runs) {
  prolly_run none[1];
  prolly_index(bytes, len, none, 0, runs);
  prolly_run *index = malloc(*runs * sizeof *index);
  WANT(index != NULL && prolly_index(bytes, len, index, *runs, runs) == PROLLY_DONE);
  return index;
}

static void by_library(const uint8_t *bytes, size_t len, const prolly_report *report) {
  prolly_report again;
  prolly_slice key = PROLLY_EMPTY, value = PROLLY_EMPTY;
  prolly_cursor cursor = {0, 0, 0};
  size_t runs, found = 0, passed = 0;
  char name[32];
  double begun = now();
  uint8_t *file = loaded(report, len);
  double load = now();
  WANT(prolly_check(file, len, &again) == PROLLY_DONE);
  prolly_run *index = index_of(bytes, len, &runs);
  double checked = now();
  for (size_t i = 0; i < probes; i++)
    found += prolly_get(bytes, len, index, runs, keys[i].ptr, keys[i].len, &value) == PROLLY_DONE;
  double got = now();
  while (prolly_next(bytes, len, index, runs, &cursor, &key, &value) == PROLLY_DONE) passed++;
  double scanned = now();
  WANT(found == probes && passed == count);
  snprintf(name, sizeof name, "prolly, %u bits", report->bits);
  tell(name, load - begun, checked - load, got - checked, scanned - got);
  free(index);
  free(file);
}

/* ---- with SQLite */

#ifdef WITH_SQLITE
static void bind(sqlite3_stmt *to, int place, prolly_slice bytes) {
  WANT(sqlite3_bind_blob(to, place, bytes.ptr, (int)bytes.len, SQLITE_STATIC) == SQLITE_OK);
}

static sqlite3_stmt *prepared(sqlite3 *base, const char *words) {
  sqlite3_stmt *made;
  WANT(sqlite3_prepare_v2(base, words, -1, &made, NULL) == SQLITE_OK);
  return made;
}

static void sqlite_load(const char *place) {
  sqlite3 *base;
  WANT(sqlite3_open(place, &base) == SQLITE_OK);
  WANT(sqlite3_exec(base, "create table pairs (key blob primary key, value blob) without rowid; begin", NULL, NULL, NULL) == 0);
  sqlite3_stmt *put = prepared(base, "insert into pairs values (?, ?)");
  for (size_t i = 0; i < count; i++) {
    bind(put, 1, pairs[i].key);
    bind(put, 2, pairs[i].value);
    WANT(sqlite3_step(put) == SQLITE_DONE && sqlite3_reset(put) == SQLITE_OK);
  }
  sqlite3_finalize(put);
  WANT(sqlite3_exec(base, "commit", NULL, NULL, NULL) == 0);
  sqlite3_close(base);
}

static void by_sqlite(const char *folder) {
  char place[4096];
  size_t found = 0, passed = 0;
  sqlite3 *base;
  snprintf(place, sizeof place, "%s/c.db", folder);
  remove(place);
  double begun = now();
  sqlite_load(place);
  double load = now();
  WANT(sqlite3_open_v2(place, &base, SQLITE_OPEN_READONLY, NULL) == SQLITE_OK);
  WANT(sqlite3_exec(base, "pragma mmap_size = 1073741824", NULL, NULL, NULL) == 0);
  sqlite3_stmt *ask = prepared(base, "select value from pairs where key = ?");
  sqlite3_stmt *all = prepared(base, "select key, value from pairs order by key");
  double opened = now();
  for (size_t i = 0; i < probes; i++) {
    bind(ask, 1, keys[i]);
    found += sqlite3_step(ask) == SQLITE_ROW && sqlite3_column_blob(ask, 0) != NULL;
    sqlite3_reset(ask);
  }
  double got = now();
  while (sqlite3_step(all) == SQLITE_ROW) passed += sqlite3_column_blob(all, 0) != NULL && sqlite3_column_blob(all, 1) != NULL;
  double scanned = now();
  WANT(found == probes && passed == count);
  tell("sqlite3", load - begun, opened - load, got - opened, scanned - got);
  sqlite3_finalize(ask);
  sqlite3_finalize(all);
  sqlite3_close(base);
}
#else
static void by_sqlite(const char *folder) {
  (void)folder;
  printf("from C, sqlite3: not installed\n");
}
#endif

/* ---- with LMDB */

#ifdef WITH_LMDB
static MDB_val bytes_as(prolly_slice bytes) {
  MDB_val lent = {bytes.len, (void *)bytes.ptr};
  return lent;
}

static MDB_env *lmdb_open(const char *place, unsigned flags) {
  MDB_env *base;
  WANT(mdb_env_create(&base) == 0 && mdb_env_set_mapsize(base, MAPPED) == 0);
  WANT(mdb_env_open(base, place, flags | MDB_NOSUBDIR, 0600) == 0);
  return base;
}

static void lmdb_load(const char *place) {
  MDB_env *base = lmdb_open(place, 0);
  MDB_txn *change;
  MDB_dbi table;
  WANT(mdb_txn_begin(base, NULL, 0, &change) == 0 && mdb_dbi_open(change, NULL, 0, &table) == 0);
  for (size_t i = 0; i < count; i++) {
    MDB_val key = bytes_as(pairs[i].key), value = bytes_as(pairs[i].value);
    WANT(mdb_put(change, table, &key, &value, MDB_APPEND) == 0);
  }
  WANT(mdb_txn_commit(change) == 0);
  mdb_env_close(base);
}

static void by_lmdb(const char *folder) {
  char place[4096];
  size_t found = 0, passed = 0;
  MDB_txn *view;
  MDB_dbi table;
  MDB_cursor *cursor;
  MDB_val key, value;
  snprintf(place, sizeof place, "%s/c.lmdb", folder);
  remove(place);
  double begun = now();
  lmdb_load(place);
  double load = now();
  MDB_env *base = lmdb_open(place, MDB_RDONLY);
  WANT(mdb_txn_begin(base, NULL, MDB_RDONLY, &view) == 0 && mdb_dbi_open(view, NULL, 0, &table) == 0);
  double opened = now();
  for (size_t i = 0; i < probes; i++) {
    key = bytes_as(keys[i]);
    found += mdb_get(view, table, &key, &value) == 0;
  }
  double got = now();
  WANT(mdb_cursor_open(view, table, &cursor) == 0);
  while (mdb_cursor_get(cursor, &key, &value, MDB_NEXT) == 0) passed++;
  double scanned = now();
  WANT(found == probes && passed == count);
  tell("lmdb", load - begun, opened - load, got - opened, scanned - got);
  mdb_cursor_close(cursor);
  mdb_txn_abort(view);
  mdb_env_close(base);
}
#else
static void by_lmdb(const char *folder) {
  (void)folder;
  printf("from C, lmdb: not installed\n");
}
#endif

/* All pairs of the file, and some of their keys. */
static void take_pairs(const uint8_t *bytes, size_t len, const prolly_report *report) {
  const pair none = {PROLLY_EMPTY, PROLLY_EMPTY};
  prolly_cursor cursor = {0, 0, 0};
  size_t runs;
  prolly_run *index = index_of(bytes, len, &runs);
  pairs = malloc(report->pairs * sizeof *pairs);
  keys = malloc(probes * sizeof *keys);
  WANT(pairs != NULL && keys != NULL);
  for (count = 0; count < report->pairs; count++) {
    pairs[count] = none;
    WANT(prolly_next(bytes, len, index, runs, &cursor, &pairs[count].key, &pairs[count].value) == PROLLY_DONE);
  }
  for (size_t i = 0; i < probes; i++) keys[i] = pairs[random_number() % count].key;
  free(index);
}

int main(int argc, char **argv) {
  WANT(argc == 3 || argc == 4);
  size_t len;
  prolly_report report;
  uint8_t *bytes = read_file(argv[1], &len);
  probes = (size_t)atol(argv[2]);
  WANT(prolly_check(bytes, len, &report) == PROLLY_DONE && report.pairs > 0);
  take_pairs(bytes, len, &report);
  by_library(bytes, len, &report);
  if (argc == 4) {
    by_sqlite(argv[3]);
    by_lmdb(argv[3]);
  }
  return 0;
}

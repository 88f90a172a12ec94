/* What the tests of the library share: reading files, telling what differs, and the pairs of a record file. */
#ifndef SUPPORT_H
#define SUPPORT_H

#include "prolly.h"

#include <stdio.h>
#include <stdlib.h>
#include <string.h>

/* Ends the test where this is not so. */
#define WANT(holds)                                                                        \
  do {                                                                                     \
    if (!(holds)) {                                                                        \
      fprintf(stderr, "%s:%d: not so: %s\n", __FILE__, __LINE__, #holds);                  \
      exit(1);                                                                             \
    }                                                                                      \
  } while (0)

/* The bytes of a file, in memory of exactly their size, so that valgrind sees each read beyond them. */
static inline uint8_t *read_file(const char *name, size_t *len) {
  FILE *file = fopen(name, "rb");
  WANT(file != NULL);
  WANT(fseek(file, 0, SEEK_END) == 0);
  long size = ftell(file);
  WANT(size >= 0);
  rewind(file);
  uint8_t *bytes = malloc(size > 0 ? (size_t)size : 1);
  WANT(bytes != NULL);
  WANT(fread(bytes, 1, (size_t)size, file) == (size_t)size);
  fclose(file);
  *len = (size_t)size;
  return bytes;
}

/* Whether a slice has these bytes. */
static inline int is(prolly_slice found, const uint8_t *bytes, size_t len) {
  return found.len == len && memcmp(found.ptr, bytes, len) == 0;
}

/* Whether a slice lies in these bytes. */
static inline int lies_in(prolly_slice found, const uint8_t *bytes, size_t len) {
  return found.len == 0 || (found.ptr >= bytes && found.ptr + found.len <= bytes + len);
}

/* A pair of a record file of puts alone. */
typedef struct pair {
  prolly_slice key, value;
} pair;

/* The pairs of such a file. */
static inline pair *pairs_of(const uint8_t *bytes, size_t len, size_t *count) {
  pair *pairs = NULL;
  size_t at = 0, n = 0, room = 0;
  while (at < len) {
    if (n == room) {
      room = room * 2 + 16;
      pairs = realloc(pairs, room * sizeof *pairs);
      WANT(pairs != NULL);
    }
    size_t key_len = (size_t)bytes[at] << 8 | bytes[at + 1];
    const uint8_t *behind = bytes + at + 2 + key_len;
    size_t value_len = (size_t)behind[0] << 24 | (size_t)behind[1] << 16 | (size_t)behind[2] << 8 | behind[3];
    pairs[n].key = (prolly_slice){bytes + at + 2, key_len};
    pairs[n].value = (prolly_slice){behind + 4, value_len};
    at += 6 + key_len + value_len;
    n++;
  }
  *count = n;
  return pairs;
}

/* A file and its index, as most calls take them. */
typedef struct indexed {
  const uint8_t *bytes;
  size_t len;
  prolly_run *index;
  size_t runs;
} indexed;

/* The index of a file that is right. It is asked for its size first. */
static inline indexed index_of(const uint8_t *bytes, size_t len) {
  indexed file = {bytes, len, NULL, 0};
  prolly_run none[1];
  size_t count = 77;
  uint32_t status = prolly_index(bytes, len, none, 0, &count);
  WANT(status == (count == 0 ? PROLLY_DONE : PROLLY_NO_ROOM));
  file.index = malloc(count > 0 ? count * sizeof *file.index : 1);
  WANT(file.index != NULL);
  WANT(prolly_index(bytes, len, file.index, count, &file.runs) == PROLLY_DONE);
  WANT(file.runs == count);
  return file;
}

/* The calls, over a file and its index. */
static inline uint32_t get(indexed f, prolly_slice key, prolly_slice *value) {
  return prolly_get(f.bytes, f.len, f.index, f.runs, key.ptr, key.len, value);
}

static inline uint32_t nth(indexed f, uint64_t n, prolly_slice *key, prolly_slice *value) {
  return prolly_nth(f.bytes, f.len, f.index, f.runs, n, key, value);
}

static inline uint32_t seek(indexed f, prolly_slice from, prolly_cursor *cursor) {
  return prolly_seek(f.bytes, f.len, f.index, f.runs, from.ptr, from.len, cursor);
}

static inline uint32_t next(indexed f, prolly_cursor *cursor, prolly_slice *key, prolly_slice *value) {
  return prolly_next(f.bytes, f.len, f.index, f.runs, cursor, key, value);
}

/* A random number. */
static uint64_t random_state = 88172645463325252u;

static inline uint64_t random_number(void) {
  random_state ^= random_state << 13;
  random_state ^= random_state >> 7;
  random_state ^= random_state << 17;
  return random_state;
}

#endif

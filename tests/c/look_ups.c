/* look_ups FILE RECORDS: all look-ups in a chunk file, whose pairs stand in a record file. Prints what its check tells. */
#include "support.h"

static void each_pair(indexed file, const pair *pairs, size_t count) {
  for (size_t n = 0; n < count; n++) {
    prolly_slice key = PROLLY_EMPTY, value = PROLLY_EMPTY;
    WANT(get(file, pairs[n].key, &value) == PROLLY_DONE);
    WANT(is(value, pairs[n].value.ptr, pairs[n].value.len) && lies_in(value, file.bytes, file.len));
    WANT(nth(file, n, &key, &value) == PROLLY_DONE);
    WANT(is(key, pairs[n].key.ptr, pairs[n].key.len) && is(value, pairs[n].value.ptr, pairs[n].value.len));
  }
  prolly_slice key = PROLLY_EMPTY, value = PROLLY_EMPTY;
  WANT(nth(file, count, &key, &value) == PROLLY_NONE);
  WANT(nth(file, UINT64_MAX, &key, &value) == PROLLY_NONE);
}

/* The pairs from the n-th on, and then none. */
static void rest(indexed file, prolly_cursor cursor, const pair *pairs, size_t n, size_t count) {
  prolly_slice key = PROLLY_EMPTY, value = PROLLY_EMPTY;
  for (; n < count; n++) {
    WANT(next(file, &cursor, &key, &value) == PROLLY_DONE);
    WANT(is(key, pairs[n].key.ptr, pairs[n].key.len) && is(value, pairs[n].value.ptr, pairs[n].value.len));
  }
  prolly_cursor before = cursor;
  WANT(next(file, &cursor, &key, &value) == PROLLY_NONE);
  WANT(memcmp(&before, &cursor, sizeof cursor) == 0);
  WANT(next(file, &cursor, &key, &value) == PROLLY_NONE);
}

/* From each key on, and from the least key behind each; those are looked up, too. */
static void each_place(indexed file, const pair *pairs, size_t count) {
  uint8_t behind[1025];
  size_t step = count > 300 ? count / 300 : 1;
  for (size_t n = 0; n < count; n += step) {
    prolly_cursor cursor = {1, 2, 3};
    WANT(seek(file, pairs[n].key, &cursor) == PROLLY_DONE);
    if (step == 1 || n + 40 > count) rest(file, cursor, pairs, n, count);
    memcpy(behind, pairs[n].key.ptr, pairs[n].key.len);
    behind[pairs[n].key.len] = 0;
    prolly_slice key = {behind, pairs[n].key.len + 1}, value = PROLLY_EMPTY;
    WANT(seek(file, key, &cursor) == PROLLY_DONE);
    int there = n + 1 < count && is(pairs[n + 1].key, key.ptr, key.len);
    WANT(get(file, key, &value) == (there ? PROLLY_DONE : PROLLY_NONE));
    if (n + 1 < count) {
      WANT(next(file, &cursor, &key, &value) == PROLLY_DONE);
      WANT(is(key, pairs[n + 1].key.ptr, pairs[n + 1].key.len));
    } else {
      WANT(next(file, &cursor, &key, &value) == PROLLY_NONE);
    }
  }
}

int main(int argc, char **argv) {
  WANT(argc == 3);
  size_t len, records_len, count;
  uint8_t *bytes = read_file(argv[1], &len);
  uint8_t *records = read_file(argv[2], &records_len);
  pair *pairs = pairs_of(records, records_len, &count);
  prolly_report report;
  memset(&report, 7, sizeof report);
  WANT(prolly_check(bytes, len, &report) == PROLLY_DONE);
  WANT(report.pairs == count && report.faulty == 0);
  for (int i = 0; i < 20; i++) printf("%02x", report.root[i]);
  printf(" %u %u %llu\n", report.version, report.bits, (unsigned long long)report.chunks);
  indexed file = index_of(bytes, len);
  prolly_cursor start = {0, 0, 0};
  each_pair(file, pairs, count);
  rest(file, start, pairs, 0, count);
  each_place(file, pairs, count);
  free(file.index);
  free(pairs);
  free(records);
  free(bytes);
  return 0;
}

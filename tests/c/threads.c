/* threads FILE RECORDS: four threads look up at a time, over the same bytes and the same index. */
#include "support.h"

#include <pthread.h>

static indexed file;
static pair *pairs;
static size_t count;

/* Looks up all pairs, from another one on in each thread, and goes over them. */
static void *look(void *number) {
  size_t first = *(size_t *)number * (count / 4);
  prolly_slice key = PROLLY_EMPTY, value = PROLLY_EMPTY;
  prolly_cursor cursor = {0, 0, 0};
  for (size_t i = 0; i < count; i++) {
    size_t n = (first + i) % count;
    WANT(get(file, pairs[n].key, &value) == PROLLY_DONE);
    WANT(is(value, pairs[n].value.ptr, pairs[n].value.len));
    WANT(next(file, &cursor, &key, &value) == PROLLY_DONE);
    WANT(is(key, pairs[i].key.ptr, pairs[i].key.len));
  }
  WANT(next(file, &cursor, &key, &value) == PROLLY_NONE);
  prolly_report report;
  WANT(prolly_check(file.bytes, file.len, &report) == PROLLY_DONE);
  return NULL;
}

int main(int argc, char **argv) {
  WANT(argc == 3);
  size_t len, records_len;
  uint8_t *bytes = read_file(argv[1], &len);
  uint8_t *records = read_file(argv[2], &records_len);
  pairs = pairs_of(records, records_len, &count);
  file = index_of(bytes, len);
  pthread_t threads[4];
  size_t numbers[4];
  for (size_t i = 0; i < 4; i++) {
    numbers[i] = i;
    WANT(pthread_create(&threads[i], NULL, look, &numbers[i]) == 0);
  }
  for (size_t i = 0; i < 4; i++) WANT(pthread_join(threads[i], NULL) == 0);
  free(file.index);
  free(pairs);
  free(records);
  free(bytes);
  return 0;
}

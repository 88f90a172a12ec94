/* building RECORDS VERSION BITS OUT: builds a chunk file, writes it to OUT, and prints its root. Records are appended to a
 * buffer of just their size, and no record to one that is a byte shorter. */
#include "support.h"

/* The records again, one appended behind another. */
static void records_again(const uint8_t *records, size_t len, const pair *pairs, size_t count) {
  uint8_t *out = malloc(len > 0 ? len : 1);
  size_t at = 0;
  WANT(out != NULL);
  for (size_t n = 0; n < count; n++) {
    size_t before = at, size = pairs[n].key.len + pairs[n].value.len + 6;
    WANT(prolly_record(pairs[n].key.ptr, pairs[n].key.len, pairs[n].value.ptr, pairs[n].value.len, out,
                       at + size - 1, &at) == PROLLY_NO_ROOM);
    WANT(at == before);
    WANT(prolly_record(pairs[n].key.ptr, pairs[n].key.len, pairs[n].value.ptr, pairs[n].value.len, out, len,
                       &at) == PROLLY_DONE);
    WANT(at == before + size);
  }
  WANT(at == len && memcmp(out, records, len) == 0);
  free(out);
}

static void refused(void) {
  static const uint8_t long_bytes[65537];
  uint8_t out[64], root[20];
  size_t at = 0, count = 7;
  uint64_t place = 7;
  const uint8_t unordered[] = {0, 1, 'b', 0, 0, 0, 0, 0, 1, 'a', 0, 0, 0, 0};
  WANT(prolly_record(long_bytes, 1025, long_bytes, 0, out, sizeof out, &at) == PROLLY_USAGE);
  WANT(prolly_record(long_bytes, 0, long_bytes, 65537, out, sizeof out, &at) == PROLLY_USAGE);
  WANT(at == 0);
  at = SIZE_MAX;
  WANT(prolly_record(long_bytes, 1, long_bytes, 1, out, sizeof out, &at) == PROLLY_NO_ROOM && at == SIZE_MAX);
  WANT(prolly_scratch(2, 6, unordered, sizeof unordered, out, sizeof out, &count, root, &place) ==
       PROLLY_RECORD_OUT_OF_ORDER);
  WANT(place == 1);
  WANT(prolly_scratch(2, 6, unordered, 6, out, sizeof out, &count, root, &place) == PROLLY_RECORD_CUT && place == 0);
  WANT(prolly_scratch(3, 6, unordered, 7, out, sizeof out, &count, root, &place) == PROLLY_USAGE);
  WANT(prolly_scratch(0, 6, unordered, 7, out, sizeof out, &count, root, &place) == PROLLY_USAGE);
  WANT(prolly_scratch(2, 25, unordered, 7, out, sizeof out, &count, root, &place) == PROLLY_USAGE);
  WANT(count == 7);
}

int main(int argc, char **argv) {
  WANT(argc == 5);
  size_t len, pair_count, count = 0;
  uint8_t *records = read_file(argv[1], &len);
  pair *pairs = pairs_of(records, len, &pair_count);
  uint8_t version = (uint8_t)atoi(argv[2]), bits = (uint8_t)atoi(argv[3]), root[20], none[1];
  uint64_t place = 0;
  records_again(records, len, pairs, pair_count);
  refused();
  WANT(prolly_scratch(version, bits, records, len, none, 0, &count, root, &place) == PROLLY_NO_ROOM);
  uint8_t *file = malloc(count);
  size_t wanted = count;
  WANT(file != NULL);
  WANT(prolly_scratch(version, bits, records, len, file, count - 1, &count, root, &place) == PROLLY_NO_ROOM);
  WANT(prolly_scratch(version, bits, records, len, file, count, &count, root, &place) == PROLLY_DONE);
  WANT(count == wanted);
  for (int i = 0; i < 20; i++) printf("%02x", root[i]);
  printf("\n");
  FILE *out = fopen(argv[4], "wb");
  WANT(out != NULL && fwrite(file, 1, count, out) == count && fclose(out) == 0);
  free(file);
  free(pairs);
  free(records);
  return 0;
}

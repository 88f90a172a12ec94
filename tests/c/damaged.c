/* damaged FILE: each prefix and each flipped bit of a small chunk file, wrong indexes, and wrong cursors. No call may
 * accept what is no chunk file, nor read beyond what it was given. */
#include "support.h"

/* All look-ups with an index that may be wrong: each answers, and what it finds lies in the bytes. */
static void any_answer(indexed file, prolly_cursor cursor) {
  prolly_slice key = PROLLY_EMPTY, value = PROLLY_EMPTY;
  uint8_t sought[4] = {'k', (uint8_t)random_number(), (uint8_t)random_number(), 0};
  prolly_slice from = {sought, random_number() % 5};
  uint32_t status = get(file, from, &value);
  WANT(status == PROLLY_DONE || status == PROLLY_NONE || status == PROLLY_WRONG_INDEX);
  WANT(lies_in(value, file.bytes, file.len) || status != PROLLY_DONE);
  status = nth(file, random_number() % 64, &key, &value);
  WANT(status == PROLLY_DONE || status == PROLLY_NONE || status == PROLLY_WRONG_INDEX);
  WANT(status != PROLLY_DONE || (lies_in(key, file.bytes, file.len) && lies_in(value, file.bytes, file.len)));
  for (int i = 0; i < 3; i++) {
    status = next(file, &cursor, &key, &value);
    WANT(status == PROLLY_DONE || status == PROLLY_NONE || status == PROLLY_WRONG_INDEX);
    WANT(status != PROLLY_DONE || (lies_in(key, file.bytes, file.len) && lies_in(value, file.bytes, file.len)));
  }
  status = seek(file, from, &cursor);
  WANT(status == PROLLY_DONE || status == PROLLY_WRONG_INDEX);
}

/* Some bytes that are no chunk file, in memory of their own, with an index of the file that they were made from. */
static void refused(const uint8_t *bytes, size_t len, indexed right) {
  uint8_t *copy = malloc(len > 0 ? len : 1);
  prolly_report report;
  memset(&report, 7, sizeof report);
  WANT(copy != NULL);
  memcpy(copy, bytes, len);
  uint32_t status = prolly_check(copy, len, &report);
  WANT(status >= PROLLY_TRUNCATED && status <= PROLLY_COLLISION);
  WANT(report.faulty == 0 || prolly_names_place(status));
  WANT(report.version == 7 && report.pairs == 0x0707070707070707);
  prolly_cursor start = {0, 0, 0};
  indexed other = {copy, len, right.index, right.runs};
  any_answer(other, start);
  prolly_run room[4];
  size_t count = 0;
  status = prolly_index(copy, len, room, 4, &count);
  WANT(status == PROLLY_DONE || status == PROLLY_NO_ROOM || status == PROLLY_NO_FILE);
  if (status == PROLLY_DONE) {
    indexed own = {copy, len, room, count};
    any_answer(own, start);
  }
  free(copy);
}

static void each_damage(indexed file) {
  uint8_t *copy = malloc(file.len + 1);
  WANT(copy != NULL);
  for (size_t len = 0; len < file.len; len++) refused(file.bytes, len, file);
  memcpy(copy, file.bytes, file.len);
  copy[file.len] = 0;
  refused(copy, file.len + 1, file);
  for (size_t bit = 0; bit < file.len * 8; bit++) {
    copy[bit / 8] ^= (uint8_t)(1u << bit % 8);
    refused(copy, file.len, file);
    copy[bit / 8] ^= (uint8_t)(1u << bit % 8);
  }
  free(copy);
}

/* A number near those of the file, or any. */
static uint64_t some_number(size_t len) {
  switch (random_number() % 4) {
    case 0: return random_number();
    case 1: return UINT64_MAX - random_number() % 3;
    default: return random_number() % (len + 2);
  }
}

static void wrong_indexes(indexed file) {
  for (int i = 0; i < 20000; i++) {
    prolly_run runs[8];
    indexed wrong = {file.bytes, file.len, runs, random_number() % 9};
    for (size_t n = 0; n < 8; n++) {
      runs[n] = file.index[random_number() % file.runs];
      switch (random_number() % 4) {
        case 0: runs[n].start = some_number(file.len); break;
        case 1: runs[n].end = some_number(file.len); break;
        case 2: runs[n].first = some_number(file.len); break;
        default: break;
      }
    }
    prolly_cursor cursor = {some_number(file.len), some_number(file.len), some_number(8)};
    any_answer(wrong, cursor);
    any_answer(file, cursor);
  }
}

int main(int argc, char **argv) {
  WANT(argc == 2);
  size_t len;
  uint8_t *bytes = read_file(argv[1], &len);
  indexed file = index_of(bytes, len);
  WANT(file.runs > 0);
  each_damage(file);
  wrong_indexes(file);
  free(file.index);
  free(bytes);
  return 0;
}

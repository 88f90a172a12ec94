/* diffs OLD NEW: prints the changes between two chunk files: the sides that have the key, the key, and the values. */
#include "support.h"

static void print_hex(prolly_slice slice) {
  printf(" ");
  for (size_t i = 0; i < slice.len; i++) printf("%02x", slice.ptr[i]);
}

int main(int argc, char **argv) {
  WANT(argc == 3);
  size_t old_len, new_len;
  uint8_t *old_bytes = read_file(argv[1], &old_len), *new_bytes = read_file(argv[2], &new_len);
  indexed old = index_of(old_bytes, old_len), new = index_of(new_bytes, new_len);
  prolly_cursors cursors = {{0, 0, 0}, {0, 0, 0}};
  prolly_slice key = PROLLY_EMPTY, before = PROLLY_EMPTY, after = PROLLY_EMPTY, none = PROLLY_EMPTY;
  uint32_t sides = 0, status;
  while ((status = prolly_diff_next(old.bytes, old.len, old.index, old.runs, new.bytes, new.len, new.index, new.runs,
                                    &cursors, &key, &before, &after, &sides)) == PROLLY_DONE) {
    WANT(sides >= 1 && sides <= 3);
    printf("%u", sides);
    print_hex(key);
    print_hex(sides & 1 ? before : none);
    print_hex(sides & 2 ? after : none);
    printf("\n");
  }
  WANT(status == PROLLY_NONE);
  for (int i = 0; i < 2000; i++) {
    prolly_cursors wrong = {{random_number() % (old_len + 2), random_number() % (old_len + 2), random_number() % 4},
                            {random_number() % (new_len + 2), random_number() % (new_len + 2), random_number() % 4}};
    indexed one = {old.bytes, old.len, new.index, new.runs};
    status = prolly_diff_next(one.bytes, one.len, one.index, one.runs, new.bytes, new.len, new.index, new.runs, &wrong,
                              &key, &before, &after, &sides);
    WANT(status == PROLLY_DONE || status == PROLLY_NONE || status == PROLLY_WRONG_INDEX);
  }
  free(old.index);
  free(new.index);
  free(old_bytes);
  free(new_bytes);
  return 0;
}

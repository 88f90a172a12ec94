/* ranges FILE ROOT VERSION FROM TO PROOF: prints what a proof shows of a range: its status, the chunk that this names, and a
 * line for each pair. FROM and TO are in hexadecimal, and TO is - where there is none; so is ROOT. Of FILE, where the proof
 * shows something, the same proof is made. No prefix of the proof, and no flipped bit of it, may show anything. */
#include "support.h"

typedef struct range {
  uint8_t version, root[20], from[1024], to[1024];
  size_t from_len, to_len;
  bool bounded;
} range;

/* The bytes of a text in hexadecimal. */
static size_t bytes_of(const char *text, uint8_t *bytes) {
  size_t len = strlen(text) / 2;
  for (size_t i = 0; i < len; i++) {
    char digits[3] = {text[2 * i], text[2 * i + 1], 0};
    bytes[i] = (uint8_t)strtoul(digits, NULL, 16);
  }
  return len;
}

static uint32_t verify(const range *of, const uint8_t *proof, size_t len, prolly_run *index, size_t room, size_t *count,
                       uint64_t *chunk) {
  return prolly_verify_range(of->version, of->root, of->from, of->from_len, of->to, of->to_len, of->bounded, proof, len,
                             index, room, count, chunk);
}

/* Each prefix, and each flipped bit. */
static void damaged(const range *of, const uint8_t *proof, size_t len) {
  for (size_t bit = 0; bit < len * 9; bit++) {
    size_t size = bit < len ? bit : len, count = 77;
    uint8_t *copy = malloc(size > 0 ? size : 1);
    prolly_run index[64];
    uint64_t chunk = 0;
    WANT(copy != NULL);
    memcpy(copy, proof, size);
    if (bit >= len) copy[(bit - len) / 8] ^= (uint8_t)(1u << (bit - len) % 8);
    uint32_t status = verify(of, copy, size, index, 64, &count, &chunk);
    WANT(status >= PROLLY_PROOF_HEADER && status <= PROLLY_PROOF_TRAILING && count == 77);
    free(copy);
  }
}

/* Goes over the pairs that are shown, by an index of just the size that it needs. */
static void shown(const range *of, const uint8_t *proof, size_t len, size_t runs) {
  prolly_run *index = malloc((runs > 0 ? runs : 1) * sizeof *index);
  prolly_slice key = PROLLY_EMPTY, value = PROLLY_EMPTY;
  prolly_cursor cursor = {0, 0, 0};
  size_t count = 0;
  uint64_t chunk = 0;
  WANT(index != NULL);
  if (runs > 0) WANT(verify(of, proof, len, index, runs - 1, &count, &chunk) == PROLLY_NO_ROOM && count == runs);
  WANT(verify(of, proof, len, index, runs, &count, &chunk) == PROLLY_DONE && count == runs);
  while (prolly_next(proof, len, index, runs, &cursor, &key, &value) == PROLLY_DONE) {
    WANT(lies_in(key, proof, len) && lies_in(value, proof, len));
    for (size_t i = 0; i < key.len; i++) printf("%02x", key.ptr[i]);
    printf(" ");
    for (size_t i = 0; i < value.len; i++) printf("%02x", value.ptr[i]);
    printf("\n");
  }
  WANT(prolly_next(proof, len, index, runs, &cursor, &key, &value) == PROLLY_NONE);
  free(index);
}

/* The proof is made again, into memory of just its size. */
static void proved_again(const range *of, const uint8_t *file, size_t file_len, const uint8_t *proof, size_t len) {
  uint8_t *made = malloc(len);
  size_t count = 0;
  uint64_t chunk = 0;
  WANT(made != NULL);
  WANT(prolly_prove_range(file, file_len, of->version, of->root, of->from, of->from_len, of->to, of->to_len, of->bounded,
                          made, len - 1, &count, &chunk) == PROLLY_NO_ROOM && count == len);
  WANT(prolly_prove_range(file, file_len, of->version, of->root, of->from, of->from_len, of->to, of->to_len, of->bounded,
                          made, len, &count, &chunk) == PROLLY_DONE && count == len);
  WANT(memcmp(made, proof, len) == 0);
  WANT(prolly_prove_range(file, file_len, 3, of->root, of->from, of->from_len, of->to, of->to_len, of->bounded, made, len,
                          &count, &chunk) == PROLLY_USAGE);
  free(made);
}

int main(int argc, char **argv) {
  WANT(argc == 7);
  range of;
  WANT(bytes_of(argv[2], of.root) == 20);
  of.version = (uint8_t)atoi(argv[3]);
  of.from_len = bytes_of(argv[4], of.from);
  of.bounded = strcmp(argv[5], "-") != 0;
  of.to_len = of.bounded ? bytes_of(argv[5], of.to) : 0;
  size_t file_len, len, runs = 0;
  uint8_t *file = read_file(argv[1], &file_len), *proof = read_file(argv[6], &len);
  uint64_t chunk = 0;
  prolly_run none[1];
  uint32_t status = verify(&of, proof, len, none, 0, &runs, &chunk);
  bool is_proof = status == PROLLY_DONE || status == PROLLY_NO_ROOM;
  printf("%u %llu\n", is_proof ? 0 : status, (unsigned long long)chunk);
  if (is_proof) {
    WANT((status == PROLLY_DONE) == (runs == 0));
    shown(&of, proof, len, runs);
    proved_again(&of, file, file_len, proof, len);
    if (len < 700) damaged(&of, proof, len);
  }
  range other = of;
  other.version = 3;
  WANT(verify(&other, proof, len, none, 0, &runs, &chunk) == PROLLY_USAGE);
  free(proof);
  free(file);
  return 0;
}

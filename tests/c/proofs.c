/* proofs ROOT VERSION KEY PROOF: prints what a proof says of a key, both of them files: its status, the chunk that this
 * names, and the value. ROOT is in hexadecimal. No prefix of the proof, and no flipped bit of it, may prove anything else. */
#include "support.h"

/* Each prefix, and each flipped bit. */
static void damaged(uint8_t version, const uint8_t *root, prolly_slice key, const uint8_t *proof, size_t len) {
  for (size_t bit = 0; bit < len * 9; bit++) {
    size_t size = bit < len ? bit : len;
    uint8_t *copy = malloc(size > 0 ? size : 1);
    prolly_slice value = PROLLY_EMPTY;
    uint64_t chunk = 0;
    WANT(copy != NULL);
    memcpy(copy, proof, size);
    if (bit >= len) copy[(bit - len) / 8] ^= (uint8_t)(1u << (bit - len) % 8);
    uint32_t status = prolly_verify(version, root, key.ptr, key.len, copy, size, &value, &chunk);
    WANT(status >= PROLLY_PROOF_HEADER && status <= PROLLY_PROOF_TRAILING && value.len == 0);
    free(copy);
  }
}

int main(int argc, char **argv) {
  WANT(argc == 5 && strlen(argv[1]) == 40);
  uint8_t root[20];
  for (int i = 0; i < 20; i++) {
    char digits[3] = {argv[1][2 * i], argv[1][2 * i + 1], 0};
    root[i] = (uint8_t)strtoul(digits, NULL, 16);
  }
  size_t key_len, len;
  uint8_t version = (uint8_t)atoi(argv[2]);
  uint8_t *key = read_file(argv[3], &key_len), *proof = read_file(argv[4], &len);
  prolly_slice value = PROLLY_EMPTY, sought = {key, key_len};
  uint64_t chunk = 0;
  uint32_t status = prolly_verify(version, root, key, key_len, proof, len, &value, &chunk);
  printf("%u %llu ", status, (unsigned long long)chunk);
  for (size_t i = 0; i < value.len; i++) printf("%02x", value.ptr[i]);
  printf("\n");
  WANT(lies_in(value, proof, len));
  if (status <= PROLLY_NONE && len < 400) damaged(version, root, sought, proof, len);
  WANT(prolly_verify(3, root, key, key_len, proof, len, &value, &chunk) == PROLLY_USAGE);
  free(key);
  free(proof);
  return 0;
}

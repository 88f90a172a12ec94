/* memory FILE RECORDS KEY: refuses memory to the calls that take some, each growth in turn. Each says so and changes nothing,
 * until it has all that it needs. Linked with --wrap for malloc and realloc. */
#include "support.h"

/* How many growths are still granted; all, where it is below 0. */
static long granted = -1;

void *__real_malloc(size_t size);
void *__real_realloc(void *at, size_t size);
void *__wrap_malloc(size_t size);
void *__wrap_realloc(void *at, size_t size);

static int refuses(void) {
  if (granted > 0) granted--;
  else if (granted == 0) return 1;
  return 0;
}

void *__wrap_malloc(size_t size) { return refuses() ? NULL : __real_malloc(size); }

void *__wrap_realloc(void *at, size_t size) { return refuses() ? NULL : __real_realloc(at, size); }

static const uint8_t *bytes, *records, *key;
static size_t len, records_len, key_len;
static prolly_report report;
static uint8_t *out, root[20];
static size_t room, count, proof_len;
static uint64_t named;

static uint32_t check(void) { return prolly_check(bytes, len, &report); }

static uint32_t scratch(void) {
  return prolly_scratch(report.version, report.bits, records, records_len, out, room, &count, root, &named);
}

static uint32_t prove(void) {
  return prolly_prove(bytes, len, report.version, report.root, key, key_len, out, room, &count, &named);
}

static uint32_t prove_range(void) {
  return prolly_prove_range(bytes, len, report.version, report.root, key, key_len, key, 0, false, out, room, &count,
                            &named);
}

/* Of the proof that the call before has made. */
static uint32_t verify_range(void) {
  static prolly_run index[1000];
  return prolly_verify_range(report.version, report.root, key, key_len, key, 0, false, out, proof_len, index, 1000,
                             &count, &named);
}

/* How many growths a call needs: with each lesser number memory is refused, and nothing is answered. */
static long growths_of(uint32_t (*call)(void)) {
  for (long n = 0;; n++) {
    report.faulty = 77;
    prolly_report before = report;
    count = 77;
    named = 77;
    granted = n;
    uint32_t status = call();
    granted = -1;
    if (status == PROLLY_DONE) return n;
    WANT(status == PROLLY_MEMORY);
    WANT(count == 77 && named == 77 && memcmp(&before, &report, sizeof report) == 0);
  }
}

int main(int argc, char **argv) {
  WANT(argc == 4);
  uint8_t *file = read_file(argv[1], &len), *pairs = read_file(argv[2], &records_len);
  bytes = file;
  records = pairs;
  key = (const uint8_t *)argv[3];
  key_len = strlen(argv[3]);
  room = len * 2;
  out = malloc(room);
  WANT(out != NULL);
  memset(&report, 0, sizeof report);
  WANT(growths_of(check) > 2);
  WANT(growths_of(scratch) > 2);
  WANT(count == len && memcmp(out, bytes, len) == 0 && memcmp(root, report.root, 20) == 0);
  WANT(growths_of(prove) > 2);
  WANT(growths_of(prove_range) > 2);
  proof_len = count;
  WANT(growths_of(verify_range) > 2);
  free(out);
  free(pairs);
  free(file);
  return 0;
}

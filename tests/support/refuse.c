/* Refuses a program one growth of memory: the one whose number, counted from 1, stands in the variable REFUSE of its
 * environment. Then it writes a byte to the descriptor in the variable TELL. Loaded before the program (LD_PRELOAD), it
 * stands before the allocator of the C library, which is the program's own. What is asked for before `main` is not
 * counted. */
#include <errno.h>
#include <malloc.h>
#include <stdatomic.h>
#include <stddef.h>
#include <stdlib.h>
#include <unistd.h>

void *__libc_malloc(size_t size);
void *__libc_calloc(size_t count, size_t size);
void *__libc_realloc(void *block, size_t size);
void *__libc_memalign(size_t alignment, size_t size);

static atomic_long growths_left;
static int told;

__attribute__((constructor)) static void begin(void) {
    told = atoi(getenv("TELL"));
    atomic_store(&growths_left, atol(getenv("REFUSE")));
}

static int is_refused(void) {
    if (atomic_fetch_sub(&growths_left, 1) != 1) return 0;
    if (write(told, "!", 1) != 1) abort();
    errno = ENOMEM;
    return 1;
}

void *malloc(size_t size) { return is_refused() ? NULL : __libc_malloc(size); }

void *calloc(size_t count, size_t size) { return is_refused() ? NULL : __libc_calloc(count, size); }

void *realloc(void *block, size_t size) {
    int grows = !block || size > malloc_usable_size(block);
    return grows && is_refused() ? NULL : __libc_realloc(block, size);
}

void *memalign(size_t alignment, size_t size) { return is_refused() ? NULL : __libc_memalign(alignment, size); }

void *aligned_alloc(size_t alignment, size_t size) { return memalign(alignment, size); }

int posix_memalign(void **block, size_t alignment, size_t size) {
    void *made = memalign(alignment, size);
    if (!made) return ENOMEM;
    *block = made;
    return 0;
}

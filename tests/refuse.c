/* Refuses one allocation of a program: that of the number in REFUSE, from 1. How many were asked for is counted in the first
   eight bytes of the file whose descriptor is in REFUSE_COUNT. For LD_PRELOAD with the GNU C library. */
#include <errno.h>
#include <stdatomic.h>
#include <stdlib.h>
#include <sys/mman.h>

void *__libc_malloc(size_t size);
void *__libc_calloc(size_t count, size_t size);
void *__libc_realloc(void *block, size_t size);

static atomic_long before;
static atomic_long *asked = &before;
static long refused;

__attribute__((constructor)) static void begin(void) {
    const char *number = getenv("REFUSE"), *file = getenv("REFUSE_COUNT");
    void *shared = file ? mmap(NULL, sizeof *asked, PROT_READ | PROT_WRITE, MAP_SHARED, atoi(file), 0) : MAP_FAILED;
    if (shared == MAP_FAILED)
        _Exit(125);
    asked = shared;
    refused = number ? atol(number) : 0;
}

static int is_refused(void) {
    if (atomic_fetch_add(asked, 1) + 1 != refused)
        return 0;
    errno = ENOMEM;
    return 1;
}

void *malloc(size_t size) { return is_refused() ? NULL : __libc_malloc(size); }

void *calloc(size_t count, size_t size) { return is_refused() ? NULL : __libc_calloc(count, size); }

void *realloc(void *block, size_t size) { return is_refused() ? NULL : __libc_realloc(block, size); }

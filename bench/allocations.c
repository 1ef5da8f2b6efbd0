/* Counts the calls that ask the C library for memory, and prints how many there were to standard error at exit.
 *
 * cc -O2 -shared -fPIC -o allocations.so allocations.c, and then LD_PRELOAD=allocations.so PROGRAM. It stands on the names by
 * which glibc has its own allocator. */
#include <errno.h>
#include <stdatomic.h>
#include <stddef.h>
#include <stdio.h>

void *__libc_malloc(size_t size);
void *__libc_calloc(size_t count, size_t size);
void *__libc_realloc(void *old, size_t size);
void *__libc_memalign(size_t alignment, size_t size);

static atomic_ulong calls;

static void count_one(void) {
    atomic_fetch_add_explicit(&calls, 1, memory_order_relaxed);
}

void *malloc(size_t size) {
    count_one();
    return __libc_malloc(size);
}

void *calloc(size_t count, size_t size) {
    count_one();
    return __libc_calloc(count, size);
}

void *realloc(void *old, size_t size) {
    count_one();
    return __libc_realloc(old, size);
}

void *aligned_alloc(size_t alignment, size_t size) {
    count_one();
    return __libc_memalign(alignment, size);
}

int posix_memalign(void **result, size_t alignment, size_t size) {
    count_one();
    if (alignment % sizeof(void *) != 0 || alignment == 0 || (alignment & (alignment - 1)) != 0) {
        return EINVAL;
    }
    void *made = __libc_memalign(alignment, size);
    if (made == NULL) {
        return ENOMEM;
    }
    *result = made;
    return 0;
}

__attribute__((destructor)) static void tell(void) {
    /* taken before printing, which may ask for memory itself */
    unsigned long all = atomic_load_explicit(&calls, memory_order_relaxed);
    fprintf(stderr, "allocations %lu\n", all);
}

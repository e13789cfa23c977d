/* Counts a program's positioned reads and the bytes that it asks to read, its reads and writes together, the bytes that
 * it asks to write, and its allocations, for bench/calls.py and bench/objects.py. Built as a shared library and loaded
 * before the program's others, it writes the five numbers to the standard error stream at the end.
 */
#define _GNU_SOURCE
#include <dlfcn.h>
#include <stdio.h>
#include <sys/types.h>

static unsigned long reads, read_bytes, calls, written, allocations;

#define NEXT(name) ((__typeof__(&name))dlsym(RTLD_NEXT, #name))

extern void *__libc_malloc(size_t size);
extern void *__libc_calloc(size_t count, size_t size);
extern void *__libc_realloc(void *old, size_t size);
extern void *__libc_memalign(size_t align, size_t size);

void *malloc(size_t size) {
    allocations++;
    return __libc_malloc(size);
}

void *calloc(size_t count, size_t size) {
    allocations++;
    return __libc_calloc(count, size);
}

void *realloc(void *old, size_t size) {
    allocations++;
    return __libc_realloc(old, size);
}

void *aligned_alloc(size_t align, size_t size) {
    allocations++;
    return __libc_memalign(align, size);
}

int posix_memalign(void **out, size_t align, size_t size) {
    allocations++;
    *out = __libc_memalign(align, size);
    return *out ? 0 : 12;
}

/* Both names of a call: with and without its 64-bit offset spelled out. */
#define COUNTED_READ(name, offset) \
    extern ssize_t name(int file, void *out, size_t size, offset at); \
    ssize_t name(int file, void *out, size_t size, offset at) { \
        reads++; \
        read_bytes += size; \
        calls++; \
        return NEXT(name)(file, out, size, at); \
    }

#define COUNTED_WRITE(name, offset) \
    extern ssize_t name(int file, const void *bytes, size_t size, offset at); \
    ssize_t name(int file, const void *bytes, size_t size, offset at) { \
        calls++; \
        written += size; \
        return NEXT(name)(file, bytes, size, at); \
    }

COUNTED_READ(pread, off_t)
COUNTED_READ(pread64, off64_t)
COUNTED_WRITE(pwrite, off_t)
COUNTED_WRITE(pwrite64, off64_t)

__attribute__((destructor)) static void tell(void) {
    fprintf(stderr, "%lu %lu %lu %lu %lu\n", reads, read_bytes, calls, written, allocations);
}

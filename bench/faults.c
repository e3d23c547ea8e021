/* Preloaded by bench/faults.sh: the Nth call of one kind is refused, or moves one byte alone.

   FAULT_KIND is alloc, read, write, short-read, short-write, again-read or again-write; FAULT_AT is N, from 1.
   With FAULT_COUNTS, a file's name, the numbers of allocations, reads and writes of the run are written there as it ends. */
#define _GNU_SOURCE
#include <dlfcn.h>
#include <errno.h>
#include <fcntl.h>
#include <stdio.h>
#include <stdlib.h>
#include <string.h>
#include <sys/syscall.h>
#include <sys/types.h>
#include <unistd.h>

extern void *__libc_malloc(size_t size);
extern void *__libc_calloc(size_t count, size_t size);
extern void *__libc_realloc(void *old, size_t size);
extern void *__libc_memalign(size_t align, size_t size);

static unsigned long allocations, reads, writes, wanted;
static char kind[16];

__attribute__((constructor)) static void begin(void) {
    const char *name = getenv("FAULT_KIND"), *at = getenv("FAULT_AT");
    if (name && at) {
        strncpy(kind, name, sizeof kind - 1);
        wanted = strtoul(at, NULL, 10);
    }
    allocations = reads = writes = 0;
}

__attribute__((destructor)) static void end(void) {
    const char *file = getenv("FAULT_COUNTS");
    char text[96];
    if (!file)
        return;
    int length = snprintf(text, sizeof text, "%lu %lu %lu\n", allocations, reads, writes);
    int to = (int)syscall(SYS_openat, AT_FDCWD, file, O_WRONLY | O_CREAT | O_TRUNC, 0600);
    if (to >= 0 && syscall(SYS_write, to, text, (size_t)length) == length)
        syscall(SYS_close, to);
}

/* Whether this call, the given number of its sort, is the one that a fault of that name is wanted at. */
static int is_at(const char *name, unsigned long number) {
    return wanted && number == wanted && !strcmp(kind, name);
}

static int refuses(void) {
    if (!is_at("alloc", ++allocations))
        return 0;
    errno = ENOMEM;
    return 1;
}

void *malloc(size_t size) { return refuses() ? NULL : __libc_malloc(size); }

void *calloc(size_t count, size_t size) { return refuses() ? NULL : __libc_calloc(count, size); }

void *realloc(void *old, size_t size) { return refuses() ? NULL : __libc_realloc(old, size); }

void *memalign(size_t align, size_t size) { return refuses() ? NULL : __libc_memalign(align, size); }

void *aligned_alloc(size_t align, size_t size) { return refuses() ? NULL : __libc_memalign(align, size); }

int posix_memalign(void **to, size_t align, size_t size) {
    if (refuses())
        return ENOMEM;
    void *made = __libc_memalign(align, size);
    if (!made)
        return ENOMEM;
    *to = made;
    return 0;
}

ssize_t read(int from, void *to, size_t size) {
    unsigned long number = ++reads;
    if (is_at("read", number)) {
        errno = EIO;
        return -1;
    }
    if (is_at("again-read", number)) {
        errno = EINTR;
        return -1;
    }
    return syscall(SYS_read, from, to, is_at("short-read", number) && size > 1 ? 1 : size);
}

ssize_t write(int to, const void *from, size_t size) {
    unsigned long number = ++writes;
    if (is_at("write", number)) {
        errno = EIO;
        return -1;
    }
    if (is_at("again-write", number)) {
        errno = EINTR;
        return -1;
    }
    return syscall(SYS_write, to, from, is_at("short-write", number) && size > 1 ? 1 : size);
}
